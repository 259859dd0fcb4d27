# shellcheck shell=bash
# What tests/one-edit and tests/refusals share: the log of a must-fail edit, which says all that the prover refuses with this edit in place.
# A script sources this at the top of the repository, and sets room, a folder for temporary files, before it tries an edit.

kit=$(rt version 2>/dev/null || true)

# The crates that a crate stands on, each once, itself not counted.
crates_below() { # CRATE
    LC_ALL=C awk -v "crate=$1" '
        function reach(crate,    list, n, k) {
            n = split(needs[crate], list, " ")
            for (k = 1; k <= n; k++) if (list[k] in needs && !(list[k] in seen)) {
                seen[list[k]] = 1
                print list[k]
                reach(list[k])
            }
        }
        { sub(/#.*/, ""); at = index($0, ":") }
        at { split(substr($0, 1, at - 1), word, " "); needs[word[1]] = substr($0, at + 1) }
        END { seen[crate] = 1; reach(crate) }' crates.txt
}
# What the log of an edit hangs on, as one number: the kit, the texts of the crate and of those below it, and the edit.
sum_of_edit() { # CRATE LABEL
    local below folders=() each part
    below=$(crates_below "$1")
    for each in "$1" $below; do
        for part in src specs proofs; do
            [ ! -d "crates/$each/$part" ] || folders+=("crates/$each/$part")
        done
    done
    {
        echo "$kit"
        find "${folders[@]}" -type f -print0 | LC_ALL=C sort -z | xargs -0 sha256sum
        sha256sum crates.txt "crates/$1/must-fail/$2.edit"
    } | sha256sum
}
log_of_edit() { echo "target/must-fail/$1/$2/.log"; } # CRATE LABEL
# Whether there is a log of the edit as it stands.
has_log() { # CRATE LABEL
    local log
    log=$(log_of_edit "$1" "$2")
    [ -f "$log" ] && [ -f "${log%/.log}/.of" ] && [ "$(cat "${log%/.log}/.of")" = "$(sum_of_edit "$1" "$2")" ]
}

# Puts the new texts of an edit in the place of the old ones, in a copy of its crate, by the rules of `rt must-fail`.
apply_edit() { # EDIT FOLDER
    LC_ALL=C awk -v "folder=$2" '
        function stop(why) {
            print why
            failed = 1
            exit 1
        }
        function load(path,    line, got) {
            if (path in text) return
            text[path] = ""
            while ((got = (getline line < (folder "/" path))) > 0) text[path] = text[path] line "\n"
            if (got < 0) stop("there is no file " path)
            close(folder "/" path)
        }
        /^file: / { path = substr($0, 7); sub(/[ \t\r]+$/, "", path) }
        /^old: / { old = substr($0, 6) }
        /^new:/ {
            new = substr($0, 5)
            sub(/^ /, "", new)
            if (path == "" || old == "") stop("a line new: stands before any file: or old:")
            load(path)
            at = index(text[path], old)
            if (!at || index(substr(text[path], at + 1), old)) stop("not once in " path ": " old)
            text[path] = substr(text[path], 1, at - 1) new substr(text[path], at + length(old))
            old = ""
            pairs++
        }
        END {
            if (failed) exit 1
            if (!pairs) { print "it has no pair of old: and new:"; exit 1 }
            for (path in text) printf "%s", text[path] > (folder "/" path)
        }' "$1"
}
# A folder and what is in it at another place, by links where these can be made.
link_folder() { # FROM TO
    cp -al "$1" "$2" 2>/dev/null || { rm -rf "$2" && cp -R "$1" "$2"; }
}
at_limit='antt ran out of|outgrew the memory limit|stopped at the step limit'
# Checks the crate with the edit and no other, on a copy, over what earlier checks kept in out/ here; the copy of what was proved is by links, as `rt`
# makes it too: a check puts a new file in the place of such a one and does not write into it. Ends with 0 if the prover refuses the crate, also if it
# comes to a limit of its own, which `rt ci` takes for a refusal too: what it refuses besides is in the log.
try_edit() { # CRATE LABEL
    local crate=$1 label=$2 copy=$room/$1-$2 log of sum each part kept status=0
    log=$(log_of_edit "$crate" "$label")
    of=${log%/.log}/.of
    mkdir -p "${log%/.log}" && rm -f "$log" "$of"
    sum=$(sum_of_edit "$crate" "$label")
    mkdir -p "$copy/crates"
    cp crates.txt "$copy"
    [ ! -f HANDLES ] || cp HANDLES "$copy"
    for each in crates/*; do
        mkdir -p "$copy/$each/out"
        for part in src specs proofs; do
            [ ! -d "$each/$part" ] || cp -R "$each/$part" "$copy/$each"
        done
        kept=rlib
        [ "$each" != "crates/$crate" ] || kept=incremental
        [ ! -d "$each/out/$kept" ] || link_folder "$each/out/$kept" "$copy/$each/out/$kept"
    done
    if [ -d "$copy/crates/$crate/out/incremental" ]; then
        find "$copy/crates/$crate/out/incremental" -type f ! -name '*.oantt' -exec sh -c 'cp "$1" "$1.own" && mv -f "$1.own" "$1"' _ {} \;
    fi
    if ! apply_edit "crates/$crate/must-fail/$label.edit" "$copy/crates/$crate" >"$log"; then
        echo "$crate/$label: BAD EDIT: it cannot be applied: $(tail -n 1 "$log")"
        status=1
    else
        (cd "$copy/crates/$crate" && exec rt check --jobs 1) >"$log" 2>&1 </dev/null || status=$?
        if { [ "$status" -eq 1 ] && grep -q '^logic=not-proved' "$log"; } || { [ "$status" -eq 3 ] && grep -q -E "$at_limit" "$log"; }; then
            echo "$sum" >"$of"
            status=0
        elif [ "$status" -eq 0 ]; then
            echo "$crate/$label: NOT REFUSED: the crate is still proved with this edit"
            status=1
        else
            echo "$crate/$label: NO VERDICT: rt check ended with status $status: $(grep -m 1 'error' "$log" || tail -n 1 "$log")"
            status=1
        fi
    fi
    rm -rf "$copy"
    return "$status"
}

# The places at which the log has a refusal of their own, in the words of an edit's first line: functions (make, outs::moved), parts of their proofs
# (remove/loop-i-preserved) and laws (Cases.kept_cases). No refusal of its own is
# - what only follows from another ('was not admitted', 'was not checked', 'is rejected because', 'it calls .., which is not proved'), or is no verdict
#   but a limit of the prover;
# - what says that a proof names what is no longer there ('has no `..`', 'has no field', 'is not in scope'), nor, in a function with such a line, a goal
#   that is open there, whose answer may stand under another name; nor an error where the parts of a proof by hand are put together (`NAME-spec`).
#   A function or module with such a line is printed too, behind a `!`, and a file of specs/ that cannot be read behind a `?`.
own_places() { # CRATE LOG
    # A message may go on in lines that begin with blanks: they are read with its first line, behind a tab.
    LC_ALL=C awk '{ if (/^  /) it = it "\t" $0; else { if (NR > 1) print it; it = $0 } } END { print it }' "$2" |
        LC_ALL=C awk -v "crate=$1" -v "at_limit=$at_limit" '
        function tell(place) { if (!(place in told)) { told[place] = 1; print place } }
        /^(\.\/)?(proofs|specs)\/[^ ]*\.antt:[0-9]+:[0-9]+: error: / {
            path = $1
            sub(/^(\.\/)?(proofs|specs)\//, "", path)
            sub(/\.antt:.*/, "", path)
            whole = says = $0
            sub(/\t.*/, "", says)
            sub(/^[^ ]* error: /, "", says)
            name = ""
            if (match(says, /^`[^`]*`: /)) {
                name = substr(says, 2, RLENGTH - 4)
                says = substr(says, RLENGTH + 1)
            }
            owner = ""
            if (match(path, /\/(Answers|Invariants|Proof)$/)) {
                owner = substr(path, 1, RSTART - 1)
                gsub(/\//, "::", owner)
            }
            if (says ~ /was not admitted|(was|were) not checked|is rejected because/ || says ~ at_limit) next
            if (whole ~ /has no `|has no field|is not in scope|is no name/) {
                gsub(/\//, ".", path)
                tell($1 ~ /^(\.\/)?specs\// ? "?" path : "!" (owner == "" ? path : owner))
                misfit[owner] = 1
                next
            }
            if (owner != "") {
                if (name ~ /-spec$/) next
                tell(owner)
                if (name != "") tell(owner "/" name)
            } else if (name != "") {
                gsub(/\//, ".", path)
                tell(path "." name)
            }
            next
        }
        /^note: src\/[^ ]*: it is not proved that / {
            goal = $0
            open[++opened] = match(goal, /\(`[^`]*`\)/) ? substr(goal, RSTART + 2, RLENGTH - 4) : ""
            next
        }
        /^fn [^ ]*: / {
            owner = substr($2, 1, length($2) - 1)
            if (index(owner, crate "::") == 1) owner = substr(owner, length(crate) + 3)
            if ($0 ~ /: not proved/ && !(owner in misfit)) for (k = 1; k <= opened; k++) {
                tell(owner)
                if (open[k] != "") tell(owner "/" open[k])
            }
            if ($0 ~ /: no proof: / && $0 !~ /: no proof: it calls .* not proved/) tell(owner)
            opened = 0
        }'
}
