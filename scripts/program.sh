# shellcheck shell=bash disable=SC2154
# What ./bench and ./wave share: a script that runs a sheet through a program of crates/ sources this file. It sees to the files, builds
# the program where no program is there that passed its check with the sources as they are now, and runs it. docs/DECISIONS.md: D64 to D66,
# D116, D117.
# The script sets before: name, the program's and the script's name; root, the folder of the repository; and lost, what is lost if the
# output is.

# Which program the functions below are about: the script's own, or another that it needs.
about() { # PROGRAM
    crate=$1
    program=$root/target/bin/$1
    stamp=$root/target/$1.checked
    log=$root/target/$1.log
}
about "$name"

fail() {
    echo "$name: $*" >&2
    exit 2
}
no_option() { # WORD
    fail "$1: no such option; ./$name --help tells what there is (a file of that name is ./$1)"
}

# ---- the files
check_files() { # FILE ..
    local file stdin=0
    for file in "$@"; do
        if [ "$file" = - ]; then
            stdin=$((stdin + 1))
            continue
        fi
        [ -e "$file" ] || fail "$file: no such file"
        [ -d "$file" ] && fail "$file: is a directory"
        [ -r "$file" ] || fail "$file: cannot be read"
    done
    [ "$stdin" -le 1 ] || fail "standard input (-) can be read only once"
    [ "$stdin" -eq 0 ] || [ -e /dev/fd/0 ] || fail "standard input is closed"
    [ -e /dev/fd/1 ] || fail "standard output is closed"
}

# ---- the program
# One number for all that the program is built from, and one for the program.
sources() {
    (
        export LC_ALL=C
        cd "$root" && find crates crates.txt -regex 'crates/[^/]*/\(out\|must-fail\)' -prune -o -type f -print0 | sort -z | xargs -0 sha256sum | sha256sum
    )
}
built() { sha256sum <"$program"; }

# The stamp has both numbers, and between them the kit, and is written when the check has passed. So it is wrong as soon as a source is
# changed, and where a check fails that has already written its program.
why_not() {
    if [ ! -x "$program" ]; then
        echo "the program $crate is not built"
    elif [ ! -f "$stamp" ]; then
        echo "nothing says that target/bin/$crate passed its check"
    elif [ "$(head -n 1 "$stamp")" != "$(sources)" ]; then
        echo "target/bin/$crate is older than its sources"
    elif [ "$(tail -n 1 "$stamp")" != "$(built)" ]; then
        echo "target/bin/$crate is not the program that passed its check"
    fi
}

# The crates that the program is made of, a line each, itself the last: what crates.txt says that it needs, in the order in which rt takes them.
crates_needed() {
    LC_ALL=C awk -v "program=$crate" '
        function reach(crate,    list, n, k) {
            if (crate in seen || !(crate in needs)) return
            seen[crate] = 1
            n = split(needs[crate], list, " ")
            for (k = 1; k <= n; k++) reach(list[k])
            print crate
        }
        { sub(/#.*/, ""); at = index($0, ":") }
        at { split(substr($0, 1, at - 1), word, " "); needs[word[1]] = substr($0, at + 1) }
        END { reach(program) }' "$root/crates.txt"
}
# How many of these crates are proved, as the log has it: rt says when it comes to a crate and when it is done with it, and nothing of one that it has
# proved before, so those that come before the last that it names are proved.
proved_by_now() { # CRATES
    LC_ALL=C awk '
        FILENAME == "-" { place[$1] = ++all; next }
        /^rt: chose --jobs [0-9]+ for / { now = $NF; at = place[now] - 1 }
        /^crate [a-z0-9_]*: modules / && $2 == now ":" { at = place[now] }
        at > most { most = at }
        END { print most + 0 }' - "$log" <<<"$1"
}
# Says how far the check is: where it has come further a line, one in a second at most, and on a terminal one line that changes.
tell_how_far() { # CRATES SECONDS
    local proved number
    proved=$(proved_by_now "$1")
    number=$(wc -l <<<"$1")
    if [ -t 2 ]; then
        printf '\r%s: %s of %s crates proved, %s s' "$name" "$proved" "$number" "$2" >&2
    elif [ "$proved" != "$told_proved" ] && [ "$2" != "$told_at" ]; then
        echo "$name: $proved of $number crates proved, $2 s" >&2
        told_proved=$proved told_at=$2
    fi
}
# The first thing that the prover does not accept, with the lines that belong to it, and the library that it is in. Where the prover says
# nothing of that kind, the end of what rt says, without what is proved and what it is proved with.
first_error() {
    LC_ALL=C awk '
        function cut(s) {
            if (length(s) <= 400) return s
            s = substr(s, 1, 400)
            sub(/[\300-\377][\200-\277]*$/, "", s)
            return s " .."
        }
        /^(fn|struct|enum|trait|impl|const) [^ ]*: proved/ || /^(statements|library|crate|axioms|logic|logic=proved|linked|checked) / || /^rt: (chose|[a-z0-9_]*: begins with|rt) / { next }
        { line[++n] = cut($0) }
        !from && /(^|: )error[:[]|^note: [^ ]*: it is not proved|^fn .*: (no proof|not proved)/ { from = n }
        END {
            to = n
            if (from) {
                to = from
                while (to < from + 5 && line[to + 1] ~ /^[ \t]/) to++
            } else {
                from = n > 20 ? n - 19 : 1
            }
            for (k = from; k <= to; k++) print line[k]
            while (k <= n && line[k] !~ /^rt: the library .* did not build/) k++
            if (k <= n) print line[k]
        }' "$log" >&2
}
# Ends the check, the prover and all, and then this script by the same signal, so that its caller sees which it was.
end_check() { # SIGNAL
    trap - HUP INT TERM
    local group=${!:-} tenth
    if [ -n "$group" ]; then
        kill -TERM -- "-$group" 2>/dev/null
        for tenth in {1..30}; do
            kill -0 -- "-$group" 2>/dev/null || break
            [ "$tenth" -lt 30 ] || kill -KILL -- "-$group" 2>/dev/null
            sleep 0.1
        done
    fi
    [ ! -t 2 ] || echo >&2
    echo "$name: signal $1 has ended the check, so nothing is run; the crates that were proved by then are kept" >&2
    kill -s "$1" "$$"
    exit 1
}
# rt run, on an empty sheet, its output to the log: it proves the crate and those below it, builds the program, out/NAME, and runs it; no other command
# of rt builds one. rt starts the prover in the background, where Ctrl-C does not reach it: so the check has a process group of its own, and a signal that
# ends this script ends that group; the prover ends with rt.
check() {
    local began=$SECONDS crates pause=0.1 told_proved=0 told_at=none
    crates=$(crates_needed)
    trap 'end_check HUP' HUP
    trap 'end_check INT' INT
    trap 'end_check TERM' TERM
    set -m
    (cd "$root/crates/$crate" && exec rt run) >"$log" 2>&1 </dev/null &
    set +m
    while kill -0 "$!" 2>/dev/null; do
        sleep "$pause"
        [ $((SECONDS - began)) -lt 2 ] || pause=1
        tell_how_far "$crates" $((SECONDS - began))
    done
    trap - HUP INT TERM
    [ ! -t 2 ] || echo >&2
    wait "$!"
}
build() { # WHY
    if ! command -v rt >/dev/null 2>&1; then
        fail "$1, and the command rt of the Rattle kit, which would build it, is not on the PATH." \
            "The answers to a sheet can still be had from the independent simulator, of which nothing is proved:" \
            "cd compare && cargo run -q --release --offline --bin sheet < FILE"
    fi
    echo "$name: $1; building it: rt run in crates/$crate (from nothing that takes some minutes)" >&2
    local began=$SECONDS from kit
    kit=$(rt version 2>/dev/null | head -n 1)
    from=$(sources) && mkdir -p "$root/target" && rm -f "$stamp" && : >"$log" || fail "cannot write to $root/target"
    if ! check; then
        first_error
        fail "the check failed, so nothing is run: rt run in crates/$crate, its output is in target/$crate.log"
    fi
    take_built "$from" "$kit"
    echo "$name: built in $((SECONDS - began)) s" >&2
}
# Takes the program that rt has built, out/NAME, where the sources are still those that it began with, and stamps it.
take_built() { # SOURCES KIT
    local made=$root/crates/$crate/out/$crate
    [ -x "$made" ] || fail "rt left no program at $made"
    [ "$1" = "$(sources)" ] || fail "the sources were changed while they were checked: run it again"
    mkdir -p "${program%/*}" && cp "$made" "$program.new" && mv -f "$program.new" "$program" || fail "cannot write $program"
    { echo "$1" && echo "kit $2" && built; } >"$stamp" || fail "cannot write $stamp"
}
build_if_needed() { # PROGRAM ..
    local needed why
    for needed in "$@"; do
        about "$needed"
        why=$(why_not)
        [ -z "$why" ] || build "$why"
    done
    about "$name"
}

# ---- the version
# The commit, if this folder is the top of a git checkout; what the environment says of git is about another.
commit() (
    unset GIT_DIR GIT_WORK_TREE GIT_INDEX_FILE
    export GIT_OPTIONAL_LOCKS=0
    command -v git >/dev/null 2>&1 || { echo "not known: the command git is not on the PATH" && exit; }
    cd "$root" && inside=$(git rev-parse --show-prefix 2>&1) || { echo "not known: git says '${inside%%$'\n'*}'" && exit; }
    [ -z "$inside" ] || { echo "not known: this folder is a part of another git checkout" && exit; }
    head=$(git rev-parse --verify HEAD 2>/dev/null) || { echo "not known: git has no commit here" && exit; }
    if [ -z "$(git status --porcelain --untracked-files=no 2>&1; git ls-files --others --exclude-standard -- crates 2>&1)" ]; then
        echo "$head"
    else
        echo "$head, with changes"
    fi
)
version() {
    local interface kit with why
    interface=$(sed -n 's/^#define BENCH_VERSION //p' "$root/include/bench.h" 2>/dev/null)
    command -v rt >/dev/null 2>&1 && kit=$(rt version 2>/dev/null) || kit="not known: the command rt of the Rattle kit is not on the PATH"
    why=$(why_not)
    with=$(sed -n 's/^kit //p' "$stamp" 2>/dev/null)
    echo "commit     $(commit)"
    echo "interface  ${interface:-not known}, BENCH_VERSION of include/bench.h"
    echo "kit        $kit"
    echo "program    ${why:-target/bin/$crate passed its check}${with:+; built with $with}"
}

# ---- the run
# The program has no exit status: what it says on standard error is that input or output was lost. That is caught by a pipe and not in
# a file, since a full disk is one of the things that it tells of.
run() {
    local told status
    { told=$("$program" 2>&1 >&3 3>&-); status=$?; } 3>&1
    if [ -n "$told" ]; then
        printf '%s\n' "$told" >&2
        [ "$status" -ne 0 ] || status=1
    elif [ "$status" -gt 128 ] && [ "$(kill -l "$status")" != PIPE ]; then
        echo "$name: signal $(kill -l "$status") ended the program: $lost may be lost" >&2
    fi
    return "$status"
}
# The files as one sheet. GNU sed's `$a\` ends a last line that has no end; the last file's stays as it is.
join() { # FILE ..
    while [ $# -gt 1 ]; do
        LC_ALL=C sed -e '$a\' -- "$1" || return
        shift
    done
    cat -- "$1"
}
run_sheet() { # FILE ..
    if [ $# -gt 1 ]; then
        join "$@" | run
    elif [ "$1" = - ]; then
        run
    else
        run <"$1"
    fi
}
