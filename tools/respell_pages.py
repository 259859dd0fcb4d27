#!/usr/bin/env python3
"""Brings the names of definitions and lemmas in the pages to today's spelling.

usage: python3 tools/respell_pages.py COMMIT        at the top, after tools/respell.py: COMMIT has the older spelling

A name in `backticks` of README.md, docs/, examples/README.md or compare/README.md that stands nowhere in crates/ and stood in a file of crates/ at
COMMIT gets the name that stands in its place today. The pairs come from the lines of specs/ and proofs/ that have as many names then as now.
"""

import difflib
import glob
import re
import subprocess
import sys
from collections import Counter, defaultdict

NAME = re.compile(r"[A-Za-z][\w'′-]*")


def git(*words):
    r = subprocess.run(["git", *words], capture_output=True, text=True)
    return r.stdout if r.returncode == 0 else None


def pairs(old):
    found = defaultdict(Counter)
    now = defaultdict(str)
    for path in glob.glob("crates/*/specs/*.antt") + glob.glob("crates/*/proofs/**/*.antt", recursive=True):
        crate, file = path.split("/")[1], path.split("/")[-1]
        with open(path, encoding="utf-8") as f:
            now[crate, file] += f.read()
    for path in git("ls-tree", "-r", "--name-only", old, "crates").split("\n"):
        if not path.endswith(".antt"):
            continue
        crate, file = path.split("/")[1], path.split("/")[-1]
        new = now.get((crate, file))
        if new is None:
            continue
        a = [it for it in git("show", f"{old}:{path}").split("\n") if not it.startswith("use ")]
        b = [it for it in new.split("\n") if not it.startswith("use ")]
        bare = lambda line: re.sub(r"[\W_]", "", line).lower().replace("getd", "getor")
        for tag, i, j, k, m in difflib.SequenceMatcher(None, [bare(it) for it in a], [bare(it) for it in b], autojunk=False).get_opcodes():
            if tag == "equal":
                for x, y in zip(a[i:j], b[k:m]):
                    x, y = NAME.findall(x), NAME.findall(y)
                    if len(x) == len(y):
                        for u, v in zip(x, y):
                            found[u][v] += 1
    return {u: c.most_common(1)[0][0] for u, c in found.items()}


def main():
    renamed = pairs(sys.argv[1])
    text = ""
    for path in glob.glob("crates/*/src/*.rt") + glob.glob("crates/*/specs/*.antt") + glob.glob("crates/*/proofs/**/*.antt", recursive=True):
        with open(path, encoding="utf-8") as f:
            text += f.read()
    here = set(NAME.findall(text))
    for path in ["README.md", "examples/README.md", "compare/README.md"] + sorted(glob.glob("docs/*.md") + glob.glob("docs/landings/*.md")):
        if path == "docs/PORT.md":
            continue
        with open(path, encoding="utf-8") as f:
            page = f.read()
        turn = lambda m: re.sub(NAME, lambda n: n[0] if n[0] in here else renamed.get(n[0], n[0]), m[0])
        new = re.sub(r"`[^`\n]*`", turn, page)
        if new != page:
            with open(path, "w", encoding="utf-8") as f:
                f.write(new)


main()
