#!/usr/bin/env python3
"""Brings the repository's own names of definitions and lemmas to the spelling of today's Rattle: words in snake case.

usage: python3 tools/respell.py        once, at the top, right after /opt/rattle/port/port.py

Names of specs/ and proofs/ with a capital inside a word (`queueFits`, `countOf-queueWords`) get underscores (`queue_fits`,
`count_of-queue_words`), wherever they stand: in .antt files, in clauses and comments of .rt files, and in the must-fail edits. Functions of src/, exported
names, strings, inputs and outputs have no such names and stay. A name in use already that would fall together with one of these is told apart first.
"""

import glob
import os
import re

TOKEN = re.compile(r"(?<![\w'.≢≡?!-])[a-z][\w'≢≡?!-]*", re.U)
AFTER_DOT = re.compile(r"(?<=\.)[a-z][\w'≢≡?!-]*", re.U)

# Names that another definition, now respelled, would fall together with: (crates, old name, new name).
APART = [
    (("dump_reader",), "no_names", "names-missing"),
    (("dump_reader", "waveform"), "no_value", "value-missing"),
    (("dump_reader",), "no_step", "step-missing"),
    (("dump_writer", "waveform"), "value_room", "value_line_room"),
    (("network",), "ring_of", "ring_holding"),
    (("run",), "hands_out", "hands_out-delivered"),
    (("session",), "line_before", "line_before-is"),
    (("sheet",), "last_line", "last_line_kept"),
    (("turns",), "turn_by", "turn_by-some"),
    (("waveform",), "tells_all", "tells_all-told"),
    (("waveform",), "one_more", "one_more-taken"),
    (("waveform",), "read_number", "read_all-length"),
]


def snake(name):
    name = re.sub(r"(?<![a-z0-9])getD(?![A-Za-z0-9])", "get_or", name)
    return re.sub(r"(?<=[a-z0-9])([A-Z])", lambda m: "_" + m.group(1).lower(), name)


def respelled(text):
    # Strings stay as they are.
    parts = re.split(r'("(?:[^"\\\n]|\\.)*")', text)
    for i in range(0, len(parts), 2):
        parts[i] = TOKEN.sub(lambda m: snake(m.group(0)), parts[i])
        parts[i] = AFTER_DOT.sub(lambda m: snake(m.group(0)), parts[i])
    return "".join(parts)


def apart(text, old, new):
    # A path's last part in a proof of the code, as `c.no_step.ensures`, is a function of src/ and no lemma.
    return re.sub(r"(?<![\w'.≢≡?!-])" + re.escape(old) + r"(?![\w'≢≡?!-])(?!\.(ensures|result|Statement|Tie|proofs|Goals|Given))", new, text)


def files():
    for kind in ("specs/*.antt", "proofs/*.antt", "proofs/**/*.antt", "src/*.rt", "must-fail/*.edit"):
        for path in glob.glob("crates/*/" + kind, recursive=True):
            yield path


def main():
    for path in sorted(set(files())):
        with open(path, encoding="utf-8") as f:
            text = f.read()
        new = text
        crate = path.split(os.sep)[1]
        for crates, old, other in APART:
            if crate in crates and path.endswith(".antt"):
                new = apart(new, old, other)
        new = respelled(new)
        if new != text:
            with open(path, "w", encoding="utf-8") as f:
                f.write(new)


main()
