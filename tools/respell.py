#!/usr/bin/env python3
"""Respells the names of this repository's own definitions and lemmas.

usage: python3 tools/respell.py     at the top of the repository, once

The names stand in respell.txt beside this script, old and new on a line. A name is replaced where it is a whole
word of antt: in specs/, proofs/ and must-fail/, and in the ghost parts of src/. Words of the program keep their
spelling.
"""

import pathlib
import re

HERE = pathlib.Path(__file__).resolve().parent
CRATES = HERE.parent / "crates"
TABLE = dict(line.split() for line in (HERE / "respell.txt").read_text().splitlines())
WORD = re.compile(r"[^\s(){}\[\];,.|«»∥\"]+")


def respelled(text):
    return WORD.sub(lambda m: TABLE.get(m.group(0), m.group(0)), text)


def main():
    for kind in ("*.antt", "*.rt", "*.edit"):
        for path in sorted(CRATES.rglob(kind)):
            if "out" in path.parts:
                continue
            old = path.read_text()
            new = respelled(old)
            if new != old:
                path.write_text(new)


main()
