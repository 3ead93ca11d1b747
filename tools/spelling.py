#!/usr/bin/env python3
"""Brings the names of definitions and lemmas to snake case, run once behind the kit's port.py: each name of spelling.txt
becomes the one beside it, in proofs, definitions, clauses, comments and must-fail edits. Functions of src/ keep their names.

usage: python3 tools/spelling.py            at the top of the repository
"""

import glob
import os
import re

HERE = os.path.dirname(os.path.realpath(__file__))
NAME = re.compile(r"[A-Za-z0-9_'₀-₉α-ωΑ-Ωℕℓ]+(?:-[A-Za-z0-9_'₀-₉α-ωΑ-Ωℕℓ]+)*")
FILES = ["crates/*/specs/**/*.antt", "crates/*/proofs/**/*.antt", "crates/*/src/*.rt", "crates/*/must-fail/*.edit"]


def of_source(path, old, new):
    """A lemma with the name of a function gets another name, and the function keeps its own."""
    return old if new.endswith("_lem") and not path.endswith(".antt") else new


def main():
    with open(os.path.join(HERE, "spelling.txt"), encoding="utf-8") as f:
        names = dict(line.split() for line in f)
    for pattern in FILES:
        for path in sorted(glob.glob(pattern, recursive=True)):
            with open(path, encoding="utf-8") as f:
                old = f.read()
            new = NAME.sub(lambda m: of_source(path, m.group(0), names.get(m.group(0), m.group(0))), old)
            if new != old:
                with open(path, "w", encoding="utf-8") as f:
                    f.write(new)


if __name__ == "__main__":
    main()
