#!/usr/bin/env python3
"""Looks for clauses of contracts and ghost items that are too wide to be read aloud: no line of one may be over
100 bytes long (a sign such as an arrow has two or three of them). Imports by `ghost use` aren't read aloud, and don't
count.

    clauses.py

The definitions that clauses cite are read aloud too: no line in the specs folders of crates may be over 100 columns wide,
imports and comments aside.

The last line is `N passed, N failed`: a clause or ghost item of a file in crates/ is one that passed, or failed, and so is
each file of definitions.
"""

import pathlib
import re
import sys

TOP = pathlib.Path(__file__).resolve().parent.parent.parent
BYTES = COLUMNS = 100
CLAUSE = re.compile(r"\s*(requires\b|ensures\b|(pub\S* )?ghost (?!use\b))")


def clauses(text):
    """The lines of each clause and ghost item: from its word to the brace that closes it."""
    lines = iter(text.splitlines())
    for line in lines:
        if not CLAUSE.match(line):
            continue
        clause = [line]
        while "".join(clause).count("{") > "".join(clause).count("}"):
            clause.append(next(lines))
        yield clause


def wide_lines(text):
    """The lines of a file of definitions that are too wide."""
    lines = text.splitlines()
    return [line for line in lines if len(line) > COLUMNS and not line.lstrip().startswith(("use ", "--"))]


def main():
    passed = failed = 0
    for path in sorted(TOP.glob("crates/*/src/**/*.rt")):
        for clause in clauses(path.read_text()):
            is_narrow = all(len(line.encode()) <= BYTES for line in clause)
            passed, failed = passed + is_narrow, failed + (not is_narrow)
            if not is_narrow:
                print(f"{path.relative_to(TOP)}: over {BYTES} bytes: {clause[0].strip()}")
    for path in sorted(TOP.glob("crates/*/specs/**/*.antt")):
        wide = wide_lines(path.read_text())
        passed, failed = passed + (not wide), failed + bool(wide)
        for line in wide:
            print(f"{path.relative_to(TOP)}: over {COLUMNS} columns: {line.strip()}")
    print(f"{passed} passed, {failed} failed")
    return 1 if failed else 0


if __name__ == "__main__":
    sys.exit(main())
