#!/usr/bin/env python3
r"""Compares what the program says of its command line with tests/commands/words.txt: versions, helps and refusals, to the letter.
Helps and versions that can't be written are tried too.

    words.py PROGRAM

The file has a block for each command line: `$ goodlock WORDS`, then what standard output and then standard error get,
and `status N`. A byte of a word may be written as `\xff`, so that a word needn't be text. No input is read by any of them. The last
line is `N passed, N failed`.
"""

import pathlib
import re
import subprocess
import sys

TEXT = pathlib.Path(__file__).resolve().parent / "words.txt"
BLOCK = re.compile(r"^\$ goodlock([^\n]*)\n(.*?)^status (\d+)\n", re.M | re.S)


def bytes_of(word):
    """The word's bytes."""
    return re.sub(rb"\\x([0-9a-f]{2})", lambda byte: bytes.fromhex(byte[1].decode()), word.encode())


def full_answers(program):
    """How many helps and versions for which there is no room are told of as they should be, and how many aren't."""
    passed = failed = 0
    for words in ("--help", "predict --help", "--version"):
        with open("/dev/full", "wb") as full:
            done = subprocess.run([program, *words.split()], stdout=full, stderr=subprocess.PIPE)
        if (done.stderr, done.returncode) == (b"goodlock: write failed\n", 4):
            passed += 1
        else:
            failed += 1
            print(f"goodlock {words}, without room: {done.returncode} and {done.stderr!r}")
    return passed, failed


def main():
    if len(sys.argv) != 2:
        print(__doc__, file=sys.stderr)
        return 2
    passed, failed = full_answers(sys.argv[1])
    for words, wanted, status in BLOCK.findall(TEXT.read_text(encoding="utf-8")):
        # An input that isn't a trace: a command line that is refused, or asks for help, never gets to it.
        command = [sys.argv[1].encode(), *map(bytes_of, words.split())]
        done = subprocess.run(command, input=b"no trace\n", capture_output=True)
        said = done.stdout + done.stderr
        if (said, done.returncode) == (wanted.encode(), int(status)):
            passed += 1
        else:
            failed += 1
            got = f"{done.returncode} and\n{said.decode(errors='backslashreplace')}"
            print(f"goodlock{words}: expected status {status} and\n{wanted}got {got}")
    print(f"{passed} passed, {failed} failed")
    return 1 if failed or passed == 0 else 0


if __name__ == "__main__":
    sys.exit(main())
