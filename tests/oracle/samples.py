#!/usr/bin/env python3
"""Compares the outputs that samples/README.md shows with the reference's, and with a program's.

    samples.py [PROGRAM [ARGUMENT..]]

Each output is that of `goodlock predict`, unless the text before it names other words, as `goodlock stats`, `--findings` or
`--len 5`. The program gets these words; further arguments in place of `predict`. `goodlock check` reads the sample's report
as JSON before the sample, of findings where `--findings` is named, and tests/checker/check.py answers too. The last line is `N passed, N failed`, with one for each answer
that was compared.
"""

import pathlib
import re
import subprocess
import sys

sys.dont_write_bytecode = True
sys.path.insert(0, str(pathlib.Path(__file__).resolve().parent.parent))

from checker import check  # noqa: E402
from oracle import compare  # noqa: E402

SAMPLES = pathlib.Path(__file__).resolve().parent.parent.parent / "samples"


def main():
    page = (SAMPLES / "README.md").read_text()
    parts = dict(re.findall(r"^## (\S+\.std)\n(.*?)(?=^## |\Z)", page, re.M | re.S))
    files = {path.name for path in SAMPLES.glob("*.std")}
    passed, failed = 0, len(files ^ set(parts))
    for name in sorted(files ^ set(parts)):
        print(f"{name}: a file without a part of the page, or a part without a file")
    for name in sorted(files & set(parts)):
        part = parts[name]
        text = (SAMPLES / name).read_bytes()
        statuses = [int(status) for status in re.findall(r"status(?:\s+is)?\s+(\d)", part, re.I)]
        blocks = re.findall(r"(.*?)```\n(.*?)```", part, re.S)
        if len(statuses) != len(blocks) or not blocks:
            failed += 1
            print(f"{name}: {len(blocks)} outputs with {len(statuses)} statuses")
            continue
        for (before, shown), status in zip(blocks, statuses):
            named = re.search(r"`goodlock (\w+)", before)
            command = [named[1]] if named else sys.argv[2:] or ["predict"]
            options = re.findall(
                r"(--(?:findings|json|stream)\b|--(?:len|mode|max|recorders|shards|ring|threads)\s\w+)", before
            )
            words = [*command, *(word for option in options for word in option.split())]
            read = text
            if command == ["check"]:
                words = command
                asked = ["predict", "--json", *(word for word in options if word == "--findings")]
                read = compare.by_reference(asked, text)[0] + text
                answers = [("checker", check.answer(read))]
            else:
                answers = [("reference", compare.by_reference(words, text))]
            if len(sys.argv) > 1:
                done = subprocess.run([sys.argv[1], *words], input=read, capture_output=True)
                answers.append(("program", (done.stdout, done.stderr, done.returncode)))
            for who, (output, errors, got) in answers:
                if (output + errors).decode() == shown and got == status:
                    passed += 1
                else:
                    failed += 1
                    print(f"{name}: the {who} has status {got} and\n{(output + errors).decode()}")
    print(f"{passed} passed, {failed} failed")
    return 1 if failed or passed == 0 else 0


if __name__ == "__main__":
    sys.exit(main())
