#!/usr/bin/env python3
"""Runs tests by pytest, and ends as the parts of ./test do.

    by_pytest.py FOLDER [ARGUMENT..]

Arguments go to pytest: `-k WORD` runs the tests with this word in their names. pytest is taken from this Python, or from
the system's (Debian: python3-pytest). Skipped tests are named with the reason. The last line is `N passed, N failed`, with
`, N skipped` behind it where there are some; without pytest all tests of the folder are skipped.
"""

import pathlib
import re
import subprocess
import sys
import tempfile
import xml.etree.ElementTree


def python_with_pytest():
    for python in (sys.executable, "/usr/bin/python3"):
        try:
            found = subprocess.run([python, "-c", "import pytest"], stderr=subprocess.DEVNULL).returncode == 0
        except OSError:
            found = False
        if found:
            return python
    return None


def tests_of(folder):
    """How many test functions there are."""
    files = pathlib.Path(folder).rglob("test_*.py")
    return sum(len(re.findall(r"^def test_", file.read_text(encoding="utf-8"), re.M)) for file in files)


def counted(report):
    """How many passed, failed and were skipped; a line for each reason to skip."""
    cases = list(xml.etree.ElementTree.parse(report).getroot().iter("testcase"))
    failed = sum(case.find("failure") is not None or case.find("error") is not None for case in cases)
    skips = [(case, case.find("skipped")) for case in cases if case.find("skipped") is not None]
    for case, skipped in skips:
        print(f"SKIPPED {case.get('classname')}.{case.get('name')}: {skipped.get('message')}")
    return len(cases) - failed - len(skips), failed, len(skips)


def main():
    if len(sys.argv) < 2:
        print(__doc__, file=sys.stderr)
        return 2
    folder, *arguments = sys.argv[1:]
    python = python_with_pytest()
    if python is None:
        print(f"{folder}: pytest isn't installed (Debian: python3-pytest), so its tests are SKIPPED")
        print(f"0 passed, 0 failed, {tests_of(folder)} skipped")
        return 0
    with tempfile.TemporaryDirectory(prefix="goodlock-pytest-") as scratch:
        report = f"{scratch}/report.xml"
        command = [python, "-B", "-m", "pytest", "-q", f"--junit-xml={report}", f"--basetemp={scratch}/tests"]
        status = subprocess.run([*command, folder, *arguments]).returncode
        try:
            passed, failed, skipped = counted(report)
        except (OSError, xml.etree.ElementTree.ParseError):
            passed, failed, skipped = 0, 1, 0
    if status not in (0, 1):  # usage, no tests, or pytest itself
        failed = max(failed, 1)
    print(f"{passed} passed, {failed} failed" + (f", {skipped} skipped" if skipped else ""))
    return 1 if failed else 0


if __name__ == "__main__":
    sys.exit(main())
