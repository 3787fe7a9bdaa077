"""What the tests of goodlock-python share: the programs of locks.py, recorded, and their known traces."""

import os
import shutil
import subprocess
import sys

from known_traces import TESTS, TOOLS, Run, compare, cycles_in, expand, marks_of

PYTHON_RECORD = os.path.join(TOOLS, "goodlock-python")
SOURCES = os.path.join(TESTS, "python")
LOCKS = os.path.join(SOURCES, "locks.py")
MARKS = marks_of(SOURCES, "#")
INTERPRETER = "/usr/bin/python3" if os.access("/usr/bin/python3", os.X_OK) else sys.executable
MUTEXES = 10
PAIR = """
    main|acq(Lock@@a#1)|@pair_a
    main|acq(Lock@@b#1)|@pair_b
    main|rel(Lock@@b#1)|@pair_b
    main|rel(Lock@@a#1)|@pair_a"""


def record(name, *options, arguments=(), environment=None):
    return Run(PYTHON_RECORD, [LOCKS, name, *arguments], ["--python", INTERPRETER, *options], environment=environment)


def expect(name, text, status=0):
    """The program of this name leaves exactly this trace."""
    run = record(name)
    assert run.status == status, "status %d: %s" % (run.status, run.said)
    compare(run.lines(), expand(text, MARKS))
    assert run.files() == ["t.std"], "further files: %s" % run.files()
    return run


def expect_cycles(name, number):
    run = record(name)
    assert run.status == 0, run.said
    found = cycles_in(run.lines())
    assert found == number, "%d cycles in\n%s" % (found, "\n".join(run.lines()))


def all_interpreters():
    """The one of the tests, and each further version that is here."""
    found = [INTERPRETER]
    for path in filter(None, map(shutil.which, ("python3.9", "python3.10", "python3.12", "python3.13"))):
        if subprocess.run([path, "-c", "0"], stderr=subprocess.DEVNULL).returncode == 0:
            found.append(path)
    return found
