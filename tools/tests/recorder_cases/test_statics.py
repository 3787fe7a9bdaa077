"""Static variables that are initialised already: each visit takes the guard for a moment."""

import subprocess
import sys

from c_programs import REFERENCE, Run, expand
from known_traces import compare

GUARD = "guard variable for has_static::variable"


def known(text):
    return expand(text.replace("GUARD", GUARD), "statics.cc")


def test_visit_after_the_initialisation():
    """Had the second thread come first, each could have waited for the other one."""
    run = Run(["./statics", "later"])
    assert run.status == 0, run.said
    compare(
        run.lines(),
        known(
            """
            main|fork(main.1:initialises)|@first_fork
            main|fork(main.2:visits)|@second_fork
            main|join(main.1:initialises)|@first_join
            main|join(main.2:visits)|@second_join
            main.1:initialises|acq(GUARD)|@static
            main.1:initialises|acq(a)|@takes_a
            main.1:initialises|rel(a)|@takes_a_end
            main.1:initialises|rel(GUARD)|@static
            main.2:visits|acq(a)|@visit_lock
            main.2:visits|acq(GUARD)|@static
            main.2:visits|rel(GUARD)|@static
            main.2:visits|rel(a)|@visit_unlock"""
        ),
    )
    with open("t.std", "rb") as lines:
        report = subprocess.run([sys.executable, REFERENCE], stdin=lines, stdout=subprocess.PIPE).stdout
    assert report.endswith(b"cycles: 1\n"), report.decode()


def test_variable_that_is_visited_all_the_time():
    """After so many visits the compiler's own look at the guard is all that there is: 65,536, the initialisation before them."""
    run = Run(["./statics", "often"], ["--all"])
    assert run.status == 0, run.said
    acquires = [line for line in run.lines() if line.startswith(f"main|acq({GUARD})|")]
    assert len(acquires) == 1 + 65536, str(len(acquires))


def test_crowd_that_waits_for_the_initialisation():
    """It runs once, before anybody goes on."""
    for _ in range(5):
        run = Run(["./statics", "crowd"])
        assert run.status == 1, "status %d: %s" % (run.status, run.said)
