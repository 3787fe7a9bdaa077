"""Statuses, and what the recorder of the C library says of Java."""

import os
import subprocess

import pytest
from java_traces import JAVA_RECORD, MARKS, PAIR, program, record
from known_traces import NO_EVENTS, RECORD, Run, compare, expand, read_lines

pytestmark = pytest.mark.usefixtures("classes")


def test_no_events_is_an_error():
    run = record("nothing")
    assert run.status == NO_EVENTS and run.files() == [], "%d %s" % (run.status, run.files())
    run = record(None, command=["true"])
    assert run.status == NO_EVENTS and "no JVM was recorded" in run.said, run.said


def test_program_has_the_variables_of_who_asked():
    """Also those whose names a script may use for itself."""
    words = [JAVA_RECORD, "-o", "variables.std", "--", "sh", "-c", "echo $here $python"]
    asked = {**os.environ, "here": "one", "python": "two"}
    told = subprocess.run(words, stdout=subprocess.PIPE, stderr=subprocess.PIPE, env=asked)
    assert told.stdout == b"one two\n", told.stdout + told.stderr


def test_missing_program():
    run = record(None, command=["./no-such-program"])
    assert run.status == 127 and run.files() == [], "%d %s" % (run.status, run.files())


def test_the_other_recorder_says_what_it_misses():
    run = Run(RECORD, program("monitors"))
    assert run.status == 0, run.said
    assert "has a Java virtual machine: the monitors" in run.said and "tools/goodlock-java" in run.said, run.said


def test_recorded_by_both_recorders():
    """Each recorder has a trace of its own: one of the Java code, one of the JVM."""
    if os.path.exists("j.std"):
        os.unlink("j.std")
    run = Run(RECORD, [JAVA_RECORD, "-o", "j.std", "--", *program("monitors")])
    assert run.status == 0, run.said
    compare(read_lines("j.std"), expand(PAIR, MARKS))
    assert any(name.startswith("t.std") for name in run.files()), "%s: %s" % (run.files(), run.said)
