"""The recorder in a PID namespace that sees the processes of the one around it in /proc."""

import os
import subprocess

import pytest
from c_programs import RECORD, Run
from known_traces import LIMIT, read_line


def outside(*command):
    """Runs a command as the second process of a namespace of its own, without a /proc of its own."""
    script = '"$0" "$@"; status=$?; exit $status'  # so the shell stays the first one
    return subprocess.Popen(
        ["unshare", "-p", "-f", "sh", "-c", script, *command], stdout=subprocess.PIPE, stderr=subprocess.PIPE
    )


def test_process_that_outlives_its_parent():
    """It is waited for: all that it does is in its trace. It does it once the recorder has said so."""
    if outside("true").wait() != 0:
        pytest.skip("no PID namespace can be made here")
    whole = Run(["./crowd", "1000"], trace="whole.std").lines()
    os.mkfifo("go")
    running = outside(RECORD, "-o", "t.std", "sh", "-c", "{ read line <go; exec ./crowd 1000; } & exit 3")
    said = read_line(running.stderr).decode()
    assert "which runs on" in said, said
    with open("go", "w") as file:
        file.write("\n")
    said += running.communicate(timeout=LIMIT)[1].decode()
    assert running.returncode == 3, said
    (trace,) = [line.split()[1].rstrip(":") for line in said.splitlines() if " events (and " in line]
    with open(trace) as file:
        assert file.read().splitlines() == whole, said
