"""Predicted cycles through what runs once: goodlock-confirm brings them about."""

import os
import subprocess
import sys

from c_programs import REFERENCE, Run
from known_traces import LIMIT, TOOLS

DEADLOCKED = 1


def deadlocks(program):
    run = Run(["./statics", program])
    assert run.status == 0, run.said
    with open("t.std", "rb") as lines:
        report = subprocess.run([sys.executable, REFERENCE, "--json"], stdin=lines, stdout=subprocess.PIPE).stdout
    with open("report.json", "wb") as file:
        file.write(report)
    patiently = ["--tries", "20", "--seconds", "%d" % LIMIT]
    command = [os.path.join(TOOLS, "goodlock-confirm"), *patiently, "report.json", "--", "./statics", program]
    done = subprocess.run(command, stdout=subprocess.PIPE, stderr=subprocess.PIPE)
    out = done.stdout.decode()
    assert done.returncode == DEADLOCKED, out + done.stderr.decode()
    return out


def test_static_variable():
    out = deadlocks("later")
    assert "visits holds a since" in out and "waits for guard variable for has_static::variable" in out, out
    assert "initialises holds guard variable for has_static::variable since" in out, out


def test_routine():
    out = deadlocks("routine")
    assert "comes_second holds a since" in out and "waits for control at" in out, out
    assert "runs_routine holds control since" in out, out
