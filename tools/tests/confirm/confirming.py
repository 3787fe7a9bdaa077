"""What the tests of goodlock-confirm share: predicting a cycle, and trying to bring it about."""

import json
import os
import re
import subprocess
import sys

from c_programs import RECORD, REFERENCE, TOOLS
from known_traces import LIMIT, processes_in

CONFIRM = os.path.join(TOOLS, "goodlock-confirm")
VIEW = os.path.join(TOOLS, "goodlock-view")
NOT_SEEN, DEADLOCKED, ERROR = 0, 1, 125
TEMPORARY = "temporary"  # the folder for temporary files, in that of the test
NOBODY = {"user": 65534, "group": 65534, "extra_groups": []}
PATIENTLY = ["--tries", "20", "--seconds", "%d" % LIMIT]  # for machines on which threads come late


def predict(name, folder):
    """The path of the report on a run of this program, whose lists have a cycle however its threads come along."""
    trace = folder / f"{name}.std"
    done = subprocess.run([RECORD, "-o", trace, "./cycles", name], cwd=folder, stderr=subprocess.PIPE, timeout=LIMIT)
    assert done.returncode == 0, done.stderr.decode()
    with open(trace, "rb") as lines:
        found = subprocess.run([sys.executable, REFERENCE, "--json"], stdin=lines, stdout=subprocess.PIPE).stdout
    assert json.loads(found)["cycles"], f"{name}: no cycle is predicted"
    report = folder / f"report-{name}.json"
    report.write_bytes(found)
    return str(report)


def run(arguments):
    done = subprocess.run([CONFIRM] + arguments, stdout=subprocess.PIPE, stderr=subprocess.PIPE, timeout=10 * LIMIT)
    return done.returncode, done.stdout.decode(), done.stderr.decode()


def deadlocks(predict, name, threads):
    status, out, said = run([*PATIENTLY, predict(name), "--", "./cycles", name])
    assert status == DEADLOCKED, "status %d: %s%s" % (status, out, said)
    assert re.match(r"deadlocked in try \d+\n", out), out
    steps = re.findall(r"^  (\S+) holds (\S+) since (\S+) and waits for (\S+) at (\S+)$", out, re.MULTILINE)
    assert len(steps) == threads, out
    for i, (_, held, _, _, _) in enumerate(steps):
        assert steps[i - 1][3] == held, "no cycle: " + out
    assert len({step[0] for step in steps}) == threads, "a thread stands there twice: " + out
    return steps, out


def false_alarm(predict, name):
    status, out, said = run([*PATIENTLY, "--tries", "2", predict(name), "--", "./cycles", name])
    assert status == NOT_SEEN and out == "not seen in 2 tries\n", "status %d: %s%s" % (status, out, said)


def told(process):
    """What the system says of a process, for whoever reads that it still runs."""
    try:
        with open("/proc/%d/stat" % process, encoding="utf-8", errors="replace") as status:
            return status.read()[:80]
    except OSError as error:
        return "%d: %s" % (process, error.strerror)


def check_that_nothing_is_left(folder):
    """No folder of a confirmation, and no process of the program that runs in this folder."""
    left = [name for name in os.listdir(folder / TEMPORARY) if name.startswith("goodlock-confirm.")]
    assert not left, str(left)
    running = processes_in(folder)
    assert not running, "these processes still run: %s" % [told(process) for process in running]
