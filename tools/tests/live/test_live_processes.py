"""Each process has a report of its own."""

import os
import signal

from following import ORDERS, Live, cycles_in, lines_of, read_report
from known_traces import wait_for


def test_forked_processes():
    """The child's is told while it runs, too."""
    live = Live("./live", "forks").is_ready()
    path = "r.json.%d" % live.program
    wait_for(lambda: lines_of(path), "a line of the child")
    assert cycles_in(lines_of(path)[0]) == ORDERS, str(lines_of(path))
    os.kill(live.program, signal.SIGTERM)
    live.end(signal.SIGTERM)
    assert read_report()["cycles"] == [] and len(read_report()["edges"]) == 1, str(read_report())
    assert cycles_in(read_report(path)) == ORDERS, str(read_report(path))


def test_processes_by_exec_and_in_the_background():
    """The one in the background ends with standard input: after the recorder has said that it waits for it."""
    live = Live("sh", "-c", "./locks goes_to_background; ./live churn; exit 3")
    live.wait_for_words("waiting for process")
    live.end(status=3)
    files = [name for name in os.listdir(".") if name.startswith("r.json")]
    reports = [name for name in files if not name.endswith((".lines", ".said"))]
    assert len(reports) == 3 and "r.json" not in reports, str(files)
    counts = sorted(len(read_report(name)["cycles"]) for name in reports)
    assert counts == [0, 0, 1], str(counts)
