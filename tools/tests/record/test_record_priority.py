"""Threads of real-time priority, which share a processor with others (priority.c)."""

import pytest
from c_traces import record

NO_PRIORITY = 77


@pytest.mark.parametrize("name", ["locks", "forks", "statics"])
def test_who_waits_lets_others_run(name):
    """Where the urgent thread waits for the other one, in the recorder, it sleeps: else that one would never run."""
    run = record("./priority", name)
    if run.status == NO_PRIORITY:
        pytest.skip("no thread may have real-time priority here")
    assert run.status == 0, "status %d: %s" % (run.status, run.said)
