"""How a process ended: a report is settled if it was by itself, and else it says what is known of it."""

import os
import signal

import pytest
from following import Live, reported
from known_traces import read_line

# In the order of live.c: those by which a process ends itself, and which of them only its parent sees.
BY_ITSELF = (
    "returns exits exits_at_once exits_by_c exits_quickly last_thread_ends executes executes_by_words executes_from_folder "
    "becomes_a_daemon"
).split()
BY_NUMBER = "exits_by_number"
BY_SIGNAL = ["is_killed", "aborts", "fails_to_execute", "lends_its_memory"]
WAYS = [*BY_ITSELF, BY_NUMBER, *BY_SIGNAL]
UNKNOWN = "so far, as it isn't known how the process ended"


def says_of_each(done):
    """What was said of each report: of the first process's, and of others'."""
    states = [line.split(": ")[1:] for line in done.said.splitlines() if " cycle; " in line or " cycles; " in line]
    first = [state for path, state in states if path == "r.json"]
    return first, [state for path, state in states if path != "r.json"]


@pytest.mark.parametrize("way", WAYS)
def test_process_that_its_parent_sees_end(way):
    """The parent says nothing of it. A daemon is a further process, which ends by itself."""
    first, others = says_of_each(reported("./live", "child_ends", "%d" % WAYS.index(way)))
    state = "1 cycle; settled" if way in BY_ITSELF else "1 cycle; " + UNKNOWN
    assert first == ["0 cycles; settled"] and others[:1] == [state], str((first, others))
    assert others[1:] == (["0 cycles; settled"] if way == "becomes_a_daemon" else []), str(others)


@pytest.mark.parametrize("way", WAYS)
def test_process_that_the_recorder_sees_end(way):
    done = reported("./live", "ends", "%d" % WAYS.index(way))
    first, _ = says_of_each(done)
    number = done.status - 128 if way in BY_SIGNAL else 0
    assert number in ((signal.SIGKILL, signal.SIGABRT) if way in BY_SIGNAL else (0,)), "status %d" % done.status
    expected = "1 cycle; " + ("so far, as signal %d ended the process" % number if number else "settled")
    assert first == [expected], done.said


def test_orphan_that_a_signal_ends():
    live = Live("./locks", "waits_in_background")
    orphan = int(read_line(live.process.stdout))
    live.wait_for_words("waiting for process")
    os.kill(orphan, signal.SIGKILL)
    live.end(status=0)
    first, others = says_of_each(live)
    assert (first, others) == (["0 cycles; settled"], ["0 cycles; so far, as signal 9 ended the process"]), live.said
