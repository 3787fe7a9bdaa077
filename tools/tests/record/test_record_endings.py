"""However a program ends there is its whole trace, and its status is the recorder's."""

import glob
import os
import signal
import subprocess

import pytest
from c_traces import PAIR, convert, expect, known, record
from known_traces import LIMIT, NO_EVENTS, RECORD, compare, cycles_in, killed, read_lines, start


def test_killed_in_a_deadlock():
    lines = killed(RECORD, ["./locks", "deadlock"])
    compare(
        lines,
        known(
            """
        main|fork(main.1:other_way)|@dead_create
        main|acq(a)|@dead_a
        main|acq(b)|@dead_ab
        main.1:other_way|acq(b)|@dead_b
        main.1:other_way|acq(a)|@dead_ba"""
        ),
    )


def test_a_killed_deadlock_is_predicted():
    lines = killed(RECORD, ["./locks", "deadlock"])
    assert cycles_in(lines) == 1, str(lines)


@pytest.mark.parametrize("number", [signal.SIGINT, signal.SIGTERM], ids=["interrupt", "terminate"])
def test_signals_are_handed_on(number):
    running, _ = start(RECORD, ["./locks", "waits_for_signal"])
    running.send_signal(number)
    _, said = running.communicate(timeout=LIMIT)
    assert running.returncode == 128 + number, "%d: %s" % (running.returncode, said.decode())
    compare(read_lines("t.std"), known(PAIR))


def test_signal_by_which_servers_are_told_to_end():
    """Of a window's size by its name: nothing, where nobody handles it."""
    waits = "trap './locks table; exit 9' WINCH; echo ready $$; while :; do sleep 0.1; done"
    running, _ = start(RECORD, ["sh", "-c", waits])
    running.send_signal(signal.SIGWINCH)
    try:
        _, said = running.communicate(timeout=20)
    except subprocess.TimeoutExpired:
        running.terminate()
        _, said = running.communicate(timeout=LIMIT)
    assert running.returncode == 9 and b": 2 events" in said, "%d: %s" % (running.returncode, said.decode())


def test_program_that_aborts():
    expect("aborts", PAIR, status=128 + signal.SIGABRT)


def test_program_that_leaves_at_once():
    expect("leaves_at_once", PAIR, status=5)


def test_program_that_clears_its_environment():
    expect("clears_environment", PAIR)


@pytest.mark.parametrize("options", [(), ("--live",)], ids=["trace", "live"])
@pytest.mark.parametrize("way", ["by_return", "at_once", "quickly"])
def test_program_that_may_only_end(way, options):
    """The recorder asks nothing of the system as it ends."""
    run = record("./sealed", way, options=options)
    if run.status == 77:
        pytest.skip("no program may forbid itself system calls here")
    assert run.status == 7, "status %d: %s" % (run.status, run.said)
    assert not options or "0 cycles; settled" in run.said, run.said


def test_no_events_is_an_error():
    run = record("./locks", "nothing")
    assert run.status == NO_EVENTS and run.files() == [], "%d %s" % (run.status, run.files())
    assert "no events, no trace" in run.said and "took no lock" in run.said, run.said


def test_static_program_is_an_error():
    run = record("./locks-static", "mutexes")
    assert run.status == NO_EVENTS and run.files() == [], "%d %s" % (run.status, run.files())
    assert "is the program statically linked, set-user-id, with file capabilities or of" in run.said, run.said


def test_program_that_is_missing():
    run = record("./no-such-program")
    assert run.status == 127 and run.files() == [], "%d %s" % (run.status, run.files())


def test_program_that_is_not_executable():
    with open("not-executable", "w") as file:
        file.write("text")
    run = record("./not-executable")
    assert run.status == 126 and run.files() == [], "%d %s" % (run.status, run.files())


@pytest.mark.parametrize("options", [(), ("--live",)], ids=["trace", "live"])
@pytest.mark.parametrize("way", ["rm -r t.std.raw.*", "rm t.std.raw.*/*"], ids=["with_its_folder", "files_alone"])
def test_program_that_removes_its_recording(way, options):
    """As one that cleans up the folder that it works in: nothing else is said to be why there are no events, and nothing to be kept."""
    run = record("sh", "-c", "./locks table; " + way, options=options)
    assert run.status == NO_EVENTS and run.files() == [], "%d %s" % (run.status, run.files())
    assert "was removed or moved away while the program ran (the program's own status was 0)" in run.said, run.said
    assert "is kept" not in run.said, run.said


def test_program_that_removes_a_part_of_its_recording():
    """What it did before is missing, which nobody could see in the trace of what it did afterwards."""
    run = record("sh", "-c", "./locks mutexes; rm t.std.raw.*/*; ./locks table")
    assert run.status == 0 and len(run.files()) == 1, "%d %s" % (run.status, run.files())
    assert "was removed or moved away while the program ran: what lay there is missing" in run.said, run.said
    compare(read_lines(run.files()[0]), known("main|acq(many+0x78)|@table\nmain|rel(many+0x78)|@table_end"))


def test_program_that_moves_its_recording():
    run = record("sh", "-c", "./locks table; mkdir away; mv t.std.raw.* away")
    assert run.status == NO_EVENTS and "was removed or moved away" in run.said, "%d %s" % (run.status, run.said)
    moved = glob.glob("away/t.std.raw.*")
    done = convert(*moved)
    assert done.returncode == 0 and not os.path.exists(moved[0]), done.stderr.decode()
    compare(read_lines(*glob.glob("t.std.*")), known("main|acq(many+0x78)|@table\nmain|rel(many+0x78)|@table_end"))
