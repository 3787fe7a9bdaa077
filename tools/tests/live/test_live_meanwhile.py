"""What is told while the program runs: of cycles, of hangs, every so often, and at a signal."""

import os
import resource
import signal
import subprocess
import sys
import time
from types import SimpleNamespace

import pytest
from c_programs import raw_directory
from following import ORDERS, Live, cycles_in, lines_of, read_report, reported
from known_traces import TOOLS, read_line, wait_for, wait_until_all_wait

sys.path.insert(0, os.path.join(TOOLS, "record"))


def test_cycle_is_told_while_it_runs():
    """Nobody asks: the line comes with the cycle, and once."""
    live = Live("./live", "comes_later").is_ready()
    time.sleep(2)
    assert lines_of() == [] and live.says() == "", "told before there was a cycle: %s" % live.says()
    live.process.stdin.write(b"\n")
    live.process.stdin.flush()
    live.wait_for_words("1 cycle so far")
    found = [[("main", "b", "a"), ("main.1:one_way", "a", "b")]]
    assert cycles_in(lines_of()[0]) == found, str(lines_of())
    assert not os.path.exists("r.json"), "the settled report is there"
    time.sleep(2)
    assert len(lines_of()) == 1, "%d lines" % len(lines_of())
    live.end(signal.SIGTERM, 128 + signal.SIGTERM)
    assert "so far, as signal 15 ended the process" in live.said and cycles_in(read_report()) == found, live.said


def test_cycle_is_told_once_though_the_program_goes_on():
    live = Live("./live", "goes_on").is_ready()
    live.wait_for_words("1 cycle so far")
    live.process.stdin.write(b"\n")
    live.process.stdin.flush()
    time.sleep(3)
    assert live.says().count("so far") == 1 and len(lines_of()) == 1, live.says()
    live.end(signal.SIGTERM)
    assert len(read_report()["edges"]) == 3 and cycles_in(read_report()) == ORDERS, str(read_report())


def test_more_cycles_than_are_listed():
    """That there are more than --max says is told once, as a new cycle is."""
    live = Live("./live", "comes_twice", options=["--max", "1"]).is_ready()
    for said in ("1 cycle so far", "1 cycle (more) so far"):
        live.process.stdin.write(b"\n")
        live.process.stdin.flush()
        live.wait_for_words(said)
    assert [report["more"] for report in lines_of()] == [False, True], str(lines_of())
    live.end(signal.SIGTERM)


def test_lines_that_cannot_be_written():
    """It is said once, and what is told on standard error is told all the same. A shell that becomes the program makes a folder of the
    file's name before."""
    live = Live("sh", "-c", "mkdir r.json.$$.1.lines && exec ./locks deadlock").is_ready()
    live.wait_for_words(" hangs: ")
    live.process.send_signal(signal.SIGUSR1)
    time.sleep(1)
    said = live.says()
    fault = "no line: r.json.%d.1.lines: File exists\n" % live.program
    assert said.count(fault) == 1 and said.count("1 cycle so far") == 1, said
    os.kill(live.program, signal.SIGKILL)
    live.end(status=128 + signal.SIGKILL)


def test_half_of_a_line_is_taken_back():
    """Where there is room for a part of it alone."""
    from live import Follower  # as a module of the recorder

    follower = Follower(SimpleNamespace(directory="r.raw"), "r.json", 1, None, None, False, None)
    follower.write_line("r.json.lines", b"first\n")
    limits = resource.getrlimit(resource.RLIMIT_FSIZE)
    resource.setrlimit(resource.RLIMIT_FSIZE, (1000, limits[1]))
    try:
        with pytest.raises(OSError):
            follower.write_line("r.json.lines", b"x" * 2000 + b"\n")
    finally:
        resource.setrlimit(resource.RLIMIT_FSIZE, limits)
    with open("r.json.lines") as file:
        assert file.read() == "first\n", "a part of the line stays"


def test_lines_that_somebody_moved_away():
    """The next line begins another file of that name."""
    live = Live("./live", "waits", options=["--every", "0.2"]).is_ready()
    wait_for(lambda: len(lines_of()) >= 2, "lines")
    os.rename("r.json.lines", "older.lines")
    wait_for(lambda: len(lines_of()) >= 2, "lines in another file")
    assert all(cycles_in(line) == ORDERS for line in lines_of()) and "no " not in live.says(), live.says()
    live.end(signal.SIGTERM)


def test_deadlock_is_told_while_it_hangs():
    live = Live("./locks", "deadlock").is_ready()
    live.wait_for_words(" hangs: ")
    said = live.says()
    for words in (
        "main waits for b at locks.c:",
        "which main.1:other_way holds",
        "main.1:other_way waits for a",
        "which main holds",
    ):
        assert words in said, "%r isn't in %s" % (words, said)
    assert cycles_in(lines_of()[-1]) == [[("main", "a", "b"), ("main.1:other_way", "b", "a")]], str(lines_of())
    time.sleep(1.5)
    assert live.says() == said, "told again: %s" % live.says()
    os.kill(live.program, signal.SIGKILL)
    live.end(status=128 + signal.SIGKILL)
    assert "so far, as signal 9" in live.said and " hung: " in live.said, live.said
    assert cycles_in(read_report()) == cycles_in(lines_of()[-1]), "the last report is another one"


def test_thread_that_waits_for_itself():
    live = Live("./locks", "again_plain").is_ready()
    wait_until_all_wait(live.program)
    os.kill(live.program, signal.SIGALRM)
    live.end(status=128 + signal.SIGALRM)
    assert "main waits for a at" in live.said and "which itself holds" in live.said, live.said


def test_lock_that_another_thread_gave_back():
    """Whoever took it first doesn't hold it any more: the program goes on, and nobody says that it hangs."""
    done = reported("./cycles", "false_handed_over")
    assert done.status == 0 and " hangs: " not in done.said, done.said


def test_line_every_so_often():
    """As many as were due, but the one that comes with the cycle; later ones where the machine is busy."""
    start = time.monotonic()
    live = Live("./live", "waits", options=["--every", "0.3"]).is_ready()
    before = len(lines_of())
    wait_for(lambda: len(lines_of()) >= before + 5, "five lines")
    lines, took = lines_of(), time.monotonic() - start
    assert len(lines) <= took / 0.3 + 1, "%d lines in %.1f s" % (len(lines), took)
    assert all(cycles_in(line) == ORDERS for line in lines[-3:]), str(lines[-3:])
    live.end(signal.SIGTERM)


def test_lines_where_the_first_thread_has_ended():
    """The process runs on, though /proc tells of that thread alone under its number: each line comes when it is due."""
    live = Live("./live", "first_thread_ends", options=["--every", "0.3"]).is_ready()
    live.wait_for_words("1 cycle so far")
    before = len(lines_of())
    wait_for(lambda: len(lines_of()) >= before + 3, "three lines")
    live.end(signal.SIGTERM, 128 + signal.SIGTERM)


def test_lines_of_a_thread_that_always_holds_a_lock():
    """They come nearly as often as those of a program that does nothing, and what it repeats takes no room."""
    quiet = Live("./live", "waits", options=["--every", "0.2"], path="quiet.json").is_ready()
    live = Live("./live", "two_buffers", options=["--every", "0.2"]).is_ready()
    before = len(lines_of("quiet.json"))
    wait_for(lambda: len(lines_of("quiet.json")) >= before + 24, "24 lines")
    quiet.end(signal.SIGTERM)
    assert len(lines_of()) >= 8, "%d lines" % len(lines_of())
    kept = raw_directory("r.json")
    size = sum(os.path.getsize(os.path.join(kept, name)) for name in os.listdir(kept))
    assert size < 512 * 1024, "%d bytes are kept" % size
    live.end(signal.SIGTERM)


def test_line_at_a_signal():
    """To the recorder: the program, which would end by it, goes on."""
    live = Live("./live", "waits").is_ready()
    live.wait_for_words("1 cycle so far")
    for count in (2, 3):
        live.process.send_signal(signal.SIGUSR1)
        wait_for(lambda: len(lines_of()) == count, "line %d" % count)
    assert live.process.poll() is None, "the program ended"
    assert all(cycles_in(line) == ORDERS for line in lines_of()), str(lines_of())
    live.end(signal.SIGTERM, 128 + signal.SIGTERM)


def test_program_that_takes_the_signal_itself():
    live = Live("./live", "own_signal")
    assert read_line(live.process.stdout) == b"taken 3\n", "its own signals"
    live.wait_for_words("1 cycle so far")
    live.process.send_signal(signal.SIGUSR1)
    wait_for(lambda: len(lines_of()) == 2, "a line")
    live.end(signal.SIGTERM)


def test_lines_are_reports():
    """What goodlock-view reads, and no more than the edges of cycles."""
    live = Live("./live", "waits").is_ready()
    live.wait_for_words("1 cycle so far")
    live.end(signal.SIGTERM)
    os.rename("r.json.lines", "line.json")
    command = [os.path.join(TOOLS, "goodlock-view"), "--text", "line.json"]
    shown = subprocess.run(command, stdout=subprocess.PIPE).stdout.decode()
    assert "finding 1: 1 cycle in 1 report" in shown, shown
    assert len(read_report("line.json")["edges"]) == 2 and len(read_report()["edges"]) == 3, "edges"
