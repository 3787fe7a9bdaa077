"""The report at the end: it is that of a trace."""

import json

import pytest
from c_programs import MARKS, end, raw_directory
from following import (
    Live,
    cycles_in,
    left_behind,
    lines_of,
    read_report,
    report_later,
    reported,
    same_as_by_a_trace,
    same_when_left_behind,
)
from known_traces import NO_EVENTS, compare, wait_for


@pytest.mark.parametrize(
    "name, count",
    [("opposite", 1), ("philosophers", 1), ("readers", 2), ("conditions", 1), ("false_semaphore", 1)],
)
def test_known_cycles(name, count):
    """As many cycles as the program is made for, and the same bytes as from the trace of another run."""
    done = same_as_by_a_trace("./cycles", name)
    assert "; settled" in done.said, done.said
    assert len(read_report()["cycles"]) == count, str(read_report()["cycles"])
    assert done.files() in (["r.json"], ["r.json", "r.json.lines"]), str(done.files())


def test_as_text():
    """Two threads, two orders: the report is known to the byte."""
    done = reported("./live", "churn", path="r.txt")
    assert done.status == 0, done.said
    first, second = MARKS["live.c", "first"], MARKS["live.c", "second"]
    compare(
        done.lines(),
        [
            "cycle 1: 2 edges",
            "  main.1:one_way holds a since %s wants b at %s" % (first, second),
            "  main.2:other_way holds b since %s wants a at %s" % (first, second),
            "cycles: 1",
        ],
    )


# Programs of locks.c whose traces are the same in each run.
SAME_AGAIN = (
    "mutexes failing recursive robust owner_died made_again rwlocks spins c11 conditions cancel table two_makers racing keys "
    "signals stray handed_over beyond repeats"
).split()


@pytest.mark.parametrize("name", SAME_AGAIN)
def test_same_report_as_by_a_trace(name):
    same_as_by_a_trace("./locks", name)


@pytest.mark.parametrize("options", [[], ["--all"], ["--frames", "2"]], ids=["plain", "all", "frames"])
@pytest.mark.parametrize("seed", range(1, 9))
def test_same_report_as_by_a_trace_on_random_events(seed, options):
    same_as_by_a_trace("./random", str(seed), "3000", options=options)


@pytest.mark.parametrize("seed", range(4))
def test_report_and_trace_of_one_recording(seed):
    """Threads that race: what is left behind is read as a report and as a trace, which must say the same."""
    same_when_left_behind(left_behind("./live", "races", str(seed)))
    report = read_report()
    assert len(report["edges"]) > 20 and len(report["cycles"]) == 1, "%d edges" % len(report["edges"])


@pytest.mark.parametrize("path", ["r.json", "r.txt"])
def test_threads_that_come_and_go(path):
    """The cycle is that of the last two of 1,502 threads, more than goodlock reads at once."""
    done = reported("./live", "churn", "1500", path=path)
    assert done.status == 0 and "in one of 2 windows" in done.said, done.said
    assert done.said.endswith(": 1 cycle; settled, of 2 windows\n"), done.said
    if path == "r.json":
        assert cycles_in(read_report()) == [[("main.1501:one_way", "a", "b"), ("main.1502:other_way", "b", "a")]]
    else:
        compare(
            [line.split(" since")[0] for line in done.lines()],
            ["cycle 1: 2 edges", "  main.1501:one_way holds a", "  main.1502:other_way holds b", "cycles: 1"],
        )


def guarded_window(*guards):
    """What goodlock_live answers of a window with one cycle, whose first edge's thread holds these locks in these modes."""
    from live import OK, Report

    names, modes = [name for name, _ in guards], [mode for _, mode in guards]
    first = {"thread": "T1", "held": "a", "wanted": "b", "guards": names, "guard_modes": modes, "first": len(names)}
    second = {"thread": "T2", "held": "b", "wanted": "a", "guards": ["b"], "guard_modes": ["x"], "first": 0}
    edges = [{**edge, "held_at": "p1", "wanted_at": "p2"} for edge in (first, second)]
    data = json.dumps({"edges": edges, "cycles": [[0, 1]], "more": False}).encode()
    return Report(OK, 1, False, data, False)


@pytest.mark.parametrize(
    "other, count",
    [
        ([("own", "s"), ("a", "x")], 1),
        ([("own", "x"), ("a", "s")], 2),
        ([("a", "x")], 2),
        ([("a", "x"), ("it", "s")], 2),
    ],
)
def test_a_cycle_of_two_windows_is_listed_once(other, count):
    """Also where the locks that a thread holds have other numbers in the second window, and so stand in another order."""
    from live import Question, merged

    windows = [guarded_window(("a", "x"), ("own", "s")), guarded_window(*other)]
    report = merged(windows, Question("full", 4, 1, False), True)
    whole = json.loads(report.data)
    assert (len(whole["cycles"]), len(whole["edges"]), report.more) == (1, 2, count > 1), str(whole)
    assert len(json.loads(merged(windows, Question("full", 4, 10, False), True).data)["cycles"]) == count


@pytest.mark.parametrize("others, cycles", [(3, 1), (1500, 0)])
def test_nothing_is_said_of_cycles_across_windows(others, cycles):
    """Threads that no window has together: that no cycle is listed doesn't show that there is none."""
    live = Live("./live", "far_apart", str(others), options=["--every", "0.2"]).is_ready()
    before = len(lines_of())
    wait_for(lambda: len(lines_of()) >= before + 2, "two lines")  # the second one of all threads
    line = lines_of()[-1]
    live.end(status=0)
    assert ("in one of 2 windows" in live.said) == (others > 1000), live.said
    assert [len(read_report()[key]) for key in ("cycles", "edges")] == [cycles, 0 if others > 1000 else 5], live.said
    assert [report["trim"] for report in (read_report(), line)] == [None, None], live.said


@pytest.mark.parametrize(
    "program, options, cycles, more",
    [
        ("ring 5", "", 0, False),
        ("ring 5", "--len 5", 1, False),
        ("ring 16", "--len 15", 0, False),
        ("ring 16", "--len 16", 1, False),
        ("gates 1", "", 0, False),
        ("gates 1", "--mode guarded", 0, False),
        ("gates 1", "--mode basic", 190, False),
        ("gates 1", "--mode basic --max 189", 189, True),
        ("gates 1", "--mode basic --max 190", 190, False),
    ],
)
def test_what_is_asked_for(program, options, cycles, more):
    """A ring has one cycle, of as many edges as it has threads; of 20 locks in opposite orders below a gate any two make one, which
    counts where gates don't."""
    done = same_as_by_a_trace("./live", *program.split(), asked=options.split())
    report = read_report()
    assert (len(report["cycles"]), report["more"]) == (cycles, more), done.said
    assert "r.json: %d cycle%s%s; settled" % (cycles, "s" * (cycles != 1), " (more)" * more) in done.said, done.said


ASKED = ["--mode", "basic", "--len", "3", "--max", "7"]


def told(report):
    return report["mode"], report["len"], report["max"]


def test_lines_and_later_reports_are_what_is_asked_for():
    """Reports so far, and what is made of a recording that was left behind."""
    live = Live("./live", "waits", options=["--every", "0.1", *ASKED]).is_ready()
    live.wait_for_words("1 cycle so far")
    live.process.kill()
    live.end()
    assert [told(line) for line in lines_of()] == [("basic", 3, 7)] * len(lines_of()), str(lines_of())
    end(live.program)
    report_later(raw_directory("r.json"), "later.json", ASKED)
    assert told(read_report("later.json")) == ("basic", 3, 7), str(read_report("later.json"))


def test_window_of_a_program_that_was_killed():
    """Of 1,025 threads, main among them."""
    done = reported("./live", "killed", "1022")
    assert ": 1 cycle; so far, of 2 windows, as signal 9 ended the process\n" in done.said, done.said
    done = reported("./live", "killed", "1021")
    assert ": 1 cycle; so far, as signal 9 ended the process\n" in done.said, done.said


@pytest.mark.parametrize("most", [5, 190])
def test_windows_are_asked_for_the_same(most):
    done = reported("./live", "churn_and_gates", "1500", options=["--mode", "basic", "--len", "2", "--max", str(most)])
    report = read_report()
    assert "in one of 2 windows" in done.said and told(report) == ("basic", 2, most), done.said
    assert len(report["cycles"]) == most and report["more"] == (most < 190), done.said


def test_nothing_to_report():
    done = reported("./locks", "nothing")
    assert done.status == NO_EVENTS and done.files() == [] and "no events, no report" in done.said, done.said
