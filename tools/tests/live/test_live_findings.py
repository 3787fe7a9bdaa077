"""Reports of findings: at the end, so far, of what was left behind, and what is told while the program runs."""

import json
import os
import signal
import subprocess
import sys
import time

import pytest
from c_programs import MARKS
from following import (
    ORDERS,
    Live,
    cycles_in,
    left_behind,
    lines_of,
    predicted,
    read_report,
    reported,
    same_as_by_a_trace,
    same_when_left_behind,
)
from known_traces import TOOLS, compare, read_lines, wait_for

sys.path.insert(0, os.path.join(TOOLS, "record"))

FINDINGS = ["--findings"]


def place(mark):
    return MARKS["live.c", mark]


def predicted_lines(options=()):
    return predicted(options=[*FINDINGS, *options], form="").decode().splitlines()


def fault(writers, reader, readers):
    """The report of writers and readers that take the locks of seven pairs in opposite orders, shown by the first ones."""
    return [
        "finding 1: 2 edges",
        "  main.1:writes holds books since %s wants pages at %s" % (place("writes_first"), place("writes_second")),
        "    threads: %d, locks: 14" % writers,
        "  main.%d:reads holds pages since %s wants books at %s"
        % (reader, place("reads_first"), place("reads_second")),
        "    threads: %d, locks: 14" % readers,
        "findings: 1",
    ]


def test_one_fault_of_many_threads():
    """Of 1,008 cycles --live lists a thousand, which are one finding."""
    done = reported("./live", "one_fault", "12", options=FINDINGS, path="r.txt")
    assert done.status == 0 and done.said.endswith("r.txt: 1 finding; settled\n"), done.said
    compare(done.lines(), fault(12, 13, 12))
    done = reported("./live", "one_fault", "12", path="r.txt")
    assert done.lines()[-1] == "cycles: 1000 (more)" and "r.txt: 1000 cycles (more); settled\n" in done.said, done.said


def test_one_fault_as_json():
    """With all edges, in the bytes that a trace of another run gives."""
    done = same_as_by_a_trace("./live", "one_fault", "3", asked=FINDINGS)
    assert done.said.endswith("r.json: 1 finding; settled\n"), done.said
    report = read_report()
    assert (report["format"], len(report["edges"])) == (3, 6 * 7), str(report)
    assert cycles_in(report) == [[("main.1:writes", "books", "pages"), ("main.4:reads", "pages", "books")]], str(report)


@pytest.mark.parametrize("seed", range(1, 5))
def test_same_findings_as_by_a_trace_on_random_events(seed):
    command = ["./random", str(seed), "3000"]
    same_as_by_a_trace(*command, asked=FINDINGS)
    compare(reported(*command, options=FINDINGS, path="r.txt").lines(), predicted_lines())


@pytest.mark.parametrize(
    "program, options, count",
    [
        ("ring 5", "", 0),
        ("ring 5", "--len 5", 1),
        ("gates 1", "", 0),
        ("gates 1", "--mode basic", 1),
    ],
)
def test_what_is_asked_for(program, options, count):
    """Of 20 locks in opposite orders below a gate any two make a cycle where gates don't count, and all are made by the same lines."""
    done = same_as_by_a_trace("./live", *program.split(), asked=[*FINDINGS, *options.split()])
    assert len(read_report()["findings"]) == count, str(read_report()["findings"])
    assert "r.json: %d finding%s; settled" % (count, "s" * (count != 1)) in done.said, done.said


@pytest.mark.parametrize("others", [3, 1500])
def test_findings_in_a_crowd(others):
    """Two pairs of threads have the fault, which no window has together: it is one finding. All other threads are counted."""
    done = reported("./live", "twice_in_a_crowd", str(others), options=[*FINDINGS, "--every", "0.2"], path="r.txt")
    compare(done.lines(), fault(others + 2, 2, 2))
    in_windows = "the report has the findings of cycles whose threads are in one of 2 windows\n"
    assert (in_windows in done.said) == (others > 1000), done.said
    assert done.said.endswith("1 finding; settled%s\n" % (", of 2 windows" * (others > 1000))), done.said
    assert all(line["format"] == 3 for line in lines_of("r.txt")), str(lines_of("r.txt"))


def test_findings_in_a_crowd_as_json():
    """Of the edges the report has those of the cycle that shows the finding."""
    done = reported("./live", "twice_in_a_crowd", "1500", options=FINDINGS)
    report = read_report()
    assert cycles_in(report) == [[("main.1:writes", "books", "pages"), ("main.2:reads", "pages", "books")]], done.said
    assert sorted(report) == ["edges", "findings", "format", "len", "max", "mode", "more"], str(sorted(report))
    assert len(report["edges"]) == 2 and not report["more"], done.said


def window(*cycles):
    """What goodlock_live answers of a window with these cycles, each of which is a finding there: in each the threads' numbers, each with
    the place where it wants a lock; a place's first letter is that where it holds one."""
    from live import OK, Report

    edges, findings = [], []
    for cycle in cycles:
        findings.append(list(range(len(edges), len(edges) + len(cycle))))
        threads = [thread for thread, _ in cycle]
        for (thread, place), following in zip(cycle, threads[1:] + threads[:1]):
            edge = {"thread": "T%d" % thread, "held": "l%d" % thread, "wanted": "l%d" % following}
            edges.append({**edge, "held_at": place[0], "wanted_at": place, "guards": [], "guard_modes": []})
    data = json.dumps({"edges": edges, "findings": findings, "more": False}).encode()
    return Report(OK, len(findings), False, data, True)


# Of the windows below. The first one's cycle is at the places of the second one's first, which begins elsewhere.
OF_WINDOWS = """\
finding 1: 3 edges
  T1 holds l1 since p wants l2 at p1
    threads: 3, locks: 6
  T2 holds l2 since q wants l3 at q1
    threads: 4, locks: 8
  T3 holds l3 since r wants l1 at r1
    threads: 4, locks: 8
finding 2: 3 edges
  T7 holds l7 since p wants l8 at p1
    threads: 3, locks: 6
  T8 holds l8 since r wants l9 at r1
    threads: 4, locks: 8
  T9 holds l9 since q wants l7 at q1
    threads: 4, locks: 8
finding 3: 3 edges
  T10 holds l10 since p wants l11 at p2
    threads: 1, locks: 2
  T11 holds l11 since q wants l12 at q1
    threads: 4, locks: 8
  T12 holds l12 since r wants l10 at r1
    threads: 4, locks: 8
"""


@pytest.mark.parametrize("most, last", [(1, "findings: 1 (more)"), (2, "findings: 2 (more)"), (3, "findings: 3")])
def test_findings_of_windows(most, last):
    """Cycles at the same places in another order, or of which one place is another one, are other findings."""
    from live import Question, merged

    windows = [
        window([(1, "p1"), (2, "q1"), (3, "r1")]),
        window(
            [(4, "q1"), (5, "r1"), (6, "p1")],
            [(7, "p1"), (8, "r1"), (9, "q1")],
            [(10, "p2"), (11, "q1"), (12, "r1")],
        ),
    ]
    report = merged(windows, Question("full", 4, most, True), False)
    compare(report.data.decode().splitlines(), OF_WINDOWS.splitlines()[: 7 * most] + [last])
    assert (report.listed, report.more, report.word) == (most, most < 3, "finding"), report.count()


def test_findings_are_told_while_it_runs():
    """A cycle at the places of another one is no news, and one at other places is."""
    live = Live("./live", "comes_elsewhere", options=FINDINGS, path="r.txt").is_ready()
    live.wait_for_words("r.txt.lines: 1 finding so far; process")
    live.process.stdin.write(b"\n")
    live.process.stdin.flush()
    time.sleep(3)
    assert live.says().count("so far") == 1 and len(lines_of("r.txt")) == 1, live.says()
    live.process.stdin.write(b"\n")
    live.process.stdin.flush()
    live.wait_for_words("r.txt.lines: 2 findings so far; process")
    assert [len(line["findings"]) for line in lines_of("r.txt")] == [1, 2], str(lines_of("r.txt"))
    live.end(signal.SIGTERM, 128 + signal.SIGTERM)
    assert "r.txt: 2 findings; so far, as signal 15 ended the process\n" in live.said, live.said
    compare(read_lines("r.txt"), elsewhere())


def elsewhere():
    """Of comes_elsewhere, with all lines read: main.1 holds the gate, main.2 a, main.3 b, main.4 b elsewhere, and main b."""
    first, second = place("first"), place("second")
    return [
        "finding 1: 2 edges",
        "  main holds b since %s wants gate at %s" % (first, second),
        "    threads: 4, locks: 3",
        "  main.1:gated_way holds gate since %s wants b at %s" % (first, second),
        "    threads: 4, locks: 3",
        "finding 2: 2 edges",
        "  main.1:gated_way holds gate since %s wants b at %s" % (first, second),
        "    threads: 4, locks: 3",
        "  main.4:takes_elsewhere holds b since %s wants gate at %s"
        % (place("elsewhere_first"), place("elsewhere_second")),
        "    threads: 1, locks: 2",
        "findings: 2",
    ]


def test_more_findings_than_are_listed():
    live = Live("./live", "comes_elsewhere", options=[*FINDINGS, "--max", "1"]).is_ready()
    live.wait_for_words("1 finding so far")
    live.process.stdin.write(b"\n\n")
    live.process.stdin.flush()
    live.wait_for_words("1 finding (more) so far")
    assert [line["more"] for line in lines_of()] == [False, True], str(lines_of())
    live.end(signal.SIGTERM)
    assert read_report()["more"] and len(read_report()["findings"]) == 1, live.said


def test_findings_are_counted_alone():
    """Of two threads against two over seven pairs there are 28 cycles, which are one finding. Nothing is written where it is counted."""
    from live import OK, WAY_COUNT, WAY_JSON, Question, answered_reports, copy_events, named_processes
    from recording import Recording

    recording = Recording(os.path.realpath(left_behind("./live", "fault_stays", "2")))
    processes, _ = named_processes(recording, copy_events(recording), {}, False)
    (process,) = processes.values()
    for findings, listed in ((False, 28), (True, 1)):
        for way, is_written in ((WAY_COUNT, False), (WAY_JSON, True)):
            question = Question("full", 4, 1000, findings)
            report = next(answered_reports(process, [None], question, way, recording.work_file("report")))
            assert (report.code, report.listed, report.more) == (OK, listed, False), report.fault()
            assert bool(report.data) == is_written, report.data


def is_short(line):
    """Whether a line has the finding of two orders, and no edge but those of its cycle."""
    edges = [(edge["thread"], edge["held"], edge["wanted"]) for edge in line["edges"]]
    return (line["format"], line["findings"], [edges]) == (3, [[0, 1]], ORDERS)


def test_lines_of_findings():
    """Every so often, and at a signal. Before the finding's edges the report at the end has one that is in none."""
    live = Live("./live", "waits", options=[*FINDINGS, "--every", "0.3"]).is_ready()
    before = len(lines_of())
    wait_for(lambda: len(lines_of()) >= before + 4, "four lines")
    assert all(map(is_short, lines_of()[-3:])), str(lines_of())
    live.end(signal.SIGTERM)
    live = Live("./live", "waits", options=FINDINGS).is_ready()
    live.wait_for_words("1 finding so far")
    live.process.send_signal(signal.SIGUSR1)
    wait_for(lambda: len(lines_of()) == 2, "a line")
    assert all(map(is_short, lines_of())), str(lines_of())
    live.end(signal.SIGTERM)
    report = read_report()
    assert (report["findings"], len(report["edges"]), cycles_in(report)) == ([[1, 2]], 3, ORDERS), str(report)


def test_lines_of_findings_are_reports():
    """What goodlock-view reads."""
    live = Live("./live", "waits", options=FINDINGS).is_ready()
    live.wait_for_words("1 finding so far")
    live.end(signal.SIGTERM)
    os.rename("r.json.lines", "line.json")
    command = [os.path.join(TOOLS, "goodlock-view"), "--text", "line.json"]
    shown = subprocess.run(command, stdout=subprocess.PIPE).stdout.decode()
    assert "finding 1: 1 cycle in 1 report" in shown, shown


def test_line_without_findings():
    """One thread has an edge, which is in no cycle."""
    live = Live("./live", "comes_later", options=[*FINDINGS, "--every", "0.3"]).is_ready()
    wait_for(lambda: len(lines_of()) >= 2, "lines")
    assert all((line["edges"], line["findings"]) == ([], []) for line in lines_of()), str(lines_of())
    live.end(signal.SIGTERM)
    assert "r.json.lines: " not in live.said and "r.json: 0 findings; " in live.said, live.said


def test_hang_with_findings():
    live = Live("./locks", "deadlock", options=FINDINGS).is_ready()
    live.wait_for_words(" hangs: ")
    found = [[("main", "a", "b"), ("main.1:other_way", "b", "a")]]
    assert cycles_in(lines_of()[-1]) == found and lines_of()[-1]["format"] == 3, str(lines_of())
    os.kill(live.program, signal.SIGKILL)
    live.end(status=128 + signal.SIGKILL)
    assert "r.json: 1 finding; so far, as signal 9" in live.said and " hung: " in live.said, live.said


def test_findings_of_what_was_left_behind():
    """A recording of threads that race, which was followed without the option: read as findings, as JSON and as text, and as a trace."""
    (said,) = same_when_left_behind(left_behind("./live", "races", "1"), FINDINGS, ["r.txt"])
    assert "r.txt: 1 finding; so far" in said, said
    compare(read_lines("r.txt"), predicted_lines())
    assert cycles_in(read_report())[0][0][1:] in (("a", "b"), ("b", "a")), str(cycles_in(read_report()))
