"""What counts as a hang: a circle of threads none of which did anything for half a second."""

import os
import shutil
import signal
import struct
import sys
import time
from types import SimpleNamespace

import pytest
from c_programs import MARKS, end, raw_directory
from following import Live, reported
from known_traces import TOOLS, wait_until_all_wait

sys.path.insert(0, os.path.join(TOOLS, "record"))

RECORD_THREAD = 5
# Words of a thread's record, and where a chunk has the number of its words, before these (layout.h).
FIELDS = {"left_out": 9, "lost": 10, "others": 11}
USED = -16
ACQUIRE, RELEASE = 1, 2
CIRCLE = [(0, 1, 1, 0, 7, 8), (1, 2, 0, 0, 7, 8)]
LATER = [CIRCLE[0], (1, 2, 0, 0, 9, 8)]  # the same waits, after an event


def left_hanging():
    """The recording of two threads that hang, main and main.1; both are killed, and their recorder before them."""
    from recording import Recording  # as a module of the recorder

    live = Live("./locks", "deadlock").is_ready()
    wait_until_all_wait(live.program)
    live.process.kill()
    live.end()
    end(live.program)
    return Recording(os.path.realpath(raw_directory("r.json")))


def round_of(recording):
    from live import copy_events

    (copy,) = copy_events(recording).values()
    assert copy.began <= copy.ended <= time.monotonic(), "the copy's moments"
    return copy.round


def chunks_of(recording, kind):
    """Path, thread, offset of the words and the words of each chunk of this kind."""
    from convert import read_chunks

    for _, _, _, path in recording.extents():
        for magic, thread, _, offset, words in read_chunks(path):
            if magic == kind:
                yield path, thread, offset, words.tolist()


def write_words(path, offset, *words):
    with open(path, "r+b") as file:
        os.pwrite(file.fileno(), struct.pack("=%dQ" % len(words), *words), offset)


def count_one(recording, field):
    """One more of these in the record of thread 1."""
    from convert import CHUNK_TABLE

    for path, _, offset, words in chunks_of(recording, CHUNK_TABLE):
        at = 0
        while at < len(words):
            if words[at] & 0xFFFFFFFF == RECORD_THREAD and words[at + 1] == 1:
                write_words(path, offset + 8 * (at + FIELDS[field]), words[at + FIELDS[field]] + 1)
                return
            at += words[at] >> 32
    raise AssertionError("no record of the thread")


def go_round(recording):
    """Thread 1 gets what it waits for, releases it, and waits for it again."""
    from convert import CHUNK_EVENTS

    ((path, _, offset, words),) = [chunk for chunk in chunks_of(recording, CHUNK_EVENTS) if chunk[1] == 1]
    assert words[-1] & 31 == ACQUIRE, "it doesn't wait"
    write_words(path, offset + 8 * len(words), words[-1] - ACQUIRE + RELEASE, words[-1])
    write_words(path, offset + USED, len(words) + 2)


def test_round_tells_how_far_its_threads_are():
    """Whatever a thread does between two looks, also where it waits for the same lock at the same place afterwards."""
    recording = left_hanging()
    seen = [round_of(recording)]
    assert [found[0] for found in seen[0]] == [0, 1] and round_of(recording) == seen[0], str(seen)
    for field in FIELDS:
        count_one(recording, field)
        seen.append(round_of(recording))
        assert seen[-1] not in seen[:-1], "%s doesn't tell: %s" % (field, seen)
    go_round(recording)
    seen.append(round_of(recording))
    assert seen[-1] not in seen[:-1], "stored words don't tell: %s" % seen
    assert len({tuple(found[:4] for found in rounds) for rounds in seen}) == 1, "the waits differ: %s" % seen


def test_report_that_is_counted_alone():
    """Nothing is written of it: a look for cycles takes what they take to be found, and not what all edges take as JSON."""
    from live import OK, WAY_COUNT, WAY_JSON, Question, answered_reports, copy_events, named_processes

    recording = left_hanging()
    processes, _ = named_processes(recording, copy_events(recording), {}, False)
    (process,) = processes.values()
    for way, is_written in ((WAY_COUNT, False), (WAY_JSON, True)):
        question = Question("full", 4, 1000)
        report = next(answered_reports(process, [None], question, way, recording.work_file("report")))
        assert (report.code, report.listed, report.more) == (OK, 1, False), report.fault()
        assert bool(report.data) == is_written, report.data


def copied(rounds, began, took=0.0):
    return SimpleNamespace(round=rounds, began=began, ended=began + took)


@pytest.mark.parametrize(
    "copies, hangs",
    [
        ([copied(CIRCLE, 1.0)], False),
        ([copied(CIRCLE, 1.0), copied(CIRCLE, 1.1), copied(CIRCLE, 1.4)], False),
        ([copied(CIRCLE, 1.0), copied(CIRCLE, 1.1), copied(CIRCLE, 1.5)], True),
        ([copied(CIRCLE, 1.0, took=0.2), copied(CIRCLE, 1.5)], False),
        ([copied(CIRCLE, 1.0, took=0.2), copied(CIRCLE, 1.75)], True),
        ([copied(CIRCLE, 1.0), copied([], 1.2), copied(CIRCLE, 1.6)], False),
        ([copied(CIRCLE, 1.0), copied(LATER, 1.6)], False),
        ([copied([], 1.0), copied([], 2.0)], False),
    ],
)
def test_hang_lasts_half_a_second(copies, hangs):
    """However many looks there are: from the end of the one that saw the circle first to the beginning of the present one."""
    from live import Followed

    followed = Followed()
    answers = [followed.hangs_at(copy) for copy in copies]
    assert answers == [False] * (len(copies) - 1) + [hangs], str(answers)


@pytest.mark.parametrize(
    "later, running, hangs",
    [(CIRCLE, [7], True), (LATER, [7], False), ([], [7], False), (None, [], True)],
)
def test_program_that_still_runs_is_looked_at_twice(monkeypatch, later, running, hangs):
    """At the end: of one that has ended a single look is enough."""
    import live

    copies = [SimpleNamespace(round=CIRCLE), SimpleNamespace(round=later)]
    slept = []
    monkeypatch.setattr(live, "copy_events", lambda recording: {(7, 0): copies.pop(0)})
    monkeypatch.setattr(live.time, "sleep", slept.append)
    found = live.last_copy(None, running)
    assert bool(found[7, 0].round) == hangs, str(found)
    assert len(slept) == len(running) and all(seconds >= 0.5 for seconds in slept), "between the looks: %s" % slept


def follower_of(monkeypatch, answers):
    """One whose reports are these, by process; what it says."""
    import live

    names = SimpleNamespace(thread_name=str, places=SimpleNamespace(text=str), locks={})
    processes = {(pid, 0): SimpleNamespace(key=(pid, 0), command="p", names=names) for pid in answers}
    copies = {
        key: SimpleNamespace(round=CIRCLE, began=at, ended=at, hash=1, chunks=[1]) for at, key in enumerate(processes)
    }
    said = []

    def report_of(recording, process, *_):
        if isinstance(answers[process.key[0]], Exception):
            raise answers[process.key[0]]
        return answers[process.key[0]]

    monkeypatch.setattr(live, "copy_events", lambda recording: copies)
    monkeypatch.setattr(live, "named_processes", lambda *_: (processes, []))
    monkeypatch.setattr(live, "report_of", report_of)
    monkeypatch.setattr(live.Follower, "counted", lambda follower, process: None)
    follower = live.Follower(
        SimpleNamespace(directory="r.raw", remove_work=lambda: None), "r.json", 7, None, None, False, said.append
    )
    for key in processes:
        follower.followed[key] = live.Followed()
        follower.followed[key].round, follower.followed[key].since = CIRCLE, -1.0
    return follower, said


def test_hang_is_told_though_no_report_is_made(monkeypatch):
    """As where there isn't enough memory for one. Nor does it keep another process from being told of."""
    from convert import ConvertError
    from live import Report

    answers = {7: ConvertError("goodlock_live fails"), 8: Report(1, 0, False, b""), 9: Report(0, 1, False, b"{}\n")}
    follower, said = follower_of(monkeypatch, answers)
    follower.try_to_look(False)
    assert said[0] == "no report so far: goodlock_live fails", str(said)
    assert "no report so far: r.json.8: there wasn't enough memory" in said, str(said)
    assert "r.json.9.lines: 1 cycle so far; process 9 (p)" in said, str(said)
    assert [text.split(" waits")[0] for text in said if " hangs: " in text] == [
        "process %d (p) hangs: 0" % pid for pid in answers
    ]
    told = len(said)
    follower.try_to_look(False)
    assert len(said) == told, str(said[told:])


ENDED = "%s waits for a at live.c:%d, which %s holds, though it has ended"
FIRST = int(MARKS["live.c", "first"].split(":")[1])
HANGING = {
    "hangs": "main.1:holds waits for a at live.c:",
    "hangs 1": "main.3:holds waits for a at live.c:",
    "holder_ended 0": ENDED % ("main.2:one_way", FIRST, "main.1:keeps"),
    "holder_ended 1": ENDED % ("main.2:one_way", FIRST, "main.1:keeps"),
}


@pytest.mark.parametrize("command", HANGING)
def test_hang_is_told_once_though_others_come_to_wait(command):
    """A circle, which counts more than a wait for a thread that has ended, begins with the same thread, however many wait for those in
    it. Of those that wait for one that has ended the first one is told."""
    live = Live("./live", *command.split()).is_ready()
    live.wait_for_words(" hangs: ")
    assert " hangs: " + HANGING[command] in live.says(), live.says()
    live.process.stdin.write(b"\n")
    live.process.stdin.flush()
    wait_until_all_wait(live.program)
    time.sleep(2)
    assert live.says().count(" hangs: ") == 1, live.says()
    os.kill(live.program, signal.SIGKILL)
    live.end()
    assert " hung: " + HANGING[command] in live.said, live.said


CIRCLES = [
    "main.1:holds waits for a at {0}, which main.2:holds holds; main.2:holds waits for b at {0}, which main.1:holds holds",
    "main.3:holds_another waits for gate at {1}, which main.4:holds_another holds; "
    "main.4:holds_another waits for robust at {1}, which main.3:holds_another holds",
]


@pytest.mark.parametrize("later", ["", "1"], ids=["at_once", "later"])
def test_each_circle_is_told(later):
    """The first one stays, and others are told behind it."""
    first, second = (text.format(place("second_of_two"), place("second_of_two_others")) for text in CIRCLES)
    live = Live("./live", "hangs_twice", *later.split()).is_ready()
    if later:
        live.wait_for_words(" hangs: " + first + "\n")
        live.process.stdin.write(b"\n")
        live.process.stdin.flush()
    live.wait_for_words(" hangs: " + first + "; " + second + "\n")
    os.kill(live.program, signal.SIGKILL)
    live.end()
    assert " hung: " + first + "; " + second + "\n" in live.said, live.said


def test_first_thread_that_ended():
    live = Live("./live", "holder_ended", "2").is_ready()
    live.wait_for_words(" hangs: " + ENDED % ("main.1:one_way", FIRST, "main"))
    live.end(signal.SIGTERM)


def place(mark):
    return MARKS["live.c", mark]


@pytest.mark.parametrize(
    "what, parent",
    [(["deletes_itself"], "main"), (["hangs"], "main"), (["first_thread_ends", "1"], "main.1:hangs_on")],
    ids=["deleted", "replaced", "deleted where the first thread has ended"],
)
def test_program_whose_file_is_gone(what, parent):
    """It is read by way of the process, as long as that runs: of another file in its place nothing would be right."""
    shutil.copy("live", "gone")
    live = Live("./gone", *what).is_ready()
    if what == ["hangs"]:
        shutil.copy("locks", "other")
        os.replace("other", "gone")
    live.wait_for_words(" hangs: ")
    first, second = (parent.split(":")[0] + ".%d:holds" % child for child in (1, 2))
    wait = "%s waits for a at %s, which %s holds" % (first, place("second_of_two"), second)
    assert " hangs: " + wait in live.says(), live.says()
    live.end(signal.SIGTERM)


@pytest.mark.parametrize("how", range(4), ids=["join", "timed", "clock", "c11"])
def test_thread_that_joins_one_which_wants_its_lock(how):
    """By each call that waits for ever. It is told in the words of other waits, with the place of the join."""
    live = Live("./live", "joins", "%d" % how).is_ready()
    live.wait_for_words(" hangs: ")
    waits = [
        "main.1:joins_holding waits for the end of main.1.1:takes_a at " + place("joins_%d" % how),
        "main.1.1:takes_a waits for a at %s, which main.1:joins_holding holds" % place("takes_a"),
    ]
    assert live.says().endswith(" hangs: " + "; ".join(waits) + "\n"), live.says()
    os.kill(live.program, signal.SIGKILL)
    live.end()
    assert " hung: " + "; ".join(waits) in live.said, live.said


@pytest.mark.parametrize("how, lock, mark", [("0", "a", "inherits"), ("1", "shared_lock", "inherits_shared")])
def test_lock_that_a_thread_of_the_parent_held_at_the_fork(how, lock, mark):
    live = Live("./live", "inherits", how).is_ready()
    live.wait_for_words(" hangs: ")
    wait = "main waits for %s at %s, which a thread of its parent held at the fork\n" % (lock, place(mark))
    assert live.says().endswith("process %d (./live inherits %s) hangs: %s" % (live.program, how, wait)), live.says()
    os.kill(live.program, signal.SIGKILL)
    live.end(status=0)
    assert live.said.endswith(" hung: " + wait), live.said


@pytest.mark.parametrize("how", ["2", "3", "4"], ids=["made_anew", "of_the_forking_thread", "of_both"])
def test_locks_of_the_parent_that_a_child_gets(how):
    """Each holds its lock for a while without an event, and the other one waits."""
    done = reported("./live", "inherits", how)
    assert done.status == 0 and done.said.count("; settled") == 2, done.said
    assert " hangs: " not in done.said and " hung: " not in done.said, done.said


def test_joins_in_a_row():
    live = Live("./live", "joins_in_a_row").is_ready()
    live.wait_for_words(" hangs: ")
    waits = [
        "main waits for the end of main.2:joins_another at " + place("joins_outer"),
        "main.2:joins_another waits for the end of main.1:takes_a at " + place("joins_inner"),
        "main.1:takes_a waits for a at %s, which main holds" % place("takes_a"),
    ]
    assert " hangs: " in live.says() and sorted(live.says().split(" hangs: ")[1].rstrip().split("; ")) == sorted(waits)
    live.end(signal.SIGTERM)


@pytest.mark.parametrize("how", [4, 5], ids=["deadline", "cancelled"])
def test_join_that_ends(how):
    """At its deadline, or as its thread is cancelled, which holds the lock for a while in its cleanup handler."""
    done = reported("./live", "joins", "%d" % how)
    assert done.status == 0 and "; settled" in done.said, done.said
    assert " hangs: " not in done.said and " hung: " not in done.said, done.said


def test_end_while_a_thread_waits_for_one_that_has_ended():
    done = reported("./live", "holder_ended", "3")
    assert (
        done.status == 0 and "so far, as it ended while a thread waited for one that had ended before" in done.said
    ), done.said
    assert " hung: " + ENDED % ("main.2:one_way", FIRST, "main.1:keeps") in done.said, done.said


@pytest.mark.parametrize("how", ["0", "1"], ids=["lock", "condition"])
def test_lock_whose_owner_died(how):
    """A robust mutex is taken then: who has it, and who waits for that one, doesn't hang."""
    done = reported("./live", "owner_died", how)
    assert done.status == 0 and "; settled" in done.said, done.said
    assert " hangs: " not in done.said and " hung: " not in done.said, done.said
