"""Threads and their names; repeats, which are left out; and the places of events."""

import os
import re

import pytest
from known_traces import Run, compare, edges_of, expand
from python_traces import INTERPRETER, MARKS, PAIR, PYTHON_RECORD, expect, record


def test_threads_made_and_joined():
    children = ["main.1:threads.parent", "main.2:Worker", "main.3:threads.lambda", "main.4:max", "main.5"]
    text = []
    for child in children:
        text += ["main|fork(%s)|@threads_start" % child, "main|join(%s)|@threads_join" % child]
    text += [
        "main|acq(Lock@@a#1)|@late_a",
        "main|fork(main.6)|@late_start",
        "main|rel(Lock@@a#1)|@late_a_end",
        "main|join(main.6)|@late_join",
        "main.1:threads.parent|fork(main.1.1:Server.serve)|@parent_start",
        "main.1:threads.parent|join(main.1.1:Server.serve)|@parent_join",
        "main.6|acq(Lock@@a#1)|?",
    ]
    run = record("threads")
    assert run.status == 0, run.said
    # The last thread runs a method of the recorder's own lock.
    lines = [line.replace("main.6:lock.acquire", "main.6") for line in run.lines()]
    lines[-1] = re.sub(r"\|threading\.py:\d+$", "|?", lines[-1])
    compare(lines, expand("\n".join(text), MARKS))


def test_threads_that_the_end_waits_for():
    """Exit handlers come after all threads but daemons, joined or not."""
    text = """
        main|fork(main.1:SimpleQueue.put)|@daemon_start
        main|fork(main.2:pair)|@left_start
        main|fork(main.3:pair)|@left_start
        main|fork(main.4:pair)|@not_left_start
        main|join(main.4:pair)|@not_left_join
        main|join(main.2:pair)|?
        main|join(main.3:pair)|?"""
    of_threads = "".join(PAIR.replace("main|", "main.%d:pair|" % number) for number in (2, 3, 4))
    expect("threads_without_a_join", text + PAIR + of_threads)


def test_thread_whose_start_is_interrupted():
    """It begins all the same, and is recorded."""
    run = record("interrupted_start")
    assert run.status == 0, run.said
    text = "main|fork(main.1:pair)|@interrupted_start\nmain|join(main.1:pair)|@interrupted_join"
    lines = [line for line in run.lines() if "InterruptedStart" not in line]
    compare(lines, expand(text + PAIR.replace("main|", "main.1:pair|"), MARKS))


def test_routines_that_are_odd_objects():
    """As mocks, which have any attribute that is asked for: they have no name, and are run."""
    text = "".join("\nmain|fork(main.%d)|@odd_start\nmain|join(main.%d)|@odd_join" % (i, i) for i in (1, 2, 3))
    expect("odd_routines", text + PAIR.replace("main|", "main.1|"))


def test_lock_held_through_many_starts():
    """Each ends a segment, and what is kept of the lock stays as it is."""
    run = record("lock_held_through_many_starts")
    assert run.status == 0, run.said
    words = [line.split("|")[1].split("(")[0] for line in run.lines()]
    assert words == ["fork", "join", "acq"] + ["fork", "join"] * 1500 + ["rel"], "%d lines" % len(words)


def test_greenlets_that_stand_for_threads():
    """What they do is done by the thread that they run on, as what that does later."""
    run = expect("greenlets", "main|fork(main.1:pair)|@greenlet_start" + PAIR)
    assert "1 threads were greenlets, which aren't seen" in run.said, run.said


def test_thread_pools():
    run = record("pool")
    assert run.status == 0, run.said
    text = "\n".join(run.lines())
    worker = "main.1:_worker"
    places = {name: MARKS[name] for name in ("pool_end", "pool_submit", "pair_a", "pair_b", "a", "b")}
    for line in (
        "main|fork(%s)|%s" % (worker, places["pool_submit"]),
        "main|join(%s)|%s" % (worker, places["pool_end"]),
    ):
        assert line in text, "no line %s in\n%s" % (line, text)
    pair = [line for line in run.lines() if line.startswith(worker) and "Lock@locks.py" in line]
    compare(
        pair,
        expand(
            """
        main.1:_worker|acq(Lock@@a#1)|@pair_a
        main.1:_worker|acq(Lock@@b#1)|@pair_b
        main.1:_worker|rel(Lock@@b#1)|@pair_b
        main.1:_worker|rel(Lock@@a#1)|@pair_a""",
            MARKS,
        ),
    )


def test_pools_own_locks():
    """The lock of all pools has its own place, as nobody called for it. The semaphore of each one is none of the program's."""
    run = record("pool")
    (place,) = set(re.findall(r"\(Lock@(.*)#1\)", "\n".join(run.lines()))) - {MARKS["a"], MARKS["b"]}
    assert re.fullmatch(r"concurrent/futures/thread\.py:\d+", place), place
    assert "semaphores" not in run.said, run.said


def test_exceptions_that_leave_a_block():
    expect(
        "exceptions",
        """
        main|acq(Lock@@a#1)|@raises_a
        main|acq(Lock@@b#1)|@raises_b
        main|rel(Lock@@b#1)|@raises_b
        main|rel(Lock@@a#1)|@raises_a
        main|acq(Lock@@b#1)|@after_b
        main|rel(Lock@@b#1)|@after_b""",
    )


def test_queues():
    expect(
        "queues",
        """
        main|acq(Lock@@a#1)|@queue_a
        main|acq(Queue@@queue_made#1)|@queue_put
        main|rel(Queue@@queue_made#1)|@queue_put
        main|rel(Lock@@a#1)|@queue_a
        main|acq(Queue@@queue_made#1)|@queue_get
        main|rel(Queue@@queue_made#1)|@queue_get""",
    )


def test_lock_released_by_another_thread():
    run = record("stray")
    assert run.status == 0, run.said
    words = [line.split("|")[1].split("(")[0] for line in run.lines()]
    assert words == ["fork", "join", "rel", "acq"], str(run.lines())


def test_lock_taken_again_after_another_thread_released_it():
    run = record("stray_and_again")
    text = """
        main|acq(Lock@@a#1)|@handed_1
        main|fork(main.1:lock.release)|@handed_start
        main|join(main.1:lock.release)|@handed_join
        main|acq(Lock@@b#1)|@handed_b
        main|rel(Lock@@a#1)|@handed_2
        main|rel(Lock@@b#1)|@handed_b"""
    compare(run.lines()[:-1], expand(text, MARKS))
    assert "waits for itself" not in run.said, run.said


def test_names_that_are_long():
    """A name that goodlock couldn't read in a line is cut, between two characters."""
    name = "main.1:x" + "n\u00e4" * 331 + "n..."
    text = ""
    for thread in (name, "main.2:short!?"):
        text += "\nmain|fork(%s)|@long_start\nmain|join(%s)|@long_join" % (thread, thread)
    expect("long_names", text + PAIR.replace("main|", name + "|") + PAIR.replace("main|", "main.2:short!?|"))


PACKAGE = """import threading
lock = threading.Lock()
def take():
    with lock:
        pass
"""


@pytest.mark.parametrize("installed", ["lib/python3/dist-packages", "lib/python3.11/site-packages", "lib/python3.11"])
def test_files_of_installed_packages(installed):
    """They are named from the package on: a file of the program's own may have the same last name."""
    os.makedirs(installed + "/pool/inner")
    for name in ("base.py", "inner/__init__.py"):
        with open("%s/pool/%s" % (installed, name), "w") as file:
            file.write(PACKAGE)
    with open("main.py", "w") as file:
        file.write("import pool.base\nimport pool.inner\npool.base.take()\npool.inner.take()\n")
    environment = {**os.environ, "PYTHONPATH": installed}
    run = Run(PYTHON_RECORD, ["main.py"], ["--python", INTERPRETER], environment=environment)
    assert run.status == 0, run.said
    names = ["pool/base.py", "pool/inner/__init__.py"]
    events = [(word, name, name) for name in names for word in ("acq", "rel")]
    compare(run.lines(), ["main|%s(Lock@%s:2#1)|%s:4" % event for event in events])


@pytest.mark.parametrize("frames, places", [("1", "of?two.py:4"), ("2", "of?two.py:4<of?two.py:6")])
def test_names_of_files_with_line_ends(frames, places):
    """A line end is another mark there, so that a place stays one."""
    with open("of\ntwo.py", "w") as file:
        file.write("import threading\nlock = threading.Lock()\ndef take():\n    with lock:\n        pass\ntake()\n")
    run = Run(PYTHON_RECORD, ["of\ntwo.py"], ["--python", INTERPRETER, "--frames", frames])
    compare(run.lines(), ["main|%s(Lock@of?two.py:2#1)|%s" % (word, places) for word in ("acq", "rel")])


def test_repeats_are_left_out():
    run = expect(
        "repeats", PAIR + "\nmain|fork(main.1)|@repeats_start" + PAIR + "\nmain|join(main.1)|@repeats_join" + PAIR
    )
    assert "and %d of repeats" % (4 * (4 + 2)) in run.said, run.said
    assert len(record("repeats", "--all").lines()) == 4 * (5 + 1 + 3) + 2, "--all leaves something out"


@pytest.mark.parametrize("frames", ["1", "2"])
def test_repeats_of_code_that_is_made_anew(frames):
    """The places are the same."""
    run = record("repeats_of_code_that_is_made_anew", "--frames", frames)
    assert "4 events (and %d of repeats, left out)" % (4 * 999) in run.said, run.said
    assert len(run.lines()) == 4, "%d lines" % len(run.lines())


def test_what_is_left_out_adds_no_edge():
    whole_length = short_length = 0
    for seed in ("1", "2", "3"):
        short = record("random_events", arguments=[seed]).lines()
        whole = record("random_events", "--all", arguments=[seed]).lines()
        assert len(edges_of(whole)) > 100, "only %d edges" % len(edges_of(whole))
        assert edges_of(short) == edges_of(whole), "seed %s: the edges differ" % seed
        whole_length, short_length = whole_length + len(whole), short_length + len(short)
    assert short_length < 0.95 * whole_length, "%d of %d lines are left" % (short_length, whole_length)


def test_more_callers():
    run = record("frames", "--frames", "3")
    compare(
        run.lines(),
        expand(
            """
        main|acq(Lock@@a#1)|@pair_a<@frames_outer<@frames_call
        main|acq(Lock@@b#1)|@pair_b<@frames_outer<@frames_call
        main|rel(Lock@@b#1)|@pair_b<@frames_outer<@frames_call
        main|rel(Lock@@a#1)|@pair_a<@frames_outer<@frames_call""",
            MARKS,
        ),
    )


def test_more_locks_than_goodlock_reads():
    text = ["main|%s(Lock@@many#%d)|@many_acquire" % ("acq" if i < 65 else "beyond", i) for i in range(1, 67)]
    text += ["main|rel(Lock@@many#%d)|@many_release" % i for i in range(66, 0, -1)]
    run = expect("many_locks", "\n".join(text))
    assert "2 acquires by threads that held 64 locks" in run.said, run.said


def test_lock_taken_more_often_than_goodlock_reads():
    """What is beyond that counts as not taken: the lock is released as often as it was, and then the releases are strays, of which the
    first one is kept."""
    text = ["main|%s(RLock@@again#1)|@leaks_acquire" % word for word in ["acq"] * 3 + ["beyond"] * 2]
    text += ["main|rel(RLock@@again#1)|@leaks_release"] * 4
    run = expect("leaks", "\n".join(text))
    assert "2 acquires by threads that held 64 locks, or the lock 1000000 times" in run.said, run.said


def test_same_bytes_twice():
    for name in ("locks_of_racing_threads", "opposite", "pool"):
        assert record(name).lines() == record(name).lines(), "two runs of %s differ" % name
