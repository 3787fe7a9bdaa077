"""However a program ends there is a trace."""

import random
import re

from known_traces import Run, compare, cycles_in, edges_of, expand, is_front_of_a_run, killed, others_of
from python_traces import INTERPRETER, LOCKS, MARKS, PAIR, PYTHON_RECORD, expect, record

DEADLOCK = """
    main|fork(main.1:deadlock.other)|@dead_start
    main|acq(Lock@@a#1)|@dead_a
    main|acq(Lock@@b#1)|@dead_ab
    main.1:deadlock.other|acq(Lock@@b#1)|@dead_b
    main.1:deadlock.other|acq(Lock@@a#1)|@dead_ba"""


def test_killed_in_a_deadlock():
    lines = killed(PYTHON_RECORD, [INTERPRETER, LOCKS, "deadlock"])
    compare(lines, expand(DEADLOCK, MARKS))
    assert cycles_in(lines) == 1, "no cycle"


def test_killed_at_any_moment():
    for _ in range(8):
        lines = killed(PYTHON_RECORD, [INTERPRETER, LOCKS, "busy"], random.random() / 5)
        assert len(lines) > 10, "%d lines" % len(lines)
        is_front_of_a_run(lines)


def test_acquire_that_an_exception_ends():
    run = expect(
        "interrupted",
        """
        main|acq(Lock@@a#1)|@interrupted_a
        main|acq(Lock@@b#1)|@interrupted_b
        main|acq(RLock@@again#1)|@interrupted_again
        main|rel(RLock@@again#1)|@interrupted_again
        main|rel(Lock@@b#1)|@interrupted_b""",
    )
    assert "1 other calls" in run.said, run.said


def test_acquire_that_a_locking_handler_ends():
    """What the handler did is no known part of what is done with the lock later."""
    expect(
        "interrupted_by_a_handler_that_locks",
        """
        main|acq(Lock@@b#1)|@handles_b
        main|rel(Lock@@b#1)|@handles_b
        main|acq(Lock@@a#1)|@handles_a
        main|acq(Lock@@b#1)|@handles_b
        main|rel(Lock@@b#1)|@handles_b
        main|rel(Lock@@a#1)|@handles_a
        other.1|acq(Lock@@a#1)|@holds_a
        other.1|rel(Lock@@a#1)|@holds_a""",
    )


def test_acquire_that_an_exception_ends_at_last():
    run = record("interrupted_at_last")
    assert run.status == 5, run.said
    lines = [line for line in run.lines() if line.startswith("main|acq")]
    compare(lines, expand("main|acq(Lock@@a#1)|@last_a", MARKS))


def test_lock_that_its_thread_holds():
    lines = killed(PYTHON_RECORD, [INTERPRETER, LOCKS, "waits_for_itself"])
    compare(
        lines,
        expand(
            """
        main|acq(Lock@@a#1)|@itself_1
        main|again(Lock@@a#1)|@itself_2""",
            MARKS,
        ),
    )


def test_locks_at_any_moment():
    """Handlers of signals and finalizers come between any two steps of the recorder, and all stays balanced."""
    run = record("storm")
    assert run.status == 0, run.said
    is_front_of_a_run(run.lines())
    depths = {}
    for line in run.lines():
        word, lock = re.fullmatch(r"main\|(\w+)\((.*)\)\|.*", line).groups()
        depths[lock] = depths.get(lock, 0) + (1 if word == "acq" else -1)
    assert len(depths) == 5 and set(depths.values()) == {0}, "held at the end: %s" % depths
    assert len(run.lines()) < 3000, "%d lines" % len(run.lines())


FINALIZER_IN_A_NOTE = """
import sys, threading
files, lock = sys.modules["goodlock_files"], threading.Lock()
def finalizer(data):
    del files.memoryview
    with lock:
        pass
    return memoryview(data)
files.memoryview = finalizer
threading.Semaphore(2)
"""


def test_finalizer_while_a_note_is_written():
    """Its events follow. It comes from the recorder's call of another function here, as it may from each one."""
    with open("program.py", "w") as file:
        file.write(FINALIZER_IN_A_NOTE)
    run = Run(PYTHON_RECORD, ["program.py"], ["--python", INTERPRETER])
    assert run.status == 0 and "1 semaphores were made" in run.said, run.said
    compare(run.lines(), ["main|%s(Lock@program.py:3#1)|program.py:6" % word for word in ("acq", "rel")])


INTERRUPTED_CHUNK = """
import sys, threading
files, lock = sys.modules["goodlock_files"], threading.Lock()
real = files.pack_into
def interrupted(*words):
    files.pack_into = real
    raise KeyboardInterrupt
files.pack_into = interrupted
try:
    with lock:
        pass
except KeyboardInterrupt:
    pass
with lock:
    pass
"""


def test_exception_while_room_is_made_for_events():
    """What comes later is recorded."""
    with open("program.py", "w") as file:
        file.write(INTERRUPTED_CHUNK)
    run = Run(PYTHON_RECORD, ["program.py"], ["--python", INTERPRETER])
    assert run.status == 0, run.said
    compare(run.lines(), ["main|%s(Lock@program.py:3#1)|program.py:14" % word for word in ("acq", "rel")])


HANDLER_THAT_WAITS = """
import queue, signal, sys, threading
signal.alarm(60)
sys.modules["goodlock_events"].BIRTHS_LIMIT = 0.2
files, asked, done = sys.modules["goodlock_files"], queue.SimpleQueue(), queue.SimpleQueue()
def works():
    asked.get()
    with threading.Lock():
        done.put(1)
def handler(data):
    del files.memoryview
    asked.put(1)
    done.get()
    return memoryview(data)
thread = threading.Thread(target=works)
thread.start()
files.memoryview = handler
with threading.Lock():
    pass
thread.join()
with threading.Lock():
    pass
"""


def test_handler_that_waits_for_another_thread():
    """It comes to a thread that writes what is new, which the other one has to do, too: that goes on after a while, and what is lost is
    told."""
    with open("program.py", "w") as file:
        file.write(HANDLER_THAT_WAITS)
    run = Run(PYTHON_RECORD, ["program.py"], ["--python", INTERPRETER])
    assert run.status == 0 and "events were lost: Resource deadlock avoided" in run.said, run.said
    lines = [line for line in run.lines() if line.startswith("main|acq") or line.startswith("main|rel")]
    compare(
        lines,
        ["main|%s(Lock@program.py:%d#1)|program.py:%d" % (word, n, n) for n in (18, 21) for word in ("acq", "rel")],
    )


def test_exceptions_of_handlers_at_any_moment():
    """They come where the recorder is, too, which leaves no lock held, and knows of none."""
    run = record("storm_of_exceptions")
    assert run.status == 0, run.said
    assert others_of(run.lines())[1] == {"main": []}, "held at the end"
    assert not [edge for edge in edges_of(run.lines()) if edge[2] == "Lock@%s#1" % MARKS["b"]], "something seemed held"


def test_calls_that_no_function_of_python_makes():
    """Such a call has no place."""
    run = expect(
        "called_at_exit",
        """
        main|tryacq(Lock@@a#1)|?
        main|acq(Semaphore@@exit_semaphore#1)|?
        main|rel(Semaphore@@exit_semaphore#1)|?
        main|rel(Lock@@a#1)|?""",
    )
    assert "Exception ignored" not in run.said, run.said


def test_finalizer_at_the_end_of_the_interpreter():
    run = expect(
        "finalizer_at_the_end",
        """
        main|acq(Lock@@kept_made#1)|@kept
        main|rel(Lock@@kept_made#1)|@kept""",
    )
    assert "Exception ignored" not in run.said, run.said


def test_exit_without_an_end():
    expect("leaves_at_once", PAIR, status=5)
