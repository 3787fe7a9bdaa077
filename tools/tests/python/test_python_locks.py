"""Locks, conditions and semaphores: whole traces, and how many cycles they have."""

import pytest
from known_traces import Run, compare, edges_of, expand
from python_traces import LOCKS, MARKS, PAIR, PYTHON_RECORD, all_interpreters, expect, expect_cycles, record


def test_mutexes():
    run = expect(
        "mutexes",
        """
        main|acq(Lock@@a#1)|@mutex_lock
        main|acq(Lock@@b#1)|@mutex_with
        main|rel(Lock@@b#1)|@mutex_with
        main|rel(Lock@@a#1)|@mutex_unlock
        main|tryacq(Lock@@b#1)|@mutex_try
        main|rel(Lock@@b#1)|@mutex_unlock_2
        main|tryacq(Lock@@b#1)|@mutex_timed
        main|rel(Lock@@b#1)|@mutex_unlock_3
        main|acq(Lock@@b#1)|@mutex_lock_2
        main|rel(Lock@@b#1)|@mutex_unlock_4""",
    )
    assert "10 events" in run.said and "1 threads, 2 locks, 0 other calls" in run.said, run.said


def test_calls_that_fail_make_no_event():
    run = expect(
        "failing",
        """
        main|acq(Lock@@a#1)|@failing_lock
        main|rel(Lock@@a#1)|@failing_unlock""",
    )
    assert "2 other calls" in run.said, run.said


def test_opposite_orders():
    expect_cycles("opposite", 1)


def test_gate_lock():
    expect_cycles("gate", 0)


def test_joined_in_between():
    expect_cycles("joined_in_between", 0)


def test_tried_locks():
    expect_cycles("tries", 0)


def test_three_in_a_ring():
    expect_cycles("three_in_a_ring", 1)


def test_reentrant_locks():
    expect(
        "reentrant",
        """
        main|acq(RLock@@again#1)|@again_1
        main|acq(RLock@@again#1)|@again_2
        main|acq(Lock@@a#1)|@again_a
        main|rel(Lock@@a#1)|@again_a
        main|rel(RLock@@again#1)|@again_2
        main|rel(RLock@@again#1)|@again_1""",
    )


def test_class_of_reentrant_locks():
    """A class of the program's, whose constructor takes words: its locks are reentrant too."""
    expect(
        "class_of_locks",
        """
        main|acq(Named@@named#1)|@named_1
        main|acq(Named@@named#1)|@named_2
        main|rel(Named@@named#1)|@named_2
        main|rel(Named@@named#1)|@named_1""",
    )


def test_own_lock_twice_is_no_cycle():
    expect_cycles("own_lock_twice_is_no_cycle", 0)


def test_waits_for_conditions():
    expect(
        "waits",
        """
        main|acq(Condition@@waits_made#1)|@waits
        main|fork(main.1:waits.signals)|@waits_start
        main|rel(Condition@@waits_made#1)|@wait
        main|acq(Condition@@waits_made#1)|@wait
        main|rel(Condition@@waits_made#1)|@wait_timed
        main|acq(Condition@@waits_made#1)|@wait_timed
        main|rel(Condition@@waits_made#1)|@waits
        main|join(main.1:waits.signals)|?
        main.1:waits.signals|acq(Condition@@waits_made#1)|@signals
        main.1:waits.signals|rel(Condition@@waits_made#1)|@signals""",
    )


def test_wait_of_a_lock_held_twice():
    expect(
        "wait_of_a_lock_held_twice",
        """
        main|acq(RLock@@again#1)|@twice_1
        main|acq(RLock@@again#1)|@twice_2
        main|rel(RLock@@again#1)|@twice_wait
        main|rel(RLock@@again#1)|@twice_wait
        main|acq(RLock@@again#1)|@twice_wait
        main|acq(RLock@@again#1)|@twice_wait
        main|rel(RLock@@again#1)|@twice_2
        main|rel(RLock@@again#1)|@twice_1""",
    )


def test_wait_that_takes_its_lock_again():
    expect_cycles("wait_that_takes_again", 1)


def test_refused_wait_makes_no_event():
    expect(
        "refused_wait",
        """
        main|acq(Lock@@b#1)|@refused_b
        main|rel(Lock@@b#1)|@refused_b""",
    )


def test_locks_of_objects():
    expect(
        "locks_of_objects",
        """
        main|acq(Lock@@account#2)|@account_2
        main|acq(Lock@@account#1)|@account_0
        main|rel(Lock@@account#1)|@account_0
        main|rel(Lock@@account#2)|@account_2""".replace(
            "#2", "#3"
        ).replace(
            "#3", "#2"
        ),
    )


def test_locks_of_racing_threads():
    text = []
    names = ["main.%d:locks_of_racing_threads.walk" % (i + 1) for i in range(3)]
    text += ["main|fork(%s)|@walk_start" % name for name in names]
    text += ["main|join(%s)|@walk_join" % name for name in names]
    for number, name in enumerate(names, 1):
        for i in (1, 2, 3):
            text += ["%s|%s(Lock@@account#main.%d:%d)|@walk" % (name, word, number, i) for word in ("acq", "rel")]
    for _ in range(3):
        expect("locks_of_racing_threads", "\n".join(text))


def test_semaphore_of_value_one_is_a_lock():
    expect(
        "semaphore_as_lock",
        """
        main|acq(Semaphore@@semaphore#1)|@semaphore_with
        main|acq(BoundedSemaphore@@bounded#1)|@bounded_acquire
        main|rel(BoundedSemaphore@@bounded#1)|@bounded_release
        main|rel(Semaphore@@semaphore#1)|@semaphore_with
        main|tryacq(Semaphore@@semaphore#1)|@semaphore_try
        main|rel(Semaphore@@semaphore#1)|@semaphore_release""",
    )
    expect_cycles("semaphore_cycle", 1)


def test_other_semaphores_are_none():
    run = expect(
        "semaphore_as_signal",
        """
        main|fork(main.1:Semaphore.release)|@signal_start
        main|join(main.1:Semaphore.release)|@signal_join
        main|acq(Lock@@a#1)|@signal_a
        main|rel(Lock@@a#1)|@signal_a""",
    )
    assert "1 semaphores were made with another value than 1" in run.said, run.said
    assert "1 semaphores of value 1 were released by threads that didn't hold them" in run.said, run.said


def test_semaphore_with_a_constructor_of_its_own():
    """What the recorder doesn't know of works as without it."""
    run = record("semaphore_with_a_constructor_of_its_own")
    assert run.status == 0, run.said
    known = ["(Lock@%s#1)" % MARKS[name] for name in ("a", "b")]
    compare([line for line in run.lines() if any(lock in line for lock in known)], expand(PAIR, MARKS))


def test_locks_of_the_thread_module():
    """Those that the standard library makes there are its own."""
    expect(
        "raw_locks",
        """
        main|acq(Lock@@raw_made#1)|@raw
        main|acq(Lock@@b#1)|@raw_b
        main|rel(Lock@@raw_made#1)|@raw_end
        main|rel(Lock@@b#1)|@raw_b""",
    )


def test_locks_of_the_thread_module_by_fields_of_a_class():
    """What makes them is no function of Python's: the object isn't given to it, and it is pickled by its own name."""
    expect(
        "raw_locks_by_fields",
        """
        main|acq(Lock@@field_made#1)|@field_first
        main|acq(Lock@@field_made#2)|@field_second
        main|acq(Lock@@field_made_last#1)|@field_third
        main|rel(Lock@@field_made_last#1)|@field_third
        main|rel(Lock@@field_made#2)|@field_second
        main|rel(Lock@@field_made#1)|@field_first""",
    )


def test_fields_of_dataclasses():
    """The place of a lock is that of the object that it is a field of."""
    expect(
        "fields_of_dataclasses",
        """
        main|acq(Lock@@record#1)|@record_lock
        main|acq(RLock@@record#1)|@record_again
        main|rel(RLock@@record#1)|@record_again
        main|rel(Lock@@record#1)|@record_lock""",
    )


def test_locks_behave_like_the_real_ones():
    expect(
        "like_the_real_ones",
        """
        main|acq(Lock@@a#1)|@real_enter
        main|rel(Lock@@a#1)|@real_exit
        main|acq(RLock@@again#1)|@real_enter
        main|rel(RLock@@again#1)|@real_exit
        main|acq(Lock@@b#1)|@real_b
        main|rel(Lock@@b#1)|@real_b""",
    )


@pytest.mark.parametrize("interpreter", all_interpreters())
def test_limit_of_depth(interpreter):
    run = Run(PYTHON_RECORD, [LOCKS, "too_deep"], ["--python", interpreter])
    assert run.status == 0, run.said
    assert [edge[0] for edge in edges_of(run.lines())] == [
        "main.1:run_in_turn.run"
    ], "a lock that isn't held is an edge's"
    after = [line.rsplit("|", 1)[0] for line in run.lines() if line.startswith("main|") and "(Lock@" in line]
    assert after == ["main|%s(Lock@%s#1)" % (word, MARKS["b"]) for word in ("acq", "rel")]
