"""Monitors, and waiting for them: whole traces, and how many cycles they have."""

import pytest
from java_traces import PAIR, compile_source, expect, expect_cycles, line_of, record
from known_traces import cycles_in, example_of

pytestmark = pytest.mark.usefixtures("classes")


def test_monitors():
    run = expect("monitors", PAIR)
    assert "4 events" in run.said and "1 threads, 2 locks, 0 other calls" in run.said, run.said


def test_opposite_orders():
    expect_cycles("opposite", 1)


def test_gate_lock():
    expect_cycles("gate", 0)


def test_joined_in_between():
    expect_cycles("joinedInBetween", 0)


def test_three_in_a_ring():
    expect_cycles("threeInARing", 1)


def test_own_lock_twice_is_no_cycle():
    expect_cycles("ownLockTwice", 0)


def test_synchronized_methods():
    expect(
        "synchronizedMethods",
        """
        main|acq(Locks$Account@@add#1)|@add
        main|rel(Locks$Account@@add#1)|@add_end
        main|acq(Locks$Account@@add#1)|@fail
        main|rel(Locks$Account@@add#1)|@fail_end
        main|acq(Locks$Account.class)|@count
        main|rel(Locks$Account.class)|@count_early
        main|acq(Object@@b#1)|@count_b
        main|acq(Locks$Account.class)|@count
        main|rel(Locks$Account.class)|@count_end
        main|rel(Object@@b#1)|@count_b_end
        main|acq(Locks$Account.class)|@class_block
        main|rel(Locks$Account.class)|@class_block_end""",
    )


def test_synchronized_methods_of_two_objects():
    expect_cycles("bank", 1)


def test_example_of_the_documentation():
    """It ends well however slow its threads are, and has the cycle that the page shows."""
    text = example_of("RECORDING-JAVA.md", "import java.util.concurrent.Semaphore;", "javac ")
    wait = " try { Thread.sleep(300); } catch (InterruptedException never) { }"
    compile_source("Bank", text.replace("money -= sum;", "money -= sum;" + wait))
    run = record(None, command=["java", "-cp", "own", "Bank"])
    assert run.status == 0 and "12 events" in run.said, run.said
    assert cycles_in(run.lines()) == 1, run.lines()


def test_locks_of_objects():
    expect(
        "locksOfObjects",
        """
        main|acq(Object@@many_made#2)|@many_2
        main|acq(Object@@many_made#1)|@many_0
        main|rel(Object@@many_made#1)|@many_0_end
        main|rel(Object@@many_made#2)|@many_2_end
        main|acq(Locks$Account@@add#1)|@add
        main|rel(Locks$Account@@add#1)|@add_end
        main|acq(Locks$Account@@add#2)|@add
        main|rel(Locks$Account@@add#2)|@add_end""",
    )


def test_reentrant_locks():
    expect(
        "reentrant",
        """
        main|acq(Object@@a#1)|@again_1
        main|acq(Object@@a#1)|@again_2
        main|rel(Object@@a#1)|@again_2_end
        main|acq(ReentrantLock@@again#1)|@again_3
        main|acq(ReentrantLock@@again#1)|@again_4
        main|rel(ReentrantLock@@again#1)|@again_5
        main|rel(ReentrantLock@@again#1)|@again_6
        main|rel(Object@@a#1)|@again_1_end""",
    )


def test_exceptions_that_leave_a_block():
    expect(
        "exceptions",
        """
        main|acq(Object@@a#1)|@raises_a
        main|acq(Object@@b#1)|@raises_b
        main|rel(Object@@b#1)|@raises_b_end
        main|rel(Object@@a#1)|@raises_end
        main|acq(Object@@b#1)|@after_b
        main|rel(Object@@b#1)|@after_b_end""".replace(
            "@raises_b_end", "Locks.java:%d" % (line_of("raises_end") - 1)
        ),
    )


def test_waits_give_the_monitor_back():
    expect(
        "waits",
        """
        main|acq(Object@@a#1)|@waits
        main|fork(main.1:Locks.lambda)|@waits_start
        main|rel(Object@@a#1)|@wait
        main|acq(Object@@a#1)|@wait
        main|acq(Object@@a#1)|@waits_again
        main|rel(Object@@a#1)|@wait_timed
        main|rel(Object@@a#1)|@wait_timed
        main|acq(Object@@a#1)|@wait_timed
        main|acq(Object@@a#1)|@wait_timed
        main|rel(Object@@a#1)|@waits_again_end
        main|rel(Object@@a#1)|@wait_nanos
        main|acq(Object@@a#1)|@wait_nanos
        main|rel(Object@@a#1)|@waits_end
        main|join(main.1:Locks.lambda)|@waits_join
        main.1:Locks.lambda|acq(Object@@a#1)|@notify
        main.1:Locks.lambda|rel(Object@@a#1)|@notify_end""",
    )


def test_wait_that_takes_its_monitor_again():
    expect_cycles("waitThatTakesAgain", 1)


def test_refused_wait_makes_no_event():
    run = expect(
        "refusedWait",
        """
        main|acq(Object@@b#1)|@refused_b
        main|rel(Object@@b#1)|@refused_b_end""",
    )
    assert "1 other calls" in run.said, run.said


def test_conditions():
    expect(
        "conditions",
        """
        main|acq(ReentrantLock@@again#1)|@condition_lock
        main|rel(ReentrantLock@@again#1)|@await
        main|acq(ReentrantLock@@again#1)|@await
        main|rel(ReentrantLock@@again#1)|@await_nanos
        main|acq(ReentrantLock@@again#1)|@await_nanos
        main|rel(ReentrantLock@@again#1)|@await_until
        main|acq(ReentrantLock@@again#1)|@await_until
        main|rel(ReentrantLock@@again#1)|@condition_unlock""",
    )
