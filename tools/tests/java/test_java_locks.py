"""Locks of java.util.concurrent.locks."""

import pytest
from java_traces import MARKS, all_of_java, expect, expect_cycles, record
from known_traces import compare, expand

pytestmark = pytest.mark.usefixtures("classes")


def test_locks_and_their_tries():
    expect(
        "reentrantLocks",
        """
        main|acq(ReentrantLock@@lock_made#1)|@lock
        main|rel(ReentrantLock@@lock_made#1)|@unlock
        main|acq(ReentrantLock@@lock_made#1)|@lock_interruptibly
        main|rel(ReentrantLock@@lock_made#1)|@unlock_2
        main|tryacq(ReentrantLock@@lock_made#1)|@try
        main|rel(ReentrantLock@@lock_made#1)|@unlock_3
        main|tryacq(ReentrantLock@@lock_made#1)|@timed
        main|rel(ReentrantLock@@lock_made#1)|@unlock_4""",
    )


def test_calls_that_fail_make_no_event():
    run = expect(
        "failing",
        """
        main|acq(ReentrantLock@@again#1)|@failing_lock
        main|fork(main.1:Locks.lambda)|@failing_start
        main|join(main.1:Locks.lambda)|@failing_join
        main|rel(ReentrantLock@@again#1)|@failing_unlock
        main.1:Locks.lambda|acq(Object@@b#1)|@failing_b
        main.1:Locks.lambda|rel(Object@@b#1)|@failing_b_end""",
    )
    assert "4 other calls" in run.said, run.said


def test_opposite_orders_of_locks():
    expect_cycles("opposite_locks", 1)


def test_tried_locks():
    expect_cycles("tries", 0)


def test_readers_and_writers():
    expect(
        "readersAndWriters",
        """
        main|racq(RW)|@read
        main|racq(RW)|@read_2
        main|rrel(RW)|@read_2_end
        main|rrel(RW)|@read_end
        main|acq(RW)|@write
        main|racq(RW)|@downgrade
        main|rel(RW)|@write_end
        main|rel(RW)|@downgrade_end
        main|tryracq(RW)|@try_read
        main|rrel(RW)|@try_read_end
        main|tryacq(RW)|@timed_write
        main|rel(RW)|@timed_write_end""".replace(
            "RW", "ReentrantReadWriteLock@@rw_made#1"
        ),
    )


def test_readers_dont_wait_for_readers():
    expect_cycles("readersDontWait", 0)
    expect_cycles("writersWait", 1)


def test_stamped_locks():
    expect(
        "stamped",
        """
        main|acq(S)|@stamped_write
        main|rel(S)|@stamped_write_end
        main|racq(S)|@stamped_read
        main|rrel(S)|@convert
        main|tryacq(S)|@convert
        main|rel(S)|@convert_end
        main|tryracq(S)|@stamped_timed
        main|rrel(S)|@stamped_timed_end
        main|racq(S)|@stamped_interruptibly
        main|rrel(S)|@stamped_try_unlock
        main|acq(S)|@view
        main|rel(S)|@view_end""".replace(
            "(S)", "(StampedLock@@stamped_made#1)"
        ),
    )


def test_classes_of_locks():
    """Where a class of the program's stands before a lock's method, what that calls is recorded, and not both."""
    expect(
        "classesOfLocks",
        """
        main|acq(Locks$Counted@@counted_made#1)|@counted_lock
        main|rel(Locks$Counted@@counted_made#1)|@counted_unlock
        main|acq(Locks$Counted@@counted_made#1)|@counted_lock
        main|tryacq(Locks$Counted@@counted_made#1)|@counted_try
        main|rel(Locks$Counted@@counted_made#1)|@counted_unlock_2
        main|rel(Locks$Counted@@counted_made#1)|@counted_unlock_3""",
    )


def test_locks_that_classes_of_locks_make():
    """Each has the place where it was made."""
    expect(
        "locksOfClassesOfLocks",
        """
        main|acq(ReentrantLock@@nested_made#1)|@nested_argument_lock
        main|rel(ReentrantLock@@nested_made#1)|@nested_argument_unlock
        main|acq(ReentrantLock@@nested_inner#1)|@nested_inner_lock
        main|acq(Locks$Nested@@nested_made#1)|@nested_lock
        main|rel(Locks$Nested@@nested_made#1)|@nested_unlock
        main|rel(ReentrantLock@@nested_inner#1)|@nested_inner_unlock""",
    )


def test_classes_of_interruptible_locks():
    expect(
        "classesOfInterruptibleLocks",
        """
        main|acq(Locks$Patient@@patient_made#1)|@patient_lock
        main|acq(Locks$Patient@@patient_made#1)|@patient_lock
        main|rel(Locks$Patient@@patient_made#1)|@patient_unlock
        main|rel(Locks$Patient@@patient_made#1)|@patient_unlock_2""",
    )


def test_monitors_of_locks():
    """An object that is a lock has a monitor, too."""
    lock, monitor = "(ReentrantLock@@again#1)", "(ReentrantLock.monitor@@monitor_of_lock#1)"
    expect(
        "monitorsOfLocks",
        """
        main|acqM|@monitor_of_lock
        main|acqL|@lock_in_its_monitor
        main|relM|@wait_of_lock
        main|acqM|@wait_of_lock
        main|relL|@unlock_in_its_monitor
        main|relM|@monitor_of_lock_end
        main|acqL|@lock_around_its_monitor
        main|acqM|@monitor_in_its_lock
        main|relM|@monitor_in_its_lock_end
        main|relL|@unlock_around_its_monitor""".replace(
            "M|", monitor + "|"
        ).replace(
            "L|", lock + "|"
        ),
    )


def test_references_to_methods_of_locks():
    """The place is the reference's."""
    lock = "(ReentrantLock@@reference_new#1)"
    expect(
        "references",
        """
        main|acqL|@reference_lock
        main|acqL|@reference_interruptibly
        main|tryacqL|@reference_try
        main|relL|@reference_unlock
        main|relL|@reference_unbound
        main|fork(main.1:Locks$Worker)|@reference_start
        main|join(main.1:Locks$Worker)|@reference_join""".replace(
            "L|", lock + "|"
        ),
    )


def test_references_to_methods_of_other_classes():
    """The object's class has the method from the one that it is made of."""
    expect(
        "referencesOfClasses",
        """
        main|tryacq(Locks$Counted@@counted_made#1)|@class_reference_try
        main|rel(Locks$Counted@@counted_made#1)|@class_reference_unlock
        main|fork(main.1:Locks$Worker)|@class_reference_start
        main|join(main.1:Locks$Worker)|@class_reference_join""",
    )


@pytest.mark.parametrize("java", all_of_java())
def test_conditions_of_write_locks(java):
    run = record(None, command=[java, "-cp", "classes", "Locks", "conditionOfWriteLock"])
    text = """
        main|acq(L)|@write_lock
        main|rel(L)|@write_await
        main|acq(L)|@write_await
        main|rel(L)|@write_unlock"""
    compare(run.lines(), expand(text.replace("(L)", "(ReentrantReadWriteLock@@write_made#1)"), MARKS))
