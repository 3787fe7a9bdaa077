"""Which calls make which events, and by what name a lock goes."""

import itertools
import os
import signal

from c_programs import build_or_skip
from c_traces import PAIR, expect, known, record
from known_traces import RECORD, compare, ended


def test_mutexes():
    run = expect(
        "mutexes",
        """
        main|acq(a)|@mutex_lock
        main|tryacq(b)|@mutex_try
        main|rel(b)|@mutex_unlock_b
        main|tryacq(b)|@mutex_timed
        main|rel(b)|@mutex_unlock_b2
        main|tryacq(b)|@mutex_clock
        main|rel(a)|@mutex_unlock_a
        main|rel(b)|@mutex_unlock_b3""",
    )
    assert "8 events" in run.said and "1 threads, 2 locks, 3 other calls" in run.said, run.said


def test_calls_that_fail_make_no_event():
    expect(
        "failing",
        """
        main|acq(checked)|@failing_lock
        main|acq(a)|@failing_a
        main|rel(a)|@failing_a_end
        main|rel(checked)|@failing_unlock""",
    )


def test_recursive_mutexes():
    expect(
        "recursive",
        """
        main|acq(again)|@recursive_1
        main|acq(again)|@recursive_2
        main|rel(again)|@recursive_3
        main|acq(a)|@recursive_4
        main|rel(a)|@recursive_5
        main|rel(again)|@recursive_6""",
    )


def test_robust_mutex_on_the_stack():
    expect(
        "robust",
        """
        main|acq(mutex@@robust_made#1)|@robust_lock
        main|rel(mutex@@robust_made#1)|@robust_unlock""",
    )


def test_mutex_whose_owner_died_is_held():
    expect(
        "owner_died",
        """
        main|fork(main.1:dies_holding)|@dead_fork
        main|join(main.1:dies_holding)|@dead_join
        main|acq(left)|@dead_next
        main|rel(left)|@dead_unlock
        main.1:dies_holding|acq(left)|@dead_lock""",
    )


def test_lock_made_again_is_another():
    expect(
        "made_again",
        """
        main|acq(mutex@@make#2)|@made_two
        main|acq(mutex@@make#1)|@made_one
        main|rel(mutex@@make#1)|@made_one_end
        main|rel(mutex@@make#2)|@made_two_end
        main|acq(mutex@@made_again#1)|@made_third
        main|rel(mutex@@made_again#1)|@made_third_end
        main|acq(fixed)|@made_fixed
        main|rel(fixed)|@made_fixed_end
        main|acq(fixed#2)|@made_fixed_2
        main|rel(fixed#2)|@made_fixed_2_end""",
    )


def test_reader_writer_locks():
    expect(
        "rwlocks",
        """
        main|racq(rw)|@rw_read
        main|racq(rw)|@rw_read_2
        main|rrel(rw)|@rw_read_2_end
        main|acq(rwlock@@rw_made#1)|@rw_write
        main|rel(rwlock@@rw_made#1)|@rw_write_end
        main|rrel(rw)|@rw_read_end
        main|tryracq(rw)|@rw_tryread
        main|rrel(rw)|@rw_tryread_end
        main|tryracq(rw)|@rw_timedread
        main|rrel(rw)|@rw_timedread_end
        main|tryracq(rw)|@rw_clockread
        main|rrel(rw)|@rw_clockread_end
        main|tryacq(rw)|@rw_trywrite
        main|rel(rw)|@rw_trywrite_end
        main|tryacq(rw)|@rw_timedwrite
        main|rel(rw)|@rw_timedwrite_end
        main|tryacq(rw)|@rw_clockwrite
        main|rel(rw)|@rw_clockwrite_end
        main|acq(rwlock@@rw_made_2#1)|@rw_write_2
        main|rel(rwlock@@rw_made_2#1)|@rw_write_2_end""",
    )


def test_spin_locks():
    expect(
        "spins",
        """
        main|acq(spin@@spin_made#1)|@spin_lock
        main|rel(spin@@spin_made#1)|@spin_unlock
        main|tryacq(spin@@spin_made#1)|@spin_try
        main|rel(spin@@spin_made#1)|@spin_unlock_2
        main|acq(spin@@spin_made_2#1)|@spin_lock_2
        main|rel(spin@@spin_made_2#1)|@spin_unlock_3""",
    )


def test_c11_threads_and_mutexes():
    expect(
        "c11",
        """
        main|tryacq(mutex@@c11_made#1)|@c11_try
        main|rel(mutex@@c11_made#1)|@c11_unlock
        main|tryacq(mutex@@c11_made#1)|@c11_timed
        main|rel(mutex@@c11_made#1)|@c11_unlock_2
        main|acq(mutex@@c11_made_2#1)|@c11_lock_2
        main|rel(mutex@@c11_made_2#1)|@c11_unlock_3
        main|acq(plain)|@c11_lock
        main|rel(plain)|@c11_timedwait
        main|acq(plain)|@c11_timedwait
        main|fork(main.1:c11_worker)|@c11_create
        main|rel(plain)|@c11_wait
        main|acq(plain)|@c11_wait
        main|rel(plain)|@c11_unlock_4
        main|join(main.1:c11_worker)|@c11_join
        main.1:c11_worker|acq(plain)|@c11_worker_lock
        main.1:c11_worker|rel(plain)|@c11_worker_unlock""",
    )


def test_condition_waits():
    expect(
        "conditions",
        """
        main|acq(a)|@cond_lock
        main|rel(a)|@cond_timed
        main|acq(a)|@cond_timed
        main|rel(a)|@cond_clock
        main|acq(a)|@cond_clock
        main|fork(main.1:signaller)|@cond_create
        main|rel(a)|@cond_wait
        main|acq(a)|@cond_wait
        main|rel(a)|@cond_unlock
        main|join(main.1:signaller)|@cond_join
        main.1:signaller|acq(a)|@signaller_lock
        main.1:signaller|rel(a)|@signaller_unlock""",
    )


def test_cancelled_in_a_wait():
    expect(
        "cancel",
        """
        main|fork(main.1:cancelled)|@cancel_create
        main|join(main.1:cancelled)|@cancel_join
        main.1:cancelled|acq(b)|@cancel_lock
        main.1:cancelled|rel(b)|@cancel_wait
        main.1:cancelled|acq(b)|@cancel_wait
        main.1:cancelled|rel(b)|@cancel_unlock""",
    )


def test_cancelled_in_what_runs_once():
    """The recorder gives the lock back for it, and the program goes on."""
    expect(
        "cancelled_in_once",
        """
        main|fork(main.1:runs_once)|@cancelled_fork
        main|join(main.1:runs_once)|@cancelled_join
        main.1:runs_once|acq(never_done)|@cancelled_once
        main.1:runs_once|rel(never_done)|@cancelled_once""",
    )


def test_lock_in_a_table():
    run = expect(
        "table",
        """
        main|acq(many+0x78)|@table
        main|rel(many+0x78)|@table_end""",
    )
    assert run.said.count("\n") == 1, run.said


def hangs(name, text):
    """Who is asked for a lock that its own thread holds waits for itself; what the recorder said."""
    lines, said = ended(RECORD, ["./locks", name], signal.SIGALRM)
    compare(lines, known(text))
    files = [name for name in os.listdir(".") if name.startswith("t.std")]
    assert files == ["t.std"], "further files: %s" % files
    return said


def test_exclusive_acquire_of_a_lock_held_shared():
    said = hangs(
        "upgrade",
        """
        main|acq(a)|@upgrade_a
        main|racq(rw)|@upgrade_read
        main|upgrade(rw)|@upgrade_write""",
    )
    assert "held shared" in said, said


def test_plain_mutex_locked_twice():
    said = hangs(
        "again_plain",
        """
        main|acq(a)|@again_a
        main|again(a)|@again_twice""",
    )
    assert "1 times a thread asked for a lock that isn't recursive and that it held" in said, said


def test_mutex_that_another_thread_unlocked():
    """The second acquire came through: the thread didn't wait for itself."""
    run = expect(
        "handed_over",
        """
        main|acq(a)|@handed_first
        main|fork(main.1:unlocks_a)|@handed_fork
        main|join(main.1:unlocks_a)|@handed_join
        main|rel(a)|@handed_end
        main.1:unlocks_a|rel(a)|@handed_unlock""",
    )
    assert "waits for itself" not in run.said, run.said


def test_more_locks_than_goodlock_reads():
    text = []
    for i in range(66):
        name = "many" if i == 0 else "many+0x%x" % (40 * i)
        text.append("main|%s(%s)|@beyond_lock" % ("acq" if i < 64 else "beyond", name))
    for i in reversed(range(66)):
        text.append("main|rel(%s)|@beyond_unlock" % ("many" if i == 0 else "many+0x%x" % (40 * i)))
    run = expect("beyond", "\n".join(text) + PAIR)
    assert "2 acquires by threads that held 64 locks" in run.said, run.said


def test_lock_taken_more_often_than_goodlock_reads():
    """What is beyond that counts as not taken: the lock is released as often as it was, and then the releases are strays, of which the
    first one is kept."""
    run = record("./locks", "leaks")
    assert run.status == 0, run.said
    assert "2 acquires by threads that held 64 locks, or the lock 1000000 times" in run.said, run.said
    (lock,) = known("mutex@@leaks_lock#1")
    counts = {line: len(list(group)) for line, group in itertools.groupby(run.lines())}
    words = {"acq": 1000000, "beyond": 2, "rel": 1000001}
    places = {"acq": "@leaks_lock", "beyond": "@leaks_lock", "rel": "@leaks_unlock"}
    assert counts == {known(f"main|{word}({lock})|{places[word]}")[0]: count for word, count in words.items()}, counts


def test_release_of_a_lock_that_is_not_held():
    expect("stray", "main|rel(a)|@stray" + PAIR)


def test_older_names():
    """By which programs and libraries call that were linked before 2021."""
    build_or_skip("old version of the C library's functions", "gcc", [], "older.c", "older")
    expect(
        "",
        """
        main|acq(mutex)|@lock
        main|rel(mutex)|@unlock
        main|tryacq(mutex#2)|@trylock
        main|rel(mutex#2)|@unlock_again
        main|racq(rwlock)|@rdlock
        main|rrel(rwlock)|@unlock_read
        main|acq(rwlock)|@wrlock
        main|rel(rwlock)|@unlock_written
        main|tryracq(rwlock#2)|@tryrdlock
        main|rrel(rwlock#2)|@unlock_tried
        main|tryacq(rwlock#2)|@trywrlock
        main|rel(rwlock#2)|@unlock_tried_again
        main|acq(once)|@once
        main|rel(once)|@once""",
        source="older.c",
    )
