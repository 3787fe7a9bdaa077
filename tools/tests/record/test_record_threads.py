"""Threads and their names, and events that come early, late or in between: of libraries, keys and signal handlers."""

import os
import re

import pytest
from c_traces import expect, known, record
from known_traces import compare


def test_threads_made_and_joined():
    run = record("./locks", "threads")
    assert run.status == 0, "status %d: %s" % (run.status, run.said)
    # The third thread runs a function of the C library, whose own name may be another one there.
    lines = [re.sub(r"main\.3:[\w.@+]+", "main.3:sem_wait", line) for line in run.lines()]
    compare(
        lines,
        known(
            """
        main|fork(main.1:parent)|@threads_1
        main|fork(main.2:quick)|@threads_2
        main|join(main.1:parent)|@threads_3
        main|join(main.2:quick)|@threads_4
        main|fork(main.3:sem_wait)|@threads_5
        main|join(main.3:sem_wait)|@threads_6
        main|fork(main.4:quick)|@threads_7
        main|join(main.4:quick)|@threads_8
        main|fork(main.5:detached)|@threads_9
        main.1:parent|fork(main.1.1:leaves)|@parent_create
        main.1:parent|join(main.1.1:leaves)|@parent_join
        main.1.1:leaves|acq(a)|@leaves_lock
        main.1.1:leaves|rel(a)|@leaves_unlock
        main.5:detached|acq(b)|@detached_lock
        main.5:detached|rel(b)|@detached_unlock"""
        ),
    )


def test_two_threads_that_make_threads_at_once():
    children = [["main.%d.%d:quick" % (maker, i + 1) for i in range(20)] for maker in (1, 2)]
    text = [
        "main|fork(main.1:maker)|@makers_1",
        "main|fork(main.2:maker)|@makers_2",
        "main|join(main.1:maker)|@makers_3",
        "main|join(main.2:maker)|@makers_4",
    ]
    for maker in (1, 2):
        text += ["main.%d:maker|fork(%s)|@maker_create" % (maker, child) for child in children[maker - 1]]
        text += ["main.%d:maker|join(%s)|@maker_join" % (maker, child) for child in children[maker - 1]]
    for _ in range(3):
        expect("two_makers", "\n".join(text))


def test_locks_of_racing_threads():
    one, two = "main.1:walker", "main.2:walker"
    text = ["main|fork(%s)|@racing_1" % one, "main|fork(%s)|@racing_2" % two]
    text += ["main|join(%s)|@racing_3" % one, "main|join(%s)|@racing_4" % two]
    for thread in (one, two):
        for i in (1, 2, 3):
            text.append("%s|acq(mutex@@walker_lock#main.1:%d)|@walker_lock" % (thread, i))
            text.append("%s|rel(mutex@@walker_lock#main.1:%d)|@walker_unlock" % (thread, i))
    for _ in range(5):
        expect("racing", "\n".join(text))


def test_more_threads_than_goodlock_reads():
    """Windows of 1,024 threads, the first one in each; the second begins with the 512th of the others."""
    run = record("./locks", "many_threads")
    assert run.status == 0, run.said
    assert "goodlock reads at most 1024 threads" in run.said, run.said
    assert len(run.lines()) == 2 * 1100 + 2, "%d lines" % len(run.lines())
    assert run.files() == ["t.std", "t.std.window1", "t.std.window2"], str(run.files())
    for number, first, last in ((1, 1, 1023), (2, 512, 1100)):
        compare(
            [line.rsplit("|", 1)[0] for line in run.lines(".window%d" % number)],
            ["main|%s(main.%d:quick)" % (word, i) for i in range(first, last + 1) for word in ("fork", "join")]
            + ["main|acq(a)", "main|rel(a)"],
        )


def test_destructors_of_keys():
    """The second thread's destructor runs in all four rounds that the system allows. In the last one the recorder has
    ended the thread's state before, and so doesn't know that the stretch is a repeat."""
    expect(
        "keys",
        """
        main|fork(main.1:uses_key)|@keys_1
        main|join(main.1:uses_key)|@keys_2
        main|fork(main.2:uses_key_long)|@keys_3
        main|join(main.2:uses_key_long)|@keys_4
        main.1:uses_key|acq(b)|@key_lock
        main.1:uses_key|rel(b)|@key_unlock
        main.2:uses_key_long|acq(b)|@key_lock
        main.2:uses_key_long|rel(b)|@key_unlock
        main.2:uses_key_long|acq(b)|@key_lock
        main.2:uses_key_long|rel(b)|@key_unlock""",
    )


def test_library_constructors_and_destructors():
    run = record("./uses-library")
    assert run.status == 0, run.said
    compare(
        run.lines(),
        known(
            """
        main|acq(library_lock)|@library_lock
        main|rel(library_lock)|@library_unlock
        main|acq(library_lock)|@library_lock_2
        main|rel(library_lock)|@library_unlock_2""",
            "library.c",
        ),
    )


@pytest.mark.parametrize("by_loader", [False, True])
def test_before_all_constructors(by_loader):
    """Then the C library doesn't know the program's variables yet, by which the recorder is told what to do."""
    with open("earliest", "rb") as file:
        loader = os.fsdecode(re.search(rb"/lib[\w/.-]*/ld-[\w.-]+", file.read()).group())
    run = record(*[loader] * by_loader, "./earliest")
    assert run.status == 0, run.said
    text = "main|acq(a)|@earliest\nmain|rel(a)|@earliest_end\nmain|acq(a)|@later\nmain|rel(a)|@later_end"
    compare(run.lines(), known(text, "earliest.c"))


def test_before_thread_locals():
    """What is done while ifuncs are resolved isn't recorded, and neither ends the program nor what comes afterwards."""
    run = record("./resolved")
    assert run.status == 0, run.said
    compare(run.lines(), known("main|acq(a)|@later\nmain|rel(a)|@later_end", "resolved.c"))


def test_signal_handler_that_locks():
    expect(
        "signals",
        """
        main|acq(a)|@signals_lock
        main|acq(b)|@signal_lock
        main|rel(b)|@signal_unlock
        main|rel(a)|@signals_unlock""",
    )


def test_a_signal_before_anything_of_the_thread_runs():
    """What the handler locks is what its thread locks: it isn't another one, that nobody made and that runs beside all."""
    run = record("./born", "signals")
    assert run.status == 0, "status %d: %s" % (run.status, run.said)
    kinds = ("reads", "reads_c11") * 10
    names = ["main.%d:%s" % (number, kind) for number, kind in enumerate(kinds, 1)]
    lines = run.lines()
    assert {line.split("|")[0] for line in lines} == {"main", *names}, "threads: %s" % run.said
    own = known("acq(books)|@reads_books\nacq(pages)|@reads_pages", "born.c")
    for name in names:
        found = [line.split("|", 1)[1] for line in lines if line.startswith(name + "|") and "(count)" not in line]
        compare(found[:2], own)
    interrupted = {line.split("|")[0] for line in lines if "acq(count)" in line}
    assert len(interrupted) >= 5, "signals came to %s" % sorted(interrupted)


def test_a_thread_begins_with_the_signals_that_it_should():
    """Those of its maker, or those that its attributes say."""
    run = record("./born", "masks")
    assert run.status == 0, "status %d: %s" % (run.status, run.said)


def test_signals_at_any_instruction():
    """Every lock is held and released in turn, and next to all of the 8 million events are left out: what a handler does
    between two instructions of the recorder doesn't upset what it knows of the thread."""
    run = record("./locks", "signal_storm")
    assert run.status == 0, run.said
    lines = run.lines()
    held = []
    for line in lines:
        word, lock = re.fullmatch(r"main\|(\w+)\((\w+)\)\|.*", line).groups()
        if word == "acq":
            assert lock not in held, "%s is acquired twice" % lock
            held.append(lock)
        else:
            assert word == "rel" and held and held.pop() == lock, "%s isn't the lock acquired last" % lock
    assert not held, "held at the end: %s" % held
    assert {re.search(r"\((\w+)\)", line).group(1) for line in lines} == {"b", "a", "many"}, "not all locks are there"
    assert len(lines) < 100, "%d lines" % len(lines)


@pytest.mark.parametrize("frames", [1, 16])
def test_thread_with_the_smallest_stack(frames):
    """The recorder takes no more of it than the program's own calls do."""
    run = record("./thousands", options=["--frames", "%d" % frames])
    assert run.status == 0 and " 30001 locks" in run.said, "status %d: %s" % (run.status, run.said)


def test_thread_that_is_to_be_cancelled():
    """It isn't in the calls of the recorder, as the program's own are none at which that may happen."""
    run = record("./thousands", "cancelled")
    assert run.status == 0 and run.out == "30000 taken\n", "status %d: %s%s" % (run.status, run.out, run.said)
