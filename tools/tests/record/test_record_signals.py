"""Signals that come between any two instructions of a lock call, with handlers that take locks (interrupted.c)."""

import re

import pytest
from c_traces import record
from known_traces import edges_of, is_front_of_a_run, others_of, read_lines

NO_TRACING = 77
LAST = 99999
WALK, NESTED, ALONE, MAKES = 0, 1, 2, 3  # what the handler does


def threads_of(*words, options=()):
    """The lines of each thread that was interrupted, in the order of their births, without what filled their chunks, and with one name
    for each thread."""
    run = record("./interrupted", *map(str, words), options=options)
    if run.status == NO_TRACING:
        pytest.skip("no process may be traced here")
    assert run.status == 0, "status %d: %s" % (run.status, run.said)
    assert len(run.files()) == 1, "files: %s; %s" % (run.files(), run.said)
    threads = {}
    for line in read_lines(run.files()[0]):
        thread, rest = line.split("|", 1)
        match = re.fullmatch(r"main\.(\d+):worker", thread)
        if match and "(filler" not in rest and "(stray" not in rest:
            rest = re.sub(r"\(main\.[\d.]*", "(main.1.", rest)
            threads.setdefault(int(match.group(1)), []).append("thread|" + rest)
    return [threads[number] for number in sorted(threads)]


def check(*words, least):
    """Whether each thread has the same edges as one that isn't interrupted and of which all is kept, with the same first samples, and
    gives back what it takes."""
    threads = threads_of(*words)
    assert len(threads) >= least, "only %d threads were interrupted, or are in the trace" % len(threads)
    whole = threads_of(*words[:-1], -1, options=["--all"])
    edges = edges_of(whole[0])
    assert len(edges) >= 10, "only %d edges" % len(edges)
    for place, lines in enumerate(threads):
        where = "%d * %d instructions after the mark" % (place - 1, words[4])
        is_front_of_a_run(lines)
        assert not any(others_of(lines)[1].values()), "%s, it holds %s in the end" % (where, others_of(lines)[1])
        assert edges_of(lines) == edges, "%s, the edges differ" % where


@pytest.mark.parametrize("fill", (492, 493))
def test_where_a_chunk_ends(fill):
    """The handler fills the chunk that the call has in hand, and goes on in the next one."""
    check("walk_on", WALK, fill, -1, 1, 180, least=150)


@pytest.mark.parametrize("fill", (483, 484))
def test_where_a_chunk_ends_and_all_is_known(fill):
    """The call leaves out its own events, and none of the handler's in both chunks."""
    check("known", WALK, fill, -1, 1, 300, least=250)


def test_what_is_news_stays():
    """What a handler does for the first time is in the trace, though the call that it came in is left out. The first thread isn't
    interrupted, and the stretch of the last one was over before."""
    _, *threads, _ = threads_of("within", WALK, 0, -1, 5, LAST)
    assert len(threads) >= 60, "only %d threads were interrupted, or are in the trace" % len(threads)
    for place, lines in enumerate(threads):
        edges = {(edge[1], edge[2]) for edge in edges_of(lines)}
        for lock in ("own", "own+0x28"):
            assert ("ring+0x28", lock) in edges, "%d * 5 instructions after the mark, an edge is lost" % place


def test_amid_nested_locks():
    """What the handler takes amid a call isn't known in a context that the trace doesn't have."""
    check("nested", WALK, 0, -1, 5, LAST, least=100)


def test_amid_a_call_that_fails():
    """Nor is what it takes while the call waits for a lock that it then doesn't get."""
    check("fail", NESTED, 0, -1, 5, LAST, least=80)


def test_amid_a_fork():
    """Nor in the next segment, before the fork is in the trace."""
    check("make", WALK, 0, -1, 8, 1000, least=100)


@pytest.mark.parametrize("further", (2, 78))
def test_two_signals(further):
    check("walk_on", WALK, 492, further, 13, LAST, least=20)


@pytest.mark.parametrize("further", (-3, -5, -7))
def test_a_signal_right_after_another_one(further):
    """The first one comes amid an acquire, and puts a lock of its own where that lock will be; the second one doesn't find it held
    there, so few instructions later."""
    threads = threads_of("walk", ALONE, 0, further, 1, 160)
    assert len(threads) >= 150, "only %d threads were interrupted, or are in the trace" % len(threads)
    (whole,) = threads_of("walk", ALONE, 0, further, 1, -1, options=["--all"])
    for place, lines in enumerate(threads):
        is_front_of_a_run(lines)
        assert edges_of(lines) == edges_of(whole), "%d instructions after the mark, the edges differ" % (place - 1)


def check_makes(stretch, stride, count, places):
    """A handler makes and joins a thread, at one place after the other amid a stretch, which comes once more afterwards. This ends a segment, in
    which nothing is known: so the edges are those of a handler that came at one of these places among the `count` lines of all. The
    stretch of the last thread was over before the signal.
    """
    first, *threads, _ = threads_of(stretch, MAKES, 0, -1, stride, LAST)
    (whole,) = threads_of(stretch, MAKES, 0, -1, stride, -1, options=["--all"])
    assert len(threads) >= 20 and len(whole) == count, "%d threads, %d lines" % (len(threads), len(whole))
    assert edges_of(first) == edges_of(whole), "the edges of a thread without a signal"
    made = ["thread|fork(main.1.1)|", "thread|join(main.1.1)|"]
    right = [edges_of(whole[:place] + made + whole[place:]) for place in places]
    seen = [0] * len(right)
    for number, lines in enumerate(threads):
        is_front_of_a_run(lines)
        edges = edges_of(lines)
        assert edges in right, "%d * %d instructions after the mark, the edges are %s" % (number, stride, edges)
        seen[right.index(edges)] += 1
    assert all(seen), "signals at each place: %s" % seen


def test_a_handler_that_makes_threads():
    """In a thread that knows many acquires: these are looked up where they were."""
    check_makes("much", 3, 6 * 4, (17, 18))


def test_a_handler_that_makes_threads_before_another_one():
    """Nothing was looked up in between."""
    check_makes("give", 5, 6 * 6 + 2, (25,))
