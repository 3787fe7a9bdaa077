"""What is left out: repeats, and nothing that makes an edge."""

import os
import re

import pytest
from c_traces import PAIR, expect, record
from known_traces import edges_of, is_front_of_a_run, others_of


def test_repeats_are_left_out():
    both = """
        main|acq(a)|@both_a
        main|acq(b)|@both_b
        main|rel(b)|@both_b_end
        main|rel(a)|@both_a_end"""
    first, second = "\nmain|fork(main.1:quick)|@repeats_1", "\nmain|join(main.1:quick)|@repeats_2"
    run = expect("repeats", both + PAIR + first + both + second + both)
    # Left out: of the first five turns four of 4 + 2 events, of the three two of 4 events.
    assert "and %d of repeats" % (4 * 6 + 2 * 4) in run.said, run.said


def test_what_is_left_out_adds_no_edge():
    """On random events, the edges of the trace are those of the whole one, with the same first samples."""
    longest = shortest = 0
    for seed in range(1, 7):
        command = ["./random", str(seed), "6000"]
        short = record(*command, environment=dict(os.environ)).lines()
        whole = record(*command, options=["--all"]).lines()
        short_edges, whole_edges = edges_of(short), edges_of(whole)
        assert len(whole_edges) > 100, "only %d edges" % len(whole_edges)
        assert short_edges == whole_edges, "seed %d: the edges differ" % seed
        longest += len(whole)
        shortest += len(short)
    assert shortest < 0.95 * longest, "%d of %d lines are left: nothing was tested" % (shortest, longest)


@pytest.mark.parametrize("seed", range(1, 9))
def test_what_comes_round_is_left_out(seed):
    """On the random walks of 300 threads, which nearly always hold a lock, the same edges, with the same first samples, and all
    else that goodlock looks at."""
    short = record("./walks", str(seed), "300").lines()
    whole = record("./walks", str(seed), "300", options=["--all"]).lines()
    edges = edges_of(whole)
    assert len(edges) > 5000, "only %d edges" % len(edges)
    assert edges_of(short) == edges, "the edges differ"
    assert others_of(short) == others_of(whole), "forks, joins, strays or what is held differ"
    assert len(short) < 0.5 * len(whole), "%d of %d lines are left" % (len(short), len(whole))


def test_hand_over_hand():
    """The first round, which ends by the first lock at another place, and the last steps."""
    walk = ["", "+0x28", "+0x50", "+0x78", "", "+0x28"]
    steps = ["\nmain|acq(many%s)|@ring_next\nmain|rel(many%s)|@ring_last" % (walk[i + 1], walk[i]) for i in range(5)]
    run = expect("ring", "main|acq(many)|@ring" + "".join(steps) + "\nmain|rel(many+0x28)|@ring_end")
    assert "and %d of repeats" % (2 * (200001 - 5)) in run.said, run.said


@pytest.mark.parametrize("times", range(3))
def test_hand_over_hand_under_signals(times):
    """Wherever a signal comes in between, what is taken is released, and nothing is kept again and again."""
    run = record("./storm")
    lines = run.lines()
    assert run.status == 0, "status %d: %s" % (run.status, run.said)
    is_front_of_a_run(lines)
    assert not any(others_of(lines)[1].values()), "in the end it holds %s" % others_of(lines)[1]
    assert len(lines) < 5000, "%d lines" % len(lines)


def test_two_rings_in_turn():
    """Each ring, the way to the other one, and at most a few rounds more."""
    lines = record("./locks", "two_rings").lines()
    assert len(lines) < 50, "%d lines" % len(lines)


def test_deeper_again_and_again():
    expect(
        "deeper",
        """
        main|acq(again)|@deeper
        main|acq(again)|@deeper_again
        main|rel(again)|@deeper_back
        main|rel(again)|@deeper_end""",
    )


def test_threads_that_cannot_be_made():
    """They begin no segment: all is known that was known before."""
    expect(
        "no_threads",
        """
        main|acq(a)|@no_threads_a
        main|acq(b)|@no_threads_b
        main|rel(a)|@no_threads_a_end
        main|rel(b)|@no_threads_b_end""",
    )
    lines = record("./locks", "no_threads_amid_many").lines()
    assert len(lines) == 4 * 34 * 34, "%d lines" % len(lines)


def test_many_stretches():
    """The 50,176 stretches of one pass are all kept, those of the next all left out, but a few at borders of chunks."""
    run = record("./locks", "volume")
    assert run.status == 0, run.said
    lines = run.lines()
    size = 4 * 224 * 224
    assert size <= len(lines) <= size + 4 * 10, "%d lines" % len(lines)
    assert len(set(lines)) == 2 * 448 - 448 + 448, "%d different lines" % len(set(lines))
    for i in range(0, size, 4):
        operands = [re.search(r"\((.*)\)", line).group(1) for line in lines[i : i + 4]]
        assert operands == [operands[0], operands[1], operands[1], operands[0]], "stretch at line %d" % (i + 1)


@pytest.mark.parametrize(
    "command", [["./locks", "two_makers"], ["./locks", "racing"], ["./locks", "c11"], ["./wrappers-O2"]], ids=" ".join
)
def test_the_same_bytes_of_two_runs(command):
    first = record(*command).lines()
    second = record(*command).lines()
    assert first == second, "two runs differ"
