#!/usr/bin/env python3
"""Answers to large traces that are known by thought: nothing may give up, or change, where there is much of it.

    sizes.py PROGRAM

The last line is `N passed, N failed`.
"""

import subprocess
import sys

SIDE = 265  # 70,225 pairs of locks: more edges than 2^16
KNOTS = 40  # locks on either side of 1,600 cycles: more than are listed unless said
OPPOSITE = "T1|acq(b0)|5\nT1|acq(a0)|6\nT1|rel(a0)|7\nT1|rel(b0)|8\n"
ONE_CYCLE = """cycle 1: 2 edges
  T0 holds a0 since 1 wants b0 at 2
  T1 holds b0 since 5 wants a0 at 6
cycles: 1
"""
LIVE = ("live --shards 1", "live --recorders 1 --shards 1 --ring 1", "live --shards 16")
STREAM = "live --stream --shards 1"


def taken_in_turn(thread, outer, inner, side, since, at):
    """A thread that takes each of these outer locks, and within it each of the inner ones."""
    pairs = ((first, second) for first in range(side) for second in range(side))
    return "".join(
        f"{thread}|acq({outer}{first})|{since}\n{thread}|acq({inner}{second})|{at}\n"
        f"{thread}|rel({inner}{second})|3\n{thread}|rel({outer}{first})|4\n"
        for first, second in pairs
    )


def many_edges():
    """One cycle among 70,226 edges."""
    return taken_in_turn("T0", "a", "b", SIDE, 1, 2) + OPPOSITE


def many_cycles():
    """Two threads that take the same locks in opposite orders: a cycle for each pair of an outer and an inner one."""
    return taken_in_turn("T0", "a", "b", KNOTS, 1, 2) + taken_in_turn("T1", "b", "a", KNOTS, 5, 6)


def text_of_cycles():
    """They ascend by the first thread's edges."""
    pairs = ((outer, inner) for outer in range(KNOTS) for inner in range(KNOTS))
    cycles = (
        f"cycle {number}: 2 edges\n  T0 holds a{a} since 1 wants b{b} at 2\n  T1 holds b{b} since 5 wants a{a} at 6\n"
        for number, (a, b) in enumerate(pairs, 1)
    )
    return "".join(cycles) + f"cycles: {KNOTS * KNOTS}\n"


def many_threads(threads):
    """Threads that each take a lock of their own, and then one that all take."""
    return "".join(f"T{n}|acq(a{n})|1\nT{n}|acq(b)|2\nT{n}|rel(b)|3\nT{n}|rel(a{n})|4\n" for n in range(threads))


def many_skipped():
    """One cycle among 70,000 lines that tell no event."""
    return "T0|r(x)|9\n" * 70000 + "T0|acq(a0)|1\nT0|acq(b0)|2\nT0|rel(b0)|3\nT0|rel(a0)|4\n" + OPPOSITE


def stats(events, threads, locks, edges, cycles, skipped=0):
    """What `stats` says of a trace without forks and joins."""
    counts = {"events": events, "skipped": skipped, "stray": 0, "threads": threads, "locks": locks}
    counts |= {"segments": threads, "edges": edges, "cycles": cycles}
    return "".join(f"{name}: {count}\n" for name, count in counts.items())


class Tests:
    """What the program answers, and what it should."""

    def __init__(self, program):
        self.program, self.passed, self.failed = program, 0, 0

    def run(self, words, text):
        """How the program ends, and what it writes."""
        command = [self.program, *words.split()]
        done = subprocess.run(command, input=text, capture_output=True, text=True, timeout=300)
        return done.returncode, done.stdout, done.stderr

    def expect(self, words, text, status, out, err=""):
        """Whether the program ends so."""
        got = self.run(words, text)
        is_so = got == (status, out, err)
        self.passed += is_so
        self.failed += not is_so
        if not is_so:
            print(f"FAILED: {words} of {len(text)} bytes: {got[0]}, {got[1][:300]}{got[2][:200]}")

    def edges(self):
        """Edges, events of one thread and threads, more than 2^16 or as many as there may be."""
        pairs = SIDE * SIDE
        self.expect("stats", many_edges(), 0, stats(4 * pairs + 4, 2, 2 * SIDE, pairs + 1, 1))
        for words in ("predict", "predict --jobs 1", *LIVE, STREAM):
            self.expect(words, many_edges(), 1, ONE_CYCLE)

    def threads(self):
        """As many threads as there may be, as many that look for their edges, and the longest rings."""
        for jobs in ("", " --jobs 64"):
            self.expect("stats" + jobs, many_threads(1024) * 8, 0, stats(8 * 4096, 1024, 1025, 1024, 0))
            self.expect("predict" + jobs, many_threads(1024) * 8, 0, "cycles: 0\n")
        for words in (*LIVE, STREAM + " --threads 1024"):
            self.expect(words, many_threads(1024), 0, "cycles: 0\n")
        for words in ("live --ring 65536", "live --stream --ring 65536 --threads 100"):
            self.expect(words, many_threads(100), 0, "cycles: 0\n")

    def skipped(self):
        """More than 2^16 lines that tell no event."""
        self.expect("stats", many_skipped(), 0, stats(8, 2, 2, 2, 1, 70000))
        for words in ("predict", *LIVE, STREAM):
            self.expect(words, many_skipped(), 1, ONE_CYCLE)

    def cycles(self):
        """More cycles than are listed unless said, and their report as it is checked: of this trace, and of another one whose
        last edge was made at another place."""
        trace, most = many_cycles(), " --max 2000"
        for words in ("predict", *LIVE, STREAM):
            self.expect(words + most, trace, 1, text_of_cycles())
        report = self.run("predict --json" + most, trace)[1]
        self.expect("check", report + trace, 0, f"ok, cycles: {KNOTS * KNOTS}\n")
        another = "|7\n".join(trace.rsplit("|6\n", 1))
        wrong = f"goodlock: table entry {2 * KNOTS * KNOTS - 1} is wrong\n"
        self.expect("check", report + another, 2, "", wrong)


def main():
    if len(sys.argv) != 2:
        print(__doc__, file=sys.stderr)
        return 2
    tests = Tests(sys.argv[1])
    for part in (tests.edges, tests.threads, tests.skipped, tests.cycles):
        part()
    print(f"{tests.passed} passed, {tests.failed} failed")
    return 1 if tests.failed else 0


if __name__ == "__main__":
    sys.exit(main())
