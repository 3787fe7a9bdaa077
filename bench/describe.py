#!/usr/bin/env python3
"""Describes traces: how many edges, how they hang together, what guards them, how long locks are held.

    bench/describe.py TRACE..

A TRACE is a file, .std or .std.xz. A table goes to standard output: a column for each trace, a row for each figure. Where a
figure has three numbers they are the mean, what nine in ten don't exceed, and the most. The traces are taken to be
lawful: `goodlock stats` says whether they are, and counts the same events and edges.

- an edge: a thread wants a lock while it holds another one; with its segments and all locks that are held, which guard it;
- wanted of one held, held of one wanted: with how many locks a lock stands in edges, on each side;
- followers of an edge: edges of other threads that hold the lock that it wants;
- held for: from where a lock is taken to where it is free again, in events of its thread and in events of all threads; a lock
  that is never free again isn't counted;
- classes: pairs of places, where the held lock was taken and where the wanted one is asked for, of the first such event.
"""

import argparse
import lzma
import os
import statistics
from collections import Counter, defaultdict, namedtuple

MODES = {"acq": "exclusive", "tryacq": "exclusive", "racq": "shared", "tryracq": "shared"}
TRIES = ("tryacq", "tryracq")
RELEASES = ("rel", "rrel")
LINKS = ("fork", "join")


Edge = namedtuple("Edge", "thread held held_mode wanted wanted_mode first second guards")


class Thread:
    """How far a thread has come: what it holds, by lock the depth and where it was opened."""

    def __init__(self):
        self.events = self.segment = 0
        self.held = {}


class Opened:
    """Where a held lock was acquired when its thread didn't hold it."""

    def __init__(self, thread, mode, place, events):
        self.mode, self.place, self.segment = mode, place, thread.segment
        self.begun = (thread.events, events)
        self.depth = 0


class Trace:
    """What is counted of a trace, event by event."""

    def __init__(self, lines):
        self.words = Counter()
        self.threads = defaultdict(Thread)
        self.locks, self.places, self.sections = set(), set(), []
        self.edges = {}  # by edge, its class
        for line in lines:
            name, call, place = line.split("|", 2)
            word, _, operand = call.partition("(")
            self.take(name, word, operand[:-1], place)

    @property
    def events(self):
        return sum(self.words.values())

    def take(self, name, word, operand, place):
        """Counts a line, unless it is skipped or a stray release."""
        if word in MODES:
            self.acquire(name, self.threads[name], word, operand, place)
        elif word in RELEASES and name in self.threads and operand in self.threads[name].held:
            self.release(self.threads[name], operand)
        elif word in LINKS:
            self.threads[name].segment += 1
            self.threads.setdefault(operand, Thread())
        else:
            return
        self.threads[name].events += 1
        self.places.add(place)
        self.words[word] += 1

    def acquire(self, name, thread, word, lock, place):
        self.locks.add(lock)
        if lock not in thread.held:
            if word not in TRIES:
                self.want(name, thread, word, lock, place)
            thread.held[lock] = Opened(thread, MODES[word], place, self.events)
        thread.held[lock].depth += 1

    def want(self, name, thread, word, wanted, place):
        """The edges of a thread that wants a lock: one for each that it holds."""
        guards = frozenset((lock, opened.mode) for lock, opened in thread.held.items())
        for held, opened in thread.held.items():
            edge = Edge(name, held, opened.mode, wanted, MODES[word], opened.segment, thread.segment, guards)
            self.edges.setdefault(edge, (opened.place, place))

    def release(self, thread, lock):
        opened = thread.held[lock]
        opened.depth -= 1
        if opened.depth == 0:
            of_thread, of_all = opened.begun
            self.sections.append((thread.events - of_thread, self.events - of_all))
            del thread.held[lock]

    def followers(self):
        """Of each edge, how many edges of other threads hold the lock that it wants."""
        of_all = Counter(edge.held for edge in self.edges)
        of_thread = Counter((edge.thread, edge.held) for edge in self.edges)
        return [of_all[edge.wanted] - of_thread[edge.thread, edge.wanted] for edge in self.edges]

    def figures(self):
        """The figures by name: whole numbers, quotients, and (mean, nine in ten, most)."""
        pairs = {(edge.held, edge.wanted) for edge in self.edges}
        acquires = sum(self.words[word] for word in MODES)
        return {
            "events": self.events,
            "threads": len(self.threads),
            "locks": len(self.locks),
            "locations": len(self.places),
            "segments": sum(thread.segment + 1 for thread in self.threads.values()),
            "edges": len(self.edges),
            "edges of an event": over(len(self.edges), self.events),
            "wanted of one held": spread(Counter(held for held, _ in pairs).values()),
            "held of one wanted": spread(Counter(wanted for _, wanted in pairs).values()),
            "followers of an edge": spread(self.followers()),
            "guards of an edge": spread(len(edge.guards) for edge in self.edges),
            "held for, its thread's events": spread(own for own, _ in self.sections),
            "held for, all events": spread(of_all for _, of_all in self.sections),
            "tries of an acquire": over(sum(self.words[word] for word in TRIES), acquires),
            "classes": len(set(self.edges.values())),
        }


def over(part, whole):
    return part / whole if whole else 0.0


def spread(values):
    """The mean, the least number that nine in ten of the values don't exceed, and the most."""
    values = sorted(values)
    return (statistics.fmean(values), values[-(-len(values) * 9 // 10) - 1], values[-1]) if values else (0.0, 0, 0)


def shown(figure):
    """A figure as the table has it."""
    if isinstance(figure, tuple):
        return ", ".join(shown(number) for number in figure)
    return f"{figure:,}" if isinstance(figure, int) else f"{figure:,.3f}" if figure < 1 else f"{figure:,.1f}"


def described(path):
    """The figures of a trace's file."""
    opener = lzma.open if path.endswith(".xz") else open
    with opener(path, "rt", encoding="latin-1", newline="\n") as lines:
        return Trace(line.rstrip("\r\n") for line in lines if line.strip("\r\n")).figures()


def main():
    parser = argparse.ArgumentParser(description=__doc__, formatter_class=argparse.RawDescriptionHelpFormatter)
    parser.add_argument("traces", nargs="+", metavar="TRACE")
    paths = parser.parse_args().traces
    columns = [described(path) for path in paths]
    print(f"| | {' | '.join(f'`{os.path.basename(path)}`' for path in paths)} |")
    print(f"|---|{'---|' * len(paths)}")
    for name in columns[0]:
        print(f"| {name} | {' | '.join(shown(column[name]) for column in columns)} |")


if __name__ == "__main__":
    main()
