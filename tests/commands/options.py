#!/usr/bin/env python3
"""Tests that a session is what its options ask for, by what the program asks of the system.

    options.py PROGRAM

A session in which `live` is nothing but `predict`, or one with other recorders, shards or rings than were asked for,
writes the same bytes; so tests/commands/count.c counts the threads that are started and the memory that is asked for. The last
line is `N passed, N failed`.
"""

import os
import pathlib
import random
import subprocess
import sys
import tempfile

HERE = pathlib.Path(__file__).resolve().parent
NOTE = 16  # bytes at least: a thread, a place, and an event of a kind, a lock and a location
EDGE = 32  # bytes at least: a thread, two locks, two segments, the guards' list, and the sample's three numbers


class Program:
    """The program under the counting library."""

    def __init__(self, path, folder):
        self.path, self.library = os.path.abspath(path), os.path.join(folder, "count.so")
        subprocess.run(["cc", "-O1", "-shared", "-fPIC", "-o", self.library, HERE / "count.c", "-ldl"], check=True)
        self.passed = self.failed = 0

    def counts(self, words, trace):
        """How many threads a run of these words starts, and how many bytes it asks for."""
        told, tells = os.pipe()
        own = {**os.environ, "LD_PRELOAD": self.library, "COUNT_TO": str(tells)}
        with open(told) as reader:
            done = subprocess.run(
                [self.path, *words.split()], input=trace, capture_output=True, env=own, pass_fds=[tells], timeout=300
            )
            os.close(tells)
            line = reader.read()
        if done.returncode not in (0, 1):
            raise SystemExit(f"{words}: status {done.returncode}, {done.stderr}")
        threads, size = map(int, line.split())
        return threads, size

    def report(self, trace):
        """The line of JSON that is the trace's report."""
        return subprocess.run([self.path, "predict", "--json"], input=trace, stdout=subprocess.PIPE).stdout

    def expect(self, what, is_so):
        self.passed += is_so
        self.failed += not is_so
        if not is_so:
            print(f"FAILED: {what}")


def trace_of(threads):
    """Threads that each take two locks of their own: an edge of each, and no cycle."""
    lines = (f"T{n}|acq(a{n})|1\nT{n}|acq(b{n})|2\nT{n}|rel(b{n})|3\nT{n}|rel(a{n})|4\n" for n in range(threads))
    return "".join(lines).encode()


def threads_of_sessions(program):
    """A thread for each recorder and each shard's worker; the collector is the calling thread, which also reads a text as
    small as this. With --stream the calling thread reads and records, and the collector has a thread of its own."""
    trace = trace_of(16)
    program.expect("predict starts no thread for sixteen edges", program.counts("predict", trace)[0] == 0)
    for recorders in (1, 2, 5, 16):
        for shards in (1, 3, 16):
            for listed in ("", " --findings"):
                words = f"live{listed} --recorders {recorders} --shards {shards}"
                got = program.counts(words, trace)[0]
                program.expect(f"{words}: {recorders + shards} threads, not {got}", got == recorders + shards)
    for shards in (1, 3, 16):
        for listed in ("", " --findings"):
            words = f"live --stream{listed} --shards {shards}"
            got = program.counts(words, trace)[0]
            program.expect(f"{words}: {1 + shards} threads, not {got}", got == 1 + shards)
    program.expect("live: 4 recorders and 4 shards", program.counts("live", trace)[0] == 8)


def threads_that_read(program):
    """One thread reads alone where fewer than three are asked for, or where the text is small; else some are started, as
    many as the text has pieces for. Unless said, as many read as there are processors."""
    events = b"T0|acq(a)|1\nT0|rel(a)|2\n"
    for words in ("predict", "stats", "replay", "check"):
        report = program.report(events) if words == "check" else b""  # that of all these traces, which have no edge
        trace = report + events * 100000
        small = 8000 if words in ("predict", "stats") else 16000  # beyond that these look for edges by several threads
        for jobs in (1, 2):
            got = program.counts(f"{words} --jobs {jobs}", trace)[0]
            later = 2 if jobs == 2 and words in ("predict", "stats") else 0  # one for edges, and one for the order
            program.expect(f"{words} --jobs {jobs} starts {later} threads, not {got}", got == later)
        for jobs in (3, 16):
            got = program.counts(f"{words} --jobs {jobs}", trace)[0]
            program.expect(f"{words} --jobs {jobs} starts threads", got > 1)
            got = program.counts(f"{words} --jobs {jobs}", report + events * small)[0]
            program.expect(f"{words} --jobs {jobs} starts no thread for a small text, not {got}", got == 0)
        usual = program.counts(words, trace)[0]
        several = len(os.sched_getaffinity(0)) >= 3
        program.expect(f"{words}: several threads where there are as many processors", (usual > 1) == several)


def threads_that_look_for_edges(program):
    """Each of several threads takes the lists of some threads of the trace, or a part of a long list, where there are many
    events and two are asked for. A text as small as this is read by one thread."""
    events = b"".join(b"T%d|acq(a)|1\nT%d|rel(a)|2\n" % (number, number) for number in range(2))
    for words in ("predict", "stats"):
        got = program.counts(f"{words} --jobs 1", events * 6000)[0]
        program.expect(f"{words} --jobs 1 starts no thread, not {got}", got == 0)
        got = program.counts(f"{words} --jobs 2", events * 6000)[0]
        program.expect(f"{words} --jobs 2 starts threads for 24,000 events of two threads", got > 0)
        got = program.counts(f"{words} --jobs 2", events * 4050)[0]
        program.expect(f"{words} --jobs 2 starts no thread for 16,200 events, not {got}", got == 0)
        for jobs, parts in ((2, 2), (4, 4), (16, 8)):
            got = program.counts(f"{words} --jobs {jobs}", b"T0|acq(a)|1\nT0|rel(a)|2\n" * 12000)[0]
            what = f"{words} --jobs {jobs} takes one thread's 24,000 events in {parts} parts"
            program.expect(f"{what}, so it starts up to {parts - 1} threads, not {got}", 0 < got < parts)


def ring_under_gates():
    """A trace without a cycle that it takes long to search: 12,000 events of threads that go from one of four layers of locks on
    to the next one, round, each time under two of seven gates. A cycle would have four edges, and so eight gates: of any two
    or three edges that can't be told. And under two locks of the thread's own, so that few edges are alike."""
    draws, lines = random.Random(1), []
    for section in range(1000):
        thread, layer = f"T{draws.randrange(60)}", draws.randrange(4)
        own = [f"own{thread}.{number}" for number in sorted(draws.sample(range(5), 2))]
        gates = [f"gate{number}" for number in sorted(draws.sample(range(7), 2))]
        ring = [f"ring{at % 4}.{draws.randrange(2)}" for at in (layer, layer + 1)]
        names = own + gates + ring
        lines += [f"{thread}|acq({name})|{section % 40}.{place}\n" for place, name in enumerate(names)]
        lines += [f"{thread}|rel({name})|9\n" for name in reversed(names)]
    return "".join(lines).encode()


def threads_that_search(program):
    """One thread where one is asked for; else some where the search takes long, though the text is small."""
    trace = ring_under_gates()
    for words in ("predict", "predict --json", "predict --findings", "stats"):
        got = program.counts(f"{words} --jobs 1", trace)[0]
        program.expect(f"{words} --jobs 1 starts no thread for a long search, not {got}", got == 0)
        got = program.counts(f"{words} --jobs 2", trace)[0]
        program.expect(f"{words} --jobs 2 starts threads for a long search", got > 0)


def room_of(program, words, few, many, trace=trace_of(2)):
    """The bytes that are asked for more where a number in the words is the greater one."""
    return program.counts(words.format(many), trace)[1] - program.counts(words.format(few), trace)[1]


def rings_of_sessions(program):
    """Each lane has room for as many notes as the ring has, each feed for as many edges, and no more than twice that."""
    for form in ("live", "live --findings", "live --stream --threads 2", "live --stream --findings --threads 2"):
        for few, many in ((1, 1024), (1024, 65536)):
            got = room_of(program, form + " --shards 1 --ring {}", few, many)
            least = (many - few) * (2 * NOTE + EDGE)
            program.expect(f"{form}: rings of {many} take {least} bytes more than of {few}, not {got}", got >= least)
            program.expect(f"{form}: rings of {many} take too much more: {got}", got <= 8 * least)
        got = room_of(program, form + " --ring 4096 --shards {}", 1, 5)
        least = 4 * 4096 * EDGE
        program.expect(f"{form}: four feeds of 4,096 edges take {least} bytes, not {got}", got >= least)
    lanes = [program.counts("live --ring 4096 --shards 1", trace_of(threads))[1] for threads in (2, 10)]
    program.expect("live: eight lanes of 4,096 notes", lanes[1] - lanes[0] >= 8 * 4096 * NOTE)
    got = room_of(program, "live --stream --ring 4096 --shards 1 --threads {}", 2, 10)
    program.expect("live --stream: eight lanes of 4,096 notes", got >= 8 * 4096 * NOTE)
    # Unless said, a ring has 256 and there are 64 lanes.
    usual = program.counts("live --stream", trace_of(2))[1]
    said = program.counts("live --stream --ring 256 --threads 64 --shards 4", trace_of(2))[1]
    program.expect(f"live --stream: {said} bytes as with the usual options, not {usual}", abs(usual - said) < 4096)


def main():
    if len(sys.argv) != 2:
        print(__doc__, file=sys.stderr)
        return 2
    with tempfile.TemporaryDirectory() as folder:
        program = Program(sys.argv[1], folder)
        threads_of_sessions(program)
        threads_that_read(program)
        threads_that_look_for_edges(program)
        threads_that_search(program)
        rings_of_sessions(program)
    print(f"{program.passed} passed, {program.failed} failed")
    return 1 if program.failed else 0


if __name__ == "__main__":
    sys.exit(main())
