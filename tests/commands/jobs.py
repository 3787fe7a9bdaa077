#!/usr/bin/env python3
"""Tests that a command answers the same however many threads read its trace.

    jobs.py [--cases N] [--seed N] PROGRAM

Texts of up to some megabytes are read in many pieces, whose lines are cut and numbered by several threads, later ones with
the names of those before: traces of bench/make_trace.py with blank lines, CR LF, words that aren't watched, long lines and
faults put in anywhere, from a file and from a pipe that gives them in parts of any size, with an end of line at the end or
without. What the command writes by one thread (which other tests compare with models) it has to write by two, three, four,
nine and as many as there are processors, with the same status. The last line is `N passed, N failed`.
"""

import argparse
import functools
import os
import pathlib
import random
import subprocess
import sys
import tempfile
import threading

TOP = pathlib.Path(__file__).resolve().parents[2]
LARGEST = "ordinary-names"
SHAPES = ("few-locks", "many-locks", "forks", "readers", "connections", "item-locks", LARGEST)
# lines that are no events, or faults of a line alone
OTHERS = (b"", b"T0|w(x)|3", b"T0|req(l)|4", b"T0|rel(never)|5", b"new|acq(l)|6", b"T1|fork(new2)|7")
FAULTS = (b"T0", b"T0|acq(a)", b"|acq(a)|1", b"T0|acq()|1", b"T0|fork(T0)|1", b"x" * 65537, b"y" * 700000)
WORDS = ("replay", "stats", "predict --json", "predict --findings", "live --json", "check")
JOBS = (2, 3, 4, 9, 0)


def made(*words):
    """The lines of a trace of these options."""
    done = subprocess.run([sys.executable, TOP / "bench/make_trace.py", *words], capture_output=True, check=True)
    return done.stdout.split(b"\n")[:-1]


@functools.lru_cache(maxsize=None)
def made_largest():
    return made("--shape", LARGEST)


def shape_of(rng):
    """The lines of a trace. The largest one is the same whatever its events and seed, and takes long to make."""
    events, shape, seed = rng.choice((3, 50, 2000, 20000, 60000, 250000)), rng.choice(SHAPES), rng.randrange(1000)
    if shape == LARGEST:
        return [*made_largest()]
    return made("--shape", shape, "--events", str(events), "--seed", str(seed))


def text_of(rng):
    """A text to be read."""
    lines = shape_of(rng)
    for _ in range(rng.choice((0, 1, 30))):
        lines.insert(rng.randrange(len(lines) + 1), rng.choice(OTHERS))
    if rng.random() < 0.4:
        lines.insert(rng.randrange(len(lines) + 1), rng.choice(FAULTS))
    if rng.random() < 0.3:
        text = b"".join(line + rng.choice((b"\n", b"\r\n")) for line in lines)
    else:
        text = b"\n".join(lines) + b"\n"
    return text if rng.random() < 0.7 else text.rstrip(b"\r\n")


def pour(pipe, text, rng):
    """Writes the text into a pipe, in parts of any size."""
    sizes = [rng.choice((1, 100, 4096, 65536, 200000)) for _ in range(40)]
    text = memoryview(text)  # of which parts are no copies
    with pipe:
        for size in sizes + [len(text)]:
            part, text = text[:size], text[size:]
            try:
                pipe.write(part)
                pipe.flush()
            except BrokenPipeError:
                return


def answer(program, words, path, rng):
    """What the program says, of the file or of a pipe that it comes through."""
    if rng.random() < 0.6:
        with open(path, "rb") as trace:
            done = subprocess.run([program, *words], stdin=trace, capture_output=True, timeout=300)
        return done.returncode, done.stdout, done.stderr
    with subprocess.Popen(
        [program, *words], stdin=subprocess.PIPE, stdout=subprocess.PIPE, stderr=subprocess.PIPE
    ) as running:
        pouring = threading.Thread(target=pour, args=(running.stdin, path.read_bytes(), rng))
        pouring.start()
        out = []
        reading = threading.Thread(target=lambda: out.append(running.stdout.read()))
        reading.start()
        error = running.stderr.read()
        pouring.join()
        reading.join()
    return running.returncode, out[0], error


def main():
    parser = argparse.ArgumentParser()
    parser.add_argument("--cases", type=int, default=60)
    parser.add_argument("--seed", type=int, default=1)
    parser.add_argument("program")
    given = parser.parse_args()
    rng = random.Random(given.seed)
    program = os.path.abspath(given.program)
    passed = failed = 0
    with tempfile.TemporaryDirectory() as folder:
        path = pathlib.Path(folder) / "trace.std"
        for case in range(given.cases):
            path.write_bytes(text_of(rng))
            words = rng.choice(WORDS).split()
            if words == ["check"]:
                report = answer(program, ["predict", "--json", "--jobs", "1"], path, rng)[1]
                path.write_bytes((report or b"{}\n") + path.read_bytes())  # a trace that is refused has no report
            wanted = answer(program, [*words, "--jobs", "1"], path, rng)
            for jobs in JOBS:
                got = answer(program, [*words, "--jobs", str(jobs)], path, rng)
                passed += got == wanted
                failed += got != wanted
                if got != wanted:
                    print(
                        f"FAILED: seed {given.seed}, case {case}: {' '.join(words)} --jobs {jobs}: {got[0]}, {got[2]}"
                    )
    print(f"{passed} passed, {failed} failed")
    return 1 if failed else 0


if __name__ == "__main__":
    sys.exit(main())
