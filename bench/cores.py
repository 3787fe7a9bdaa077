#!/usr/bin/env python3
"""Times goodlock by one thread and by several, beside the plain and the tuned program, on the same large traces.

    bench/cores.py [--runs N] [--events N] [--shapes LIST] [--files LIST] [--jobs LIST] [--words WORDS] [PROGRAM]

PROGRAM is goodlock's (what ./goodlock runs, unless given), run as `predict --jobs J` for each J of --jobs (1,2,3,4); --words
are other ones than `predict`, as "live" or "live --stream --threads 1024". All run in turn, --runs (5) times each, on a trace
of --events (1,000,000) lines of each shape, and on each file of --files (.std or .std.xz). The table has milliseconds: the
least on the clock, in parentheses the least of user and system time, and the clock of the last J over that of the peers.
"even" is how long that many processes take that run `--jobs 1` at once, each on the whole trace, over their number: what
that many threads would take if their work were shared evenly, with nothing that one has to wait for. It says what the
machine's processors do together, which on virtual ones is less than their number tells.
BENCH_DIR is the folder for traces and peers (/tmp/goodlock-bench). The status is 1 where two answers differ.
"""

import argparse
import contextlib
import glob
import lzma
import os
import shlex
import shutil
import subprocess
import sys
import time

from beside import FOLDER, HERE, run, trace_of

SHAPES = (
    "few-locks,many-locks,long-names,deep-nesting,many-cycles,none,readers,forks,item-locks,long-sections,connections,"
    "lock-table"
)
OPTIONS = ["--mode", "full", "--len", "4", "--max", "1000"]
PEERS = ("plain", "tuned")


def peer(name):
    """The path of a peer, which is compiled."""
    path = os.path.join(FOLDER, name)
    source = os.path.join(HERE, name, "main.rs")
    subprocess.run(["rustc", "--edition", "2021", "-C", "opt-level=3", "-o", path, source], check=True)
    return path


def unpacked(file):
    """The path of a trace as it is read."""
    if not file.endswith(".xz"):
        return file
    path = os.path.join(FOLDER, os.path.basename(file)[: -len(".xz")])
    with lzma.open(file) as packed, open(path, "wb") as trace:
        shutil.copyfileobj(packed, trace)
    return path


def best_of(commands, trace, runs):
    """The least milliseconds on the clock and of processors of each command, run in turn, and whether all answer the same."""
    clocks, processors, answers = [[] for _ in commands], [[] for _ in commands], []
    for _ in range(runs):
        for command, clock, processor in zip(commands, clocks, processors):
            start = time.monotonic()
            used, answer = run(command, trace)
            clock.append((time.monotonic() - start) * 1000)
            processor.append(used * 1000)
            answers.append(answer)
    return [*zip(map(min, clocks), map(min, processors))], all(answer == answers[0] for answer in answers)


def at_once(command, trace, count):
    """The milliseconds until all of so many processes, which begin at once, have ended."""
    with contextlib.ExitStack() as files:
        texts = [files.enter_context(open(trace, "rb")) for _ in range(count)]
        start = time.monotonic()
        children = [subprocess.Popen(command, stdin=text, stdout=subprocess.DEVNULL) for text in texts]
        for child in children:
            child.wait()
        return (time.monotonic() - start) * 1000


def even_share(command, trace, count, runs):
    """The least milliseconds in which so many processes at once do the work of one of them, counted together."""
    return min(at_once(command, trace, count) for _ in range(runs)) / count


def row(name, best, even, are_equal):
    """A line of the table."""
    (plain, _), (tuned, _), *own = best
    cells = [f"{plain:.0f}", f"{tuned:.0f}", *(f"{clock:.0f} ({used:.0f})" for clock, used in own), f"{even:.0f}"]
    over = [f"{own[-1][0] / plain:.2f}", f"{own[-1][0] / tuned:.2f}"]
    return f"| `{name}`{'' if are_equal else ' the answers DIFFER'} | {' | '.join(cells + over)} |"


def options_of(words):
    parser = argparse.ArgumentParser(description=__doc__, formatter_class=argparse.RawDescriptionHelpFormatter)
    parser.add_argument("--runs", type=int, default=5)
    parser.add_argument("--events", type=int, default=1_000_000)
    parser.add_argument("--shapes", default=SHAPES)
    parser.add_argument("--files", default=",".join(sorted(glob.glob(os.path.join(HERE, "traces", "*.std.xz")))))
    parser.add_argument("--jobs", default="1,2,3,4")
    parser.add_argument("--words", default="predict")
    parser.add_argument("program", nargs="?")
    return parser.parse_args(words)


def main():
    options = options_of(sys.argv[1:])
    os.makedirs(FOLDER, exist_ok=True)
    which = {**os.environ, "GOODLOCK_WHICH": "1"}
    program = (
        options.program or subprocess.check_output([os.path.join(HERE, "..", "goodlock")], env=which, text=True).strip()
    )
    jobs = options.jobs.split(",")
    goodlock = [program, *shlex.split(options.words), "--jobs"]
    commands = [[peer(name), *OPTIONS] for name in PEERS] + [[*goodlock, count] for count in jobs]
    print(f"least of {options.runs}, milliseconds on the clock (of processors); about {options.events} lines a shape")
    heads = ["Trace", *PEERS, *(f"`--jobs {count}`" for count in jobs), f"even {jobs[-1]}"]
    heads += [f"{jobs[-1]} / {name}" for name in PEERS]
    print(f"| {' | '.join(heads)} |\n|{'---|' * len(heads)}")
    traces = [
        (shape, lambda shape=shape: trace_of(shape, options.events)) for shape in options.shapes.split(",") if shape
    ]
    traces += [
        (os.path.basename(file).split(".std")[0], lambda file=file: unpacked(file))
        for file in options.files.split(",")
        if file
    ]
    differ = False
    for name, path in traces:
        trace = path()
        best, are_equal = best_of(commands, trace, options.runs)
        even = even_share([*goodlock, "1"], trace, int(jobs[-1]), options.runs)
        differ = differ or not are_equal
        print(row(name, best, even, are_equal), flush=True)
    return 1 if differ else 0


if __name__ == "__main__":
    sys.exit(main())
