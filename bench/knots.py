#!/usr/bin/env python3
"""Time and memory of goodlock, a plain and a tuned Rust program on traces whose edges lie in one knot, whose names were
chosen to collide, or which are like those of programs.

    bench/knots.py [--seconds N] [--cores LIST] [--shapes LIST] [--query WORDS] [--sizes small|large] [--runs N] [PROGRAM]

PROGRAM is goodlock's (what ./goodlock runs unless given). The output is a table with a row for each shape and its
parameters. Each run ends after --seconds (20). --cores, as `1,2,4`, gives goodlock one column for each number of cores; the
peers run on one thread always. Of --runs (1), which the programs take in turn, the least time counts. --query is what all
three are asked (--mode full --len 4 --max 1000). BENCH_DIR is the folder for the Rust programs (/tmp/goodlock-bench).
Seconds are of the clock, MB are the greatest resident memory that was seen (- where the run was too short for that).
The status is 1 where two answers differ.
"""

import argparse
import os
import re
import subprocess
import sys
import tempfile
import time
import typing

from families import FAMILIES

HERE = os.path.dirname(os.path.realpath(__file__))
LAUNCHER = os.path.join(os.path.dirname(HERE), "goodlock")
FOLDER = os.environ.get("BENCH_DIR", "/tmp/goodlock-bench")

# The shape of several others behind each other.
TOGETHER = "together"

# The options of bench/make_trace.py, or of bench/families.py for a family, for each shape, by size; behind `ask` what is
# asked in place of --query.
SHAPES = {
    "gated-requests": {
        "small": ["--threads 100", "--threads 200"],
        "large": ["--threads 400", "--threads 1000", "--threads 1000 --sections 8"],
    },
    "alternating-gates": {
        "small": ["--segments 2", "--segments 5"],
        "large": [
            "--segments 10",
            "--segments 100",
            "--segments 100 --sections 6 --gates 3",
            "--segments 20 --sections 10 --gates 9 ask --len 16",
        ],
    },
    "early-and-late": {
        "small": ["--threads 100 --segments 200"],
        "large": ["--threads 600", "--threads 1000 --segments 4000", "--threads 1000 --segments 2000 --sections 4"],
    },
    "few-threads": {
        "small": ["--segments 10"],
        "large": [
            "--segments 30",
            "--segments 100",
            "--threads 5 --sections 6 --segments 100",
            "--threads 7 --sections 14 --segments 20 ask --len 16",
        ],
    },
    # All edges of a thread lie on loops, and each leads on to hundreds of its own thread.
    "all-pairs": {
        "small": [
            "--locks 100",
            "--threads 2 --locks 100",
            "--threads 4 --locks 50 --common 2",
            "--locks 1 --common 60 --threads 2 --gated",
        ],
        "large": [
            "--locks 400",
            "--threads 8 --locks 120",
            "--threads 4 --locks 150 --common 2",
            "--threads 4 --locks 100 --gated",
            "--threads 2 --locks 1 --common 120 --gated",
            "--threads 8 --locks 1 --common 60 --gated",
            "--threads 8 --locks 1 --common 80 --in-turn",
        ],
    },
    # Two locks in any order each time: an edge leads to ten others, and there are thousands of cycles. Asked for one cycle
    # of two edges, nearly all the time is reading and making edges: what the others take longer is their search.
    "many-locks": {
        "small": [
            "--locks 1000 --sections 10000 --events 80000 --depth 2 --disorder 1 --others 0 ask --mode basic --len 2 --max 1",
            "--locks 1000 --sections 10000 --events 80000 --depth 2 --disorder 1 --others 0 ask --len 4 --max 100000",
        ],
        "large": [
            "--locks 10000 --sections 100000 --events 800000 --depth 2 --disorder 1 --others 0 ask --mode basic --len 2 --max 1",
            "--locks 10000 --sections 100000 --events 800000 --depth 2 --disorder 1 --others 0 ask --len 4 --max 100000",
            "--locks 10000 --sections 100000 --events 800000 --depth 2 --disorder 1 --others 0 ask --len 5 --max 100000",
        ],
    },
    # Nearly each lock leads to each other one, and little can be left out: what is left is the search itself.
    "two-orders": {
        "small": ["--sections 1000", "--sections 1500"],
        "large": ["--sections 3000", "--threads 16 --locks 60 --sections 2000"],
    },
    "all-locks": {
        "small": ["--sections 60 ask --mode full --len 8 --max 1000"],
        "large": ["--threads 4 --locks 20 ask --mode full --len 4 --max 1000"],
    },
    # Hardly any two acquires have one guard set, so that few edges are alike; but a cycle has no more edges than there
    # are threads, or gate locks.
    "nested-locks": {
        "small": ["", "--threads 2 --depth 20", "--threads 4 --depth 20 --sections 200 --gated"],
        "large": [
            "--sections 200",
            "--threads 2 --locks 120 --depth 8 --sections 800",
            "--threads 4 --depth 20 --sections 300 --gated",
            "--threads 60 --locks 120 --depth 12 --sections 1000 --gated",
            "--threads 200 --locks 30 --depth 6 --sections 2000 --gated --gates 2",
        ],
    },
    # Few of the threads are there at the same time, which the order of segments alone tells.
    "windows": {
        "small": ["--threads 100 --locks 20 --sections 300 --at-once 1"],
        "large": [
            "",
            "--depth 6 --sections 1500 --at-once 2",
            "--threads 1000 --depth 6 --sections 2000",
            "--threads 200 --depth 6 --sections 2000 --at-once 1",
        ],
    },
    # Readers wait for writers alone: what reads in any order is in no cycle, and few writers make few.
    "readers": {
        "small": ["--threads 50 --locks 60 --depth 4 --sections 6000 --disorder 1 --events 60000 --shared 1"],
        "large": ["--threads 50 --locks 60 --depth 4 --sections 6000 --disorder 1 --events 60000 --shared 0.99"],
    },
    # What can be left out is seen in turns, one of which lets the next one leave out more.
    "phases": {"small": ["--threads 250 --sections 2000 --depth 4"], "large": ["--threads 500", ""]},
    # The same, of threads that meet; and writers in any order, who keep all others out.
    "barriers": {"small": [""], "large": ["--threads 252 --sections 1440"]},
    "writers": {"small": ["--threads 6 --sections 600 --depth 8"], "large": [""]},
    # Each edge leads on to thousands, and hardly any path comes back: ways that lead nowhere are to be seen early.
    "tree": {
        "small": ["--threads 300 --locks 10 --depth 9 --segments 3", "--locks 10 --depth 9 --segments 3"],
        "large": ["", "--locks 64 --depth 63"],
    },
    "layers": {"small": ["--sections 4000"], "large": ["", "--threads 16 --depth 5 --locks 40 ask --len 4"]},
    "colliding-names": {"small": ["--locks 10000"], "large": ["--locks 100000"]},
    "ordinary-names": {"small": ["--locks 10000"], "large": ["--locks 100000"]},
    # Families: first as they are.
    "modules": {
        "small": [""],
        "large": [
            "--threads-of-module 2 --sections 400 --depth 8",
            "--threads-of-module 4 --locks 30 --depth 8 --depth-of-linker 4 ask --len 5",
            "--gated 0.97 --sections 300",
            "--modules 4 --threads-of-module 4 --depth 4 --sections 60 --linkers 12 --links 30 --linked-under-gate",
        ],
    },
    "subsystems": {"small": [""], "large": ["--sections 400 --depth 5"]},
    "gate-subsets": {
        "small": ["", "--layers 5 --gates 4 --gates-of-section 1 --locks 8 --threads 30 --aside 1 ask --len 5"],
        "large": ["--threads 200 --locks 12 --sections 30", "--layers 5 --gates 9 --locks 12 ask --len 5"],
    },
    "offsets": {"small": ["--offsets 7 ask --len 7", "--offsets 9 ask --len 6"], "large": ["--offsets 10 ask --len 6"]},
    "pool": {
        "small": [""],
        "large": [
            "--waves 30 --threads-of-wave 5 --locks 15 --sections 20 --depth 6 --lasting 0",
            "--waves 30 --threads-of-wave 10 --locks 15 --depth 6 ask --len 5",
        ],
    },
    "pipeline": {"small": [""], "large": ["--locks 3 --sections 6 --overlap 2"]},
    "database": {
        "small": ["", "--threads 8 --pages 20 --readers 0.9 --backups 0 --checkpoints 0 ask --len 5"],
        "large": [
            "--disorder 0 --checkpoints 0",
            "--threads 60 --tables 4 --pages 80 --readers 0.9 --backups 0 --checkpoints 0 ask --max 100000",
        ],
    },
    "hierarchy": {"small": [""], "large": ["--threads 80 --rows 3 --escalated 0.01 ask --max 100000"]},
    "turnstile": {
        "small": ["", "--lanes 1"],
        "large": ["--lanes 5 --requests 60 --locks 15 --depth 6 --by-main ask --len 6"],
    },
    "cohorts": {"small": ["", "--guards-of-section 3 --shared 0.3"], "large": ["--kinds 2 --threads-of-kind 60"]},
    "handover": {
        "small": ["", "--threads 100 --depth 5 --sections 20 --fan 3 ask --len 6"],
        "large": ["--depth 9 --no-gated ask --len 6"],
    },
    "grid": {"small": ["--side 6 --back 0.1"], "large": ["", "--side 5 --threads 150"]},
    "work-stealing": {"small": [""], "large": ["--disorder 0.05 --gated 1"]},
    "stripes": {"small": [""], "large": ["--depth 4 --locks 100", "--disorder 0.02 --gated"]},
    "shards": {"small": [""], "large": ["--disorder 0"]},
    "recursive": {"small": [""], "large": ["--sections 200 --gated 1 ask --max 100000"]},
    "back-off": {"small": [""], "large": ["--tried 0.95 --depth 6"]},
    "gui": {"small": [""], "large": ["--gated 1 --gates 1 --inner 0"]},
    "frames": {"small": [""], "large": ["--no-rendered"]},
    "actors": {"small": [""], "large": ["--dispatched 0"]},
    # Small traces, of 10,000 to 16,000 events, whose guards, modes or segments keep a search busy for long.
    "rearranged": {"small": ["--sections 60 --resizes 6"], "large": [""]},
    "kept-out": {"small": ["--kinds 3 --threads-of-kind 8"], "large": [""]},
    "splits": {"small": ["--threads 7 --sections 50"], "large": ["", "--disorder 1"]},
    "intents": {"small": ["--threads 25"], "large": [""]},
    "generations": {"small": ["--generations 6 --locks 22 --depth 4"], "large": [""]},
    "eviction": {"small": ["--threads 7"], "large": [""]},
    "spatial": {"small": ["--threads-of-frame 7"], "large": [""]},
    "wavefront": {"small": ["--rows 8 --columns 8"], "large": [""]},
    # Two of them in one program, as parts that know nothing of each other: what helps one of both doesn't help the other.
    TOGETHER: {
        "small": ["early-and-late --threads 600 + nested-locks", "few-threads --segments 100 + windows"],
        "large": [
            "modules + windows",
            "gate-subsets + nested-locks",
            "phases --threads 250 --sections 2000 --depth 4 + two-orders",
            "phases --threads 250 --sections 2000 --depth 4 + windows",
        ],
    },
}


def text_of(shape, settings):
    """The text of a trace, by its shape and its settings."""
    if shape == TOGETHER:
        parts = [part.partition(" ") for part in settings.split(" + ")]
        return "".join(marked(text_of(name, rest), f"{number}.") for number, (name, _, rest) in enumerate(parts))
    script, *words = ["families.py"] if shape in FAMILIES else ["make_trace.py", "--shape"]
    maker = [sys.executable, os.path.join(HERE, script), *words, shape, *settings.split()]
    return subprocess.run(maker, stdout=subprocess.PIPE, encoding="latin-1", check=True).stdout


def marked(text, mark):
    """The text with a mark before the name of each thread, lock and place."""
    return re.sub(r"^(.*?)\|(\w+)\((.*?)\)\|", rf"{mark}\1|\2({mark}\3)|{mark}", text, flags=re.MULTILINE)


class Run(typing.NamedTuple):
    answer: tuple  # standard output, standard error, status; nothing where it didn't end
    seconds: float
    megabytes: float


def resident(child):
    """The greatest resident memory of the child so far, in MB; 0 where it isn't there, or isn't the program yet."""
    try:
        if os.readlink(f"/proc/{child}/exe") == os.readlink("/proc/self/exe"):
            return 0
        with open(f"/proc/{child}/status") as status:
            fields = dict(line.split(":", 1) for line in status)
        return int(fields["VmHWM"].split()[0]) * 1024 / 1e6
    except (OSError, KeyError):
        return 0


def run(command, trace, limit, cores):
    """The command on this trace, ended after so many seconds, on so many cores."""

    def prepare():
        if cores is not None:
            os.sched_setaffinity(0, sorted(os.sched_getaffinity(0))[:cores])

    with open(trace, "rb") as text, tempfile.TemporaryFile() as output, tempfile.TemporaryFile() as errors:
        start = time.monotonic()
        child = subprocess.Popen(command, stdin=text, stdout=output, stderr=errors, preexec_fn=prepare)
        megabytes = 0
        while child.poll() is None:
            seconds = time.monotonic() - start
            if seconds > limit:
                child.kill()
            megabytes = max(megabytes, resident(child.pid))
            time.sleep(0.002)
        seconds = time.monotonic() - start
        output.seek(0)
        errors.seek(0)
        answer = (output.read(), errors.read(), child.returncode) if seconds < limit else None
    return Run(answer, seconds, megabytes)


def shown(results, limit):
    """The least time, and the greatest memory that was seen."""
    ended = [result.seconds for result in results if result.answer is not None]
    seconds = f"{min(ended):.3f} s" if ended else f"over {limit:g} s"
    megabytes = max(result.megabytes for result in results)
    return f"{seconds}, {megabytes:.0f} MB" if megabytes > 0 else seconds


def program_at_hand():
    """The path of the program that ./goodlock runs."""
    which = {**os.environ, "GOODLOCK_WHICH": "1"}
    return subprocess.run([LAUNCHER], env=which, stdout=subprocess.PIPE, text=True, check=True).stdout.strip()


def main():
    parser = argparse.ArgumentParser(description=__doc__, formatter_class=argparse.RawDescriptionHelpFormatter)
    parser.add_argument("--seconds", type=float, default=20)
    parser.add_argument("--cores", default="")
    parser.add_argument("--shapes", default=",".join(SHAPES))
    parser.add_argument("--sizes", choices=["small", "large"], help="both unless given")
    parser.add_argument("--query", default="--mode full --len 4 --max 1000")
    parser.add_argument("--runs", type=int, default=1)
    parser.add_argument("program", nargs="?", default="")
    options = parser.parse_args()
    program = options.program or program_at_hand()
    if not os.access(program, os.X_OK):
        parser.error(f"there is no program at {program}")
    os.makedirs(FOLDER, exist_ok=True)
    for peer in ("plain", "tuned"):
        source, built = os.path.join(HERE, peer, "main.rs"), os.path.join(FOLDER, peer)
        subprocess.run(["rustc", "--edition", "2021", "-C", "opt-level=3", "-o", built, source], check=True)
    goodlock = [os.path.abspath(program), "predict"]
    cores = [int(n) for n in options.cores.split(",") if n]
    programs = [(f"goodlock, {n} core{'s' * (n > 1)}", goodlock, n) for n in cores] or [("goodlock", goodlock, None)]
    programs += [(peer, [os.path.join(FOLDER, peer)], None) for peer in ("plain", "tuned")]
    print(f"{options.query}; each run is ended after {options.seconds:g} seconds\n")
    print("| Trace | KB | " + " | ".join(name for name, _, _ in programs) + " |")
    print("|---" * (len(programs) + 2) + "|")
    differ = False
    for shape in options.shapes.split(","):
        for size in [options.sizes] if options.sizes else ["small", "large"]:
            for row in SHAPES[shape][size]:
                settings, _, asked = row.partition(" ask ")
                query = (asked or options.query).split()
                with tempfile.NamedTemporaryFile(suffix=".std") as trace:
                    trace.write(text_of(shape, settings).encode("latin-1"))
                    trace.flush()
                    results = [[] for _ in programs]
                    for turn in range(options.runs):
                        for (_, command, count), seen in zip(programs, results):
                            if not any(result.answer is None for result in seen):
                                seen.append(run([*command, *query], trace.name, options.seconds, count))
                    answers = [result.answer for seen in results for result in seen if result.answer is not None]
                    is_equal = all(answer == answers[0] for answer in answers)
                    kilobytes = os.path.getsize(trace.name) / 1_000
                cells = [shown(seen, options.seconds) for seen in results]
                told = "" if is_equal else " the answers DIFFER"
                print(f"| `{shape} {row}`{told} | {kilobytes:.0f} | {' | '.join(cells)} |", flush=True)
                differ = differ or not is_equal
    return 1 if differ else 0


if __name__ == "__main__":
    sys.exit(main())
