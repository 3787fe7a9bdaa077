#!/usr/bin/env python3
"""Times two programs on the same large traces, run in turn, and counts their instructions.

    bench/beside.py [--runs N] [--events N] [--shapes LIST] FIRST SECOND

FIRST and SECOND are a program with its words each, as `old/goodlock` and `"crates/goodlock/out/goodlock predict"`. The time
is user and system seconds of the process: the least and the median of --runs (21) runs on a trace of --events (1,000,000)
lines, first, second, first, second, so that what else the machine does meets both. Instructions are those that valgrind's
callgrind counts in one run of each, which hardly differ from run to run; without valgrind they are left out.
BENCH_DIR is the folder for the traces (/tmp/goodlock-bench). The status is 1 where two answers differ.
"""

import argparse
import os
import re
import shlex
import shutil
import statistics
import subprocess
import sys
import tempfile

HERE = os.path.dirname(os.path.realpath(__file__))
FOLDER = os.environ.get("BENCH_DIR", "/tmp/goodlock-bench")
SHAPES = "few-locks,many-locks,long-names,deep-nesting,many-cycles,none,forks"


def trace_of(shape, events):
    """The path of the trace, which is made once."""
    path = os.path.join(FOLDER, f"{shape}-{events}.std")
    maker = os.path.join(HERE, "make_trace.py")
    if not os.path.exists(path) or os.path.getmtime(path) < os.path.getmtime(maker):
        with open(path + ".new", "wb") as file:
            subprocess.run([sys.executable, maker, "--shape", shape, "--events", str(events), "--seed", "1"],
                           stdout=file, check=True)  # fmt: skip
        os.rename(path + ".new", path)
    return path


def run(words, trace):
    """User and system seconds, and the answer."""
    with open(trace, "rb") as text, tempfile.TemporaryFile() as output, tempfile.TemporaryFile() as errors:
        child = subprocess.Popen(words, stdin=text, stdout=output, stderr=errors)
        _, status, used = os.wait4(child.pid, 0)
        child.returncode = os.waitstatus_to_exitcode(status)
        output.seek(0)
        errors.seek(0)
        return used.ru_utime + used.ru_stime, (output.read(), errors.read(), child.returncode)


def instructions(words, trace):
    with open(trace, "rb") as text:
        command = ["valgrind", "--tool=callgrind", "--callgrind-out-file=/dev/null", *words]
        done = subprocess.run(command, stdin=text, stdout=subprocess.DEVNULL, stderr=subprocess.PIPE, text=True)
    return int(re.search(r"Collected : (\d+)", done.stderr)[1])


def main():
    parser = argparse.ArgumentParser(description=__doc__, formatter_class=argparse.RawDescriptionHelpFormatter)
    parser.add_argument("--runs", type=int, default=21)
    parser.add_argument("--events", type=int, default=1_000_000)
    parser.add_argument("--shapes", default=SHAPES)
    parser.add_argument("first")
    parser.add_argument("second")
    options = parser.parse_args()
    programs = [shlex.split(options.first), shlex.split(options.second)]
    os.makedirs(FOLDER, exist_ok=True)
    differ = False
    print(
        f"{options.runs} runs of each on {options.events} lines; seconds are least and median, M are million instructions"
    )
    print("| Trace | First | Second | Second/first | First | Second | Second/first |")
    print("|---|---|---|---|---|---|---|")
    for shape in options.shapes.split(","):
        trace = trace_of(shape, options.events)
        seconds, answers = ([], []), []
        for turn in range(options.runs):
            for words, times in zip(programs, seconds):
                spent, answer = run(words, trace)
                times.append(spent)
                answers.append(answer)
        differ = differ or any(answer != answers[0] for answer in answers)
        least, middle = [min(times) for times in seconds], [statistics.median(times) for times in seconds]
        cells = [f"{least[0]:.3f}, {middle[0]:.3f} s", f"{least[1]:.3f}, {middle[1]:.3f} s"]
        cells.append(f"{least[1] / least[0]:.2f}, {middle[1] / middle[0]:.2f}")
        if shutil.which("valgrind"):
            counts = [instructions(words, trace) for words in programs]
            cells += [f"{counts[0] / 1e6:.0f} M", f"{counts[1] / 1e6:.0f} M", f"{counts[1] / counts[0]:.2f}"]
        else:
            cells += ["-", "-", "-"]
        told = "" if all(answer == answers[0] for answer in answers) else " the answers DIFFER"
        print(f"| `{shape}`{told} | {' | '.join(cells)} |", flush=True)
    return 1 if differ else 0


if __name__ == "__main__":
    sys.exit(main())
