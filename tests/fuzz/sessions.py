#!/usr/bin/env python3
"""Runs many small sessions of `live` and compares what they print with `predict`'s, and with the reference.

    sessions.py [--cases N] [--seed S] [--jobs N] [--only K] PROGRAM

Each session has a random trace, rings of 1 to 256 events, 1 to 16 recorders and 1 to 16 shards; some list findings. Half of them
are with `--stream`; some of these get their trace piece by piece, or a limit of threads. The bytes on standard output and
standard error and the status are predict's, and on short traces the reference's; the reference's alone where the limit
may be less than the trace's threads. --jobs (4) sessions run at once, so that threads are often stopped in mid-course;
every eighth session runs on one core. Before them come streams whose input stays open: what is done meanwhile is seen
from outside. The last line is `N passed, N failed`, with one for each answer.
"""

import argparse
import concurrent.futures
import contextlib
import os
import pathlib
import random
import subprocess
import sys
import tempfile
import threading
import time

sys.dont_write_bytecode = True
sys.path.insert(0, str(pathlib.Path(__file__).resolve().parent.parent))

from fuzz import random_traces  # noqa: E402
from oracle import compare, worked_traces  # noqa: E402

SHORT = 34  # lines; longer traces are too much for the reference
MANY = 8  # threads; a long trace has fewer


def words_of(random_, is_short):
    """A query, a session's options, and whether these let a trace have few threads alone."""
    query = ["--mode", random_.choice(["basic", "guarded", "full"]), "--len", random_.choice([2, 3, 4, 16])]
    query += ["--max", random_.choice([1, 3, 1000]), *["--json"] * (random_.random() < 0.3)]
    query += ["--findings"] * (random_.random() < 0.4)
    ring = random_.choice([1, 1, 2, 3, random_.randint(1, 256), 256])
    session = ["--recorders", random_.randint(1, 16), "--shards", random_.randint(1, 16), "--ring", ring]
    is_limited = False
    if random_.random() < 0.5:
        is_limited = is_short and random_.random() < 0.3
        threads = random_.randint(1, MANY - 1) if is_limited else random_.choice([MANY, 64, 1024])
        session += ["--stream", *["--threads", threads] * (is_limited or random_.random() < 0.5)]
    return [str(word) for word in query], [str(word) for word in session], is_limited


def trace_of(seed, number, random_):
    """A short trace, or a long one of the same kinds of lines."""
    if random_.random() < 0.7:
        return random_traces.case(seed, number, SHORT), True
    maker = random_traces.Maker(random_)
    maker.size = random_.randint(SHORT, 5000)
    lines = maker.make()
    if random_.random() < 0.8:  # among many forks and joins there is nearly always a loop
        lines = [line for line in lines if "|fork(" not in line and "|join(" not in line]
    return random_traces.joined(random_, lines), False


def pieces_of(random_, text):
    """The text in up to 40 pieces."""
    cuts = sorted(random_.randint(0, len(text)) for _ in range(random_.randint(0, 39)))
    return [text[start:end] for start, end in zip([0, *cuts], [*cuts, len(text)])]


class Child:
    """The program, with an input that stays open until the answer is asked for. It is ended after five minutes."""

    def __init__(self, program, words):
        pipe = subprocess.PIPE
        self.child = subprocess.Popen([program, *words], stdin=pipe, stdout=pipe, stderr=pipe)
        self.timer = threading.Timer(300, self.child.kill)
        self.timer.start()

    def give(self, pieces):
        """Each piece by itself. A program that has its answer reads no more."""
        try:
            for piece in pieces:
                self.child.stdin.write(piece)
                self.child.stdin.flush()
                time.sleep(0.0005)
        except BrokenPipeError:
            pass

    def threads(self):
        """How many threads run."""
        try:
            return len(os.listdir(f"/proc/{self.child.pid}/task"))
        except FileNotFoundError:
            return 0

    def ends(self, seconds):
        """Whether it ends within so many seconds."""
        try:
            self.child.wait(seconds)
        except subprocess.TimeoutExpired:
            return False
        return True

    def answer(self):
        """The answer once its input has ended."""
        output, errors = self.child.communicate()
        self.timer.cancel()
        return output, errors, self.child.returncode


@contextlib.contextmanager
def on_one_core():
    """What this thread starts meanwhile runs on one core: a child has the cores of the thread that makes it."""
    cores = os.sched_getaffinity(0)
    os.sched_setaffinity(0, [min(cores)])
    yield
    os.sched_setaffinity(0, cores)


def run(program, words, pieces, is_alone):
    """The answer; on one core where it is alone. After five minutes its status tells of a signal."""
    with on_one_core() if is_alone else contextlib.nullcontext():
        child = Child(program, words)
    child.give(pieces)
    return child.answer()


def session(program, seed, number):
    """Whether all answers are equal; the words, the trace and the answers."""
    random_ = random.Random(f"{seed}/{number}/session")
    text, is_short = trace_of(seed, number, random_)
    query, options, is_limited = words_of(random_, is_short)
    pieces = pieces_of(random_, text) if "--stream" in options and random_.random() < 0.3 else [text]
    answers = [("live", run(program, ["live", *query, *options], pieces, number % 8 == 0))]
    if not is_limited:
        answers.append(("predict", run(program, ["predict", *query], [text], False)))
    if is_short:
        answers.append(("reference", compare.by_reference(["live", *query, *options], text)))
    return all(answer == answers[0][1] for _, answer in answers), [*query, *options], text, answers


# --- Streams whose input stays open ----------------------------------------------------------------------

OPPOSITE = worked_traces.lines(*worked_traces.OPPOSITE)
# The same again and again: more than a pipe and the program's buffer hold, by a thousand events.
LONG = worked_traces.lines(*worked_traces.OPPOSITE[:4]) * 3000 + OPPOSITE
REFUSED = {
    "a bad line": (
        [],
        worked_traces.lines(*worked_traces.OPPOSITE[:2]) + b"T0|rel(a|3\n",
        worked_traces.refused(3, "bad operand"),
    ),
    "a bad line, findings": (
        ["--findings"],
        worked_traces.lines(*worked_traces.OPPOSITE[:2]) + b"T0|rel(a|3\n",
        worked_traces.refused(3, "bad operand"),
    ),
    "one thread too few": (["--threads", "1"], OPPOSITE, worked_traces.refused(5, "too many threads")),
    "a bad line after many": (["--ring", "16"], LONG + b"T0\n", worked_traces.refused(12_007, "no bar")),
}


def waits_for(is_so):
    """Whether it is so within a minute."""
    end = time.monotonic() + 60
    while not is_so() and time.monotonic() < end:
        time.sleep(0.01)
    return is_so()


def open_inputs(program):
    """What was tried, what is right, and what was seen."""
    for name, (words, text, answer) in REFUSED.items():
        child = Child(program, ["live", "--stream", *words])
        child.give([text])
        yield f"{name}, refused before the input ends", True, child.ends(120)
        yield name, answer, child.answer()
    # The reader, a worker for each shard, and the collector.
    for shards in (1, 3):
        child = Child(program, ["live", "--stream", "--shards", str(shards)])
        child.give([OPPOSITE])
        waits_for(lambda: child.threads() == shards + 2)
        yield f"threads of {shards} shards before the input ends", shards + 2, child.threads()
        yield f"{shards} shards", (worked_traces.OPPOSITE_REPORT, b"", 1), child.answer()
    # Without --stream the input is read to its end before a thread is started.
    child = Child(program, ["live", "--shards", "3"])
    child.give([OPPOSITE])
    yield "an early end without --stream", False, child.ends(0.3)
    yield "threads without --stream", 1, child.threads()
    yield "without --stream", (worked_traces.OPPOSITE_REPORT, b"", 1), child.answer()
    # Small rings: nothing more is read where nobody takes notes off before the input ends.
    child = Child(program, ["live", "--stream", "--ring", "16"])
    giving = threading.Thread(target=child.give, args=[[LONG]])
    giving.start()
    giving.join(120)
    yield "notes are taken off before the input ends", (False, False), (giving.is_alive(), child.ends(0))
    if giving.is_alive():
        child.child.kill()
        giving.join()
    yield "a long input", (worked_traces.OPPOSITE_REPORT, b"", 1), child.answer()


def main():
    parser = argparse.ArgumentParser(description=__doc__, formatter_class=argparse.RawDescriptionHelpFormatter)
    parser.add_argument("--cases", type=int, default=3000)
    parser.add_argument("--seed", default="1")
    parser.add_argument("--jobs", type=int, default=4)
    parser.add_argument("--only", type=int)
    parser.add_argument("program")
    options = parser.parse_args()
    program = os.path.abspath(options.program)
    numbers = range(options.cases) if options.only is None else [options.only]
    passed = failed = 0
    if options.only is None:
        for name, right, got in open_inputs(program):
            passed, failed = passed + (got == right), failed + (got != right)
            if got != right:
                print(f"{name}: {got} is seen, and {right} is right")
    inputs = passed + failed
    statuses = {}  # of short and of long traces
    with concurrent.futures.ThreadPoolExecutor(options.jobs) as pool:
        for number, (is_equal, words, text, answers) in zip(
            numbers, pool.map(lambda number: session(program, options.seed, number), numbers)
        ):
            passed, failed = passed + is_equal, failed + (not is_equal)
            status = answers[0][1][2]
            statuses[status] = statuses.get(status, 0) + 1
            if not is_equal and failed <= 10:
                path = os.path.join(tempfile.gettempdir(), f"goodlock-session-{options.seed}-{number}.std")
                with open(path, "wb") as file:
                    file.write(text)
                print(f"session {number}: live {' '.join(words)}: answers differ on {path}")
                for who, answer in answers:
                    print(f"    {who}: {compare.show(answer)}")
    sessions = passed + failed - inputs
    print(f"{inputs} answers of open inputs")
    print(f"{sessions} sessions by status: {dict(sorted(statuses.items(), key=str))}")
    print(f"{passed} passed, {failed} failed")
    return 1 if failed or passed == 0 else 0


if __name__ == "__main__":
    sys.exit(main())
