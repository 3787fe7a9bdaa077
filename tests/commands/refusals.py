#!/usr/bin/env python3
"""Refuses memory, reads, writes, threads and random bytes to a program, one call after the other, and spoils its input and output.

    refusals.py [--commands LIST] PROGRAM

LIST has commands with commas between them ("predict, predict --json"); the table below knows some more, and `check of findings`
is `check` of a report of findings. The answer
must be the one of an undisturbed run, which is written by hand, or what the disturbance asks for. A preload
library, which gcc builds in a temporary folder, does the refusing, and makes the runs of a sweep (tests/commands/refuse.c). As many commands and traces as
there are processors are tried side by side. The last line is `N passed, N failed`.
"""

import argparse
import collections
import concurrent.futures
import contextlib
import io
import os
import pathlib
import signal
import subprocess
import sys
import tempfile
import typing

sys.dont_write_bytecode = True
sys.path.insert(0, str(pathlib.Path(__file__).resolve().parent.parent))

from oracle import compare, worked_traces  # noqa: E402

SOURCE = pathlib.Path(__file__).resolve().parent / "refuse.c"

# --- Answers by hand ------------------------------------------------------------------------------------

OUT_OF_MEMORY = (b"", b"goodlock: out of memory\n", 3)
READ_FAILED = (b"", b"goodlock: read failed\n", 4)
UNCONFIRMED = (b"", b"goodlock: session not confirmed\n", 4)
LIMIT = 120  # seconds for a run
OVER_TIME = (b"", b"(nothing after %d seconds)" % LIMIT, None)
WRITE_FAILED = b"goodlock: write failed\n"

WORKED = {name: (text, answer) for name, text, answer, _ in worked_traces.worked("full")}
TRACES = {name: WORKED[name][0] for name in ("opposite_order", "joined_before", "first_of_two_cycles", "join_loop")}
TRACES["bad line"] = worked_traces.lines("T0 acq a @1") + b"T0|rel(a|2\n" + worked_traces.lines("T0 acq b @3")

BAD_LINE = worked_traces.refused(2, "bad operand")
LOOP = WORKED["join_loop"][1]
TEXTS = {name: WORKED[name][1] for name in TRACES if name in WORKED} | {"bad line": BAD_LINE}
JOINED = [worked_traces.edge("T0", "a", 1, "b", 2, 1), worked_traces.edge("T1", "b", 5, "a", 6, 1)]
TWO_CYCLES = [
    worked_traces.edge("T0", "a", 1, "b", 2, 1), worked_traces.edge("T0", "c", 5, "d", 6, 5),
    worked_traces.edge("T1", "b", 9, "a", 10, 1), worked_traces.edge("T1", "d", 13, "c", 14, 5),
]  # fmt: skip
# By the format of JSON, where there are two.
OBJECTS = {
    "opposite_order": worked_traces.OPPOSITE_JSON,
    "joined_before": worked_traces.as_json(JOINED, [], "[0,1]"),
    "first_of_two_cycles": worked_traces.as_json(TWO_CYCLES, [[0, 2], [1, 3]]),
    "join_loop": LOOP,
    "bad line": BAD_LINE,
}
# The cycles of these traces are made at different places, so each is a finding.
FINDINGS = {
    "opposite_order": worked_traces.findings(("T0 a 1 b 2", "T1 b 5 a 6")),
    "joined_before": worked_traces.findings(),
    "first_of_two_cycles": worked_traces.findings(("T0 a 1 b 2", "T1 b 9 a 10"), ("T0 c 5 d 6", "T1 d 13 c 14")),
    "join_loop": LOOP,
    "bad line": BAD_LINE,
}
FINDING_OBJECTS = {
    "opposite_order": worked_traces.findings_json(JOINED, [[0, 1]]),
    "joined_before": worked_traces.findings_json(JOINED, []),
    "first_of_two_cycles": worked_traces.findings_json(TWO_CYCLES, [[0, 2], [1, 3]]),
    "join_loop": LOOP,
    "bad line": BAD_LINE,
}
COUNTS = {
    "opposite_order": worked_traces.counts(6, 0, 0, 2, 2, 2, 2, 1),
    "joined_before": worked_traces.counts(9, 0, 0, 3, 2, 6, 2, 0),
    "first_of_two_cycles": worked_traces.counts(14, 0, 0, 2, 4, 2, 4, 2),
    "join_loop": LOOP,
    "bad line": BAD_LINE,
}
# For `check` a line with a report, as the program prints it, stands before the trace.
CHECKS = {
    "opposite_order": (b"ok, cycles: 1\n", b"", 0),
    "joined_before": (b"ok, cycles: 0, none of any length\n", b"", 0),
    "first_of_two_cycles": (b"ok, cycles: 2\n", b"", 0),
    "join_loop": LOOP,
    "bad line": BAD_LINE,
}
FINDING_CHECKS = {
    "opposite_order": (b"ok, findings: 1\n", b"", 0),
    "joined_before": (b"ok, findings: 0\n", b"", 0),
    "first_of_two_cycles": (b"ok, findings: 2\n", b"", 0),
    "join_loop": LOOP,
    "bad line": BAD_LINE,
}
# These traces stand thread by thread already.
LISTS = {name: (text, b"", 0) for name, text in TRACES.items()} | {"bad line": BAD_LINE}

ANSWERS = {
    "predict": TEXTS,
    "predict --json": OBJECTS,
    "predict --findings": FINDINGS,
    "predict --findings --json": FINDING_OBJECTS,
    "stats": COUNTS,
    "replay": LISTS,
    "live": TEXTS,
    "live --json": OBJECTS,
    "live --stream": TEXTS,
    "live --stream --json": OBJECTS,
    "live --findings": FINDINGS,
    "live --findings --json": FINDING_OBJECTS,
    "live --stream --findings": FINDINGS,
    "live --stream --findings --json": FINDING_OBJECTS,
    "check": CHECKS,
    "check of findings": FINDING_CHECKS,
}
# What `check` reads before the trace; where there is no report, one of no edges.
REPORTS = {"check": (OBJECTS, worked_traces.NONE_JSON),
           "check of findings": (FINDING_OBJECTS, worked_traces.findings_json([], []))}  # fmt: skip

# Words that are answered without any input, and the status; what they print is theirs. By the command that knows them.
USAGE = {
    "predict": {"--help": 0, "--version": 0, "predict --help": 0, "": 2, "predict --len 17": 2, "predict --mode Full": 2,
                "predict --jobs 65": 2},
    "predict --findings": {
        "predict --findings=yes": 2, "predict --findings --findings": 2, "predict --findings --max 0": 2,
        "predict --findings --stream": 2, "stats --findings": 2, "replay --findings": 2, "check --findings": 2,
    },
    "stats": {"stats --json": 2, "stats --jobs x": 2},
    "replay": {"replay --jobs=-1": 2, "replay --jobs 1 --jobs 1": 2},
    "live": {"live --help": 0, "live --ring 0": 2, "live --ring 65537": 2, "live --shards 0": 2, "live --recorders 17": 2},
    "live --findings": {"live --findings=yes": 2, "live --findings --findings": 2, "live --findings --max 0": 2},
    "live --stream --findings": {"live --stream --findings --findings": 2, "live --stream --findings --threads 0": 2},
    "live --stream": {
        "live --stream --threads 0": 2, "live --threads 1025": 2, "live --stream=yes": 2, "live --stream --stream": 2,
        "predict --stream": 2, "predict --threads 2": 2,
    },
    "check": {"check --help": 0, "check --json": 2, "check --jobs 65": 2},
}  # fmt: skip

# Options by which the threads of a session wait for one another all the time. A trace here has three threads at most.
CLOSE = {"live": "--recorders 2 --shards 2 --ring 1", "live --stream": "--shards 2 --ring 1 --threads 3"}
SHARDS = RECORDERS = 4  # unless they are given


def swept(words, name):
    """The words to which memory and threads are refused. A session's are close; with its own 64 lanes, each of which
    takes memory, a stream is tried once."""
    close = CLOSE.get(words.removesuffix(" --json").removesuffix(" --findings"))
    if close is None:
        return [words]
    return [f"{words} {close}", *[words] * (name == "opposite_order" and words in CLOSE)]


def session_threads(words, ample):
    """How many threads a session begins with: its workers, and those that record, or the collector of a stream. None
    where there is no session: a text that is read whole is refused before one is opened."""
    options = words.split()
    if options[0] != "live":
        return 0

    def asked(option, unsaid):
        return int(options[options.index(option) + 1]) if option in options else unsaid

    shards = asked("--shards", SHARDS)
    if "--stream" in options:
        return shards + 1
    return 0 if ample == BAD_LINE else shards + asked("--recorders", RECORDERS)


def text_of(words, name):
    """What the command reads for the trace of this name."""
    if words not in REPORTS:
        return TRACES[name]
    by_name, of_nothing = REPORTS[words]
    return (worked_traces.in_format(by_name[name])[0] or worked_traces.in_format(of_nothing)[0]) + TRACES[name]


def given(words):
    """The words that the program gets."""
    return words.removesuffix(" of findings").split()


# --- Disturbed runs -------------------------------------------------------------------------------------


class Run(typing.NamedTuple):
    answer: tuple  # standard output, standard error, status
    refused: str  # a sign for each refused call: a descriptor, `t` for a thread, `n`, or of memory as `started_before` reads


def started_before(run):
    """How many threads the program had started when memory was first refused to it."""
    return ord(min(run.refused)) - ord("a")


def runs_of(told):
    """The runs that a sweep told of, as tests/commands/refuse.c does."""
    file = io.BytesIO(told)
    while line := file.readline():
        status, *sizes = map(int, line.split())
        output, errors, refused = map(file.read, sizes)
        answer = OVER_TIME if status == -signal.SIGALRM else (output, errors, status)
        yield Run(answer, refused.decode())


class Runner:
    def __init__(self, program, library):
        self.program = program
        self.library = library

    def run(self, words, text, is_short=False):
        """The program with these words and this input, of which nothing is refused."""
        settings = {"LD_PRELOAD": self.library} | ({"REFUSE_SHORT": "1"} if is_short else {})
        try:
            done = subprocess.run(
                [self.program, *given(words)], input=text, capture_output=True, timeout=LIMIT, env=os.environ | settings
            )
            return Run((done.stdout, done.stderr, done.returncode), "")
        except subprocess.TimeoutExpired:
            return Run(OVER_TIME, "")

    def sweep(self, words, text, sort, how, is_short=False):
        """Runs in which the first call of the sort is refused, then the second, until a run makes too few calls: each
        with its number. All are children of one process, which had no instruction of the program's behind it."""
        settings = {"LD_PRELOAD": self.library, "REFUSE_SWEEP": str(LIMIT), "REFUSE_CALLS": sort, "REFUSE_HOW": how}
        settings |= {"REFUSE_SHORT": "1"} if is_short else {}
        command = [self.program, *given(words)]
        told = subprocess.run(command, input=text, stdout=subprocess.PIPE, check=True, env=os.environ | settings).stdout
        *runs, last = runs_of(told)
        yield from enumerate(runs, 1)
        if last.refused != "":  # it took too long
            yield len(runs) + 1, last


class Tests:
    def __init__(self, runner):
        self.runner = runner
        self.passed = self.failed = 0
        self.shown = {}

    def check(self, name, right, run):
        """One of the right answers; or it is counted and shown, three times for each name."""
        if run.answer in right:
            self.passed += 1
            return
        self.failed += 1
        sweep = name.split(" call ")[0]
        self.shown[sweep] = self.shown.get(sweep, 0) + 1
        if self.shown[sweep] <= 3:
            print(f"{name}: {compare.show(run.answer)}")
            for answer in right:
                print(f"    right is {compare.show(answer)}")

    def check_that(self, name, is_right, problem):
        self.passed, self.failed = self.passed + is_right, self.failed + (not is_right)
        if not is_right:
            print(f"{name}: {problem}")

    def memory(self, words, name, text, ample):
        """Each answer is that of ample memory, or tells that memory was refused; or, where not all threads of a session
        had been started, that one couldn't be. So it is told as memory while a session is opened, but for the calls
        that start its first thread, of which there are no more than for another one; and once all its threads run."""
        threads = session_threads(words, ample)
        for how in ("once", "onwards"):
            answers, running, unstarted = [], [], collections.Counter()
            for number, run in self.runner.sweep(words, text, "memory", how):
                started = started_before(run)
                right = [ample, OUT_OF_MEMORY] + [UNCONFIRMED] * (started < threads)
                self.check(f"{words}, {name}, memory {how} call {number}", right, run)
                answers.append(run.answer)
                running += [run.answer] * (started >= threads)
                unstarted[started] += run.answer == UNCONFIRMED
            self.check_that(f"{words}, {name}, memory {how}", OUT_OF_MEMORY in answers, "no refusal was told")
            is_told = OUT_OF_MEMORY in running
            self.check_that(f"{words}, {name}, memory {how}", is_told, "no refusal was told once all threads ran")
            most = max((unstarted[started] for started in range(1, threads)), default=0)
            problem = f"as if it couldn't be started: {unstarted[0]} calls for the first thread, {most} for another"
            self.check_that(f"{words}, {name}, memory {how}", unstarted[0] <= most, problem)

    def threads(self, words, name, text, ample):
        """Where a thread of a session can't be started nothing is recorded, and of a stream nothing is read: that the
        session isn't confirmed is all that is told. Other threads are those of a search."""
        threads = session_threads(words, ample)
        count = 0
        for number, run in self.runner.sweep(words, text, "thread", "once"):
            right = [UNCONFIRMED] if number <= threads else [ample, OUT_OF_MEMORY]
            self.check(f"{words}, {name}, thread call {number}", right, run)
            count += 1
        self.check_that(f"{words}, {name}, threads", count >= threads, f"{count} threads, not {threads} or more")

    def reads(self, words, name, text, ample):
        """A failed read is told, unless a line that was ended before has a fault. An interrupted read has failed. A
        stream isn't read beyond a line with a fault."""
        self.check(f"{words}, {name}, short", [ample], self.runner.run(words, text, is_short=True))
        stops = "--stream" in words.split() and ample == BAD_LINE
        for how, is_short in (("once", False), ("onwards", False), ("interrupted", False), ("once", True)):
            count = 0
            for number, run in self.runner.sweep(words, text, "read", how, is_short):
                read = text[: number - 1] if is_short else text if number > 1 else b""
                is_told = ample == BAD_LINE and read.count(b"\n") >= (3 if words in REPORTS else 2)
                right = ample if is_told else READ_FAILED
                self.check(f"{words}, {name}, read {how}{' short' * is_short} call {number}", [right], run)
                is_input = set(run.refused) == {"0"}
                self.check_that(f"{words}, {name}, read call {number}", is_input, "not of standard input")
                count += 1
            if stops:  # each byte of the two lines, or all that there is
                exact = text.index(b"\n", text.index(b"\n") + 1) + 1 if is_short else 1
                self.check_that(f"{words}, {name}, read {how}", count == exact, f"{count} reads, not {exact}")
                continue
            # Each byte, and the end.
            least = len(text) + 1 if is_short else 2
            self.check_that(f"{words}, {name}, read {how}", count >= least, f"{count} reads, not {least} or more")

    def writes(self, words, name, text, ample):
        """What went out before the failure is a front of the report, and the failure is told. Where telling it fails
        nothing is left to be done."""
        output, errors, status = ample
        ways = [("once", False), ("onwards", False), ("interrupted", False), ("nothing", False), ("once", True)]
        for how, is_short in ways:
            count = 0
            for number, run in self.runner.sweep(words, text, "write", how, is_short):
                count += 1
                is_report = run.refused.startswith("1")
                if is_report:
                    front = output[: number - 1] if is_short else b""
                    right = [(front, b"" if how == "onwards" else WRITE_FAILED, 4)]
                elif how == "interrupted":
                    right = [ample, (output, b"", status)]
                else:
                    right = [(output, errors[: number - 1] if is_short else b"", status)]
                self.check(f"{words}, {name}, write {how}{' short' * is_short} call {number}", right, run)
                is_known = set(run.refused) <= set("12") and is_report == (errors == b"")
                self.check_that(f"{words}, {name}, write call {number}", is_known, f"of {run.refused}")
            least = len(output + errors) if is_short else 1 if output + errors else 0
            self.check_that(f"{words}, {name}, write {how}", count >= least, f"{count} writes, not {least} or more")

    def usage(self, words, status):
        """The same of words that ask for nothing to be done."""
        ample = self.runner.run(words, b"")
        output, errors, got = ample.answer
        is_right = got == status and (output != b"") == (status == 0) and (errors != b"") == (status != 0)
        self.check_that(f"{words or 'no words'}", is_right, compare.show(ample.answer))
        for how in ("once", "onwards"):
            refused = 0
            for number, run in self.runner.sweep(words, b"", "memory", how):
                self.check(f"{words or 'no words'}, memory {how} call {number}", [ample.answer, OUT_OF_MEMORY], run)
                refused += run.answer == OUT_OF_MEMORY
            self.check_that(f"{words or 'no words'}, memory {how}", refused > 0, "no refusal was told")

    def random_bytes(self, words, text):
        """Where there are no random bytes for the names' seed, no input is read: that is told as a failed read."""
        count = 0
        for number, run in self.runner.sweep(words, text, "random", "once"):
            self.check(f"{words}, random call {number}", [READ_FAILED], run)
            count += 1
        self.check_that(f"{words}, random", count >= 1, "no random bytes were asked for")

    def ends(self, words, text, ample):
        """Input that can't be read, output that can't be written."""
        output, errors, status = ample

        def run(command='exec "$@"', **streams):
            """A shell runs the program, to close its descriptors."""
            streams = {"stdin": subprocess.PIPE, "stdout": subprocess.PIPE, "stderr": subprocess.PIPE} | streams
            child = subprocess.Popen(["sh", "-c", command, "sh", self.runner.program, *given(words)], **streams)
            out, err = child.communicate(text if streams["stdin"] == subprocess.PIPE else None, timeout=LIMIT)
            return Run((out or b"", err or b"", child.returncode), "")

        with tempfile.TemporaryDirectory() as folder:
            handle = os.open(folder, os.O_RDONLY)
            self.check(f"{words}, input is a folder", [READ_FAILED], run(stdin=handle))
            os.close(handle)
        self.check(f"{words}, input is closed", [READ_FAILED], run('exec "$@" <&-'))
        handle = os.open(os.devnull, os.O_WRONLY)
        self.check(f"{words}, input can't be read", [READ_FAILED], run(stdin=handle))
        os.close(handle)
        if os.path.exists("/dev/full"):
            with open("/dev/full", "wb") as full:
                self.check(f"{words}, output is full", [(b"", WRITE_FAILED, 4)], run(stdout=full))
            with open("/dev/full", "wb") as full:
                self.check(f"{words}, errors are full", [(output, b"", status)], run(stderr=full))
        self.check(f"{words}, output is closed", [(b"", WRITE_FAILED, 4)], run('exec "$@" >&-'))
        self.check(f"{words}, errors are closed", [(output, b"", status)], run('exec "$@" 2>&-'))
        # A reader that went away ends the program without a word, or its writing fails; both are usual.
        for name, trap in (("", ""), (", signal ignored", "trap '' PIPE; ")):
            reading, writing = os.pipe()
            os.close(reading)
            right = [(b"", WRITE_FAILED, 4)] + ([(b"", b"", -signal.SIGPIPE)] if trap == "" else [])
            self.check(f"{words}, output is a closed pipe{name}", right, run(trap + 'exec "$@"', stdout=writing))
            os.close(writing)


def built_library(folder):
    """The preload library, built in this folder."""
    library = os.path.join(folder, "refuse.so")
    flags = ["-std=gnu11", "-Wall", "-Wextra", "-O1", "-fPIC", "-shared", "-fvisibility=hidden"]
    subprocess.run(["gcc", *flags, "-o", library, SOURCE, "-ldl"], check=True)
    return library


def disturb(tests, words, name):
    """All disturbances of the command over the trace of this name; a command's others are of no name."""
    if name is None:
        text = text_of(words, "opposite_order")
        tests.random_bytes(words, text)
        tests.ends(words, text, worked_traces.in_format(ANSWERS[words]["opposite_order"]))
        for usage, status in USAGE.get(words, {}).items():
            tests.usage(usage, status)
        return
    text, ample = text_of(words, name), worked_traces.in_format(ANSWERS[words][name])
    tests.check(f"{words}, {name}", [ample], tests.runner.run(words, text))
    for session in swept(words, name):
        tests.check(f"{session}, {name}", [ample], tests.runner.run(session, text))
        tests.memory(session, name, text, ample)
        tests.threads(session, name, text, ample)
    tests.reads(words, name, text, ample)
    tests.writes(words, name, text, ample)


def disturbed(runner, words, name):
    """How many passed and failed, and what was printed of it."""
    tests, printed = Tests(runner), io.StringIO()
    with contextlib.redirect_stdout(printed):
        disturb(tests, words, name)
        print(f"{words}, {name or 'ends and usage'}: {tests.passed + tests.failed} answers")
    return tests.passed, tests.failed, printed.getvalue()


def main():
    parser = argparse.ArgumentParser(description=__doc__, formatter_class=argparse.RawDescriptionHelpFormatter)
    parser.add_argument("--commands", default="predict, predict --json")
    parser.add_argument("program")
    options = parser.parse_args()
    commands = [words.strip() for words in options.commands.split(",") if words.strip()]
    if not set(commands) <= set(ANSWERS):
        parser.error(f"--commands knows {', '.join(ANSWERS)}")
    passed = failed = 0
    workers = len(os.sched_getaffinity(0))
    with tempfile.TemporaryDirectory() as folder, concurrent.futures.ProcessPoolExecutor(workers) as pool:
        runner = Runner(os.path.abspath(options.program), built_library(folder))
        parts = [pool.submit(disturbed, runner, words, name) for words in commands for name in [*TRACES, None]]
        for part in parts:
            some_passed, some_failed, printed = part.result()
            passed, failed = passed + some_passed, failed + some_failed
            print(printed, end="", flush=True)
    print(f"{passed} passed, {failed} failed")
    return 1 if failed or passed == 0 else 0


if __name__ == "__main__":
    sys.exit(main())
