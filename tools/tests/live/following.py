"""What the tests of goodlock-record --live share: following a program, and reading the reports on it."""

import json
import os
import shutil
import subprocess

from c_programs import Run, end, raw_directory
from known_traces import LIMIT, RECORD, TOOLS, clear, compare, read_line, wait_for

GOODLOCK = os.path.join(os.path.dirname(TOOLS), "goodlock")
# The cycle of two threads with two orders.
ORDERS = [[("main.1:one_way", "a", "b"), ("main.2:other_way", "b", "a")]]


def lines_of(path="r.json"):
    """The reports so far that are written."""
    try:
        with open(path + ".lines") as file:
            text = file.read()
    except FileNotFoundError:
        return []
    return [json.loads(line) for line in text[: text.rfind("\n") + 1].splitlines()]


def cycles_in(report):
    """The cycles of a report, or those that show its findings, each as its edges: thread, held lock, wanted lock."""
    edges = [(edge["thread"], edge["held"], edge["wanted"]) for edge in report["edges"]]
    return [[edges[at] for at in cycle] for cycle in report["findings" if report["format"] == 3 else "cycles"]]


def read_report(path="r.json"):
    with open(path) as file:
        return json.load(file)


def reported(*command, options=(), path="r.json"):
    """A program that was followed to its end."""
    return Run(list(command), ["--live", *options], path)


def recorded(*command, options=()):
    """A run whose trace there is."""
    return Run(list(command), options)


def report_later(directory, path="r.json", options=()):
    """Makes the report of what a recording left behind; what it said."""
    command = [RECORD, "--live", *options, "-o", path, "--convert", directory]
    done = subprocess.run(command, stderr=subprocess.PIPE, timeout=LIMIT)
    assert done.returncode == 0, done.stderr.decode()
    return done.stderr.decode()


def children_of(process):
    with open("/proc/%d/task/%d/children" % (process, process)) as file:
        return {int(child) for child in file.read().split()}


class Live:
    """A program that is followed."""

    def __init__(self, *command, options=(), path="r.json"):
        clear(path)
        self.path = path
        self.said = ""
        self.program = None
        with open(path + ".said", "wb") as errors:
            self.process = subprocess.Popen(
                [RECORD, "--live", "-o", path, *options, "--", *command],
                stdin=subprocess.PIPE,
                stdout=subprocess.PIPE,
                stderr=errors,
            )

    def is_ready(self):
        """Waits for the program, or the one of its children that says so."""
        words = read_line(self.process.stdout).split()
        assert words[:1] == [b"ready"], "the program says %s" % words
        self.program = int(words[1])
        return self

    def says(self):
        with open(self.path + ".said") as file:
            return file.read()

    def wait_for_words(self, words):
        wait_for(lambda: words in self.says(), "%r among %r" % (words, self.says()))

    def end(self, number=None, status=None):
        """Sends a signal, if it isn't None, and waits for the end."""
        if number is not None:
            self.process.send_signal(number)
        self.process.stdin.close()
        self.process.wait(LIMIT)
        self.process.stdout.close()
        self.said = self.says()
        assert status is None or self.process.returncode == status, "status %d: %s" % (
            self.process.returncode,
            self.said,
        )
        return self


def left_behind(*command):
    """What a followed program leaves when it and its recorder are killed."""
    live = Live(*command).is_ready()
    live.process.kill()
    live.end()
    end(live.program)
    return raw_directory("r.json")


def predicted(trace="t.std", options=(), form="--json"):
    with open(trace, "rb") as file:
        done = subprocess.run([GOODLOCK, "predict", *form.split(), *options], stdin=file, stdout=subprocess.PIPE)
    assert done.returncode in (0, 1), "predict has status %d" % done.returncode
    return done.stdout


def compare_bytes(path, expected):
    with open(path, "rb") as file:
        data = file.read()
    if data != expected:
        compare(*(json.dumps(json.loads(text), indent=1).split("\n") for text in (data, expected)))
        raise AssertionError("the bytes differ, the values don't")


def same_as_by_a_trace(*command, options=(), asked=()):
    """A program that was followed; its report has the bytes that the trace of another run gives. `options` are those of both runs, `asked`
    those of reports alone."""
    done = reported(*command, options=[*options, *asked])
    assert done.status == 0, done.said
    trace = recorded(*command, options=options)
    assert trace.status == 0, trace.said
    compare_bytes("r.json", predicted(options=asked))
    return done


def same_when_left_behind(directory, asked=(), others=()):
    """What a recording left behind says the same as a trace and as a report; `others`: paths of further reports, as text. What was said of
    these."""
    for copy in ("trace", *others):
        shutil.copytree(directory, "copy." + copy)
    done = subprocess.run([RECORD, "-o", "t.std", "--convert", "copy.trace"], stderr=subprocess.PIPE, timeout=LIMIT)
    assert done.returncode == 0, done.stderr.decode()
    said = [report_later("copy." + path, path, asked) for path in others]
    report_later(directory, options=asked)
    assert not os.path.exists(directory), "the directory is still there"
    compare_bytes("r.json", predicted(options=asked))
    return said
