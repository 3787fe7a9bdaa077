"""What the tests that record C and C++ programs share: building and recording them, their marks, and what a recording leaves."""

import os
import shutil
import signal
import subprocess
import time

import known_traces
import pytest
from known_traces import LIMIT, NO_EVENTS, RECORD, REFERENCE, REFUSED, TESTS, TOOLS, marks_in  # noqa: F401

SOURCES = os.path.join(TESTS, "record")
C_FLAGS = ["-Wall", "-g", "-fno-optimize-sibling-calls", "-pthread"]
LLVM_FLAGS = ["-stdlib=libc++", "-std=c++17", "-O0"]  # of a program of LLVM's C++ library
# `locks.c:12` for each mark `@name` of each source, by name of the source's file and name of the mark.
MARKS = {
    (name, mark): place
    for name in os.listdir(SOURCES)
    if name.endswith((".c", ".cc"))
    for mark, place in marks_in(os.path.join(SOURCES, name), r"(?:/\*|//)").items()
}


def build(compiler, arguments, folder="."):
    made = subprocess.run([compiler] + arguments, cwd=folder, stdout=subprocess.PIPE, stderr=subprocess.STDOUT)
    assert made.returncode == 0, "%s failed:\n%s" % (compiler, made.stdout.decode())


def build_or_skip(needed, compiler, flags, source, program):
    """Builds a program of a source. Where there isn't what that needs the test is skipped."""
    command = [compiler, *flags, *C_FLAGS, "-o", program, os.path.join(SOURCES, source)]
    if not shutil.which(compiler) or subprocess.run(command, stderr=subprocess.PIPE).returncode != 0:
        pytest.skip("no %s here" % needed)


def put(programs, folder):
    """What was built in one folder is in another one, too: by hard links, as what symbolic ones lead to has another path."""
    for path in programs.iterdir():
        os.link(path, folder / path.name)


def expand(text, source):
    """Lines of a known trace, with the marks of this source for places."""
    return known_traces.expand(text, {mark: place for (name, mark), place in MARKS.items() if name == source})


class Run(known_traces.Run):
    """One recording by goodlock-record, ended."""

    def __init__(self, command, options=(), trace="t.std", environment=None):
        super().__init__(RECORD, command, options, trace, environment)


def raw_directories():
    """The directories of recordings."""
    return sorted(name for name in os.listdir(".") if ".raw." in name)


def raw_directory(trace):
    """That of the recording whose trace or report has this name."""
    found = [name for name in raw_directories() if name.startswith(trace + ".raw.")]
    assert len(found) == 1, "directories: %s" % found
    return found[0]


def has_ended(process):
    try:
        with open("/proc/%d/stat" % process) as file:
            return file.read().rsplit(")", 1)[1].split()[0] in "ZX"
    except OSError:
        return True


def end(process):
    os.kill(process, signal.SIGKILL)
    limit = time.monotonic() + LIMIT
    while not has_ended(process):
        assert time.monotonic() < limit, "process %d doesn't end" % process
        time.sleep(0.01)


class SmallDisk:
    """A folder `small` that is a disk of this size, if one can be mounted."""

    def __init__(self, size):
        self.size = size

    def __enter__(self):
        os.mkdir("small")
        made = subprocess.run(
            ["mount", "-t", "tmpfs", "-o", "size=" + self.size, "tmpfs", "small"], stderr=subprocess.DEVNULL
        )
        self.mounted = made.returncode == 0
        return self.mounted

    def __exit__(self, *_):
        if self.mounted:
            subprocess.run(["umount", "small"], check=True)
        os.rmdir("small")


NO_DISK = "no disk can be mounted here"
