#!/usr/bin/env python3
"""Where the time of checks goes: processor seconds of each function and each must-fail edit, dearest first.

    costs.py [--most N] [CRATE ..]      (every crate, where none is named; the N dearest of each, 20 unless said)

Each crate is proved once from nothing, by one process, and so are its tests, where it has any; then its edits are
tried over that. A check keeps a file for each module that it has proved; what the process used between two of these
files is the later one's. A function's modules are counted together: its code, its proof, its answers, and how each of
its values is let go. *Start* is what passes before the first of the crate's own. The libraries below are built first,
where they aren't yet, as the gate builds them: without their proofs, which a check would read.
"""

import argparse
import bisect
import collections
import contextlib
import os
import pathlib
import re
import shutil
import subprocess
import sys
import tempfile
import threading
import time

import prove
import toolchain

# What stands behind a function's path in the names of the modules that the toolchain makes of it.
PARTS = """Answers AnswersTried Carried Code Given Goals Invariants Key Kinds Layout Lts Met Mir Named Proof Reads Statement
    Symbol TheImpl TheLaws TheLink TheReach Tie View decls""".split()


def used(process):
    """The seconds of the processor that a process has used, with its children, also those that still run."""
    with open(f"/proc/{process}/stat") as file:
        fields = file.read().rpartition(")")[2].split()
    seconds = sum(map(int, fields[11:15])) / os.sysconf("SC_CLK_TCK")
    with open(f"/proc/{process}/task/{process}/children") as file:
        children = file.read().split()
    for child in children:
        with contextlib.suppress(OSError):  # it has ended meanwhile
            seconds += used(child)
    return seconds


class Clock(threading.Thread):
    """What a process has used of the processor, as time passes."""

    def __init__(self, process):
        super().__init__(daemon=True)
        self.process, self.times, self.seconds = process, [0.0], [0.0]
        self.start()

    def run(self):
        while self.process.poll() is None:
            try:
                seconds = used(self.process.pid)
            except OSError:
                return
            self.times.append(time.time())
            self.seconds.append(max(seconds, self.seconds[-1]))  # a child that ends is counted a moment later
            time.sleep(0.05)

    def at(self, moment):
        """The seconds that were used at a moment."""
        return self.seconds[max(bisect.bisect(self.times, moment) - 1, 0)]


def function_of(module, crate):
    """The function, or the file of specs or lemmas, that a module belongs to; nothing where it is a library's below."""
    name = re.fullmatch(rf"Rattle-{crate}(?:-proofs|-specs)?\.(?:(?:proofs|specs|contracts)\.)*(.*)", module)
    if name is None or name[1].startswith("below."):
        return None
    path = name[1].split(".")
    while len(path) > 1 and re.sub(r"-\d.*", "", path[-1]) in PARTS:
        path.pop()
    return ".".join(path)


def seconds_of_functions(kept, clock, crate):
    """The start, and the seconds of each function, by the times at which their modules were written."""
    written = sorted((file.stat().st_mtime, file.stem) for file in pathlib.Path(kept).rglob("*.oantt"))
    start, before, found = 0.0, 0.0, collections.Counter()
    for moment, module in written:
        used, before = clock.at(moment) - before, clock.at(moment)
        function = function_of(module, crate)
        if function is None or not found:
            start += used
        if function is not None:
            found[function] += used if found else 0.0
    return start, found


def check(library, crate, kept, tests):
    """Checks a crate from nothing; its seconds in all, its start, and the seconds of each function."""
    words = crate.words(["--jobs", "1"], tests=tests, keeps=False)
    command = [library.RATTLE, "check", *words, "--incremental", kept]
    before = children_seconds()
    pipe = {"stdin": subprocess.DEVNULL, "stdout": subprocess.PIPE, "stderr": subprocess.STDOUT}
    with subprocess.Popen(command, cwd=crate.folder, text=True, errors="replace", **pipe) as process:
        clock = Clock(process)
        said = process.stdout.read()
        status = process.wait()
    if status != 0:
        raise SystemExit(f"{crate.name} isn't proved: {said.strip().rpartition(chr(10))[2]}")
    return children_seconds() - before, *seconds_of_functions(kept, clock, crate.name)


def children_seconds():
    used = os.times()
    return used.children_user + used.children_system


def is_refused(command, answer):
    """Whether the answer of `rt`'s must_fail says that the edit is refused: it is of a kind, or of two, or True."""
    return (
        answer in [getattr(command, kind) for kind in ("REFUSED", "AT_LIMIT") if hasattr(command, kind)]
        or answer is True
    )


def try_edits(command, crate, kept):
    """The seconds of each must-fail edit over a copy of what a check kept, with what was said where it isn't refused."""
    tried = []
    for edit in command.edits_of(crate)[0]:
        with tempfile.TemporaryDirectory(prefix="goodlock-costs-") as folder:
            over = os.path.join(folder, "kept")
            getattr(command, "linked", shutil.copytree)(kept, over)
            before = children_seconds()
            answer, said = command.must_fail(crate, edit, ["--jobs", "1"], over)
            seconds = children_seconds() - before
        tried.append((seconds, os.path.basename(edit) if is_refused(command, answer) else said))
    return tried


def show(title, total, rows, most):
    print(f"== {title}: {total:.0f} s")
    for seconds, name in sorted(rows, reverse=True)[:most]:
        print(f"{seconds:8.1f}  {name}")
    sys.stdout.flush()


def costs(command, crate, most):
    """Measures a crate, its tests and its edits; the seconds in all."""
    sums = []
    for tests in (False, True) if crate.has_tests() else (False,):
        with tempfile.TemporaryDirectory(prefix="goodlock-costs-") as kept:
            total, start, functions = check(command.rtlib, crate, kept, tests)
            what = f"{crate.name}{' with its tests' if tests else ''}, start {start:.0f} s"
            show(what, total, [(seconds, name) for name, seconds in functions.items()], most)
            sums.append(total)
            edits = [] if tests else try_edits(command, crate, kept)
        if edits:
            sums.append(sum(seconds for seconds, _ in edits))
            show(f"{crate.name}, {len(edits)} edits over what was kept", sums[-1], edits, most)
    return sum(sums)


def tell_faults(crate, jobs, well, said, seconds):
    if not well:
        print(f"{crate.name} isn't proved\n{said}", flush=True)


def main(words):
    parser = argparse.ArgumentParser(usage=__doc__)
    parser.add_argument("--most", type=int, default=20)
    parser.add_argument("names", nargs="*")
    asked = parser.parse_args(words)
    command = toolchain.load_command("edits_of", "must_fail")
    crates = toolchain.crates(command.rtlib, asked.names or None)
    wanted = [crate for crate in crates if crate.name in (asked.names or [crate.name])]
    total = 0.0
    libraries = toolchain.Statements(command.rtlib, crates)
    below = [crate for crate in crates if any(crate in one.below() for one in wanted)]
    if not prove.in_order(below, toolchain.processors(), libraries.build, tell_faults):
        raise SystemExit("a library isn't proved")
    for crate in wanted:
        total += costs(command, crate, asked.most)
    print(f"== all of it: {total / 60:.1f} processor minutes")
    return 0


if __name__ == "__main__":
    sys.exit(main(sys.argv[1:]))
