"""The repository's crates, as the toolchain's own command `rt` sees them.

`rt` works in one crate at a time, with the crates below it locked. What proves several at once, or looks at a crate's
check more closely than `rt check` shows, needs `rt`'s own code and the library that it is written over.
"""

import importlib.machinery
import importlib.util
import os
import pathlib
import re
import shutil
import sys
import tempfile

TOP = os.path.dirname(os.path.dirname(os.path.dirname(os.path.realpath(__file__))))
MEMORY_OF_A_CHECK = 4_500_000_000  # no check of this repository was seen to take more than 4.3 GB
MEMORY_OF_A_JOB = 1_500_000_000  # what each further process of one check takes
NAMES = ("Crate", "RATTLE", "KIT", "crates_below", "guarded", "lock", "fmt", "stop_on_text")

sys.dont_write_bytecode = True


class NoToolchain(Exception):
    """There is no `rt` on PATH, or it isn't written over the library that is known here."""


def load_command(*names):
    """The code of `rt`, with these names; its `rtlib` is the library. Where `rt` can have checks begin with what those in
    other copies of the repository on this machine kept, they do so here too."""
    path = shutil.which("rt")
    if path is None:
        raise NoToolchain("the toolchain's rt isn't on PATH")
    loader = importlib.machinery.SourceFileLoader("rt", os.path.realpath(path))
    command = importlib.util.module_from_spec(importlib.util.spec_from_loader("rt", loader))
    try:
        loader.exec_module(command)
    except (ImportError, OSError, SyntaxError) as error:  # it has no such library, or is no Python
        raise NoToolchain(f"{path} isn't written as the one that is known here: {error}") from None
    library = getattr(command, "rtlib", None)
    lacking = [name for name in names if not hasattr(command, name)]
    lacking += [name for name in NAMES if not hasattr(library, name)]
    if lacking:
        raise NoToolchain(f"{path} has no {', '.join(lacking)}")
    library.guarded()  # its first call sets a signal's handler, which only the main thread may
    getattr(command, "share_work", lambda _: None)(True)
    return command


def load():
    """The library that `rt` is written over."""
    return load_command().rtlib


def crates(library, names=None):
    """The crates with these names (all, where none are given) and those that they stand on, lowest first."""
    found = library.crates_below(TOP)
    if names is None:
        return found
    unknown = set(names) - {crate.name for crate in found}
    if unknown:
        raise NoToolchain(f"crates.txt names no crate {', '.join(sorted(unknown))}")
    wanted = [crate for crate in found if crate.name in names]
    return [crate for crate in found if crate in wanted or any(crate in one.below() for one in wanted)]


def free_memory():
    """The bytes of memory that are free, within the control group's limit where there is one."""
    with open("/proc/meminfo") as lines:
        free = 1024 * int(re.search(r"MemAvailable:\s+(\d+)", lines.read()).group(1))
    try:
        with open("/sys/fs/cgroup/memory.max") as most, open("/sys/fs/cgroup/memory.current") as held:
            free = min(free, int(most.read()) - int(held.read()))
    except (OSError, ValueError):  # no such group, or "max"
        pass
    return free


def processors():
    return len(os.sched_getaffinity(0))


class Statements:
    """The repository's libraries as the gate builds them: with what they state and without their proofs, which a crate
    above would read as it is checked. They are kept beside those that `rt check` builds; of a crate that changed nothing
    is kept."""

    def __init__(self, library, crates):
        self.library = library
        for crate in crates:
            crate.words = self.over(crate.words)

    @staticmethod
    def over(words):
        """A crate's words, with these libraries in the place of those that `rt check` builds."""
        own = re.compile(r"(/crates/\w+/out)/rlib\b")
        return lambda *flags, **how: [own.sub(r"\1/statements", word) for word in words(*flags, **how)]

    def build(self, crate, jobs):
        """Proves a crate from nothing and builds what it is to make: a library, where that isn't there yet, a program or
        an archive; whether that is there, and what was said."""
        make = self.make_library if crate.makes_rlib() else self.make_archive if crate.is_static else self.make_program
        return told(crate, lambda: make(crate, jobs), self.library)

    def make_library(self, crate, jobs):
        folder = os.path.join(crate.folder, "out", "statements")
        kept, stamp = pathlib.Path(folder, "stamp"), crate.stamp()
        if kept.is_file() and kept.read_text() == stamp:
            return 0
        shutil.rmtree(folder, ignore_errors=True)
        os.makedirs(folder)
        status = self.make(crate, jobs, f"{folder}/{crate.name}.rlib", "--statements")
        if status == 0:
            kept.write_text(stamp)
        return status

    def make_archive(self, crate, jobs):
        return self.make(crate, jobs, f"out/lib{crate.name}.a", "--toolchain", f"{self.library.KIT}/toolchain")

    def make_program(self, crate, jobs):
        kit, program = self.library.KIT, f"out/{crate.name}"
        compiler = ["--toolchain", f"{kit}/toolchain"]
        linked = [f"{program}.o", f"{kit}/c/libos_c.a", f"{kit}/c/liblibc_c.a"]
        link = [f"{kit}/bin/rattle-link", "--target", "x86_64-unknown-linux-gnu", *compiler, "-o", program, *linked]
        return self.make(crate, jobs, f"{program}.o", *compiler, "--backend", "llvm") or crate.call(*link)

    def make(self, crate, jobs, what, *flags):
        """Proves a crate from nothing, and builds this file of it; the status."""
        words = crate.words(["--jobs", str(jobs)], keeps=False)
        return crate.call(self.library.RATTLE, "build", *words, *flags, "-o", what)


def told(crate, work, library):
    """Whether the work on a crate ends with status 0, once its text isn't refused, and what was said."""
    with tempfile.TemporaryFile("w+", errors="replace") as crate.out:
        try:
            os.makedirs(os.path.join(crate.folder, "out"), exist_ok=True)
            library.stop_on_text(crate, "check")
            status = work()
        except SystemExit:  # the toolchain's way to refuse a text; it has said why on standard error
            status = 1
        crate.out.seek(0)
        return status == 0, crate.out.read()
