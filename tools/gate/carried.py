#!/usr/bin/env python3
"""What prebuilt/ carries, the program and the C library: makes it anew, or holds it to what was built here.

    carried.py renew                 carries crates/goodlock/out/goodlock and crates/gl_c/out/libgl_c.a, which have to be
                                     built from the sources at hand
    carried.py check [--built]       compares: with what prebuilt/ says of them, with the sources at hand, with the logic
                                     of this toolchain, and with --built with what was just built from the proved
                                     sources

The program is carried as it is linked, without symbols; the library with what it takes of the toolchain's C code as one
object, of which the exports alone are seen. The last line of a check is `N passed, N failed`.
"""

import hashlib
import os
import pathlib
import re
import shutil
import subprocess
import sys
import tempfile

TOP = pathlib.Path(__file__).resolve().parent.parent.parent
FORMAT = "sources {}\ntoolchain {}\n"


def kit():
    return pathlib.Path(os.path.realpath(shutil.which("rt"))).parent.parent


def tool(name, *words):
    """Runs a tool of the toolchain's own compiler, which is many in one."""
    subprocess.run([name, *words], executable=kit() / "toolchain" / "bin" / "clang", check=True)


def strip(built, to):
    """Writes a built program without its symbols."""
    tool("llvm-strip", "-o", to, built)


def gather(built, to):
    """Writes an archive of one object: the library's and the toolchain's C code, with no names but the exports."""
    with tempfile.TemporaryDirectory() as folder:
        whole, own = (os.path.join(folder, name) for name in ("whole.o", "goodlock.o"))
        tool("ld.lld", "-r", "-o", whole, "--whole-archive", built, kit() / "c" / "liblibc_c.a")
        tool("llvm-objcopy", "--wildcard", "--keep-global-symbol=goodlock_*", "--strip-unneeded", whole, own)
        tool("llvm-ar", "rcsD", to, own)


class Carried:
    """A file of prebuilt/: the crate that it is built from, what is built there, and how it comes to be carried."""

    def __init__(self, name, crate, built, write, mode, sums, says):
        self.name, self.crate, self.write, self.mode = name, crate, write, mode
        self.file = TOP / "prebuilt" / name
        self.built = TOP / "crates" / crate / "out" / built
        self.sums, self.says = TOP / "prebuilt" / sums, TOP / "prebuilt" / says

    def sources(self):
        """The sum over all that it is built from."""
        words = [TOP / "tools/gate/sources", "--of", self.crate]
        return subprocess.run(words, stdout=subprocess.PIPE, text=True, check=True).stdout.strip()

    def sum(self):
        """The sums of the file and of what is said of it, as `sha256sum -c` reads them."""
        sums = ((hashlib.sha256(path.read_bytes()).hexdigest(), path.name) for path in (self.file, self.says))
        return "".join(f"{digest}  {name}\n" for digest, name in sums)

    def said(self):
        """What is said of the file: the sum over its sources, and the toolchain's line. Nothing where it isn't so."""
        found = re.fullmatch(re.escape(FORMAT).replace(r"\{\}", "(.+)"), self.says.read_text())
        return found.groups() if found else (None, None)

    def renew(self):
        """Carries what was built here."""
        of, note = self.sources(), self.built.with_suffix(".sources")
        if not self.built.is_file() or not note.is_file() or note.read_text().strip() != of:
            sys.exit(f"{self.built} isn't built from the sources at hand: prebuilt/renew does that")
        new = self.file.with_name(f"{self.name}.new")
        new.unlink(missing_ok=True)
        self.write(self.built, new)
        new.chmod(self.mode)
        new.replace(self.file)
        self.says.write_text(FORMAT.format(of, toolchain()))
        self.sums.write_text(self.sum())
        print(f"{self.file}: {self.file.stat().st_size} bytes, of sources {of}")

    def check(self, compare, is_built):
        """Compares it with what is said of it, and with what was built here."""
        (of, by), own = self.said(), toolchain()
        compare(
            f"{self.file.relative_to(TOP)} and {self.says.name} are the files that {self.sums.name} names",
            self.sums.read_text() == self.sum(),
        )
        compare("it may be used as it stands", os.access(self.file, os.X_OK if self.mode & 0o100 else os.R_OK))
        compare("it was built from the sources at hand", of == self.sources())
        if own is None:
            print("by which toolchain, and what it builds: SKIPPED, rt isn't on PATH")
            return
        compare("by a toolchain of the logic at hand", by is not None and logic_of(by) == logic_of(own))
        if is_built:
            compare(f"its bytes are those that {self.built.relative_to(TOP)} gives", self.is_as_built())

    def is_as_built(self):
        if not self.built.is_file():
            return False
        with tempfile.TemporaryDirectory() as folder:
            made = pathlib.Path(folder) / self.name
            self.write(self.built, made)
            return made.read_bytes() == self.file.read_bytes()


ALL = [
    Carried("goodlock", "goodlock", "goodlock", strip, 0o755, "SHA256SUMS", "built-from"),
    Carried("libgoodlock.a", "gl_c", "libgl_c.a", gather, 0o644, "libgoodlock.sha256", "libgoodlock.built-from"),
]


def toolchain():
    """The toolchain's line on itself, without what is this copy's own; nothing where there is no toolchain."""
    if shutil.which("rt") is None:
        return None
    return subprocess.run(["rt", "version"], stdout=subprocess.PIPE, text=True, check=True).stdout.strip()


def logic_of(line):
    """The logic that a toolchain's line on itself names. Kits of one logic prove the same; that they build the same is
    seen by comparing what they build."""
    return line.partition(" logic ")[2]


def check(is_built):
    """How many of the comparisons pass, and how many don't."""
    results = []

    def compare(what, is_so):
        print(f"{what}: {'yes' if is_so else 'NO'}")
        results.append(is_so)

    for carried in ALL:
        carried.check(compare, is_built)
    return results.count(True), results.count(False)


def main(words):
    if words == ["renew"]:
        for carried in ALL:
            carried.renew()
        return 0
    if words not in (["check"], ["check", "--built"]):
        print(__doc__, file=sys.stderr)
        return 2
    passed, failed = check(is_built=words[1:] == ["--built"])
    print(f"{passed} passed, {failed} failed")
    return 1 if failed else 0


if __name__ == "__main__":
    sys.exit(main(sys.argv[1:]))
