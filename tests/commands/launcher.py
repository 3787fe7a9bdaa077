#!/usr/bin/env python3
"""Tests ./goodlock, which runs the carried program or builds its own, with a stand-in for the toolchain.

    launcher.py

The stand-in tells what it was asked and leaves a program that shows its words and its input. The last line is
`N passed, N failed`.
"""

import hashlib
import os
import pathlib
import shutil
import subprocess
import sys
import tempfile
import traceback

TOP = pathlib.Path(__file__).resolve().parent.parent.parent
CRATES = (
    "low:\nside:\nmiddle: low bstr  # with a library of the toolchain's\ntwin: low\ngoodlock: clap middle twin low\n"
)
LIBRARIES = ("low", "middle", "twin")
WORDS = ("predict", "--len", "a b")

PROGRAM = r"""#!/bin/sh
for word; do printf '<%s>' "$word"; done
[ -z "$TELL" ] || printf '%s' "$GLIBC_TUNABLES"
cat
echo "said by {0}" >&2
exit 1
"""

# As the toolchain's command: what works in several crates takes its code, `run` would leave the program and run it.
STAND_IN = r"""#!/usr/bin/env python3
import os
import shutil
import sys

if __name__ != "__main__":
    sys.path.insert(0, os.path.dirname(__file__))
    import rtlib


def call(name):
    with open(os.environ["CALLS"], "a") as calls:
        calls.write(f"{name}\n")


def share_work(is_alone):
    call("share")


if __name__ == "__main__":
    print(sys.stdin.read(), end="")
    if sys.argv[1:] != ["run", "--", "predict"]:
        sys.exit(2)
    call("run")
    if os.environ["BUILT"] == "0":
        shutil.copy(os.environ["MADE"], "out/goodlock")
    print("no program ran", file=sys.stderr)
    sys.exit(int(os.environ["BUILT"]))
"""

# As the toolchain's command where it is written otherwise.
OTHER = r"""#!/bin/sh
echo "run" >>"$CALLS"
cp "$MADE" out/goodlock
"""

# As the library that the toolchain's command is written over. A crate is proved where it isn't named in UNPROVED, its text
# refused where it is in REFUSED.
LIBRARY = r"""
import os
import subprocess
import sys

KIT = os.path.dirname(os.path.abspath(__file__))
RATTLE = f"{KIT}/rattle"
TOP = os.environ["CLONE"]


class Crate:
    known = {}

    def __init__(self, name, uses):
        self.name, self.folder = name, f"{TOP}/crates/{name}"
        self.deps = [Crate.known[it] for it in uses if it in Crate.known]
        self.is_static, self.rlib = name == "archive", f"{self.folder}/out/rlib/{name}.rlib"
        Crate.known[name] = self

    def below(self):
        found = []
        for it in self.deps:
            found += [one for one in [*it.below(), it] if one not in found]
        return found

    def makes_rlib(self):
        return self.name not in ("archive", "goodlock")

    def count(self, pattern):
        return 20 if self.name == "twin" else 10

    def stamp(self):
        return repr([[(path, open(path).read()) for path in self.sources()], *(it.stamp() for it in self.deps)])

    def sources(self):
        return sorted(f"{at}/{name}" for at, _, names in os.walk(f"{self.folder}/src") for name in names)

    def words(self, flags, keeps):
        uses = [f"{it.name}={it.rlib}" for it in self.below()]
        return ["--crate-name", self.name, *uses, "--anew"[: 6 * (not keeps)], *flags]

    def call(self, *words):
        return subprocess.run(words, cwd=self.folder, stdout=self.out, stderr=subprocess.STDOUT).returncode

    def build_rlib(self, flags, anew):
        return self.call(RATTLE, "build", *self.words(flags, keeps=True), "-o", self.rlib)


def crates_below(top):
    with open(f"{top}/crates.txt") as lines:
        for line in lines:
            name, _, uses = line.partition("#")[0].partition(":")
            Crate(name.split()[0], uses.split())
    return [*Crate.known.values()]


def guarded():
    return []


def lock(crates):
    return []


def fmt(*words):
    return 0


def stop_on_text(crate, verb):
    if crate.name in os.environ.get("REFUSED", "").split():
        print(f"the text of {crate.name} is refused", file=sys.stderr)
        raise SystemExit(2)
"""

# As the toolchain's prover: it is done where all that it is to read is there, and leaves what it is to make.
PROVER = r"""#!/usr/bin/env python3
import os
import sys
import time

words = sys.argv[1:]
name, jobs = (words[words.index(flag) + 1] for flag in ("--crate-name", "--jobs"))
made = words[words.index("-o") + 1]


def call(text):
    with open(os.environ["CALLS"], "a") as calls:
        calls.write(f"{text}\n")


# Where it is one of those: until each of them has begun, and half a second more, in which a further one would begin.
def stays(beside):
    end = time.monotonic() + 60
    while name in beside and time.monotonic() < end:
        with open(os.environ["CALLS"]) as calls:
            begun = [line.split()[0] for line in calls]
        if set(beside) <= set(begun):
            break
        time.sleep(0.01)
    time.sleep(0.5)
    call(f"end {name}")


call(f"{name} --jobs {jobs}")
if "HOW" in os.environ:
    with open(os.environ["HOW"], "a") as how:
        flags = [flag for flag in ("--anew", "--statements", "--toolchain") if flag in words]
        how.write(" ".join([name, *flags, os.path.basename(made)]) + "\n")
if "NICE" in os.environ:
    with open(os.environ["NICE"], "a") as nice:
        nice.write(f"{name} {os.getpriority(os.PRIO_PROCESS, 0)}\n")
missing = [word for word in words if "=" in word and not os.path.isfile(word.partition("=")[2])]
if name in os.environ["UNPROVED"].split() or missing:
    print("an open goal", *missing)
    sys.exit(1)
with open(made, "w") as file:
    file.write(name)
if "BESIDE" in os.environ:
    stays(os.environ["BESIDE"].split())
"""

# As the toolchain's linker.
LINKER = r"""#!/bin/sh
echo "link" >>"$CALLS"
[ "$BUILT" = 0 ] && cp "$MADE" out/goodlock || { echo "nothing linked"; exit 1; }
"""


# There is memory for all, whatever else this machine does.
AMPLE = """

def free_memory():
    return 1 << 50
"""


class Clone:
    """A repository with ./goodlock, a few empty crates, a carried program, and the stand-in for the toolchain."""

    def __init__(self, folder):
        self.top = folder / "a clone"
        for crate in ("low", "side", "middle", "twin", "goodlock"):
            self.write(f"crates/{crate}/src/{'main' if crate == 'goodlock' else 'lib'}.rt", "fn f() {}\n")
        self.write("crates/low/must-fail/wrong.edit", "")
        self.write("crates.txt", CRATES)
        (self.top / "tools").mkdir()
        shutil.copytree(TOP / "tools/gate", self.top / "tools/gate", ignore=shutil.ignore_patterns("__pycache__"))
        with open(self.top / "tools/gate/toolchain.py", "a") as file:
            file.write(AMPLE)
        shutil.copy(TOP / "goodlock", self.top / "goodlock")
        self.tools = folder / "bin"
        self.tools.mkdir()
        kit = {"rt": STAND_IN, "rtlib.py": LIBRARY, "rattle": PROVER, "bin/rattle-link": LINKER}
        for name, text in {**kit, "made": PROGRAM.replace("{0}", "the built one")}.items():
            (self.tools / name).parent.mkdir(exist_ok=True)
            (self.tools / name).write_text(text)
            (self.tools / name).chmod(0o755)
        self.calls = folder / "calls"
        self.carry()

    def write(self, name, text):
        path = self.top / name
        path.parent.mkdir(parents=True, exist_ok=True)
        path.write_text(text)

    def carry(self):
        """Carries a program, as built from the sources at hand."""
        text = PROGRAM.replace("{0}", "the carried one")
        self.write("prebuilt/goodlock", text)
        (self.top / "prebuilt/goodlock").chmod(0o755)
        self.write("prebuilt/SHA256SUMS", f"{hashlib.sha256(text.encode()).hexdigest()}  goodlock\n")
        of = subprocess.run([self.top / "tools/gate/sources"], stdout=subprocess.PIPE, text=True, check=True).stdout
        self.write("prebuilt/built-from", f"sources {of}toolchain kit 7\n")

    def run(self, *words, text="", with_rt=True, unproved="", built=0, called="./goodlock", folder=None, **settings):
        self.calls.write_text("")
        folders = [str(self.tools)] * with_rt + [os.path.dirname(sys.executable), "/usr/bin", "/bin"]
        if not with_rt:
            folders = self.without_rt(folders)
        own = {"CLONE": str(self.top), "UNPROVED": unproved, "BUILT": str(built), "MADE": str(self.tools / "made")}
        done = subprocess.run(
            [called, *words], cwd=folder or self.top, input=text, capture_output=True, text=True, timeout=300,
            env={"PATH": ":".join(folders), "CALLS": str(self.calls), **own, **settings},
        )  # fmt: skip
        return done.stdout, done.stderr, done.returncode, self.calls.read_text().splitlines()

    @staticmethod
    def without_rt(folders):
        return [folder for folder in folders if not os.path.exists(os.path.join(folder, "rt"))]


OUT = "<predict><--len><a b>text"
CARRIED = OUT, "said by the carried one\n", 1, []
BUILT = OUT, "said by the built one\n", 1, []


def equal(got, expected):
    if got != expected:
        raise AssertionError(f"expected {expected!r}\n         got {got!r}")


def has(text, *parts):
    for part in parts:
        if part not in text:
            raise AssertionError(f"expected {part!r} in\n{text}")


def names(calls):
    return [call.split()[0] for call in calls]


def carried_program(clone):
    equal(clone.run(*WORDS, text="text"), CARRIED)
    equal(clone.run(*WORDS, text="text", with_rt=False), CARRIED)
    out, err, _, _ = clone.run("--version", with_rt=False)
    equal(out, "<--version>")
    has(err, f"goodlock: this is {clone.top}/prebuilt/goodlock", "said by the carried one")
    equal(clone.run("predict", GOODLOCK_WHICH="1"), (f"{clone.top}/prebuilt/goodlock\n", "", 0, []))


def large_pages(clone):
    """They are asked for, but where somebody says how memory is to be given, or that nothing is to be said of it."""
    asked = "glibc.malloc.hugetlb=1:glibc.malloc.top_pad=67108864"
    equal(clone.run("predict", TELL="1")[0], f"<predict>{asked}")
    for own in ("glibc.malloc.arena_max=1", ""):
        equal(clone.run("predict", TELL="1", GLIBC_TUNABLES=own)[0], f"<predict>{own}")


def called_otherwise(clone):
    """By a link from another folder, and where the shell looks for folders elsewhere too."""
    link = clone.tools / "linked"
    link.symlink_to(clone.top / "goodlock")
    equal(clone.run(*WORDS, text="text", with_rt=False, called=str(link)), CARRIED)
    inside = clone.top.parent
    name = f"{clone.top.name}/goodlock"
    equal(clone.run(*WORDS, text="text", with_rt=False, called=name, folder=inside, CDPATH=str(inside)), CARRIED)


def built_where_asked(clone):
    out, err, status, calls = clone.run(*WORDS, text="text", GOODLOCK_BUILD="1", JOBS="3")
    equal((out, status, calls[0], calls[-2:]), (OUT, 1, "share", ["goodlock --jobs 3", "link"]))
    equal(sorted(names(calls[1:-2])), sorted(LIBRARIES))
    has(err, "goodlock: proving 4 crates and building the program")
    has(err, f"goodlock: built {clone.top}/crates/goodlock/out/goodlock", "said by the built one")
    equal(clone.run(*WORDS, text="text", GOODLOCK_BUILD="1"), BUILT)
    equal(clone.run(*WORDS, text="text", with_rt=False, GOODLOCK_BUILD="1"), BUILT)
    equal(clone.run(*WORDS, text="text"), CARRIED)


def how_it_is_built(clone):
    """All from nothing, and libraries as the gate builds them, without their proofs."""
    how = clone.tools / "how"
    clone.run(*WORDS, GOODLOCK_BUILD="1", HOW=str(how))
    libraries = [f"{name} --anew --statements {name}.rlib" for name in sorted(LIBRARIES)]
    equal(sorted(how.read_text().splitlines()), ["goodlock --anew --toolchain goodlock.o", *libraries])


def over_what_was_kept(clone):
    """What other commands take is built so where that is asked for, with its proofs, and no program."""
    how = clone.tools / "how"
    for crate in LIBRARIES:
        (clone.top / f"crates/{crate}/out/rlib").mkdir(parents=True)
    equal(clone.run("--kept", called="tools/gate/prove.py", HOW=str(how))[2], 0)
    equal(sorted(how.read_text().splitlines()), [f"{name} {name}.rlib" for name in sorted(LIBRARIES)])


def an_archive(clone):
    how = clone.tools / "how"
    clone.write("crates.txt", CRATES + "archive staticlib: twin\n")
    clone.write("crates/archive/src/lib.rt", "fn f() {}\n")
    equal(clone.run("archive", called="tools/gate/prove.py", HOW=str(how))[2], 0)
    libraries = [f"{name} --anew --statements {name}.rlib" for name in ("low", "twin")]
    equal(how.read_text().splitlines(), [*libraries, "archive --anew --toolchain libarchive.a"])


def processes_at_once(clone):
    """A crate on the longest chain has as many processes as there are jobs, any other one, and no more than twice as many run
    as there are jobs: of four that stand on one three begin, and wait for each other."""
    clone.write("crates.txt", CRATES.replace("goodlock:", "third: low\nfourth: low\ngoodlock: third fourth"))
    for crate in ("third", "fourth"):
        clone.write(f"crates/{crate}/src/lib.rt", "fn f() {}\n")
    calls = clone.run(*WORDS, GOODLOCK_BUILD="1", JOBS="2", BESIDE="middle twin third")[3]
    equal((calls[:3], calls[-1]), (["share", "low --jobs 2", "end low"], "link"))
    equal(sorted(calls[3:6]), ["middle --jobs 1", "third --jobs 1", "twin --jobs 2"])
    equal((calls[6][:3], calls.index("fourth --jobs 1") > 6), ("end", True))


def processes_are_shared(clone):
    """Of four crates of one length that stand on one, with four jobs, each has two processes."""
    clone.write(
        "crates.txt", "low:\nfifth: low\nfourth: low\nsixth: low\nthird: low\ngoodlock: fifth fourth sixth third\n"
    )
    for crate in ("fifth", "fourth", "sixth", "third"):
        clone.write(f"crates/{crate}/src/lib.rt", "fn f() {}\n")
    calls = clone.run(*WORDS, GOODLOCK_BUILD="1", JOBS="4", BESIDE="fifth fourth sixth third")[3]
    equal(calls[:3], ["share", "low --jobs 4", "end low"])
    equal(sorted(calls[3:7]), [f"{crate} --jobs 2" for crate in ("fifth", "fourth", "sixth", "third")])


def stands_back(clone):
    """What isn't on the longest chain leaves the processors to what is."""
    nice = clone.tools / "nice"
    clone.run(*WORDS, GOODLOCK_BUILD="1", JOBS="2", NICE=str(nice))
    by_crate = {name: int(number) for name, number in map(str.split, nice.read_text().splitlines())}
    equal((sorted(by_crate), by_crate["twin"]), (sorted(["goodlock", *LIBRARIES]), by_crate["low"]))
    equal(by_crate["middle"] > by_crate["twin"], True)


def progress_is_told(clone):
    err = clone.run(*WORDS, GOODLOCK_BUILD="1")[1]
    lines = [line.split(" (")[0] for line in err.splitlines() if " of 4: " in line]
    equal((len(lines), lines[0], lines[-1]), (4, "goodlock: 1 of 4: low proved", "goodlock: 4 of 4: goodlock proved"))


def changed_source(clone):
    """What differs by content is built, and then neither carried nor old; what it doesn't stand on isn't proved again."""
    clone.write("crates/low/src/lib.rt", "fn f() { }\n")
    equal(sorted(names(clone.run(*WORDS, text="text")[3])), sorted([*LIBRARIES, "goodlock", "link", "share"]))
    equal(clone.run(*WORDS, text="text"), BUILT)
    clone.write("crates/middle/src/new.rt", "")
    again = ["share", "middle", "goodlock", "link"]
    equal(names(clone.run(*WORDS, text="text")[3]), again)
    (clone.top / "crates/middle/src/new.rt").rename(clone.top / "crates/middle/src/newer.rt")
    equal(clone.run(*WORDS, text="text")[3][-1], "link")
    clone.write("crates.txt", CRATES.replace("bstr", "bstr itoa"))
    equal(clone.run(*WORDS, text="text")[3][-1], "link")
    clone.write("crates.txt", CRATES)
    (clone.top / "crates/middle/src/newer.rt").unlink()
    clone.write("crates/low/src/lib.rt", "fn f() {}\n")
    equal(clone.run(*WORDS, text="text"), CARRIED)


def what_is_no_source(clone):
    for name in ("crates/side/src/lib.rt", "crates/low/must-fail/wrong.edit", "crates/low/out/kept", "README.md"):
        clone.write(name, "changed")
    clone.write("crates.txt", CRATES + "# a comment\nmore:\n")
    (clone.top / "crates/low/src/lib.rt").touch()
    equal(clone.run(*WORDS, text="text"), CARRIED)


def another_carried_program(clone):
    """It isn't run where its bytes aren't those that are said."""
    with open(clone.top / "prebuilt/goodlock", "a") as file:
        file.write("\n")
    out, err, status, calls = clone.run(*WORDS, text="text", with_rt=False)
    equal((out, status, calls), ("", 125, []))
    has(err, "goodlock: prebuilt/goodlock isn't the file that prebuilt/SHA256SUMS names, so it isn't used")
    equal(clone.run(*WORDS, text="text")[3][-1], "link")


NO_RT = ", and rt isn't on PATH to prove and build the program.\n"


def refused(clone, why, toolchain=" (kit 7)", **settings):
    """Without the toolchain there is no program, for this reason."""
    out, err, status, calls = clone.run("predict", with_rt=False, **settings)
    equal((out, status, calls), ("", 125, []))
    has(err, f"goodlock: {why}{NO_RT}", f"Get the Rattle toolchain{toolchain}, or the sources")


def without_toolchain(clone):
    refused(clone, "GOODLOCK_BUILD=1 asks for a program that is built here", GOODLOCK_BUILD="1")
    (clone.top / "prebuilt/goodlock").chmod(0o644)
    refused(clone, "there is no program prebuilt/goodlock")
    shutil.rmtree(clone.top / "prebuilt")
    refused(clone, "there is no program prebuilt/goodlock", toolchain="")
    clone.carry()
    with open(clone.top / "prebuilt/goodlock", "a") as file:
        file.write("\n")
    refused(clone, "prebuilt/goodlock isn't as it was carried")
    clone.carry()
    clone.write("crates/low/src/lib.rt", "fn g() {}\n")
    refused(clone, "prebuilt/goodlock isn't built from the sources at hand")


def without_its_library(clone):
    """An rt that isn't written as the one that is known here builds all by itself."""
    (clone.tools / "rtlib.py").unlink()
    equal(clone.run(*WORDS, text="text", GOODLOCK_BUILD="1")[2:], (1, ["run"]))
    (clone.top / "crates/goodlock/out/goodlock").unlink()
    (clone.tools / "rt").write_text(OTHER)
    out, err, status, calls = clone.run(*WORDS, text="text", GOODLOCK_BUILD="1")
    equal((out, status, calls), (OUT, 1, ["run"]))
    (clone.tools / "rt").write_text(STAND_IN)
    (clone.top / "crates/goodlock/out/goodlock").unlink()
    out, err, status, calls = clone.run("predict", GOODLOCK_BUILD="1", built=1)
    equal((out, status, calls), ("", 125, ["run"]))
    has(err, "no program ran", "couldn't be built")


def without_sharing(clone):
    """An rt that can't begin with what other copies kept has each crate proved all the same, several at once."""
    rt = clone.tools / "rt"
    rt.write_text(rt.read_text().replace("def share_work(", "def share_nothing("))
    out, err, status, calls = clone.run(*WORDS, text="text", GOODLOCK_BUILD="1", JOBS="2")
    equal((out, status, calls[0], calls[-2:]), (OUT, 1, "low --jobs 2", ["goodlock --jobs 2", "link"]))
    equal(sorted(names(calls[:-2])), sorted(LIBRARIES))


def unproved(clone):
    out, err, status, calls = clone.run("predict", text="text", unproved="middle", GOODLOCK_BUILD="1")
    equal((out, status, "link" in calls), ("", 125, False))
    has(err, "an open goal", "couldn't be built")
    log = err.splitlines()[-1].split(" is in ")[1]
    has(pathlib.Path(log).read_text(), "== low proved", "== middle NOT PROVED", "an open goal\n")
    equal(names(clone.run("predict", GOODLOCK_BUILD="1")[3]), ["share", "middle", "goodlock", "link"])


def refused_text(clone):
    out, err, status, calls = clone.run("predict", GOODLOCK_BUILD="1", REFUSED="middle")
    equal((out, status, "middle" in names(calls), "link" in calls), ("", 125, False, False))
    has(err, "the text of middle is refused", "couldn't be built")


def unbuilt(clone):
    """Where linking fails the status says so; what an earlier build left isn't taken for the sources that it was of."""
    clone.run("predict", GOODLOCK_BUILD="1")
    clone.write("crates/low/src/lib.rt", "fn f() { }\n")
    out, err, status, calls = clone.run("predict", text="text", built=1, GOODLOCK_BUILD="1")
    equal((out, status, calls[-1]), ("", 125, "link"))
    has(err, "nothing linked", "couldn't be built")
    clone.write("crates/low/src/lib.rt", "fn f() {}\n")
    equal(clone.run("predict", GOODLOCK_BUILD="1")[3][-1], "link")


def without_readlink(clone):
    """The checkout that it is called in isn't taken for its own."""
    commands = clone.tools / "commands"
    commands.mkdir()
    for command in pathlib.Path("/usr/bin").iterdir():
        if command.name not in ("readlink", "dirname"):
            (commands / command.name).symlink_to(command)
    shutil.copy(TOP / "goodlock", clone.tools / "goodlock")
    done = subprocess.run(
        [clone.tools / "goodlock", *WORDS], cwd=clone.top, env={"PATH": str(commands)}, capture_output=True, text=True
    )
    said = "goodlock: readlink, which tells where its own files are, can't be run\n"
    equal((done.stdout, done.stderr, done.returncode), ("", said, 125))


TESTS = (
    carried_program,
    large_pages,
    called_otherwise,
    built_where_asked,
    how_it_is_built,
    over_what_was_kept,
    an_archive,
    processes_at_once,
    processes_are_shared,
    stands_back,
    progress_is_told,
    changed_source,
    what_is_no_source,
    another_carried_program,
    without_toolchain,
    without_readlink,
    without_its_library,
    without_sharing,
    unproved,
    refused_text,
    unbuilt,
)


def main():
    passed = failed = 0
    for test in TESTS:
        with tempfile.TemporaryDirectory() as folder:
            try:
                test(Clone(pathlib.Path(folder).resolve()))
                passed += 1
            except Exception:
                failed += 1
                print(f"{test.__name__}: {traceback.format_exc()}")
    print(f"{passed} passed, {failed} failed")
    return 1 if failed or passed == 0 else 0


if __name__ == "__main__":
    sys.exit(main())
