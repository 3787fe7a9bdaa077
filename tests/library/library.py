#!/usr/bin/env python3
"""Tests the C library: its header, its examples, and random sessions of C threads against the program.

    library.py [--cases N] [--seed S] [--only PART ..] PROGRAM

The headers are compiled alone as C and as C++. The numbers and types of goodlock.h have to be those of crates/gl_c;
header.c is of its short forms and its words. Each example of library/examples prints its known report. The blocks of
docs/EMBEDDING.md are compiled and run as they stand there, and its commands are typed, but for what is installed.
sessions.c records random sessions in running threads; the text and JSON of each report, of cycles and of findings, has to be
what PROGRAM says of the trace of what was recorded, byte for byte. Some hundred of them run under AddressSanitizer and
ThreadSanitizer, and some of each kind under Valgrind.
Again.java settles again, from Java, where refused.c refused memory.
misuse.c uses each call wrongly, refuses memory, forks and leaves in mid-course; partial.c leaves events out, and goes
on in a second session; order.c tells the same by numbers in two orders, and their reports by mention have to be the
same; wrapper.cc, forms.cc, busy.cc and parts.cc are of goodlock.hpp, names.c of goodlock_names.h, as C and as C++, by many threads and by all short
schedules of two or three; debug.c breaks each promise that goodlock_debug.h checks, and the tests above that keep them
are run with GOODLOCK_DEBUG, too, in which they say the same. Every run has a limit of time. The last line is `N passed,
N failed`, with `, N skipped` behind it where tools are missing: each is named. PART: headers, examples, wrapper, names,
sessions, sanitized, misuse, order, debug.

LIBRARY   the archive that is tested   (prebuilt/libgoodlock.a)
CASES     how many random sessions     (3000, as --cases)
"""

import argparse
import collections
import concurrent.futures
import functools
import itertools
import os
import pathlib
import re
import shutil
import signal
import subprocess
import sys
import tempfile

HERE = pathlib.Path(__file__).resolve().parent
TOP = HERE.parent.parent
HEADERS = TOP / "library"
EXAMPLES = HEADERS / "examples"
EXPORTS = TOP / "crates" / "gl_c" / "src"
PAGE = TOP / "docs" / "EMBEDDING.md"
FAULTS = TOP / "crates" / "gl_std" / "specs" / "Faults.antt"
ARCHIVE = pathlib.Path(os.environ.get("LIBRARY") or TOP / "prebuilt" / "libgoodlock.a").resolve()
STRICT = ["-Wall", "-Wextra", "-pedantic", "-Werror"]
# What programs may have their own sources checked for, and with them the headers.
STRICTER = {"c": ["-Wconversion", "-Wsign-conversion", "-Wshadow", "-Wcast-qual", "-Wcast-align"]}
STRICTER["c++"] = [*STRICTER["c"], "-Wold-style-cast", "-Wzero-as-null-pointer-constant"]
CPP_STANDARDS = ("c++11", "c++14", "c++17", "c++20", "c++2b")
MODES = ("basic", "guarded", "full")
INCONSISTENT = 10  # the library's code
BATCH = 250  # sessions in a process
# Of these sessions of seed 1 some have one thread, some 23 to 63, rings of 1 event to 220, or forks and joins of a tree, of
# any sort or none; are pulled by lane or not; are inconsistent, or list cycles; one is refused a 65th lock. Valgrind takes
# half a second for each.
OF_EACH_KIND = range(20, 44)
JAVA = ["/usr/lib/jvm/java-17-openjdk-amd64", os.environ.get("JAVA_HOME", "")]

# Types of parameters and results of the exports, as they are in C. The allocator is nothing there.
TYPES = {
    "Global": None,
    "": "void",
    "u32": "uint32_t",
    "u64": "uint64_t",
    "&[u8]": "const uint8_t *, size_t",
    "&mut [u8]": "uint8_t *, size_t",
    "&mut u32": "uint32_t *",
    "&mut usize": "size_t *",
    "&mut bool": "bool *",
    "&mut Session": "goodlock_session *",
    "&mut Lane": "goodlock_lane *",
    "&mut Made": "goodlock_report *",
    "&mut PulledCount": "goodlock_pulled *",
}

# Answers, and the faults of a line that are the same.
SAME_WORDS = {
    "NAMES": "TooManyNames",
    "EVENTS_FULL": "TooManyEvents",
    "ON_ITSELF": "OnItself",
    "HELD_FULL": "HeldFull",
    "DEPTH_FULL": "DepthFull",
    "UPGRADE": "Upgrade",
}

BY_NAME = """\
cycle 1: 2 edges
  T1 holds current since transfer, first wants savings at transfer, second
  T2 holds savings since transfer, first wants current at transfer, second
cycles: 1
"""
BY_LINE = """\
cycle 1: 2 edges
  T1 holds current since bank.cc:24 wants savings at bank.cc:25
  T2 holds savings since bank.cc:24 wants current at bank.cc:25
cycles: 1
"""
BY_ADDRESS = """\
cycle 1: 2 edges
  T0 holds shelf since move, from wants shelf#2 at move, to
  T1 holds shelf#2 since move, from wants shelf at move, to
cycles: 1
locks: 22, places: 7
"""
# What stands around the blocks of docs/EMBEDDING.md: {includes} are theirs, {0}, {1} .. the rest of them. Two threads
# record one after the other.
AROUND = """\
{includes}
#include <pthread.h>
#include <stdio.h>

#define OK(call) ok(call, #call)
static void ok(uint32_t code, const char *call)
{{
    if (code != GOODLOCK_OK)
        printf("%s: %s\\n", call, goodlock_says(code));
}}

int main(void)
{{
    pthread_mutex_t mutex = PTHREAD_MUTEX_INITIALIZER;
"""
AROUND_SESSION = (
    AROUND
    + """\
    goodlock_pulled pulled;
    goodlock_report report = {{0}};
    uint8_t buffer[1000];
    size_t needed;
{0}
    for (uint32_t own = 0; own < 2; own++) {{
{1}
    }}
{2}
    printf("so far %.*s", (int)needed, (const char *)buffer);
{3}
    printf("settled %.*s", (int)needed, (const char *)buffer);
    return 0;
}}
"""
)
AROUND_NAMES = (
    AROUND
    + """\
    goodlock_session session = {{0}};
    uint32_t lock, other, place, told_locks = 0, told_places = 0;
    OK(goodlock_open(1, 1, 1, &session));
{0}
    printf("lock %u, other %u, place %u, told %u and %u\\n", lock, other, place, told_locks, told_places);
    goodlock_names_free(&locks);
    goodlock_names_free(&places);
    goodlock_session_free(&session);
    return 0;
}}
"""
)
# Compilers take several times as long for -O1 with sanitizers, which look at more without it: at each access as it is
# written. What optimised code does, and is warned of, is seen without them. Of -g only lines are read, in their reports.
OPTIMISED, AS_WRITTEN = ["-O1", "-g1"], ["-O0", "-g1"]
ADDRESS, THREAD = "-fsanitize=address,undefined", "-fsanitize=thread"
BUILDS = {"plain": OPTIMISED, "address": [*AS_WRITTEN, ADDRESS], "thread": [*AS_WRITTEN, THREAD]}
WRAPS = [f"-Wl,--wrap={name}" for name in ("malloc", "calloc", "realloc", "aligned_alloc")]
WRAPS_OF_NEW = [*WRAPS, "-Wl,--wrap=_Znwm"]
WORDS_OF_WRAPPER = "locks names findings unstarted memory thrown texts signals elsewhere threads ends".split()
DEBUG = "-DGOODLOCK_DEBUG"
LEFT = (
    "goodlock: the end of the program: what was opened is given back: "
    "left are sessions: 1, lanes: {0} (not closed: {0}), reports: 0, tables: 0; the first is session 1\n"
)

Done = collections.namedtuple("Done", "status output errors")


def run(*command, seconds=300, **more):
    """Status, output and errors, as texts. A run over its time has no status."""
    try:
        words = [str(word) for word in command]
        done = subprocess.run(words, capture_output=True, timeout=seconds, stdin=subprocess.DEVNULL, **more)
    except subprocess.TimeoutExpired:
        return Done(None, "", f"(not done after {seconds} seconds)")
    except OSError as error:
        return Done(None, "", str(error))
    return Done(done.returncode, done.stdout.decode(errors="replace"), done.stderr.decode(errors="replace"))


class Tests:
    def __init__(self, folder, program, options):
        self.folder = pathlib.Path(folder)
        self.program = program
        self.cases, self.seed = options.cases, options.seed
        self.passed = self.failed = self.skipped = 0

    def check(self, name, is_right, problem=""):
        self.passed, self.failed = self.passed + is_right, self.failed + (not is_right)
        if not is_right and self.failed <= 20:
            print(f"{name}: {problem}")
        return is_right

    def skip(self, name, missing):
        self.skipped += 1
        print(f"{name} is SKIPPED: {missing}")

    def build(self, output, *command):
        """Whether the command made this file."""
        done = run(*command, "-o", output, cwd=self.folder, seconds=300)
        return self.check(f"building {output}", done.status == 0, done.errors[-3000:])

    # --- The headers

    def headers(self):
        self.alone()
        self.numbers()
        self.types()
        self.words()
        c = [*OPTIMISED, *STRICT, f"-I{HEADERS}"]
        rest = ["-x", "none", ARCHIVE, "-Wl,--wrap=goodlock_record", "-lpthread"]
        for language, first in (("c", ["gcc", "-std=gnu11"]), ("c++", ["g++", "-std=gnu++17"])):
            program = "header_cc" if language == "c++" else "header_c"
            if self.build(program, *first, *c, "-x", language, HERE / "header.c", *rest):
                for word in ("forms", "reports", "words"):
                    self.counted(f"header, {word}, {language}", program, word)

    @staticmethod
    def without_comments(header):
        return re.sub(r"/\*.*?\*/", "", (HEADERS / header).read_text(), flags=re.S)

    def numbers(self):
        """Whether the constants of goodlock.h are those that the exports go by: answers, kinds of event, modes."""
        header = self.without_comments("goodlock.h")
        parts = [
            {name: int(number) for name, number in re.findall(r"\bGOODLOCK_(\w+)\s*=\s*(\d+)", part)}
            for part in re.findall(r"\benum\s*{(.*?)}", header, re.S)
        ]
        told = {name: number for part in parts for name, number in part.items()}
        constants = re.findall(r"^pub const (\w+): u32 = (\d+);$", (EXPORTS / "codes.rt").read_text(), re.M)
        right = {name: int(number) for name, number in constants}
        if not self.check("the header's constants", len(parts) == 3 and all(parts), f"{parts} in goodlock.h"):
            return
        for name in sorted(told.keys() | right.keys()):
            problem = f"{told.get(name)} in goodlock.h, {right.get(name)} in codes.rt"
            self.check(f"GOODLOCK_{name}", told.get(name) == right.get(name), problem)
        contract = (EXPORTS.parent / "specs/Numbered.antt").read_text()
        events = re.findall(r"if kind == (\w+) then Some \((\w+)(?: (Exclusive|Shared))? operand place\)", contract)
        kinds = {
            name: re.sub(r"(?<=[a-z])(?=[A-Z])", "_", event).upper() + "_SHARED" * (mode == "Shared")
            for name, event, mode in events
        }
        self.check("the kinds of event", kinds == {name: name for name in parts[1]}, f"{kinds} in Numbered.antt")
        arms = (EXPORTS / "numbered.rt").read_text()
        refusals = set(re.findall(r"Refusal::\w+ => (\w+),", arms))
        said = {name for name, number in parts[0].items() if number >= 20}
        self.check("the refusals of an event", refusals == said, f"{said} in goodlock.h, {refusals} in numbered.rt")

    def types(self):
        """Whether goodlock.h declares the exports, each with the parameters and the result that it has."""
        exports = {}
        for file in sorted(EXPORTS.glob("*.rt")):
            found = re.findall(r'extern "C" fn (goodlock_\w+)\(([^)]*)\)(?: -> (\w+))?', file.read_text())
            for name, parameters, result in found:
                types = [TYPES.get(one.partition(":")[2].strip(), one) for one in parameters.split(",") if one.strip()]
                exports[name] = TYPES.get(result, result), ", ".join(filter(None, types))
        text = self.without_comments("goodlock.h")
        declared = {
            name: (result, ", ".join(re.sub(r"\w+$", "", one.strip()).strip() for one in parameters.split(",")))
            for result, name, parameters in re.findall(r"^(\w+) (goodlock_\w+)\(([^)]*)\);", text, re.M)
        }
        for name in sorted(exports.keys() | declared.keys()):
            problem = f"{declared.get(name)} in goodlock.h, {exports.get(name)} in crates/gl_c"
            self.check(name, name in exports and declared.get(name) == exports[name], problem)
        self.check("the exports", len(exports) > 0, "none is found in crates/gl_c")

    def words(self):
        """Whether goodlock_says has the words of the formats, where a line is refused for the same."""
        formats = dict(re.findall(r'^text_of (\w+) = codes "(.*)"$', FAULTS.read_text(), re.M))
        header = self.without_comments("goodlock.h")
        says = dict(re.findall(r'case GOODLOCK_(\w+):\s+return "(.*)";', header))
        for name, fault in SAME_WORDS.items():
            problem = f"`{says.get(name)}` in goodlock.h, `{formats.get(fault)}` of a line"
            self.check(f"the words of {name}", name in says and says[name] == formats.get(fault), problem)

    def alone(self):
        languages = [("c", standard, tool) for standard in ("c99", "c11", "c17", "c2x") for tool in ("gcc", "clang")]
        languages += [("c++", standard, tool) for standard in CPP_STANDARDS for tool in ("g++", "clang++")]
        for language, standard, compiler in languages:
            name = f"the header as {standard} by {compiler}"
            if shutil.which(compiler) is None:
                self.skip(name, f"{compiler} isn't installed")
                continue
            files = ["goodlock.h", "goodlock_names.h", *(["goodlock.hpp"] if language == "c++" else [])]
            text = "".join(f'#include "{file}"\n#include "{file}"\n' for file in files)
            source = self.folder / f"alone.{'cc' if language == 'c++' else 'c'}"
            source.write_text(text + "int alone;\n")
            for more in ([], ["-DGOODLOCK_DEBUG=2"]):
                words = [*STRICT, *STRICTER[language], *more, "-fsyntax-only", f"-I{HEADERS}"]
                words += ["-Wuseless-cast"] * (compiler == "g++")
                done = run(compiler, f"-std={standard}", *words, source)
                self.check(" ".join([name, *more]), done.status == 0, done.errors[-3000:])
            self.same_but_for_a_number(f"{name} -DGOODLOCK_DEBUG", compiler, f"-std={standard}", "-x", language)

    def same_but_for_a_number(self, name, *compiler):
        """Whether the headers in C say the same with -DGOODLOCK_DEBUG and with -DGOODLOCK_DEBUG=2, but for the number
        that asks whether it is more than 1: so what compiles by the one does by the other."""
        texts = []
        for more in ("-DGOODLOCK_DEBUG", "-DGOODLOCK_DEBUG=2"):
            done = run(*compiler, more, "-E", "-P", HEADERS / "goodlock_names.h")
            texts.append(done.output.replace(f"{more.partition('=')[2] or 1} + 0 > 1", "N + 0 > 1"))
        is_so = "N + 0 > 1" in texts[0] and texts[0] == texts[1]
        is_so = is_so and "GOODLOCK_DEBUG" not in (HEADERS / "goodlock.hpp").read_text()
        self.check(name, is_so, "-DGOODLOCK_DEBUG=2 makes it another text")

    # --- The examples

    def example(self, name, right, *command, **more):
        done = run(*command, cwd=self.folder, **more)
        self.check(name, done == Done(0, right, ""), f"status {done.status}\n{done.output}{done.errors}")

    def examples(self):
        c = [*OPTIMISED, *STRICT, f"-I{HEADERS}"]
        for standard in ("gnu11", "c11"):
            for name, right in (("bank", BY_NAME), ("named", BY_ADDRESS)):
                if self.build(name, "gcc", f"-std={standard}", *c, EXAMPLES / f"{name}.c", ARCHIVE, "-lpthread"):
                    self.example(f"{name}.c in {standard}", right, f"./{name}")
        for standard in ("c++11", "c++17"):
            shutil.copy(EXAMPLES / "bank.cc", self.folder)
            if self.build("bank_cc", "g++", f"-std={standard}", *c, "bank.cc", ARCHIVE, "-lpthread"):
                self.example(f"the example in {standard}", BY_LINE, "./bank_cc")
        self.page()
        self.rust()
        shared = self.folder / "libgoodlock.so.0"
        whole = ["-Wl,--whole-archive", ARCHIVE, "-Wl,--no-whole-archive", "-Wl,-soname,libgoodlock.so.0", "-lpthread"]
        if self.build(shared.name, "gcc", "-shared", *whole):
            self.example("the example in Python", BY_NAME, sys.executable, EXAMPLES / "bank.py", shared)
        self.java()

    @staticmethod
    def blocks(heading):
        """The indented blocks of docs/EMBEDDING.md under this heading, up to the next one."""
        section = re.split(r"^#+ ", PAGE.read_text().partition(f"\n{heading}\n")[2], maxsplit=1, flags=re.M)[0]
        found = re.findall(r"(?:^    .*\n(?:\n(?=    ))*)+", section, re.M)
        return [re.sub(r"^    ", "", block, flags=re.M) for block in found]

    def page(self):
        """The blocks of docs/EMBEDDING.md as they stand there: code is compiled and run, commands are typed."""
        self.page_in_c("session", "## From C", 4, AROUND_SESSION, "so far cycles: 0\nsettled cycles: 0\n")
        right = "lock 0, other 1, place 0, told 2 and 1\n"
        self.page_in_c("names", "### Names from any thread", 1, AROUND_NAMES, right)
        (self.folder / "page.cc").write_text("".join(self.blocks("## From C++")[:1]))
        c = ["-std=c++11", *STRICT, f"-I{HEADERS}", DEBUG]
        if self.build("page_cc", "g++", *c, "page.cc", ARCHIVE, "-lpthread"):
            self.example("the page's code in C++", "cycles: 0\n", "./page_cc")
        self.check("the page's report", BY_NAME in self.blocks("## From C"), "it isn't that of the examples")
        by_line = BY_LINE.replace("bank.cc", "library/examples/bank.cc")
        for heading, tool, right in (("C", "cc", BY_NAME), ("C++", "g++", by_line), ("Rust", "rustc", BY_NAME)):
            if shutil.which(tool) is None:
                self.skip(f"the page's commands for {heading}", f"{tool} isn't installed")
            else:
                self.typed(heading, "./bank", right)
        if shutil.which("javac") is None or not os.path.exists(f"{JAVA[0]}/include/jni.h"):
            self.skip("the page's commands for Java", f"there is no {JAVA[0]}")
        else:
            self.typed("Java", "", BY_NAME)

    def page_in_c(self, name, heading, count, around, right):
        """Each call of so many blocks has to answer OK, and all that is opened is given back."""
        code = "".join(self.blocks(heading)[:count])
        includes = "".join(re.findall(r"^#include .*\n", code, re.M))
        parts = [re.sub(r"^(?:#include .*|\.\.)\n", "", block, flags=re.M) for block in self.blocks(heading)[:count]]
        parts = [
            re.sub(r"^( *)(goodlock_(?!\w*(?:free|forget)\()\w+\(.*?\));", r"\1OK(\2);", part, flags=re.M)
            for part in parts
        ]
        if not self.check(f"the page's blocks, {name}", len(parts) == count, f"there are {len(parts)}"):
            return
        (self.folder / f"page_{name}.c").write_text(around.format(*parts, includes=includes))
        c = ["-std=gnu11", *STRICT, f"-I{HEADERS}", DEBUG]
        if self.build(f"page_{name}", "gcc", *c, f"page_{name}.c", ARCHIVE, "-lpthread"):
            self.example(f"the page's code, {name}", right, f"./page_{name}")

    def typed(self, heading, more, right):
        """Commands under a heading, but for those of what is installed, typed in a checkout without JAVA_HOME, and more."""
        with tempfile.TemporaryDirectory(dir=self.folder) as place:
            checkout = pathlib.Path(place)
            (checkout / "library").symlink_to(HEADERS)
            (checkout / "prebuilt").mkdir()
            (checkout / "prebuilt" / "libgoodlock.a").symlink_to(ARCHIVE)
            block = self.blocks(f"## From {heading}")[-1]
            lines = [line for line in block.splitlines() if not re.search(r"pkg-config|/usr/local", line)]
            environment = {name: value for name, value in os.environ.items() if name != "JAVA_HOME"}
            done = run("sh", "-ec", "\n".join([*lines, more]), cwd=checkout, env=environment)
            problem = f"status {done.status}\n{done.output}{done.errors}"
            self.check(f"the page's commands for {heading}", done == Done(0, right, ""), problem)

    def rust(self):
        if shutil.which("rustc") is None:
            self.skip("the example in Rust", "rustc isn't installed")
            return
        shutil.copy(ARCHIVE, self.folder / "libgoodlock.a")
        words = ["--edition", "2021", "-D", "warnings", "-L", f"native={self.folder}", "-l", "static=goodlock"]
        if self.build("bank_rs", "rustc", *words, EXAMPLES / "bank.rs"):
            self.example("the example in Rust", BY_NAME, "./bank_rs")

    def java(self):
        homes = [home for home in JAVA if home and os.path.exists(f"{home}/include/jni.h")]
        if not homes:
            self.skip("the example in Java", "there is no JDK with jni.h")
            return
        home = homes[0]
        include = [f"-I{HEADERS}", f"-I{home}/include", f"-I{home}/include/linux"]
        glue = ["-std=gnu11", "-Wall", "-Wextra", "-Werror", "-shared", "-fPIC", *include, EXAMPLES / "goodlock_jni.c"]
        if not self.build("libgoodlock_jni.so", "gcc", *glue, ARCHIVE, "-lpthread"):
            return
        sources = [*(EXAMPLES / name for name in ("Bank.java", "Goodlock.java")), HERE / "Again.java"]
        done = run(f"{home}/bin/javac", "-Xlint:all", "-Werror", "-d", self.folder, *sources)
        if self.check("javac", done.status == 0, done.output + done.errors):
            self.example("the example in Java", BY_NAME, f"{home}/bin/java", "-Djava.library.path=.", "Bank")
        wraps = ["-Wl,--wrap=goodlock_settled_report", "-Wl,--wrap=goodlock_text"]
        (self.folder / "refused").mkdir()
        if self.build("refused/libgoodlock_jni.so", "gcc", *glue, HERE / "refused.c", ARCHIVE, *wraps, "-lpthread"):
            right = "out of memory\nout of memory\ncycles: 0\n"
            self.example("settled again in Java", right, f"{home}/bin/java", "-Djava.library.path=refused", "Again")

    # --- Random sessions

    @functools.cache
    def predicted(self, trace, mode, length, most, *more):
        """The program's answer on a trace: output, errors and status. A session has the same trace with each driver, and
        for its last two reports: the program is asked once."""
        words = ["predict", "--mode", MODES[mode], "--len", length, "--max", most, *more]
        done = subprocess.run([self.program, *map(str, words)], input=trace, capture_output=True, timeout=300)
        return done.stdout, done.stderr, done.returncode

    def compared(self, line, folder):
        """What is wrong with the report that a line of the driver tells; nothing where all is well."""
        name, of, listed, *numbers = line.split()
        mode, length, most, code, count, more = map(int, numbers)
        path = folder / f"{of}.std"
        asked = (path.read_bytes(), mode, length, most, *(["--findings"] if listed == "findings" else []))
        text, errors, status = self.predicted(*asked)
        if code == INCONSISTENT or status > 1:
            is_so = code == INCONSISTENT and status == 2 and errors.startswith(b"goodlock: inconsistent: ")
            return None if is_so else f"{name}: code {code}, and {errors!r} of the program"
        if code != 0:
            return f"{name}: code {code}"
        if text != (folder / f"{name}.text").read_bytes():
            return f"{name}: another text of {listed} than that of `predict` on {path}"
        if text.splitlines()[-1] != f"{listed}: {count}{' (more)' * more}".encode():
            return f"{name}: {count} {listed} are told, more: {more}, and the text ends with {text.splitlines()[-1]!r}"
        json = self.predicted(*asked, "--json")[0]
        if json != (folder / f"{name}.json").read_bytes():
            return f"{name}: another JSON of {listed} than that of `predict --json` on {path}"
        return None

    def compared_all(self, lines, folder):
        """What is wrong with the reports that the driver's lines tell. Sessions are looked at side by side, each one's
        reports in turn."""
        sessions = [list(some) for _, some in itertools.groupby(lines, lambda line: line.partition("-")[0])]
        with concurrent.futures.ThreadPoolExecutor(2) as pool:
            found = pool.map(lambda some: [self.compared(line, folder) for line in some], sessions)
            return [fault for some in found for fault in some if fault is not None]

    def batch(self, driver, first, last, prefix=()):
        """Runs some sessions; their faults and the number of reports."""
        with tempfile.TemporaryDirectory(dir=self.folder) as place:
            done = run(*prefix, driver, self.seed, first, last, place, seconds=1500)
            faults = []
            if done.status != 0 or done.errors:
                faults.append(f"sessions {first} to {last}: status {done.status}\n{done.errors[-3000:]}")
            lines = done.output.splitlines()
            faults += self.compared_all(lines, pathlib.Path(place))
        return (
            faults,
            len(lines),
            sum(line.split()[6] == str(INCONSISTENT) for line in lines),
            sum(line.split()[7] != "0" for line in lines),
        )

    def sessions_by(self, name, driver, numbers, prefix=()):
        """Runs the sessions of these numbers."""
        reports = inconsistent = cyclic = 0
        for first in numbers[::BATCH]:
            last = min(numbers.stop, first + BATCH)
            faults, made, loops, with_cycles = self.batch(driver, first, last, prefix)
            reports, inconsistent, cyclic = reports + made, inconsistent + loops, cyclic + with_cycles
            self.passed += max(0, last - first - len(faults))
            for fault in faults:
                self.check(f"{name}", False, fault)
        told = f"{reports} reports, {cyclic} that list some, {inconsistent} inconsistent"
        print(f"{name}: {len(numbers)} sessions, {told}")

    def driver(self, output, *words):
        source = HERE / "sessions.c"
        c = ["gcc", "-std=gnu11", *OPTIMISED, *STRICT, f"-I{HEADERS}", *words, source, ARCHIVE, "-lpthread"]
        return self.folder / output if self.build(output, *c) else None

    def sessions(self):
        driver = self.driver("driver")
        if driver is not None:
            self.sessions_by("random sessions", driver, range(self.cases))

    def sanitized(self):
        few = range(min(self.cases, max(20, self.cases // 10)))
        for name, sanitizer in (("address", ADDRESS), ("thread", THREAD)):
            driver = self.driver(f"driver_{name}", sanitizer)
            if driver is not None:
                self.sessions_by(f"under {name} sanitizer", driver, few)
            c = ["g++", "-std=c++17", *STRICT, f"-I{HEADERS}", *BUILDS[name], EXAMPLES / "bank.cc"]
            if self.build(f"bank_{name}", *c, ARCHIVE, "-lpthread"):
                # ThreadSanitizer sees this run's lock order, too: it isn't asked here.
                done = run(self.folder / f"bank_{name}", env={**os.environ, "TSAN_OPTIONS": "detect_deadlocks=0"})
                self.check(f"bank.cc by {name}", done.status == 0 and not done.errors, done.errors[-3000:])
        if shutil.which("valgrind") is None:
            self.skip("sessions under Valgrind", "valgrind isn't installed")
            return
        prefix = ["valgrind", "-q", "--error-exitcode=9", "--leak-check=full", "--fair-sched=yes"]
        driver = self.driver("driver_plain")
        if driver is not None:
            self.sessions_by("under Valgrind", driver, OF_EACH_KIND, prefix)

    # --- The wrapper for C++

    def wrapper(self):
        source = HERE / "wrapper.cc"
        environment = {**os.environ, "TSAN_OPTIONS": "detect_deadlocks=0"}
        for name, words in BUILDS.items():
            c = ["g++", "-std=c++17", *STRICT, f"-I{HEADERS}", *words, source, ARCHIVE, *WRAPS_OF_NEW]
            if self.build(f"wrapper_{name}", *c, "-lpthread"):
                for word in (*WORDS_OF_WRAPPER, "leave"):
                    self.counted(f"wrapper, {word}, {name}", f"wrapper_{name}", word, env=environment)
            self.busy(name, "g++", "c++11", *words)
        # Not by thread: gcc's doesn't know pthread_mutex_clocklock, by which std's limits of time go.
        self.forms("address", "g++", "c++17", *BUILDS["address"])
        for compiler in ("g++", "clang++"):
            for standard in ("c++11", "c++14", "c++17", "c++20"):
                if shutil.which(compiler) is None:
                    self.skip(f"goodlock.hpp as {standard} by {compiler}", f"{compiler} isn't installed")
                else:  # optimised by one standard, as no line of goodlock.hpp depends on it
                    words = OPTIMISED if standard == "c++17" else AS_WRITTEN
                    self.forms(f"{compiler} {standard}", compiler, standard, *words)
        self.forms_of_llvm()
        self.parts("g++")
        if shutil.which("clang++") is not None:
            self.busy("clang++", "clang++", "c++20", *OPTIMISED)
            self.parts("clang++")

    def forms_of_llvm(self):
        """With its C++ library, where that is installed."""
        probe = ["clang++", "-stdlib=libc++", "-x", "c++", "-", "-o", self.folder / "probe_of_llvm"]
        text = "#include <mutex>\nint main() { std::mutex().lock(); }\n"
        if (
            shutil.which("clang++") is None
            or subprocess.run(probe, input=text, text=True, capture_output=True).returncode
        ):
            self.skip("goodlock.hpp with LLVM's C++ library", "it isn't installed")
            return
        for standard in ("c++11", "c++20"):
            self.forms(f"LLVM's library {standard}", "clang++", standard, "-stdlib=libc++", *AS_WRITTEN)

    def parts(self, compiler):
        """goodlock.hpp in a program and in a library that it opens, also where both hide what they needn't show."""
        hidden = ["-fvisibility=hidden", "-fvisibility-inlines-hidden"]
        for words in ([], hidden[:1], hidden):
            name = "_".join(["parts", compiler, *words])
            c = [compiler, "-std=c++11", *STRICT, f"-I{HEADERS}", *OPTIMISED, *words]
            if not self.build(f"lib{name}.so", *c, "-shared", "-fPIC", HERE / "part.cc", ARCHIVE, "-lpthread"):
                return
            if self.build(name, *c, "-rdynamic", HERE / "parts.cc", ARCHIVE, "-lpthread", "-ldl"):
                self.counted(f"parts, {compiler} {' '.join(words)}", name, f"./lib{name}.so", cwd=self.folder)

    def busy(self, name, compiler, standard, *words):
        """goodlock.hpp where more is recorded than can be pulled, and while the session ends."""
        c = [f"-std={standard}", *STRICT, "-Wconversion", "-Wshadow", f"-I{HEADERS}", *words]
        wraps = [
            f"-Wl,--wrap={name}" for name in ("goodlock_pull", "goodlock_pull_lane", "goodlock_close", "nanosleep")
        ]
        output = f"busy_{re.sub('[^a-z0-9]', '_', name)}"
        environment = {**os.environ, "TSAN_OPTIONS": "detect_deadlocks=0"}
        if self.build(output, compiler, *c, HERE / "busy.cc", ARCHIVE, *wraps, "-lpthread"):
            for word in ("turns", "asked", "finish", "filled", "dropped", "late", "full"):
                self.counted(f"busy, {word}, {name}", output, word, env=environment)

    def forms(self, name, compiler, standard, *words, **more):
        """Whether goodlock.hpp has the forms of std, without a warning."""
        c = [f"-std={standard}", *STRICT, "-Wconversion", "-Wshadow", f"-I{HEADERS}", *words]
        output = f"forms_{re.sub('[^a-z0-9]', '_', name)}"
        if self.build(output, compiler, *c, HERE / "forms.cc", ARCHIVE, "-lpthread"):
            self.counted(f"forms, {name}", output, "forms", **more)

    # --- Names

    def names(self):
        c = [*STRICT, f"-I{HEADERS}"]
        rest = ["-x", "none", ARCHIVE, *WRAPS, "-lpthread"]
        for language, first in (("c", ["gcc", "-std=gnu11"]), ("c++", ["g++", "-std=gnu++17"])):
            for name, words in BUILDS.items():
                program = f"names_{'cc' if language == 'c++' else 'c'}_{name}"
                if not self.build(program, *first, *c, *words, "-x", language, HERE / "names.c", *rest):
                    continue
                # Sanitizers make system calls of their own, and know no coroutines.
                alone = ("quiet", "schedules") if name == "plain" else ()
                for word in ("numbers", "memory", "report", "threads", *alone):
                    self.counted(f"names, {word}, {language}, {name}", program, word)
        environment = {**os.environ, "TSAN_OPTIONS": "detect_deadlocks=0"}
        for name in ("address", "thread"):
            words = ["gcc", "-std=gnu11", *c, *BUILDS[name], EXAMPLES / "named.c", ARCHIVE, "-lpthread"]
            if self.build(f"named_{name}", *words):
                self.example(f"named.c by {name}", BY_ADDRESS, f"./named_{name}", env=environment)

    # --- Misuse

    def misuse(self):
        for name, words in BUILDS.items():
            c = ["gcc", "-std=gnu11", *STRICT, f"-I{HEADERS}", *words]
            if self.build(f"misuse_{name}", *c, HERE / "misuse.c", ARCHIVE, *WRAPS, "-lpthread"):
                for word in ("misuse", "limits", "memory", "fork", "exit"):
                    self.counted(f"{word}, {name}", f"misuse_{name}", word)
            if self.build(f"partial_{name}", *c, HERE / "partial.c", ARCHIVE, "-lpthread"):
                for word in ("scenes", "full"):
                    self.counted(f"partial, {word}, {name}", f"partial_{name}", word)

    # --- Numbers in another order

    def order(self):
        source = HERE / "order.c"
        for name, words in BUILDS.items():
            c = ["gcc", "-std=gnu11", *STRICT, f"-I{HEADERS}", *words, source, ARCHIVE, "-lpthread"]
            if self.build(f"order_{name}", *c):
                for word in ("same", "refused"):
                    self.counted(f"order, {word}, {name}", f"order_{name}", word)

    # --- With GOODLOCK_DEBUG

    def debug(self):
        self.unchanged()
        strict = f"{DEBUG}=2"
        for name, c, cc, language, words in (
            ("plain", "gcc", "g++", "c", [*OPTIMISED, DEBUG]),
            ("strict", "gcc", "g++", "c", [*OPTIMISED, strict]),
            ("clang", "clang", "clang++", "c", [*OPTIMISED, DEBUG]),
            ("c++", "g++", "g++", "c++", [*OPTIMISED, strict]),
            ("clang c++", "clang++", "clang++", "c++", [*OPTIMISED, DEBUG]),
            ("address", "gcc", "g++", "c", [*BUILDS["address"], DEBUG]),
            ("thread", "gcc", "g++", "c", [*BUILDS["thread"], DEBUG]),
        ):
            if shutil.which(c) is None or shutil.which(cc) is None:
                self.skip(f"debug, {name}", f"{c} or {cc} isn't installed")
            else:
                self.debugged(name, c, cc, language, words)
        self.debugged("shared", "gcc", "g++", "c", [*OPTIMISED, DEBUG, "-fPIC"], is_shared=True)
        self.debugged_tests()
        self.debugged_sessions()

    def unchanged(self):
        """Without GOODLOCK_DEBUG the header makes the code that it would without its lines on it."""
        text = (HEADERS / "goodlock.h").read_text()
        less, count = re.subn(r"#ifdef GOODLOCK_DEBUG\b.*?#endif\n", "", text, flags=re.S)
        self.check("lines on GOODLOCK_DEBUG in goodlock.h", count == 1, f"they stand there {count} times")
        (self.folder / "less").mkdir()
        (self.folder / "less" / "goodlock.h").write_text(less)
        objects = []
        for name, words in (("as_is", [HEADERS]), ("less", [self.folder / "less"]), ("debug", [HEADERS, DEBUG])):
            include, *more = words
            c = ["gcc", "-std=gnu11", "-O1", "-c", f"-I{include}", *more]
            if self.build(f"{name}.o", *c, HERE / "sessions.c"):
                objects.append((self.folder / f"{name}.o").read_bytes())
        is_so = len(objects) == 3 and objects[0] == objects[1] != objects[2]
        self.check("code without GOODLOCK_DEBUG", is_so, "it isn't that without the lines, or the same with it")

    def debugged(self, name, c, cc, language, words, is_shared=False):
        """Builds debug.c and debug_other.cc, and runs what they test."""
        common = [*STRICT, f"-I{HEADERS}", *words]
        program, other = (f"{part}_{name.replace(' ', '_')}" for part in ("debug", "libother"))
        first = [c, "-x", language, "-std=gnu++17" if language == "c++" else "-std=gnu11"]
        if not self.build(f"{program}.o", *first, *common, "-c", HERE / "debug.c"):
            return
        if not self.build(f"{other}.o", cc, "-std=c++11", *common, "-c", HERE / "debug_other.cc"):
            return
        files = [f"{program}.o", f"{other}.o"]
        if is_shared:
            if not self.build(f"{other}.so", cc, "-shared", f"{other}.o"):
                return
            files = [f"{program}.o", f"./{other}.so"]
        rest = [*files, ARCHIVE, *WRAPS, "-Wl,--wrap=free", "-lpthread"]
        if self.build(program, cc, *words, *rest):
            for word in ("broken", "right"):
                self.counted(f"debug, {word}, {name}", program, word, cwd=self.folder)

    def left(self, name, lanes, program, word):
        """A program that leaves in mid-course is told so."""
        done = run(self.folder / program, word)
        is_so = done.status == -signal.SIGABRT and done.errors == LEFT.format(lanes)
        self.check(name, is_so, f"status {done.status}: {done.errors}")

    def debugged_tests(self):
        """What other parts run, with GOODLOCK_DEBUG."""
        c = [*STRICT, f"-I{HEADERS}", DEBUG]
        environment = {**os.environ, "TSAN_OPTIONS": "detect_deadlocks=0"}
        for name, more in BUILDS.items():
            rest = [*c, *more, ARCHIVE, "-lpthread"]
            if self.build(f"debug_misuse_{name}", "gcc", "-std=gnu11", HERE / "misuse.c", *rest, *WRAPS):
                for word in ("misuse", "limits", "memory", "fork"):
                    self.counted(f"debug, {word}, {name}", f"debug_misuse_{name}", word)
                self.left(f"debug, exit, {name}", 2, f"debug_misuse_{name}", "exit")
            if self.build(f"debug_partial_{name}", "gcc", "-std=gnu11", HERE / "partial.c", *rest):
                for word in ("scenes", "full"):
                    self.counted(f"debug, partial, {word}, {name}", f"debug_partial_{name}", word)
            if self.build(f"debug_names_{name}", "gcc", "-std=gnu11", HERE / "names.c", *rest, *WRAPS):
                for word in ("numbers", "memory", "report", "threads"):
                    self.counted(f"debug, names, {word}, {name}", f"debug_names_{name}", word)
            rest = [*c, *(AS_WRITTEN if name == "plain" else more), ARCHIVE, "-lpthread"]
            if self.build(f"debug_wrapper_{name}", "g++", "-std=c++17", HERE / "wrapper.cc", *rest, *WRAPS_OF_NEW):
                for word in WORDS_OF_WRAPPER:
                    self.counted(f"debug, wrapper, {word}, {name}", f"debug_wrapper_{name}", word, env=environment)
                self.left(f"debug, wrapper, leave, {name}", 2, f"debug_wrapper_{name}", "leave")
            self.busy(f"debug {name}", "g++", "c++17", f"{DEBUG}=2", *(AS_WRITTEN if name == "plain" else more))
        for source, compiler, right in (("bank.c", "gcc", BY_NAME), ("named.c", "gcc", BY_ADDRESS)):
            if self.build(f"debug_{source}.run", compiler, *OPTIMISED, EXAMPLES / source, *c, ARCHIVE, "-lpthread"):
                self.example(f"debug, {source}", right, f"./debug_{source}.run")

    def debugged_sessions(self):
        few = min(self.cases, max(20, self.cases // 10))
        for name, more in (("plain", []), ("address", [ADDRESS]), ("thread", [THREAD])):
            driver = self.driver(f"debug_driver_{name}", DEBUG, *more)
            if driver is not None:
                numbers = range(few if name == "plain" else few // 3)
                self.sessions_by(f"with GOODLOCK_DEBUG, {name}", driver, numbers)

    def counted(self, name, program, word, **more):
        """Runs a program that counts its own checks in its last line."""
        done = run(self.folder / program, word, seconds=450, **more)
        *lines, last = done.output.splitlines() or [""]
        counts = last.split()
        is_counted = len(counts) == 4 and counts[1] == "passed," and counts[3] == "failed"
        problem = f"status {done.status}: {done.output[-1000:]}{done.errors[-3000:]}"
        self.check(name, done.status == 0 and not done.errors and is_counted, problem)
        if is_counted:
            self.passed += int(counts[0])
            self.failed += int(counts[2])
        for line in lines:
            print(f"{name}: {line}")


def main():
    parser = argparse.ArgumentParser(description=__doc__, formatter_class=argparse.RawDescriptionHelpFormatter)
    parser.add_argument("--cases", type=int, default=int(os.environ.get("CASES", "3000")))
    parser.add_argument("--seed", type=int, default=1)
    parts = ["headers", "examples", "wrapper", "names", "sessions", "sanitized", "misuse", "order", "debug"]
    parser.add_argument("--only", choices=parts, action="append", default=[], help="may be said again")
    parser.add_argument("program")
    options = parser.parse_args()
    if not ARCHIVE.is_file():
        print(f"there is no {ARCHIVE}, so the library's tests are SKIPPED")
        print("0 passed, 0 failed, 1 skipped")
        return 0
    if shutil.which("gcc") is None or shutil.which("g++") is None:
        print("gcc or g++ isn't installed, so the library's tests are SKIPPED")
        print("0 passed, 0 failed, 1 skipped")
        return 0
    with tempfile.TemporaryDirectory() as folder:
        tests = Tests(folder, os.path.abspath(options.program), options)
        for part in options.only or parts:
            getattr(tests, part)()
    print(f"{tests.passed} passed, {tests.failed} failed" + (f", {tests.skipped} skipped" if tests.skipped else ""))
    return 1 if tests.failed or tests.passed == 0 else 0


if __name__ == "__main__":
    sys.exit(main())
