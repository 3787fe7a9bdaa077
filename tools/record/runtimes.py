"""Tells of runtimes in a recorded program, of languages and others: their locks don't pass the C library, and so aren't in its
trace."""

import os
import re

from tool import find_tool

# Where the other recorders are: beside this one in a checkout, or on PATH.
TOOLS = os.path.dirname(os.path.dirname(os.path.realpath(__file__)))
BESIDE = "tools/" if os.path.basename(TOOLS) == "tools" else ""

NO_FILE = r"(?!)"  # of a runtime whose library has more than what isn't seen: who calls that has its name


class Runtime:
    def __init__(self, name, file, mark, advice):
        self.name = name
        self.file = re.compile(file)  # of a library that is the runtime
        self.mark = mark  # stands in each program or library that has the runtime in itself
        self.advice = advice


RUNTIMES = (
    Runtime(
        "a Java virtual machine",
        r"libjvm\.so",
        None,
        "the monitors (synchronized) and java.util.concurrent locks of Java code aren't in this trace; "
        "record them with %sgoodlock-java" % BESIDE,
    ),
    Runtime(
        "CPython",
        r"libpython\d[\w.]*\.so[\d.]*",
        re.compile(rb"\0Py_BytesMain\0"),
        "the locks of Python code (threading.Lock and all that is made of it) aren't in this trace; "
        "record them with %sgoodlock-python" % BESIDE,
    ),
    Runtime(
        "a Go program",
        r"libgo\.so[\d.]*",
        re.compile(rb"\xff Go buildinf:"),
        "sync.Mutex and sync.RWMutex don't pass the C library and aren't in this trace; no tool here records them: "
        'write the trace from the program itself (docs/RECORDING.md, "Traces from another language")',
    ),
    Runtime(
        "Rust code",
        r"libstd-[0-9a-f]+\.so",
        re.compile(rb"/rustc/(?:[0-9a-f]{40}|[0-9.]+)/library/"),
        "std::sync::Mutex and RwLock don't pass the C library and aren't in this trace (those of Rust before 1.62 are); "
        "no tool here records them: write the trace from the program itself "
        '(docs/RECORDING.md, "Traces from another language")',
    ),
    Runtime(
        "OpenMP",
        r"lib(gomp|omp5?|iomp5)(-\d+)?\.so[\d.]*",
        None,
        "its locks and critical sections (omp_set_lock, `omp critical`) don't pass the C library and aren't in this trace; "
        "no tool here records them",
    ),
    Runtime(
        "GLib",
        r"libglib-2\.0\.so[\d.]*",
        None,
        "GMutex and bit locks (g_mutex_lock) don't pass the C library and aren't in this trace "
        "(GRWLock and GRecMutex are); no tool here records them",
    ),
    Runtime(
        "Qt",
        r"libQt\dCore\w*\.so[\d.]*",
        re.compile(rb"\0QMutex: destroying locked mutex\0"),
        "QMutex, QRecursiveMutex and QReadWriteLock don't pass the C library and aren't in this trace; no tool here records them",
    ),
    Runtime(
        "Abseil",
        r"libabsl_synchronization\.so[\d.]*",
        re.compile(rb"Mutex corrupt: both reader and writer lock held"),
        "absl::Mutex doesn't pass the C library and isn't in this trace; no tool here records it",
    ),
    Runtime(
        "oneTBB",
        r"libtbb(_debug)?\.so[\d.]*",
        None,
        "tbb::mutex, tbb::spin_mutex and their like don't pass the C library and aren't in this trace; no tool here records them",
    ),
    Runtime(
        "Boost's shared_mutex",
        NO_FILE,
        re.compile(rb"_ZNK?5boost12shared_mutex\d"),
        "it is made of a mutex and conditions, and isn't in this trace as a lock that is held (other mutexes of Boost.Thread are); "
        "no tool here records it",
    ),
    Runtime(
        "LLVM's C++ library",
        NO_FILE,
        re.compile(rb"_ZNSt3__1(?:11timed_mutex|18shared_timed_mutex|19__shared_mutex_base|21recursive_timed_mutex)\d"),
        "std::shared_mutex, std::timed_mutex and their like don't pass the C library there and aren't in this trace as locks that "
        "are held; no tool here records them",
    ),
    Runtime(
        "GNU's C++ library in itself",
        NO_FILE,
        re.compile(
            rb"\0N9__gnu_cxx20recursive_init_errorE\0"
        ),  # is thrown where an initialisation comes to itself again
        "initialisations of its static variables don't pass the recorder and aren't in this trace; they are where it is built "
        "without -static-libstdc++",
    ),
)

# These have no runtime in themselves, and are in every program.
PLAIN_FILE = re.compile(r"(ld-linux[\w-]*|lib(c|m|dl|rt|pthread|gcc_s|(?:std)?c\+\+|z)|goodlock_record)\.so[\d.]*")


def runtimes_in(path):
    """The runtimes that a program or library file has in itself."""
    name = os.path.basename(path)
    if PLAIN_FILE.fullmatch(name):
        return []
    by_name = [runtime for runtime in RUNTIMES if runtime.file.fullmatch(name)]
    if by_name:
        return by_name
    try:
        with open(path, "rb") as file:
            data = file.read()
    except OSError:
        return []
    if not data.startswith(b"\x7fELF"):
        return []
    return [runtime for runtime in RUNTIMES if runtime.mark and runtime.mark.search(data)]


def who_has(processes):
    """The processes that have a runtime, in words; none where the program's file alone tells."""
    numbers = ", ".join("%d" % process for process in processes)
    if len(processes) > 1:
        return "processes %s have" % numbers
    return "process %s has" % numbers if numbers else "this is"


def runtime_lines(processes, command):
    """A line for each runtime that a process of these had; else, for one that the program's file has."""
    found = {}
    known = {}
    for process in processes:
        for loaded in process.modules.loaded:
            path = loaded.module.path
            if path not in known:
                known[path] = runtimes_in(path)
            for runtime in known[path]:
                found.setdefault(runtime, {})[process.key[0]] = None
    if not found and command:
        path = command[0] if "/" in command[0] else find_tool(command[0])
        found = {runtime: {} for runtime in (runtimes_in(path) if path else [])}
    for runtime in RUNTIMES:
        if runtime in found:
            yield "%s %s: %s" % (who_has(found[runtime]), runtime.name, runtime.advice)
