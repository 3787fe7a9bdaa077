"""What goodlock-record says of language runtimes, whose locks it doesn't see."""

import re

from known_traces import NO_EVENTS, RECORD, Run


def said_of(program, status=0):
    run = Run(RECORD, ["./" + program])
    assert run.status == status, "status %d: %s" % (run.status, run.said)
    return run.said


def test_plain_program():
    said = said_of("plain")
    assert said.count("\n") == 1, said


def test_java():
    said = said_of("uses-libjvm")
    assert "has a Java virtual machine: the monitors (synchronized)" in said and "tools/goodlock-java" in said, said


def test_python():
    for program in ("uses-libpython3.11", "embeds-python"):
        said = said_of(program)
        assert "has CPython: the locks of Python code" in said and "tools/goodlock-python" in said, said


def test_go():
    """A Go program is linked statically as a rule: then its file tells."""
    said = said_of("go-dynamic")
    assert "has a Go program: sync.Mutex and sync.RWMutex don't pass the C library" in said, said
    said = said_of("go-static", NO_EVENTS)
    assert "this is a Go program: sync.Mutex" in said and "no events, no trace" in said, said


def test_rust():
    said = said_of("rust")
    assert "has Rust code: std::sync::Mutex and RwLock don't pass the C library" in said, said


def test_openmp():
    for program in ("uses-libgomp", "uses-libomp"):
        said = said_of(program)
        assert "has OpenMP: its locks and critical sections" in said, said


def test_several_processes():
    run = Run(RECORD, ["sh", "-c", "./uses-libgomp; ./uses-libgomp"])
    assert run.status == 0, "status %d: %s" % (run.status, run.said)
    assert re.search(r"processes \d+, \d+ have OpenMP: its locks", run.said), run.said


def test_glib():
    said = said_of("uses-libglib-2.0")
    assert "has GLib: GMutex" in said, said


def test_qt():
    for program in ("uses-libQt5Core", "uses-libQt6Core", "has-qt"):
        said = said_of(program)
        assert "has Qt: QMutex, QRecursiveMutex and QReadWriteLock don't pass the C library" in said, said


def test_abseil():
    for program in ("uses-libabsl_synchronization", "has-abseil"):
        said = said_of(program)
        assert "has Abseil: absl::Mutex doesn't pass the C library" in said, said


def test_onetbb():
    said = said_of("uses-libtbb")
    assert "has oneTBB: tbb::mutex, tbb::spin_mutex and their like don't pass the C library" in said, said


def test_boost():
    """Its other locks are those of the C library."""
    said = said_of("has-boost")
    assert "has Boost's shared_mutex: it is made of a mutex and conditions, and isn't in this trace" in said, said
    assert said_of("makes-boost-alone").count("\n") == 1


def test_llvm():
    """Who calls the functions of these mutexes has them: not each program whose C++ library it is."""
    said = said_of("has-llvm")
    assert (
        "has LLVM's C++ library: std::shared_mutex, std::timed_mutex and their like don't pass the C library" in said
    ), said
    for program in ("uses-libc++", "makes-alone"):
        said = said_of(program)
        assert said.count("\n") == 1, said


def test_gnu():
    """A program that has the C++ library in itself calls its functions past the recorder: no guard is in the trace."""
    run = Run(RECORD, ["./has-gnu"])
    assert run.status == 0 and len(run.lines()) == 2, run.said
    assert (
        "has GNU's C++ library in itself: initialisations of its static variables don't pass the recorder" in run.said
    ), run.said
    run = Run(RECORD, ["./shares-gnu"], trace="shares.std")
    assert run.said.count("\n") == 1 and len(run.lines()) == 4, run.said
