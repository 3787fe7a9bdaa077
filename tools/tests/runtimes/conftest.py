"""Each test runs in a folder of its own with programs of C that have what a runtime is known by."""

import subprocess

import pytest
from c_programs import put

PROGRAM = r"""
#include <pthread.h>
MARK
static pthread_mutex_t lock = PTHREAD_MUTEX_INITIALIZER;
int NAME(void)
{
    pthread_mutex_lock(&lock);
    pthread_mutex_unlock(&lock);
    return 0;
}
"""
GO = r'const char mark[] __attribute__((used)) = "\xff Go buildinf:";'
RUST = 'const char mark[] __attribute__((used)) = "/rustc/%s/library/std/src/sync/mutex.rs";' % ("0a" * 20)
QT = 'const char mark[] __attribute__((used)) = "\\0QMutex: destroying locked mutex";'
ABSEIL = 'const char mark[] __attribute__((used)) = "%s: Mutex corrupt: both reader and writer lock held: %p";'
LLVM = 'const char mark[] __attribute__((used)) = "_ZNSt3__119__shared_mutex_base11lock_sharedEv";'
MADE_ALONE = 'const char mark[] __attribute__((used)) = "_ZNSt3__119__shared_mutex_baseC1Ev";'
BOOST = 'const char mark[] __attribute__((used)) = "_ZNK5boost12shared_mutex10state_data13assert_lockedEv";'
BOOST_MADE_ALONE = 'const char mark[] __attribute__((used)) = "_ZN5boost12shared_mutexC1Ev";'
# Of C++: a static variable in a function, which takes a lock while it is initialised.
GUARDED = r"""
#include <mutex>
static std::mutex lock;
int main(int count, char **)
{
    static int variable = [count] {
        std::lock_guard<std::mutex> held(lock);
        return count - 1;
    }();
    return variable;
}
"""
PYTHON = '__attribute__((visibility("default"))) int Py_BytesMain(void) { return 0; }'

LIBRARIES = (
    *"libjvm libpython3.11 libgomp libomp libglib-2.0".split(),
    *"libQt5Core libQt6Core libabsl_synchronization libtbb libc++".split(),
)


def compile_program(folder, output, mark, *options, name="main"):
    source = output + ".c"
    with open(folder / source, "w") as file:
        file.write(PROGRAM.replace("MARK", mark).replace("NAME", name))
    done = subprocess.run(
        ["gcc", "-pthread", "-o", output, source, *options],
        cwd=folder,
        stdout=subprocess.PIPE,
        stderr=subprocess.STDOUT,
    )
    assert done.returncode == 0, done.stdout.decode()


def compile_guarded(folder):
    """A static variable in a function, with the C++ library as a shared one and in itself, without symbols."""
    with open(folder / "guarded.cc", "w") as file:
        file.write(GUARDED)
    for output, options in (("shares-gnu", []), ("has-gnu", ["-static-libstdc++", "-static-libgcc", "-s"])):
        done = subprocess.run(["g++", "-pthread", "-o", output, "guarded.cc", *options], cwd=folder)
        assert done.returncode == 0, "building " + output


@pytest.fixture(scope="session")
def built(tmp_path_factory):
    """The folder of all programs, which are built in it."""
    folder = tmp_path_factory.mktemp("programs")
    compile_program(folder, "plain", "")
    compile_program(folder, "go-static", GO, "-static")
    compile_program(folder, "go-dynamic", GO)
    compile_program(folder, "rust", RUST)
    compile_program(folder, "embeds-python", PYTHON, "-rdynamic")
    compile_program(folder, "has-qt", QT)
    compile_program(folder, "has-abseil", ABSEIL)
    compile_program(folder, "has-llvm", LLVM)
    compile_program(folder, "makes-alone", MADE_ALONE)
    compile_program(folder, "has-boost", BOOST)
    compile_program(folder, "makes-boost-alone", BOOST_MADE_ALONE)
    compile_guarded(folder)
    for library in LIBRARIES:
        mark = LLVM if library == "libc++" else ""
        compile_program(folder, library + ".so", mark, "-shared", "-fPIC", name="runtime")
        with open(folder / "uses.c", "w") as file:
            file.write("int runtime(void); int main(void) { return runtime(); }\n")
        done = subprocess.run(
            ["gcc", "-o", "uses-" + library, "uses.c", "./%s.so" % library, "-Wl,-rpath,$ORIGIN"], cwd=folder
        )
        assert done.returncode == 0, "building with " + library
    return folder


@pytest.fixture(autouse=True)
def in_a_folder_with_the_programs(built, folder):
    put(built, folder)
