"""Programs that close all descriptors, as daemons do, and run out of them: their own files stay theirs, and all is recorded."""

import os
import re
import subprocess

import pytest
from c_programs import NO_DISK, SmallDisk
from known_traces import NO_EVENTS, REFUSED, TOOLS, Run, compare, cycles_in, read_lines
from python_traces import INTERPRETER, LOCKS, PYTHON_RECORD, all_interpreters

START = os.path.join(TOOLS, "python", "start")
NAMES = ["own%d.dat" % i for i in range(6)]
TEXT = "the program's own\n"

OPENS = """
import os, threading
os.closerange(3, 1000)
files = [os.open(name, os.O_RDWR | os.O_CREAT, 0o600) for name in %r]
""" % (
    NAMES,
)
# Its locks and places need more than one chunk of the recording's tables.
TAKES_MANY_LOCKS = """
def take(first, second):
    with first:
        with second:
            pass
first, second = threading.Lock(), threading.Lock()
threads = [threading.Thread(target=take, args=(first, second)) for _ in range(3)]
for thread in threads:
    thread.start()
for thread in threads:
    thread.join()
for _ in range(3000):
    take(threading.Lock(), first)
"""
WRITES = """
for file in files:
    os.write(file, %r)
""" % (
    TEXT.encode(),
)
FORKS = """
process = os.fork()
if process == 0:
%s
    os._exit(5)
assert os.waitstatus_to_exitcode(os.waitpid(process, 0)[1]) == 5
""" % WRITES.replace(
    "\n", "\n    "
)

CLOSES = """
import os, sys, threading
first, second = threading.Lock(), threading.Lock()
def take(outer, inner):
    with outer:
        with inner:
            pass
if sys.argv[1] == "early":
    take(first, second)
os.closerange(3, 1000)
taken = threading.Event()
def one_way():
    take(first, second)
    taken.set()
def other_way():
    taken.wait()
    take(second, first)
threads = [threading.Thread(target=way) for way in (one_way, other_way)]
for thread in threads:
    thread.start()
for thread in threads:
    thread.join()
"""


def write_program(text):
    with open("program.py", "w") as file:
        file.write(text)


def run_text(text, *arguments, command=None, interpreter=INTERPRETER, environment=None):
    """A program of this text, recorded."""
    write_program(text)
    words = command or ["program.py", *arguments]
    return Run(PYTHON_RECORD, words, [] if command else ["--python", interpreter], environment=environment)


def own_texts():
    return [open(name).read() for name in NAMES]


@pytest.mark.parametrize("interpreter", all_interpreters())
def test_programs_own_files_under_the_recorders_old_numbers(interpreter):
    run = run_text(OPENS + WRITES + TAKES_MANY_LOCKS, interpreter=interpreter)
    assert run.status == 0, run.said
    assert own_texts() == [TEXT] * 6, [len(text) for text in own_texts()]
    assert len(run.lines()) == 3 * 4 + 3 * 2 + 4 * 3000 and "lost" not in run.said, run.said


@pytest.mark.parametrize("interpreter", all_interpreters())
def test_programs_own_files_after_a_fork(interpreter):
    run = run_text(OPENS + FORKS, interpreter=interpreter)
    assert run.status == NO_EVENTS and "own status was 0" in run.said, run.said
    assert own_texts() == [TEXT] * 6, own_texts()


@pytest.mark.parametrize("interpreter", all_interpreters())
def test_no_descriptor_stays_open(interpreter):
    """The three of all programs, and that of the listing itself."""
    text = "import os, threading\nwith threading.Lock():\n    print(len(os.listdir('/proc/self/fd')))\n"
    run = run_text(text, interpreter=interpreter)
    assert (run.status, run.out) == (0, "4\n"), run.out + run.said


@pytest.mark.parametrize("when", ["early", "late"])
def test_locks_taken_after_all_was_closed(when):
    run = run_text(CLOSES, when)
    assert run.status == 0 and "lost" not in run.said, run.said
    assert cycles_in(run.lines()) == 1, "\n".join(run.lines())


@pytest.mark.parametrize("error", ["ImportError", "OSError", "AttributeError"])
def test_interpreter_without_ctypes(error):
    """Or with one that finds no library."""
    os.mkdir("modules")
    with open("modules/ctypes.py", "w") as file:
        file.write("raise %s\n" % error)
    run = run_text(CLOSES, "late", environment={**os.environ, "PYTHONPATH": "modules"})
    assert run.status == 0 and "lost" not in run.said, run.said
    assert cycles_in(run.lines()) == 1, "\n".join(run.lines())


NO_FILES = """
import os, resource, signal, sys, threading
def set_limit(number):
    resource.setrlimit(resource.RLIMIT_NOFILE, (number, resource.getrlimit(resource.RLIMIT_NOFILE)[1]))
signal.alarm(170)
"""
ALL_IS_LOST = """
sys.modules["goodlock_files"].EXTENT_BYTES = 0  # the first file is full
set_limit(3)
with threading.Lock():
    pass
"""
LEAVES_A_CHILD = """
lock = threading.Lock()
def take():
    with lock:
        pass
take()
set_limit(3)
child = os.fork()
signal.alarm(170)
if child:
    sys.exit(os.waitstatus_to_exitcode(os.waitpid(child, 0)[1]))
thread = threading.Thread(target=take)
thread.start()
thread.join()
set_limit(100)
child = os.fork()
if child == 0:
    take()
    os._exit(5)
print(child, flush=True)
os._exit(os.waitstatus_to_exitcode(os.waitpid(child, 0)[1]))
"""


def test_reason_of_a_loss():
    """It is the system's. Who lost all events is not told that there were none."""
    run = run_text(NO_FILES + ALL_IS_LOST)
    assert run.status == NO_EVENTS and run.files() == [], run.said
    assert "2 events were lost: Too many open files\n" in run.said, run.said
    assert "no trace: what the program did was lost (the program's own status was 0)\n" in run.said, run.said
    assert "no room" not in run.said and "took no lock" not in run.said, run.said


def test_forked_process_that_gets_no_file():
    """It goes on, and is counted. A child of its own is recorded again, with the names of the first process."""
    run = run_text(NO_FILES + LEAVES_A_CHILD)
    assert run.status == 5, "status %d: %s" % (run.status, run.said)
    assert "1 processes weren't recorded: Too many open files\n" in run.said, run.said
    assert "Traceback" not in run.said, run.said
    taken = ["main|acq(Lock@program.py:7#1)|program.py:9", "main|rel(Lock@program.py:7#1)|program.py:9"]
    assert run.files() == ["t.std", "t.std." + run.out.strip()], run.files()
    compare(run.lines(), taken)
    compare(run.lines("." + run.out.strip()), taken)


def test_program_that_gets_no_file():
    run = run_text("", command=["sh", "-c", 'ulimit -f 1; exec "$@"', "sh", INTERPRETER, LOCKS, "mutexes"])
    assert run.status == NO_EVENTS, run.said
    assert "1 processes weren't recorded: File too large\n" in run.said, run.said
    assert "no trace: what the program did was lost (the program's own status was 0)\n" in run.said, run.said


def test_program_that_gets_no_file_and_has_no_standard_error():
    """Its own sitecustomize comes all the same."""
    os.mkdir("modules")
    with open("modules/sitecustomize.py", "w") as file:
        file.write("import builtins\nbuiltins.own = 'here'\n")
    environment = {**os.environ, "PYTHONPATH": START + ":modules", "GOODLOCK_PYTHON_DIRECTORY": "/no/such/directory"}
    command = ["sh", "-c", 'exec "$@" 2>&-', "sh", INTERPRETER, "-c", "print(own)"]
    assert subprocess.run(command, stdout=subprocess.PIPE, env=environment).stdout == b"here\n"


REPLACES = """
import os, sys, threading
folder = os.environ["GOODLOCK_PYTHON_DIRECTORY"]
(path,) = [os.path.join(folder, name) for name in os.listdir(folder) if name != "recording"]
os.rename(path, path + ".away")
with open(path, "w") as file:
    file.write("another file")
"""
FILLS_THE_DISK = """
import threading
lock = threading.Lock()
for _ in range(200000):
    with lock:
        pass
"""
OLD_KERNEL = """
import sys
sys.modules["goodlock_memory"].POPULATE_WRITE = -1  # which no kernel knows
"""
TAKES_ONE = """
import threading
with threading.Lock():
    pass
"""
PUTS_BACK = """
print(open(path).read())
os.replace(path + ".away", path)
"""


def test_old_kernel():
    run = run_text(OLD_KERNEL + TAKES_ONE)
    assert run.status == 0 and len(run.lines()) == 2, run.said


def test_another_file_under_a_recordings_name():
    """It is left alone, and what is recorded gets its room by the memory."""
    run = run_text(REPLACES + TAKES_ONE + PUTS_BACK)
    assert run.out == "another file\n", run.out + run.said
    assert len(run.lines()) == 2 and "lost" not in run.said, run.said


def test_another_file_under_a_recordings_name_and_an_old_kernel():
    run = run_text(OLD_KERNEL + REPLACES + TAKES_ONE + PUTS_BACK)
    assert run.out == "another file\n", run.out + run.said
    assert "2 events were lost: Stale file handle\n" in run.said, run.said


@pytest.mark.parametrize("kernel", ["", OLD_KERNEL])
def test_full_disk(kernel):
    """The program goes on. What has no room is counted."""
    with SmallDisk("1500k") as mounted:
        if not mounted:
            pytest.skip(NO_DISK)
        write_program(kernel + FILLS_THE_DISK)
        words = [PYTHON_RECORD, "-o", "small/t.std", "--all", "--python", INTERPRETER, "program.py"]
        done = subprocess.run(words, stderr=subprocess.PIPE, check=False)
        assert done.returncode == REFUSED and b"No space left" in done.stderr, done.stderr
        (name,) = os.listdir("small")
        words = [PYTHON_RECORD, "-o", "t.std", "--convert", "small/" + name]
        done = subprocess.run(words, stderr=subprocess.PIPE, check=False)
        lost = int(re.search(rb"(\d+) events were lost: there was no room for them\n", done.stderr).group(1))
        kept = len(read_lines("t.std"))
        assert kept > 10000 and kept + lost == 2 * 200000, "%d kept: %s" % (kept, done.stderr.decode())


@pytest.mark.skipif(os.geteuid() != 0, reason="only root may do that")
@pytest.mark.parametrize("change", ["os.chroot(os.getcwd() + '/empty')", "os.setuid(65534)"])
def test_processes_that_reach_no_files_any_more(change):
    """What they do afterwards has its room in the file that they have."""
    os.mkdir("empty")
    run = run_text("import os, threading\nassert threading\n%s\n" % change + TAKES_MANY_LOCKS)
    assert run.status == 0 and "lost" not in run.said, run.said
    assert len(run.lines()) == 3 * 4 + 3 * 2 + 4 * 3000, run.said
