"""Processes that fork and start others, ways to start, and what is told."""

import os
import resource
import shutil
import subprocess

import pytest
from known_traces import NO_EVENTS, RECORD, REFUSED, TOOLS, Run, compare, cycles_in, edges_of, example_of, expand
from python_traces import INTERPRETER, LOCKS, MARKS, MUTEXES, PYTHON_RECORD, all_interpreters, record


def test_forked_process():
    run = record("forks")
    assert run.status == 0, run.said
    child = run.out.strip()
    assert run.files() == ["t.std", "t.std." + child], str(run.files())
    compare(
        run.lines(),
        expand(
            """
        main|acq(Lock@@a#1)|@forks_a
        main|rel(Lock@@a#1)|@forks_a""",
            MARKS,
        ),
    )
    compare(
        run.lines("." + child),
        expand(
            """
        main|tryacq(Lock@@a#1)|@forks_a
        main|acq(Lock@@b#1)|@forks_b
        main|rel(Lock@@b#1)|@forks_b
        main|rel(Lock@@a#1)|@forks_release""",
            MARKS,
        ),
    )


def test_program_has_the_variables_of_who_asked():
    """Also those whose names a script may use for itself."""
    with open("variables.py", "w") as file:
        file.write("import os\nprint(os.environ['here'], os.environ['python'])\n")
    words = [PYTHON_RECORD, "--python", INTERPRETER, "-o", "variables.std", "variables.py"]
    asked = {**os.environ, "here": "one", "python": "two"}
    told = subprocess.run(words, stdout=subprocess.PIPE, stderr=subprocess.PIPE, env=asked)
    assert told.stdout == b"one two\n", told.stdout + told.stderr


def test_pickled_name_of_the_locks():
    """A process that isn't recorded finds them under it."""
    code = "import pickle, threading; threading.Lock().acquire(); pickle.dump(threading.Lock, open('name', 'wb'))"
    run = Run(PYTHON_RECORD, ["-c", code], ["--python", INTERPRETER])
    assert run.status == 0, run.said
    code = "import pickle, threading; print(pickle.load(open('name', 'rb')) is threading.Lock)"
    assert subprocess.run([INTERPRETER, "-c", code], stdout=subprocess.PIPE).stdout == b"True\n"


def test_first_use_with_a_limit_of_file_sizes():
    """What Python would keep of the recorder's modules then is no half of one: later uses begin with it."""
    shutil.copytree(TOOLS, "tools", ignore=shutil.ignore_patterns("tests"))
    shutil.rmtree("tools/out/python", ignore_errors=True)
    subprocess.run(["make", "-s", "-C", "tools"], check=True)
    command = [
        "tools/goodlock-python",
        "--python",
        INTERPRETER,
        "-o",
        "t.std",
        "-c",
        "import threading; threading.Lock().acquire()",
    ]
    small = {"preexec_fn": lambda: resource.setrlimit(resource.RLIMIT_FSIZE, (1 << 15, resource.RLIM_INFINITY))}
    for limits, status in ((small, NO_EVENTS), ({}, 0)):
        done = subprocess.run(command, stderr=subprocess.PIPE, **limits)
        assert done.returncode == status, done.stderr.decode()


def test_child_process():
    run = record("children")
    assert run.status == 0, run.said
    assert run.files() == ["t.std", "t.std." + run.out.strip()], "%s %s" % (run.files(), run.said)
    assert len(run.lines("." + run.out.strip())) == MUTEXES, str(run.lines("." + run.out.strip()))


def test_program_that_becomes_another():
    run = record("becomes_another")
    assert run.status == 0, run.said
    second = ".%s.1" % run.out.strip()
    assert run.files() == ["t.std", "t.std" + second], "%s %s" % (run.files(), run.said)
    assert (len(run.lines()), len(run.lines(second))) == (2, MUTEXES), "%s %s" % (run.lines(), run.lines(second))


def test_example_of_the_documentation():
    """It ends well however slow its threads are, and has the cycle that the page shows."""
    text = example_of("RECORDING-PYTHON.md", "import queue ", "tools/goodlock-python")
    with open("bank.py", "w") as file:
        file.write("import time\n" + text.replace("self.money -= sum", "self.money -= sum; time.sleep(0.3)"))
    run = Run(PYTHON_RECORD, ["bank.py"], ["--python", INTERPRETER])
    assert run.status == 0 and "12 events" in run.said, run.said
    assert cycles_in(run.lines()) == 1, run.lines()


def test_ways_to_start():
    """By -m and -c, and a program that runs Python code by itself."""
    code = "import threading; threading.Lock().acquire()"
    with open("code.py", "w") as file:
        file.write("#!%s\n%s\n" % (INTERPRETER, code))
    os.chmod("code.py", 0o755)
    shutil.copy("code.py", "code")
    for command, place in (
        (["-c", code], "<string>:1"),
        ([os.path.abspath("code")], "code:2"),
        (["code.py"], "code.py:2"),
    ):
        run = Run(PYTHON_RECORD, command)
        assert run.status == 0, run.said
        compare(run.lines(), ["main|acq(Lock@%s#1)|%s" % (place, place)])
    os.makedirs("package", exist_ok=True)
    shutil.copy("code.py", "package/__main__.py")
    compare(
        Run(PYTHON_RECORD, ["-m", "package"]).lines(), ["main|acq(Lock@package/__main__.py:2#1)|package/__main__.py:2"]
    )


def test_names_that_a_program_has_too():
    """What python3 alone can run is the script; beside a folder that it can't run, and a file that can be executed, the program is."""
    for folder in ("fold", "python3"):
        os.makedirs(folder, exist_ok=True)
    for path in ("fold/__main__.py", "nl", "code.py"):
        with open(path, "w") as file:
            file.write("import threading; threading.Lock().acquire()")
    shutil.copy("code.py", "env")
    os.chmod("env", 0o755)
    for command, place in (
        (["fold"], "fold/__main__.py:1"),
        (["nl"], "nl:1"),
        (["python3", "code.py"], "code.py:1"),
        (["env", INTERPRETER, "code.py"], "code.py:1"),
    ):
        run = Run(PYTHON_RECORD, command)
        assert run.status == 0, "%s: %s" % (command, run.said)
        compare(run.lines(), ["main|acq(Lock@%s#1)|%s" % (place, place)])


def test_words_that_an_interpreter_would_take():
    """They work as if the interpreter's name stood before them."""
    code = "import threading; threading.Lock().acquire()"
    os.makedirs("package", exist_ok=True)
    for path in ("package/__main__.py", "no-program"):
        with open(path, "w") as file:
            file.write(code)
    for command, place in (
        (["-m", "package"], "package/__main__.py:1"),
        (["-c", code], "<string>:1"),
        (["package"], "package/__main__.py:1"),
        (["no-program"], "no-program:1"),
        (["-"], "<stdin>:1"),
    ):
        done = subprocess.run(
            [PYTHON_RECORD, "-o", "w.std", "--python", INTERPRETER, *command],
            input=code.encode(),
            stderr=subprocess.PIPE,
        )
        assert done.returncode == 0, "%s: %s" % (command, done.stderr.decode())
        with open("w.std") as file:
            compare(file.read().splitlines(), ["main|acq(Lock@%s#1)|%s" % (place, place)])
        os.unlink("w.std")


def test_other_versions():
    """The edges are the same under each CPython that is here."""
    with_edges = edges_of(record("exceptions").lines())
    found = all_interpreters()[1:]
    for path in found:
        run = Run(PYTHON_RECORD, [LOCKS, "exceptions"], ["--python", path])
        assert edges_of(run.lines()) == with_edges, "%s: %s" % (path, run.lines())
    if not found:
        pytest.skip("no further CPython here")


def test_what_is_not_seen_is_told():
    run = record("unseen")
    assert "asyncio was imported: its locks" in run.said and "multiprocessing's locks" in run.said, run.said
    assert "asyncio" not in record("mutexes").said, "told without reason"


def test_no_events_is_an_error():
    run = record("nothing")
    assert run.status == NO_EVENTS and run.files() == [], "%d %s" % (run.status, run.files())
    assert "took no lock of the threading module" in run.said, run.said
    run = Run(PYTHON_RECORD, ["-I", LOCKS, "mutexes"], ["--python", INTERPRETER])
    assert run.status == NO_EVENTS and "no Python process was recorded" in run.said, run.said


def test_wrong_words():
    with open("kept.std", "w") as file:
        file.write("old\n")
    for words in (
        [],
        ["-o"],
        ["--frames", "0", "x.py"],
        ["--python"],
        ["--wrong", "x.py"],
        ["-o", "kept.std", LOCKS, "mutexes"],
        ["-o", "no/such/t.std", LOCKS, "mutexes"],
    ):
        done = subprocess.run([PYTHON_RECORD, *words], stdout=subprocess.PIPE, stderr=subprocess.PIPE)
        assert done.returncode == REFUSED, "%s: %d" % (words, done.returncode)
        assert done.stderr.startswith(b"goodlock-python: "), done.stderr.decode()
    assert open("kept.std").read() == "old\n", "the file was changed"
    assert Run(PYTHON_RECORD, ["./no-such-program"]).status == 127, "a missing program"


def test_folder_that_no_interpreter_can_be_given():
    for name in ("python", "record"):
        shutil.copytree(os.path.join(TOOLS, name), os.path.join("a:b", name))
    shutil.copy(PYTHON_RECORD, "a:b")
    done = subprocess.run(["a:b/goodlock-python", "true"], stderr=subprocess.PIPE)
    start = os.path.join(os.path.realpath("a:b"), "python", "start")
    told = "goodlock-python: %s: an interpreter can't be given a folder whose path has : in it\n" % start
    assert (done.returncode, done.stderr.decode()) == (REFUSED, told)


def test_no_word_at_all_tells_the_usage():
    done = subprocess.run([PYTHON_RECORD], stdout=subprocess.PIPE, stderr=subprocess.PIPE)
    assert done.stderr.decode().startswith("goodlock-python: usage:\n    goodlock-python [-o TRACE]"), done.stderr


def test_recorded_by_both_recorders():
    """Each recorder has a trace of its own: one of the locks of Python code, one of the interpreter's."""
    shutil.rmtree("c.std", ignore_errors=True)
    run = Run(RECORD, [PYTHON_RECORD, "-o", "p.std", "--", INTERPRETER, LOCKS, "mutexes"])
    assert run.status == 0, run.said
    with open("p.std") as file:
        assert len(file.readlines()) == MUTEXES, "the Python code's trace"
    told = "have CPython: the locks of Python code"  # the recorder of Python code and the program
    assert told in run.said and "tools/goodlock-python" in run.said, run.said
    assert any(name.startswith("t.std") for name in run.files()), "%s: %s" % (run.files(), run.said)


HIDES = """
import os, threading
directory = os.environ["GOODLOCK_PYTHON_DIRECTORY"]
lock = threading.Lock()
os.umask(0o777)
if os.fork() == 0:
    with lock:
        pass
    os._exit(0)
os.wait()
with lock:
    pass
print([oct(os.stat(os.path.join(directory, name)).st_mode & 0o777) for name in os.listdir(directory) if "." in name])
"""


def test_files_under_any_umask():
    """They are open to their owner, who reads them."""
    with open("hides.py", "w") as file:
        file.write(HIDES)
    run = Run(PYTHON_RECORD, ["hides.py"], ["--python", INTERPRETER])
    assert run.status == 0 and run.out.strip() == str(["0o600"] * 2), run.out + run.said
    assert len(run.files()) == 2, str(run.files())
