"""Traces of what a recording left behind: `--convert`."""

import os
import signal
import subprocess

import pytest
from c_programs import end, raw_directories, raw_directory
from c_traces import PAIR, convert, known
from known_traces import LIMIT, RECORD, REFUSED, clear, compare, read_lines, start, wait_for


def orphan(name="waits_for_signal"):
    """A program that runs, its recorder killed: the program's number and the directory."""
    running, program = start(RECORD, ["./locks", name])
    running.kill()
    running.wait()
    running.stdout.close()
    running.stderr.close()
    return program, raw_directory("t.std")


@pytest.fixture
def precious():
    """Folders of somebody: with files, one of which has the name of a recorder's, and empty."""
    os.mkdir("precious")
    for name in ("kept", "1.0.0"):
        with open("precious/" + name, "w") as file:
            file.write("text of somebody")
    os.mkdir("empty")


@pytest.mark.parametrize(
    "directory, text",
    [
        ("precious", "no files of a recording"),
        ("empty", "no files of a recording"),
        ("missing", "no such directory"),
        ("precious/kept", "not a directory"),
    ],
)
def test_it_takes_recordings_only(precious, directory, text):
    done = convert(directory, "none.std")
    assert done.returncode == REFUSED, "%s: %d" % (directory, done.returncode)
    said = done.stderr.decode()
    assert text in said and "kept in" not in said and said.count("\n") == 1, said
    assert sorted(os.listdir("precious")) == ["1.0.0", "kept"] and os.path.isdir("empty"), "something was removed"
    for name in ("kept", "1.0.0"):
        with open("precious/" + name) as file:
            assert file.read() == "text of somebody", "a file was changed"


def test_it_takes_one_recording():
    """As where there are two of a name, and a pattern of the shell's stands for both: neither is passed over in silence."""
    program, directory = orphan()
    end(program)
    command = [RECORD, "-o", "t.std", "--convert", directory, directory + "0"]
    done = subprocess.run(command, stderr=subprocess.PIPE, timeout=LIMIT)
    said = done.stderr.decode()
    assert done.returncode == REFUSED and "--convert takes one directory, and runs no program\nusage: " in said, said
    assert os.path.isdir(directory) and not os.path.exists("t.std"), "it was converted"


def test_it_removes_its_own_files_only():
    program, directory = orphan()
    end(program)
    os.mkfifo(directory + "/7.0.0")
    os.symlink("/etc/passwd", directory + "/8.0.0")
    with open(directory + "/notes", "w") as file:
        file.write("text")
    done = convert(directory)
    assert done.returncode == 0 and b"is kept: it holds files that aren't" in done.stderr, done.stderr.decode()
    compare(read_lines("t.std"), known(PAIR))
    left = sorted(os.listdir(directory + ".converted"))
    assert left == ["7.0.0", "8.0.0", "notes"], str(left)
    assert convert(directory + ".converted", "other.std").returncode == REFUSED, "converted twice"


def test_while_the_program_runs():
    program, directory = orphan()
    done = convert(directory, "so-far.std")
    assert done.returncode == 0, done.stderr.decode()
    words = b"still running: process %d; this is what they did so far" % program
    assert words in done.stderr, done.stderr.decode()
    compare(read_lines("so-far.std"), known(PAIR))
    assert os.path.isdir(directory), "the directory is gone"
    end(program)
    done = convert(directory, "whole.std")
    assert done.returncode == 0 and b"still running" not in done.stderr, done.stderr.decode()
    compare(read_lines("whole.std"), known(PAIR))
    assert raw_directories() == [], "the directory is still there"


def test_while_a_program_runs_whose_first_thread_has_ended():
    program, directory = orphan("first_thread_ends")
    done = convert(directory, "so-far.std")
    assert done.returncode == 0 and b"still running: process %d;" % program in done.stderr, done.stderr.decode()
    assert os.path.isdir(directory), "the directory is gone"
    end(program)


def test_while_the_recorder_runs():
    running, _ = start(RECORD, ["./locks", "waits_for_signal"])
    done = convert(raw_directory("t.std"), "so-far.std")
    assert done.returncode == 0 and b"of the recorder" in done.stderr, done.stderr.decode()
    compare(read_lines("so-far.std"), known(PAIR))
    running.terminate()
    running.communicate(timeout=LIMIT)
    compare(read_lines("t.std"), known(PAIR))


def test_killed_while_it_converts():
    """At any moment there is the whole trace, or what was recorded, from which it comes."""
    program, directory = orphan("volume_and_wait")
    end(program)
    whole = None
    for delay in [0.01 * i for i in range(0, 40, 3)] + [LIMIT]:
        clear("whole.std")
        running = subprocess.Popen([RECORD, "-o", "whole.std", "--convert", directory], stderr=subprocess.PIPE)
        try:
            running.communicate(timeout=delay)
        except subprocess.TimeoutExpired:
            running.kill()
            running.communicate()
        if os.path.exists("whole.std"):
            lines = read_lines("whole.std")
            whole = whole or lines
            assert len(whole) == 200706 and lines == whole, "a part of the trace is there"
        if not os.path.exists(directory):
            assert whole is not None, "neither trace nor recording is there"
            break
    assert not os.path.exists(directory), "it was never converted"


def test_interrupted_while_it_converts():
    """As by Ctrl-C, which all that run in the terminal get: a line says so, and what was recorded is kept."""
    program, directory = orphan()
    end(program)
    os.mkdir("bin")
    with open("bin/addr2line", "w") as file:
        file.write("#!/bin/sh\ntouch begun\nexec sleep 60\n")
    os.chmod("bin/addr2line", 0o755)
    running = subprocess.Popen(
        [RECORD, "-o", "whole.std", "--convert", directory],
        stderr=subprocess.PIPE,
        env={**os.environ, "PATH": os.path.abspath("bin") + ":" + os.environ["PATH"]},
        start_new_session=True,
    )
    wait_for(lambda: os.path.exists("begun"), "the places to be looked for")
    os.killpg(running.pid, signal.SIGINT)
    _, said = running.communicate(timeout=LIMIT)
    assert (running.returncode, said) == (REFUSED, b"goodlock-record: interrupted\n"), (running.returncode, said)
    assert convert(directory, "whole.std").returncode == 0, "what was recorded is lost"
    compare(read_lines("whole.std"), known(PAIR))
