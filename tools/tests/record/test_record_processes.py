"""Processes: each has a trace of its own, those that outlive the program are waited for, and nobody else is touched."""

import fcntl
import os
import re
import resource
import shutil
import signal
import struct
import subprocess
import sys
import tempfile
import termios

import pytest
from c_programs import end, has_ended, raw_directories, raw_directory
from c_traces import PAIR, convert, known, record
from known_traces import LIMIT, NO_EVENTS, RECORD, REFUSED, TOOLS, compare, read_line, read_lines, start, wait_for

sys.path.insert(0, os.path.join(TOOLS, "record"))

import family  # noqa: E402
from family import send_signal  # noqa: E402

FIRST_ENDED = """
    main|fork(main.1:reads_on)|@first_fork
    main.1:reads_on|acq(a)|@pair_lock
    main.1:reads_on|rel(a)|@pair_unlock
    main.1:reads_on|acq(a)|@both_a
    main.1:reads_on|acq(b)|@both_b
    main.1:reads_on|rel(b)|@both_b_end
    main.1:reads_on|rel(a)|@both_a_end"""

TABLE = """
    main|acq(many+0x78)|@table
    main|rel(many+0x78)|@table_end"""


def test_forked_process():
    run = record("./locks", "forks")
    assert run.status == 0, run.said
    child = run.out.strip()
    assert run.files() == ["t.std", "t.std." + child], str(run.files())
    compare(
        run.lines(),
        known(
            """
        main|acq(mutex@@make#1)|@forks_made
        main|rel(mutex@@make#1)|@forks_made_end"""
        ),
    )
    compare(
        run.lines("." + child),
        known(
            """
        main|tryacq(mutex@@make#1)|@forks_made
        main|acq(b)|@forks_child_b
        main|rel(b)|@forks_child_b_end
        main|rel(mutex@@make#1)|@forks_child_made
        main|fork(main.1:child_thread)|@forks_child_1
        main|join(main.1:child_thread)|@forks_child_2
        main.1:child_thread|acq(a)|@pair_lock
        main.1:child_thread|rel(a)|@pair_unlock"""
        ),
    )


def test_names_in_a_child_are_none_of_what_its_parent_does_later():
    """Only what was counted before the fork goes on: the lock that main.1 met has the second place of the parent's main, and so the
    child's next one there is the third."""
    run = record("./locks", "parent_goes_on")
    assert run.status == 0, run.said
    compare(
        run.lines(),
        known(
            """
        main|fork(main.1:takes)|@goes_on_1
        main|join(main.1:takes)|@goes_on_2
        main|acq(mutex@@takes#1)|@takes
        main|rel(mutex@@takes#1)|@takes_end
        main|acq(mutex@@takes#2)|@takes
        main|rel(mutex@@takes#2)|@takes_end
        main|acq(b)|@takes
        main|rel(b)|@takes_end
        main|acq(mutex@@make#1)|@takes
        main|rel(mutex@@make#1)|@takes_end
        main.1:takes|acq(mutex@@takes#2)|@takes
        main.1:takes|rel(mutex@@takes#2)|@takes_end"""
        ),
    )
    compare(
        run.lines("." + run.out.strip()),
        known(
            """
        main|acq(mutex@@takes#3)|@takes
        main|rel(mutex@@takes#3)|@takes_end
        main|acq(mutex@@takes#2)|@takes
        main|rel(mutex@@takes#2)|@takes_end
        main|acq(b)|@takes
        main|rel(b)|@takes_end
        main|acq(mutex@@make#1)|@takes
        main|rel(mutex@@make#1)|@takes_end"""
        ),
    )


def test_process_forked_past_the_library():
    run = record("./locks", "raw_fork")
    assert run.status == 0, run.said
    child = run.out.strip()
    compare(
        run.lines(),
        known(
            """
        main|acq(a)|@raw_lock
        main|rel(a)|@raw_unlock"""
        ),
    )
    compare(
        run.lines("." + child),
        known(
            """
        main|acq(b)|@raw_child
        main|rel(b)|@raw_child_end"""
        ),
    )


def test_process_forked_by_a_signal_handler():
    """Amid a call, which goes on in the child, too."""
    run = record("./locks", "forks_in_handler")
    assert run.status == 0, run.said
    compare(
        run.lines("." + run.out.strip()),
        known(
            """
        main|tryacq(b)|@handler_b
        main|acq(many)|@handler_many
        main|rel(many)|@handler_many_end
        main|rel(b)|@handler_b_end"""
        ),
    )


def test_program_that_becomes_another():
    run = record("./locks", "executes")
    assert run.status == 0, run.said
    process = run.out.split("\n")[0]
    assert run.files() == ["t.std", "t.std.%s.1" % process], str(run.files())
    compare(run.lines(), known(PAIR))
    assert len(run.lines(".%s.1" % process)) == 8, str(run.lines(".%s.1" % process))
    assert "became" not in run.said, run.said


@pytest.mark.parametrize("options", [(), ("--live",)])
@pytest.mark.parametrize("words", [("sh", "-c", "exec ./locks-static table"), ("env", "-i", "./locks", "table")])
def test_program_that_becomes_one_that_cannot_be_recorded(words, options):
    run = record(*words, options=options)
    assert run.status == NO_EVENTS, "%d: %s" % (run.status, run.said)
    assert "(%s) became a program that wasn't recorded: " % " ".join(words) in run.said, run.said
    assert "the program became one that wasn't recorded (" in run.said, run.said


def test_program_with_another_preload_library():
    run = record("env", "LD_PRELOAD=" + os.path.abspath("liblibrary.so"), "./locks", "table")
    assert run.status == NO_EVENTS, "%d: %s" % (run.status, run.said)
    assert "became a program that wasn't recorded: " in run.said, run.said
    assert "or an LD_PRELOAD of its own?" in run.said, run.said


def test_program_with_file_capabilities(open_folder):
    """The system takes care that nobody loads a library into it."""
    if not shutil.which("setpriv"):
        pytest.skip("setpriv isn't there")
    try:
        os.setxattr("locks", "security.capability", struct.pack("<5I", 0x02000001, 1 << 10, 0, 0, 0))
    except OSError:
        pytest.skip("no file may have capabilities here")
    run = record("setpriv", "--reuid=65534", "--clear-groups", "./locks", "table")
    assert run.status == 0, "%d: %s" % (run.status, run.said)
    assert "became a program that wasn't recorded: " in run.said, run.said
    assert "with file capabilities" in run.said, run.said


def test_children_of_a_shell():
    run = record("sh", "-c", "./locks leaves_at_once; ./locks table; exit 3")
    assert run.status == 3, run.said
    files = run.files()
    assert len(files) == 2 and "t.std" not in files, str(files)
    assert "no events, no file" in run.said, run.said
    traces = sorted(run.lines(name[len("t.std") :]) for name in files)
    compare(traces[0], known(PAIR))
    compare(traces[1], known(TABLE))


def executable(name, content):
    with open(name, "wb") as file:
        file.write(content)
    os.chmod(name, 0o755)


@pytest.mark.parametrize("name", ["./own-script", "own-script"], ids=["by its path", "by the search path"])
def test_script_that_does_not_say_who_runs_it(name):
    """It is one for sh, as where a shell is asked for it: with its own words and its own status."""
    executable("own-script", b'./locks "$@"\nexit 3\n')
    environment = {**os.environ, "PATH": os.getcwd() + ":" + os.environ["PATH"]}
    run = record(name, "table", environment=environment)
    assert run.status == 3 and len(run.files()) == 1, run.said
    compare(run.lines(run.files()[0][len("t.std") :]), known(TABLE))


def test_file_that_no_system_executes():
    executable("bytes", b"no program\0")
    run = record("./bytes")
    assert run.status == 126 and "./bytes: Exec format error" in run.said, run.said


def test_many_processes_without_events_are_counted():
    run = record("sh", "-c", "for i in 1 2 3 4 5 6 7 8; do ./locks nothing; done; ./locks table")
    assert run.status == 0, run.said
    assert run.said.count("\n") == 2 and "9 processes: no events, no file" in run.said, run.said


def test_process_in_the_background():
    """It ends when its standard input does: after the recorder has said that it waits."""
    command = [RECORD, "-o", "t.std", "./locks", "goes_to_background"]
    running = subprocess.Popen(command, stdin=subprocess.PIPE, stderr=subprocess.PIPE)
    said = read_line(running.stderr)
    assert b"waiting for process" in said, said.decode()
    _, said = running.communicate(timeout=LIMIT)
    assert running.returncode == 0, said.decode()
    files = sorted(name for name in os.listdir(".") if name.startswith("t.std"))
    assert len(files) == 2, str(files)
    compare(read_lines("t.std"), known(PAIR))
    assert len(read_lines(files[1])) == 4, files[1]


@pytest.mark.parametrize("name", ["t.std", "u.std", "v.std"])
def test_processes_that_follow_each_other_fast(name):
    """The last one is waited for, though each one before it may have ended before it was looked at."""
    running = subprocess.Popen(
        [RECORD, "-o", name, "./locks", "forks_away"], stdin=subprocess.PIPE, stderr=subprocess.PIPE
    )
    said = read_line(running.stderr)
    assert b"waiting for process" in said, said.decode()
    _, said = running.communicate(timeout=LIMIT)
    assert running.returncode == 0, said.decode()
    traces = [file for file in os.listdir(".") if file.startswith(name)]
    assert len(traces) == 2, str(traces)
    for trace in traces:
        compare(read_lines(trace), known(PAIR))


def test_very_many_generations_of_processes():
    """The last one has its lock, and its places, from the first."""
    small = {"preexec_fn": lambda: resource.setrlimit(resource.RLIMIT_FSIZE, (1 << 16, 1 << 16))}
    command, environment = [RECORD, "-o", "t.std", "./locks", "forks_away"], {**os.environ, "FORKS": "700"}
    done = subprocess.run(command, stdin=subprocess.DEVNULL, stderr=subprocess.PIPE, env=environment, **small)
    assert done.returncode == 0, done.stderr.decode()
    traces = [file for file in os.listdir(".") if file.startswith("t.std")]
    assert len(traces) == 2, str(traces)
    for trace in traces:
        compare(read_lines(trace), known(PAIR))


class Quick:
    """So many generations of processes, as a busy machine shows them: each has begun its file, and is gone by the time that it is
    looked at; and their recording."""

    directory = "quick"

    def __init__(self, generations):
        self.left, self.begun = generations, 0

    def look(self):
        if self.left == 0:
            return []
        self.left, self.begun = self.left - 1, self.begun + 1
        return [os.getpid()]

    def extents(self):
        return list(range(self.begun))


def test_generations_that_are_gone_when_they_are_looked_at(monkeypatch):
    quick = Quick(40)
    monkeypatch.setattr(family, "BEGIN_LIMIT", 0.05)
    waiting = family.Family(quick, print)
    monkeypatch.setattr(waiting, "living", quick.look)
    monkeypatch.setattr(waiting, "recorded_among", lambda processes: [])
    assert waiting.wait_for_others()
    assert quick.left == 0


def test_more_processes_than_files_that_may_be_open():
    few = {"preexec_fn": lambda: resource.setrlimit(resource.RLIMIT_NOFILE, (128, 128))}
    command, environment = [RECORD, "-o", "t.std", "./locks", "forks_away"], {**os.environ, "FORKS": "200"}
    done = subprocess.run(command, stdin=subprocess.DEVNULL, stderr=subprocess.PIPE, env=environment, **few)
    said = done.stderr.decode()
    assert done.returncode == 0 and "goodlock-record: 199 processes: no events, no file\n" in said, said


def test_processes_in_the_background():
    background = "./locks goes_to_background; ./locks goes_to_background; sleep 1"
    running = subprocess.Popen(
        [RECORD, "-o", "t.std", "sh", "-c", background], stdin=subprocess.PIPE, stderr=subprocess.PIPE
    )
    said = read_line(running.stderr).decode()
    assert re.fullmatch(r"goodlock-record: waiting for processes \d+, \d+, which run on\n", said), said
    _, said = running.communicate(timeout=LIMIT)
    assert running.returncode == 0, said.decode()


def test_signal_to_many_processes():
    """Each is held fast before it is looked at again; but they are looked at together, as a look goes through all of /proc. Who is no
    member any more, as where its number is another process's now, gets none."""
    running = [subprocess.Popen(["sleep", "1000"]) for _ in range(40)]
    numbers, looks = [process.pid for process in running], []

    def members():
        looks.append(len(os.listdir("/proc/self/fd")))
        return numbers[1:]

    try:
        before = len(os.listdir("/proc/self/fd"))
        send_signal(numbers, signal.SIGTERM, members)
        assert len(os.listdir("/proc/self/fd")) == before, "files are left open"
        assert looks == [before + 40], str(looks)
        assert {process.wait(LIMIT) for process in running[1:]} == {-signal.SIGTERM}
        assert running[0].poll() is None, "it was sent one"
    finally:
        for process in running:
            process.kill()
            process.wait()


def test_process_in_the_background_whose_first_thread_has_ended():
    """It is waited for as others are: to the end of its last thread, which comes with that of its standard input."""
    command = [RECORD, "-o", "t.std", "./locks", "first_thread_ends_in_background"]
    running = subprocess.Popen(command, stdin=subprocess.PIPE, stdout=subprocess.PIPE, stderr=subprocess.PIPE)
    process = int(read_line(running.stdout).split()[1])
    said = read_line(running.stderr)
    assert said == b"goodlock-record: waiting for process %d, which runs on\n" % process, said.decode()
    with pytest.raises(subprocess.TimeoutExpired):
        running.wait(1.5)
    _, said = running.communicate(timeout=LIMIT)
    assert running.returncode == 0, said.decode()
    compare(read_lines("t.std.%d" % process), known(FIRST_ENDED))


def test_the_directory_is_nobody_elses():
    running, _ = start(RECORD, ["./locks", "waits_for_signal"])
    mode = os.stat(raw_directory("t.std")).st_mode & 0o777
    running.terminate()
    running.communicate(timeout=LIMIT)
    assert mode == 0o700, "mode %o" % mode


def in_background(command):
    """A recording that waits for a process that goes on, and that process."""
    running = subprocess.Popen([RECORD, "-o", "t.std", *command], stdout=subprocess.PIPE, stderr=subprocess.PIPE)
    return running, int(read_line(running.stdout))


def test_foreign_files_are_left_alone():
    """Names of files aren't taken for processes: a pipe isn't waited for, and another process gets no signal."""
    stranger = subprocess.Popen(["sleep", "3600"])
    running, background = in_background(["./locks", "waits_in_background"])
    directory = raw_directory("t.std")
    os.mkfifo(directory + "/1.0.0")
    with open(directory + "/%d.0.0" % stranger.pid, "wb") as file:
        file.write(bytes(4096))
    try:
        assert b"waiting for process %d" % background in read_line(running.stderr), "it doesn't wait"
        running.terminate()
        _, said = running.communicate(timeout=LIMIT)
        assert stranger.poll() is None, "another process was ended"
        assert running.returncode == 0, said.decode()
        compare(read_lines("t.std"), known(PAIR))
        compare(read_lines("t.std.%d" % background), known(PAIR))
    finally:
        stranger.kill()
        stranger.wait()


def is_pending(process, number):
    """Whether a signal was sent to a process that it hasn't taken yet."""
    with open("/proc/%d/status" % process) as file:
        words = dict(line.split(":", 1) for line in file if ":" in line)
    return int(words["ShdPnd"], 16) >> (number - 1) & 1 != 0


def takes_terminal():
    """The present process's standard input is a terminal, and becomes that of a session of its own."""
    os.setsid()
    fcntl.ioctl(0, termios.TIOCSCTTY, 0)


def test_window_that_changes_its_size():
    """The terminal tells all that run in it: nothing is handed on, and this doesn't end the waiting."""
    terminal, inner = os.openpty()
    running = subprocess.Popen(
        [RECORD, "-o", "t.std", "./locks", "waits_in_background"],
        stdin=inner,
        stdout=subprocess.PIPE,
        stderr=subprocess.PIPE,
        preexec_fn=takes_terminal,
    )
    background = int(read_line(running.stdout))
    assert b"waiting for process %d" % background in read_line(running.stderr), "it doesn't wait"
    for rows in (30, 40):
        fcntl.ioctl(terminal, termios.TIOCSWINSZ, struct.pack("4H", rows, 80, 0, 0))
        with pytest.raises(subprocess.TimeoutExpired):
            running.wait(1)
    running.terminate()
    _, said = running.communicate(timeout=LIMIT)
    os.close(terminal)
    os.close(inner)
    assert running.returncode == 0 and b"still running" not in said, said.decode()


def test_second_signal_leaves_what_runs():
    """It is sent when the first one is taken: two that come at once count as one."""
    running, background = in_background(["sh", "-c", "trap '' HUP; ./locks waits_in_background"])
    assert b"waiting for process" in read_line(running.stderr), "it doesn't wait"
    running.send_signal(signal.SIGHUP)
    wait_for(lambda: not is_pending(running.pid, signal.SIGHUP), "the recorder to take the first signal")
    with pytest.raises(subprocess.TimeoutExpired):  # at the first one it doesn't leave
        running.wait(1)
    running.send_signal(signal.SIGHUP)
    _, said = running.communicate(timeout=LIMIT)
    assert b"still running: process %d" % background in said, said.decode()
    assert not has_ended(background), "the process was ended"
    directory = raw_directory("t.std")
    end(background)
    done = convert(directory, "later.std")
    assert done.returncode == 0, done.stderr.decode()
    compare(read_lines("later.std.%d" % background), known(PAIR))


def test_program_in_a_namespace_of_its_own():
    command = ["unshare", "-pf", "--mount-proc"]
    if subprocess.run(command + ["true"], stderr=subprocess.DEVNULL).returncode != 0:
        pytest.skip("no namespaces of processes here")
    run = record(*command, "./locks", "goes_to_background")
    assert run.status == 0, run.said
    traces = [run.lines(name[len("t.std") :]) for name in run.files()]
    assert known(PAIR) in traces, str(run.files())


@pytest.mark.parametrize("options", [(), ("--live",)])
def test_process_in_the_background_without_proc(options):
    words = ["unshare", "-m", "sh", "-c", 'mount -t tmpfs none /proc && exec "$@"', "sh"]
    if subprocess.run(words + ["true"], stderr=subprocess.DEVNULL).returncode != 0:
        pytest.skip("no namespaces of mounts here")
    command = [RECORD, *options, "-o", "t.std", "sh", "-c", "(sleep 10; exec ./locks table) & exit 0"]
    done = subprocess.run(words + command, stdin=subprocess.DEVNULL, stderr=subprocess.PIPE, timeout=LIMIT)
    assert done.returncode == 0, "%d: %s" % (done.returncode, done.stderr.decode())
    assert b", which runs on\n" in done.stderr and b": 2 events" in done.stderr, done.stderr.decode()
    if not options:
        (written,) = (name for name in os.listdir(".") if name.startswith("t.std"))
        compare(read_lines(written), known(TABLE))


def test_program_that_changes_its_root():
    if os.geteuid() != 0:
        pytest.skip("not root")
    run = record("./locks", "changes_root")
    assert run.status == 0, "%d: %s" % (run.status, run.said)
    compare(run.lines(), known(PAIR))


@pytest.fixture
def open_folder(folder, monkeypatch):
    """The test runs where everybody may go, with the program."""
    if os.geteuid() != 0:
        pytest.skip("not root")
    path = tempfile.mkdtemp(prefix="goodlock-record-tests.")
    os.chmod(path, 0o755)
    shutil.copy(folder / "locks", path)
    monkeypatch.chdir(path)
    yield
    monkeypatch.chdir(folder)
    shutil.rmtree(path)


NOBODY = {"user": 65534, "group": 65534, "extra_groups": []}


@pytest.fixture
def folder_of_nobody(open_folder):
    """The same, of a user for whom the modes of files count, and the recorder is built."""
    if subprocess.run(["test", "-x", RECORD], **NOBODY).returncode != 0:
        pytest.skip("not everybody may go to the recorder")
    for options in ([], ["--live"]):
        assert record("./locks", "table", options=options).status == 0
        os.unlink("t.std")
    os.chown(".", 65534, 65534)


@pytest.mark.parametrize("options", [[], ["--live"]], ids=["trace", "live"])
def test_files_under_any_umask(folder_of_nobody, options):
    """The recorder's files are for its reader, whoever else may read what the program makes."""
    command = [RECORD, *options, "-o", "t.std", "./locks", "hides_its_files"]
    done = subprocess.run(command, stderr=subprocess.PIPE, timeout=LIMIT, **NOBODY)
    said = done.stderr.decode()
    assert done.returncode == 0 and ": 200704 events" in said and ": 2 events" in said, said
    assert said.count("; settled\n") == (2 if options else 0), said
    assert raw_directories() == [], str(os.listdir("."))


@pytest.mark.parametrize("options", [[], ["--live"]], ids=["trace", "live"])
def test_file_that_cannot_be_read(folder_of_nobody, options):
    """What is in it would be missing: nothing is written, and what was recorded stays."""
    running = subprocess.Popen([RECORD, "-o", "t.std", "./locks", "volume_and_wait"], stdout=subprocess.PIPE, **NOBODY)
    program = int(read_line(running.stdout).split()[1])
    running.kill()
    running.wait()
    running.stdout.close()
    end(program)
    directory = raw_directory("t.std")
    file = "%s/%d.0.1" % (directory, program)
    os.chmod(file, 0)
    command = [RECORD, *options, "-o", "t.std", "--convert", directory]
    done = subprocess.run(command, stderr=subprocess.PIPE, timeout=LIMIT, **NOBODY)
    said = done.stderr.decode()
    assert done.returncode == REFUSED and "%d.0.1 can't be read: Permission denied" % program in said, said
    assert said.count("\n") == 1 and not os.path.exists("t.std") and os.path.exists(file), said
    os.chmod(file, 0o600)
    done = subprocess.run(command, stderr=subprocess.PIPE, timeout=LIMIT, **NOBODY)
    assert done.returncode == 0 and os.path.exists("t.std"), done.stderr.decode()


def test_program_that_gives_up_root(open_folder):
    run = record("./locks", "gives_up_root")
    assert run.status == 0 and "lost" not in run.said, run.said
    assert len(run.lines()) >= 2 + 4 * 224 * 224, "%d lines" % len(run.lines())
    assert run.files() == ["t.std"] and raw_directories() == [], str(os.listdir("."))


def test_thread_with_little_stack_that_gives_up_root(open_folder):
    """What the recorder does for that has room in it."""
    run = record("./locks", "gives_up_root_on_a_small_stack")
    assert run.status == 0 and "lost" not in run.said, "status %d: %s" % (run.status, run.said)
    lines = run.lines()
    compare([line for line in lines if line.startswith("main|") and "(a)" in line], known(PAIR))
    assert sum(line.startswith("main.1:gives_up_root_here|") for line in lines) == 2 and len(lines) == 6, str(lines)


def test_threads_that_fork_at_once():
    run = record("./forking")
    assert run.out == "0 parents and 0 children with others' signals\n", run.out
