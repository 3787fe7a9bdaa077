"""What it is told, and where it runs: arguments, files that are there, a path with spaces, sanitizers, closed files, other libraries."""

import glob
import os
import platform
import resource
import shutil
import signal
import subprocess

import pytest
from c_programs import build_or_skip
from c_traces import known, record
from known_traces import LIMIT, RECORD, REFUSED, TOOLS, compare, read_lines, wait_for


def test_nothing_is_overwritten():
    with open("kept.std", "w") as file:
        file.write("old\n")
    with open("proof.sh", "w") as file:
        file.write("touch was-run\n")
    done = subprocess.run([RECORD, "-o", "kept.std", "sh", "proof.sh"], stderr=subprocess.PIPE)
    assert done.returncode == REFUSED, done.stderr.decode()
    assert b"kept.std exists already" in done.stderr, done.stderr.decode()
    assert not os.path.exists("was-run"), "the program was run"
    with open("kept.std") as file:
        assert file.read() == "old\n", "the file was changed"


@pytest.mark.parametrize(
    "arguments",
    [
        [],
        ["-o"],
        ["--frames", "0", "./locks"],
        ["--frames", "x", "./locks"],
        ["--wrong", "./locks"],
        ["-o", "no/such/directory/t.std", "./locks", "table"],
    ],
    ids=lambda arguments: " ".join(arguments) or "none",
)
def test_wrong_arguments(arguments):
    done = subprocess.run([RECORD] + arguments, stdout=subprocess.PIPE, stderr=subprocess.PIPE)
    assert done.returncode == REFUSED, "%s: %d" % (arguments, done.returncode)
    assert done.stderr != b"" and b"Traceback" not in done.stderr, done.stderr.decode()


COMMANDS = ["goodlock-record", "goodlock-python", "goodlock-java", "goodlock-confirm"]


@pytest.mark.parametrize("command", COMMANDS)
def test_no_readlink(command):
    """By which a command finds its own files. That is none of the program's statuses."""
    done = subprocess.run([os.path.join(TOOLS, command), "true"], stderr=subprocess.PIPE, env={"PATH": "/nowhere"})
    told = f"{command}: readlink, which tells where its own files are, can't be run\n"
    assert done.returncode == REFUSED and done.stderr.decode() == told, done


@pytest.mark.parametrize("command", COMMANDS)
def test_no_python(command):
    os.mkdir("bin")
    os.symlink(shutil.which("readlink"), "bin/readlink")
    hidden = 'mount --bind /dev/null /usr/bin/python3 && exec env PATH="$PWD/bin" "$@"'
    words = ["unshare", "-m", "sh", "-c", hidden, "sh"]
    tried = subprocess.run([*words, "bin/readlink", "bin/readlink"], stdout=subprocess.PIPE, stderr=subprocess.PIPE)
    if tried.returncode != 0:
        pytest.skip("no namespaces of mounts here")
    done = subprocess.run([*words, os.path.join(TOOLS, command), "true"], stderr=subprocess.PIPE)
    assert done.returncode == REFUSED and done.stderr.decode() == f"{command}: there is no python3 on PATH\n", done


NAMES = [(f"goodlock-{name}", option) for name in ("record", "python", "java") for option in ("-o", "--convert")]


@pytest.mark.parametrize("recorder, option", [*NAMES, ("goodlock-python", "--python")])
def test_a_name_that_is_empty(recorder, option):
    """No other one stands for it."""
    words = [os.path.join(TOOLS, recorder), option, ""] + ["sh", "-c", "touch was-run"] * (option != "--convert")
    done = subprocess.run(words, stderr=subprocess.PIPE)
    said = done.stderr.decode()
    assert done.returncode == REFUSED and said.startswith(f"{recorder}: {option} takes a name that isn't empty\n"), said
    assert not os.path.exists("was-run"), "the program was run"


@pytest.mark.parametrize("recorder", ["goodlock-record", "goodlock-python", "goodlock-java", "goodlock-confirm"])
def test_a_program_whose_name_is_empty(recorder):
    """As of a variable that isn't set: nothing else is said of why there is no trace."""
    words = ["report.json", "--"] if recorder == "goodlock-confirm" else ["-o", "t.std"]
    done = subprocess.run([os.path.join(TOOLS, recorder), *words, "", "argument"], stderr=subprocess.PIPE)
    said = done.stderr.decode()
    assert done.returncode == REFUSED and said.startswith(f"{recorder}: the program's name is empty\nusage:"), said


@pytest.mark.parametrize("room, status", [(0, 0), (-1, REFUSED)])
def test_a_folder_that_lies_very_deep(room, status, monkeypatch):
    """A recorded process keeps 2,999 bytes of a recording's path: where that is longer, nothing is run."""
    program = os.path.abspath("locks")
    left = 2999 - room - len(os.fsencode(os.getcwd() + "/t.std.raw.0123456789abcdef"))
    while left > 0:
        step = left if left <= 200 else min(200, left - 2)
        os.mkdir("d" * (step - 1))
        monkeypatch.chdir("d" * (step - 1))
        left -= step
    run = record(program, "table")
    assert run.status == status, "status %d: %s" % (run.status, run.said)
    assert run.files() == ["t.std"] * (status == 0), "files: %s" % run.files()
    assert ("can't write beside t.std: File name too long" in run.said) == (status != 0), run.said


def test_folder_whose_name_is_no_text():
    """It is told by its bytes."""
    os.mkdir(b"folder\xfe")
    done = subprocess.run([RECORD, "-o", b"folder\xfe/t.std", "./locks", "table"], stderr=subprocess.PIPE)
    assert done.returncode == 0 and os.path.exists(b"folder\xfe/t.std"), done.stderr
    assert done.stderr.startswith(b"goodlock-record: folder\\xfe/t.std: 2 events"), done.stderr


def links_for_the_loader():
    """Folders of links to libraries whose path the loader can't take, of this recording and of others that go on."""
    return set(glob.glob("/tmp/goodlock-record.*"))


def test_checkout_whose_path_has_a_space():
    before = links_for_the_loader()
    place = "with space: and colon"
    shutil.copytree(TOOLS, place + "/tools", ignore=shutil.ignore_patterns("tests", "__pycache__"))
    command = [place + "/tools/goodlock-record", "-o", place + "/t.std", "./locks", "table"]
    done = subprocess.run(command, stderr=subprocess.PIPE)
    assert done.returncode == 0, done.stderr.decode()
    assert len(read_lines(place + "/t.std")) == 2, done.stderr.decode()
    # Of those that have come, other recordings' go with these.
    come = links_for_the_loader() - before
    wait_for(lambda: not any(map(os.path.lexists, come)), "the links to go: %s" % come)


def test_first_use_with_a_limit_of_file_sizes():
    """What Python would keep of the recorder's modules then is no half of one: later uses begin with it."""
    shutil.copytree(TOOLS, "tools", ignore=shutil.ignore_patterns("tests", "python"))
    subprocess.run(["make", "-s", "-C", "tools"], check=True)
    command = ["tools/goodlock-record", "-o", "t.std", "./locks", "table"]
    small = {"preexec_fn": lambda: resource.setrlimit(resource.RLIMIT_FSIZE, (1 << 15, resource.RLIM_INFINITY))}
    for limits in (small, {}):
        done = subprocess.run(command, stderr=subprocess.PIPE, **limits)
        assert done.returncode == 0, done.stderr.decode()
        os.unlink("t.std")


def test_newer_source_is_looked_into_once():
    """Also where nothing has to be built anew, as it is a part of other things: later uses don't ask make."""
    shutil.copytree(TOOLS, "tools", ignore=shutil.ignore_patterns("tests", "python"))
    subprocess.run(["make", "-s", "-C", "tools"], check=True)
    os.utime("tools/record/convert/lines.c")
    os.mkdir("bin")
    with open("bin/make", "w") as file:
        file.write('#!/bin/sh\necho asked >>asked\nexec %s "$@"\n' % shutil.which("make"))
    os.chmod("bin/make", 0o755)
    environment = {**os.environ, "PATH": os.path.abspath("bin") + ":" + os.environ["PATH"]}
    asked = []
    for _ in range(2):
        command = ["tools/goodlock-record", "-o", "t.std", "./locks", "table"]
        subprocess.run(command, check=True, stderr=subprocess.PIPE, env=environment)
        os.unlink("t.std")
        asked.append(len(read_lines("asked")))
    assert asked == [2, 2], asked  # for the preload library and the reader of events


def test_program_with_address_sanitizer():
    build_or_skip("AddressSanitizer", "gcc", ["-fsanitize=address"], "locks.c", "locks-asan")
    run = record("./locks-asan", "mutexes")
    assert run.status == 0 and "ERROR" not in run.said, run.said
    assert len(run.lines()) == 8, str(run.lines())


def test_fault_that_address_sanitizer_tells_of():
    """It is the program's, and no question of the recorder's."""
    build_or_skip("AddressSanitizer", "gcc", ["-fsanitize=address"], "freed.c", "freed")
    run = record("./freed")
    assert "attempting double-free on" in run.said and "malloc_usable_size" not in run.said, run.said
    assert run.status == 1 and len(run.lines()) == 2, run.said


def test_leak_checker_tells_nothing_of_the_recorder():
    """Where the first thread ends before the others, what the C library keeps of a fault for it counts as leaked."""
    build_or_skip("LeakSanitizer", "gcc", ["-fsanitize=leak"], "locks.c", "locks-leak")
    words = ["./locks-leak", "first_thread_ends_before_the_program"]
    plain = subprocess.run(words, stdin=subprocess.DEVNULL, stdout=subprocess.PIPE, stderr=subprocess.PIPE)
    if plain.returncode != 0:
        pytest.skip("LeakSanitizer doesn't run here")
    run = record(*words)
    assert run.status == 0 and "LeakSanitizer" not in run.said, run.said
    assert len(run.lines()) == 7, str(run.lines())


def record_with_thread_sanitizer(compiler, flags, source, *words):
    """The recording of a program that this compiler gave its ThreadSanitizer, called with these words."""
    build_or_skip("ThreadSanitizer of %s" % compiler, compiler, ["-fsanitize=thread", *flags], source, "sanitized")
    if subprocess.run(["./sanitized", *words], stderr=subprocess.PIPE).returncode != 0:
        pytest.skip("ThreadSanitizer doesn't run here")
    return record("./sanitized", *words)


def test_program_with_thread_sanitizer_of_gcc():
    """It is a library behind the recorder. Where waits for conditions went past it, it would take a mutex for locked all the while,
    and say so."""
    run = record_with_thread_sanitizer("gcc", [], "locks.c", "conditions")
    assert run.status == 0 and "ThreadSanitizer" not in run.said, run.said
    assert len(run.lines()) == 12, str(run.lines())


def test_program_with_thread_sanitizer_of_clang():
    """It puts functions of its own before those of the C library into the program: a call's place is that of who called them."""
    run = record_with_thread_sanitizer("clang", [], "locks.c", "table")
    assert run.status == 0, run.said
    compare(run.lines(), known("main|acq(many+0x78)|@table\nmain|rel(many+0x78)|@table_end"))


@pytest.mark.skipif(platform.machine() != "x86_64", reason="the C library has one version of the waits here")
def test_waits_with_thread_sanitizer_of_clang():
    """It asks for the C library's waits by their version, and has some functions of its own around them."""
    run = record_with_thread_sanitizer("clang", [], "locks.c", "conditions")
    assert run.status == 0 and "ThreadSanitizer" not in run.said, run.said
    compare(
        [line for line in run.lines() if "(a)" in line and line.startswith("main|")],
        known(
            """
        main|acq(a)|@cond_lock
        main|rel(a)|@cond_timed
        main|acq(a)|@cond_timed
        main|rel(a)|@cond_clock
        main|acq(a)|@cond_clock
        main|rel(a)|@cond_wait
        main|acq(a)|@cond_wait
        main|rel(a)|@cond_unlock"""
        ),
    )


@pytest.mark.parametrize("compiler", ["gcc", "clang"])
def test_thread_sanitizer_tells_nothing_of_the_recorder(compiler):
    """What the recorder keeps of a thread that ended is another one's then. That is no race, nor is it one that two threads which load
    libraries come upon the same ones, or that each of them is the first to need another file: the program has none, and ends as without
    the recorder."""
    run = record_with_thread_sanitizer(compiler, ["-O1"], "comings.c", "./plugin-one.so", "./plugin-two.so")
    assert run.status == 0 and "ThreadSanitizer" not in run.said, run.said
    assert len(run.lines()) > 3 * 4 * 2 * 40, run.said


def become_ignorant():
    """Also of what Python ignores for itself."""
    for number in (signal.SIGUSR1, signal.SIGPIPE, signal.SIGXFSZ):
        signal.signal(number, signal.SIG_IGN)


@pytest.mark.parametrize("before", [None, become_ignorant], ids=["default", "ignored"])
@pytest.mark.parametrize("options", [[], ["--live"]], ids=["trace", "live"])
def test_program_has_the_signals_of_who_asked(options, before):
    """What is blocked and ignored is as without the recorder, and so are the variables that aren't told in its name."""
    command = ["sh", "-c", "grep -E 'SigIgn|SigBlk' /proc/self/status; env | grep -c USR1"]
    plain = subprocess.run(command, stdout=subprocess.PIPE, preexec_fn=before)
    done = subprocess.run([RECORD, *options, *command], stdout=subprocess.PIPE, preexec_fn=before)
    assert done.stdout == plain.stdout and done.stdout.count(b"\n") == 3, done.stdout.decode()


@pytest.mark.parametrize("options", [[], ["--live"]], ids=["trace", "live"])
def test_few_open_files(options):
    """What the program and the recorder say is there, also where a shell has no more than the number of its script to itself."""
    few = {"preexec_fn": lambda: resource.setrlimit(resource.RLIMIT_NOFILE, (11, 11))}
    done = subprocess.run([RECORD, *options, "sh", "-c", "echo said >&2"], stderr=subprocess.PIPE, **few)
    first, *others = done.stderr.decode().split("\n")
    assert first == "said" and others[0].startswith("goodlock-record: "), done.stderr.decode()


@pytest.mark.parametrize("options", [[], ["--live"]], ids=["trace", "live"])
def test_program_has_the_variables_of_who_asked(options):
    """Also those whose names a script may use for itself."""
    names = "here python name mask line status directory".split()
    command = ["sh", "-c", "echo " + " ".join("$" + name for name in names)]
    told = subprocess.run(
        [RECORD, *options, *command], stdout=subprocess.PIPE, env={**os.environ, **dict(zip(names, names))}
    )
    assert told.stdout.decode().split() == names, told.stdout.decode()


@pytest.mark.parametrize("given", [None, "C", "POSIX"])
def test_program_has_the_locale_of_who_asked(given):
    """Where that is none but the C locale, Python sets another one for itself."""
    environment = {name: word for name, word in os.environ.items() if name != "LANG" and not name.startswith("LC_")}
    if given is not None:
        environment["LC_CTYPE"] = given
    run = record("sh", "-c", 'echo "${LC_CTYPE-none}"; env | grep -c RECORD_IGNORED', environment=environment)
    assert run.out == "%s\n0\n" % (given or "none"), run.out + run.said


def test_signal_before_the_program_is_there():
    """With --live it would ask for a report: there is none yet, and the recorder doesn't end by it. The program's child goes on until
    its standard input ends, so the recorder is there until then."""
    command = [RECORD, "--live", "./locks", "goes_to_background"]
    running = subprocess.Popen(command, stdin=subprocess.PIPE, stderr=subprocess.PIPE)

    def is_python():
        with open("/proc/%d/cmdline" % running.pid, "rb") as file:
            return b"launch.py" in file.read()

    while not is_python():
        assert running.poll() is None, "it ended"
    running.send_signal(signal.SIGUSR1)
    _, said = running.communicate(timeout=LIMIT)
    assert running.returncode == 0, "status %d: %s" % (running.returncode, said.decode())
    assert os.path.exists("goodlock.report"), said.decode()


def test_closed_standard_files():
    """The program finds them closed, and its trace is there."""
    program = "test ! -e /proc/self/fd/0 -a ! -e /proc/self/fd/1 && exec ./locks table"
    script = '"$0" -o t.std sh -c "%s" <&- >&- 2>&-' % program
    done = subprocess.run(["sh", "-c", script, RECORD], timeout=LIMIT)
    assert done.returncode == 0, "status %d" % done.returncode
    traces = [name for name in os.listdir(".") if name.startswith("t.std")]
    assert len(traces) == 1 and len(read_lines(traces[0])) == 2, str(traces)


@pytest.mark.parametrize("options", [[], ["--live"]], ids=["trace", "live"])
def test_standard_error_on_a_full_disk(options):
    """What is said there is lost, and the status is the program's."""
    with open("/dev/full", "wb") as full:
        done = subprocess.run([RECORD, *options, "-o", "t.std", "./locks", "leaves_at_once"], stderr=full)
    assert done.returncode == 5 and os.path.exists("t.std")


@pytest.mark.parametrize("option", ["--help", "--version"])
@pytest.mark.parametrize("command", ["goodlock-record", "goodlock-confirm"])
def test_standard_output_on_a_full_disk(command, option):
    """What can't be told is an error of the command's, with a status of its own."""
    with open("/dev/full", "wb") as full:
        done = subprocess.run([os.path.join(TOOLS, command), option], stdout=full, stderr=subprocess.PIPE)
    said = done.stderr.decode()
    assert done.returncode == REFUSED and said == f"{command}: standard output: No space left on device\n", said


def test_an_earlier_preload_library_has_the_waits():
    """Its functions have no version, as those of the C library have, of which there are two."""
    environment = dict(os.environ, LD_PRELOAD=os.path.abspath("libwaits.so"))
    run = record("./locks", "conditions", environment=environment)
    assert run.status == 0, run.said
    assert "waits: 1, with a deadline: 2\n" in run.said, run.said


def test_an_earlier_preload_library_stays():
    environment = dict(os.environ, LD_PRELOAD=os.path.abspath("liblibrary.so"))
    run = record("./locks", "table", environment=environment)
    assert run.status == 0, run.said
    assert any("library_lock" in line for line in run.lines()), str(run.lines())


@pytest.mark.parametrize("name", ["goodlock-record", "goodlock-python", "goodlock-confirm"])
@pytest.mark.parametrize("ignored", [False, True], ids=["heard", "ignored"])
def test_interrupted_as_it_begins(name, ignored):
    """While its modules are loaded, as by Ctrl-C: a line says so, as it does afterwards. Where interrupts are ignored it goes on."""
    for folder in ("record", "python"):
        shutil.copytree(os.path.join(TOOLS, folder), folder, ignore=shutil.ignore_patterns("__pycache__"))
    shutil.copy(os.path.join(TOOLS, name), name)
    with open("record/build.py") as file:
        text = file.read()
    with open("record/build.py", "w") as file:
        file.write("import os, signal, time\nos.kill(os.getpid(), signal.SIGINT)\ntime.sleep(0.01)\n\n" + text)
    how = (lambda: signal.signal(signal.SIGINT, signal.SIG_IGN)) if ignored else None
    done = subprocess.run(["./" + name, "--version"], capture_output=True, preexec_fn=how, timeout=LIMIT)
    told = (0, b"%s 0.1.0\n" % name.encode(), b"") if ignored else (REFUSED, b"", b"%s: interrupted\n" % name.encode())
    assert (done.returncode, done.stdout, done.stderr) == told, done
