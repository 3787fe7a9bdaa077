"""Whatever is killed or full, the report says how far it goes; and what is refused, and left."""

import os
import re
import shutil
import signal
import subprocess
import sys

import pytest
from c_programs import NO_DISK, SmallDisk, end, has_ended, raw_directories, raw_directory
from following import ORDERS, Live, children_of, cycles_in, left_behind, lines_of, read_report, report_later, reported
from known_traces import LIMIT, RECORD, REFUSED, TOOLS, read_line, wait_for


def test_killed_program():
    done = reported("./live", "killed")
    assert done.status == 128 + signal.SIGKILL, done.said
    assert "1 cycle; so far, as signal 9 ended the process" in done.said, done.said
    assert cycles_in(read_report()) == ORDERS, str(read_report())


def test_killed_recorder():
    """The program goes on, and what is left behind gives the report later."""
    live = Live("./live", "waits").is_ready()
    live.process.kill()
    live.end()
    assert not has_ended(live.program), "the program ended"
    directory = raw_directory("r.json")
    said = report_later(directory, "meanwhile.json")
    assert cycles_in(read_report("meanwhile.json")) == ORDERS, said
    assert "so far, as the process still runs" in said and "; settled" not in said, said
    assert os.path.exists(directory), "the directory is gone"
    end(live.program)
    said = report_later(directory, "later.json")
    assert cycles_in(read_report("later.json")) == ORDERS, said
    assert "; so far, as it isn't known how the process ended\n" in said and "; settled" not in said, said
    assert not os.path.exists(directory), "the directory is still there"


def test_killed_companion():
    """The report at the end doesn't need it, and what it left goes with the recording."""
    live = Live("./live", "waits").is_ready()
    live.wait_for_words("1 cycle so far")
    (companion,) = children_of(live.process.pid) - {live.program}
    os.kill(companion, signal.SIGKILL)
    with open("%s/copy.%d" % (raw_directory("r.json"), companion), "w") as file:
        file.write("part of a copy")
    wait_for(lambda: not os.path.exists("/proc/%d" % companion), "the companion's end to be seen")
    live.process.send_signal(signal.SIGUSR1)
    live.end(signal.SIGTERM, 128 + signal.SIGTERM)
    assert cycles_in(read_report()) == ORDERS, live.said
    assert raw_directories() == [], "the recording is there"


def left_aside():
    """The names of copies and reports in a recording that is kept."""
    return [name for name in os.listdir(raw_directory("r.json")) if name.startswith(("copy.", "report."))]


def test_killed_companion_of_a_recording_that_is_kept():
    """What it left goes, as that of the report at the end does, which finds another one of its name."""
    live = Live("./live", "waits").is_ready()
    live.wait_for_words("1 cycle so far")
    (companion,) = children_of(live.process.pid) - {live.program}
    os.kill(companion, signal.SIGKILL)
    for what in ("copy", "report"):
        with open("%s/%s.%d" % (raw_directory("r.json"), what, companion), "w") as file:
            file.write("part of it")
    with open("r.json", "w") as file:
        file.write("old")
    live.end(signal.SIGTERM, REFUSED)
    assert "r.json exists already (what was recorded is kept in " in live.said, live.said
    assert left_aside() == [], live.said


# goodlock-record, which waits where it makes a report at the end.
WAITS = """
import sys, time
sys.path.insert(0, sys.argv.pop(1))
import launch, live
def wait(recording, *asked):
    open(recording.work_file("report"), "w").close()
    print("ready", flush=True)
    time.sleep(600)
live.report_of = wait
sys.exit(launch.main(launch.read_own_arguments, launch.Recorder()))
"""


@pytest.mark.parametrize("number", [signal.SIGINT, signal.SIGTERM])
def test_report_that_a_signal_ends(number):
    """It leaves nothing, and can be made later."""
    directory = left_behind("./live", "waits")
    command = [sys.executable, "-c", WAITS, os.path.join(TOOLS, "record"), "--live", "-o", "r.json"]
    command += ["--convert", directory]
    with subprocess.Popen(command, stdout=subprocess.PIPE, stderr=subprocess.PIPE) as made:
        assert read_line(made.stdout) == b"ready\n", made.stderr.read()
        assert sorted(left_aside()) == ["copy.%d" % made.pid, "report.%d" % made.pid]
        made.send_signal(number)
        said = made.communicate(timeout=LIMIT)[1]
    assert (made.returncode, said) == (-number, b""), (made.returncode, said)
    assert left_aside() == []
    said = report_later(directory)
    assert cycles_in(read_report()) == ORDERS, said


def test_lost_events_are_not_settled():
    with SmallDisk("1500k") as mounted:
        if not mounted:
            pytest.skip(NO_DISK)
        command = [RECORD, "--live", "-o", "small/r.txt", "./locks", "volume"]
        done = subprocess.run(command, stdin=subprocess.DEVNULL, stderr=subprocess.PIPE, timeout=LIMIT)
        assert done.returncode == REFUSED and b"No space left" in done.stderr, done.stderr.decode()
        (name,) = [name for name in os.listdir("small") if ".raw." in name]
        shutil.copytree("small/" + name, "kept")
        shutil.rmtree("small/" + name)
    said = report_later("kept")
    assert "so far, as events were lost" in said, said


# goodlock-record, where the library answers this for each report that is made at the end: of all processes, or of children.
REFUSES = """
import sys
recorder, code, only_children = sys.argv.pop(1), int(sys.argv.pop(1)), sys.argv.pop(1) == "children"
sys.path.insert(0, recorder)
import launch, live
answered = live.answered_reports
def refuse(process, *asked):
    refused = iter([live.Report(code, 0, False, b"")])
    return refused if process.parent or not only_children else answered(process, *asked)
live.answered_reports = refuse
sys.exit(launch.main(launch.read_own_arguments, launch.Recorder()))
"""
RING = "its forks and joins order a part of a thread before itself"


def refused(code, whose, *words):
    """The status and the errors of such a run."""
    command = [sys.executable, "-c", REFUSES, os.path.join(TOOLS, "record"), str(code), whose, "--live", "-o", "r.json"]
    done = subprocess.run([*command, *words], stdin=subprocess.DEVNULL, stderr=subprocess.PIPE, timeout=LIMIT)
    return done.returncode, done.stderr.decode()


@pytest.mark.parametrize("code, why", [(1, "there wasn't enough memory"), (10, RING)])
def test_report_that_is_refused_is_made_later(code, why):
    """Where it can be. What was recorded is there until then."""
    status, said = refused(code, "all", "./live", "killed")
    directory = raw_directory("r.json")
    told = "r.json: no report: %s (what was recorded is kept in %s)\n" % (why, os.path.abspath(directory))
    assert status == REFUSED and told in said, said
    assert not os.path.exists("r.json"), "there is a report"
    status, again = refused(code, "all", "--convert", directory)
    assert status == REFUSED and told in again, again
    assert left_aside() == []
    said = report_later(directory)
    assert cycles_in(read_report()) == ORDERS, said


def test_process_whose_report_is_refused_beside_another():
    """That one has its report."""
    status, said = refused(10, "children", "./locks", "goes_to_background")
    told = re.search(
        r"r\.json\.\d+: no report: %s\n.*: %s is kept\n" % (RING, re.escape(os.path.abspath(raw_directory("r.json")))),
        said,
    )
    assert status == 0 and told, said
    assert [name for name in os.listdir(".") if name.startswith("r.json") and ".raw." not in name] == ["r.json"]


@pytest.mark.parametrize("name", ["r.json", "r.json.lines"])
def test_nothing_is_overwritten(name):
    with open(name, "w") as file:
        file.write("old")
    done = subprocess.run([RECORD, "--live", "-o", "r.json", "./live", "killed"], stderr=subprocess.PIPE)
    assert done.returncode == REFUSED and b"exists already; nothing was run" in done.stderr, done.stderr.decode()
    with open(name) as file:
        assert file.read() == "old", "the file was changed"


@pytest.mark.parametrize(
    "words",
    [
        ["--every", "1", "./live"],
        ["--live", "--every", "0", "./live"],
        ["--live", "--every", "x", "./live"],
        ["--live", "--every"],
        ["--live"],
    ],
    ids=" ".join,
)
def test_wrong_arguments(words):
    done = subprocess.run([RECORD, "-o", "r.json"] + words, stderr=subprocess.PIPE)
    assert done.returncode == REFUSED and b"Traceback" not in done.stderr, done.stderr.decode()


@pytest.mark.parametrize(
    "words, said",
    [
        ("--len 5", "--len is for --live"),
        ("--mode full", "--mode is for --live"),
        ("--max 1000", "--max is for --live"),
        ("--findings", "--findings is for --live"),
        ("--findings --convert nowhere", "--findings is for --live"),
        ("--live --len 1", "--len takes a number from 2 to 16"),
        ("--live --len 17", "--len takes a number from 2 to 16"),
        ("--live --len \u00b2", "--len takes a number from 2 to 16"),
        ("--live --max 0", "--max takes a number from 1 to 100000"),
        ("--live --max 100001", "--max takes a number from 1 to 100000"),
        ("--live --max -1", "--max takes a number from 1 to 100000"),
        ("--live --max " + "9" * 5000, "--max takes a number from 1 to 100000"),
        ("--frames \u00b2", "--frames takes a number from 1 to 16"),
        ("--frames \uff13", "--frames takes a number from 1 to 16"),
        ("--live --mode all", "--mode takes basic, guarded or full"),
    ],
    ids=lambda text: text[:20],
)
def test_wrong_questions(words, said):
    """Nothing is run, and standard error says what is taken."""
    command = [RECORD, "-o", "r.json", *words.split(), "sh", "-c", "echo ran"]
    done = subprocess.run(command, stdout=subprocess.PIPE, stderr=subprocess.PIPE)
    assert done.returncode == REFUSED and done.stdout == b"", done.stdout.decode()
    assert done.stderr.decode().splitlines()[0] == "goodlock-record: " + said, done.stderr.decode()


@pytest.mark.parametrize(
    "seconds",
    [
        "0",
        "0.09",
        "1000001",
        "x",
        "",
        ".",
        "1.2.3",
        "-1",
        "+1",
        " 1",
        "1_0",
        "1e3",
        "inf",
        "nan",
        "0x1",
        "1,5",
        "\u0663",
    ],
)
def test_every_so_many_seconds(seconds):
    """A plain decimal number: not all that Python takes for one."""
    command = [RECORD, "-o", "r.json", "--live", "--every", seconds, "sh", "-c", "echo ran"]
    done = subprocess.run(command, stdout=subprocess.PIPE, stderr=subprocess.PIPE)
    assert done.returncode == REFUSED and done.stdout == b"", done.stdout.decode()
    said = "goodlock-record: --every takes a number of seconds, as 2 or 0.5, from 0.1 to 1000000\n"
    assert done.stderr.decode() == said, done.stderr.decode()


@pytest.mark.parametrize("seconds", ["0.1", ".5", "2.", "010", "1000000"])
def test_every_so_many_seconds_is_taken(seconds):
    done = reported("./live", "churn", options=["--every", seconds])
    assert done.status == 0, done.said


@pytest.mark.parametrize("other", ["goodlock-python", "goodlock-java"])
def test_other_recorders_have_no_reports_so_far(other):
    done = subprocess.run([os.path.join(TOOLS, other), "--live", "true"], stderr=subprocess.PIPE)
    assert done.returncode == REFUSED and b"unknown option --live" in done.stderr, done.stderr.decode()


def test_nothing_is_left():
    """The recording is gone, and with it what a look writes."""
    live = Live("./live", "waits", options=["--every", "0.1"]).is_ready()
    wait_for(lambda: len(lines_of()) > 2, "lines")
    live.end(signal.SIGTERM)
    left = sorted(name for name in os.listdir(".") if name.startswith("r.json"))
    assert left == ["r.json", "r.json.lines", "r.json.said"], str(left)
