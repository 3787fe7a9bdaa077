"""`goodlock-predict-all`: a report for each trace, whole or none, and what is said of those that have none."""

import json
import os
import pathlib
import shutil
import signal
import subprocess
import time

import pytest
from installing import run
from test_install import TRACE

CLEAN = TRACE.replace("T1|", "T0|")
BAD = "T0|acq(a)|1\nT0|rel(a|2\n"


def write(name, text):
    path = pathlib.Path(name)
    path.parent.mkdir(parents=True, exist_ok=True)
    path.write_text(text)


def predict_all(path, *words, **more):
    return run(path / "goodlock-predict-all", *words, **more)


def reports(folder="reports"):
    """The reports by their names, each as read."""
    files = [path for path in pathlib.Path(folder).rglob("*") if path.is_file()]
    return {str(path.relative_to(folder)): json.loads(path.read_text()) for path in files}


def test_each_trace_of_a_folder_has_its_report(path):
    write("traces/one.std", TRACE)
    write("traces/more/two.std.17", CLEAN)
    assert predict_all(path, "traces") == (0, "", "")
    found = reports()
    assert {name: len(report["cycles"]) for name, report in found.items()} == {
        "traces/one.std.json": 1,
        "traces/more/two.std.17.json": 0,
    }


def test_a_folder_and_traces_may_be_links(path):
    write("disk/one.std", TRACE)
    write("kept/two.std", CLEAN)
    os.symlink("../kept/two.std", "disk/two.std")
    os.symlink("disk", "traces")
    assert predict_all(path, "traces") == (0, "", "")
    assert set(reports()) == {"traces/one.std.json", "traces/two.std.json"}


def test_findings_of_two_runs_are_merged_by_the_viewer(path):
    """The second run has twelve pairs of other threads at the same places: 144 cycles, and the same finding."""
    write("one.std", TRACE)
    write("two.std", "".join(TRACE.replace("T0|", f"A{i}|").replace("T1|", f"B{i}|") for i in range(12)))
    assert predict_all(path, "one.std", "two.std", "--", "--findings") == (0, "", "")
    assert [(report["format"], len(report["findings"])) for report in reports().values()] == [(3, 1), (3, 1)]
    status, output, errors = run(path / "goodlock-view", "reports")
    assert (status, errors) == (1, "")
    assert output.startswith("finding 1: 2 cycles in 2 reports\n")
    assert output.endswith("\n1 finding, 2 cycles in 2 reports\n")


def test_a_refused_trace_is_named_and_the_others_have_their_reports(path):
    for name in ("a.std", "c.std"):
        write(name, TRACE)
    write("b.std", BAD)
    status, output, errors = predict_all(path, "-o", "out", "-j", "2", "a.std", "b.std", "c.std")
    assert (status, output) == (1, "")
    assert errors == "goodlock-predict-all: b.std: goodlock: line 2: bad operand (status 2)\n"
    assert set(reports("out")) == {"a.std.json", "c.std.json"}  # and no part of another


def test_a_recording_whose_traces_are_not_written_is_named_once(path):
    """As one of a recorder that was killed. A folder that only has such a name is one of traces."""
    write("traces/one.std", TRACE)
    for name in ("recording", "17.0.0", "18.0.0"):
        write(f"traces/two.std.raw.77c80238b3c00689/{name}", "no trace\n")
    write("traces/three.raw.d/three.std", CLEAN)
    status, output, errors = predict_all(path, "traces")
    told = "a recording, and no trace: goodlock-record --convert writes its traces"
    assert (status, output) == (1, "")
    assert errors == f"goodlock-predict-all: traces/two.std.raw.77c80238b3c00689: {told}\n"
    assert set(reports()) == {"traces/one.std.json", "traces/three.raw.d/three.std.json"}


def test_a_trace_that_is_not_there_is_named(path):
    write("a.std", TRACE)
    status, _, errors = predict_all(path, "none.std", "a.std")
    assert status == 1
    assert "none.std: " in errors
    assert set(reports()) == {"a.std.json"}


def test_a_link_to_nothing_in_a_folder_is_named(path):
    """As one to a trace on a disk that isn't there."""
    write("traces/a.std", TRACE)
    os.symlink("../disk/b.std", "traces/b.std")
    status, output, errors = predict_all(path, "traces")
    assert (status, output) == (1, "")
    assert errors == "goodlock-predict-all: traces/b.std: there is no such file\n"
    assert set(reports()) == {"traces/a.std.json"}


def test_a_folder_that_cannot_be_read_as_a_whole_is_named(path, tmp_path, monkeypatch):
    """As where another user recorded, and the recorder was killed. Root reads all, so a find that fails stands in for the real one."""
    write("traces/a.std", TRACE)
    write("bin/find", f"#!/bin/sh\n{shutil.which('find')} \"$@\"\necho 'find: closed' >&2\nexit 1\n")
    os.chmod("bin/find", 0o755)
    monkeypatch.setenv("PATH", f"{tmp_path}/bin:{os.environ['PATH']}")
    status, output, errors = predict_all(path, "traces")
    told = "traces: a folder, and no trace; where it was given as a folder, not all of it can be read"
    assert (status, output) == (1, "")
    assert errors == f"find: closed\ngoodlock-predict-all: {told}\n"
    assert set(reports()) == {"traces/a.std.json"}


def test_a_refused_trace_keeps_no_report_of_an_earlier_one(path):
    """The viewer would show its findings as this trace's. One that is gone was read, and its report stays."""
    for name in ("a.std", "b.std"):
        write(name, TRACE)
    assert predict_all(path, "a.std", "b.std")[0] == 0
    write("a.std", BAD)
    os.remove("b.std")
    assert predict_all(path, "a.std", "b.std")[0] == 1
    assert set(reports()) == {"b.std.json"}


def test_a_trace_whose_folder_is_missing_is_named(path, tmp_path):
    """Its name is made out where `..` is in it, which it can't be then."""
    (tmp_path / "here").mkdir()
    status, output, errors = predict_all(path, "../none/a.std", cwd=tmp_path / "here")
    assert (status, output) == (1, "")
    assert errors == "goodlock-predict-all: ../none/a.std: there is no such file\n"


def test_names_may_have_anything_in_them(path):
    names = ["a b.std", 'it\'s "q".std', "$(touch hit).std", "-x.std", "back\\slash.std", "line\nend.std", "é.std"]
    for name in names:
        write(f"traces/{name}", TRACE)
    assert predict_all(path, "traces")[0] == 0
    assert set(reports()) == {f"traces/{name}.json" for name in names}
    assert not os.path.exists("hit")


def test_a_way_upwards_stays_in_the_folder_of_the_reports(path, tmp_path):
    write("up/a.std", TRACE)
    (tmp_path / "here").mkdir()
    assert predict_all(path, "-o", "out", "../up/a.std", cwd=tmp_path / "here")[0] == 0
    assert set(reports(tmp_path / "here" / "out")) == {f"{tmp_path}/up/a.std.json".lstrip("/")}


def test_names_come_from_standard_input_and_options_go_to_predict(path):
    for name in ("a.std", "b.std"):
        write(name, TRACE)
    assert predict_all(path, "-", "--", "--len", "3", "--mode", "guarded", input="a.std\nb.std\n") == (0, "", "")
    assert {(report["len"], report["mode"]) for report in reports().values()} == {(3, "guarded")}


@pytest.mark.parametrize("option", ["-0", "--null"])
def test_names_on_standard_input_may_end_in_a_zero_byte(path, option):
    names = ["a b.std", "line\nend.std", "traces/\n.std", "last"]
    for name in names:
        write(name, TRACE)
    assert predict_all(path, option, "-", input="\0".join(names)) == (0, "", "")
    assert set(reports()) == {f"{name}.json" for name in names}


def test_the_program_may_be_named(path, tmp_path):
    write("a.std", TRACE)
    write("stand-in", "#!/bin/sh\ncat >/dev/null\necho '{}'\nexit 1\n")
    os.chmod("stand-in", 0o755)
    assert predict_all(path, "--program", "./stand-in", "a.std")[0] == 0
    assert reports() == {"a.std.json": {}}


@pytest.mark.parametrize(
    "words, options, asked",
    [
        (["-j", "2"], [], ["--jobs", "1"]),
        (["-j", "2"], ["--len", "3"], ["--jobs", "1", "--len", "3"]),
        (["-j", "2"], ["--jobs", "4"], ["--jobs", "4"]),
        (["-j", "2"], ["--jobs=4"], ["--jobs=4"]),
        (["-j", "1"], [], []),
    ],
)
def test_one_thread_reads_a_trace_where_several_are_predicted(path, words, options, asked):
    for name in ("a.std", "b.std"):
        write(name, TRACE)
    write("stand-in", "#!/bin/sh\ncat >/dev/null\nprintf '\"%s\" ' \"$@\" | sed 's/ $//; s/ /, /g; s/.*/[&]/'\n")
    os.chmod("stand-in", 0o755)
    assert predict_all(path, "--program", "./stand-in", *words, "a.std", "b.std", "--", *options)[0] == 0
    assert list(reports().values()) == [["predict", "--json", *asked]] * 2


def test_a_trace_may_be_named_twice(path):
    """Both are predicted at once: the stand-in waits for the other one before it writes, and before it ends."""
    write("traces/a.std", TRACE)
    meets = "mkdir $1.$$; while [ $(ls -d $1.* | wc -l) -lt 2 ]; do sleep 0.01; done"
    write("stand-in", f"#!/bin/sh\nmeet() {{ {meets}; }}\ncat >/dev/null\nmeet began\necho '{{}}'\nmeet wrote\n")
    os.chmod("stand-in", 0o755)
    words = ["-j", "2", "traces", "traces/a.std"]
    assert predict_all(path, "--program", "./stand-in", *words) == (0, "", "")
    assert reports() == {"traces/a.std.json": {}}


def test_nothing_is_left_where_temporary_files_are(path, tmp_path, monkeypatch):
    """Not even while traces are predicted: so whatever ends it then, nothing is."""
    write("a.std", TRACE)
    (tmp_path / "temporary").mkdir()
    monkeypatch.setenv("TMPDIR", str(tmp_path / "temporary"))
    write("stand-in", f"#!/bin/sh\ncat >/dev/null\nls '{tmp_path}/temporary' | wc -l\n")
    os.chmod("stand-in", 0o755)
    assert predict_all(path, "--program", "./stand-in", "a.std") == (0, "", "")
    assert reports() == {"a.std.json": 0}


def test_a_program_that_fails_leaves_no_report(path):
    write("a.std", TRACE)
    write("stand-in", "#!/bin/sh\necho '{\"half'\necho 'goodlock: write failed' >&2\nexit 4\n")
    os.chmod("stand-in", 0o755)
    status, _, errors = predict_all(path, "--program", "./stand-in", "a.std")
    assert (status, errors) == (1, "goodlock-predict-all: a.std: goodlock: write failed (status 4)\n")
    assert reports() == {}


def eventually(is_so):
    """Waits until it is so; a minute is a hang."""
    end = time.monotonic() + 60
    while not is_so():
        assert time.monotonic() < end
        time.sleep(0.01)


def states(names):
    """Of the processes whose numbers these files have: R, S, T .., and Z where they have ended."""
    files = [pathlib.Path("/proc", pathlib.Path(name).read_text().strip(), "stat") for name in names]
    return [file.read_text().rpartition(")")[2].split()[0] if file.exists() else "Z" for file in files]


def default_signals():
    """Whoever runs the tests in the background ignores some, and a shell can't trap what is ignored where it starts."""
    for number in (signal.SIGHUP, signal.SIGINT, signal.SIGQUIT, signal.SIGTERM, signal.SIGTSTP):
        signal.signal(number, signal.SIG_DFL)


def predicting(path, then):
    """Predicts three traces, two at a time, by a program that writes half a report, and then does this; and the files of the numbers
    of the first two."""
    for name in ("a.std", "b.std", "c.std"):
        write(name, TRACE)
    write("stand-in", f"#!/bin/sh\necho '{{'\necho $$ >number.$$\nmv number.$$ running.$$\n{then}\n")
    os.chmod("stand-in", 0o755)
    words = [path / "goodlock-predict-all", "-j", "2", "--program", "./stand-in", "a.std", "b.std", "c.std"]
    with open("errors", "w") as errors:
        process = subprocess.Popen(words, stderr=errors, preexec_fn=default_signals)
    eventually(lambda: len(list(pathlib.Path().glob("running.*"))) == 2)
    return process, list(pathlib.Path().glob("running.*"))


@pytest.mark.parametrize("name", ["SIGHUP", "SIGINT", "SIGQUIT", "SIGTERM"])
def test_a_signal_ends_all_predictions(path, name):
    process, running = predicting(path, "trap 'sleep 0.1; exit 1' TERM\nwhile [ -e a.std ]; do sleep 0.1; done")
    process.send_signal(signal.Signals[name])
    try:
        status, errors = process.wait(timeout=60), pathlib.Path("errors").read_text()
        left = [path.name for path in pathlib.Path("reports").rglob("*") if path.is_file()]
        found = (status, errors, left, states(running), list(pathlib.Path().glob("running.*")))
    finally:
        os.remove("a.std")  # by which a program that still runs ends
    assert found == (-signal.Signals[name], "", [], ["Z", "Z"], running)


def test_what_a_terminal_stops_goes_on_afterwards(path):
    process, running = predicting(path, "while [ -e a.std ]; do sleep 0.1; done\necho '}'")
    process.send_signal(signal.SIGTSTP)
    eventually(lambda: states(running) == ["T", "T"])
    assert os.WIFSTOPPED(os.waitpid(process.pid, os.WUNTRACED)[1])
    os.remove("a.std")
    process.send_signal(signal.SIGCONT)
    assert (process.wait(timeout=60), pathlib.Path("errors").read_text()) == (0, "")
    assert set(reports()) == {"a.std.json", "b.std.json", "c.std.json"}


def test_a_command_that_is_missing_is_told(path, tmp_path, monkeypatch):
    """Where xargs isn't there, as where nothing is."""
    write("a.std", TRACE)
    (tmp_path / "bin").mkdir()
    for name in "readlink dirname nproc mktemp find sort tr setsid flock cat mkdir mv rm head".split():
        (tmp_path / "bin" / name).symlink_to(shutil.which(name))
    for folder, missing in (("bin", "xargs"), ("nowhere", "readlink")):
        monkeypatch.setenv("PATH", str(tmp_path / folder))
        told = f"goodlock-predict-all: there is no {missing} on PATH\n"
        assert predict_all(path, "--program", "/bin/true", "a.std") == (2, "", told)
    assert not os.path.exists("reports")


def test_what_cannot_be_made_is_told(path, tmp_path, monkeypatch):
    """A folder of reports where a file stands, and a list of traces where there is no folder for it; each in a line."""
    write("a.std", TRACE)
    write("taken", "old\n")
    status, out, said = predict_all(path, "-o", "taken", "a.std")
    begin = "goodlock-predict-all: no folder of reports can be made: mkdir: "
    assert (status, out, said.startswith(begin), said.count("\n")) == (2, "", True, 1), said
    assert pathlib.Path("taken").read_text() == "old\n"
    monkeypatch.setenv("TMPDIR", str(tmp_path / "nowhere"))
    status, out, said = predict_all(path, "a.std")
    begin = "goodlock-predict-all: no list of the traces can be made: mktemp: "
    assert (status, out, said.startswith(begin), said.count("\n")) == (2, "", True, 1), said
    assert not os.path.exists("reports")


USAGE = [
    ([], "there is no trace"),
    (["-"], "there is no trace"),
    (["--jobs", "0", "a.std"], "--jobs takes a number from 1 on"),
    (["-j", "x", "a.std"], "--jobs takes a number from 1 on"),
    (["-o"], "-o takes a value"),
    (["-o", "", "a.std"], "-o takes a value that isn't empty"),
    (["--program", "", "a.std"], "--program takes a value that isn't empty"),
    (["--nonsense", "a.std"], "unknown option --nonsense (--help tells the usage)"),
]


@pytest.mark.parametrize("words, text", USAGE)
def test_wrong_usage_is_told_in_a_line(path, words, text):
    write("a.std", TRACE)
    assert predict_all(path, *words, input="") == (2, "", f"goodlock-predict-all: {text}\n")
    assert not os.path.exists("reports")
