"""What it writes for tools, what it refuses, and that it leaves nothing."""

import json
import os
import signal
import subprocess

import pytest
from c_programs import NO_DISK, SmallDisk
from confirming import (
    CONFIRM,
    DEADLOCKED,
    ERROR,
    NOT_SEEN,
    PATIENTLY,
    VIEW,
    check_that_nothing_is_left,
    deadlocks,
    false_alarm,
    run,
)
from known_traces import LIMIT, processes_in, wait_for


def test_output_for_tools(predict):
    status, out, said = run([*PATIENTLY, "-o", "confirmed.json", predict("opposite"), "--", "./cycles", "opposite"])
    assert status == DEADLOCKED, said
    with open("confirmed.json") as file:
        value = json.load(file)
    assert value["outcome"] == "deadlocked" and value["text"] == out.rstrip("\n").split("\n"), str(value)
    shown = subprocess.run([VIEW, "--confirmed", "confirmed.json", predict("opposite")], stdout=subprocess.PIPE).stdout
    assert shown.startswith(b"finding 1: confirmed 1 cycle in 1 report\n"), shown.decode()
    with open(predict("opposite")) as file:
        edges = json.load(file)["edges"]
    assert sorted(map(tuple, value["pairs"])) == sorted((e["held_at"], e["wanted_at"]) for e in edges), str(value)
    status, out, said = run(["-o", "confirmed.json", predict("opposite"), "--", "./cycles", "opposite"])
    assert status == ERROR and "exists already" in said, said


def test_a_report_of_findings(predict):
    """It lists findings in place of cycles, and no trim order."""
    with open(predict("opposite")) as file:
        report = json.load(file)
    del report["trim"]
    report.update(format=3, findings=report.pop("cycles"))
    with open("findings.json", "w") as file:
        json.dump(report, file)
    status, out, said = run([*PATIENTLY, "findings.json", "--", "./cycles", "opposite"])
    assert status == DEADLOCKED and out.startswith("deadlocked in try "), out + said
    assert "main.1:one_way holds a since " in out and "main.2:other_way holds b since " in out, out


def test_numbers_are_those_of_the_viewer(predict):
    """There a lock stands in the place of a location that says nothing: the two cycles on a and b, and on c and d, are two findings."""
    with open(predict("opposite")) as file:
        report = json.load(file)
    nowhere = [{**edge, "held_at": "?", "wanted_at": "?"} for edge in report["edges"]]
    others = [{**edge, "held": edge["held"] * 2, "wanted": edge["wanted"] * 2} for edge in nowhere]
    others = [{**edge, "guards": [edge["held"]]} for edge in others]
    report.update(edges=nowhere + others + report["edges"], cycles=[[0, 1], [2, 3], [4, 5]], trim=None)
    with open("three.json", "w") as file:
        json.dump(report, file)
    shown = subprocess.run([VIEW, "three.json"], stdout=subprocess.PIPE).stdout.decode()
    assert "finding 3: 1 cycle in 1 report\n  main.1:one_way holds a since cycles.c:42" in shown, shown
    for number in ("1", "3"):
        said = run(["--tries", "1", "--finding", number, "-o", number, "three.json", "--", "true"])[2]
        marked = subprocess.run([VIEW, "--confirmed", number, "three.json"], stdout=subprocess.PIPE).stdout.decode()
        assert "aren't here" not in marked and ("came to cycles.c:42" in said) == (number == "3"), said + marked


def test_program_has_the_variables_of_who_asked(predict):
    """Also those whose names a script may use for itself."""
    words = [CONFIRM, "--tries", "1", predict("opposite"), "--", "sh", "-c", "echo $here $python >> variables.txt"]
    asked = {**os.environ, "here": "one", "python": "two"}
    said = subprocess.run(words, stdout=subprocess.PIPE, stderr=subprocess.STDOUT, env=asked, timeout=LIMIT).stdout
    with open("variables.txt") as file:
        told = set(file)
    assert told == {"one two\n"}, (told, said)


def test_errors(predict):
    report = predict("opposite")
    with open("no-report.json", "w") as file:
        file.write('{"cycles": [[0, 1]]}')
    with open("no-edges.json", "w") as file:
        file.write('{"format": 1, "cycles": [[]]}')
    with open("deep.json", "w") as file:
        file.write("[" * 100_000)
    for arguments, text in (
        ([], "usage"),
        ([report], "usage"),
        (["--tries", "0", report, "--", "true"], "--tries"),
        (["--tries", "²", report, "--", "true"], "--tries takes a number"),
        (["--seconds", "1" * 5000, report, "--", "true"], "--seconds takes a number"),
        (["missing.json", "--", "true"], "missing.json"),
        (["no-report.json", "--", "true"], "not a report"),
        (["no-edges.json", "--", "true"], "not a report"),
        (["deep.json", "--", "true"], "not a report"),
        (["--finding", "2", report, "--", "true"], "1 findings"),
        ([report, "--", "./no-such-program"], "no-such-program"),
        ([report, "--", "./cycles-static", "opposite"], "statically linked"),
    ):
        status, out, said = run(arguments)
        assert status == ERROR and text in said and out == "" and "Traceback" not in said, "%s: %d %s" % (
            arguments,
            status,
            said,
        )


def refuses_to_write(path, predict):
    """Nothing is run whose outcome couldn't be written; what is said."""
    status, out, said = run(["--tries", "1", "-o", path, predict("opposite"), "--", "sh", "-c", "touch was-run"])
    assert status == ERROR and out == "", "status %d: %s%s" % (status, out, said)
    assert not os.path.exists("was-run"), "the program was run"
    return said


def test_output_in_a_folder_that_isnt_there(predict):
    said = refuses_to_write("no-folder/confirmed.json", predict)
    assert said == "goodlock-confirm: no-folder/confirmed.json: No such file or directory; nothing was run\n", said


def test_output_without_a_name(predict):
    said = refuses_to_write("", predict)
    assert said.startswith("goodlock-confirm: -o takes a name that isn't empty\nusage: "), said


def test_output_on_a_full_disk(predict):
    with SmallDisk("32k") as has_disk:
        if not has_disk:
            pytest.skip(NO_DISK)
        said = refuses_to_write("small/confirmed.json", predict)
        assert said == "goodlock-confirm: small/confirmed.json: No space left on device; nothing was run\n", said
        assert os.listdir("small") == []


def test_a_small_disk_for_temporary_files(predict, monkeypatch):
    """The events have room there, and what the threads wait for has none: that isn't a cycle that wasn't seen."""
    with SmallDisk("1m") as has_disk:
        if not has_disk:
            pytest.skip(NO_DISK)
        monkeypatch.setenv("TMPDIR", os.path.abspath("small"))
        status, out, said = run(["--tries", "1", predict("opposite"), "--", "./cycles", "opposite"])
        assert status == ERROR and out == "" and said.endswith(": no room for what the threads wait for\n"), out + said
        assert os.listdir("small") == []


def test_output_that_came_meanwhile(predict):
    """Another one's file is kept."""
    words = [
        "--tries",
        "1",
        "-o",
        "confirmed.json",
        predict("opposite"),
        "--",
        "sh",
        "-c",
        "echo other > confirmed.json",
    ]
    status, out, said = run(words)
    assert status == ERROR and "confirmed.json exists already" in said, "status %d: %s" % (status, said)
    assert out == "not seen in 1 try\n", out
    with open("confirmed.json") as file:
        assert file.read() == "other\n", "the file was changed"
    assert [name for name in os.listdir(".") if name.startswith("confirmed.json.")] == []


def test_outcome_where_standard_error_is_on_a_full_disk(predict):
    """What would be said there is lost, and the outcome is as ever: its status is none of Python's, which means a deadlock."""
    with open("/dev/full", "wb") as full:
        words = [CONFIRM, "--tries", "1", predict("opposite"), "--", "true"]
        done = subprocess.run(words, stdout=subprocess.PIPE, stderr=full, timeout=LIMIT)
        refused = subprocess.run([CONFIRM], stdout=subprocess.PIPE, stderr=full, timeout=LIMIT)
    assert done.returncode == NOT_SEEN and done.stdout == b"not seen in 1 try\n", done
    assert refused.returncode == ERROR and refused.stdout == b"", refused


def test_outcome_where_standard_output_is_on_a_full_disk(predict):
    """That is an error, and the file has the outcome all the same."""
    with open("/dev/full", "wb") as full:
        words = [CONFIRM, "--tries", "1", "-o", "confirmed.json", predict("opposite"), "--", "true"]
        done = subprocess.run(words, stdout=full, stderr=subprocess.PIPE, timeout=LIMIT)
    assert done.returncode == ERROR, done
    assert done.stderr.endswith(b"goodlock-confirm: standard output: No space left on device\n"), done.stderr.decode()
    with open("confirmed.json") as file:
        assert json.load(file)["text"] == ["not seen in 1 try"]


def test_program_whose_path_has_an_end_of_a_line(predict):
    """Its threads are steered as those of others are."""
    os.mkdir("two\nlines")
    os.link("cycles", "two\nlines/cycles")
    words = [*PATIENTLY, predict("opposite"), "--", "two\nlines/cycles", "opposite"]
    status, out, said = run(words)
    assert status == DEADLOCKED, "status %d: %s%s" % (status, out, said)


def name_of(process):
    """That of its program; none where it has just ended."""
    try:
        with open("/proc/%d/comm" % process) as file:
            return file.read().strip()
    except OSError:
        return None


def has_signals_to_come(process):
    """Whether signals were sent to it that it hasn't taken."""
    with open("/proc/%d/status" % process) as file:
        return any(int(line.split()[1], 16) for line in file if line.startswith("ShdPnd:"))


def test_hangup_that_is_ignored(predict, folder):
    """As under nohup: it goes on, and tells its outcome."""
    words = [CONFIRM, "--tries", "1", "--seconds", "4", predict("opposite"), "--", "sleep", "60"]
    running = subprocess.Popen(
        words, stdout=subprocess.PIPE, preexec_fn=lambda: signal.signal(signal.SIGHUP, signal.SIG_IGN)
    )
    wait_for(lambda: "sleep" in map(name_of, processes_in(folder)), "the program to run")
    running.send_signal(signal.SIGHUP)
    out, _ = running.communicate(timeout=LIMIT)
    assert running.returncode == NOT_SEEN and out == b"not seen in 1 try, 2 runs ended after 4 seconds\n", out.decode()


@pytest.mark.parametrize("senders", [1, 2, 2, 2, 2, 3])
def test_a_signal_that_comes_again(predict, folder, senders):
    """And again, as quickly as can be: what was started is ended all the same. What goes wrong only now and then is tried more often."""
    words = [CONFIRM, predict("opposite"), "--", "sleep", "60"]
    with open("said", "wb") as said:
        running = subprocess.Popen(words, stderr=said)
    wait_for(lambda: "sleep" in map(name_of, processes_in(folder)), "the program to run")
    running.send_signal(signal.SIGSTOP)  # until the senders send
    sender = ["sh", "-c", "while kill -TERM $0; do :; done 2> /dev/null", str(running.pid)]
    sending = [subprocess.Popen(sender, cwd="/") for _ in range(senders)]
    wait_for(lambda: has_signals_to_come(running.pid), "the senders to send")
    running.send_signal(signal.SIGCONT)
    try:
        running.wait(LIMIT)
    finally:
        running.kill()
        running.wait()
        for each in sending:
            each.wait()
    with open("said", "rb") as said:
        heard = said.read()
    assert (running.returncode, heard) == (ERROR, b"goodlock-confirm: interrupted\n"), heard[-1000:]
    check_that_nothing_is_left(folder)


def test_script_that_does_not_say_who_runs_it(predict):
    """It is one for sh, as where a shell is asked for it."""
    with open("script", "w") as file:
        file.write('./cycles "$@"\n')
    os.chmod("script", 0o755)
    status, out, said = run([*PATIENTLY, predict("opposite"), "--", "./script", "opposite"])
    assert status == DEADLOCKED and "main.1:one_way" in out, out + said


def test_nothing_is_left(predict, folder):
    """After a deadlock, after tries in vain, and after a run that was ended."""
    deadlocks(predict, "opposite", 2)
    false_alarm(predict, "false_flag")
    run(["--tries", "1", "--seconds", "1", predict("opposite"), "--", "sleep", "60"])
    check_that_nothing_is_left(folder)
