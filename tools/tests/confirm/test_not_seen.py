"""False alarms, and runs that don't come to the cycle: it doesn't bring these about."""

import os
import re
import shutil
import subprocess
import sys
from types import SimpleNamespace

import pytest
from c_programs import TOOLS
from confirming import CONFIRM, NOBODY, NOT_SEEN, PATIENTLY, false_alarm, run
from known_traces import LIMIT

sys.path.insert(0, os.path.join(TOOLS, "record"))
import confirm  # noqa: E402
import convert  # noqa: E402


def test_mutex_that_another_thread_unlocks(predict):
    """Who locked it last holds it, whatever the others did."""
    name = "false_handed_over"
    status, out, said = run([*PATIENTLY, "--tries", "1", predict(name), "--", "./cycles", name])
    assert status == NOT_SEEN and out == "not seen in 1 try\n", "status %d: %s%s" % (status, out, said)


def test_wait_without_a_signal(predict):
    """The thread hangs in a wait that nobody ends: it doesn't wait for the lock."""
    status, out, said = run(
        ["--tries", "1", "--seconds", "6", predict("wakes"), "--", "env", "ORDER=never", "./cycles", "wakes"]
    )
    assert status == NOT_SEEN and out == "not seen in 1 try, 2 runs ended after 6 seconds\n", "%d: %s%s" % (
        status,
        out,
        said,
    )


def test_order_by_a_semaphore(predict):
    false_alarm(predict, "false_semaphore")


def test_order_by_a_flag(predict):
    false_alarm(predict, "false_flag")


def test_other_locks_at_the_same_places(predict):
    false_alarm(predict, "false_own_locks")


def test_other_lines_of_a_file_whose_name_has_parentheses():
    """As a function that stands behind a place has them."""
    assert not confirm.same_place("one (copy).c:42", "one (copy).c:51")
    assert confirm.same_place("one (copy).c:42 (one_way)<less<than.c:7 (main)", "src/one (copy).c:42")
    assert confirm.same_place("less<than.c:7<one (copy).c:42", "less<than.c:7")
    assert confirm.same_place("a (deleted)+0x1f (take<int>)", "a (deleted)+0x1f")


def test_program_that_never_ends(predict):
    """A run takes so long that the program is there by then, and recorded."""
    status, out, said = run(["--tries", "1", "--seconds", "6", predict("opposite"), "--", "sleep", "60"])
    assert status == NOT_SEEN and out == "not seen in 1 try, 2 runs ended after 6 seconds\n", out + said
    assert "no run came to cycles.c:" in said, said


BECAME = r"^goodlock-confirm: process \d+ \((.*)\) became a program that wasn't recorded: .*, or with a cleared"


@pytest.mark.parametrize("words", [["./cycles", "opposite"], ["sleep", "60"]], ids=["ends", "is killed"])
def test_program_that_becomes_one_that_isnt_recorded(predict, words):
    """That is said once, of both runs."""
    words = ["env", "-u", "LD_PRELOAD", *words]
    status, out, said = run(["--tries", "1", "--seconds", "6", predict("opposite"), "--", *words])
    assert status == NOT_SEEN and out.startswith("not seen in 1 try"), out + said
    assert re.findall(BECAME, said, re.MULTILINE) == [" ".join(words)], said


@pytest.mark.parametrize("killed, unrecorded, is_told", [({7}, set(), False), ({7}, {7}, True), ({8}, set(), True)])
def test_process_that_is_killed_while_it_becomes_another(killed, unrecorded, is_told):
    """Nobody knows yet that it isn't recorded: it would be, a moment later."""
    process = SimpleNamespace(key=(7, 0), end=convert.END_EXEC, command="sh -c true")
    recording = SimpleNamespace(unrecorded=lambda: (0, 0), extents=lambda: [(7, 0, 0, "7.0.0")])
    run = SimpleNamespace(recording=recording, killed=killed, unrecorded=unrecorded, hidden=[])
    told = list(confirm.Run.doubts(run, {process.key: process}))
    assert [kind for kind, _ in told] == ["unrecorded"] * is_told
    assert all(text.startswith("process 7 (sh -c true) became a program that wasn't recorded: ") for _, text in told)


OWNER = r"run \d: the program hung in a cycle, and it is unknown whether its mutexes are those threads': no right to look at process \d+ "
WOKEN = r"unknown whether threads that waited for conditions had woken: no right to look at process \d+ "


@pytest.mark.parametrize("name, tries, told", [("opposite", 5, OWNER), ("wakes", 1, WOKEN)], ids=["owners", "waits"])
def test_processes_that_it_may_not_look_at(predict, open_folder, name, tries, told):
    """Root needs a capability for those of others: without it nothing is said of them that isn't known. On a busy machine not each try
    comes to the cycle."""
    if not shutil.which("setpriv"):
        pytest.skip("setpriv isn't there")
    if subprocess.run(["test", "-x", CONFIRM], **NOBODY).returncode != 0:
        pytest.skip("not everybody may go to the recorder")
    words = ["setpriv", "--bounding-set=-sys_ptrace", CONFIRM, "--tries", str(tries), "--seconds", "10", predict(name)]
    words += ["--", "env", "ORDER=late", "setpriv", "--reuid=65534", "--clear-groups", "./cycles", name]
    done = subprocess.run(words, stdout=subprocess.PIPE, stderr=subprocess.PIPE, timeout=LIMIT)
    said = done.stderr.decode()
    assert done.returncode == NOT_SEEN and done.stdout.startswith(b"not seen in %d tr" % tries), done
    found = re.findall("^goodlock-confirm: " + told + r"\(CAP_SYS_PTRACE\)", said, re.MULTILINE)
    assert 1 <= len(found) <= tries, said
    assert "another thread had unlocked" not in said, said
