"""Predicted cycles that it brings about."""

import os
import re
import shutil
import subprocess
import textwrap

import confirming
import pytest
from c_programs import C_FLAGS, MARKS, SOURCES, TOOLS, build
from confirming import CONFIRM, DEADLOCKED, NOBODY, PATIENTLY, VIEW, check_that_nothing_is_left, deadlocks, run


def test_finding_of_the_documentation(predict):
    """The page has what the viewer prints of it, with its lines and its id."""
    shown = subprocess.run([VIEW, "--text", predict("opposite")], stdout=subprocess.PIPE).stdout.decode()
    with open(os.path.join(os.path.dirname(TOOLS), "docs", "CONFIRMING.md")) as page:
        assert "\n\n%s\n" % textwrap.indent(shown, "    ") in page.read(), shown


def test_opposite_orders(predict):
    steps, out = deadlocks(predict, "opposite", 2)
    marks = {mark: place for (source, mark), place in MARKS.items() if source == "cycles.c"}
    assert sorted(steps) == [
        ("main.1:one_way", "a", marks["one_a"], "b", marks["one_b"]),
        ("main.2:other_way", "b", marks["other_b"], "a", marks["other_a"]),
    ], out
    assert "    since one_way (%s)" % marks["one_a"] in out and "    at    one_way (%s)" % marks["one_b"] in out, out


def test_threads_that_come_after_many_others(predict):
    """More of these have ended before than goodlock-confirm looks at at once. The finding is one of a run without them."""
    status, out, said = run([*PATIENTLY, predict("opposite"), "--", "./cycles", "after_others"])
    assert status == DEADLOCKED, "status %d: %s%s" % (status, out, said)
    assert "main.2101:one_way holds a since" in out and "main.2102:other_way holds b since" in out, out


@pytest.mark.parametrize("name", ["after_fork", "after_fork_without_variables"])
def test_threads_of_a_forked_process(predict, name):
    """Its parent came to the same places before, and may have none of its variables left."""
    status, out, said = run([*PATIENTLY, predict("opposite"), "--", "./cycles", name])
    assert status == DEADLOCKED, "status %d: %s%s" % (status, out, said)
    assert "main.1:one_way holds a since" in out and "main.2:other_way holds b since" in out, out


@pytest.mark.parametrize("source", ["é.c", "back\\slash.c", "one (copy).c", "less<than.c"])
def test_a_source_file_may_have_any_name(folder, source):
    """A report spells it in ASCII, and writes functions and callers behind it."""
    shutil.copy(os.path.join(SOURCES, "cycles.c"), source)
    os.mkdir("named")
    build("gcc", C_FLAGS + ["-I" + SOURCES, "-o", "named/cycles", source])
    report = confirming.predict("opposite", folder / "named")
    status, out, said = run([*PATIENTLY, report, "--", "named/cycles", "opposite"])
    assert status == DEADLOCKED and "    since one_way (%s:42)" % source in out, "status %d: %s%s" % (status, out, said)


def test_stacks_have_the_whole_names_of_functions(folder):
    """Those that are called by operator() end in parentheses, and may have more of them before."""
    os.mkdir("objects")
    build("g++", C_FLAGS + ["-std=c++17", "-O0", "-o", "objects/cycles", os.path.join(SOURCES, "objects.cc")])
    status, out, said = run([*PATIENTLY, confirming.predict("", folder / "objects"), "--", "objects/cycles"])
    assert status == DEADLOCKED, "status %d: %s%s" % (status, out, said)
    for name, mark in (("one_way(void*)::{lambda(int)#1}", "in_a_lambda"), ("Called", "in_an_object")):
        place = MARKS["objects.cc", mark]
        assert out.count("          %s::operator() (%s)\n" % (name, place)) == 2, out


def may_look_into_others():
    """Whether root may here what it needs CAP_SYS_PTRACE for: to read the memory of another user's process."""
    other = subprocess.Popen(["sleep", "60"], **NOBODY)
    try:
        with open("/proc/%d/mem" % other.pid, "rb"):
            return True
    except PermissionError:
        return False
    finally:
        other.kill()
        other.wait()


@pytest.mark.parametrize("way", ["exec", "fork"])
def test_program_that_gives_up_root(predict, open_folder, way):
    """And goes on as another program, by itself or in a child, for which nothing was made while it was root."""
    if not shutil.which("setpriv"):
        pytest.skip("setpriv isn't there")
    if subprocess.run(["test", "-x", CONFIRM], **NOBODY).returncode != 0:
        pytest.skip("not everybody may go to the recorder")
    if not may_look_into_others():
        pytest.skip("root may not look into others' processes here")
    words = ["setpriv", "--reuid=65534", "--clear-groups"]
    words += ["./cycles", "opposite"] if way == "exec" else ["sh", "-c", "./cycles opposite; true"]
    status, out, said = run([*PATIENTLY, predict("opposite"), "--", *words])
    assert status == DEADLOCKED and "main.1:one_way holds a since" in out, "status %d: %s%s" % (status, out, said)
    check_that_nothing_is_left(open_folder)


def test_ring_of_three(predict):
    deadlocks(predict, "philosophers", 3)


def test_readers_and_a_writer(predict):
    deadlocks(predict, "readers", 2)


def test_condition(predict):
    deadlocks(predict, "conditions", 2)


def test_wait_for_a_condition(predict):
    """The lock is asked for within the wait, when the signal has come."""
    status, out, said = run(
        [*PATIENTLY, "--finding", "1", predict("wakes"), "--", "env", "ORDER=late", "./cycles", "wakes"]
    )
    assert status == DEADLOCKED, "status %d: %s%s" % (status, out, said)
    assert re.search(r"main.1:sleeps holds a since \S+ and waits for b at cycles.c:\d+", out), out


def test_pool_of_threads(predict):
    deadlocks(predict, "pool", 2)
