"""Libraries that come and go: whose files have the same name, in folders of their own, and that are loaded again and again."""

import os
import re
import shutil

from c_programs import C_FLAGS, SOURCES, Run, build
from known_traces import compare


def build_plugin(output, name, line, *flags):
    flags = ["-shared", "-fPIC", "-DNAME=" + name, "-DLINE=%d" % line, *flags]
    build("gcc", [*C_FLAGS, *flags, "-o", output, os.path.join(SOURCES, "plugin.c")])


def events_of_twins(*flags):
    """What is recorded of a program with two libraries of one name, as (lock, place) of each event."""
    build_plugin("twin.so", "twin", 100, *flags)
    for folder in ("one", "two"):
        os.mkdir(folder)
        shutil.copy("twin.so", folder)
    run = Run(["./twins", "./two/twin.so", "./one/twin.so"])
    assert run.status == 0, run.said
    found = [re.fullmatch(r"main\|(?:acq|rel)\((.*)\)\|(.*)", line) for line in run.lines()]
    return [match.groups() for match in found if match]


def test_places_without_lines():
    """Each has as many folders as tell it from the other one, and what they have in common is left out."""
    events = events_of_twins("-g0", "-s")
    assert len(events) == 4, events
    for (lock, place), folder in zip(events, ("two", "two", "one", "one")):
        module = folder + r"/twin\.so\+0x[0-9a-f]+"
        assert re.fullmatch(module, place), events
        assert re.fullmatch("lock_of_twin@" + module, lock), events


def test_locks_of_one_symbol():
    """None of them was made anew, so no name has a number."""
    events = events_of_twins()
    locks = [lock for lock, _ in events]
    assert locks[0] == locks[1] and locks[2] == locks[3], locks
    assert re.fullmatch(r"lock_of_twin@two/twin\.so\+0x[0-9a-f]+", locks[0]), locks
    assert locks[2] == locks[0].replace("@two/", "@one/"), locks
    assert {place for _, place in events} == {"plugin.c:100"}, events


def test_more_loads_than_there_are_places_for_libraries():
    """There are places for 2,048 at once, and one that was unloaded has none."""
    times = 1100
    build_plugin("one.so", "one", 100)
    build_plugin("two.so", "two", 200)
    run = Run(["./reloads", str(times), "./one.so", "./two.so"])
    assert run.status == 0, run.said
    known = [
        "main|%s(lock_of_%s%s)|plugin.c:%d" % (word, name, "#%d" % i if i > 1 else "", line)
        for i in range(1, times + 1)
        for name, line in (("one", 100), ("two", 200))
        for word in ("acq", "rel")
    ]
    compare(run.lines(), known)
