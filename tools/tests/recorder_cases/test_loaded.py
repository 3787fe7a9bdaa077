"""Which module an address lay in and when, of programs that load and unload libraries as often as they like."""

import os
import random
import sys

import pytest
from known_traces import TOOLS

sys.path.insert(0, os.path.join(TOOLS, "record"))
from loaded import Modules  # noqa: E402

PAGE = 4096


class Counted(int):
    """A number that counts how often it is compared with another one."""

    compared = 0

    def __lt__(self, other):
        Counted.compared += 1
        return int(self) < int(other)

    def __le__(self, other):
        Counted.compared += 1
        return int(self) <= int(other)

    def __gt__(self, other):
        Counted.compared += 1
        return int(self) > int(other)

    def __ge__(self, other):
        Counted.compared += 1
        return int(self) >= int(other)

    def __eq__(self, other):
        Counted.compared += 1
        return int(self) == int(other)

    __hash__ = int.__hash__


def test_each_library_in_its_place_and_time():
    """Three in one place, one after the other, and the last one stays; a place beside them that none ever had."""
    modules = Modules()
    start, end = 10 * PAGE, 12 * PAGE
    for name in ("first", "second", "third"):
        modules.load([start, start, end], name)  # counts 1, 3, 5
        if name != "third":
            modules.unload(start)  # counts 2, 4
    found = [modules.at(start + 8, when) for when in range(7)]
    # What was met when nothing had been told is the first one's, which is told of afterwards; what was met while nothing was there
    # is the next one's.
    assert [loaded.module for loaded in found] == ["first", "first", "second", "second", "third", "third", "third"]
    assert modules.at(end - 1, 1).module == "first"
    assert modules.at(end, 1) is None and modules.at(start - 1, 1) is None and modules.at(0, 6) is None


def by_definition(loaded, address, when):
    there = [m for m in loaded if m.start <= address < m.end and m.since < when <= m.until]
    later = [m for m in loaded if m.start <= address < m.end and m.since >= when]
    return there[-1] if there else later[0] if later else None


@pytest.mark.parametrize("seed", range(20))
def test_any_loads_and_unloads(seed):
    """Also such as no program has: modules that lie over each other, and unloads of what isn't there."""
    choose = random.Random(seed)
    modules = Modules()
    for number in range(60):
        start = choose.randrange(1, 40)
        if choose.random() < 0.6:
            modules.load([0, start, start + choose.randrange(1, 12)], number)
        else:
            modules.unload(start)
    for address in range(60):
        for when in range(61):
            assert modules.at(address, when) is by_definition(modules.loaded, address, when), (address, when)


def in_one_place(number):
    return 0


def each_in_its_own(number):
    return 4 * number


def each_a_page_further(number):
    return number


@pytest.mark.parametrize("place", [in_one_place, each_in_its_own, each_a_page_further])
def test_each_load_costs_about_the_same(place):
    """Twice as many loads, and as many more addresses to be looked up, take about twice as many comparisons of numbers. Were each
    address, or each load, looked for among all loads, they would take four times as many."""
    costs = []
    for count in (500, 1000):
        modules = Modules()
        Counted.compared = 0
        asked = []
        for number in range(count):
            start = Counted(PAGE * (100 + place(number)))
            modules.load([start, start, Counted(start + 4 * PAGE)], "plugin")
            asked.append((Counted(start + 5), Counted(modules.when), number))
            modules.unload(start)
        for address, when, number in asked:
            assert modules.at(address, when) is modules.loaded[number]
        costs.append(Counted.compared)
    assert costs[1] < 3 * costs[0], costs
