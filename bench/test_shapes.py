"""The shapes that are made after recorded servers, those with drawn sections, families of programs, and what describe.py
tells of traces.

    tests/by_pytest.py bench

PROGRAM is goodlock's (the carried one): its `stats` says whether a trace is lawful, and counts it once more.
"""

import functools
import itertools
import math
import os
import pathlib
import string
import subprocess
import sys

import pytest

BENCH = pathlib.Path(__file__).resolve().parent
sys.path.insert(0, str(BENCH))

import describe  # noqa: E402
import families  # noqa: E402
import knots  # noqa: E402
import make_trace  # noqa: E402

PROGRAM = os.environ.get("PROGRAM", BENCH.parent / "prebuilt" / "goodlock")
SERVER = BENCH / "traces" / "cache-server.std.xz"
SHAPES = sorted(make_trace.SERVERS)
DENSE = sorted(make_trace.DENSE)
DRAWN = sorted({**make_trace.NESTED, **make_trace.TURNS, **make_trace.WRITERS})
FAMILIES = sorted(families.FAMILIES)
SEARCH_LEAST = ("--len", "2", "--max", "1")
SAMPLES = sorted({*(BENCH.parent / "samples").glob("*.std")} - {BENCH.parent / "samples" / "bad_line.std"})  # refused
COUNTS = ("events", "threads", "locks", "segments", "edges")

# T0 holds a and b when it tries c, which it holds too when it wants d. T1 asks for the same again, for which there is no
# further edge, and then again in a new segment. The last two releases are stray, and T2 is no thread of the trace.
BY_HAND = """\
T0|acq(a)|p1
T0|acq(b)|p2
T0|tryacq(c)|p3
T0|w(x)|p99
T0|acq(d)|p4
T0|rel(d)|p5
T0|rel(c)|p5
T0|rel(b)|p5
T0|rel(a)|p5
T1|racq(b)|p6
T1|acq(a)|p7
T1|rel(a)|p5
T1|acq(a)|p8
T1|rel(a)|p5
T1|rrel(b)|p5
T1|fork(T3)|p9
T1|racq(b)|p6
T1|acq(a)|p7
T1|rel(a)|p5
T1|rrel(b)|p5
T2|rel(a)|p98
T0|rel(a)|p97
"""


# Families of which something takes all cycles of four edges away, and what leaves some.
CYCLES_TAKEN_AWAY = [
    # each module is under its one gate, and nothing links them
    ("modules --linkers 0", "modules --linkers 0 --gated 0"),
    # a cycle through modules leaves one and comes back, which one thread can't do
    ("modules", "modules --linkers 2"),
    ("subsystems --gated 1 --gates 1 --links 0", "subsystems --gated 1 --gates 2 --links 0"),
    # of four pairs of seven gates two have one in common; eight gates make four pairs
    ("gate-subsets", "gate-subsets --gates 8"),
    # each wave has one order
    ("pool --lasting 0", "pool --lasting 1"),
    # the ring of stages is longer than that
    ("pipeline --disorder 0", "pipeline --disorder 0 --stages 4"),
    ("grid --side 5", "grid --side 4"),
    # tables are only read, and there is one page
    ("database --pages 0 --checkpoints 0 --readers 1", "database --pages 0 --checkpoints 0"),
    # one path from the database to its row
    ("hierarchy --tables 1 --pages 1 --rows 1", "hierarchy --tables 1 --pages 1 --rows 2"),
    # one after the other
    ("pipeline --stages 2 --overlap 0", "pipeline --stages 2 --overlap 1"),
    ("turnstile --lanes 1", "turnstile --lanes 2"),
    # always one order
    ("cohorts --kinds 1", "cohorts --kinds 2"),
    ("handover --upward 0", "handover"),
    ("work-stealing --disorder 0", "work-stealing"),
    ("stripes --disorder 0", "stripes"),
    # the resizes alone are out of order, and keep all others out
    ("shards --disorder 0", "shards"),
    # all are under one gate
    ("recursive --gated 1 --gates 1", "recursive --gated 1 --gates 2"),
    ("gui --gated 1 --gates 1 --sections-of-gui 0", "gui --gated 1 --gates 1"),
    # what is tried isn't waited for
    ("back-off --tried 1", "back-off"),
    # each frame has one order, and is over before the next one
    ("frames --no-rendered", "frames"),
    # all take locks down the tree, and the dispatcher last
    ("actors --dispatched 0 --upward 0", "actors"),
    # a cycle takes two linkers, whose gate keeps them apart
    ("modules --linkers 3 --linked-under-gate", "modules --linkers 3"),
    # a round of four layers has four edges, under three gates; what is aside has cycles of its own
    ("gate-subsets --gates 3 --gates-of-section 1", "gate-subsets --gates 3 --gates-of-section 1 --aside 1"),
    # twice an offset and then the next one
    ("offsets --offsets 5", "offsets --offsets 5 --threads-of-offset 2"),
    # all that is out of order is under the table's lock, held alone
    ("rearranged --sections 60", "rearranged --sections 60 --disorder 0.02"),
    # of any two sections one holds a gate alone that the other one holds too
    ("kept-out", "kept-out --alone 0.9"),
    # none reads while a node is split, or nothing but reads
    ("splits --held-by-searches", "splits --sections 30"),
    ("splits --split 0", "splits --split 0.01"),
    # one statement at a time
    ("intents --slots 1 --definitions 0", "intents --slots 2 --definitions 0"),
    # each generation has one order, and is over before the next one
    ("generations --lasting 0", "generations --lasting 0 --overlap 1"),
    # a bucket, an item, a list, the slabs
    ("eviction --evicted 0", "eviction --threads 4"),
    # each frame has one order, and is over before the next one
    ("spatial --by-column 0", "spatial --by-column 0.1 --threads-of-frame 7"),
    # always one order; one after the other
    ("wavefront --no-alternating", "wavefront --rows 4"),
    ("wavefront --columns 1", "wavefront --columns 2"),
]


def output_of(script, *words):
    command = [sys.executable, BENCH / script, *words]
    return subprocess.run(command, capture_output=True, text=True, check=True).stdout


def made(shape, events, *options):
    return output_of("make_trace.py", "--shape", shape, "--events", str(events), *options)


@functools.lru_cache(maxsize=None)
def made_of_family(words):
    return output_of("families.py", *words.split())


@functools.lru_cache(maxsize=None)
def trace_of(shape, events=make_trace.RECORDED):
    return made(shape, events)


@functools.lru_cache(maxsize=None)
def figures_of(shape, events=make_trace.RECORDED):
    return figures_in(trace_of(shape, events))


def figures_in(text):
    return describe.Trace(text.splitlines()).figures()


@pytest.fixture(scope="module")
def recorded():
    return describe.described(str(SERVER))


def calls_of(text):
    """The thread of each line, the word and what it is called with."""
    for line in text.splitlines():
        thread, call, _ = line.split("|")
        word, _, name = call.rstrip(")").partition("(")
        yield thread, word, name


def stats_of(text, *words):
    """What stats counts, by name; status 1 tells of cycles, and a greater one that the trace was refused."""
    done = subprocess.run([PROGRAM, "stats", *words], input=text, capture_output=True, text=True)
    assert done.returncode in (0, 1), done.stderr
    return {name: int(count) for name, count in (line.split(": ") for line in done.stdout.splitlines())}


def is_near(figure, other):
    """Whether the figure is within a quarter of the other one."""
    return 0.75 * other <= figure <= 1.25 * other


def test_figures_by_hand():
    figures = figures_in(BY_HAND)
    assert [figures[name] for name in COUNTS] == [19, 3, 4, 4, 6]
    assert figures["edges of an event"] == pytest.approx(6 / 19)
    # a to b, a to d, b to d, c to d by T0; b to a twice by T1
    assert figures["wanted of one held"] == pytest.approx((5 / 3, 2, 2))
    assert figures["held of one wanted"] == pytest.approx((5 / 3, 3, 3))
    # T0's a to b is followed by T1's two; each of those by T0's two that hold a
    assert figures["followers of an edge"] == pytest.approx((1, 2, 2))
    assert figures["guards of an edge"] == pytest.approx((12 / 6, 3, 3))
    # d for 1 event, c for 3, b for 5, a for 7; b for 5, a inside for 1 twice; b for 3, a inside for 1
    assert figures["held for, its thread's events"] == pytest.approx((27 / 9, 7, 7))
    assert figures["tries of an acquire"] == pytest.approx(1 / 9)
    assert figures["classes"] == 5


def test_held_for_counts_what_others_do():
    figures = figures_in("T0|acq(a)|1\nT1|acq(b)|1\nT1|rel(b)|1\nT0|rel(a)|1\n")
    assert figures["held for, its thread's events"] == (1, 1, 1)
    assert figures["held for, all events"] == (2, 3, 3)


def test_a_lock_that_is_taken_again_is_held_until_it_is_free():
    figures = figures_in("T0|acq(a)|1\nT0|acq(b)|1\nT0|acq(a)|1\nT0|rel(a)|1\nT0|acq(c)|1\nT0|rel(a)|1\n")
    assert figures["edges"] == 3
    assert figures["held for, all events"] == (5, 5, 5)


def test_an_empty_trace_has_no_edges():
    figures = figures_in("")
    assert figures["edges of an event"] == 0 and figures["guards of an edge"] == (0, 0, 0)


@pytest.mark.parametrize("path", SAMPLES, ids=lambda path: path.name)
def test_counts_of_samples_are_those_of_stats(path):
    counted = stats_of(path.read_text(encoding="latin-1"))
    figures = describe.described(str(path))
    assert [figures[name] for name in COUNTS] == [counted[name] for name in COUNTS]


@pytest.mark.parametrize("shape", SHAPES)
def test_shape_is_lawful(shape):
    counted = stats_of(trace_of(shape))
    assert counted["skipped"] == counted["stray"] == 0
    assert is_near(counted["events"], make_trace.RECORDED)
    assert [figures_of(shape)[name] for name in COUNTS] == [counted[name] for name in COUNTS]


@pytest.mark.parametrize("shape", DRAWN)
def test_drawn_shape_is_lawful(shape):
    counted = stats_of(trace_of(shape), *SEARCH_LEAST)
    assert counted["skipped"] == counted["stray"] == 0
    assert [figures_of(shape)[name] for name in COUNTS] == [counted[name] for name in COUNTS]


@pytest.mark.parametrize("shape", SHAPES + DENSE + DRAWN)
def test_each_lock_has_one_holder(shape):
    holders = {}
    for thread, word, lock in calls_of(trace_of(shape)):
        if word in ("acq", "tryacq"):
            assert lock not in holders, (thread, lock)
            holders[lock] = thread
        elif word == "rel":
            assert holders.pop(lock) == thread, (thread, lock)
    assert holders == {}


@pytest.mark.parametrize("shape", DENSE)
def test_dense_shape_is_dense(shape):
    """Of nearly each two locks one is taken inside the other, or in both orders."""
    text = made(shape, 0)
    counted = stats_of(text)
    assert counted["skipped"] == counted["stray"] == 0
    held, nested = {}, set()
    for thread, word, lock in calls_of(text):
        locks = held.setdefault(thread, [])
        if word == "rel":
            assert locks.pop() == lock, thread
            continue
        nested |= {frozenset((outer, lock)) for outer in locks if outer.startswith("lock")}
        locks.append(lock)
    number = make_trace.DENSE[shape]["locks"]
    assert 0.9 * number * (number - 1) / 2 < len(nested) <= number * (number - 1) / 2


def test_hardly_any_acquire_of_nested_locks_has_the_guards_of_another():
    """An edge has those of the acquire that makes it."""
    held, guards = {}, []
    for thread, word, lock in calls_of(trace_of("nested-locks")):
        locks = held.setdefault(thread, [])
        if word == "rel":
            locks.pop()
            continue
        guards += [frozenset(locks)] if len(locks) > 1 else []
        locks.append(lock)
    assert len(set(guards)) > 0.95 * len(guards)
    settings = make_trace.NESTED["nested-locks"]
    assert figures_of("nested-locks")["edges"] == settings["sections"] * settings["depth"] * (settings["depth"] - 1) / 2


def test_each_gated_section_is_under_one_of_the_gate_locks():
    held, gates = {}, set()
    for thread, word, lock in calls_of(made("nested-locks", 0, "--gated", "--gates", "2")):
        locks = held.setdefault(thread, [])
        if word == "rel":
            locks.pop()
            continue
        assert lock.startswith("gate") == (locks == [])
        locks.append(lock)
        gates |= {locks[0]}
    assert gates == {"gate0", "gate1"}


@pytest.mark.parametrize("number", [1, 2, 3])
def test_so_many_threads_of_windows_are_there_at_once(number):
    there, most = set(), 0
    for thread, word, name in calls_of(made("windows", 0, "--at-once", str(number))):
        if word == "fork":
            there.add(name)
        elif word == "join":
            there.remove(name)
        else:
            assert thread in there
        most = max(most, len(there))
    assert there == set() and most == number


def test_each_wave_of_phases_has_one_order():
    orders, there, outer = [], set(), []
    for thread, word, name in calls_of(trace_of("phases")):
        if word == "fork":
            orders += [] if there else [set()]
            there.add(name)
        elif word == "join":
            there.remove(name)
        elif word == "rel":
            outer.pop()
        else:
            assert thread in there
            orders[-1] |= {lock < name for lock in outer}
            outer.append(name)
    assert orders == [{True}, {False}, {True}, {False}, {True}]


def test_between_two_barriers_there_is_one_order_and_at_each_all_meet():
    orders, outer, made_here, waited = [set()], {}, set(), {}
    for thread, word, name in calls_of(trace_of("barriers")):
        if word == "acq":
            held = outer.setdefault(thread, [])
            orders[-1] |= {lock < name for lock in held}
            held.append(name)
        elif word == "rel":
            outer[thread].pop()
        elif word == "fork":
            made_here |= {name}
        else:
            waited.setdefault(thread, set()).add(name)
        if len(waited) == 6 and all(names == made_here for names in waited.values()):
            orders, made_here, waited = [*orders, set()], set(), {}
    assert orders == [{True}, {False}] * 10 + [set()]


def test_readers_take_locks_in_order_and_writers_keep_all_out():
    readers, orders, modes = 0, {"acq": set(), "racq": set()}, set()
    for _, word, name in calls_of(trace_of("writers")):
        if name == "table":
            mode, held = word, []
            modes |= {word}
            readers += word == "racq"
        elif word == "acq":
            orders[mode] |= {lock < name for lock in held}
            held.append(name)
    assert orders == {"racq": {True}, "acq": {True, False}} and modes == {"acq", "rel", "racq", "rrel"}
    assert 0.65 * 3_000 < readers < 0.75 * 3_000


@pytest.mark.parametrize(
    "options",
    [
        ("windows", "--at-once", "1"),
        ("phases", "--threads", "100", "--sections", "400"),
        ("barriers", "--threads", "126", "--sections", "240"),
        ("writers", "--sections", "1000"),
    ],
)
def test_threads_of_which_none_are_there_at_once_or_at_odds_have_no_cycle(options):
    shape, *words = options
    assert stats_of(made(shape, 0, *words), "--len", "2")["cycles"] == 0


@pytest.mark.parametrize("shape", SHAPES + DENSE + DRAWN)
def test_same_seed_same_trace(shape):
    assert (
        made(shape, 20_000, "--seed", "5") == made(shape, 20_000, "--seed", "5") != made(shape, 20_000, "--seed", "6")
    )


@pytest.mark.parametrize("shape", SHAPES)
def test_edges_and_guards_are_those_of_the_recorded_server(recorded, shape):
    figures = figures_of(shape)
    assert is_near(figures["edges of an event"], recorded["edges of an event"])
    assert is_near(figures["guards of an edge"][0], recorded["guards of an edge"][0])


@pytest.mark.parametrize("name", ["wanted of one held", "held of one wanted", "followers of an edge"])
def test_item_locks_have_the_degrees_of_the_recorded_server(recorded, name):
    mean, nine_in_ten, most = figures_of("item-locks")[name]
    assert is_near(mean, recorded[name][0])
    assert is_near(nine_in_ten, recorded[name][1])
    assert is_near(most, recorded[name][2])


@pytest.mark.parametrize("shape", SHAPES)
def test_edges_grow_with_events(shape):
    figures, doubled = figures_of(shape), figures_of(shape, 2 * make_trace.RECORDED)
    assert is_near(doubled["events"], 2 * figures["events"])
    assert is_near(doubled["edges"], 2 * figures["edges"])


def test_what_the_names_say():
    items, sections, connections, table = (
        figures_of(shape) for shape in ("item-locks", "long-sections", "connections", "lock-table")
    )
    assert items["tries of an acquire"] == connections["tries of an acquire"] == 0
    assert items["held for, its thread's events"][2] < 1_000
    assert sections["held for, its thread's events"][2] > 3_000
    assert connections["threads"] == 1_000
    assert connections["held for, all events"][2] > 10_000
    assert table["tries of an acquire"] > 0.4


def test_tries_are_asked_for_by_their_share():
    tried = figures_in(made("item-locks", 20_000, "--tried", "1"))
    assert tried["tries of an acquire"] > 0 == figures_of("item-locks")["tries of an acquire"]


@pytest.mark.parametrize("shape", SHAPES)
def test_few_locks_and_threads_are_enough(shape):
    assert stats_of(made(shape, 2_000, "--locks", "1", "--threads", "3"))["stray"] == 0


@pytest.mark.parametrize("family", FAMILIES)
def test_family_is_lawful(family):
    text = made_of_family(family)
    counted = stats_of(text, *SEARCH_LEAST)
    assert counted["skipped"] == counted["stray"] == 0
    figures = figures_in(text)
    assert [figures[name] for name in COUNTS] == [counted[name] for name in COUNTS]


@pytest.mark.parametrize("family", FAMILIES)
def test_each_lock_of_a_family_has_one_holder_or_readers(family):
    holders = {}  # by lock, each as often as it holds it
    for thread, word, lock in calls_of(made_of_family(family)):
        if word in ("rel", "rrel"):
            holders[lock].remove((thread, word == "rrel"))
        elif word not in ("fork", "join"):
            is_shared, those = "racq" in word, holders.setdefault(lock, [])
            assert all(holder == thread or is_shared and is_other_shared for holder, is_other_shared in those)
            those.append((thread, is_shared))
    assert not any(holders.values())


@pytest.mark.parametrize("family", FAMILIES)
def test_same_seed_same_trace_of_a_family(family):
    text = made_of_family(f"{family} --seed 5")
    assert text == output_of("families.py", family, "--seed", "5") != made_of_family(f"{family} --seed 6")


@pytest.mark.parametrize("family", FAMILIES)
def test_each_acquire_has_a_place_of_its_own_where_it_is_asked_for(family):
    by_code, own = made_of_family(family), made_of_family(f"{family} --place own")
    assert [*calls_of(own)] == [*calls_of(by_code)]
    of_code, of_own = (
        [line.rpartition("|")[2] for line in text.splitlines() if "acq(" in line] for text in (by_code, own)
    )
    assert len({*of_own}) == len(of_own) > 10 * len({*of_code})


@pytest.mark.parametrize("without, with_some", CYCLES_TAKEN_AWAY)
def test_families_whose_cycles_are_taken_away(without, with_some):
    assert stats_of(made_of_family(without))["cycles"] == 0 < stats_of(made_of_family(with_some))["cycles"]


def test_cycles_of_a_grid_go_round():
    """Round each of four rows and four columns, with any four of the five threads, each of which makes all edges."""
    counted = stats_of(made_of_family("grid --side 4 --threads 5 --sections 1000"))
    assert counted["edges"] == 5 * 2 * 4 * 4
    assert counted["cycles"] == (4 + 4) * math.perm(5, 4)


@pytest.mark.parametrize(
    "words",
    [
        "handover",
        "handover --no-gated",
        "recursive --gated 1",
        "splits --threads 4 --sections 30",
        # one slot, and the catalogue
        "intents --slots 1 --threads 8",
    ],
)
def test_cycles_in_a_tree_or_under_two_gates_have_two_edges(words):
    two, four = (stats_of(made_of_family(words), "--len", most, "--max", "100000")["cycles"] for most in "24")
    assert 0 < two == four < 100_000


@pytest.mark.parametrize(
    "words, most",
    [
        # statements in two slots and a definition
        ("intents --slots 2 --threads 8 --sections 4 --definitions 2", 3),
        # a bucket, an item, a list, the slabs, and an eviction from there to the bucket
        ("eviction --lists 2 --threads 4 --sections 40 --items 8", 4),
        # who has an item and wants a list has the bucket of who has that list
        ("eviction --threads 4 --sections 40 --items 8", 3),
    ],
)
def test_longest_cycles_of_a_family_have_so_many_edges(words, most):
    counted = [
        stats_of(made_of_family(words), "--len", str(length), "--max", "100000")["cycles"]
        for length in (most - 1, most, most + 2)
    ]
    assert counted[0] < counted[1] == counted[2] < 100_000


def edges_of(text):
    """The thread of each edge, the lock that is held and the one that is wanted, and the word of each lock that the thread
    holds then, and of this one, in their order."""
    held = {}
    for thread, word, lock in calls_of(text):
        words = held.setdefault(thread, {})
        if word in ("rel", "rrel"):
            del words[lock]
        elif word not in ("fork", "join"):
            assert lock not in words
            outer, words[lock] = [*words], word
            if "try" not in word:
                yield from ((thread, other, lock, {**words}) for other in outer)


def number_of(lock):
    return int(lock.lstrip(string.ascii_letters))


def test_stripes_are_rearranged_under_the_table_alone_and_read_by_number():
    seen = set()
    for _, outer, lock, words in edges_of(made_of_family("rearranged")):
        assert next(iter(words)) == "table"
        if outer != "table":
            seen.add((words["table"], number_of(outer) < number_of(lock)))
    assert seen == {("racq", True), ("acq", True), ("acq", False)}
    assert {thread for thread, *_, words in edges_of(made_of_family("rearranged")) if words["table"] == "acq"} == {
        f"thread{number}" for number in range(7)
    }


def test_no_two_sections_of_kept_out_go_together():
    gates, guards, is_upward = [f"gate{kind}" for kind in range(5)], {}, {}
    for thread, outer, lock, words in edges_of(made_of_family("kept-out")):
        assert [*words][:5] == gates[: len(words)]
        if outer not in gates:
            kind = thread.partition(".")[0]
            guards.setdefault(kind, set()).add(tuple(words[gate] for gate in gates))
            is_upward.setdefault(kind, []).append(number_of(outer) < number_of(lock))
    assert {*guards} == {f"kind{kind}" for kind in range(5)} and all(len(those) == 1 for those in guards.values())
    those = {*itertools.chain(*guards.values())}
    assert len(those) == 5 and all(one.count("acq") == 1 for one in those)
    for one, other in itertools.product(those, repeat=2):
        assert any("acq" in pair for pair in zip(one, other))
    share = [sum(is_upward[f"kind{kind}"]) / len(is_upward[f"kind{kind}"]) for kind in range(5)]
    assert min(share[0::2]) > 0.9 and max(share[1::2]) < 0.1


@pytest.mark.parametrize("options, of_searches", [("", None), ("--disorder 1", None), ("--held-by-searches", "racq")])
def test_what_isnt_shared_is_under_one_lock_in_splits(options, of_searches):
    seen, ways = set(), set()
    for _, outer, lock, words in edges_of(made_of_family(f"splits {options}".strip())):
        assert lock != "splitting"
        if outer != "splitting":
            seen.add((words[outer], words[lock], words.get("splitting")))
            ways.add((words[lock], number_of(outer) < number_of(lock)))
    assert seen == {("racq", "racq", of_searches), ("acq", "acq", "acq")}
    both = {("racq", False), ("acq", True)}
    assert ways == {("racq", True), ("acq", False), *(both if "--disorder" in options else ())}


def test_each_statement_is_in_a_slot_and_only_definitions_hold_tables_alone():
    slots, seen = set(), set()
    for _, _, lock, words in edges_of(made_of_family("intents")):
        first, gate = [*words][:2]
        assert (first, words[first], words[gate]) == ("database", "racq", "acq")
        slots.add(gate)
        kind = "".join(letter for letter in lock if letter not in string.digits)
        assert all(name in words for name in (lock.rpartition(".row")[0], lock.rpartition(".page")[0]) if name)
        if lock != gate:
            seen.add((gate.rstrip(string.digits), kind, words[lock]))
    both = {("slot", kind, word) for kind in ("table.page", "table.page.row") for word in ("racq", "acq")}
    assert slots == {"slot0", "slot1", "slot2", "catalogue"}
    assert seen == {("slot", "table", "racq"), ("catalogue", "table", "acq"), *both}


@pytest.mark.parametrize("overlap", [0, 2])
def test_each_generation_goes_the_other_way_round(overlap):
    text, there, most = made_of_family(f"generations --overlap {overlap}"), set(), 0
    for thread, word, name in calls_of(text):
        if word == "fork":
            there.add(name)
        elif word == "join":
            there.remove(name)
        else:
            assert thread in there or thread.startswith("lasting")
        most = max(most, len({name.partition(".")[0] for name in there}))
    assert most == overlap + 1
    orders = {}
    for thread, outer, lock, _ in edges_of(text):
        orders.setdefault(thread.partition(".")[0], set()).add(number_of(outer) < number_of(lock))
    own = {f"pool{generation}": {generation % 2 == 0} for generation in range(12)}
    assert orders == {**own, **{f"lasting{number}": {True} for number in range(4)}}


@pytest.mark.parametrize("tried", ["0", "0.5"])
def test_a_cache_has_one_order_but_for_evictions_under_the_slabs(tried):
    ranks, seen, tries = ["bucket", "item", "list", "slabs"], set(), 0
    text = made_of_family(f"eviction --tried {tried}")
    for _, outer, lock, words in edges_of(text):
        before, after = (ranks.index(name.rstrip(string.digits)) for name in (outer, lock))
        is_eviction = next(iter(words)) == "slabs"
        assert (before < after) != is_eviction
        seen.add((is_eviction, before, after))
    assert {pair[1:] for pair in seen if not pair[0]} == {*itertools.combinations(range(4), 2)}
    assert {pair[1:] for pair in seen if pair[0]} == {(3, 2), (3, 1), (3, 0), (2, 1), (2, 0), (1, 0), (0, 0)}
    for _, word, lock in calls_of(text):
        tries += word == "tryacq"
        assert word != "tryacq" or lock.startswith(("item", "bucket"))
    assert (tries > 0) == (tried != "0")


@pytest.mark.parametrize("by_column", [0, 1])
def test_a_task_locks_a_block_of_cells_and_each_frame_goes_the_other_way_round(by_column):
    text, there, frames = made_of_family(f"spatial --by-column {by_column}"), set(), []
    for thread, word, name in calls_of(text):
        if word == "fork":
            frames += [] if there else [{name.partition(".")[0]}]
            there.add(name)
        elif word == "join":
            there.remove(name)
        else:
            assert thread in there and {thread.partition(".")[0]} == frames[-1]
            assert (name == "world") <= (word in ("racq", "rrel"))
    assert frames == [{f"task{frame}"} for frame in range(3)]
    orders, steps = {}, {0, 1, 2, 9, 10, 11, -1, -2, -9, -10, -11}
    for thread, outer, lock, words in edges_of(text):
        if outer != "world":
            places = [[int(part) for part in name[4:].split(".")] for name in (outer, lock)]
            assert {one - other for one, other in zip(*places)} <= steps
            before, after = (place[::-1] if by_column else place for place in places)
            orders.setdefault(thread.partition(".")[0], set()).add(before < after)
            assert len([name for name in words if name != "world"]) <= 9
    assert orders == {"task0": {True}, "task1": {False}, "task2": {True}}


def test_a_cell_begins_when_those_above_and_to_the_left_are_over():
    before, begun, ended, orders = {}, set(), set(), {}
    text = made_of_family("wavefront --rows 4 --columns 5")
    for thread, word, name in calls_of(text):
        if word == "join" and thread != "main":
            assert thread not in begun
            before.setdefault(thread, set()).update({name}, before.get(name, ()))
            ended.add(name)
        elif word == "acq":
            assert thread not in ended
            begun.add(thread)
    cells = {f"cell{row}.{column}": (row, column) for row in range(4) for column in range(5)}
    assert begun == {*cells}
    for cell, (row, column) in cells.items():
        those = {name for name, (above, left) in cells.items() if above <= row and left <= column and name != cell}
        assert before.get(cell, set()) == those
    for thread, outer, lock, _ in edges_of(text):
        orders.setdefault(cells[thread][0], set()).add(number_of(outer) < number_of(lock))
    assert orders == {0: {True}, 1: {False}, 2: {True}, 3: {False}}


def test_tries_make_no_edges():
    assert stats_of(made_of_family("back-off --tried 1"))["edges"] == 0


def test_a_family_that_cant_be_is_refused():
    command = [sys.executable, BENCH / "families.py", "database", "--tables", "2"]
    done = subprocess.run(command, capture_output=True, text=True)
    assert done.returncode == 2 and done.stdout == "" and "there is no such trace" in done.stderr


def test_families_are_shapes_of_knots():
    assert {*FAMILIES} <= {*knots.SHAPES} and {*FAMILIES}.isdisjoint(make_trace.SETTINGS)
    for family in FAMILIES:
        for row in knots.SHAPES[family]["small"] + knots.SHAPES[family]["large"]:
            families.parser_of_options().parse_args([family, *row.partition(" ask ")[0].split()])


def test_a_mark_stands_before_each_name():
    text = "T0|fork(T1)|a.c:1\nT0|acq(l m)|f(x)|y\n"
    assert knots.marked(text, "1.") == "1.T0|fork(1.T1)|1.a.c:1\n1.T0|acq(1.l m)|1.f(x)|y\n"


def test_traces_together_have_what_each_has():
    settings = "pool --waves 2 --lasting 0 + windows --threads 20 --sections 30"
    one, other = (knots.text_of(*part.split(" ", 1)) for part in settings.split(" + "))
    counted = [stats_of(text, "--max", "100000") for text in (one, other, knots.text_of(knots.TOGETHER, settings))]
    assert all(counted[2][count] == counted[0][count] + counted[1][count] for count in (*COUNTS, "cycles"))
    assert min(counted[0]["edges"], counted[1]["edges"]) > 0


def test_names_that_are_no_utf8():
    """A trace of such names is made for knots.py as make_trace.py prints it."""
    maker = [sys.executable, BENCH / "make_trace.py", "--shape", "colliding-names", "--locks", "10"]
    made = subprocess.run(maker, stdout=subprocess.PIPE, check=True).stdout
    with pytest.raises(UnicodeDecodeError):
        made.decode()
    assert knots.text_of("colliding-names", "--locks 10").encode("latin-1") == made
