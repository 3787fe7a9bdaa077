#!/usr/bin/env python3
"""Makes a lock trace that is like some program's on standard output; the same options and seed give the same bytes.

    families.py FAMILY [OPTION..] [--seed N] > trace.std

A family is a kind of program, with what may keep a search for cycles busy. In the text each thread runs a piece of code
at a time, and mostly all of its own one after the other; only forks and joins order them. A place is one of the code;
with `--place own` each acquire has one of its own, so that hardly any two cycles are one finding. `FAMILY --help` tells
what its options are unless given.
"""

import argparse
import inspect
import itertools
import random
import signal
import sys

from make_trace import nested

PIECES = 10  # of code, that a thread of a kind runs over and over


def drawn(draw, name, number, depth):
    """So many of the locks with this name, in any order."""
    return [f"{name}{chosen}" for chosen in draw.sample(range(number), depth)]


def shuffled(draw, number):
    """Locks in an order of their own."""
    order = [f"lock{place}" for place in range(number)]
    draw.shuffle(order)
    return order


def in_order(draw, order, depth):
    """So many of these locks, as they stand there."""
    return [order[place] for place in sorted(draw.sample(range(len(order)), depth))]


def modules(
    draw, modules=3, threads_of_module=2, locks=20, sections=150, depth=6, gated=1.0, linkers=1, links=60,
    depth_of_linker=2, is_linked_under_gate=False,
):  # fmt: skip
    """A program of modules, which take their own locks in any order under one lock of the module, and of linkers, which
    take locks of several modules, or do so under one gate. Modules alone have no cycle, but through a linker each of
    their many edges may be in one."""
    for module, thread, section in itertools.product(range(modules), range(threads_of_module), range(sections)):
        inner = drawn(draw, f"lock{module}.", locks, depth)
        gates = [f"gate{module}"] if draw.random() < gated else []
        yield from nested(f"thread{module}.{thread}", f"module{module}.{section % PIECES}.c", [*gates, *inner])
    for linker, section in itertools.product(range(linkers), range(links)):
        if depth_of_linker <= modules:
            linked = draw.sample(range(modules), depth_of_linker)
        else:
            linked = [draw.randrange(modules) for _ in range(depth_of_linker)]
        inner = dict.fromkeys(f"lock{module}.{draw.randrange(locks)}" for module in linked)
        gates = ["gate"] if is_linked_under_gate else []
        yield from nested(f"linker{linker}", f"link{section % PIECES}.c", [*gates, *inner])


def subsystems(
    draw, subsystems=10, threads_of_subsystem=3, locks=10, sections=60, depth=3, gates=2, gated=0.5, links=2
):
    """Subsystems in a ring, dense inside, whose threads now and then take a lock of theirs and then one of the next
    subsystem. Cycles of few edges are inside of one, but from each lock very many ways lead out of it."""
    for subsystem, number in itertools.product(range(subsystems), range(threads_of_subsystem)):
        thread = f"thread{subsystem}.{number}"
        for section in range(sections):
            outer = [f"gate{subsystem}.{draw.randrange(gates)}"] if draw.random() < gated else []
            inner = drawn(draw, f"lock{subsystem}.", locks, draw.randint(2, depth))
            yield from nested(thread, f"subsystem{subsystem}.{section % PIECES}.c", [*outer, *inner])
        for _ in range(links):
            pair = [f"lock{at % subsystems}.{draw.randrange(locks)}" for at in (subsystem, subsystem + 1)]
            yield from nested(thread, f"link{subsystem}.c", pair)


def gate_subsets(draw, layers=4, locks=20, threads=100, sections=40, gates=7, gates_of_section=2, aside=0):
    """A ring of layers, where each call takes a lock of its layer and one of the next, under a few of several gate
    locks. There are fewer disjoint sets of gates than a round has edges, which no single gate and no two calls tell.
    Beside them two threads may take some pairs of locks both ways, which the ring has nothing to do with."""
    for pair in range(aside):
        yield from nested("aside0", "aside.c", [f"left{pair}", f"right{pair}"])
        yield from nested("aside1", "aside.c", [f"right{pair}", f"left{pair}"])
    for thread, section in itertools.product(range(threads), range(sections)):
        layer = draw.randrange(layers)
        outer = [f"gate{gate}" for gate in sorted(draw.sample(range(gates), gates_of_section))]
        pair = [f"lock{at % layers}.{draw.randrange(locks)}" for at in (layer, layer + 1)]
        yield from nested(f"thread{thread}", f"layer{layer}.{section % PIECES}.c", [*outer, *pair])


def pool(draw, waves=12, threads_of_wave=20, locks=30, sections=8, depth=3, lasting=2, sections_of_lasting=40):
    """A pool of threads that is ended and begun again, each time with another order of locks, beside a few lasting
    threads. Waves alone have no cycle, which the order of segments tells; the lasting threads have edges across all
    waves."""
    for wave in range(waves):
        order = shuffled(draw, locks)
        threads = [f"pool{wave}.{number}" for number in range(threads_of_wave)]
        yield from (f"main|fork({thread})|main.c:5" for thread in threads)
        for thread, section in itertools.product(threads, range(sections)):
            yield from nested(thread, f"task{section % PIECES}.c", in_order(draw, order, depth))
        yield from (f"main|join({thread})|main.c:6" for thread in threads)
    order = [f"lock{number}" for number in range(locks)]
    for number, section in itertools.product(range(lasting), range(sections_of_lasting)):
        yield from nested(f"lasting{number}", f"watch{section % PIECES}.c", in_order(draw, order, depth))


def pipeline(draw, items=150, stages=6, locks=5, sections=3, disorder=0.1, overlap=8):
    """A pipeline of stages in a ring, with queues between neighbours; a thread takes an item through one stage and
    forks that of the next. Few items overlap, so that most paths through the queues are of threads that never ran side
    by side."""
    for item in range(items):
        parent = "main"
        for stage in range(stages):
            thread = f"item{item}.{stage}"
            yield f"{parent}|fork({thread})|stage{stage}.c:5"
            for _ in range(sections):
                queues = [f"queue{at % stages}.{draw.randrange(locks)}" for at in (stage, stage + 1)]
                if draw.random() < disorder:
                    queues.reverse()
                yield from nested(thread, f"stage{stage}.c", queues)
            parent = thread
        if item >= overlap:
            yield f"main|join(item{item - overlap}.{stages - 1})|main.c:6"


def database(
    draw, threads=24, tables=12, pages=40, sections=50, disorder=0.05, readers=0.6, backups=10, checkpoints=30
):
    """Sessions of a database, which lock tables mostly by name and latch their pages in any order; a backup keeps all
    others out, and a checkpoint goes from the log to the pages. Shared and exclusive locks are mixed, and cycles are
    plenty, but not behind each edge."""
    of_table = range(pages // tables + 1)
    for thread, section in itertools.product(range(threads), range(sections)):
        chosen = draw.sample(range(tables), draw.randint(1, 3))
        if draw.random() >= disorder:
            chosen.sort()
        taken = {"all_tables": "racq"}
        for table in chosen:
            taken[f"table{table}"] = "racq" if draw.random() < readers else "acq"
            for number in draw.sample(of_table, min(2, len(of_table))):
                page = f"page{table * pages // tables + number}"
                if page not in taken:
                    taken[page] = "racq" if draw.random() < 0.5 else "acq"
        if draw.random() < 0.3:
            taken["log"] = "acq"
        yield from nested(f"session{thread}", f"query{section % PIECES}.c", taken, taken.values())
    for _ in range(backups):
        saved = [*drawn(draw, "table", tables, tables), *drawn(draw, "page", pages, min(pages, 20))]
        yield from nested("backup", "backup.c", ["all_tables", *saved], ["acq", *["racq"] * len(saved)])
    for _ in range(checkpoints):
        yield from nested("checkpoint", "checkpoint.c", ["log", *drawn(draw, "page", pages, 3)])


def hierarchy(draw, threads=40, tables=4, pages=6, rows=8, sections=40, escalated=0.05):
    """A lock manager with shared locks of a database, its tables and pages, and exclusive ones of rows, in place of
    which it now and then takes that of the whole page. Most edges are of readers, who wait for those few sections
    alone."""
    for thread, section in itertools.product(range(threads), range(sections)):
        taken = {"database": "racq"}
        for _ in range(draw.randint(2, 4)):
            table, page, row = f"table{draw.randrange(tables)}", draw.randrange(pages), draw.randrange(rows)
            words = ["racq", "acq"] if draw.random() < escalated else ["racq", "racq", "acq"]
            for lock, word in zip([table, f"{table}.page{page}", f"{table}.page{page}.row{row}"], words):
                taken.setdefault(lock, word)
        yield from nested(f"session{thread}", f"statement{section % PIECES}.c", taken, taken.values())


def turnstile(draw, lanes=4, requests=30, locks=30, sections=5, depth=4, is_by_main=False):
    """A server with a few lanes, in each of which a request is joined before the next one is forked, by the lane or by
    one main thread; each takes locks in any order. Which paths are no cycles is told by the order of segments alone."""
    for request, lane in itertools.product(range(requests), range(lanes)):
        parent = "main" if is_by_main else f"lane{lane}"
        if request > 0:
            yield f"{parent}|join(request{lane}.{request - 1})|accept.c:6"
        yield f"{parent}|fork(request{lane}.{request})|accept.c:5"
        for section in range(sections):
            locks_of_section = drawn(draw, "lock", locks, depth)
            yield from nested(f"request{lane}.{request}", f"serve{section % PIECES}.c", locks_of_section)


def cohorts(
    draw, kinds=5, threads_of_kind=10, locks=24, sections=20, depth=3, guards=6, guards_of_section=2, shared=0.5
):
    """Kinds of threads, each with an order of locks of its own, under some locks of the configuration that are held
    shared or exclusively. Which two sections exclude each other is drawn anew each time, so that hardly any path is
    like another one."""
    for kind in range(kinds):
        order = shuffled(draw, locks)
        for thread, section in itertools.product(range(threads_of_kind), range(sections)):
            outer = [f"guard{guard}" for guard in sorted(draw.sample(range(guards), guards_of_section))]
            words = ["racq" if draw.random() < shared else "acq" for _ in outer]
            taken = [*outer, *in_order(draw, order, depth)]
            yield from nested(f"kind{kind}.{thread}", f"kind{kind}.{section % PIECES}.c", taken, words)


def hand_over_hand(thread, file, locks):
    """The thread takes each of these locks and then releases the one before it."""
    for place, (before, lock) in enumerate(zip([None, *locks], locks), 10):
        yield f"{thread}|acq({lock})|{file}:{place}"
        if before is not None:
            yield f"{thread}|rel({before})|{file}:40"
    yield f"{thread}|rel({locks[-1]})|{file}:41"


def handover(draw, threads=40, depth=7, sections=40, fan=2, upward=0.02, is_gated=True):
    """A tree whose nodes are locked hand over hand from the root down, and now and then from a leaf up, under one gate
    lock. All cycles have two edges, but there are long paths down from each node that lead nowhere."""
    for thread, _ in itertools.product(range(threads), range(sections)):
        path = [1]
        while len(path) < depth:
            path.append(path[-1] * fan + draw.randrange(fan))
        nodes = [f"node{node}" for node in path]
        if draw.random() >= upward:
            yield from hand_over_hand(f"thread{thread}", "search.c", nodes)
            continue
        if is_gated:
            yield f"thread{thread}|acq(rebalancing)|rebalance.c:5"
        yield from hand_over_hand(f"thread{thread}", "rebalance.c", nodes[::-1])
        if is_gated:
            yield f"thread{thread}|rel(rebalancing)|rebalance.c:6"


def grid(draw, side=12, threads=100, sections=60, back=0.0):
    """A simulation on a square grid that is closed at its borders: a cell is locked, then the one to its right or below
    it. No cycle is shorter than a side unless steps go back, and very many paths lead to one cell."""
    steps = {"right": (1, 0), "down": (0, 1), "left": (-1, 0), "up": (0, -1)}
    for thread, _ in itertools.product(range(threads), range(sections)):
        column, row = draw.randrange(side), draw.randrange(side)
        way = draw.choice(["right", "down"])
        if back > 0 and draw.random() < back:
            way = {"right": "left", "down": "up"}[way]
        to_column, to_row = (column + steps[way][0]) % side, (row + steps[way][1]) % side
        yield from nested(f"thread{thread}", f"{way}.c", [f"cell{column}.{row}", f"cell{to_column}.{to_row}"])


def work_stealing(draw, threads=64, sections=60, disorder=0.02, gated=0.0):
    """Workers that steal: each locks its own queue and that of another one, the lower number first but for a few. From
    each queue there are very many paths upwards, and only the few steps down end one."""
    for thread, _ in itertools.product(range(threads), range(sections)):
        victim = draw.randrange(threads)
        if victim == thread:
            continue
        first, second = (thread, victim) if draw.random() < disorder else sorted((thread, victim))
        gates = ["stealing"] if first > second and draw.random() < gated else []
        file = "steal.c" if first < second else "give.c"
        yield from nested(f"worker{thread}", file, [*gates, f"queue{first}", f"queue{second}"])


def stripes(draw, threads=200, locks=256, sections=40, depth=2, disorder=0.003, is_gated=False):
    """A hash table with striped locks, taken by number but for a few sections, which may be under one gate lock. Many
    threads make edges between any two stripes, and only those few sections close cycles."""
    for thread, section in itertools.product(range(threads), range(sections)):
        numbers = sorted(draw.sample(range(locks), depth))
        gates = []
        if draw.random() < disorder:
            numbers.reverse()
            gates = ["resizing"] * is_gated
        taken = [*gates, *(f"stripe{number}" for number in numbers)]
        yield from nested(f"thread{thread}", f"table{section % PIECES}.c", taken)


def shards(draw, threads=60, shards=64, sections=60, disorder=0.01, resizes=6):
    """A sharded store: moves take two shards in order, with the lock for resizes shared, and a resize takes nearly all
    in any order with that lock alone. Resizes make nearly half of all edges, and none of theirs is in a cycle."""
    for thread, _ in itertools.product(range(threads), range(sections)):
        first, second = sorted(draw.sample(range(shards), 2))
        if draw.random() < disorder:
            first, second = second, first
        yield from nested(f"thread{thread}", "move.c", ["resizing", f"shard{first}", f"shard{second}"], ["racq"])
    for _ in range(resizes):
        thread = f"thread{draw.randrange(threads)}"
        yield from nested(thread, "resize.c", ["resizing", *drawn(draw, "shard", shards, min(shards, 50))])


def recursive(draw, threads=12, locks=40, sections=60, depth=5, gates=2, gated=0.95):
    """Monitors that call each other in any order, and are entered again by the thread that is inside, mostly under one
    of two locks of a part of the program. Guards are many and differ, and a cycle of three edges needs a section under
    no gate."""
    for thread, section in itertools.product(range(threads), range(sections)):
        taken = []
        for monitor in drawn(draw, "monitor", locks, depth):
            taken.append(monitor)
            if draw.random() < 0.5:
                taken.append(draw.choice(taken))
        outer = [f"part{draw.randrange(gates)}"] if draw.random() < gated else []
        yield from nested(f"thread{thread}", f"call{section % PIECES}.c", [*outer, *taken])


def back_off(draw, threads=40, locks=60, sections=50, depth=4, tried=0.8):
    """Transfers between accounts: the first lock is waited for, and most of the others are tried and given up if they
    aren't free. A lock that is tried makes no edge but guards later ones, so that few edges have many guards."""
    for thread, section in itertools.product(range(threads), range(sections)):
        accounts = drawn(draw, "account", locks, depth)
        words = ["acq", *("tryacq" if draw.random() < tried else "acq" for _ in accounts[1:])]
        yield from nested(f"thread{thread}", f"transfer{section % PIECES}.c", accounts, words)


def gui(draw, threads=30, models=40, sections=40, sections_of_gui=300, gates=3, gated=0.9, inner=0.02):
    """A program with windows: one thread holds the toolkit's lock and takes models; workers take models, mostly under
    one of few gates, and now and then the toolkit's lock inside. One thread makes a fifth of all edges, and a cycle has
    one of those at most."""
    for section in range(sections_of_gui):
        yield from nested("gui", f"draw{section % PIECES}.c", ["toolkit", *drawn(draw, "model", models, 3)])
    for thread, section in itertools.product(range(threads), range(sections)):
        outer = [f"gate{draw.randrange(gates)}"] if draw.random() < gated else []
        taken = drawn(draw, "model", models, 3)
        if draw.random() < inner:
            taken.append("toolkit")
        yield from nested(f"worker{thread}", f"work{section % PIECES}.c", [*outer, *taken])


def frames(draw, frames=25, jobs=16, components=40, depth=4, sections=3, is_rendered=True):
    """A game: the jobs of a frame take components in an order of the frame's own, and are joined before those of the next one
    are forked; the renderer is there all the time, and takes them by number. So there are many rings of places, of which nearly all
    would have jobs of different frames."""
    order = [f"component{number}" for number in range(components)]
    for frame in range(frames):
        of_frame = [*order]
        draw.shuffle(of_frame)
        threads = [f"job{frame}.{number}" for number in range(jobs)]
        yield from (f"main|fork({thread})|main.c:5" for thread in threads)
        for thread, section in itertools.product(threads, range(sections)):
            yield from nested(thread, f"system{frame % PIECES}.c", in_order(draw, of_frame, depth))
        for _ in range(sections if is_rendered else 0):
            yield from nested("renderer", "render.c", ["device", *in_order(draw, order, depth - 1)])
        yield from (f"main|join({thread})|main.c:6" for thread in threads)


def actors(draw, threads=24, actors=150, sections=80, upward=0.03, dispatched=0.1):
    """Actors in a tree, who hold their state and take a child's mailbox or state, rarely their parent's; and the dispatcher,
    which is taken last, but by its own code first. There are many ways from class to class, and few rings."""
    for section, number in itertools.product(range(sections), range(threads)):
        thread, actor = f"worker{number}", draw.randrange(actors)
        children = [child for child in range(4 * actor + 1, 4 * actor + 5) if child < actors]
        if draw.random() < dispatched:
            taken, code = ["dispatcher", f"mailbox{actor}"], "dispatch"
        elif actor and draw.random() < upward:
            taken, code = [f"state{actor}", f"state{(actor - 1) // 4}", "log"], "escalate"
        elif children and draw.random() < 0.4:
            taken, code = [f"state{actor}", f"state{draw.choice(children)}", f"mailbox{draw.randrange(actors)}"], "ask"
        else:
            taken, code = [f"state{actor}", f"mailbox{draw.randrange(actors)}", "dispatcher"], "tell"
        yield from nested(thread, f"{code}{section % PIECES}.c", taken)


def offsets(draw, offsets=9, threads_of_offset=1, shuffles=1):
    """Groups of threads, each of which goes on from lock to lock round by an offset of its own, which are the powers of -2.
    Two steps of one group undo one of the next, but no steps of different groups come round: so each edge has a short
    way back, along edges that don't go together, and there is no cycle where a group is one thread."""
    locks = 2**offsets - 1
    for offset, thread, _ in itertools.product(range(offsets), range(threads_of_offset), range(shuffles)):
        for lock in draw.sample(range(locks), locks):
            pair = [f"lock{lock}", f"lock{(lock + (-2) ** offset) % locks}"]
            yield from nested(f"thread{offset}.{thread}", f"offset{offset}.c", pair)


def rearranged(draw, threads=7, stripes=31, sections=140, depth=6, shared=0.5, disorder=0.0, resizes=15):
    """A hash table with striped locks, each taken shared or alone: a call takes the stripes of its keys by number, with
    the table's lock shared, and a resize takes all, or 40, in any order with that lock alone. Only resizes step back,
    from everywhere to everywhere, and none of their edges is in a cycle."""
    for thread, section in itertools.product(range(threads), range(sections)):
        numbers = sorted({draw.randrange(stripes) for _ in range(depth)})
        if draw.random() < disorder:
            numbers.reverse()
        words = ["racq", *("racq" if draw.random() < shared else "acq" for _ in numbers)]
        taken = ["table", *(f"stripe{number}" for number in numbers)]
        yield from nested(f"thread{thread}", f"table{section % PIECES}.c", taken, words)
    for resize in range(resizes):
        taken = ["table", *drawn(draw, "stripe", stripes, min(stripes, 40))]
        yield from nested(f"thread{resize % threads}", "resize.c", taken)


def kept_out(draw, kinds=5, threads_of_kind=10, locks=12, sections=13, depth=6, disorder=0.1, alone=1.0):
    """Kinds of threads with a gate each: a section holds all gates, its own kind's alone and the others shared, and
    takes locks by number, every second kind downwards but for a few in any order. No two sections go together, but
    which gate keeps them apart is another one for each kind."""
    gates = [f"gate{kind}" for kind in range(kinds)]
    threads_of_kinds = itertools.product(range(kinds), range(threads_of_kind))
    for (kind, thread), section in itertools.product(threads_of_kinds, range(sections)):
        words = ["acq" if gate == kind and draw.random() < alone else "racq" for gate in range(kinds)]
        numbers = draw.sample(range(locks), depth)
        if draw.random() >= disorder:
            numbers.sort(reverse=kind % 2 == 1)
        taken = [*gates, *(f"lock{number}" for number in numbers)]
        yield from nested(f"kind{kind}.{thread}", f"kind{kind}.{section % PIECES}.c", taken, words)


def splits(draw, threads=14, nodes=12, sections=70, depth=6, split=0.1, disorder=0.0, is_held_by_searches=False):
    """A tree of an index: a search takes nodes shared one inside the other, and now and then takes them again alone and
    upwards to split them, under one lock for that, which searches may hold shared too; with disorder nodes are taken as
    they come. All cycles are of one search and one split, but searches lead from each split to very many others."""
    order = [f"node{number}" for number in range(nodes)]
    outer = ["splitting"] if is_held_by_searches else []
    for thread, section in itertools.product(range(threads), range(sections)):
        path = in_order(draw, order, depth)
        if draw.random() < disorder:
            draw.shuffle(path)
        taken = [*outer, *path]
        yield from nested(f"thread{thread}", f"search{section % PIECES}.c", taken, itertools.repeat("racq"))
        if draw.random() < split:
            yield from nested(f"thread{thread}", f"split{section % PIECES}.c", ["splitting", *path[::-1]])


def intents(
    draw, threads=50, tables=2, pages=3, rows=11, sections=8, rows_of_section=5, escalated=0.0, by_name=0.0, slots=3,
    definitions=20,
):  # fmt: skip
    """A lock manager whose statements run in one of few slots and lock some rows, shared or alone, each behind its
    table, shared, and its page, mostly shared; a definition takes the catalogue and then tables alone. A cycle has at
    most one edge of each slot and one of definitions, and hardly any two sections have the same guards."""
    for thread, section in itertools.product(range(threads), range(sections)):
        taken = {"database": "racq", f"slot{draw.randrange(slots)}": "acq"}
        chosen = [draw.randrange(tables) for _ in range(rows_of_section)]
        if draw.random() < by_name:
            chosen.sort()
        for table in chosen:
            if draw.random() < escalated:
                taken.setdefault(f"table{table}", "acq")
                continue
            page = f"table{table}.page{draw.randrange(pages)}"
            taken.setdefault(f"table{table}", "racq")
            taken.setdefault(page, "racq" if draw.random() < 0.8 else "acq")
            taken.setdefault(f"{page}.row{draw.randrange(rows)}", "racq" if draw.random() < 0.5 else "acq")
        yield from nested(f"session{thread}", f"statement{section % PIECES}.c", taken, taken.values())
    for _ in range(definitions):
        defined = drawn(draw, "table", tables, min(tables, 3))
        yield from nested("definer", "define.c", ["database", "catalogue", *defined], ["racq"])


def generations(
    draw, generations=12, threads_of_generation=4, locks=31, sections=29, depth=5, overlap=0, lasting=4,
    sections_of_lasting=3,
):  # fmt: skip
    """A pool whose threads are replaced, each generation by one that takes locks the other way round, beside a few
    lasting threads that run some sections in the time of each. Cycles are through lasting threads alone unless
    generations overlap, but in the graph of locks each edge has its way back."""
    order = [f"lock{number}" for number in range(locks)]
    threads = range(threads_of_generation)
    for generation in range(generations):
        own = order[::-1] if generation % 2 else order
        yield from (f"main|fork(pool{generation}.{number})|main.c:5" for number in threads)
        for number, section in itertools.product(threads, range(sections)):
            yield from nested(f"pool{generation}.{number}", f"task{section % PIECES}.c", in_order(draw, own, depth))
        for number, section in itertools.product(range(lasting), range(sections_of_lasting)):
            yield from nested(f"lasting{number}", f"watch{section % PIECES}.c", in_order(draw, order, depth))
        if generation >= overlap:
            yield from (f"main|join(pool{generation - overlap}.{number})|main.c:6" for number in threads)


def eviction(draw, threads=13, buckets=5, lists=5, items=200, sections=170, evicted=0.2, tried=0.0):
    """A cache: a call takes a bucket, an item, the bucket's list by age, and in every fifth section the lock of the
    slabs last; an eviction begins with that one, and takes a list, an item and two buckets, which it may try. A cycle
    has one edge of an eviction and four in all at most, but evictions lead back from each item and list."""
    for thread, section in itertools.product(range(threads), range(sections)):
        bucket, item = draw.randrange(buckets), f"item{draw.randrange(items)}"
        if draw.random() < evicted:
            emptied = dict.fromkeys(f"bucket{draw.randrange(buckets)}" for _ in range(2))
            taken, code = ["slabs", f"list{bucket % lists}", item, *emptied], "evict"
            words = ["acq", "acq", *("tryacq" if draw.random() < tried else "acq" for _ in taken[2:])]
        else:
            taken, code, words = [f"bucket{bucket}", item, f"list{bucket % lists}"], "get", []
            taken += ["slabs"] if section % 5 == 0 else []
        yield from nested(f"thread{thread}", f"{code}{section % PIECES}.c", taken, words)


def spatial(draw, frames=3, threads_of_frame=14, sections=18, side=12, block=3, by_column=0.03, in_world=0.3):
    """A simulation whose tasks lock a square block of cells, by row but for a few by column, some with the world's lock
    shared; the tasks of a frame are joined before those of the next one are forked, which go the other way round. Ways
    between cells are very many, and nearly all rings would have tasks of two frames."""
    for frame in range(frames):
        threads = [f"task{frame}.{number}" for number in range(threads_of_frame)]
        yield from (f"main|fork({thread})|main.c:5" for thread in threads)
        for thread, section in itertools.product(threads, range(sections)):
            row, column = draw.randrange(side), draw.randrange(side)
            steps = itertools.product(range(block), repeat=2)
            cells = sorted({((row + down) % side, (column + right) % side) for down, right in steps})
            if draw.random() < by_column:
                cells.sort(key=lambda cell: cell[::-1])
            if frame % 2 == 1:
                cells.reverse()
            outer = ["world"] if draw.random() < in_world else []
            taken = [*outer, *(f"cell{row}.{column}" for row, column in cells)]
            yield from nested(thread, f"update{section % PIECES}.c", taken, ["racq"] * len(outer))
        yield from (f"main|join({thread})|main.c:6" for thread in threads)


def wavefront(draw, rows=12, columns=12, locks=18, sections=10, depth=5, is_alternating=True):
    """A computation of a table, with a thread for each cell, which begins when those above it and to its left are over,
    and takes locks by number, in every second row downwards. A cell is there together with those above it to the right
    and below it to the left alone, which no two times of each cell, of its beginning and its end, could tell."""
    order = [f"lock{number}" for number in range(locks)]
    cells = sorted(itertools.product(range(rows), range(columns)), key=sum)
    yield from (f"main|fork(cell{row}.{column})|main.c:5" for row, column in cells)
    for row, column in cells:
        thread = f"cell{row}.{column}"
        if row > 0:
            yield f"{thread}|join(cell{row - 1}.{column})|cell.c:5"
        if column > 0:
            yield f"{thread}|join(cell{row}.{column - 1})|cell.c:6"
        own = order[::-1] if is_alternating and row % 2 == 1 else order
        for section in range(sections):
            yield from nested(thread, f"cell{section % PIECES}.c", in_order(draw, own, depth))
    yield from (f"main|join(cell{row}.{column})|main.c:6" for row, column in cells[-1:])


FAMILIES = {
    family.__name__.replace("_", "-"): family
    for family in (
        modules, subsystems, gate_subsets, pool, pipeline, database, hierarchy, turnstile, cohorts, handover, grid,
        work_stealing, stripes, shards, recursive, back_off, gui, frames, actors, offsets,
        rearranged, kept_out, splits, intents, generations, eviction, spatial, wavefront,
    )
}  # fmt: skip


def with_own_places(lines):
    """The same with a place of its own for each acquire."""
    for number, line in enumerate(lines, 1):
        thread, call, _ = line.split("|")
        yield f"{thread}|{call}|own:{number}" if "acq(" in call else line


def options_of(family):
    """The names of a family's options, and what they are unless given."""
    return {name: option.default for name, option in inspect.signature(family).parameters.items() if name != "draw"}


def word_of(name):
    return "--" + name.removeprefix("is_").replace("_", "-")


def share(text):
    if not 0 <= float(text) <= 1:
        raise ValueError(text)
    return float(text)


def whole(text):
    if int(text) < 0:
        raise ValueError(text)
    return int(text)


KINDS = {
    bool: {"action": argparse.BooleanOptionalAction},
    int: {"type": whole, "metavar": "N"},
    float: {"type": share, "metavar": "SHARE"},
}


def parser_of_options():
    parser = argparse.ArgumentParser(description=__doc__, formatter_class=argparse.RawDescriptionHelpFormatter)
    families = parser.add_subparsers(dest="family", metavar="FAMILY", required=True)
    for name, family in FAMILIES.items():
        text = " ".join(family.__doc__.split())
        listed = " ".join(word_of(option) for option in options_of(family))
        of_family = families.add_parser(name, help=f"{text} ({listed})", description=text)
        of_family.add_argument("--seed", type=int, default=1)
        of_family.add_argument("--place", choices=["code", "own"], default="code")
        for option, default in options_of(family).items():
            told = {"dest": option, "default": default, "help": f"{default} unless given"}
            of_family.add_argument(word_of(option), **told, **KINDS[type(default)])
    return parser


def main():
    parser = parser_of_options()
    options = vars(parser.parse_args())
    family, draw, place = FAMILIES[options.pop("family")], random.Random(options.pop("seed")), options.pop("place")
    try:
        lines = [*family(draw, **options)]
    except (ValueError, IndexError, ZeroDivisionError) as error:
        parser.error(f"there is no such trace: {error}")
    signal.signal(signal.SIGPIPE, signal.SIG_DFL)
    sys.stdout.write("".join(line + "\n" for line in (with_own_places(lines) if place == "own" else lines)))


if __name__ == "__main__":
    main()
