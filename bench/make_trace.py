#!/usr/bin/env python3
"""Makes a large STD trace on standard output; the same options and seed give the same bytes.

    make_trace.py --shape few-locks --events 1000000 --seed 1 > trace.std

A trace is a run of blocks. In a block one thread takes some locks, one inside the other, and releases them
innermost first, so that locks are held by one thread at a time; a program's other operations stand between.
Blocks are drawn from a pool that is made first, as a program runs the same code over and over. A shape is a
set of options; an option that is given replaces the shape's.

    make_trace.py --shape gated-requests --threads 1000 --sections 4 > trace.std

A knot is a shape whose edges all lie in one knot of the lock-order graph. Its pieces of code lie in a ring: each
takes its own lock and then the next one's. There is no cycle in mode full, and each lesser part of the ring can be
run in very many ways. How long it is follows from its threads, sections and segments; nothing in it is drawn.

    make_trace.py --shape colliding-names --locks 100000 > trace.std

The names of its locks were chosen to have one hash, that of the toolchain's maps with their fixed seed. In
ordinary-names they are as long and have different hashes.
"""

import argparse
import itertools
import random
import sys

SHAPES = {
    # A few global locks, nearly always taken in one order.
    "few-locks": dict(threads=8, locks=8, depth=3, sections=20, disorder=0.3, locations=500),
    # A lock for each object.
    "many-locks": dict(threads=64, locks=100_000, depth=2, sections=50_000, disorder=0.01, locations=20_000),
    # Names with packages, classes and arguments.
    "long-names": dict(threads=8, locks=20, depth=2, sections=40, disorder=0.3, locations=2_000, name_length=160),
    # Many locks held at once; the runs of locks lie in a ring.
    "deep-nesting": dict(threads=4, locks=90, depth=31, sections=3, is_ring=True, locations=2_000),
    # Each thread takes each pair of locks in both orders: more than 1,000 cycles.
    "many-cycles": dict(threads=40, locks=12, depth=2, sections=132, disorder=1.0, locations=500),
    # Always one order.
    "none": dict(threads=16, locks=200, depth=4, sections=100, disorder=0.0, locations=1_000),
    # Locks that are mostly taken in shared mode, in any order.
    "readers": dict(threads=16, locks=24, depth=3, sections=100, disorder=0.3, locations=1_000, shared=0.9),
    # Threads that are forked and joined in waves, so that segments are ordered.
    "forks": dict(threads=41, locks=24, depth=2, sections=30, disorder=1.0, locations=500, waves=10, rejoins=2_000),
}
KNOTS = {
    # A thread for each request, which runs one piece of code; every second piece holds one gate lock.
    "gated-requests": dict(threads=1_000, sections=4),
    # Threads that run their piece of code again in each segment, in turn under each of the gate locks, which are fewer
    # than the pieces.
    "alternating-gates": dict(threads=60, sections=4, segments=100, gates=2),
    # Early threads, joined before late ones are forked, run the first and the last piece; for each piece between them
    # there is one thread that lives as long as all of them and runs it in each of its segments.
    "early-and-late": dict(threads=600, sections=3, segments=1_000),
    # A few threads that run all pieces again in each segment, but are fewer than the pieces.
    "few-threads": dict(threads=3, sections=4, segments=100),
}
# After recorded servers: a few pieces of code, run on many locks. The locks are those of a trace as long as the recorded cache
# server's; one of another length has more or fewer of them, so that about as many edges come to each event and each lock.
RECORDED = 445_000
SERVERS = {
    # A cache: workers hold the lock of an item and take inside what its size and the statistics need; a maintainer and a
    # crawler, each under a lock of its own, go from the queues of a size to the items.
    "item-locks": dict(threads=10, locks=378, sections=15, events_a_section=250, tried=0.0),
    # The same with the maintainer's own lock held for thousands of events in one piece; it only tries the items.
    "long-sections": dict(threads=10, locks=378, sections=15, events_a_section=4_000, tried=1.0),
    # A thread for each connection, forked and joined as they come and go, which holds a lock of its own as long as it is
    # there and takes locks of a table inside, in any order.
    "connections": dict(threads=1_000, locks=1_000, sections=12, segments=9),
    # Threads that take locks of one table, in any order and up to four at a time, most of the later ones by tries.
    "lock-table": dict(threads=16, locks=1_480, sections=12, tried=0.8),
}
# Each thread takes each two of its locks in both orders, one inside the other. There is no cycle where no two threads have two
# locks in common, nor under one gate, nor where each thread is joined before the next one is forked.
PAIRS = {"all-pairs": dict(threads=1, locks=200)}
# Dense graphs: nearly each lock leads to each other one, and little can be left out before the search.
DENSE = {
    # Each time 2 to 6 locks, in one order by the first half of the threads and in another one by the others, under the gate
    # lock of every second thread: millions of paths, and few cycles.
    "two-orders": dict(threads=8, locks=40, sections=1_500),
    # Each time all locks, in any order: all cycles of the first ones begin at one edge.
    "all-locks": dict(threads=6, locks=16, sections=60),
}
# Each time as many locks as --depth says, in any order, so that hardly any acquire has the guard set of another one. A
# cycle has no more edges than there are threads, or gate locks where each section is under one.
NESTED = {"nested-locks": dict(threads=3, locks=60, depth=25, sections=100)}
# Threads that are joined before later ones are forked, each time with as many locks as --depth says.
TURNS = {
    # Threads of which only as many are there at once as --at-once says, with locks in any order.
    "windows": dict(threads=50, locks=60, depth=12, sections=500, at_once=3),
    # The threads of a wave have one order of locks, and are joined before those of the next wave are forked, which have
    # the opposite one: there is no cycle.
    "phases": dict(threads=1_000, locks=10, depth=3, sections=4_000, waves=5),
    # Threads that meet at barriers, each of which they make by forks and joins: the same, of threads that stay.
    "barriers": dict(threads=126, locks=40, depth=8, sections=720, waves=20),
}
# Each section under one lock, which the share --shared of them hold as readers, who take others in their order; writers take them in
# any order. There is no cycle.
WRITERS = {"writers": dict(threads=20, locks=200, depth=5, sections=3_000, shared=0.7)}
# Sparse graphs, in which each edge leads on to thousands and hardly any path comes back.
SPARSE = {
    # A lock and the one above it in a tree, in both orders, by many threads: all cycles have two edges.
    "tree": dict(threads=1_000, locks=40, depth=39, segments=5),
    # From a lock of one layer to any of the next one, round, mostly under a gate lock: rings as long as there are layers.
    "layers": dict(threads=200, locks=30, depth=6, sections=12_000, gates=4),
}
# Many threads run one of two pieces of code, on all locks: millions of cycles of one mistake.
FINDINGS = {"shared-code": dict(threads=1_000, locks=50)}
NAMES = {"colliding-names": dict(locks=100_000), "ordinary-names": dict(locks=100_000)}
SETTINGS = {**SHAPES, **KNOTS, **SERVERS, **PAIRS, **DENSE, **NESTED, **TURNS, **WRITERS, **SPARSE, **FINDINGS, **NAMES}
GENERAL = dict(
    threads=8, locks=16, depth=2, sections=20, disorder=0.1, is_ring=False, locations=500, name_length=0,
    waves=0, rejoins=0, others=0.3, strays=0.0005, shared=0,
    segments=1, gates=1, at_once=1, events_a_section=0, tried=0.0, common=0, is_gated=False, is_in_turn=False,
)  # fmt: skip

PACKAGE = "org.example.server.storage.internal.cache.partition.segment.writer."
FILES = ["Pool", "Cache", "Session", "Queue", "Router", "Index", "Journal", "Worker"]
AGES = ["hot", "warm", "cold"]
OTHERS = ["r({})", "w({})", "begin", "end", "notify({})"]


def padded(name, length):
    """The name behind a long prefix that all names share, as qualified names have it."""
    missing = max(0, length - len(name))
    return (PACKAGE * (missing // len(PACKAGE) + 1))[:missing] + name


class Maker:
    def __init__(self, options):
        self.random = random.Random(options.seed)
        self.options = options
        length = options.name_length
        self.threads = [padded(f"T{i}", length) for i in range(options.threads)]
        self.locks = [padded(f"lock{i}", length) for i in range(options.locks)]
        self.locations = [
            padded(f"{FILES[i % len(FILES)]}.java:{10 + i // len(FILES)}", length) for i in range(options.locations)
        ]
        self.end = "\r\n" if options.crlf else "\n"
        self.sections = [self.section(k) for k in range(options.sections)]

    def section(self, k):
        """The locks of a piece of code, outermost first, each with the letter of its mode."""
        options = self.options
        if options.is_ring:
            start = k * (options.depth - 1)
            locks = [(start + i) % options.locks for i in range(options.depth)]
        else:
            size = self.random.randint(min(2, options.depth), min(options.depth, options.locks))
            locks = self.random.sample(range(options.locks), size)
            locks = locks if self.random.random() < options.disorder else sorted(locks)
        share = options.shared
        return [(lock, "r" if share > 0 and self.random.random() < share else "") for lock in locks]

    def line(self, thread, call):
        return f"{thread}|{call}|{self.random.choice(self.locations)}{self.end}"

    def other(self, thread):
        return self.line(thread, self.random.choice(OTHERS).format(self.random.choice(["x", "y", "total", "head"])))

    def block(self, thread, section):
        """A thread's run through a piece of code: its text and how many lines it has."""
        share = self.options.others
        made = []
        locks = [(self.locks[i], mode) for i, mode in section]
        acquires = [(f"{mode}acq", lock) for lock, mode in locks]
        for word, lock in acquires + [(f"{mode}rel", lock) for lock, mode in reversed(locks)]:
            while share > 0 and self.random.random() < share:
                made.append(self.other(thread))
            made.append(self.line(thread, f"{word}({lock})"))
        return "".join(made), len(made)

    def pool(self, threads, size):
        """Blocks of these threads. In a ring each thread runs each piece of code."""
        if self.options.is_ring or size >= len(threads) * len(self.sections):
            pairs = [(thread, section) for thread in threads for section in self.sections]
            pairs += [
                (self.random.choice(threads), self.random.choice(self.sections)) for _ in range(size - len(pairs))
            ]
        else:
            pairs = [(self.random.choice(threads), self.random.choice(self.sections)) for _ in range(size)]
        blocks = [self.block(thread, section) for thread, section in pairs]
        for _ in range(round(self.options.strays * size) if self.options.strays else 0):
            thread = self.random.choice(threads)
            blocks.append((self.line(thread, f"rel({self.random.choice(self.locks)})"), 1))
        return blocks

    def body(self, threads, events, further):
        """About so many lines of these threads, with the further blocks spread among them."""
        options = self.options
        lines_a_block = (options.depth + 2) * (1 + options.others)
        size = int(min(events / lines_a_block + 1, max(4_000, 2 * options.locations, options.sections)))
        pool = self.pool(threads, size)
        mean = sum(count for _, count in pool) / len(pool)
        blocks = pool[: int(events / mean) + 1]
        blocks += self.random.choices(pool, k=max(0, int(events / mean) - len(blocks)))
        texts = [text for text, _ in blocks] + further
        self.random.shuffle(texts)
        return texts

    def make(self):
        options = self.options
        if options.waves == 0:
            return self.body(self.threads, options.events, [])
        main, *others = self.threads
        size = -(-len(others) // options.waves)
        waves = [others[at : at + size] for at in range(0, len(others), size)]
        texts, ended = [], []
        for wave in waves:
            texts += [self.line(main, f"fork({thread})") for thread in wave]
            rejoins = options.rejoins // len(waves) if ended else 0
            again = [self.line(main, f"join({self.random.choice(ended)})") for _ in range(rejoins)]
            texts += self.body(wave, options.events // len(waves), again)
            texts += [self.line(main, f"join({thread})") for thread in wave]
            ended += wave
        return texts


def nested(thread, file, locks, words=()):
    """The thread takes these locks one inside the other, by these words or else by acq, and releases them."""
    taken = [*zip(itertools.chain(words, itertools.repeat("acq")), locks)]
    for place, (word, lock) in enumerate(taken, 10):
        yield f"{thread}|{word}({lock})|{file}:{place}"
    for place, (word, lock) in enumerate(reversed(taken), 30):
        yield f"{thread}|{'rrel' if 'racq' in word else 'rel'}({lock})|{file}:{place}"


def piece(thread, k, sections, gates=()):
    """The thread runs the k-th piece of code of a ring, under these gate locks."""
    return nested(thread, f"Piece{k}.java", [*gates, f"lock{k}", f"lock{(k + 1) % sections}"])


def new_segment(thread):
    """Another join of a thread that did nothing: it orders nothing."""
    return f"{thread}|join(idle)|Pool.java:7"


def gated_requests(options):
    for t in range(options.threads):
        k = t % options.sections
        yield from piece(f"request{t}", k, options.sections, ["gate"] if k % 2 == 0 else [])


def alternating_gates(options):
    for segment in range(options.segments):
        for t in range(options.threads):
            if segment > 0:
                yield new_segment(f"T{t}")
            gate = f"gate{(segment + t // options.sections) % options.gates}"
            yield from piece(f"T{t}", t % options.sections, options.sections, [gate])


def early_and_late(options):
    last = options.sections - 1
    lasting = {k: f"lasting{k}" for k in range(1, last)}
    half = options.threads // 2
    yield from (f"main|fork({thread})|Main.java:5" for thread in lasting.values())

    def all_run(name, k):
        threads = [f"{name}{t}" for t in range(half)]
        yield from (f"main|fork({thread})|Main.java:10" for thread in threads)
        for thread in threads:
            yield from piece(thread, k, options.sections)
        yield from (f"main|join({thread})|Main.java:11" for thread in threads)

    yield from all_run("early", 0)
    for segment in range(options.segments):
        for k, thread in lasting.items():
            if segment > 0:
                yield new_segment(thread)
            yield from piece(thread, k, options.sections)
    yield from all_run("late", last)


def few_threads(options):
    for segment in range(options.segments):
        for t in range(options.threads):
            if segment > 0:
                yield new_segment(f"T{t}")
            for k in range(options.sections):
                yield from piece(f"T{t}", k, options.sections)


def all_pairs(options):
    common = [f"common{i}" for i in range(options.common)]
    gates = ["gate"] if options.is_gated else []
    for t in range(options.threads):
        locks = [f"own{t}_{i}" for i in range(options.locks)] + common
        if options.is_in_turn:
            yield f"main|fork(T{t})|Main.java:5"
        for held, wanted in itertools.permutations(locks, 2):
            yield from nested(f"T{t}", "Pairs.java", [*gates, held, wanted])
        if options.is_in_turn:
            yield f"main|join(T{t})|Main.java:6"


def two_orders(options):
    draw = random.Random(options.seed)
    for section in range(options.sections):
        t = draw.randrange(options.threads)
        order = 3 * (t // max(1, options.threads // 2))
        numbers = draw.sample(range(options.locks), draw.randint(2, min(6, options.locks)))
        numbers.sort(key=lambda number: (7 * number + order) % options.locks)
        locks = [f"lock{number}" for number in numbers]
        yield from nested(f"T{t}", f"Piece{section % 40}.java", [f"gate{t % 2}", *locks])


def drawn_locks(draw, options, depth):
    """So many different locks, in any order."""
    return [f"lock{number}" for number in draw.sample(range(options.locks), min(depth, options.locks))]


def all_locks(options):
    draw = random.Random(options.seed)
    for section in range(options.sections):
        locks = drawn_locks(draw, options, options.locks)
        yield from nested(f"T{draw.randrange(options.threads)}", f"Piece{section % 60}.java", locks)


def nested_locks(options):
    draw = random.Random(options.seed)
    for section in range(options.sections):
        locks = drawn_locks(draw, options, options.depth)
        gates = [f"gate{draw.randrange(options.gates)}"] if options.is_gated else []
        yield from nested(f"T{draw.randrange(options.threads)}", f"Piece{section % 60}.java", [*gates, *locks])


def windows(options):
    """The main thread forks and joins the others, among which the sections are shared out evenly."""
    draw = random.Random(options.seed)
    threads = [f"T{t}" for t in range(options.threads - 1)]
    for t, thread in enumerate(threads):
        if t >= options.at_once:
            yield f"main|join({threads[t - options.at_once]})|Main.java:6"
        yield f"main|fork({thread})|Main.java:5"
        for section in range(max(1, options.sections // len(threads))):
            locks = drawn_locks(draw, options, options.depth)
            yield from nested(thread, f"Piece{section % 60}.java", locks)
    yield from (f"main|join({thread})|Main.java:7" for thread in threads[-options.at_once :])


def phases(options):
    """The main thread forks and joins the others, among which the sections are shared out evenly."""
    draw = random.Random(options.seed)
    threads = [f"T{t}" for t in range(options.threads - 1)]
    size = -(-len(threads) // options.waves)
    for wave in range(options.waves):
        its_threads = threads[wave * size : (wave + 1) * size]
        yield from (f"main|fork({thread})|Main.java:5" for thread in its_threads)
        for thread in its_threads:
            for section in range(max(1, options.sections // len(threads))):
                locks = sorted(drawn_locks(draw, options, options.depth), reverse=wave % 2 == 1)
                yield from nested(thread, f"Piece{section % 60}.java", locks)
        yield from (f"main|join({thread})|Main.java:6" for thread in its_threads)


def barriers(options):
    """At a barrier each thread forks one that does nothing, and joins those of all."""
    draw = random.Random(options.seed)
    threads = [f"T{t}" for t in range(options.threads // (options.waves + 1))]
    for wave in range(options.waves):
        for thread in threads:
            for section in range(max(1, options.sections // (len(threads) * options.waves))):
                locks = sorted(drawn_locks(draw, options, options.depth), reverse=wave % 2 == 1)
                yield from nested(thread, f"Piece{section % 60}.java", locks)
        yield from (f"{thread}|fork({thread}.{wave})|Barrier.java:5" for thread in threads)
        yield from (f"{thread}|join({other}.{wave})|Barrier.java:6" for thread in threads for other in threads)


def writers(options):
    draw = random.Random(options.seed)
    for section in range(options.sections):
        thread, locks = f"T{draw.randrange(options.threads)}", drawn_locks(draw, options, options.depth)
        is_reader = draw.random() < options.shared
        shared, file = "r" * is_reader, f"{'Read' if is_reader else 'Write'}{section % 30}.java"
        yield f"{thread}|{shared}acq(table)|{file}:5"
        yield from nested(thread, file, sorted(locks) if is_reader else locks)
        yield f"{thread}|{shared}rel(table)|{file}:6"


def tree(options):
    """The locks below one are as many as --depth says, so that it is a star where that is one less than there are locks."""
    for t in range(options.threads):
        for turn in range(options.segments):
            number = 1 + (t * options.segments + turn) % (options.locks - 1)
            pair = [f"lock{(number - 1) // options.depth}", f"lock{number}"]
            yield from nested(f"T{t}", "Above.java", pair)
            yield from nested(f"T{t}", "Below.java", pair[::-1])


def layers(options):
    draw = random.Random(options.seed)
    for section in range(options.sections):
        layer = draw.randrange(options.depth)
        gates = [f"gate{draw.randrange(options.gates)}"] if draw.random() < 0.7 else []
        locks = [f"lock{at % options.depth}_{draw.randrange(options.locks)}" for at in (layer, layer + 1)]
        yield from nested(f"T{draw.randrange(options.threads)}", f"Piece{section % 60}.java", [*gates, *locks])


class Server:
    """The threads of a server: a piece is lines of one thread that no other thread comes between, and leaves held at
    most what no other thread takes. Its places are those of the code that it runs."""

    def __init__(self, options):
        self.random = random.Random(options.seed)
        self.options = options
        self.items = [f"0x55d0{1040 * i:08x}" for i in range(options.locks)]
        self.parts = max(1, round(options.events / RECORDED))  # of a cache, each with items and sizes of its own
        sizes = range(options.sections * self.parts)
        self.queues = {age: [f"{age}[{i}].lock" for i in sizes] for age in AGES}
        self.stored = {age: [[] for _ in sizes] for age in AGES}  # the items of each queue

    def inside(self, thread, file, *locks, body=(), tried=0.0):
        """The thread takes these locks one inside the other, does what stands in the body, and releases them innermost
        first. Of all but the first lock this share is tried."""
        for place, lock in enumerate(locks, 100):
            is_tried = place > 100 and self.random.random() < tried
            yield f"{thread}|{'tryacq' if is_tried else 'acq'}({lock})|{file}.c:{place}"
        yield from body
        for place, lock in reversed([*enumerate(locks, 200)]):
            yield f"{thread}|rel({lock})|{file}.c:{place}"

    def item(self):
        """An item, and two of the sizes that it has in its life. Each size is four fifths as likely as the one before it."""
        number, last = self.random.randrange(len(self.items)), self.options.sections - 1
        first = number % self.parts * self.options.sections
        sizes = [first + min(int(self.random.expovariate(0.22)), last) for _ in range(2)]
        return self.items[number], *sizes

    def store(self, thread):
        """An item is stored: the queue of what it was before, that of new items, and three counters are needed inside."""
        item, old, new = self.item()
        before = self.queues[self.random.choice(["hot", "hot", "warm", *["cold"] * 5])][old]
        self.stored["hot"][new].append(item)
        files = ["state", "unlink", "free", "link", "hash"]
        needed = ["state_lock", before, "stats_lock", self.queues["hot"][new], "hash_lock"]
        body = [line for file, lock in zip(files, needed) for line in self.inside(thread, file, lock)]
        yield from self.inside(thread, "store", item, body=body)

    def request(self, thread):
        """A worker's request: its own statistics over and over, the item alone, and in half of the requests a store."""
        own = f"{thread}.stats"
        for file in ("read", "parse", "answer", "write"):
            yield from self.inside(thread, file, own)
        yield from self.inside(thread, "find", self.item()[0])
        if self.random.random() < 0.45:
            yield from self.inside(thread, "new", own)
            yield from self.store(thread)
        else:
            counted = self.inside(thread, "count", own) if self.random.random() < 0.2 else ()
            yield from self.inside(thread, "get", self.item()[0], body=counted)
            yield from self.inside(thread, "sent", own)

    def queue(self):
        """An age and a size, with an item of that queue; nothing where there is none."""
        age = self.random.choice(["hot", *AGES])
        size = self.random.randrange(len(self.stored[age]))
        stored = self.stored[age][size]
        return age, size, self.random.choice(stored) if stored else None

    def moved(self):
        """The maintainer looks at a queue, and takes one of its items, which may move to the queue of another age."""
        thread, (age, size, item) = "maintainer", self.queue()
        queue, is_taken = self.queues[age][size], item is not None and self.random.random() < 0.65
        yield from self.inside(thread, "look", queue)
        lines = [*self.inside(thread, "move", queue, *[item] * is_taken, tried=self.options.tried)]
        if not is_taken or self.random.random() >= 0.21:
            yield from lines
            return
        take_queue, take_item, leave_item, leave_queue = lines
        after = self.random.choice([later for later in ("warm", "cold") if later != age])
        self.stored[after][size].append(item)
        link = self.inside(thread, "link", self.queues[after][size])
        yield from [take_queue, take_item, leave_queue, *link, leave_item]

    def rebalanced(self):
        """The maintainer takes an item, and inside the queues that it may be in."""
        item, size, _ = self.item()
        body = [line for age in ("hot", "warm") for line in self.inside("maintainer", age, self.queues[age][size])]
        return self.inside("maintainer", "slabs", "rebalance_lock", item, body=body, tried=self.options.tried)

    def crawled(self):
        """The crawler takes, under its own two locks, an item of a queue, and inside the counters of all."""
        age, size, item = self.queue()
        if item is not None:
            body = [*self.inside("crawler", "expire", "hash_lock"), *self.inside("crawler", "unlink", "stats_lock")]
            body = self.inside("crawler", "crawl", self.queues[age][size], item, body=body, tried=self.options.tried)
            yield from self.inside("crawler", "crawler", "crawler_lock", "crawler_stats", body=body)

    def started(self, thread, *held):
        """The crawler is started: all queues one by one under its lock, those of sizes that no item has too."""
        queues = [f"{age}[{i}].lock" for age in AGES for i in range(17 * len(self.queues[age]) // 3)]
        body = [line for lock in queues for line in self.inside(thread, "start", lock)]
        yield from self.inside(thread, "crawler", *held, "crawler_lock", body=body)

    def turn(self, length):
        """The pieces of a section of the maintainer, of about so many events, and some of the crawler's among them."""
        yield ["maintainer|acq(lru_maintainer_lock)|lru.c:50"]
        while length > 0:
            work = self.random.choices([self.moved, self.rebalanced, self.crawled], [190, 6, 3])[0]
            piece = [*work()]
            length -= len(piece)
            yield piece
        yield ["maintainer|rel(lru_maintainer_lock)|lru.c:80"]

    def cache(self):
        """Requests of the workers, and among them sections of the maintainer."""
        workers = [f"worker{i}" for i in range(self.options.threads - 2)]
        length = max(12, self.options.events_a_section)
        first = [*self.started(workers[0]), *self.started("maintainer", "lru_maintainer_lock")]
        left = self.options.events - len(first)
        yield from first
        while left > 0:
            requests = [[*self.request(self.random.choice(workers))] for _ in range(length // 16 + 1)]
            pieces = [*self.turn(length)]
            places = sorted(self.random.randrange(1, len(pieces)) for _ in requests)
            for place, request in zip(reversed(places), requests):
                pieces.insert(place, request)
            for piece in pieces:
                left -= len(piece)
                yield from piece

    def call(self, *further):
        """A piece of code, and the locks of the table that it takes, in any order: one, and as many further ones as a draw
        of these tells."""
        locks = self.random.sample(self.items, min(len(self.items), 1 + self.random.choice(further)))
        return f"piece{self.random.randrange(self.options.sections)}", *locks

    def connections(self):
        """Connections of which at most 32 are there at once. Each has calls of its own, which it makes over and over."""
        names = [f"connection{i}" for i in range(self.options.threads - 1)]
        rounds = self.options.segments
        calls = max(1, round(self.options.events / len(names) / rounds / 3.6))
        for at in range(0, len(names), 32):
            there = {name: [self.call(0, 0, 1, 1, 2) for _ in range(calls)] for name in names[at : at + 32]}
            yield from (f"main|fork({name})|accept.c:50" for name in there)
            yield from (f"{name}|acq({name}.lock)|serve.c:60" for name in there)
            for number in [*range(calls)] * rounds:
                for name, its_calls in there.items():
                    yield from self.inside(name, *its_calls[number], tried=self.options.tried)
            yield from (f"{name}|rel({name}.lock)|serve.c:70" for name in there)
            yield from (f"main|join({name})|accept.c:80" for name in there)

    def table(self):
        """Calls of threads that are there all the time."""
        left = self.options.events
        while left > 0:
            thread = f"worker{self.random.randrange(self.options.threads)}"
            lines = [*self.inside(thread, *self.call(0, 1, 1, 2, 3), tried=self.options.tried)]
            left -= len(lines)
            yield from lines


def shared_code(options):
    """Every second thread runs another piece of code, which takes an account and its journal the other way round."""
    for t in range(options.threads):
        for number in range(options.locks):
            account, journal = f"account{number}", f"journal{number}"
            if t % 2 == 0:
                yield from nested(f"worker{t}", "Pay.java", [account, journal])
            else:
                yield from nested(f"worker{t}", "Audit.java", [journal, account])


def locks_in_turn(options, prefix):
    """One thread takes and releases each lock twice; a lock's name is the prefix and eight digits."""
    for _ in range(2):
        for number in range(options.locks):
            yield from nested("T0", "Names.java", [f"{prefix}{number:08}"])


# The hasher adds a name's length to this seed, and begins by multiplying with the xor of that and the first eight
# bytes: with these the product is 0, whatever follows.
HASH_SEED, NAME_LENGTH = 0x243F_6A88_85A3_08D3, 16


def colliding_names(options):
    return locks_in_turn(options, (HASH_SEED + NAME_LENGTH).to_bytes(8, "little").decode("latin-1"))


def ordinary_names(options):
    return locks_in_turn(options, "ordinary")


MADE_BY = {
    "gated-requests": gated_requests,
    "alternating-gates": alternating_gates,
    "early-and-late": early_and_late,
    "few-threads": few_threads,
    "all-pairs": all_pairs,
    "two-orders": two_orders,
    "all-locks": all_locks,
    "nested-locks": nested_locks,
    "windows": windows,
    "phases": phases,
    "barriers": barriers,
    "writers": writers,
    "tree": tree,
    "layers": layers,
    "item-locks": lambda options: Server(options).cache(),
    "long-sections": lambda options: Server(options).cache(),
    "connections": lambda options: Server(options).connections(),
    "lock-table": lambda options: Server(options).table(),
    "shared-code": shared_code,
    "colliding-names": colliding_names,
    "ordinary-names": ordinary_names,
}


def parser_of_options():
    parser = argparse.ArgumentParser(description=__doc__, formatter_class=argparse.RawDescriptionHelpFormatter)
    parser.add_argument("--shape", choices=sorted(SETTINGS), default="few-locks")
    parser.add_argument("--events", type=int, default=1_000_000, help="about how many lines")
    parser.add_argument("--seed", type=int, default=1)
    parser.add_argument("--threads", type=int, help="at most 1,024")
    parser.add_argument("--locks", type=int)
    parser.add_argument(
        "--depth", type=int, help="most locks of a block, at most 64; layers, or locks below one of a tree"
    )
    parser.add_argument("--sections", type=int, help="pieces of code, each with its locks")
    parser.add_argument("--disorder", type=float, help="share of the pieces that take locks in any order")
    parser.add_argument("--shared", type=float, help="share of the locks of each piece that are taken in shared mode")
    parser.add_argument("--name-length", type=int, help="least bytes of each name")
    parser.add_argument("--locations", type=int)
    parser.add_argument("--others", type=float, help="chance of another operation before each line")
    parser.add_argument("--strays", type=float, help="share of blocks that release what isn't held")
    parser.add_argument("--waves", type=int, help="groups of threads, forked and joined one after the other")
    parser.add_argument("--rejoins", type=int, help="further joins of threads that have ended")
    parser.add_argument("--segments", type=int, help="how often a knot's thread runs its piece, a connection its calls")
    parser.add_argument("--gates", type=int, help="gate locks: of a knot, fewer than its pieces of code; where --gated")
    parser.add_argument("--at-once", type=int, help="of windows: threads that are there at once")
    parser.add_argument("--events-a-section", type=int, help="of a cache: how long its maintainer's own lock is held")
    parser.add_argument("--tried", type=float, help="of a server: share of the locks inside another that are tried")
    parser.add_argument("--common", type=int, help="of all pairs: locks that each thread has, beside those of its own")
    gated, in_turn = "of all pairs: under one gate lock; of nested locks: of --gates", "of all pairs: thread by thread"
    parser.add_argument("--gated", dest="is_gated", action="store_true", default=None, help=gated)
    parser.add_argument("--in-turn", dest="is_in_turn", action="store_true", default=None, help=in_turn)
    parser.add_argument("--crlf", action="store_true", help="lines end with CR LF")
    return parser


def complete(options):
    """What isn't given is the shape's."""
    for name, value in {**GENERAL, **SETTINGS[options.shape]}.items():
        if getattr(options, name, None) is None:
            grows = name == "locks" and options.shape in SERVERS
            setattr(options, name, max(4, round(value * options.events / RECORDED)) if grows else value)


def mistake(options):
    """Why there is no such trace; None where there is one."""
    shape = options.shape
    threads = 3 if shape in SERVERS else 2 if options.waves or shape in TURNS else 1
    for name, least, most in [
        ("events", 0, 10**9), ("threads", threads, 1_024), ("locks", 1, 10**8), ("depth", 1, 64),
        ("sections", 1, 10**8), ("disorder", 0, 1), ("name_length", 0, 30_000), ("locations", 1, 10**8),
        ("others", 0, 0.95), ("strays", 0, 1), ("waves", 1 if shape in ("phases", "barriers") else 0, 1_023), ("rejoins", 0, 10**8),
        ("shared", 0, 1), ("segments", 1, 10**6), ("gates", 1, 60), ("at_once", 1, 1_023),
        ("events_a_section", 0, 10**6), ("tried", 0, 1), ("common", 0, 10**8),
    ]:  # fmt: skip
        if not least <= getattr(options, name) <= most:
            return f"--{name.replace('_', '-')} is from {least} to {most}"
    is_dense_amiss = shape in DENSE and not 2 <= options.locks <= 64
    is_knot_amiss = shape in KNOTS and (options.sections < 3 or options.gates >= options.sections)
    is_sparse_amiss = shape == "tree" and options.locks < 2 or shape == "layers" and options.depth < 2
    is_too_deep = (shape in NESTED and options.is_gated or shape in WRITERS) and options.depth == 64
    is_alone = shape == "barriers" and options.threads < 2 * (options.waves + 1)
    for is_amiss, why in [
        (options.is_ring and options.depth > options.locks, "--depth is at most --locks in a ring"),
        (is_dense_amiss, "a dense graph has 2 to 64 --locks, as a thread may hold so many"),
        (is_too_deep, "--depth is at most 63 under another lock, as a thread may hold 64 locks"),
        (is_sparse_amiss, "a tree has --locks from 2 on, and layers have --depth from 2 on"),
        (is_knot_amiss, "a knot has three --sections or more, and fewer --gates"),
        (is_alone, "of --threads two or more meet, and each has another one for each of --waves"),
    ]:
        if is_amiss:
            return why
    return None


def main():
    parser = parser_of_options()
    options = parser.parse_args()
    complete(options)
    if (refusal := mistake(options)) is not None:
        parser.error(refusal)
    if options.shape in MADE_BY:
        texts = [line + "\n" for line in MADE_BY[options.shape](options)]
    else:
        texts = Maker(options).make()
    try:
        for at in range(0, len(texts), 50_000):
            sys.stdout.buffer.write("".join(texts[at : at + 50_000]).encode("latin-1"))
    except BrokenPipeError:
        sys.stderr.close()


if __name__ == "__main__":
    main()
