#!/usr/bin/env python3
"""A slow, plain reference of goodlock, written straight from the definitions.

It counts over prefixes, follows chains of steps and selects among lists of edges. Nothing is indexed,
cached or searched cleverly, so it is for small traces only.

    reference.py [predict|live|stats|replay] [--stage first|full] [--mode M] [--len L] [--max N] [--findings] [--json]
        [--format 1|2] [--skip-forks] < trace.std

The command is predict unless it is given; `--findings` and `--json` are for predict and live: findings are listed in place of
cycles, and `--format` says which form of JSON (2; findings have a form of their own, 3).
Stage `first` is mode basic, length 2, and forks and joins are skipped like any other operation; stage `full` (the
default) is mode full, length 4. Both list at most 1,000 cycles.
"""

import json
import sys
import typing

LINE_LIMIT = 65_536
HELD_LIMIT = 64
DEPTH_LIMIT = 1_000_000
THREAD_LIMIT = 1_024

EXCLUSIVE, SHARED = 0, 1  # in the order in which edges are listed
MODES = {"acq": EXCLUSIVE, "racq": SHARED, "tryacq": EXCLUSIVE, "tryracq": SHARED}
ACQUIRES = tuple(MODES)
WAITING = ("acq", "racq")  # an acquire that was tried could not have waited
RELEASES = ("rel", "rrel")
LINKS = ("fork", "join")

EMPTY, SKIPPED, STRAY = "empty", "skipped", "stray"  # lines that tell no event


class Query:
    def __init__(self, mode="full", length=4, most=1000, with_forks=True, threads=THREAD_LIMIT, findings=False):
        self.mode = mode  # "basic", "guarded" or "full"
        self.length = length
        self.most = most
        self.with_forks = with_forks
        self.threads = threads  # the most of a trace
        self.findings = findings  # listed in place of cycles


STAGES = {"first": Query("basic", 2, 1000, False), "full": Query("full", 4, 1000, True)}


class Refused(Exception):
    """Why there is no answer, as standard error says it."""


# --- The text -----------------------------------------------------------------------------------


def lines_of(text):
    """A line ends at LF, and one CR just before it is dropped. A last line without LF keeps its CR."""
    pieces = text.split(b"\n")
    ended, last = pieces[:-1], pieces[-1]
    lines = [piece[:-1] if piece.endswith(b"\r") else piece for piece in ended]
    return lines + ([last] if last != b"" else [])


def depth(events, lock):
    """Acquires less releases of the lock among these events of one thread."""
    words = [word for word, operand, _ in events if operand == lock]
    return sum(word in ACQUIRES for word in words) - sum(word in RELEASES for word in words)


def held(events):
    return {e[1] for e in events if e[0] in ACQUIRES and depth(events, e[1]) > 0}


def opened(events, lock):
    """The last place at which the lock was acquired at depth 0."""
    return max(q for q, e in enumerate(events) if e[0] in ACQUIRES and e[1] == lock and depth(events[:q], lock) == 0)


def held_mode(events, lock):
    """The mode of a held lock is that of its outermost acquire."""
    return MODES[events[opened(events, lock)][0]]


def threads_of(kept):
    """Names of threads by first mention: the acting thread comes before an operand that is one."""
    names = []
    for thread, (word, operand, _) in kept:
        for name in [thread] + ([operand] if word in LINKS else []):
            if name not in names:
                names.append(name)
    return names


def locks_of(kept):
    names = []
    for _, (word, operand, _) in kept:
        if word in ACQUIRES + RELEASES and operand not in names:
            names.append(operand)
    return names


def judge(line, kept, query):
    """An event (thread, (word, operand, location)), or what else the line is."""
    if len(line) > LINE_LIMIT:
        raise ValueError("line too long")
    if line == b"":
        return EMPTY
    fields = line.split(b"|", 2)
    if len(fields) == 1:
        raise ValueError("no bar")
    if len(fields) == 2:
        raise ValueError("no location field")
    thread, call, location = fields
    if thread == b"":
        raise ValueError("no thread")
    word = call.split(b"(", 1)[0].decode("latin-1")
    if word not in ACQUIRES + RELEASES + (LINKS if query.with_forks else ()):
        return SKIPPED
    if b"(" not in call or not call.endswith(b")"):
        raise ValueError("bad operand")
    operand = call.split(b"(", 1)[1][:-1]
    if operand == b"":
        raise ValueError("bad operand")
    if word in LINKS and operand == thread:
        raise ValueError("thread forks or joins itself")
    before = [event for acting, event in kept if acting == thread]
    depth_before = depth(before, operand)
    if word in RELEASES and depth_before == 0:
        return STRAY
    if word in ACQUIRES:
        if depth_before == 0 and len(held(before)) == HELD_LIMIT:
            raise ValueError("too many locks held")
        if depth_before == DEPTH_LIMIT:
            raise ValueError("lock taken too often")
        if depth_before > 0 and held_mode(before, operand) == SHARED and MODES[word] == EXCLUSIVE:
            raise ValueError("shared lock taken exclusively")
    event = (thread, (word, operand, location))
    events = kept + [event]  # each of which names two threads at most
    if 2 * len(events) > query.threads and len(threads_of(events)) > query.threads:
        raise ValueError("too many threads")
    return event


class Trace(typing.NamedTuple):
    """What a text tells. Names have their numbers by position; operands of the events are numbers."""

    threads: list
    locks: list
    lists: list  # by thread
    skipped: int
    stray: int


def trace_of(text, query):
    """The trace of the text; or the first line with a fault."""
    kept, others = [], []
    for number, line in enumerate(lines_of(text), 1):
        try:
            told = judge(line, kept, query)
        except ValueError as fault:
            raise Refused(b"line %d: %s" % (number, str(fault).encode())) from None
        (others if told in (EMPTY, SKIPPED, STRAY) else kept).append(told)
    threads, locks = threads_of(kept), locks_of(kept)

    def numbered(event):
        word, operand, location = event
        return word, (threads if word in LINKS else locks).index(operand), location

    lists = [[numbered(event) for acting, event in kept if acting == name] for name in threads]
    return Trace(threads, locks, lists, others.count(SKIPPED), others.count(STRAY))


# --- Segments and their order ---------------------------------------------------------------------


def segment(events):
    """Forks and joins among these events of one thread."""
    return sum(1 for e in events if e[0] in LINKS)


def segments_of(lists):
    return [(t, i) for t, events in enumerate(lists) for i in range(segment(events) + 1)]


def is_step(lists, a, b):
    """One step of happens-before: program order, a fork to its thread's start, a thread's end to a join.
    Operands of forks and joins are thread numbers here."""
    t, i = a
    u, j = b
    if t == u and j == i + 1:
        return True
    for p, (word, operand, _) in enumerate(lists[t]):
        if word == "fork" and operand == u and segment(lists[t][:p]) == i and j == 0:
            return True
    for p, (word, operand, _) in enumerate(lists[u]):
        if word == "join" and operand == t and segment(lists[t]) == i and segment(lists[u][:p]) + 1 == j:
            return True
    return False


def before_relation(lists):
    """All pairs (a, b) for which a chain of one or more steps leads from a to b."""
    segments = segments_of(lists)
    steps = {(a, b) for a in segments for b in segments if is_step(lists, a, b)}
    chains = set(steps)
    while True:
        longer = {(a, c) for a, b in chains for b2, c in steps if b == b2} - chains
        if not longer:
            return chains
        chains |= longer


# --- Edges ------------------------------------------------------------------------------------------


class Edge(typing.NamedTuple):
    """Edges are ordered by these fields, in this order."""

    thread: int
    held: int
    held_mode: int
    wanted: int
    wanted_mode: int
    first: int  # the segment in which the held lock was opened
    second: int  # the segment of the acquire
    guards: tuple  # pairs of a held lock and its mode, ascending


def edges_at(t, events, p):
    """Pairs of an edge and its sample that the event at place p makes."""
    word, wanted, location = events[p]
    earlier = events[:p]
    if word not in WAITING or depth(earlier, wanted) > 0:
        return []
    guards = tuple((lock, held_mode(earlier, lock)) for lock in sorted(held(earlier)))
    made = []
    for lock, mode in guards:
        q = opened(earlier, lock)
        edge = Edge(t, lock, mode, wanted, MODES[word], segment(events[:q]), segment(earlier), guards)
        made.append((edge, (p, events[q][2], location)))
    return made


def edges_of(lists):
    """Each edge once, with its sample of least place."""
    table = {}
    for t, events in enumerate(lists):
        for p in range(len(events)):
            for edge, sample in edges_at(t, events, p):
                if edge not in table or sample[0] < table[edge][0]:
                    table[edge] = sample
    return table


# --- Cycles -----------------------------------------------------------------------------------------


def waits_for(edge, other):
    """Whether the edge wants the lock that the other one holds, and not both share it."""
    return edge.wanted == other.held and not (edge.wanted_mode == SHARED and other.held_mode == SHARED)


def have_clashing_guards(edge, other):
    """Whether a common guard is held exclusively by one of them."""
    return any(
        lock == other_lock and not (mode == SHARED and other_mode == SHARED)
        for lock, mode in edge.guards
        for other_lock, other_mode in other.guards
    )


def are_ordered(edge, other, before):
    """Whether one of them is over before the other begins."""

    def precedes(e, f):
        return ((e.thread, e.second), (f.thread, f.first)) in before

    return precedes(edge, other) or precedes(other, edge)


def longer_lists(lists, edges):
    """These lists, each with one more edge, of another held lock, that its last one waits for; with each such edge."""
    return [
        front + [e]
        for front in lists
        for e in edges
        if waits_for(front[-1], e) and e.held not in [f.held for f in front]
    ]


def is_cycle(cycle, before, mode):
    threads = [e.thread for e in cycle]
    helds = [e.held for e in cycle]
    if len(cycle) < 2:
        return False
    if not all(waits_for(cycle[i], cycle[(i + 1) % len(cycle)]) for i in range(len(cycle))):
        return False
    if len(set(threads)) < len(threads) or len(set(helds)) < len(helds):
        return False
    if threads[0] != min(threads):
        return False
    pairs = [(e, f) for i, e in enumerate(cycle) for f in cycle[i + 1 :]]
    if mode in ("guarded", "full") and any(have_clashing_guards(e, f) for e, f in pairs):
        return False
    if mode == "full" and any(are_ordered(e, f, before) for e, f in pairs):
        return False
    return True


def cycles_of(edges, before, query):
    lists, candidates = [[e] for e in edges], []
    for _ in range(2, query.length + 1):
        lists = longer_lists(lists, edges)
        candidates += lists
    return sorted(c for c in candidates if is_cycle(c, before, query.mode))


# --- Findings ---------------------------------------------------------------------------------------


def class_of(samples, edge):
    """The position of the first of all edges, in ascending order, that has the pair of places of this one's sample:
    where the held lock was acquired and the wanted one asked for."""
    return next(at for at, other in enumerate(sorted(samples)) if samples[other][1:] == samples[edge][1:])


def signature_of(classes, cycle):
    """The classes of the cycle's edges, told from where round the cycle they come first in lexicographic order."""
    told = [classes[edge] for edge in cycle]
    return min(told[k:] + told[:k] for k in range(len(told)))


def findings_of(samples, cycles):
    """Of ascending cycles the first one of each signature, by their signatures."""
    classes = {edge: class_of(samples, edge) for edge in samples}
    signatures = [signature_of(classes, cycle) for cycle in cycles]
    firsts = [(signatures[at], cycle) for at, cycle in enumerate(cycles) if signatures[at] not in signatures[:at]]
    return [cycle for _, cycle in sorted(firsts)]


def counts_of(samples, edge):
    """Of all edges that were made at this one's pair of places: how many threads made them, and how many locks they hold
    or want."""
    alike = [other for other in samples if samples[other][1:] == samples[edge][1:]]
    locks = [other.held for other in alike] + [other.wanted for other in alike]
    return len({other.thread for other in alike}), len(set(locks))


# --- Trimming ---------------------------------------------------------------------------------------


def may_follow(other, edge, before, mode):
    """Whether the other edge may come next after this one in a cycle of the mode."""
    if not waits_for(edge, other) or edge.thread == other.thread:
        return False
    if mode in ("guarded", "full") and have_clashing_guards(edge, other):
        return False
    return not (mode == "full" and are_ordered(edge, other, before))


def trimmed(edges, before, mode):
    """The edges that go, in this order: each time the least one that none of the rest may follow, or that may follow
    none of the rest. And those that stay."""
    left, gone = sorted(edges), []
    while True:
        stuck = [
            edge
            for edge in left
            if not any(may_follow(other, edge, before, mode) for other in left)
            or not any(may_follow(edge, other, before, mode) for other in left)
        ]
        if not stuck:
            return gone, left
        gone.append(stuck[0])
        left.remove(stuck[0])


# --- The report -------------------------------------------------------------------------------------


class Report(typing.NamedTuple):
    edges: dict  # with their samples
    cycles: list  # those that are listed, of findings those that show them
    more: bool
    before: set  # pairs of segments


def report_of(trace, query):
    """The report of the trace; or the least segment before itself."""
    before = before_relation(trace.lists)
    for t, i in segments_of(trace.lists):
        if ((t, i), (t, i)) in before:
            raise Refused(b"inconsistent: %s.%d precedes itself" % (trace.threads[t], i))
    edges = edges_of(trace.lists)
    cycles = cycles_of(sorted(edges), before, query)
    if query.findings:
        cycles = findings_of(edges, cycles)
    return Report(edges, cycles[: query.most], len(cycles) > query.most, before)


def as_text(trace, report, query):
    threads, locks = trace.threads, trace.locks
    text, word = b"", b"finding" if query.findings else b"cycle"
    for number, cycle in enumerate(report.cycles, 1):
        text += b"%s %d: %d edges\n" % (word, number, len(cycle))
        for edge in cycle:
            _, held_location, wanted_location = report.edges[edge]
            names = (threads[edge.thread], locks[edge.held], held_location, locks[edge.wanted], wanted_location)
            text += b"  %s holds %s since %s wants %s at %s\n" % names
            if query.findings:
                text += b"    threads: %d, locks: %d\n" % counts_of(report.edges, edge)
    more = b" (more)" if report.more else b""
    return text + b"%ss: %d%s\n" % (word, len(report.cycles), more)


def escaped(name):
    """Printable ASCII but the backslash is itself, every other byte two hexadecimal digits."""
    return "".join(chr(byte) if 0x20 <= byte <= 0x7E and byte != 0x5C else "\\x%02x" % byte for byte in name)


LETTERS = {EXCLUSIVE: "x", SHARED: "s"}


def as_json(trace, report, query, form):
    """Form 1 spells out the edges of each cycle; form 2 has all edges, with modes, and the cycles by their positions;
    form 3 is that of findings, each by the positions of the cycle that shows it."""

    def edge_object(edge):
        place, held_location, wanted_location = report.edges[edge]
        told = {
            "first": edge.first,
            "guards": [escaped(trace.locks[lock]) for lock, _ in edge.guards],
            "held": escaped(trace.locks[edge.held]),
            "held_at": escaped(held_location),
            "place": place,
            "second": edge.second,
            "thread": escaped(trace.threads[edge.thread]),
            "wanted": escaped(trace.locks[edge.wanted]),
            "wanted_at": escaped(wanted_location),
        }
        modes = {
            "guard_modes": [LETTERS[mode] for _, mode in edge.guards],
            "held_mode": LETTERS[edge.held_mode],
            "wanted_mode": LETTERS[edge.wanted_mode],
        }
        return told if form == 1 else told | modes

    asked = {"len": query.length, "max": query.most, "mode": query.mode}
    tree = {"format": form, "more": report.more, **asked}
    if form == 1:
        tree["cycles"] = [[edge_object(edge) for edge in cycle] for cycle in report.cycles]
    else:
        table = sorted(report.edges)
        tree["edges"] = [edge_object(edge) for edge in table]
        tree["findings" if form == 3 else "cycles"] = [[table.index(edge) for edge in cycle] for cycle in report.cycles]
        if form == 2:
            gone, left = trimmed(table, report.before, query.mode)
            tree["trim"] = None if left else [table.index(edge) for edge in gone]
    return json.dumps(tree, sort_keys=True, separators=(",", ":")).encode() + b"\n"


# --- The commands -----------------------------------------------------------------------------------


def predicted(text, query, form):
    trace = trace_of(text, query)
    report = report_of(trace, query)
    printed = as_json(trace, report, query, 3 if query.findings else form) if form else as_text(trace, report, query)
    return printed, b"", 1 if report.cycles else 0


def counted(text, query, _):
    """Eight numbers of the trace and its report."""
    trace = trace_of(text, query)
    report = report_of(trace, query)
    counts = [
        ("events", sum(len(events) for events in trace.lists)),
        ("skipped", trace.skipped),
        ("stray", trace.stray),
        ("threads", len(trace.threads)),
        ("locks", len(trace.locks)),
        ("segments", len(segments_of(trace.lists))),
        ("edges", len(report.edges)),
        ("cycles", len(report.cycles)),
    ]
    return "".join(f"{name}: {count}\n" for name, count in counts).encode(), b"", 0


def replayed(text, query, _):
    """Each thread's events as lines, thread by thread."""
    trace = trace_of(text, query)
    written = b""
    for thread, events in zip(trace.threads, trace.lists):
        for word, number, location in events:
            operand = (trace.threads if word in LINKS else trace.locks)[number]
            end = b"\r\n" if location.endswith(b"\r") else b"\n"
            written += b"%s|%s(%s)|%s%s" % (thread, word.encode(), operand, location, end)
    return written, b"", 0


# What live prints doesn't show its recorders, shards and rings.
COMMANDS = {"predict": predicted, "live": predicted, "stats": counted, "replay": replayed}


def answer(command, text, query, form=None):
    """Standard output, standard error and exit status; the form of JSON of cycles, or nothing for plain text."""
    try:
        return COMMANDS[command](text, query, form)
    except Refused as refused:
        return b"", b"goodlock: %s\n" % refused.args[0], 2


def predict(text, query):
    return answer("predict", text, query)


def main():
    import argparse

    parser = argparse.ArgumentParser(description=__doc__, formatter_class=argparse.RawDescriptionHelpFormatter)
    parser.add_argument("command", nargs="?", choices=list(COMMANDS), default="predict")
    parser.add_argument("--stage", choices=sorted(STAGES), default="full")
    parser.add_argument("--mode", choices=["basic", "guarded", "full"])
    parser.add_argument("--len", type=int, dest="length")
    parser.add_argument("--max", type=int, dest="most")
    parser.add_argument("--findings", action="store_true")
    parser.add_argument("--json", action="store_true")
    parser.add_argument("--format", type=int, choices=[1, 2], default=2)
    parser.add_argument("--skip-forks", action="store_true")
    options = parser.parse_args()
    stage = STAGES[options.stage]
    query = Query(
        options.mode or stage.mode,
        options.length or stage.length,
        options.most or stage.most,
        stage.with_forks and not options.skip_forks,
        findings=options.findings and options.command in ("predict", "live"),
    )
    output, errors, status = answer(
        options.command, sys.stdin.buffer.read(), query, options.format if options.json else None
    )
    sys.stdout.buffer.write(output)
    sys.stdout.flush()
    sys.stderr.buffer.write(errors)
    return status


if __name__ == "__main__":
    sys.exit(main())
