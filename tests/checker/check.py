#!/usr/bin/env python3
"""Checks a report against its trace: a checker that isn't goodlock's.

    check.py < INPUT

The bytes before the input's first LF are a report, as `predict --json` prints it (format 1 or 2; with `--findings` format 3);
the bytes after it are the trace. Prints `ok, cycles: N` or, where the report shows that there is no cycle of any length in its
mode, `ok, cycles: 0, none of any length`, or for format 3 `ok, findings: N`, with status 0; else what is wrong on standard
error, with status 2.

It is written from docs/RULES.md and the formats, and shares nothing with goodlock nor with reference.py. Who has made the
report isn't trusted: the edges are the trace's own, and each listed cycle is judged anew. That the list is complete
isn't checked, nor `more`, nor that a finding is shown by its first cycle.
"""

import functools
import json
import math
import re
import sys
import typing

LINE_LIMIT = 65_536
HELD_LIMIT = 64
DEPTH_LIMIT = 1_000_000
THREAD_LIMIT = 1_024
NEST_LIMIT = 127

EXCLUSIVE, SHARED = 0, 1  # the lesser first
LETTERS = ["x", "s"]
MODE_OF = {b"acq": EXCLUSIVE, b"racq": SHARED, b"tryacq": EXCLUSIVE, b"tryracq": SHARED}
WAITING = (b"acq", b"racq")
RELEASES = (b"rel", b"rrel")
LINKS = (b"fork", b"join")
WATCHED = frozenset((*MODE_OF, *RELEASES, *LINKS))

# What is wrong, by the fault's name: its place and the line that tells it.
LINES = {
    "Line": "line {}: {}",
    "Json": "report is not JSON",
    "Shape": "report has the wrong shape",
    "Inconsistent": "inconsistent: {}.{} precedes itself",
    "Table": "table entry {} is wrong",
    "Edge": "cycle {} edge {} is not in the trace",
    "Verdict": "cycle {} is not valid",
    "Order": "cycle {} is out of order",
    "Trim": "trim entry {} is wrong",
}


class Fault(Exception):
    """Why the answer isn't yes: a name of LINES and what its line tells, names as bytes."""

    def line(self):
        name, *parts = self.args
        # latin-1 gives each byte of a name back as it was
        shown = [part.decode("latin-1") if isinstance(part, bytes) else part for part in parts]
        return f"goodlock: {LINES[name].format(*shown)}\n".encode("latin-1")


# --- The trace ------------------------------------------------------------------------------------------


class Edge(typing.NamedTuple):
    """Edges are in order by these fields."""

    thread: int
    held: int
    held_mode: int
    wanted: int
    wanted_mode: int
    first: int
    second: int
    guards: tuple  # of pairs of a lock and its mode


class Held:
    """A lock that a thread holds: how deep, and what its outermost acquire says."""

    def __init__(self, mode, segment, location):
        self.depth = 0
        self.mode, self.segment, self.location = mode, segment, location


@functools.lru_cache(maxsize=1000)  # a line may be there very often
def read_fields(line):
    """Thread, word, operand and location of a line that tells an event; nothing for one that is passed over; or what is wrong
    with it, whatever stands before it."""
    if len(line) > LINE_LIMIT:
        return "line too long"
    if line == b"":
        return None
    fields = line.split(b"|", 2)
    if len(fields) < 3:
        return ["no bar", "no location field"][len(fields) - 1]
    name, call, location = fields
    if name == b"":
        return "no thread"
    word, parenthesis, operand = call.partition(b"(")
    if word not in WATCHED:
        return None
    if parenthesis == b"" or not operand.endswith(b")") or operand == b")":
        return "bad operand"
    if word in LINKS and operand[:-1] == name:
        return "thread forks or joins itself"
    return name, word, operand[:-1], location


class Trace:
    """What the text tells: names with their numbers, edges with their samples, and the steps between segments."""

    def __init__(self, text):
        self.threads, self.locks = {}, {}  # numbers by name
        self.held = []  # by thread, a Held by lock
        self.places = []  # by thread, how many events it had so far
        self.last = []  # by thread, its latest segment
        self.samples = {}  # by edge: place, held_at, wanted_at
        self.links = []  # word, thread, its segment, the other thread
        ended = text.split(b"\n")
        last = ended.pop()
        lines = [line[:-1] if line.endswith(b"\r") else line for line in ended]
        for number, line in enumerate([*lines, last], 1):  # an empty last one is passed over like others
            problem = self.read(line)
            if problem is not None:
                raise Fault("Line", number, problem)
        self.edges = sorted(self.samples)
        self.thread_names, self.lock_names = list(self.threads), list(self.locks)

    def read(self, line):
        """Takes the line's event; or answers what is wrong with the line."""
        told = read_fields(line)
        if not isinstance(told, tuple):
            return told
        name, word, operand, location = told
        thread = self.threads.get(name)
        held = self.held[thread] if thread is not None else {}
        entry = held.get(self.locks.get(operand))
        if word in RELEASES and entry is None:
            return None
        if word in MODE_OF:
            if entry is None and len(held) == HELD_LIMIT:
                return "too many locks held"
            if entry is not None and entry.depth == DEPTH_LIMIT:
                return "lock taken too often"
            if entry is not None and entry.mode == SHARED and MODE_OF[word] == EXCLUSIVE:
                return "shared lock taken exclusively"
        if thread is None or word in LINKS:
            mentioned = {name, operand} if word in LINKS else {name}
            if len(self.threads) + len(mentioned - self.threads.keys()) > THREAD_LIMIT:
                return "too many threads"
        thread = self.thread(name)
        if word in LINKS:
            self.links.append((word, thread, self.last[thread], self.thread(operand)))
            self.last[thread] += 1
        elif word in RELEASES:
            entry.depth -= 1
            if entry.depth == 0:
                del held[self.locks[operand]]
        else:
            self.acquire(word, thread, self.locks.setdefault(operand, len(self.locks)), location)
        self.places[thread] += 1
        return None

    def thread(self, name):
        if name not in self.threads:
            self.threads[name] = len(self.threads)
            self.held.append({})
            self.places.append(0)
            self.last.append(0)
        return self.threads[name]

    def acquire(self, word, thread, lock, location):
        held, segment, mode = self.held[thread], self.last[thread], MODE_OF[word]
        if lock not in held:
            if word in WAITING:
                guards = tuple(sorted((guard, entry.mode) for guard, entry in held.items()))
                for guard, entry in held.items():
                    edge = Edge(thread, guard, entry.mode, lock, mode, entry.segment, segment, guards)
                    # the least place is the first one
                    self.samples.setdefault(edge, (self.places[thread], entry.location, location))
            held[lock] = Held(mode, segment, location)
        held[lock].depth += 1


class Order:
    """Which segment is before which: for each segment, how many of each thread's are before it."""

    def __init__(self, trace):
        self.after = {(t, i): [(t, i + 1)] for t, last in enumerate(trace.last) for i in range(last)}
        self.after |= {(t, last): [] for t, last in enumerate(trace.last)}
        for word, thread, segment, other in trace.links:
            if word == b"fork":
                self.after[thread, segment].append((other, 0))
            else:
                self.after[other, trace.last[other]].append((thread, segment + 1))
        coming = dict.fromkeys(self.after, 0)
        for followers in self.after.values():
            for follower in followers:
                coming[follower] += 1
        ready = [segment for segment, count in coming.items() if count == 0]
        self.ahead = {segment: {} for segment in self.after}
        done = 0
        while ready:
            segment = ready.pop()
            done += 1
            known = self.ahead[segment] | {segment[0]: segment[1] + 1}
            for follower in self.after[segment]:
                counts = self.ahead[follower]
                for thread, count in known.items():
                    counts[thread] = max(count, counts.get(thread, 0))
                coming[follower] -= 1
                if coming[follower] == 0:
                    ready.append(follower)
        if done < len(self.after):
            thread, index = next(segment for segment in sorted(self.after) if self.is_in_loop(segment))
            raise Fault("Inconsistent", trace.thread_names[thread], index)

    def is_in_loop(self, start):
        seen, ready = set(), [start]
        while ready:
            for follower in self.after[ready.pop()]:
                if follower == start:
                    return True
                if follower not in seen:
                    seen.add(follower)
                    ready.append(follower)
        return False

    def is_before(self, segment, other):
        thread, index = segment
        return index < self.ahead[other].get(thread, 0)


# --- What may follow what -------------------------------------------------------------------------------


def leads_on(edge, other):
    """Whether the edge wants the lock that the other one holds, and not both as readers."""
    return edge.wanted == other.held and not (edge.wanted_mode == other.held_mode == SHARED)


def gates(edge, other):
    """The locks that guard both, and not as readers both, ascending."""
    modes = dict(other.guards)
    return [lock for lock, mode in edge.guards if lock in modes and not (mode == modes[lock] == SHARED)]


def are_ordered(edge, other, order):
    def is_over(one, next_one):
        return order.is_before((one.thread, one.second), (next_one.thread, next_one.first))

    return is_over(edge, other) or is_over(other, edge)


def are_compatible(mode, order, edge, other):
    return (
        leads_on(edge, other)
        and edge.thread != other.thread
        and not (mode != "basic" and gates(edge, other))
        and not (mode == "full" and are_ordered(edge, other, order))
    )


def verdict(mode, length, order, cycle):
    """Why these edges are no cycle of the mode, of at most so many edges; nothing where they are one."""
    count = len(cycle)
    if count < 2:
        return ("TooShort",)
    if count > length:
        return ("TooLong",)
    pairs = [(i, j) for i in range(count) for j in range(i + 1, count)]
    refusals = [("NotClosed", i) for i in range(count) if not leads_on(cycle[i], cycle[(i + 1) % count])]
    refusals += [("SameLock", i, j) for i, j in pairs if cycle[i].held == cycle[j].held]
    refusals += [("SameThread", i, j) for i, j in pairs if cycle[i].thread == cycle[j].thread]
    refusals += [("NotLeast", i) for i in range(count) if cycle[i].thread < cycle[0].thread]
    if mode != "basic":
        refusals += [("SharedGuard", i, j, lock) for i, j in pairs for lock in gates(cycle[i], cycle[j])]
    if mode == "full":
        refusals += [("Ordered", i, j) for i, j in pairs if are_ordered(cycle[i], cycle[j], order)]
    return refusals[0] if refusals else None


# --- The report -----------------------------------------------------------------------------------------

STRING = re.compile(r'"(?:[^"\\]|\\.)*"')


def read_json(text):
    """The value of a JSON text. A whole number that is too long is a float, as -0 is."""

    def real(digits):
        number = float(digits)
        if math.isinf(number):
            raise ValueError(f"too large: {digits}")
        return number

    def whole(digits):
        return int(digits) if len(digits) <= 20 and digits != "-0" else real(digits)

    def refused(word):
        raise ValueError(f"no JSON: {word}")

    try:
        text = text.decode("utf-8")
        value = json.loads(text, parse_int=whole, parse_float=real, parse_constant=refused)
    except (ValueError, RecursionError):
        raise Fault("Json") from None
    nesting = 0
    for bracket in re.finditer(r"[][{}]", STRING.sub("", text)):
        nesting += 1 if bracket[0] in "[{" else -1
        if nesting > NEST_LIMIT:
            raise Fault("Json")
    if any(
        "\ud800" <= sign <= "\udfff" for token in STRING.findall(text) if "\\u" in token for sign in json.loads(token)
    ):
        raise Fault("Json")
    return value


def is_number(value, least=0, most=2**32 - 1):
    return type(value) is int and least <= value <= most


def is_array(value, is_item):
    return isinstance(value, list) and all(map(is_item, value))


def is_text(value):
    return isinstance(value, str)


def is_letter(value):
    return is_text(value) and value in LETTERS


def has_keys(value, kinds):
    """An object with exactly these keys, each with its kind of value."""
    return isinstance(value, dict) and value.keys() == kinds.keys() and all(kinds[key](value[key]) for key in kinds)


def is_texts(value):
    return is_array(value, is_text)


PLAIN_EDGE = {"first": is_number, "second": is_number, "place": is_number, "guards": is_texts}
PLAIN_EDGE |= dict.fromkeys(["thread", "held", "held_at", "wanted", "wanted_at"], is_text)
FULL_EDGE = PLAIN_EDGE | dict.fromkeys(["held_mode", "wanted_mode"], is_letter)
FULL_EDGE["guard_modes"] = lambda value: is_array(value, is_letter)


def is_plain_edge(value):
    return has_keys(value, PLAIN_EDGE)


def is_full_edge(value):
    return has_keys(value, FULL_EDGE) and len(value["guards"]) == len(value["guard_modes"])


ASKED = {
    "len": lambda value: is_number(value, 2, 16),
    "max": lambda value: is_number(value, 1, 100_000),
    "mode": lambda value: is_text(value) and value in ("basic", "guarded", "full"),
    "more": lambda value: isinstance(value, bool),
}
FORMATS = {
    1: ASKED
    | {"format": is_number, "cycles": lambda value: is_array(value, lambda cycle: is_array(cycle, is_plain_edge))},
    2: ASKED
    | {
        "format": is_number,
        "edges": lambda value: is_array(value, is_full_edge),
        "cycles": lambda value: is_array(value, lambda cycle: is_array(cycle, is_number)),
        "trim": lambda value: value is None or is_array(value, is_number),
    },
    3: ASKED
    | {
        "format": is_number,
        "edges": lambda value: is_array(value, is_full_edge),
        "findings": lambda value: is_array(value, lambda cycle: is_array(cycle, is_number)),
    },
}


def listed_as(report):
    """What a report of this format lists."""
    return "findings" if report["format"] == 3 else "cycles"


def has_shape(report):
    if not isinstance(report, dict) or not is_number(report.get("format"), 1, 3):
        return False
    if not has_keys(report, FORMATS[report["format"]]):
        return False
    listed = report[listed_as(report)]
    if len(listed) > report["max"]:
        return False
    return report["format"] == 1 or all(at < len(report["edges"]) for cycle in listed for at in cycle)


def escaped(name):
    """Printable ASCII but the backslash is itself, every other byte is `\\x` and two hexadecimal digits."""
    return re.sub(r"[^ -~]|\\", lambda found: f"\\x{ord(found[0]):02x}", name.decode("latin-1"))


def printed(trace, edge, report_format):
    """The edge with its sample, as a report of this format has it."""
    place, held_at, wanted_at = trace.samples[edge]
    shown = {
        "first": edge.first,
        "guards": [escaped(trace.lock_names[lock]) for lock, _ in edge.guards],
        "held": escaped(trace.lock_names[edge.held]),
        "held_at": escaped(held_at),
        "place": place,
        "second": edge.second,
        "thread": escaped(trace.thread_names[edge.thread]),
        "wanted": escaped(trace.lock_names[edge.wanted]),
        "wanted_at": escaped(wanted_at),
    }
    if report_format != 1:
        shown["guard_modes"] = [LETTERS[mode] for _, mode in edge.guards]
        shown["held_mode"], shown["wanted_mode"] = LETTERS[edge.held_mode], LETTERS[edge.wanted_mode]
    return shown


def is_exclusive(edge):
    return edge.held_mode == edge.wanted_mode == EXCLUSIVE and all(mode == EXCLUSIVE for _, mode in edge.guards)


# --- The answer -----------------------------------------------------------------------------------------


def check_table(trace, claimed):
    """The report's edges are the trace's, one by one."""
    own = [printed(trace, edge, 2) for edge in trace.edges]
    for at in range(max(len(own), len(claimed))):
        if at >= len(own) or at >= len(claimed) or own[at] != claimed[at]:
            raise Fault("Table", at)


def told_signature(classes, positions):
    """The classes of these edges, told from where round the cycle they read least."""
    least = told = [classes[position] for position in positions]
    for _ in positions:
        told = told[1:] + told[:1]
        least = min(least, told)
    return least


def classes_of(trace):
    """For each edge the first one that has the same pair of places."""
    firsts = {}
    return [firsts.setdefault(trace.samples[edge][1:], at) for at, edge in enumerate(trace.edges)]


def check_cycles(trace, order, report, position_of, told_by=lambda positions: positions):
    """Each cycle is one of the mode and length, and they ascend by what each is told by."""
    before = None
    for at, cycle in enumerate(report[listed_as(report)]):
        positions = []
        for k, shown in enumerate(cycle):
            positions.append(position_of(shown))
            if positions[-1] is None:
                raise Fault("Edge", at, k)
        edges = [trace.edges[position] for position in positions]
        found = verdict(report["mode"], report["len"], order, edges)
        if found is not None:
            raise Fault("Verdict", at, found)
        told = told_by(positions)
        if before is not None and not before < told:
            raise Fault("Order", at)
        before = told


def check_trim(trace, order, mode, removed):
    """The edges go one by one, each without a compatible follower or without a compatible leader among those left."""
    edges = trace.edges
    holding, wanting = {}, {}  # positions by the edges' locks
    for at, edge in enumerate(edges):
        holding.setdefault(edge.held, []).append(at)
        wanting.setdefault(edge.wanted, []).append(at)
    is_left = [True] * len(edges)
    for i, at in enumerate(removed):
        if at >= len(edges) or not is_left[at]:
            raise Fault("Trim", i)
        edge = edges[at]
        followers, leaders = holding.get(edge.wanted, []), wanting.get(edge.held, [])
        has_follower = any(is_left[j] and are_compatible(mode, order, edge, edges[j]) for j in followers)
        if has_follower and any(is_left[j] and are_compatible(mode, order, edges[j], edge) for j in leaders):
            raise Fault("Trim", i)
        is_left[at] = False
    if any(is_left):
        raise Fault("Trim", len(removed))


def check(text, trace_text):
    """How many cycles or findings are listed, whether there is no cycle of any length, and which of both are listed; or a Fault."""
    trace = Trace(trace_text)
    report = read_json(text)
    if not has_shape(report):
        raise Fault("Shape")
    order = Order(trace)
    if report["format"] == 2:
        check_table(trace, report["edges"])
        check_cycles(trace, order, report, lambda position: position)
        if report["trim"] is not None:
            check_trim(trace, order, report["mode"], report["trim"])
        return len(report["cycles"]), report["trim"] is not None, "cycles"
    if report["format"] == 3:
        check_table(trace, report["edges"])
        classes = classes_of(trace)
        check_cycles(trace, order, report, lambda position: position, lambda cycle: told_signature(classes, cycle))
        return len(report["findings"]), False, "findings"
    # An edge of format 1 says nothing of modes: it stands for one whose modes are all exclusive.
    known = {
        json.dumps(printed(trace, edge, 1), sort_keys=True): at
        for at, edge in enumerate(trace.edges)
        if is_exclusive(edge)
    }
    check_cycles(trace, order, report, lambda shown: known.get(json.dumps(shown, sort_keys=True)))
    return len(report["cycles"]), False, "cycles"


def judge(text, trace_text):
    """What `check` gives, or the Fault that it raises."""
    try:
        return check(text, trace_text)
    except Fault as fault:
        return fault


def shown(judged):
    """Standard output, standard error and status for what was judged."""
    if isinstance(judged, Fault):
        return b"", judged.line(), 2
    count, is_acyclic, word = judged
    return f"ok, {word}: {count}{', none of any length' if is_acyclic else ''}\n".encode(), b"", 0


def answer(text):
    """Standard output, standard error and status for an input: a report's line and a trace."""
    report, _, trace = text.partition(b"\n")
    return shown(judge(report, trace))


def main():
    if sys.argv[1:]:
        print(__doc__, file=sys.stderr)
        return 2
    output, errors, status = answer(sys.stdin.buffer.read())
    sys.stdout.buffer.write(output)
    sys.stdout.flush()
    sys.stderr.buffer.write(errors)
    return status


if __name__ == "__main__":
    sys.exit(main())
