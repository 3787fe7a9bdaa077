#!/usr/bin/env python3
"""Runs the call scripts of crates/gl_scripts while one growth of theirs after the other is refused.

    scripts.py PROGRAM

A script prints each call's answer on a line. Where a call answers that there is no memory, it prints that, then what
the call left as it was, and then makes the call again: all that follows has to be as with ample memory. The answers,
and what is left where one is refused, are written by hand below. The preload library of refusals.py does the
refusing. The last line is `N passed, N failed`.
"""

import os
import sys
import tempfile
import typing

sys.dont_write_bytecode = True
import refusals  # noqa: E402

# --- Answers by hand ------------------------------------------------------------------------------------


class Call(typing.NamedTuple):
    name: str
    answer: str | None  # as it is printed, if it is
    left: str | None = None  # what is printed where memory is refused; a call without takes none
    again: int | None = None  # from which call the script goes on then, if not from this one


def acquire(lock, loc):
    return f"Acquire {{ mode: Exclusive, lock: LockId {{ number: {lock} }}, loc: LocId {{ number: {loc} }} }}"


def release(lock, loc):
    return acquire(lock, loc).replace("Acquire", "Release")


def fork(thread, loc):
    return f"Fork {{ thread: ThreadId {{ number: {thread} }}, loc: LocId {{ number: {loc} }} }}"


def join(thread, loc):
    return fork(thread, loc).replace("Fork", "Join")


def edge(held, wanted, place):
    """An edge whose only guard is the lock that is held."""
    guard = f"Guard {{ lock: LockId {{ number: {held} }}, mode: Exclusive }}"
    return Call("edge", f"({held}, {wanted}, [{guard}], {place})")


WORDS = Call("words", None, "()")

CROSSED = [edge(0, 1, 1), edge(1, 2, 3)]
CROSSED_RELEASES = [
    WORDS, Call("lists", None, "()"), Call("edges_of", None, "1"), Call("order", None, "1"), *CROSSED,
    Call("push", "1", "0"), Call("push", "2", "1"), *CROSSED,
    Call("trim", None, "2"), Call("kept", "[]"), Call("removed", "[0, 1]"),
]  # fmt: skip

LEAST_SAMPLE = [
    WORDS, Call("edge", None, "()"),
    Call("insert", "(1, Some(5))", "(0, None)"),
    Call("insert", "(1, Some(2))", "(1, Some(5))"),
    Call("insert", "(1, Some(2))", "(1, Some(2))"),
    Call("copy", "(1, Some(2))", "(1, Some(2))"),
]  # fmt: skip


def taken(place):
    return f"Taken({place})"


def pulls(place):
    return f"Pulled(Event {{ place: {place} }})"


def ended(count):
    return f"Pulled(Ended {{ count: {count} }})"


def misplaced(expected):
    return f"Refused(Misplaced {{ expected: {expected}, got: 0 }})"


def world(steps):
    """The steps of a world, which is drained after them, and its report."""
    calls, stream = [Call("world", None, "()")], 0
    for step in steps:
        takes_memory = step.split("(")[0] in ("Taken", "Ended", "Pulled", "Shipped", "Worked")
        calls.append(Call("step", f"Ok({step})", f"({stream}, false)" if takes_memory else None))
        stream += step.startswith("Pulled")
    return [*calls, Call("drained", "true"), Call("report", "Some((2, 1, false))", f"({stream}, true)")]


AT_ONCE = [
    *map(taken, (0, 1, 2, 3)), "Ended", *map(taken, (0, 1)), "Ended", *map(pulls, (0, 1, 2, 3)), ended(4),
    *map(pulls, (0, 1)), ended(2), "Shipped(0)", "Shipped(0)", "Worked", "Worked",
]  # fmt: skip
IN_TURN = [
    taken(0), pulls(0), misplaced(1), taken(0), pulls(0),
    taken(1), pulls(1), misplaced(2), taken(1), pulls(1),
    "Nothing", "Nothing", misplaced(2), taken(2), pulls(2),
    "Nothing", "Nothing", misplaced(2), taken(3), pulls(3),
    "Nothing", "Nothing", misplaced(2), "Nothing", "Nothing",
    "Ended", ended(2), "Ended", ended(4), "Shipped(1)", "Worked", "Shipped(0)", "Worked",
]  # fmt: skip
TWO_SCHEDULES = [WORDS, *world(AT_ONCE), *world(IN_TURN)]


def found(cycles, more):
    """What both searches find among four edges."""
    answer = f"Found {{ cycles: Cycles {{ cycles: {cycles} }}, more: {str(more).lower()} }}"
    return [Call("search", answer, "4"), Call("search_parallel", answer, "4")]


PARALLEL_AS_SEARCH = [
    WORDS, Call("lists", None, "()"), Call("edges_of", None, "2"), Call("order", None, "2"),
    *found([[0, 2]], True), *found([[0, 2], [1, 3]], False),
]  # fmt: skip


def items(before, answers):
    """Lines that are read, after so many calls: where memory is refused, they are read once more from the first on."""
    first = before + 1
    return [Call("lines", None, "()"), *(Call("next", answer, "Err(Memory)", first) for answer in answers)]


def told(thread, event):
    return f"Ok(Event {{ thread: ThreadId {{ number: {thread} }}, event: {event} }})"


BAD_LINE = items(1, ["Err(Line { line: 1, kind: BadOperand })"] * 2)
SIX_EVENTS = [
    told(0, acquire(0, 0)), told(0, acquire(1, 1)), told(0, release(1, 2)), told(0, release(0, 3)),
    told(1, acquire(1, 4)), told(1, acquire(0, 5)),
]  # fmt: skip
FAULT_REPEATS = [
    WORDS, *BAD_LINE, *items(1 + len(BAD_LINE), [*SIX_EVENTS, "Ok(End)", "Ok(End)"]), Call("parts", "((2, 2, 6), 0, 0)"),
]  # fmt: skip


def told_of(events):
    return f"[{', '.join(events)}]"


def pull(answer, log, stream):
    """A pull of a thread that has this log, where so many notes stand in the stream."""
    return Call("pull", f"Ok({answer})", f"({told_of(log)}, {stream})")


def pull_events(events, log, stream):
    """Pulls of these events of a thread."""
    calls = []
    for _ in events:
        calls.append(pull(f"Event {{ place: {len(log)} }}", log, stream))
        log, stream = [*log, events[len(calls) - 1]], stream + 1
    return calls


def records(events):
    return [Call("record", f"Ok({place})") for place in range(len(events))]


OPEN = Call("open", None, "()")
FIRST, SECOND = acquire(0, 1), acquire(1, 2)
RING_OF_ONE = [
    WORDS, OPEN, Call("record", "Ok(0)"), Call("record", f"Err(Full({SECOND}))"), Call("full", "1"),
    pull("Event { place: 0 }", [], 0), Call("record", "Ok(1)"), pull("Event { place: 1 }", [FIRST], 1),
    Call("close", "(7, 0, 2)"), pull("Ended { count: 2 }", [FIRST, SECOND], 2), Call("pull", "Ok(Empty)"),
    Call("log", told_of([FIRST, SECOND])),
]  # fmt: skip

OTHER_ORDER = [acquire(1, 3), acquire(0, 4)]
FORKS = [fork(1, 5), join(1, 6), fork(2, 7)]
REPORT_SO_FAR_DROPS = [
    WORDS, OPEN, *records([FIRST, SECOND]), *records(OTHER_ORDER),
    *pull_events([FIRST, SECOND], [], 0), *pull_events(OTHER_ORDER, [], 2), Call("report", "Some((2, 1, false))", "4"),
    *records(FORKS), *pull_events(FORKS, [], 4), Call("report", "Some((2, 0, false))", "7"),
]  # fmt: skip


def settled(events, edges):
    """Sessions of one thread with these events. Without memory for the collector or the worker both begin once more."""
    lists = f"[{told_of(events)}]"
    return [
        WORDS, OPEN, *records(events), Call("close", f"(7, 0, {len(events)})"), OPEN, Call("close", "(8, 0, 0)"),
        Call("feed", None, "()"), Call("outlets", None, "()"), Call("missing", "0"), Call("strange", "0"),
        Call("settle", lists, "false", 1), Call("worker", f"(false, {edges})", "false" if edges else None, 1),
        Call("report", f"Some(({edges}, 0, false))", lists),
    ]  # fmt: skip


SETTLE_RECEIPTS = settled([], 0)
# The second lock is wanted beside one, the third one beside two.
SETTLE_EDGES = settled([FIRST, SECOND, acquire(2, 3)], 3)

# Two edges come to a worker, whose gate prints the shard and how many edges came before. A gate without memory is
# passed all the same, so the script goes on after it. A worker without begins once more.
FIRST_GATE, SECOND_GATE, WORKER = 4, 5, 6
GATE_BEFORE_TABLE = [
    WORDS, Call("feed", None, "()"), Call("edge", None, "()"), Call("edge", None, "()"),
    Call("gate", "[1, 0]", "(1, 0)", SECOND_GATE), Call("gate", "[1, 1]", "(1, 1)", WORKER),
    Call("worker", "(false, 2)", "false", 1),
]  # fmt: skip

SCRIPTS = {
    "crossed_releases": CROSSED_RELEASES,
    "least_sample": LEAST_SAMPLE,
    "two_schedules": TWO_SCHEDULES,
    "parallel_as_search": PARALLEL_AS_SEARCH,
    "fault_repeats": FAULT_REPEATS,
    "ring_of_one": RING_OF_ONE,
    "report_so_far_drops": REPORT_SO_FAR_DROPS,
    "settle_receipts": SETTLE_RECEIPTS,
    "settle_edges": SETTLE_EDGES,
    "gate_before_table": GATE_BEFORE_TABLE,
}
# Calls that have to be refused in some run.
REFUSED = {
    "crossed_releases": {"words", "lists", "edges_of", "order", "push", "trim"},
    "least_sample": {"words", "edge", "insert", "copy"},
    "two_schedules": {"words", "world", "step", "report"},
    "parallel_as_search": {"words", "lists", "edges_of", "order", "search", "search_parallel"},
    "fault_repeats": {"words", "lines", "next"},
    "ring_of_one": {"words", "open", "pull"},
    "report_so_far_drops": {"words", "open", "pull", "report"},
    "settle_receipts": {"words", "open", "feed", "outlets", "settle", "report"},
    "settle_edges": {"words", "open", "feed", "outlets", "settle", "worker", "report"},
    "gate_before_table": {"words", "feed", "edge", "gate", "worker"},
}


def printed(calls):
    return [f"{call.name}: {call.answer}" for call in calls if call.answer is not None]


def ample(calls):
    return text_of(printed(calls))


def text_of(lines):
    return "".join(f"{line}\n" for line in lines).encode()


def refused_at(calls, at):
    """The output of the run in which a growth of the call at this position was refused once."""
    call = calls[at]
    again = at if call.again is None else call.again
    return text_of([*printed(calls[:at]), f"{call.name}: memory", f"  {call.left}", *printed(calls[again:])])


def refused_answers(calls):
    """For each output of a run in which a growth was refused: the calls that may have been the refused one."""
    answers = {}
    for at, call in enumerate(calls):
        if call.left is not None:
            answers.setdefault(refused_at(calls, at), set()).add(call.name)
    return answers


def pull_refused_once(outputs):
    """Whether there is a run in which the first pull was refused, was made again, and all went on as written."""
    first = next(at for at, call in enumerate(RING_OF_ONE) if call.name == "pull")
    return refused_at(RING_OF_ONE, first) in outputs


def gate_refused_first(outputs):
    """Whether a growth of the gate's for the first edge comes first, then one of the table's, then the gate's next one.

    The gate grows within the worker's call, whose answer is printed last: so the output of one run doesn't tell which
    of the two grew first. The numbers of the growths that were refused to them do."""
    told = [refused_at(GATE_BEFORE_TABLE, at) for at in (FIRST_GATE, WORKER, SECOND_GATE)]
    numbers = [outputs.index(answer) for answer in told if answer in outputs]
    return len(numbers) == len(told) and numbers == sorted(numbers)


# --- Refused runs ---------------------------------------------------------------------------------------


def check(tests, name, right, run):
    """One of the right answers; where it isn't, the first of them is shown beside it."""
    tests.check(name, [run.answer if run.answer in right else right[0]], run)


def sweep(tests, runner, name):
    """Refuses the script's first growth, then the second, until a run makes no more."""
    calls = SCRIPTS[name]
    whole = (ample(calls), b"", 0)
    check(tests, f"{name}", [whole], runner.run(name, b""))
    answers = refused_answers(calls)
    right = [whole, *((answer, b"", 0) for answer in answers)]
    outputs = []
    for number, run in runner.sweep(name, b"", "memory", "once"):
        check(tests, f"{name}, memory once call {number}", right, run)
        outputs.append(run.answer[0])
    missing = REFUSED[name].difference(*(answers.get(output, set()) for output in outputs))
    tests.check_that(f"{name}", not missing, f"never refused: {', '.join(sorted(missing))}")
    if name == "ring_of_one":
        tests.check_that(
            "pull_refused_once", pull_refused_once(outputs), "no run has the first pull refused and made again"
        )
    if name == "gate_before_table":
        tests.check_that("gate_refused_first", gate_refused_first(outputs), "the gate's growth isn't the first")
    for number, run in runner.sweep(name, b"", "memory", "onwards"):
        status = run.answer[2]
        tests.check_that(f"{name}, memory onwards call {number}", status in (0, 3), f"status {status}")
    print(f"{name}: {len(outputs)} growths refused")


def main():
    if len(sys.argv) != 2:
        print(__doc__, file=sys.stderr)
        return 2
    program = os.path.abspath(sys.argv[1])
    with tempfile.TemporaryDirectory() as folder:
        runner = refusals.Runner(program, refusals.built_library(folder))
        tests = refusals.Tests(runner)
        for name in SCRIPTS:
            sweep(tests, runner, name)
    print(f"{tests.passed} passed, {tests.failed} failed")
    return 1 if tests.failed or tests.passed == 0 else 0


if __name__ == "__main__":
    sys.exit(main())
