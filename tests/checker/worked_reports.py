"""Worked reports, with the answers of the checker written by hand."""

import copy
import json

from oracle import worked_traces


def edge(thread, held, held_at, wanted, wanted_at, place, guards=None, first=0, second=0, modes="xx", guard_modes=None):
    """An edge of format 2; its guards are the held lock, and exclusive, unless given."""
    guards = [held] if guards is None else guards
    return {
        "first": first, "guard_modes": list(guard_modes or "x" * len(guards)), "guards": guards, "held": held,
        "held_at": held_at, "held_mode": modes[0], "place": place, "second": second, "thread": thread,
        "wanted": wanted, "wanted_at": wanted_at, "wanted_mode": modes[1],
    }  # fmt: skip


def without_modes(edge_):
    return {key: value for key, value in edge_.items() if "mode" not in key}


def report(cycles, edges=None, trim=None, mode="full", length=4, most=1000, more=False):
    """A report of format 2, or of format 1 where no edges are given."""
    asked = {"cycles": cycles, "len": length, "max": most, "mode": mode, "more": more}
    return asked | ({"format": 1} if edges is None else {"format": 2, "edges": edges, "trim": trim})


def report_of_findings(shown, edges, mode="full", length=4, most=1000, more=False):
    """A report of format 3."""
    asked = {"len": length, "max": most, "mode": mode, "more": more}
    return asked | {"edges": edges, "findings": shown, "format": 3}


def spelled(tree):
    return json.dumps(tree, sort_keys=True, separators=(",", ":")).encode()


OPPOSITE = worked_traces.lines(*worked_traces.OPPOSITE)
OPPOSITE_EDGES = [edge("T0", "a", "1", "b", "2", 1), edge("T1", "b", "5", "a", "6", 1)]
PLAIN_EDGES = [without_modes(edge_) for edge_ in OPPOSITE_EDGES]
OPPOSITE_LINE = (
    b'{"cycles":[[{"first":0,"guards":["a"],"held":"a","held_at":"1","place":1,"second":0,"thread":"T0","wanted":"b",'
    b'"wanted_at":"2"},{"first":0,"guards":["b"],"held":"b","held_at":"5","place":1,"second":0,"thread":"T1",'
    b'"wanted":"a","wanted_at":"6"}]],"format":1,"len":4,"max":1000,"mode":"full","more":false}'
)
CROSSED = worked_traces.lines("T0 acq a @1", "T0 acq b @2", "T0 rel a @3", "T0 acq c @4")
CROSSED_LINE = (
    b'{"cycles":[],"edges":[{"first":0,"guard_modes":["x"],"guards":["a"],"held":"a","held_at":"1","held_mode":"x",'
    b'"place":1,"second":0,"thread":"T0","wanted":"b","wanted_at":"2","wanted_mode":"x"},{"first":0,"guard_modes":["x"],'
    b'"guards":["b"],"held":"b","held_at":"2","held_mode":"x","place":3,"second":0,"thread":"T0","wanted":"c",'
    b'"wanted_at":"4","wanted_mode":"x"}],"format":2,"len":4,"max":1000,"mode":"full","more":false,"trim":[0,1]}'
)
EMPTY_FINDINGS_LINE = b'{"edges":[],"findings":[],"format":3,"len":4,"max":1000,"mode":"full","more":false}'
EMPTY_LINE = b'{"cycles":[],"edges":[],"format":2,"len":4,"max":1000,"mode":"full","more":false,"trim":[]}'
JSON, SHAPE = "report is not JSON", "report has the wrong shape"
NONE = "ok, cycles: 0, none of any length"
TABLE = "table entry 0 is wrong"
TOO_MANY = "line 1024: too many threads"


def changed(tree, **keys):
    return spelled(tree | keys)


def worked_opposite():
    """Two threads that take two locks in opposite order."""
    whole = report([[0, 1]], OPPOSITE_EDGES)
    plain = report([PLAIN_EDGES])
    first, second = OPPOSITE_EDGES

    def table(at, **keys):
        edges = copy.deepcopy(OPPOSITE_EDGES)
        edges[at] |= keys
        return changed(whole, edges=edges)

    def listed(at, **keys):
        edges = copy.deepcopy(PLAIN_EDGES)
        edges[at] |= keys
        return changed(plain, cycles=[edges])

    rows = [
        ("checked_line", OPPOSITE_LINE, "ok, cycles: 1"),
        ("checked_line, place 0", listed(1, place=0), "cycle 0 edge 1 is not in the trace"),
        ("self_contained_line", spelled(whole), "ok, cycles: 1"),
        ("more isn't certified", changed(whole, more=True), "ok, cycles: 1"),
        ("a list that isn't whole", changed(whole, cycles=[]), "ok, cycles: 0"),
        ("a list of format 1 that isn't whole", changed(plain, cycles=[]), "ok, cycles: 0"),
        ("report_tampered, rotated", changed(whole, cycles=[[1, 0]]), "cycle 0 is not valid", ("NotLeast", 1)),
        ("rotated, format 1", changed(plain, cycles=[PLAIN_EDGES[::-1]]), "cycle 0 is not valid", ("NotLeast", 1)),
        ("report_tampered, twice", changed(whole, cycles=[[0, 1], [0, 1]]), "cycle 1 is out of order"),
        ("twice, format 1", changed(plain, cycles=[PLAIN_EDGES] * 2), "cycle 1 is out of order"),
        ("report_tampered, outside of the edges", changed(whole, cycles=[[0, 2]]), SHAPE),
        ("report_tampered, trim", changed(whole, trim=[]), "trim entry 0 is wrong"),
        ("trim of an edge with followers", changed(whole, trim=[0, 1]), "trim entry 0 is wrong"),
        ("report_tampered, len", changed(whole, len=1), SHAPE),
        ("report_tampered, cut", spelled(whole)[1:], JSON),
        ("no edge", changed(whole, cycles=[[]]), "cycle 0 is not valid", ("TooShort",)),
        ("one edge", changed(whole, cycles=[[1]]), "cycle 0 is not valid", ("TooShort",)),
        ("the second one rotated", changed(whole, cycles=[[0, 1], [1, 0]]), "cycle 1 is not valid", ("NotLeast", 1)),
        ("the second one not there", changed(plain, cycles=[PLAIN_EDGES, [PLAIN_EDGES[1] | {"thread": "T9"}]]),
         "cycle 1 edge 0 is not in the trace"),
        ("a verdict before a later edge", changed(plain, cycles=[PLAIN_EDGES[::-1], [PLAIN_EDGES[0] | {"place": 9}]]),
         "cycle 0 is not valid"),
        ("an edge before the verdict", changed(plain, cycles=[[PLAIN_EDGES[0] | {"place": 9}]]),
         "cycle 0 edge 0 is not in the trace"),
        # Each field of an edge.
        *[(f"table, {key}", table(1, **{key: value}), "table entry 1 is wrong") for key, value in
          [("first", 1), ("second", 1), ("place", 0), ("place", 2**32 - 1), ("held", "a"), ("wanted", "b"),
           ("thread", "T0"), ("held_at", ""), ("wanted_at", "06"), ("held_mode", "s"), ("wanted_mode", "s"),
           ("guard_modes", ["s"])]],
        ("table, guards", table(1, guards=["a"]), "table entry 1 is wrong"),
        ("table, one guard more", table(0, guards=["a", "b"], guard_modes=["x", "x"]), "table entry 0 is wrong"),
        ("table, no guard", table(0, guards=[], guard_modes=[]), "table entry 0 is wrong"),
        *[(f"edge, {key}", listed(0, **{key: value}), "cycle 0 edge 0 is not in the trace") for key, value in
          [("first", 1), ("second", 2**32 - 1), ("place", 2), ("held", "b"), ("wanted", "c"), ("thread", "nobody"),
           ("held_at", "2"), ("wanted_at", "2 "), ("guards", []), ("guards", ["a", "a"])]],
        ("an edge missing", changed(whole, cycles=[], edges=[first]), "table entry 1 is wrong"),
        ("the first edge missing", changed(whole, cycles=[], edges=[second]), "table entry 0 is wrong"),
        ("no edges", changed(whole, cycles=[], edges=[], trim=[]), "table entry 0 is wrong"),
        ("an edge too many", changed(whole, edges=[first, second, second]), "table entry 2 is wrong"),
        ("edges swapped", changed(whole, edges=[second, first]), "table entry 0 is wrong"),
        ("a table before the cycles", changed(whole, cycles=[[1, 0]], edges=[second, first]), "table entry 0 is wrong"),
        ("a cycle before the trim order", changed(whole, cycles=[[1, 0]], trim=[]), "cycle 0 is not valid"),
        # A name is spelled in one way; JSON's own spelling is free.
        ("escaped otherwise", table(0, held="\\x61"), "table entry 0 is wrong"),
        ("escaped by JSON", spelled(whole).replace(b'"held":"a"', b'"held":"\\u0061"'), "ok, cycles: 1"),
        ("spaces", b" \t" + json.dumps(whole).encode() + b" \r", "ok, cycles: 1"),
        ("keys in another order", json.dumps(dict(reversed(whole.items()))).encode(), "ok, cycles: 1"),
        ("a key twice", spelled(whole)[:-1] + b',"len":5}', "ok, cycles: 1"),
        ("a key twice, the last one wrong", spelled(whole)[:-1] + b',"len":1}', SHAPE),
    ]  # fmt: skip
    return [(name, text, OPPOSITE, *rest) for name, text, *rest in rows]


def worked_shapes():
    """Reports of the two threads that aren't read, or have another shape; whose numbers lie at a bound."""
    whole, plain = report([[0, 1]], OPPOSITE_EDGES), report([PLAIN_EDGES])
    text = spelled(whole)

    def with_place(number):
        return text.replace(b'"place":1', b'"place":' + number, 1)

    nested = report([[0, 1]], OPPOSITE_EDGES, [])
    first, second = OPPOSITE_EDGES
    rows = [
        *[(f"no JSON: {word!r}", word, JSON) for word in
          [b"", b" ", b"{", b"}", b"[1,]", b"{,}", b"nul", b"'a'", b"01", b"1.", b".5", b"+1", b"1e", b"NaN", b"-Infinity",
           b"Infinity", b"1e400", b"-1e999", b'"\\ud800"', b'"\\udc00\\ud800"', b'"\\ud800x"', b'"\\x61"', b'"\x01"', b'"a',
           b'"\xff"', b'"\xed\xa0\x80"', b"\xef\xbb\xbf{}", b"{} {}", b"{}x", b"[" * 128 + b"]" * 128, b"[" * 5000,
           b'{"a":' * 128 + b"1" + b"}" * 128, b'{"a" 1}', b"{1:2}", b'{"a":1 "b":2}', b"1" * 400,
           b'{"a":1e999,"a":1}', b'["\\ud800"]', b'{"\\udfff":1}']],
        *[(f"no report: {word!r}", word, SHAPE) for word in
          [b"null", b"true", b"1", b'"a"', b"[]", b"{}", b"1e308", b"0e999", b"-0", b'"\\ud83d\\ude00"', b'"\x7f"',
           b"[" * 127 + b"]" * 127, b"18446744073709551616", b"9" * 300, b'{"format":1}', b'[{"format":2}]']],
        *[(f"{key} left out, format {tree['format']}", spelled({k: v for k, v in tree.items() if k != key}), SHAPE)
          for tree in (whole, plain) for key in tree],
        *[(f"{key} is null, format {tree['format']}", changed(tree, **{key: None}), SHAPE)
          for tree in (whole, plain) for key in tree if key != "trim"],
        *[(f"{key} of an edge left out", changed(whole, edges=[{k: v for k, v in first.items() if k != key}, second]), SHAPE)
          for key in first],
        *[(f"{key} of an edge is {value!r}", changed(whole, edges=[first | {key: value}, second]), SHAPE)
          for key in first for value in (None, True, 0.0, {})],
        *[(f"{key} left out in format 1", changed(plain, cycles=[[{k: v for k, v in PLAIN_EDGES[0].items() if k != key}]]),
           SHAPE) for key in PLAIN_EDGES[0]],
        ("a key more", changed(whole, seed=1), SHAPE),
        ("a key more, format 1", changed(plain, trim=None), SHAPE),
        ("a key of an edge more", changed(whole, edges=[first | {"mode": "x"}, second]), SHAPE),
        ("a key of an edge more, format 1", changed(plain, cycles=[OPPOSITE_EDGES]), SHAPE),
        ("edges without modes", changed(whole, edges=PLAIN_EDGES), SHAPE),
        ("format 1 with positions", changed(plain, cycles=[[0, 1]]), SHAPE),
        *[(f"format {value!r}", changed(whole, format=value), SHAPE) for value in (0, 1, 3, 4, "2", 2.0, True, [2], 2**64)],
        *[(f"format {value!r} in place of 1", changed(plain, format=value), SHAPE) for value in (0, 2, 3, "1", 1.0, True)],
        *[(f"mode {value!r}", changed(whole, mode=value), SHAPE) for value in ("Full", "", "full ", 1, ["full"])],
        *[(f"more {value!r}", changed(whole, more=value), SHAPE) for value in (0, 1, "false", [])],
        *[(f"len {value!r}", changed(whole, len=value), SHAPE) for value in (0, 1, 17, -4, 4.0, "4", 2**32 + 4, 2**64 + 4)],
        *[(f"len {value}", changed(whole, len=value), "ok, cycles: 1") for value in (2, 16)],
        *[(f"max {value!r}", changed(whole, max=value), SHAPE) for value in (0, 100_001, -1, 1.0, True)],
        ("max 0, no cycle", changed(whole, cycles=[], max=0), SHAPE),
        *[(f"max {value}", changed(whole, max=value), "ok, cycles: 1") for value in (1, 100_000)],
        ("more cycles than max", changed(whole, cycles=[[0, 1]] * 2, max=1), SHAPE),
        ("more cycles than max, format 1", changed(plain, cycles=[PLAIN_EDGES] * 3, max=2), SHAPE),
        *[(f"place {word.decode()}", with_place(word), SHAPE) for word in
          (b"4294967296", b"-1", b"1.0", b"1e0", b"-0", b"18446744073709551617", b'"1"', b"true")],
        *[(f"place {word.decode()}", with_place(word), "table entry 0 is wrong") for word in (b"0", b"4294967295")],
        *[(f"a cycle {value!r}", changed(whole, cycles=[value]), SHAPE) for value in
          (0, None, {}, [0, 2], [0, -1], [0, 1.0], [0, True], [0, [1]], [0, 2**32], "01")],
        *[(f"trim {value!r}", changed(whole, trim=value), SHAPE) for value in
          (0, False, {}, "", [None], [-1], [0.0], [2**32], [[0]], ["0"])],
        ("trim of the greatest number", changed(whole, trim=[2**32 - 1]), "trim entry 0 is wrong"),
        ("a guard mode more", changed(whole, edges=[first | {"guard_modes": ["x", "x"]}, second]), SHAPE),
        ("a guard mode less", changed(whole, edges=[first | {"guard_modes": []}, second]), SHAPE),
        *[(f"{key} {value!r}", changed(whole, edges=[first | {key: value}, second]), SHAPE) for key, value in
          [("held_mode", "X"), ("wanted_mode", ""), ("wanted_mode", "sx"), ("guard_modes", ["e"]), ("guards", [1]),
           ("guards", "a"), ("thread", 0)]],
        ("shape before the table", changed(nested, edges=[second, first], len=17), SHAPE),
    ]  # fmt: skip
    return [(name, text_, OPPOSITE, *rest) for name, text_, *rest in rows]


def worked_others():
    """Other traces: trim orders, each verdict, lock modes, and faults of the trace."""
    crossed = json.loads(CROSSED_LINE)
    later = copy.deepcopy(crossed)
    later["edges"][1]["place"] = 2
    unclosed, loop = b"T0|acq(|3", worked_traces.lines("T0 join T1 @1", "T1 join T0 @2")
    # T0 takes a, a, b, releases a once and takes c; T1 takes c and then a.
    nested = worked_traces.lines("T0 acq a @1", "T0 acq a @2", "T0 acq b @3", "T0 rel a @4", "T0 acq c @5")
    nested += worked_traces.lines("T1 acq c @6", "T1 acq a @7")
    nested_edges = [
        edge("T0", "a", "1", "b", "3", 2), edge("T0", "a", "1", "c", "5", 4, ["a", "b"]),
        edge("T0", "b", "3", "c", "5", 4, ["a", "b"]), edge("T1", "c", "6", "a", "7", 1),
    ]  # fmt: skip

    def judged(cycle, **keys):
        return changed(report([cycle], nested_edges), **keys)

    joined = worked_traces.lines("M fork T0 @1", "M join T0 @2", "M fork T1 @3", *worked_traces.OPPOSITE)
    # T1's part is over before T0's, which is the thread that is named first, begins.
    later_first = worked_traces.lines("T0 fork T1 @0", "T1 acq b @1", "T1 acq a @2", "T0 join T1 @3", "T0 acq a @4")
    later_first += worked_traces.lines("T0 acq b @5")
    later_edges = [edge("T0", "a", "4", "b", "5", 3, first=2, second=2), edge("T1", "b", "1", "a", "2", 1)]
    later_edges = sorted(later_edges, key=lambda edge_: edge_["thread"])
    loop_of_three = worked_traces.lines("T0 join T1 @1", "T1 join T0 @2", "T1 fork X @3")
    gate = worked_traces.lines(*worked_traces.GATE)
    gate_edges = [
        edge("T0", "g", "1", "a", "2", 1), edge("T0", "g", "1", "b", "3", 2, ["g", "a"]),
        edge("T0", "a", "2", "b", "3", 2, ["g", "a"]), edge("T1", "g", "7", "a", "9", 2, ["g", "b"]),
        edge("T1", "g", "7", "b", "8", 1), edge("T1", "b", "8", "a", "9", 2, ["g", "b"]),
    ]  # fmt: skip
    readers = worked_traces.lines("T0 racq a @1", "T0 acq b @2", "T1 acq b @3", "T1 racq a @4")
    readers_edges = [
        edge("T0", "a", "1", "b", "2", 1, modes="sx", guard_modes="s"), edge("T1", "b", "3", "a", "4", 1, modes="xs"),
    ]  # fmt: skip
    reader = worked_traces.lines("T0 racq a @1", "T0 acq b @2", "T1 acq b @3", "T1 acq a @4")
    reader_edges = [readers_edges[0], edge("T1", "b", "3", "a", "4", 1)]
    odd = b"T 0|acq(a\xc3\xa9)|x|y\\\nT 0|acq(\x7f)|\n"
    odd_edge = edge("T 0", "a\\xc3\\xa9", "x|y\\x5c", "\\x7f", "", 1)
    ring = worked_traces.lines(*worked_traces.RING)
    ring_edges = [
        edge("T0", "a", "1", "b", "2", 1),
        edge("T1", "b", "3", "c", "4", 1),
        edge("T2", "c", "5", "a", "6", 1),
    ]
    invalid = "cycle 0 is not valid"
    return [
        ("checked_line, of itself", CROSSED_LINE, CROSSED, NONE),
        ("trim_order, the other one first", changed(crossed, trim=[1, 0]), CROSSED, NONE),
        ("trim_order, one left", changed(crossed, trim=[1]), CROSSED, "trim entry 1 is wrong"),
        ("trim_order, twice", changed(crossed, trim=[0, 0]), CROSSED, "trim entry 1 is wrong"),
        ("trim_order, one more", changed(crossed, trim=[0, 1, 1]), CROSSED, "trim entry 2 is wrong"),
        ("trim_order, none", changed(crossed, trim=None), CROSSED, "ok, cycles: 0"),
        ("trim_order, outside", changed(crossed, trim=[0, 2]), CROSSED, "trim entry 1 is wrong"),
        ("trim_order, a place", spelled(later), CROSSED, "table entry 1 is wrong"),
        ("empty_report", EMPTY_LINE, b"", NONE),
        ("empty_report, trim order null", EMPTY_LINE.replace(b"[]}", b"null}"), b"", "ok, cycles: 0"),
        ("empty_report, format 1", spelled(report([])), b"", "ok, cycles: 0"),
        ("a report without a trace", spelled(report([[0, 1]], OPPOSITE_EDGES)), b"", "table entry 0 is wrong"),
        ("a report without a trace, format 1", OPPOSITE_LINE, b"", "cycle 0 edge 0 is not in the trace"),
        *[("trace_fault_first", text, unclosed, "line 1: bad operand") for text in (OPPOSITE_LINE, b"x", b"", b"{}")],
        ("a fault of a later line", EMPTY_LINE, b"\n\r\nT0|acq(a)|1\nT0|acq(b)\n", "line 4: no location field"),
        ("json before a loop", b"x", loop, JSON),
        ("shape before a loop", b"{}", loop, SHAPE),
        *[("a loop before the table", changed(crossed, mode=mode), loop, "inconsistent: T0.1 precedes itself")
          for mode in ("basic", "guarded", "full")],
        ("a loop, format 1", OPPOSITE_LINE, loop, "inconsistent: T0.1 precedes itself"),
        ("each verdict, valid", judged([1, 3]), nested, "ok, cycles: 1"),
        ("each verdict, one edge", judged([1]), nested, invalid, ("TooShort",)),
        ("each verdict, too long before the rest", judged([0, 2, 3], len=2), nested, invalid, ("TooLong",)),
        ("each verdict, not closed at first", judged([0, 3]), nested, invalid, ("NotClosed", 0)),
        ("each verdict, not closed at the end", judged([2, 3]), nested, invalid, ("NotClosed", 1)),
        ("each verdict, a lock twice", judged([1, 3, 1, 3]), nested, invalid, ("SameLock", 0, 2)),
        ("each verdict, a thread twice", judged([0, 2, 3]), nested, invalid, ("SameThread", 0, 1)),
        ("each verdict, not the least first", judged([3, 1]), nested, invalid, ("NotLeast", 1)),
        ("ordered, full", spelled(report([[0, 1]], [OPPOSITE_EDGES[0], OPPOSITE_EDGES[1]])), joined, invalid,
         ("Ordered", 0, 1)),
        ("ordered, guarded", spelled(report([[0, 1]], OPPOSITE_EDGES, mode="guarded")), joined, "ok, cycles: 1"),
        ("ordered, trimmed", spelled(report([], OPPOSITE_EDGES, [0, 1])), joined, NONE),
        ("ordered, trimmed in guarded", spelled(report([], OPPOSITE_EDGES, [0, 1], "guarded")), joined,
         "trim entry 0 is wrong"),
        ("ordered, the first one later", spelled(report([[0, 1]], later_edges)), later_first, invalid, ("Ordered", 0, 1)),
        ("ordered, the first one later, trimmed", spelled(report([], later_edges, [1, 0])), later_first, NONE),
        ("a loop, its least segment the thread's last", EMPTY_LINE, loop_of_three, "inconsistent: T0.1 precedes itself"),
        ("gate, guarded", spelled(report([[2, 5]], gate_edges, mode="guarded")), gate, invalid, ("SharedGuard", 0, 1, 0)),
        ("gate, basic", spelled(report([[2, 5]], gate_edges, mode="basic")), gate, "ok, cycles: 1"),
        ("gate, trimmed", spelled(report([], gate_edges, [5, 0, 2, 1, 3, 4], "guarded")), gate, NONE),
        ("gate, trimmed in basic", spelled(report([], gate_edges, [0, 1, 2, 3, 4, 5], "basic")), gate,
         "trim entry 2 is wrong"),
        ("ring", spelled(report([[0, 1, 2]], ring_edges, length=3)), ring, "ok, cycles: 1"),
        ("ring, too long", spelled(report([[0, 1, 2]], ring_edges, length=2)), ring, invalid, ("TooLong",)),
        ("ring, no order of removal", spelled(report([], ring_edges, [1, 0, 2], length=2)), ring, "trim entry 0 is wrong"),
        ("readers", spelled(report([[0, 1]], readers_edges)), readers, invalid, ("NotClosed", 1)),
        ("readers, trimmed", spelled(report([], readers_edges, [1, 0])), readers, NONE),
        ("readers, exclusive", spelled(report([], OPPOSITE_EDGES, [0, 1])), readers, "table entry 0 is wrong"),
        ("a reader and a writer", spelled(report([[0, 1]], reader_edges)), reader, "ok, cycles: 1"),
        # Format 1 has no modes: its edges stand for exclusive ones.
        ("a reader in format 1", spelled(report([[without_modes(edge_) for edge_ in reader_edges]])), reader,
         "cycle 0 edge 0 is not in the trace"),
        ("odd names", spelled(report([], [odd_edge], [0])), odd, NONE),
        ("odd names, as they are", spelled(report([], [odd_edge | {"wanted": "\x7f"}], [0])), odd, "table entry 0 is wrong"),
        ("odd names, capital digits", spelled(report([], [odd_edge | {"wanted": "\\x7F"}], [0])), odd,
         "table entry 0 is wrong"),
        ("odd names, decoded", spelled(report([], [odd_edge | {"held": "a\u00e9", "guards": ["a\u00e9"]}], [0])), odd,
         "table entry 0 is wrong"),
    ]  # fmt: skip


def worked_findings():
    """Reports of findings, of the two threads and of the traces that the findings are worked from."""
    whole = report_of_findings([[0, 1]], OPPOSITE_EDGES)
    first, second = OPPOSITE_EDGES
    out_of_order, invalid = "cycle 1 is out of order", "cycle 0 is not valid"
    none, one, two = (f"ok, findings: {count}" for count in range(3))
    # Edges 0 to 7 are of the classes 0, 1, 0, 1, 4, 5, 4 and 5; the findings' signatures are 0 4 and 1 5.
    faults = worked_traces.TWO_FAULTS
    fault_edges = [
        edge("T0", "a", "A", "b", "B", 1), edge("T0", "c", "C", "d", "D", 5), edge("T1", "a", "A", "b", "B", 1),
        edge("T1", "c", "C", "d", "D", 5), edge("U0", "b", "E", "a", "F", 1), edge("U0", "d", "G", "c", "H", 5),
        edge("U1", "b", "E", "a", "F", 1), edge("U1", "d", "G", "c", "H", 5),
    ]  # fmt: skip

    def listed(*shown, **keys):
        return changed(report_of_findings(list(shown), fault_edges), **keys)

    def table(at, **keys):
        return listed([0, 4], [1, 5], edges=fault_edges[:at] + [fault_edges[at] | keys] + fault_edges[at + 1 :])

    # Classes 0, 1, 2, 3 and 0 again: the cycles 1 3 and 2 4 are of the signatures 1 3 and, told from its second edge, 0 2.
    crossed = worked_traces.sections("T0 x R y S", "T1 a U b V", "T1 c P d Q", "T2 b W a X", "T2 d R c S")
    crossed_edges = [
        edge("T0", "x", "R", "y", "S", 1), edge("T1", "a", "U", "b", "V", 1), edge("T1", "c", "P", "d", "Q", 5),
        edge("T2", "b", "W", "a", "X", 1), edge("T2", "d", "R", "c", "S", 5),
    ]  # fmt: skip
    # One class: the signatures 0 0 and 0 0 0, a front before what goes on from it.
    front = worked_traces.sections("T0 a P b Q", "T1 b P c Q", "T2 c P a Q", "T3 b P a Q")
    front_edges = [
        edge("T0", "a", "P", "b", "Q", 1), edge("T1", "b", "P", "c", "Q", 1), edge("T2", "c", "P", "a", "Q", 1),
        edge("T3", "b", "P", "a", "Q", 1),
    ]  # fmt: skip
    # Classes 0, 1, 1 and 0: the signatures 0 1 and 1 0 are one.
    turned = worked_traces.sections("T0 a P b Q", "T1 b R a S", "T2 c R d S", "T3 d P c Q")
    turned_edges = [
        edge("T0", "a", "P", "b", "Q", 1), edge("T1", "b", "R", "a", "S", 1), edge("T2", "c", "R", "d", "S", 1),
        edge("T3", "d", "P", "c", "Q", 1),
    ]  # fmt: skip
    loop = worked_traces.lines("T0 join T1 @1", "T1 join T0 @2")
    readers = worked_traces.lines("T0 racq a @1", "T0 acq b @2", "T1 acq b @3", "T1 racq a @4")
    readers_edges = [
        edge("T0", "a", "1", "b", "2", 1, modes="sx", guard_modes="s"), edge("T1", "b", "3", "a", "4", 1, modes="xs"),
    ]  # fmt: skip
    ring = worked_traces.lines(*worked_traces.RING)
    ring_edges = [
        edge("T0", "a", "1", "b", "2", 1), edge("T1", "b", "3", "c", "4", 1), edge("T2", "c", "5", "a", "6", 1),
    ]  # fmt: skip
    return [
        ("no finding", EMPTY_FINDINGS_LINE, b"", none),
        ("one finding", spelled(whole), OPPOSITE, one),
        ("one finding, more", changed(whole, more=True), OPPOSITE, one),
        ("one finding, rotated", changed(whole, findings=[[1, 0]]), OPPOSITE, invalid, ("NotLeast", 1)),
        ("one finding, twice", changed(whole, findings=[[0, 1], [0, 1]]), OPPOSITE, out_of_order),
        ("a finding of no edge", changed(whole, findings=[[]]), OPPOSITE, invalid, ("TooShort",)),
        ("a finding of one edge", changed(whole, findings=[[1]]), OPPOSITE, invalid, ("TooShort",)),
        ("a finding outside of the edges", changed(whole, findings=[[0, 2]]), OPPOSITE, SHAPE),
        ("more findings than max", changed(whole, findings=[[0, 1], [0, 1]], max=1), OPPOSITE, SHAPE),
        ("as many findings as max", changed(whole, max=1), OPPOSITE, one),
        ("spaces", json.dumps(whole).encode(), OPPOSITE, one),
        ("no JSON", spelled(whole)[:-1], OPPOSITE, JSON),
        *[(f"{key} left out", spelled({k: v for k, v in whole.items() if k != key}), OPPOSITE, SHAPE) for key in whole],
        *[(f"{key} is null", changed(whole, **{key: None}), OPPOSITE, SHAPE) for key in whole],
        *[(f"{key} besides", changed(whole, **{key: value}), OPPOSITE, SHAPE)
          for key, value in [("cycles", []), ("cycles", [[0, 1]]), ("trim", None), ("trim", []), ("seed", 1)]],
        ("cycles in place of findings", changed(report([[0, 1]], OPPOSITE_EDGES), format=3), OPPOSITE, SHAPE),
        ("cycles in place of findings, no trim", spelled({k: v for k, v in report([[0, 1]], OPPOSITE_EDGES).items()
                                                         if k != "trim"} | {"format": 3}), OPPOSITE, SHAPE),
        ("findings in place of cycles", changed(whole, format=2), OPPOSITE, SHAPE),
        ("findings in place of cycles, with trim", changed(whole, format=2, trim=None), OPPOSITE, SHAPE),
        ("findings by edges", changed(whole, findings=[PLAIN_EDGES]), OPPOSITE, SHAPE),
        *[(f"format {value!r}", changed(whole, format=value), OPPOSITE, SHAPE) for value in (0, 1, 4, "3", 3.0, 2**64)],
        *[(f"a finding {value!r}", changed(whole, findings=[value]), OPPOSITE, SHAPE) for value in
          (0, None, {}, [0, -1], [0, 1.0], [0, True], [0, [1]], [0, 2**32], "01")],
        *[(f"len {value}", changed(whole, len=value), OPPOSITE, said) for value, said in
          [(1, SHAPE), (2, one), (16, one), (17, SHAPE)]],
        ("edges without modes", changed(whole, edges=PLAIN_EDGES), OPPOSITE, SHAPE),
        ("an edge missing", changed(whole, findings=[], edges=[first]), OPPOSITE, "table entry 1 is wrong"),
        ("an edge too many", changed(whole, edges=[first, second, second]), OPPOSITE, "table entry 2 is wrong"),
        ("no edges", spelled(report_of_findings([], [])), OPPOSITE, "table entry 0 is wrong"),
        ("a report without a trace", spelled(whole), b"", "table entry 0 is wrong"),
        ("shape before a loop", changed(whole, trim=None), loop, SHAPE),
        ("a loop before the table", spelled(whole), loop, "inconsistent: T0.1 precedes itself"),
        ("a table before the findings", changed(whole, findings=[[1, 0]], edges=[second, first]), OPPOSITE,
         "table entry 0 is wrong"),
        ("a line before all", b"x", b"T0\n", "line 1: no bar"),
        ("two findings", listed([0, 4], [1, 5]), faults, two),
        ("two findings, one left out", listed([1, 5]), faults, one),
        ("two findings, both left out", listed(), faults, none),
        ("two findings, swapped", listed([1, 5], [0, 4]), faults, out_of_order),
        ("two findings, shown by other cycles", listed([2, 6], [1, 7]), faults, two),
        ("two findings, the first shown by its last cycle", listed([2, 6], [1, 5]), faults, two),
        ("a finding by two of its cycles", listed([0, 4], [2, 6], [1, 5]), faults, out_of_order),
        ("a finding by two of its cycles, at the end", listed([0, 4], [1, 5], [3, 7]), faults, "cycle 2 is out of order"),
        ("a finding again after another", listed([0, 4], [1, 5], [0, 6]), faults, "cycle 2 is out of order"),
        ("an edge of a cycle dropped", listed([0, 4], [1]), faults, "cycle 1 is not valid", ("TooShort",)),
        ("an edge of a cycle changed", listed([0, 5], [1, 5]), faults, invalid, ("NotClosed", 0)),
        ("a verdict before the order", listed([1, 5], [4, 0]), faults, "cycle 1 is not valid", ("NotLeast", 1)),
        ("the order before a later verdict", listed([1, 5], [0, 4], [5, 1]), faults, out_of_order),
        *[(f"table, {key}", table(at, **{key: value}), faults, f"table entry {at} is wrong") for at, key, value in
          [(0, "held_at", "P"), (3, "wanted_at", "B"), (4, "place", 2), (7, "thread", "U0"), (7, "guard_modes", ["s"])]],
        ("in the order of signatures", spelled(report_of_findings([[2, 4], [1, 3]], crossed_edges)), crossed, two),
        ("in the order of cycles", spelled(report_of_findings([[1, 3], [2, 4]], crossed_edges)), crossed, out_of_order),
        ("a front first", spelled(report_of_findings([[0, 3], [0, 1, 2]], front_edges)), front, two),
        ("a front last", spelled(report_of_findings([[0, 1, 2], [0, 3]], front_edges)), front, out_of_order),
        ("told from the first edge", spelled(report_of_findings([[0, 1]], turned_edges)), turned, one),
        ("told from the second edge", spelled(report_of_findings([[2, 3]], turned_edges)), turned, one),
        ("told from both", spelled(report_of_findings([[0, 1], [2, 3]], turned_edges)), turned, out_of_order),
        ("ring", spelled(report_of_findings([[0, 1, 2]], ring_edges, length=3)), ring, one),
        ("ring, too long", spelled(report_of_findings([[0, 1, 2]], ring_edges, length=2)), ring, invalid, ("TooLong",)),
        ("readers", spelled(report_of_findings([[0, 1]], readers_edges)), readers, invalid, ("NotClosed", 1)),
        ("readers, none shown", spelled(report_of_findings([], readers_edges)), readers, none),
    ]  # fmt: skip


def worked_of_traces():
    """Each trace that predict refuses, with the empty report. A trace with other limits kept isn't refused."""
    for name, text, by_hand_, _ in worked_traces.worked("full"):
        if by_hand_ is not None and by_hand_[2] == 2:
            yield name, EMPTY_LINE, text, by_hand_[1].decode()[len("goodlock: ") : -1]
    yield "64 locks held", EMPTY_LINE, worked_traces.lines(*[f"T{i % 2} acq l{i // 2} @{i}" for i in range(128)]), TABLE
    yield "a depth of 1,000,000", EMPTY_LINE, worked_traces.lines("T0 acq a @1") * 1_000_000, NONE
    yield "1,024 threads", EMPTY_LINE, worked_traces.lines(*[f"T{i} fork T{i + 1} @1" for i in range(1023)]), NONE
    yield "1,025 threads", EMPTY_LINE, worked_traces.lines(*[f"T{i} fork T{i + 1} @1" for i in range(1024)]), TOO_MANY


def worked():
    """Name, report, trace, the line of the answer, and for some the verdict."""
    rows = [*worked_opposite(), *worked_shapes(), *worked_others(), *worked_of_traces()]
    rows += [(f"findings: {name}", *rest) for name, *rest in worked_findings()]
    return [(*row, None)[:5] for row in rows]


def by_hand(line):
    if line.startswith("ok"):
        return line.encode() + b"\n", b"", 0
    return b"", f"goodlock: {line}\n".encode(), 2
