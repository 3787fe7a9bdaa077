#!/usr/bin/env python3
"""Checks docs/report.schema.json, and JSON reports of a program against it.

    schema.py [--cases N] [PROGRAM [ARGUMENT..]]

Each rule of the schema has to refuse a wrong document that no other rule refuses, and hand-made reports have to
pass. With a program (`goodlock predict`; `--json` and a query are added), its reports of the samples, of a trace
with all bytes in its names and of random traces have to pass too, be spelled as the schema's description says,
and say the query that was asked; with `--findings` too, which is skipped by name where the program's help doesn't have it. The validator here knows the keywords of this schema alone and stops at any
other. The last line is `N passed, N failed`.
"""

import argparse
import copy
import json
import os
import pathlib
import re
import subprocess
import sys

sys.dont_write_bytecode = True
sys.path.insert(0, str(pathlib.Path(__file__).resolve().parent.parent))

from fuzz import random_traces  # noqa: E402
from oracle import reference  # noqa: E402

TOP = pathlib.Path(__file__).resolve().parent.parent.parent
SCHEMA = TOP / "docs" / "report.schema.json"

# --- The validator: rules and documents ---------------------------------------------------------------

TYPES = {
    "object": lambda value: isinstance(value, dict),
    "array": lambda value: isinstance(value, list),
    "string": lambda value: isinstance(value, str),
    "boolean": lambda value: isinstance(value, bool),
    "null": lambda value: value is None,
    "integer": lambda value: is_number(value) and value == int(value),
}


def is_number(value):
    return isinstance(value, (int, float)) and not isinstance(value, bool)


def is_same(value, other):
    """Equality of JSON values: 1 is 1.0, and isn't true."""
    return value == other and isinstance(value, bool) == isinstance(other, bool)


def matches(pattern, text):
    """ECMA's `$` is the very end; Python's isn't."""
    assert pattern.startswith("^") and pattern.endswith("$"), pattern
    return re.fullmatch(pattern[1:-1], text) is not None


def each(kinds):
    return kinds if isinstance(kinds, list) else [kinds]


# By keyword, the kind of document that it speaks of and what it refuses.
TESTS = {
    "type": (lambda value: True, lambda kinds, value: not any(TYPES[kind](value) for kind in each(kinds))),
    "const": (lambda value: True, lambda wanted, value: not is_same(value, wanted)),
    "enum": (lambda value: True, lambda words, value: not any(is_same(value, word) for word in words)),
    "minimum": (is_number, lambda least, value: value < least),
    "maximum": (is_number, lambda most, value: value > most),
    "minItems": (TYPES["array"], lambda least, value: len(value) < least),
    "maxItems": (TYPES["array"], lambda most, value: len(value) > most),
    "uniqueItems": (TYPES["array"], lambda asked, value: asked and len(set(map(json.dumps, value))) < len(value)),
    "minLength": (TYPES["string"], lambda least, value: len(value) < least),
    "pattern": (TYPES["string"], lambda pattern, value: not matches(pattern, value)),
}
WORDS = ["$schema", "$id", "$defs", "title", "description"]
PARTS = ["$ref", "properties", "required", "additionalProperties", "items", "if", "then", "else"]


def target(schema, path):
    """What `#/$defs/NAME` stands for."""
    start, name = path.rsplit("/", 1)
    assert start == "#/$defs", path
    return schema["$defs"][name]


def rules(schema, part, at=""):
    """The places of all rules that a document can break, by the way that leads to them."""
    for keyword, value in part.items():
        assert keyword in WORDS + PARTS or keyword in TESTS, f"unknown keyword {keyword}"
        assert keyword != "$defs" or at == "", "definitions stand at the top"
        here = f"{at}/{keyword}"
        if keyword in TESTS:
            yield here
        elif keyword == "required":
            yield from (f"{here}/{name}" for name in value)
        elif keyword == "additionalProperties":
            assert value is False, "only false is known"
            yield here
        elif keyword == "properties":
            for name, inner in value.items():
                yield from rules(schema, inner, f"{here}/{name}")
        elif keyword in ("items", "$ref", "then", "else"):  # an `if` refuses nothing by itself
            yield from rules(schema, target(schema, value) if keyword == "$ref" else value, here)


def broken(schema, part, value, at=""):
    """The rules that the document breaks."""
    for keyword, asked in part.items():
        here = f"{at}/{keyword}"
        if keyword in TESTS:
            speaks_of, refuses = TESTS[keyword]
            if speaks_of(value) and refuses(asked, value):
                yield here
        elif keyword == "$ref":
            yield from broken(schema, target(schema, asked), value, here)
        elif keyword == "if":
            branch = "else" if any(broken(schema, asked, value)) else "then"
            yield from broken(schema, part[branch], value, f"{at}/{branch}")
        elif keyword == "items" and isinstance(value, list):
            for item in {id(item): item for item in value}.values():  # one that stands there often is looked at once
                yield from broken(schema, asked, item, here)
        elif isinstance(value, dict) and keyword == "properties":
            for name in asked.keys() & value.keys():
                yield from broken(schema, asked[name], value[name], f"{here}/{name}")
        elif isinstance(value, dict) and keyword == "required":
            yield from (f"{here}/{name}" for name in asked if name not in value)
        elif isinstance(value, dict) and keyword == "additionalProperties":
            if value.keys() - part.get("properties", {}).keys():
                yield here


# --- Documents by hand ----------------------------------------------------------------------------------

EDGES = [
    dict(first=0, guards=["a"], held="a", held_at="1", place=1, second=0, thread="T0", wanted="b", wanted_at="2"),
    dict(first=0, guards=["b"], held="b", held_at="5", place=1, second=0, thread="T1", wanted="a", wanted_at="6"),
]
REPORT = dict(cycles=[EDGES], format=1, len=4, max=1000, mode="full", more=False)
NONE = dict(REPORT, cycles=[])
TABLE = [dict(edge, guard_modes=["x"], held_mode="x", wanted_mode="x") for edge in EDGES]
REPORT_2 = dict(REPORT, format=2, cycles=[[0, 1]], edges=TABLE, trim=None)
NONE_2 = dict(REPORT_2, cycles=[], edges=[], trim=[])
REPORT_3 = dict(edges=TABLE, findings=[[0, 1]], format=3, len=4, max=1000, mode="full", more=False)
NONE_3 = dict(REPORT_3, edges=[], findings=[])
LEFT_OUT = object()
FORM_1, FORM_2, FORM_3 = "/else/else/$ref", "/then/$ref", "/else/then/$ref"  # the ways to their definitions


def changed(report, *way_and_value):
    """The report with another value at the end of this way; without it where the value is LEFT_OUT."""
    *way, last, value = way_and_value
    report = copy.deepcopy(report)
    part = report
    for step in way:
        part = part[step]
    if value is LEFT_OUT:
        del part[last]
    else:
        part[last] = value
    return report


def right_documents():
    ring = [dict(EDGES[0], thread=f"T{i}", held=f"l{i}", wanted=f"l{(i + 1) % 16}") for i in range(16)]
    yield dict(REPORT, cycles=[ring], len=16)
    yield dict(REPORT, cycles=[EDGES] * 100_000, max=100_000, more=True)
    yield dict(REPORT_2, cycles=[list(range(16))], len=16)
    yield dict(REPORT_2, cycles=[[0, 1]] * 100_000, max=100_000, more=True)
    yield dict(REPORT_2, cycles=[], trim=[1, 0])
    yield dict(REPORT_3, findings=[list(range(16))], len=16)
    yield dict(REPORT_3, findings=[[at, at + 1] for at in range(100_000)], max=100_000, more=True)
    yield dict(REPORT_3, findings=[])
    for report in (REPORT_2, REPORT_3):
        yield changed(report, "edges", 0, "guard_modes", ["s"] * 64)
    # What libgoodlock prints of locks without a name.
    yield dict(REPORT_2, edges=[dict(TABLE[0], held="", guards=[""], wanted_at=""), dict(TABLE[1], wanted="")])
    held = dict(TABLE[0], guards=["", ""], guard_modes=["x", "x"], held="", place=2)
    yield dict(REPORT_2, cycles=[], edges=[held, dict(TABLE[0], guards=[""], held="", wanted=""), held], trim=[0, 1, 2])
    kinds = ((REPORT, NONE, ("cycles", 0)), (REPORT_2, NONE_2, ("edges",)), (REPORT_3, NONE_3, ("edges",)))
    for report, none, way in kinds:
        yield report
        yield none
        yield dict(report, mode="basic", len=2, max=1, more=True)
        yield dict(report, mode="guarded", len=16, max=100_000)
        for number in (0, 4_294_967_295):
            for key in ("first", "second", "place"):
                yield changed(report, *way, 0, key, number)
        for at in ("held_at", "wanted_at"):
            yield changed(report, *way, 0, at, "")
        # é, a backslash, the bytes next to those that stand for themselves, and `\x41` as a name of four bytes.
        for name in ("\\xc3\\xa9", "\\x5c", "\\x1f !~\\x7f[]", "\\x5cx41", "\\x00\\x0a\\x80\\xff", '"', "(|)"):
            for key in ("held", "wanted", "thread", "held_at", "wanted_at"):
                yield changed(report, *way, 1, key, name)
        yield changed(report, *way, 0, "guards", [f"l{i}" for i in range(64)])
    for mode in ("x", "s"):
        for key in ("held_mode", "wanted_mode"):
            yield changed(REPORT_2, "edges", 1, key, mode)
            yield changed(REPORT_3, "edges", 1, key, mode)


def wrong_documents():
    """The one rule that the document breaks, and the document."""
    for kind in ([], "x", 1, True, None):
        yield "/type", kind
    for value in (4, 0, "1", "2", "3", True, None, [1]):
        yield f"{FORM_1}/properties/format/const", dict(REPORT, format=value)
    yield f"{FORM_1}/required/format", changed(REPORT, "format", LEFT_OUT)
    yield from wrong_in_all(REPORT, FORM_1, "cycles")
    yield from wrong_in_all(REPORT_2, FORM_2, "cycles")
    yield from wrong_in_all(REPORT_3, FORM_3, "findings")
    yield f"{FORM_1}/additionalProperties", dict(REPORT, edges=[])
    yield f"{FORM_2}/additionalProperties", dict(REPORT_2, seed=0)
    yield f"{FORM_3}/additionalProperties", dict(REPORT_3, trim=None)

    cycle = f"{FORM_1}/properties/cycles/items/$ref"
    for value in ({}, "ab", 0, None):
        yield f"{cycle}/type", dict(REPORT, cycles=[EDGES, value])
    yield f"{cycle}/minItems", dict(REPORT, cycles=[EDGES[:1]])
    yield f"{cycle}/maxItems", dict(REPORT, cycles=[EDGES[:1] * 17])
    yield from wrong_edges(REPORT, f"{cycle}/items/$ref", "cycles", 0)
    yield f"{cycle}/items/$ref/additionalProperties", changed(REPORT, "cycles", 0, 1, "held_mode", "x")

    trim = f"{FORM_2}/properties/trim"
    for value in ({}, "", 0, False):
        yield f"{trim}/type", dict(REPORT_2, trim=value)
    yield f"{trim}/uniqueItems", dict(REPORT_2, cycles=[], trim=[0, 1, 0])
    yield from wrong_numbers(f"{trim}/items/$ref", lambda value: dict(REPORT_2, cycles=[], trim=[0, value]))

    yield f"{FORM_3}/properties/findings/uniqueItems", dict(REPORT_3, findings=[[0, 1], [0, 1]])

    yield from wrong_with_table(REPORT_2, FORM_2, "cycles")
    yield from wrong_with_table(REPORT_3, FORM_3, "findings")


def wrong_with_table(report, top, listed):
    """What the formats with a table refuse of it, and of the lists of positions."""
    cycle = f"{top}/properties/{listed}/items/$ref"
    for value in ({}, "01", 0, None):
        yield f"{cycle}/type", changed(report, listed, [[0, 1], value])
    yield f"{cycle}/minItems", changed(report, listed, [[1]])
    yield f"{cycle}/maxItems", changed(report, listed, [list(range(17))])
    yield f"{cycle}/uniqueItems", changed(report, listed, [[0, 1, 0]])
    yield from wrong_numbers(f"{cycle}/items/$ref", lambda value: changed(report, listed, [[0, value]]))

    table = f"{top}/properties/edges/$ref"
    for value in ({}, "", 0, None):
        yield f"{table}/type", dict(report, edges=value)
    edge = f"{table}/items/$ref"
    yield from wrong_edges(report, edge, "edges")
    yield f"{edge}/additionalProperties", changed(report, "edges", 1, "mode", "x")
    for name in ("held_mode", "wanted_mode"):
        for value in ("X", "", "xs", None, 0):
            yield f"{edge}/properties/{name}/$ref/enum", changed(report, "edges", 1, name, value)
    modes = f"{edge}/properties/guard_modes/$ref"
    for value in ("x", {"x": 0}, None):
        yield f"{modes}/type", changed(report, "edges", 1, "guard_modes", value)
    yield f"{modes}/minItems", changed(report, "edges", 1, "guard_modes", [])
    yield f"{modes}/maxItems", changed(report, "edges", 1, "guard_modes", ["x"] * 65)
    for value in ("e", "", None, 1):
        yield f"{modes}/items/$ref/enum", changed(report, "edges", 1, "guard_modes", ["x", value])


def wrong_in_all(report, top, listed):
    """What each format refuses of what was asked and of the list of cycles or findings."""
    for name in report:
        if name != "format":  # without it a report is of format 1
            yield f"{top}/required/{name}", changed(report, name, LEFT_OUT)
    yield f"{top}/properties/{listed}/type", changed(report, listed, {})
    if listed == "findings":  # of which none stands there twice
        many = [[at, at + 1] for at in range(100_001)]
    else:
        many = report[listed] * 100_001
    yield f"{top}/properties/{listed}/maxItems", changed(report, listed, many)
    for name, least, most in (("len", 2, 16), ("max", 1, 100_000)):
        for value in ("4", 4.5, True, None, [4]):
            yield f"{top}/properties/{name}/$ref/type", changed(report, name, value)
        yield f"{top}/properties/{name}/$ref/minimum", changed(report, name, least - 1)
        yield f"{top}/properties/{name}/$ref/maximum", changed(report, name, most + 1)
    for value in ("Full", "", "full ", 2, None, ["full"]):
        yield f"{top}/properties/mode/$ref/enum", dict(report, mode=value)
    for value in (0, 1, "false", None):
        yield f"{top}/properties/more/$ref/type", dict(report, more=value)


def wrong_numbers(at, with_number):
    for value in ("0", 0.5, False, None):
        yield f"{at}/type", with_number(value)
    yield f"{at}/minimum", with_number(-1)
    yield f"{at}/maximum", with_number(4_294_967_296)


def wrong_edges(report, edge, *way):
    """What each format refuses of the second edge that lies on this way."""
    yield f"{edge}/type", changed(report, *way, 1, [])
    for name in report[way[0]][0][0] if len(way) > 1 else report[way[0]][0]:
        yield f"{edge}/required/{name}", changed(report, *way, 1, name, LEFT_OUT)

    def with_value(*rest_and_value):
        return changed(report, *way, 1, *rest_and_value)

    for name in ("first", "second", "place"):
        yield from wrong_numbers(
            f"{edge}/properties/{name}/$ref/$ref", lambda value, name=name: with_value(name, value)
        )

    # A byte that isn't escaped or needn't be, upper-case digits, a digit too few, an unknown escape, a letter that
    # isn't one byte.
    misspelled = ["\n", "a\x7f", "\xe9", "\\x41", "\\x7e", "\\x20", "\\x5C", "\\xC3", "\\x8", "\\n", "\\", "\\\\"]
    names = [(f"{edge}/properties/{name}/$ref", [name]) for name in ("thread", "held", "wanted")]
    for at, rest in names + [(f"{edge}/properties/guards/$ref/items/$ref", ["guards", 0])]:
        yield f"{at}/$ref/type", with_value(*rest, 7)
        for text in misspelled:
            yield f"{at}/$ref/pattern", with_value(*rest, text)
    yield f"{edge}/properties/thread/$ref/minLength", with_value("thread", "")
    for name in ("held_at", "wanted_at"):
        yield f"{edge}/properties/{name}/$ref/$ref/type", with_value(name, None)
        for text in misspelled:
            yield f"{edge}/properties/{name}/$ref/$ref/pattern", with_value(name, text)

    guards = f"{edge}/properties/guards/$ref"
    for value in ("b", {"b": 0}, None):
        yield f"{guards}/type", with_value("guards", value)
    yield f"{guards}/minItems", with_value("guards", [])
    yield f"{guards}/maxItems", with_value("guards", [f"l{i}" for i in range(65)])


# --- Reports of a program -------------------------------------------------------------------------------


def loaded(text):
    """The document of a text in which no key stands twice and no word is unknown to JSON."""

    def once(pairs):
        assert len(dict(pairs)) == len(pairs), "a key stands twice"
        return dict(pairs)

    def refused(word):
        raise AssertionError(f"{word} is no JSON")

    return json.loads(text, object_pairs_hook=once, parse_constant=refused)


def wrong_in(schema, output, status, mode, length, most):
    """What is wrong with a report for this query; nothing where it is right."""
    try:
        report = loaded(output.decode("ascii"))
    except (ValueError, AssertionError) as error:
        return f"not JSON: {error}"
    found = sorted(set(broken(schema, schema, report)))
    if found:
        return f"breaks {', '.join(found)}"
    if output.decode() != json.dumps(report, sort_keys=True, separators=(",", ":")) + "\n":
        return "isn't compact text on a line, with keys in order"
    if (report["mode"], report["len"], report["max"]) != (mode, length, most):
        return "says another query"
    listed = listed_in(report)
    count = len(listed)
    if count > most or (report["more"] and count < most) or any(len(cycle) > length for cycle in listed):
        return "lists more or longer cycles than were asked for"
    if status != (1 if count else 0):
        return f"{count} cycles with status {status}"
    problem = wrong_in_edges(report["edges"] if report["format"] != 1 else [edge for cycle in listed for edge in cycle])
    if problem:
        return problem
    if report["format"] != 1:
        size = len(report["edges"])
        if len(set(map(json.dumps, report["edges"]))) < size:
            return "has an edge twice"
        if any(position >= size for cycle in listed for position in cycle):
            return "has a cycle of an edge that isn't in the table"
        if any(len(edge["guards"]) != len(edge["guard_modes"]) for edge in report["edges"]):
            return "has guards and no mode for each"
    if report["format"] == 2 and report["trim"] is not None:
        if sorted(report["trim"]) != list(range(size)) or count:
            return "takes away other edges than there are, or with cycles"
    return None


def wrong_in_edges(edges):
    """What is wrong with edges of a program's report that the schema lets through in one of the library."""
    if any("" in (edge["held"], edge["wanted"], *edge["guards"]) for edge in edges):
        return "has a lock without a name"
    if any(len(set(edge["guards"])) < len(edge["guards"]) for edge in edges):
        return "has a guard twice"
    return None


def listed_in(report):
    """The listed cycles; of findings those that show them."""
    return report["findings" if report["format"] == 3 else "cycles"]


def traces(cases):
    for path in sorted((TOP / "samples").glob("*.std")):
        yield path.name, path.read_bytes()
    every = bytes(byte for byte in range(256) if byte not in b"\n|")
    names = [every.replace(b"(", b"").replace(b")", b"") + end for end in (b"a", b"b")]
    acquires = [(b"T0", 0), (b"T0", 1), (every, 1), (every, 0)]
    yield "all bytes", b"".join(b"%s|acq(%s)||%s.\n" % (thread, names[lock], every) for thread, lock in acquires)
    for number in range(cases):
        yield f"case {number}", random_traces.case("schema", number)


def main():
    parser = argparse.ArgumentParser(description=__doc__, formatter_class=argparse.RawDescriptionHelpFormatter)
    parser.add_argument("--cases", type=int, default=300)
    parser.add_argument("program", nargs="?")
    parser.add_argument("arguments", nargs=argparse.REMAINDER)
    options = parser.parse_args()
    passed = failed = skipped = 0

    def check(name, problem):
        nonlocal passed, failed
        passed, failed = passed + (not problem), failed + bool(problem)
        if problem:
            print(f"{name}: {problem}")

    schema = loaded(SCHEMA.read_text())
    places = list(rules(schema, schema))
    unused = schema["$defs"].keys() - set(re.findall(r'"#/\$defs/(\w+)"', json.dumps(schema)))
    check("definitions", unused and f"nothing leads to {sorted(unused)}")
    for document in right_documents():
        found = list(broken(schema, schema, document))
        check("right document", found and f"breaks {found}: {json.dumps(document)[:400]}")
    tried = set()
    for rule, document in wrong_documents():
        found = list(broken(schema, schema, document))
        tried.add(rule)
        check(f"wrong document for {rule}", found != [rule] and f"breaks {found}: {json.dumps(document)[:400]}")
    for place in places:
        check(f"rule {place}", place not in tried and "no wrong document breaks it")
    queries = [reference.Query(mode, length) for mode, length in (("full", 4), ("guarded", 2), ("basic", 3))]
    for number, (name, text) in enumerate(traces(min(options.cases, 100))):
        query = queries[number % 3]
        for form in (1, 2, 3):
            query.findings = form == 3
            output, _, status = reference.answer("predict", text, query, form)
            problem = status != 2 and wrong_in(schema, output, status, query.mode, query.length, query.most)
            check(f"the reference's report of {name}, format {form}", problem and f"{problem}: {output[:400]!r}")

    if options.program:
        command = [os.path.abspath(options.program), *options.arguments, "--json"]
        helped = subprocess.run([*command[:-1], "--help"], stdin=subprocess.DEVNULL, capture_output=True, text=True)
        forms = [[], ["--findings"]]
        if "--findings" not in helped.stdout:
            forms, skipped = forms[:1], 1
            print(f"{options.program}: no option --findings, so its reports of format 3 are SKIPPED")
        for form in forms:
            with_cycles = with_more = 0
            for number, (name, text) in enumerate(traces(options.cases)):
                mode, length = ("full", "basic", "guarded")[number % 3], (4, 2, 16, 3)[number % 4]
                most = (1000, 1)[number % 2]
                words = [*form, "--mode", mode, "--len", str(length), "--max", str(most)]
                done = subprocess.run(command + words, input=text, capture_output=True)
                name = f"report of {name}{', findings' * len(form)}"
                if done.returncode == 2:
                    check(name, done.stdout and "refused, and there is output")
                    continue
                problem = wrong_in(schema, done.stdout, done.returncode, mode, length, most)
                report = None if problem else loaded(done.stdout)
                if report is not None and (report["format"] == 3) != (form != []):
                    problem = f"is of format {report['format']}"
                check(name, problem and f"{problem}: {done.stdout[:400]!r}")
                if not problem:
                    with_cycles, with_more = with_cycles + (listed_in(report) != []), with_more + report["more"]
            print(f"{with_cycles} reports with {'findings' if form else 'cycles'}, {with_more} of them with more")
            if options.cases >= 100:
                is_enough = with_cycles >= options.cases / 10 and with_more >= options.cases / 100
                check("random traces", not is_enough and "too few cycles to tell")
    print(f"{passed} passed, {failed} failed{f', {skipped} skipped' * (skipped > 0)}")
    return 1 if failed or passed == 0 else 0


if __name__ == "__main__":
    sys.exit(main())
