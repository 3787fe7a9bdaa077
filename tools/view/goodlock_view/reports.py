"""Reading reports: JSON of format 1, 2 or 3, checked key by key, as cycles of edges."""

from __future__ import annotations

import json
import operator
from collections.abc import Iterator, Sequence
from typing import Any

from .names import SPELLED, counted, shortened
from .places import place_of
from .refusal import Refusal

Json = Any  # what json.loads gives, until it was checked
Pair = tuple[str, str]  # the places where a lock was taken and where the next one was asked for

NAME_KEYS = ("thread", "held", "held_at", "wanted", "wanted_at")
_NUMBER_KEYS = ("first", "place", "second")
_NAMES_OF = operator.itemgetter(*NAME_KEYS)
_EDGE_KEYS = frozenset(NAME_KEYS + _NUMBER_KEYS + ("guards",))
_EDGE_KEYS_2 = _EDGE_KEYS | {"guard_modes", "held_mode", "wanted_mode"}
_COMMON_KEYS = frozenset(("format", "len", "max", "mode", "more"))
_REPORT_KEYS = {
    1: _COMMON_KEYS | {"cycles"},
    2: _COMMON_KEYS | {"cycles", "edges", "trim"},
    3: _COMMON_KEYS | {"edges", "findings"},
}
_MOST_SHARED = 100_000  # names or edges that are kept from report to report


class NotJson(ValueError):
    """What the parser lets through, and JSON doesn't have."""


class Wrong(Exception):
    """What is wrong with a part of a report. The callers put before it where in the report that is."""

    def __init__(self, text: str, where: str = "") -> None:
        super().__init__(text, where)
        self.text = text
        self.where = where

    def under(self, where: str) -> "Wrong":
        """The same, said of the whole that this part is in."""
        dot = "" if self.where.startswith("[") or not self.where else "."
        return Wrong(self.text, where + dot + self.where)


class Edge:
    """A thread that holds a lock and asks for another. Equal edges are one object, so that sets of them are quick."""

    __slots__ = NAME_KEYS + ("guards", "held_mode", "wanted_mode", "pair")

    def __init__(
        self,
        names: tuple[str, str, str, str, str],
        guards: tuple[str, ...],
        held_mode: str | None,
        wanted_mode: str | None,
    ) -> None:
        self.thread, self.held, self.held_at, self.wanted, self.wanted_at = names
        self.guards = guards
        self.held_mode = held_mode  # "x", "s", or None where the report doesn't say
        self.wanted_mode = wanted_mode
        self.pair: Pair = (place_of(self.held_at, self.held), place_of(self.wanted_at, self.wanted))


Cycle = list[Edge]


class Reader:
    """Checks reports and turns them into cycles of edges. Names and edges are shared between reports, as long as they
    aren't too many: each run may have its own."""

    def __init__(self) -> None:
        self._names: set[str] = set()  # those that were found well spelled
        self._modes: set[tuple[Any, ...]] = set()  # held, wanted and the guards' modes that were found right
        self._edges: dict[tuple[Any, ...], Edge] = {}

    def cycles(self, report: Json) -> Iterator[Cycle]:
        """Each cycle of a report that `check_report` took, checked one after the other; of format 3 those that show its
        findings."""
        self._forget()
        table = self._table_of(report)
        listed = listed_in(report)
        if type(report[listed]) is not list:
            raise Wrong(f"is {_kind(report[listed])}, not an array", listed)
        if len(report[listed]) > report["max"]:
            raise Wrong(f"lists {len(report[listed])} {listed}, more than `max`", listed)
        for at, value in enumerate(report[listed]):
            try:
                cycle = self._list_of_edges(value, _EDGE_KEYS) if table is None else _edges_at(value, table)
                _check_cycle(cycle, report["len"])
            except Wrong as wrong:
                raise wrong.under(f"{listed}[{at}]") from None
            yield cycle

    def _forget(self) -> None:
        """Lets go of what earlier reports had, where it is much; what findings show stays with them."""
        tables: tuple[set[Any] | dict[Any, Any], ...] = (self._names, self._modes, self._edges)
        for table in tables:
            if len(table) > _MOST_SHARED:
                table.clear()

    def _table_of(self, report: Json) -> list[Edge] | None:
        """The edges that cycles are positions of; None in format 1, whose cycles have the edges themselves."""
        if report["format"] == 1:
            return None
        try:
            table = self._list_of_edges(report["edges"], _EDGE_KEYS_2)
        except Wrong as wrong:
            raise wrong.under("edges") from None
        _check_trim(report.get("trim"), table)
        return table

    def _list_of_edges(self, values: Json, keys: frozenset[str]) -> list[Edge]:
        if type(values) is not list:
            raise Wrong(f"is {_kind(values)}, not an array")
        edges = []
        for at, value in enumerate(values):
            try:
                edges.append(self._edge(value, keys))
            except Wrong as wrong:
                raise wrong.under(f"[{at}]") from None
        return edges

    def _edge(self, value: Json, keys: frozenset[str]) -> Edge:
        _check_keys(value, keys)
        names = _NAMES_OF(value)
        if not self._have_seen(names):
            for key in NAME_KEYS:
                self._check_name(value[key], key)
        _check_numbers(value, _NUMBER_KEYS)
        self._check_guards(value)
        if value["held"] == value["wanted"]:
            raise Wrong("is the held lock", "wanted")
        if keys is _EDGE_KEYS_2:
            self._check_modes(value)
        fields = (names, tuple(value["guards"]), value.get("held_mode"), value.get("wanted_mode"))
        edge = self._edges.get(fields)
        if edge is None:
            edge = self._edges[fields] = Edge(*fields)
        return edge

    def _have_seen(self, names: Sequence[Json]) -> bool:
        """Whether all of these are names that were checked before, as most are."""
        try:
            return self._names.issuperset(names)
        except TypeError:
            return False  # one of them is an array or an object

    def _check_name(self, name: Json, where: str) -> None:
        if type(name) is not str:
            raise Wrong(f"is {_kind(name)}, not a string", where)
        if not SPELLED.fullmatch(name):
            raise Wrong(f"isn't an escaped name: {shortened(ascii(name))}", where)
        self._names.add(name)

    def _check_guards(self, value: Json) -> None:
        guards = value["guards"]
        if type(guards) is not list:
            raise Wrong(f"is {_kind(guards)}, not an array", "guards")
        if not self._have_seen(guards):
            for at, guard in enumerate(guards):
                self._check_name(guard, f"guards[{at}]")
        if value["held"] not in guards:
            raise Wrong("are without the held lock", "guards")

    def _check_modes(self, value: Json) -> None:
        modes = value["guard_modes"]
        told = (value["held_mode"], value["wanted_mode"], len(value["guards"]), *(modes if type(modes) is list else ()))
        if type(modes) is list and self._have_seen_modes(told):
            return
        _check_choice(value, "held_mode", ("x", "s"))
        _check_choice(value, "wanted_mode", ("x", "s"))
        if type(modes) is not list or any(mode not in ("x", "s") for mode in modes):
            raise Wrong('isn\'t an array of "x" and "s"', "guard_modes")
        if len(modes) != len(value["guards"]):
            raise Wrong("hasn't one mode for each guard", "guard_modes")
        self._modes.add(told)

    def _have_seen_modes(self, told: tuple[Any, ...]) -> bool:
        try:
            return told in self._modes
        except TypeError:
            return False  # one of them is an array or an object


def check_report(report: Json) -> None:
    """The report's own fields; its edges and cycles are checked as they are read."""
    if type(report) is not dict:
        raise Wrong(f"is {_kind(report)}, not an object")
    number = report.get("format")
    if type(number) is not int or number not in _REPORT_KEYS:
        raise Wrong("has no key `format` of 1, 2 or 3")
    _check_keys(report, _REPORT_KEYS[number])
    _check_numbers(report, ("len", "max"))
    _check_choice(report, "mode", ("basic", "guarded", "full"))
    if type(report["more"]) is not bool:
        raise Wrong(f"is {_kind(report['more'])}, not true or false", "more")
    if number == 2 and type(report["trim"]) not in (list, type(None)):
        raise Wrong(f"is {_kind(report['trim'])}, not an array or null", "trim")


def listed_in(report: Json) -> str:
    """The key of a report that lists its cycles."""
    return "findings" if report["format"] == 3 else "cycles"


def _kind(value: Json) -> str:
    names = {dict: "an object", list: "an array", str: "a string", bool: "true or false"}
    names.update({int: "a number", float: "a number with a fraction or exponent", type(None): "null"})
    return names[type(value)]


def _check_keys(value: Json, keys: frozenset[str]) -> None:
    if type(value) is not dict:
        raise Wrong(f"is {_kind(value)}, not an object")
    if value.keys() != keys:
        missing = sorted(keys - value.keys())
        if missing:
            raise Wrong(f"has no key `{missing[0]}`")
        unknown = min(value.keys() - keys)
        raise Wrong(f"has the unknown key {shortened(ascii(unknown))}")


def _check_numbers(value: Json, keys: Sequence[str]) -> None:
    for key in keys:
        number = value[key]
        if type(number) is not int:
            raise Wrong(f"is {_kind(number)}, not a whole number", key)
        if number < 0:
            raise Wrong("is below 0", key)
        if number >= 1 << 64:
            raise Wrong("is too large", key)


def _check_choice(value: Json, key: str, choices: Sequence[str]) -> None:
    if type(value[key]) is not str or value[key] not in choices:
        raise Wrong("is none of " + ", ".join(f'"{choice}"' for choice in choices), key)


def _edges_at(positions: Json, table: list[Edge]) -> list[Edge]:
    if type(positions) is not list:
        raise Wrong(f"is {_kind(positions)}, not an array")
    for at, position in enumerate(positions):
        if type(position) is not int or not 0 <= position < len(table):
            raise Wrong("isn't a position in `edges`", f"[{at}]")
    return [table[position] for position in positions]


def _check_trim(trim: Json, table: list[Edge]) -> None:
    """An order in which all edges can be taken away, or null; whether it is one is for `goodlock check` to say."""
    if trim is None:
        return
    try:
        _edges_at(trim, table)
    except Wrong as wrong:
        raise wrong.under("trim") from None
    if len(set(trim)) != len(trim):
        raise Wrong("has a position twice", "trim")
    if len(trim) != len(table):
        raise Wrong(f"has {counted(len(trim), 'position')} for {counted(len(table), 'edge')}", "trim")


def _check_cycle(cycle: Cycle, most: int) -> None:
    if len(cycle) < 2:
        raise Wrong(f"has {counted(len(cycle), 'edge')}, a cycle has two or more")
    if len(cycle) > most:
        raise Wrong(f"has {len(cycle)} edges, more than `len`")
    for at, edge in enumerate(cycle):
        if edge.wanted != cycle[(at + 1) % len(cycle)].held:
            raise Wrong("wants another lock than the next edge holds", f"[{at}]")
    if len({edge.thread for edge in cycle}) != len(cycle):
        raise Wrong("has a thread twice")
    if len({edge.held for edge in cycle}) != len(cycle):
        raise Wrong("has a held lock twice")


def _object_of(pairs: list[tuple[str, Json]]) -> Json:
    value = dict(pairs)
    if len(value) != len(pairs):
        keys = [key for key, _ in pairs]
        twice = next(key for key in keys if keys.count(key) > 1)
        raise NotJson(f"the key {shortened(ascii(twice))} comes twice in one object")
    return value


def _no_constant(word: str) -> Json:
    raise NotJson(f"{word} isn't JSON")


def parsed(data: bytes, name: str, line: int = 1) -> Json:
    """The JSON value of these bytes, which begin at this line of the file."""
    try:
        return json.loads(data.decode("utf-8"), object_pairs_hook=_object_of, parse_constant=_no_constant)
    except UnicodeDecodeError as error:
        raise Refusal(f"{name}: line {line + data[: error.start].count(10)}: not UTF-8") from None
    except json.JSONDecodeError as error:
        line += error.lineno - 1
        raise Refusal(f"{name}: line {line}, column {error.colno}: not JSON: {error.msg}") from None
    except NotJson as error:
        raise Refusal(f"{name}: not JSON: {error}") from None
    except ValueError:  # of Python's limit
        raise Refusal(f"{name}: not a report: a number has too many digits") from None
    except RecursionError:
        raise Refusal(f"{name}: not a report: nested too deeply") from None
