"""Confirmations: what goodlock-confirm says of findings."""

from __future__ import annotations

from collections.abc import Iterable
from typing import NamedTuple

from .files import bytes_of
from .known import pairs_of
from .names import file_name, spell
from .refusal import Refusal
from .reports import Json, Pair, parsed

_KEYS = {"outcome", "pairs", "text", "tries"}
_OUTCOMES = ("deadlocked", "not seen")


class Confirmation(NamedTuple):
    """Whether a run came to the deadlock of these pairs, and what was said of it, so that it can be printed."""

    pairs: frozenset[Pair]
    is_deadlocked: bool
    text: list[str]


def read_confirmations(paths: Iterable[str]) -> list[Confirmation]:
    """The outcomes in these files, of one run of goodlock-confirm each."""
    found = []
    for path in paths:
        name = file_name(path)
        found.append(_confirmation_of(parsed(bytes_of(path, name), name), name))
    return found


def _confirmation_of(value: Json, name: str) -> Confirmation:
    if not _is_outcome(value):
        raise Refusal(f"{name}: not an outcome of goodlock-confirm")
    text = value["text"]
    if type(text) is not list or not text or not all(type(line) is str for line in text):
        raise Refusal(f"{name}: not an outcome of goodlock-confirm: text isn't a non-empty array of strings")
    lines = [_shown(line) for line in text]
    return Confirmation(pairs_of(value["pairs"], name), value["outcome"] == "deadlocked", lines)


def _is_outcome(value: Json) -> bool:
    if type(value) is not dict or set(value) != _KEYS or value["outcome"] not in _OUTCOMES:
        return False
    return type(value["tries"]) is int and value["tries"] >= 0


def _shown(line: str) -> str:
    """A line in which what can't be printed is escaped."""
    return "".join(char if char.isprintable() else spell(char.encode("utf-8", "surrogatepass")) for char in line)
