"""Known findings: the file of those that were accepted."""

import json
import re
from collections.abc import Iterable
from typing import NamedTuple

from .files import bytes_of
from .names import SPELLED, file_name, shortened
from .refusal import Refusal
from .reports import Json, Pair, parsed

_HEAD = """\
# Accepted findings of goodlock, one a line: the finding's id, and behind it what helps a reader.
# Empty lines and lines that begin with # are passed over.
"""
_ID = re.compile(rb"([0-9a-f]{16})(?:\s.*)?", re.S)


class Known(NamedTuple):
    """The accepted findings: by their ids, and by their pairs of places."""

    ids: set[str]
    pairs: set[frozenset[Pair]]

    def has(self, identity: str, pairs: Iterable[Pair]) -> bool:
        """Whether a finding with this id and these pairs was accepted."""
        return identity in self.ids or frozenset(pairs) in self.pairs

    def without(self, ids: set[str], pairs: set[frozenset[Pair]]) -> int:
        """How many accepted findings are none of these."""
        return len(self.ids - ids) + len(self.pairs - pairs)


def known_text(findings: Iterable[tuple[str, list[Pair]]]) -> str:
    """The file that accepts findings with these ids and pairs."""
    lines = [(json.dumps(pairs, separators=(",", ":")), identity) for identity, pairs in findings]
    return _HEAD + "".join(f"{identity} {pairs}\n" for pairs, identity in sorted(lines))


def read_known(path: str) -> Known:
    """The accepted findings of a file. A line is an id with any text behind it, or a JSON array of pairs."""
    name = file_name(path)
    known = Known(set(), set())
    for number, line in enumerate(bytes_of(path, name).split(b"\n"), 1):
        line = line.strip()
        if line == b"" or line.startswith(b"#"):
            continue
        match = _ID.fullmatch(line)
        if match:
            known.ids.add(match[1].decode("ascii"))
        elif line.startswith(b"["):
            known.pairs.add(pairs_of(parsed(line, name, number), f"{name}: line {number}"))
        else:
            raise Refusal(f"{name}: line {number}: begins with neither an id of 16 digits (0-9, a-f) nor an array")
    return known


def pairs_of(value: Json, where: str) -> frozenset[Pair]:
    """The pairs of places of one finding, checked; where they are said is told in a refusal."""
    if type(value) is not list or not value or not all(_is_pair(pair) for pair in value):
        raise Refusal(f"{where}: not a non-empty array of pairs [held_at, wanted_at]")
    for place in (place for pair in value for place in pair):
        if not SPELLED.fullmatch(place):
            raise Refusal(f"{where}: not an escaped place: {shortened(ascii(place))}")
    return frozenset((held, wanted) for held, wanted in value)


def _is_pair(value: Json) -> bool:
    return type(value) is list and len(value) == 2 and all(type(place) is str for place in value)
