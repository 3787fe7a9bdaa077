"""What the locations of a report name: lines of source files, and addresses in modules."""

from __future__ import annotations

import functools
import re
from typing import NamedTuple

from .names import unspell

_ADDRESS = re.compile(r"0x[0-9a-fA-F]+")
_MODULE = re.compile(r"(.+)\+0x([0-9a-f]{1,15})(?: \(.*\))?")
_END = re.compile(r"(?::[0-9]+|\+(?:0x[0-9a-f]+|[0-9]+))(?: \(.*\))?\Z")
_METHOD = re.compile(r"[\w$]+(?:\.[\w$]+)+")
_FRAME = re.compile(r"(.*?[^:]):([1-9][0-9]{0,8})(?::([1-9][0-9]{0,8}))?(?: \(.*\))?")


class Frame(NamedTuple):
    """A line of a source file; the column is 0 where none is told."""

    file: bytes
    line: int
    column: int


class Address(NamedTuple):
    """An address in a program or library."""

    module: bytes
    offset: int


def place_of(location: str, lock: str) -> str:
    """The place that tells findings apart: the location, or the lock where the location says nothing.

    Otherwise all cycles of a run without locations would be one finding, and accepting that one would accept every
    later one. Addresses differ from run to run, so they are left out of the lock's name.
    """
    return location if location.strip() not in ("", "?") else f"?({_ADDRESS.sub('0x*', lock)})"


def parts_of(location: str) -> list[str]:
    """The places of `a.c:10<b.c:20 (main)`, the innermost first.

    A file may have a `<` in its name. So one divides only behind what ends a place, as recorders tell it: the number of
    a line, an offset; or behind a whole one that is neither, a method of Java or `?`.
    """
    parts: list[str] = []
    is_whole = True
    for text in location.split("<"):
        is_end = _END.search(text.rstrip()) is not None
        if is_whole:
            parts.append(text)
            is_whole = is_end or text.strip() == "?" or _METHOD.fullmatch(text.strip()) is not None
        else:
            parts[-1] += "<" + text
            is_whole = is_end
    return parts


@functools.lru_cache(maxsize=10_000)
def frames_of(location: str) -> list[Frame | None]:
    """The frames of these places; None for those that aren't a file and a line."""
    return [_frame_of(part.strip()) for part in parts_of(location)]


def _frame_of(part: str) -> Frame | None:
    """A file needs a dot or a slash in its name, so that a text as "at 12:30" isn't taken for one."""
    match = _FRAME.fullmatch(part)
    if match is None or not ("." in match[1] or "/" in match[1]):
        return None
    return Frame(unspell(match[1]), int(match[2]), int(match[3] or 0))


def address_of(location: str) -> Address | None:
    """The address in a module, as `libfoo.so+0x1f`, where the location is one."""
    match = _MODULE.fullmatch(location)
    return Address(unspell(match[1]), int(match[2], 16)) if match else None
