"""Which function a line of source text is in, by the look of the text.

As `git diff` heads its hunks: the nearest line, from the place upwards, that looks like the beginning of a function in
the file's language. Unusual layouts can make it another line, but the same one wherever these lines stand in the file.
"""

from __future__ import annotations

import bisect
import os.path
import re
from collections.abc import Sequence

_MOST_BYTES = 400  # of a line that are looked at
_BY_KEYWORD = (b".py", b".rs", b".go", b".kt", b".js", b".ts", b".rb", b".swift", b".php")
_BY_METHOD = (b".java", b".cs", b".scala", b".groovy")
_BY_BOTH = (b".cc", b".cpp", b".cxx", b".c++", b".hh", b".hpp", b".hxx", b".h++", b".tcc", b".ipp", b".mm")

# `def name`, `fn name`, `func (receiver) name`, with words as `async` or `pub(crate)` before.
_KEYWORD = re.compile(rb"\s*(?:[a-z][\w()]*\s+){0,5}(?:def|fn|func|fun|function)\s+(?:\([^)]*\)\s*)?([A-Za-z_]\w*)")
# Words and then `name(`, with no semicolon behind: no call, as that follows one word at most.
_METHOD = re.compile(rb"[ \t]*(?:[A-Za-z_<>&@][\]\[?&<>.,:*\w]*[ \t]+){1,12}[*&]*(~?[A-Za-z_][\w:~]*)[ \t]*\([^;]*")
_STATEMENT = re.compile(rb"\s*(?:catch|do|else|for|if|new|return|switch|throw|while|case|await|goto|delete|using)\b")
# At the first column: neither a label nor a declaration alone.
_FIRST_COLUMN = re.compile(rb"(?![A-Za-z_]\w*:\s*(?:$|/[/*]))[A-Za-z_].*(?<![;\s])\s*")
_CALLED = re.compile(rb"([A-Za-z_][\w$]*(?:::~?[A-Za-z_$][\w$]*)*)\s*\(")
_ATTRIBUTES = (b"__attribute__", b"__declspec", b"alignas", b"decltype")


def _named_by_keyword(line: bytes) -> bytes | None:
    match = _KEYWORD.match(line)
    return match[1] if match else None


def _named_by_method(line: bytes) -> bytes | None:
    match = _METHOD.fullmatch(line.rstrip())
    if match is None or _STATEMENT.match(line) or _STATEMENT.match(match[1]):
        return None
    return match[1]


def _named_by_column(line: bytes) -> bytes | None:
    if not _FIRST_COLUMN.fullmatch(line):
        return None
    for match in _CALLED.finditer(line):
        if match[1] not in _ATTRIBUTES:
            return match[1]
    return b" ".join(line.rstrip(b"{ \t\r").split())


def _named_by_both(line: bytes) -> bytes | None:
    return _named_by_column(line) or _named_by_method(line)


class Functions:
    """The lines of a file at which functions begin."""

    def __init__(self, path: bytes, lines: Sequence[bytes]) -> None:
        ending = os.path.splitext(path)[1].lower()
        named = _named_by_column
        for endings, rule in ((_BY_KEYWORD, _named_by_keyword), (_BY_METHOD, _named_by_method)):
            if ending in endings:
                named = rule
        if ending in _BY_BOTH:
            named = _named_by_both
        heads: list[tuple[int, bytes]] = []
        for number, line in enumerate(lines, 1):
            name = named(line[:_MOST_BYTES])
            if name is not None:
                heads.append((number, name))
        self._numbers = [number for number, _ in heads]
        self._names = [name for _, name in heads]

    def at(self, line: int) -> bytes:
        """The name of the function that this line is in; empty above the first one."""
        at = bisect.bisect_right(self._numbers, line)
        return self._names[at - 1] if at else b""
