"""Source files below one directory, and their lines."""

from __future__ import annotations

import os
import posixpath
import stat
from collections.abc import Iterable
from typing import NamedTuple

from .functions import Functions
from .places import Frame, frames_of

_VERSION_CONTROL = (b".git", b".hg", b".svn")
_INSTALLED = {b"site-packages", b"dist-packages"}  # what a Python environment has, as one in the checkout


class SourceLine(NamedTuple):
    """A line of source, told without its number: so it is the same line after it moved."""

    path: bytes
    function: bytes
    text: bytes  # without indentation, and with single blanks
    repeats: int  # equal lines above it in functions of that name
    column: int  # counted behind the indentation; 0 where none is told


class Sources:
    """Source files below one directory, found by the longest common end of their paths.

    Only regular files that the walk met are ever opened: it follows no link, and a path from a report is only compared
    with what it met, so nothing outside of the directory is read.
    """

    MOST_BYTES = 16_000_000

    def __init__(self, directory: str, files: Iterable[bytes]) -> None:
        self._given = os.fsencode(directory)
        self._root = os.path.realpath(self._given)
        self._by_name: dict[bytes, list[bytes]] = {posixpath.basename(file): [] for file in files}
        self._found: dict[bytes, tuple[bytes | None, str]] = {}
        self._lines: dict[bytes, list[bytes] | None] = {}
        self._functions: dict[bytes, Functions] = {}
        self._numbers: dict[bytes, dict[bytes, list[int]]] = {}
        self._walk()

    def _walk(self) -> None:
        for folder, folders, names in os.walk(self._root):
            folders[:] = [name for name in folders if name not in _VERSION_CONTROL]
            for name in self._by_name.keys() & set(names):
                path = os.path.join(folder, name)
                if os.path.isfile(path) and not os.path.islink(path):
                    self._by_name[name].append(path)

    def find(self, file: bytes) -> tuple[bytes | None, str]:
        """The path below the directory, or None and why there is none."""
        if file not in self._found:
            self._found[file] = self._find_anew(file)
        return self._found[file]

    def _find_anew(self, file: bytes) -> tuple[bytes | None, str]:
        wanted = [part for part in file.split(b"/") if part not in (b"", b".")][::-1]
        best = 0
        paths: list[bytes] = []
        for path in self._by_name.get(posixpath.basename(file), []):
            parts = path.split(b"/")[::-1]
            same = 0
            while same < min(len(parts), len(wanted)) and parts[same] == wanted[same] != b"..":
                same += 1
            if same > best:
                best, paths = same, []
            if same == best:
                paths.append(path)
        if not paths:
            return None, "no such file below the source directory"
        paths = [path for path in paths if not self._is_installed(path)] or paths
        if len(paths) > 1:
            return None, f"{len(paths)} files fit equally well"
        return os.path.relpath(paths[0], self._root), ""

    def _is_installed(self, path: bytes) -> bool:
        return not _INSTALLED.isdisjoint(os.path.relpath(path, self._root).split(b"/"))

    def read(self, path: bytes) -> list[bytes] | None:
        """The lines of a file that `find` gave; None where it can't be read or is too large."""
        if path not in self._lines:
            self._lines[path] = self._read_anew(path)
        return self._lines[path]

    def _read_anew(self, path: bytes) -> list[bytes] | None:
        whole = os.path.join(self._root, path)
        if os.path.realpath(whole) != whole:  # a link took the place of a folder since the walk
            return None
        try:
            number = os.open(whole, os.O_RDONLY | os.O_NOFOLLOW | os.O_NONBLOCK)
            with open(number, "rb") as file:
                if not stat.S_ISREG(os.fstat(number).st_mode):
                    return None
                data = file.read(self.MOST_BYTES + 1)
        except OSError:
            return None
        if len(data) > self.MOST_BYTES:
            return None
        lines = data.split(b"\n")
        return lines[:-1] if lines[-1] == b"" else lines

    def excerpt(self, path: bytes, first: int, last: int) -> list[tuple[int, str]] | None:
        """Lines first..last as (number, text), with all that doesn't print made visible."""
        lines = self.read(path)
        if lines is None:
            return None
        return [(n, _shown(lines[n - 1])) for n in range(max(first, 1), min(last, len(lines)) + 1)]

    def columns(self, path: bytes, line: int) -> tuple[int, int] | None:
        """The columns in which the line's text begins and ends, as SARIF counts them: in UTF-16, from 1."""
        lines = self.read(path)
        if lines is None or line > len(lines) or lines[line - 1].strip() == b"":
            return None
        text = lines[line - 1].decode("utf-8", "replace")
        front = text[: len(text) - len(text.lstrip())]
        return _utf16(front) + 1, _utf16(text.rstrip()) + 1

    def function(self, path: bytes, line: int) -> bytes:
        """The name of the function that the line is in, by the look of the text; empty where there is none."""
        lines = self.read(path)
        if lines is None or line > len(lines):
            return b""
        if path not in self._functions:
            self._functions[path] = Functions(path, lines)
        return self._functions[path].at(line)

    def source_line(self, frame: Frame) -> SourceLine | None:
        """The line that a frame names; None where there is no such file, or no text in that line."""
        path = self.find(frame.file)[0]
        lines = self.read(path) if path is not None else None
        if path is None or lines is None or frame.line > len(lines):
            return None
        line = lines[frame.line - 1]
        text = _unindented(line)
        if text == b"":
            return None
        function = self.function(path, frame.line)
        above = [number for number in self._equal_lines(path, lines, text) if number < frame.line]
        repeats = sum(1 for number in above if self.function(path, number) == function)
        column = max(frame.column - (len(line) - len(line.lstrip())), 0)
        return SourceLine(self.uri_path(path), function, text, repeats, column)

    def _equal_lines(self, path: bytes, lines: list[bytes], text: bytes) -> list[int]:
        """The numbers of the file's lines with this text."""
        if path not in self._numbers:
            numbers: dict[bytes, list[int]] = {}
            for number, line in enumerate(lines, 1):
                numbers.setdefault(_unindented(line), []).append(number)
            self._numbers[path] = numbers
        return self._numbers[path][text]

    def uri_path(self, path: bytes) -> bytes:
        """The path for code hosts: with the directory before it, where that was given as a relative one."""
        given = posixpath.normpath(self._given)
        if given.startswith((b"/", b"..")) or given == b".":
            return path
        return posixpath.join(given, path)


def files_of(places: Iterable[str]) -> set[bytes]:
    """The files that these places name."""
    return {frame.file for place in places for frame in frames_of(place) if frame}


def _unindented(line: bytes) -> bytes:
    return b" ".join(line.split())


def _utf16(text: str) -> int:
    return len(text.encode("utf-16-le", "surrogatepass")) // 2


def _shown(line: bytes) -> str:
    text = line[:2000].rstrip(b"\r").decode("utf-8", "replace").expandtabs(4)
    shown = "".join(c if c.isprintable() else f"\\u{{{ord(c):x}}}" for c in text[:400])
    return shown + ("…" if len(text) > 400 or len(line) > 2000 else "")
