"""The lock graph of one cycle.

Its locks stand in a ring, and for each thread there is an arrow from the lock that it holds to the one that it wants.
Two locks stand side by side, three to eight in two columns, with their names in boxes; more stand on a circle, with
numbers.
"""

from __future__ import annotations

import html
import math
import os.path
import unicodedata

from .names import readable, shortened
from .reports import Cycle

Point = tuple[float, float]

_BOXED = 8  # up to so many locks have their names
_LABEL = 16  # columns of a lock's name
_THREAD = 13  # and of a thread's, on its arrow
_THREAD_BESIDE = 40  # and beside it, where there are two
_WIDTH = 360.0
_MIDDLE = _WIDTH / 2
_MARGIN = 25.0
_ROW = 74.0
_COLUMN = 95.0  # from the middle
_RADIUS = 145.0
_BELOW = 27.0  # where a name stands that has no room between two boxes


class Picture:
    """How one cycle is drawn."""

    def __init__(self, cycle: Cycle) -> None:
        self._cycle = cycle
        self._count = len(cycle)
        self._is_boxed = self._count <= _BOXED
        self._labels = self._names() if self._is_boxed else [str(at + 1) for at in range(self._count)]
        self._radius = min(14, 0.4 * 2 * math.pi * _RADIUS / self._count)
        if self._count == 2:
            self._points, self._height = [(75.0, 68.0), (285.0, 68.0)], 136.0
        elif self._is_boxed:
            self._points, self._height = _columns(self._count)
        else:
            self._points, self._height = [self._on_circle(at) for at in range(self._count)], 340.0

    def drawn(self) -> str:
        """The picture as SVG."""
        parts = [self._arrow(at) for at in range(self._count)] + [self._lock(at) for at in range(self._count)]
        label = f"A ring of {self._count} locks; each arrow is a thread that holds one lock and wants the next."
        box = f"0 0 {_WIDTH:.0f} {self._height:.0f}"
        return f'<svg class="picture" viewBox="{box}" role="img" aria-label="{label}">{"".join(parts)}</svg>'

    def _names(self) -> list[str]:
        """The locks' names as far as they fit; where their ends are alike, the parts between them."""
        names = [readable(edge.held) for edge in self._cycle]
        labels = [fitted(name, _LABEL) for name in names]
        if len(set(labels)) == len(labels):
            return labels
        front = len(os.path.commonprefix(names))
        back = len(os.path.commonprefix([name[front:][::-1] for name in names]))
        return [_core(name, front, back) for name in names]

    def _on_circle(self, turn: float) -> Point:
        angle = 2 * math.pi * turn / self._count - math.pi / 2
        return _MIDDLE + _RADIUS * math.cos(angle), 170 + _RADIUS * math.sin(angle)

    def _control(self, at: int) -> Point:
        """The point towards which an arrow is bent."""
        if not self._is_boxed:
            return self._on_circle(at + 0.5)
        if self._count == 2:
            return _MIDDLE, -4.0 if at == 0 else 140.0
        (x, y), (to_x, to_y) = self._points[at], self._points[(at + 1) % self._count]
        return (x + to_x) / 2, (y + to_y) / 2

    def _half_width(self, at: int) -> float:
        return max(20, 3.7 * columns(self._labels[at]) + 8)

    def _border(self, at: int, toward: Point) -> Point:
        """Where a line from the lock's middle to a point leaves the lock's shape."""
        x, y = self._points[at]
        dx, dy = toward[0] - x, toward[1] - y
        if self._is_boxed:
            scale = min(self._half_width(at) / max(abs(dx), 0.01), 16 / max(abs(dy), 0.01))
        else:
            scale = self._radius / math.hypot(dx, dy)
        return x + dx * scale, y + dy * scale

    def _arrow(self, at: int) -> str:
        control = self._control(at)
        start = self._border(at, control)
        end = self._border((at + 1) % self._count, control)
        back = math.hypot(end[0] - control[0], end[1] - control[1]) or 1
        ux, uy = (end[0] - control[0]) / back, (end[1] - control[1]) / back
        size = 9 if self._count <= 24 else 4
        base = end[0] - ux * size, end[1] - uy * size
        left = base[0] - uy * size / 2, base[1] + ux * size / 2
        right = base[0] + uy * size / 2, base[1] - ux * size / 2
        color = f"e{at % 6}"
        path = f"M{_xy(start)} Q{_xy(control)} {_xy(base)}"
        parts = [f'<path class="arc {color}" d="{path}"/>']
        parts.append(f'<path class="head {color}" d="M{_xy(end)} L{_xy(left)} L{_xy(right)} Z"/>')
        if self._is_boxed:
            middle = (start[0] + 2 * control[0] + end[0]) / 4, (start[1] + 2 * control[1] + end[1]) / 4
            parts.append(self._thread(at, middle, color))
        return "".join(parts)

    def _thread(self, at: int, middle: Point, color: str) -> str:
        """The thread's name on its arrow; below it where the arrow is flat and short.

        Where there are two it stands above the one and below the other, with room for more.
        """
        most = _THREAD_BESIDE if self._count == 2 else _THREAD
        name = f"{at + 1}. {fitted(readable(self._cycle[at].thread), most)}"
        x, y = middle
        gap = ""
        if self._count == 2:
            y += -12 if at == 0 else 12
        else:
            if self._points[at][1] == self._points[(at + 1) % self._count][1]:
                y += _BELOW
            half = 3.8 * columns(name) + 2
            gap = f'<rect class="gap" x="{x - half:.1f}" y="{y - 8:.1f}" width="{2 * half:.1f}" height="16"/>'
        return f'{gap}<text class="thread {color}" x="{x:.1f}" y="{y:.1f}">{html.escape(name)}</text>'

    def _lock(self, at: int) -> str:
        x, y = self._points[at]
        title = f"<title>{html.escape(shortened(self._cycle[at].held, 200))}</title>"
        if self._is_boxed:
            half = self._half_width(at)
            box = f'x="{x - half:.1f}" y="{y - 16:.1f}" width="{2 * half:.1f}" height="32"'
            shape = f'<rect class="lock" {box} rx="8"/>'
        else:
            shape = f'<circle class="lock" cx="{x:.1f}" cy="{y:.1f}" r="{self._radius:.1f}"/>'
        text = f'<text x="{x:.1f}" y="{y:.1f}">{html.escape(self._labels[at])}</text>'
        return f"<g>{title}{shape}{text if self._radius > 8 else ''}</g>"


def _columns(count: int) -> tuple[list[Point], float]:
    """One lock at the top, columns to the right and left, and for even counts one at the bottom."""
    rows = (count - 1) // 2
    right = [(_MIDDLE + _COLUMN, _MARGIN + row * _ROW) for row in range(1, rows + 1)]
    left = [(_MIDDLE - _COLUMN, y) for _, y in reversed(right)]
    bottom = [(_MIDDLE, _MARGIN + (rows + 1) * _ROW)] if count % 2 == 0 else []
    points = [(_MIDDLE, _MARGIN), *right, *bottom, *left]
    return points, max(y for _, y in points) + (_MARGIN if bottom else _BELOW + 10)


def columns(text: str) -> int:
    """How wide a text is where each character has one column or two."""
    return sum(2 if unicodedata.east_asian_width(c) in "WF" else 1 for c in text)


def fitted(text: str, most: int) -> str:
    """Text of at most so many columns: its two ends, if it is longer."""
    if len(text) <= most and columns(text) <= most:
        return text
    head, tail = text[: most // 2], text[-(most // 2 - 1) :]
    while columns(head) > most // 2:
        head = head[:-1]
    while columns(tail) > most // 2 - 1:
        tail = tail[1:]
    return f"{head}…{tail}"


def _core(name: str, front: int, back: int) -> str:
    """What is between the ends that this name shares with others, with as much of the ends as there is room for."""
    core = name[front : len(name) - back]
    room = max(_LABEL - 2 - columns(core), 0)
    before = name[max(front - (room + 1) // 2, 0) : front]
    after = name[len(name) - back :][: room // 2]
    cut_before = "…" if len(before) < front else ""
    cut_after = "…" if len(after) < back else ""
    return cut_before + fitted(before + core + after, _LABEL - 2) + cut_after


def _xy(point: Point) -> str:
    return f"{point[0]:.1f} {point[1]:.1f}"
