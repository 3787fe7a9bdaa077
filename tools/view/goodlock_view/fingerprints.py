"""Ids of findings: the same in every run, and where there is source, also after lines have moved.

The id is a hash of the finding's pairs of places. A place whose file is below the source directory stands there by its
file, function and text, without the number of its line; any other as it is told in the report.
"""

from __future__ import annotations

import hashlib
import json
from collections.abc import Iterable

from .names import spell
from .places import Frame, frames_of, parts_of
from .reports import Pair
from .sources import Sources


class Fingerprints:
    """Ids by the sources, if there are any."""

    def __init__(self, sources: Sources | None) -> None:
        self._sources = sources
        self._places: dict[str, str] = {}

    def of(self, pairs: Iterable[Pair]) -> str:
        """The id of the finding with these pairs of places."""
        lines = sorted(f"{self._place(held)}\t{self._place(wanted)}" for held, wanted in pairs)
        return hashlib.sha256("\n".join(lines).encode("ascii")).hexdigest()[:16]

    def _place(self, place: str) -> str:
        if self._sources is None:
            return place
        if place not in self._places:
            self._places[place] = self._place_anew(self._sources, place)
        return self._places[place]

    def _place_anew(self, sources: Sources, place: str) -> str:
        parts: list[str | list[str | int]] = []
        is_found = False
        for part, frame in zip(parts_of(place), frames_of(place)):
            told = _told(sources, frame)
            is_found = is_found or told is not None
            parts.append(part if told is None else told)
        return json.dumps(parts) if is_found else place


def _told(sources: Sources, frame: Frame | None) -> list[str | int] | None:
    line = sources.source_line(frame) if frame is not None else None
    if line is None:
        return None
    return [spell(line.path), spell(line.function), spell(line.text), line.repeats, line.column]
