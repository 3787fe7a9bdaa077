"""Findings for code hosts: SARIF 2.1.0."""

from __future__ import annotations

import json
import posixpath
import urllib.parse
from typing import Any

from . import __version__
from .findings import Finding, Summary
from .names import counted, readable, shortened, spell, unspell
from .places import Frame, address_of, frames_of, parts_of
from .reports import Edge
from .resources import resource
from .sources import Sources
from .text import mode_word

Value = dict[str, Any]

MOST = 5_000  # results; code hosts leave out more, or refuse the file
_MOST_FRAMES = 100  # of a stack
_MOST_RELATED = 100  # places of a result
_SCHEMA = "https://json.schemastore.org/sarif-2.1.0.json"
# The analysis in its authors' words (Bensalem and Havelund 2005).
_INFORMATION = "https://doi.org/10.1007/11678779_15"
_RULE_ID = "predicted-deadlock"
_SHORT = "Locks are taken in orders that can deadlock"
_FULL = (
    "In a run of the program, threads took locks in orders that form a cycle. Another schedule of the same events "
    "could leave each of them waiting for a lock that the next one holds."
)
_HELP = (
    "Take the locks in the same order everywhere, or hold one common lock round all of these places, or release the "
    "first lock before the second one is taken."
)


def _rule() -> Value:
    return {
        "id": _RULE_ID,
        "name": "PredictedDeadlock",
        "shortDescription": {"text": _SHORT},
        "fullDescription": {"text": _FULL},
        "help": {"text": _HELP, "markdown": resource("rule.md")},
        "helpUri": _INFORMATION,
        "defaultConfiguration": {"level": "warning"},
        "properties": {"tags": ["concurrency", "deadlock"], "precision": "medium", "problem.severity": "warning"},
    }


def _plain(text: str) -> str:
    """Text in which a name's brackets make no link and its braces no placeholder."""
    for char, escaped in (("[", "\\["), ("]", "\\]"), ("{", "{{"), ("}", "}}")):
        text = text.replace(char, escaped)
    return text


def _uri_of(path: bytes) -> str:
    """A reference to a file: relative where the path is, without steps out of where it begins."""
    if path.startswith(b"/"):
        return "file://" + urllib.parse.quote(posixpath.normpath(b"/" + path.lstrip(b"/")))
    parts = [part for part in posixpath.normpath(path).split(b"/") if part != b".."]
    return urllib.parse.quote(b"/".join(parts) or b".")


class _Places:
    """Locations of a report as SARIF's, by the sources if there are any."""

    def __init__(self, sources: Sources | None) -> None:
        self._sources = sources

    def location(self, text: str, message: str | None = None) -> Value:
        """The file or module where there is one, and as a logical location the function, or else the text."""
        first = parts_of(text)[0]
        frame = frames_of(first)[0]
        value: Value = {}
        physical = self._physical(first, frame)
        if physical:
            value["physicalLocation"] = physical
        logical = self._logical(text, frame)
        if logical:
            value["logicalLocations"] = [logical]
        if message:
            value["message"] = {"text": _plain(message)}
        return value

    def _physical(self, text: str, frame: Frame | None) -> Value | None:
        if frame is not None:
            found = self._sources.find(frame.file)[0] if self._sources else None
            if self._sources is None or found is None:
                return {"artifactLocation": {"uri": _uri_of(frame.file)}, "region": _region(frame)}
            uri = _uri_of(self._sources.uri_path(found))
            return {"artifactLocation": {"uri": uri}, "region": self._whole_region(found, frame)}
        address = address_of(text)
        if address is None:
            return None
        return {"artifactLocation": {"uri": _uri_of(address.module)}, "address": {"relativeAddress": address.offset}}

    def _whole_region(self, path: bytes, frame: Frame) -> Value:
        """The text of the line, or what of it follows the column that the report tells."""
        columns = self._sources.columns(path, frame.line) if self._sources else None
        region = _region(frame)
        if columns is not None:
            start = frame.column if columns[0] <= frame.column < columns[1] else columns[0]
            region.update(startColumn=start, endLine=frame.line, endColumn=columns[1])
        return region

    def _logical(self, text: str, frame: Frame | None) -> Value | None:
        found = self._sources.find(frame.file)[0] if self._sources and frame else None
        if self._sources and frame and found:
            function = self._sources.function(found, frame.line)
            if function:
                name = shortened(readable(spell(function)), 200)
                return {"name": name, "fullyQualifiedName": name, "kind": "function"}
        return {"fullyQualifiedName": shortened(text, 200)} if text else None


def _region(frame: Frame) -> Value:
    region = {"startLine": frame.line}
    if frame.column:
        region["startColumn"] = frame.column
    return region


class _Results:
    def __init__(self, sources: Sources | None, has_known: bool) -> None:
        self._places = _Places(sources)
        self._has_known = has_known

    def _step(self, text: str, message: str) -> Value:
        value: Value = {"location": self._places.location(text, message)}
        frames = parts_of(text)[:_MOST_FRAMES]
        if len(frames) > 1:
            value["stack"] = {"frames": [{"location": self._places.location(frame)} for frame in frames]}
        return value

    def _thread_flow(self, edge: Edge) -> Value:
        """What one thread does: it takes the lock that it holds, and asks for the next one."""
        thread, held, wanted = (shortened(name, 60) for name in (edge.thread, edge.held, edge.wanted))
        first = self._step(edge.held_at, f"{thread} acquires {held}{mode_word(edge.held_mode)} and holds it")
        second = self._step(edge.wanted_at, f"{thread} wants {wanted}{mode_word(edge.wanted_mode)}")
        return {"id": shortened(edge.thread, 200) or "(empty)", "locations": [first, second]}

    def _primary(self, finding: Finding) -> Value:
        """The first place with a file; else one with a module; else the report, as code hosts ask for a file."""
        texts = [text for edge in finding.sample for text in (edge.wanted_at, edge.held_at)]
        places = [self._places.location(text) for text in texts]
        places = [place for place in places if "physicalLocation" in place]
        places.sort(key=lambda place: "region" not in place["physicalLocation"])
        if places:
            return places[0]
        report = next(iter(finding.reports))
        uri = _uri_of(b"standard-input" if report == "standard input" else unspell(report))
        physical = {"artifactLocation": {"uri": uri}, "region": {"startLine": 1}}
        return dict(self._places.location(texts[0]), physicalLocation=physical)

    def result(self, finding: Finding) -> Value:
        """One finding: its places as a flow for each thread, and as related locations that the message links to."""
        flows = [self._thread_flow(edge) for edge in finding.sample]
        steps = [step["location"] for flow in flows for step in flow["locations"]]
        numbers: dict[int, int] = {}  # position of a step -> its related location's number
        related: list[Value] = []
        for at, place in enumerate(steps):
            if "physicalLocation" in place and len(related) < _MOST_RELATED:
                numbers[at] = len(related) + 1
                related.append(dict(place, id=numbers[at]))
        value = {
            "ruleId": _RULE_ID,
            "ruleIndex": 0,
            "level": "error" if finding.confirmation else "warning",
            "message": {"text": _message(finding, numbers)},
            "locations": [self._primary(finding)],
            "relatedLocations": related,
            "codeFlows": [{"threadFlows": flows}],
            # The second is the name under which some code hosts look for a fingerprint.
            "partialFingerprints": {"goodlockFinding/v1": finding.id, "primaryLocationLineHash": f"{finding.id}:1"},
            "occurrenceCount": finding.cycles,
        }
        if self._has_known:
            accepted = [{"kind": "external", "status": "accepted"}]
            value["suppressions"] = accepted if finding.is_known else []
        if finding.confirmation:
            value["properties"] = {"confirmed": True}
        return value


def _link(text: str, number: int | None) -> str:
    """A place, as a link to the related location of this number."""
    shown = _plain(shortened(text, 60))
    return shown if number is None or shown.strip() == "" else f"[{shown}]({number})"


def _message(finding: Finding, numbers: dict[int, int]) -> str:
    edges = []
    for at, edge in enumerate(finding.sample[:8]):
        thread, held, wanted = (_plain(shortened(name, 60)) for name in (edge.thread, edge.held, edge.wanted))
        since, place = _link(edge.held_at, numbers.get(2 * at)), _link(edge.wanted_at, numbers.get(2 * at + 1))
        held, wanted = held + mode_word(edge.held_mode), wanted + mode_word(edge.wanted_mode)
        edges.append(f"{thread} holds {held} since {since} wants {wanted} at {place}")
    if len(finding.sample) > 8:
        edges.append(f"and {len(finding.sample) - 8} threads more")
    verb = "is" if finding.cycles == 1 else "are"
    text = f"Predicted deadlock of {len(finding.sample)} threads: {'; '.join(edges)}. "
    text += f"{counted(finding.cycles, 'cycle')} of the reports {verb} this."
    return text + (" Confirmed: a run of the program came to it." if finding.confirmation else "")


def sarif_of(summary: Summary, sources: Sources | None, category: str) -> str:
    """A file with one run: a result for each of the first findings."""
    results = _Results(sources, summary.has_known)
    notes = summary.warnings()
    if len(summary.findings) > MOST:
        notes.append(f"{len(summary.findings) - MOST:,} more findings are left out of this file")
    invocation: Value = {"executionSuccessful": True}
    if notes:
        warnings = [{"level": "warning", "message": {"text": _plain(note)}} for note in notes]
        invocation["toolExecutionNotifications"] = warnings
    driver = {"name": "goodlock", "version": __version__, "informationUri": _INFORMATION, "rules": [_rule()]}
    run = {
        "tool": {"driver": driver},
        "automationDetails": {"id": f"{category}/"},
        "columnKind": "utf16CodeUnits",
        "invocations": [invocation],
        "results": [],
    }
    value = {"$schema": _SCHEMA, "version": "2.1.0", "runs": [run]}
    # A line for each result: a file of many megabytes in one line is hard on editors.
    front, back = json.dumps(value).split('"results": []')
    lines = [json.dumps(results.result(finding)) for finding in summary.findings[:MOST]]
    return f'{front}"results": [\n' + ",\n".join(lines) + f"\n]{back}\n"
