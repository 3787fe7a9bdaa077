"""Findings: cycles with the same pairs of places, from one report or many."""

from __future__ import annotations

import functools
from collections.abc import Iterable
from typing import NamedTuple

from .confirmed import Confirmation
from .files import bytes_of
from .fingerprints import Fingerprints
from .known import Known
from .names import counted, file_name, shortened
from .refusal import Refusal
from .reports import Cycle, Edge, Pair, Reader, Wrong, check_report, listed_in, parsed


class Report(NamedTuple):
    """What a report says of itself."""

    name: str
    mode: str
    length: int
    most: int
    more: bool
    lists: str  # "cycles" or "findings"
    listed: int


class Finding:
    """Cycles with the same set of pairs of places."""

    def __init__(self, pairs: frozenset[Pair], sample: Cycle) -> None:
        self.pairs = sorted(pairs)
        self.sample = sample  # the first of the shortest cycles
        self.cycles = 0
        self.reports: dict[str, int] = {}  # name -> cycles there, in the order given
        self.edges: set[Edge] = set()
        self.id = ""
        self.is_known = False
        self.confirmation: Confirmation | None = None  # of a run that came to it

    def add(self, cycle: Cycle, report: str) -> None:
        """Counts a cycle of this finding."""
        self.cycles += 1
        self.reports[report] = self.reports.get(report, 0) + 1
        self.edges.update(cycle)
        if len(cycle) < len(self.sample):
            self.sample = cycle

    @functools.cached_property
    def threads(self) -> set[str]:
        """The threads of all cycles."""
        return {edge.thread for edge in self.edges}

    @functools.cached_property
    def locks(self) -> set[str]:
        """The locks of all cycles: each wanted lock is held by the cycle's next edge."""
        return {edge.held for edge in self.edges}

    def rank(self) -> tuple[bool, int, int, list[Pair]]:
        """New findings first; then the shortest cycles, as they need the least to go wrong; then the most."""
        return (self.is_known, len(self.sample), -self.cycles, self.pairs)


def read_reports(paths: Iterable[str]) -> tuple[list[Report], list[Finding]]:
    """All reports, and the findings in them."""
    reader = Reader()
    reports = []
    findings: dict[frozenset[Pair], Finding] = {}
    for path in paths:
        name = file_name(path)
        value = parsed(bytes_of(path, name), name)
        listed = 0
        try:
            check_report(value)
            for cycle in reader.cycles(value):
                listed += 1
                key = frozenset(edge.pair for edge in cycle)
                if key not in findings:
                    findings[key] = Finding(key, cycle)
                findings[key].add(cycle, name)
        except Wrong as wrong:
            where = f"{wrong.where} " if wrong.where else "the report "
            raise Refusal(f"{name}: not a report: {where}{wrong.text}") from None
        reports.append(Report(name, value["mode"], value["len"], value["max"], value["more"], listed_in(value), listed))
    return reports, list(findings.values())


def places_of(findings: Iterable[Finding]) -> set[str]:
    """The places of all findings."""
    return {place for finding in findings for pair in finding.pairs for place in pair}


class Summary:
    """All that is shown: the reports, the findings in order, and the accepted ones that weren't seen."""

    def __init__(
        self, reports: list[Report], findings: list[Finding], known: Known | None, fingerprints: Fingerprints
    ) -> None:
        for finding in findings:
            finding.id = fingerprints.of(finding.pairs)
            finding.is_known = known is not None and known.has(finding.id, finding.pairs)
        self.reports = reports
        self.findings = sorted(findings, key=Finding.rank)
        self.has_known = known is not None
        self.new = sum(1 for finding in findings if not finding.is_known)
        present = {finding.id for finding in findings}, {frozenset(finding.pairs) for finding in findings}
        self.unseen = known.without(*present) if known is not None else 0
        self.cycles = sum(report.listed for report in reports)
        self.cut = [report for report in reports if report.more]
        self.confirmed: int | None = None  # where no confirmation was given
        self.unmatched = 0

    def confirm(self, confirmations: list[Confirmation]) -> None:
        """Marks the findings that runs came to, and counts the confirmations of findings that aren't here."""
        findings = {frozenset(finding.pairs): finding for finding in self.findings}
        for confirmation in confirmations:
            finding = findings.get(confirmation.pairs)
            if finding is None:
                self.unmatched += 1
            elif confirmation.is_deadlocked and finding.confirmation is None:
                finding.confirmation = confirmation
        self.confirmed = sum(1 for finding in self.findings if finding.confirmation) if confirmations else None

    def states(self, finding: Finding) -> list[str]:
        """What is said of a finding: whether it is new or known, where that was asked, and whether it is confirmed."""
        words = [("known" if finding.is_known else "new")] if self.has_known else []
        return words + (["confirmed"] if finding.confirmation else [])

    def headline(self) -> str:
        """How many findings there are."""
        counts = [f"{self.new:,} new", f"{len(self.findings) - self.new:,} known"] if self.has_known else []
        counts += [f"{self.confirmed:,} confirmed"] if self.confirmed is not None else []
        return counted(len(self.findings), "finding") + (f" ({', '.join(counts)})" if counts else "")

    def counts(self) -> str:
        """How many cycles there are, in how many reports."""
        return f"{counted(self.cycles, 'cycle')} in {counted(len(self.reports), 'report')}"

    def warnings(self) -> list[str]:
        """Why there may be findings that aren't shown."""
        if not self.cut:
            return []
        some = ", ".join(shortened(report.name) for report in self.cut[:5])
        rest = len(self.cut) - 5
        some += f" and {counted(rest, 'more report')}" if rest > 0 else ""
        verb = "has" if len(self.cut) == 1 else "have"
        what = " or ".join(sorted({report.lists for report in self.cut}))
        return [f"findings may be missing: {some} {verb} more {what} than are listed (ask for a larger max)"]
