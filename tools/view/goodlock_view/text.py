"""Findings in the terminal."""

from __future__ import annotations

from .findings import Finding, Summary
from .names import counted, shortened
from .reports import NAME_KEYS, Edge


def mode_word(mode: str | None) -> str:
    """What is said behind a lock that is taken shared."""
    return " (shared)" if mode == "s" else ""


def edge_text(edge: Edge, most: int = 72) -> str:
    """An edge in a line; its names have at most so many characters each."""
    thread, held, held_at, wanted, wanted_at = (shortened(getattr(edge, key), most) for key in NAME_KEYS)
    held += mode_word(edge.held_mode)
    wanted += mode_word(edge.wanted_mode)
    return f"{thread} holds {held} since {held_at} wants {wanted} at {wanted_at}"


def _finding_text(number: int, finding: Finding, states: list[str]) -> str:
    state = "".join(f" {word}" for word in states)
    reports = f" in {counted(len(finding.reports), 'report')}"
    lines = [f"finding {number}:{state} {counted(finding.cycles, 'cycle')}{reports}"]
    lines += [f"  {edge_text(edge)}" for edge in finding.sample]
    threads, locks = counted(len(finding.threads), "thread"), counted(len(finding.locks), "lock")
    lines.append(f"  {threads}, {locks}, id {finding.id}")
    return "\n".join(lines) + "\n"


def text_of(summary: Summary) -> str:
    """All findings as text."""
    parts = [_finding_text(n, f, summary.states(f)) for n, f in enumerate(summary.findings, 1)]
    parts += [f"{warning}\n" for warning in summary.warnings()]
    if summary.unseen:
        parts.append(f"known findings that weren't seen: {summary.unseen:,}\n")
    if summary.unmatched:
        parts.append(f"confirmations of findings that aren't here: {summary.unmatched:,}\n")
    parts.append(f"{summary.headline()}, {summary.counts()}\n")
    return "".join(parts)
