"""Findings as a graph for Graphviz."""

from .findings import Finding, Summary
from .names import counted, shortened


def _label(*lines: str) -> str:
    """A label of Graphviz. In its quotes a backslash and an ampersand would have a meaning."""
    escaped_lines = (line.replace("\\", "\\\\").replace('"', '\\"').replace("&", "&amp;") for line in lines)
    return '"' + "\\n".join(escaped_lines) + '"'


def _finding(number: int, finding: Finding) -> str:
    title = f"finding {number}: {counted(finding.cycles, 'cycle')}" + (", known" if finding.is_known else "")
    title += ", confirmed" if finding.confirmation else ""
    lines = [f"  subgraph cluster_{number} {{", f"    label={_label(title)};"]
    for at, edge in enumerate(finding.sample):
        lines.append(f"    f{number}_{at} [label={_label(shortened(edge.held, 40))}];")
    for at, edge in enumerate(finding.sample):
        to = (at + 1) % len(finding.sample)
        thread, since, wants = (shortened(text, 40) for text in (edge.thread, edge.held_at, edge.wanted_at))
        label = _label(thread, f"since {since}", f"wants at {wants}")
        lines.append(f"    f{number}_{at} -> f{number}_{to} [label={label}];")
    return "\n".join(lines + ["  }"]) + "\n"


def dot_of(summary: Summary, most: int) -> str:
    """The graph of the first findings, a cluster each."""
    parts = ["digraph goodlock {\n  node [shape=box, style=rounded];\n"]
    parts += [_finding(n, f) for n, f in enumerate(summary.findings[:most], 1)]
    notes = summary.warnings()
    if len(summary.findings) > most:
        notes.append(f"{len(summary.findings) - most:,} more findings aren't drawn")
    if notes:
        parts.append(f"  label={_label(*notes)};\n")
    return "".join(parts) + "}\n"
