"""Findings as a page: one HTML file that loads nothing from elsewhere.

Its style sheet and its script are the only ones that its own policy lets through, by their hashes. Without the script
all is there but search, filter and order.
"""

from __future__ import annotations

import base64
import collections
import hashlib
import html
import string
from collections.abc import Callable, Iterable
from typing import NamedTuple

from .findings import Finding, Summary
from .names import by_numbers, counted, kind_of_name, readable, shortened, spell, unspell
from .picture import Picture
from .places import Frame, frames_of
from .reports import Edge
from .resources import resource
from .sources import Sources
from .text import mode_word

_CONTEXT = 3  # source lines shown before and after a place
_FRAMES = 5  # frames of a place whose source is shown
_REST = 2_000  # findings beyond those drawn that are listed in a line each
_NAMES = 1_000  # threads or locks of a finding that are listed
_SHORT = 64  # characters of a name that are shown
_SOUGHT = 8_000_000  # characters of names that search finds and that aren't shown, in all; and of places
_LINES = 200  # lines of a confirmation that are shown
_LINE = 300  # characters of each
_OPEN = 3  # findings that are open where there are more than a few
_FEW = 5
_HELD = "held since here"
_WANTED = "wanted here"


def escaped(text: str) -> str:
    """Text in HTML, also within the quotes of an attribute."""
    return html.escape(text, quote=True)


def _filled(name: str, **values: str) -> str:
    return string.Template(resource(name)).substitute(values)


def _hash_of(text: str) -> str:
    return base64.b64encode(hashlib.sha256(text.encode("utf-8")).digest()).decode("ascii")


class _Names:
    """Names in the page; a long one by its ends, with a link to the whole of it at the page's end."""

    def __init__(self) -> None:
        self._numbers: dict[str, int] = {}
        self._rooms = {"names": _SOUGHT, "places": _SOUGHT}

    def _number(self, name: str) -> int:
        """By which the page's end has the whole of a long name."""
        return self._numbers.setdefault(name, len(self._numbers) + 1)

    def unsought(self) -> list[str]:
        """Of what there is more than search finds."""
        return [what for what, room in self._rooms.items() if room < 0]

    def sought(self, what: str, names: Iterable[str]) -> str:
        """Names, or places, that aren't shown and that search finds: as far as there is room."""
        parts = []
        for name in names:
            text = readable(name)
            is_new = len(text) > _SHORT and name not in self._numbers
            self._rooms[what] -= min(len(text), _SHORT) + 1 + is_new * len(text)
            if self._rooms[what] < 0:
                break
            parts.append(escaped(text) if len(text) <= _SHORT else f'<a href="#name-{self._number(name)}"></a>')
        return f"<div hidden>{' '.join(parts)}</div>" if parts else ""

    def short(self, name: str, most: int = _SHORT) -> str:
        """A name in few characters."""
        text = readable(name)
        if text == "":
            return '<span class="faint">(empty)</span>'
        if len(text) <= most:
            return f"<code>{escaped(text)}</code>"
        number = self._number(name)
        title = escaped(text if len(text) <= 500 else text[:500] + "…")
        short = escaped(shortened(text, most, "…"))
        return f'<a href="#name-{number}" title="{title}"><code>{short}</code></a>'

    def listed(self, title: str, names: list[str]) -> str:
        """How many names, of which kinds, and the names."""
        if len(names) <= 4:
            return f"<p class=\"small\">{title}: {', '.join(self.short(name) for name in names)}</p>"
        kinds = collections.Counter(kind_of_name(name) for name in names)
        head = f"{title}: {len(names):,}"
        if len(kinds) < len(names):
            most = sorted(kinds.items(), key=lambda item: (-item[1], item[0]))[:4]
            texts = [f"{self.short(name)} {count:,}" for name, count in most]
            head += ", as " + ", ".join(texts) + ("" if len(kinds) <= 4 else f" and {len(kinds) - 4:,} other kinds")
        items = "".join(f"<li>{self.short(name)}</li>" for name in names[:_NAMES])
        rest = f"<li>and {len(names) - _NAMES:,} more</li>" if len(names) > _NAMES else ""
        hidden = self.sought("names", names[_NAMES:])
        return f'<details class="small"><summary>{head}</summary><ul class="names">{items}{rest}</ul>{hidden}</details>'

    def whole(self) -> str:
        """Each long name in full, once."""
        if not self._numbers:
            return ""
        items = []
        for name, number in self._numbers.items():
            size = counted(len(unspell(name)), "byte")
            items.append(f'<dt class="small faint" id="name-{number}">Name {number}, {size}</dt>')
            items.append(f'<dd class="whole"><code>{escaped(readable(name))}</code></dd>\n')
        return f"<h2>Long names in full</h2><dl>{''.join(items)}</dl>"


class _Mark(NamedTuple):
    """What happens at a line of source."""

    frame: Frame
    what: str


Marks = dict[int, list[str]]  # line -> what happens there
Seen = set[tuple[bytes, int, str]]  # what a finding shows already


class _Excerpts:
    """Source lines of places."""

    def __init__(self, sources: Sources, names: _Names) -> None:
        self._sources = sources
        self._names = names

    def of(self, edge: Edge, seen: Seen) -> str:
        """The lines at which an edge's locks were taken and asked for; those of callers are folded."""
        whats = ((edge.held_at, _HELD), (edge.wanted_at, _WANTED))
        places = [(frames_of(location), what) for location, what in whats]
        shown = self._places([_Mark(frames[0], what) for frames, what in places if frames[0]], seen)
        callers = [_Mark(frame, "calls") for frames, _ in places for frame in frames[1:_FRAMES] if frame]
        folded = self._places(callers, seen)
        if folded:
            shown += f'<details class="small"><summary>Source of the callers</summary>{folded}</details>'
        return shown

    def _places(self, marks: list[_Mark], seen: Seen) -> str:
        """Places near each other are in one excerpt, and the same is said of a line once a finding."""
        excerpts: list[tuple[bytes, Marks]] = []
        missing = []
        for frame, what in marks:
            path, why = self._sources.find(frame.file)
            place = (frame.file, 0, "") if path is None else (path, frame.line, what)
            if place in seen:
                continue
            seen.add(place)
            if path is None:
                missing.append(self._missing(frame.file, why))
                continue
            near = [m for p, m in excerpts if p == path and abs(min(m) - frame.line) <= 2 * _CONTEXT]
            if not near:
                near = [{}]
                excerpts.append((path, near[0]))
            near[0].setdefault(frame.line, []).append(what)
        return "".join([self._block(path, lines) for path, lines in excerpts] + missing)

    def _block(self, path: bytes, marks: Marks) -> str:
        """An excerpt round a few lines of a file, each with what happens there."""
        lines = self._sources.excerpt(path, min(marks) - _CONTEXT, max(marks) + _CONTEXT)
        whole = self._sources.read(path)
        if lines is None or whole is None:
            return self._missing(path, "can't be read, or is too large")
        if max(marks) > len(whole):
            return self._missing(path, f"has only {counted(len(whole), 'line')}, so it isn't the source of this run")
        wide = len(str(lines[-1][0]))
        shown = []
        for number, text in lines:
            if number in marks:
                what = " and ".join(marks[number])
                shown.append(f"<span class=\"hit\"><i>{'':{wide}}  ↓ {what}</i></span>")
            hit = ' class="hit"' if number in marks else ""
            shown.append(f"<span{hit}><i>{number:>{wide}}  </i>{escaped(text)}</span>")
        head = f'<div class="name small faint">{self._names.short(spell(path))}</div>'
        return f'<div class="source">{head}<pre>{"".join(shown)}</pre></div>'

    def _missing(self, path: bytes, why: str) -> str:
        return f'<p class="small faint">{self._names.short(spell(path))}: {escaped(why)}.</p>'


class Page:
    """The page of all findings; the first `most` of them are drawn."""

    def __init__(self, summary: Summary, sources: Sources | None, most: int) -> None:
        self._summary = summary
        self._most = most
        self._names = _Names()
        excerpts = _Excerpts(sources, self._names) if sources else None
        self._source: Callable[[Edge, Seen], str] = excerpts.of if excerpts else lambda edge, seen: ""
        self._ids: dict[str, int] = {}

    def made(self) -> str:
        """The page's text."""
        style, script = resource("page.css"), resource("page.js")
        policy = f"default-src 'none'; style-src 'sha256-{_hash_of(style)}'; script-src 'sha256-{_hash_of(script)}'"
        findings = self._summary.findings
        shown = "".join(self._finding(n, f) for n, f in enumerate(findings[: self._most], 1))
        rest, reports = self._rest(), self._reports()
        return _filled(
            "page.html",
            policy=f"{policy}; base-uri 'none'; form-action 'none'",
            headline=escaped(self._summary.headline()),
            style=style,
            counts=self._summary.counts(),
            notes=self._notes(),
            tools=self._tools() if len(findings) > 1 else "",
            findings=shown if findings else "<p>No report lists a cycle.</p>",
            rest=rest,
            reports=reports,
            names=self._names.whole(),
            script=script,
        )

    def _notes(self) -> str:
        warnings = self._summary.warnings()
        notes = "".join(f'<p class="warning">{escaped(w[0].upper() + w[1:])}.</p>' for w in warnings)
        unseen = self._summary.unseen
        if unseen:
            notes += f'<p class="faint">{counted(unseen, "known finding")} didn\'t come up in these reports.</p>'
        unmatched = self._summary.unmatched
        if unmatched:
            verb = "is of a finding that isn't" if unmatched == 1 else "are of findings that aren't"
            notes += f'<p class="faint">{counted(unmatched, "confirmation")} {verb} in these reports.</p>'
        unsought = " and ".join(self._names.unsought())
        if unsought:
            notes += f'<p class="faint">There are too many {unsought} for search to find them all.</p>'
        return notes

    def _tools(self) -> str:
        """Search, filters and order, which the script shows."""
        state = ""
        words = ["new", "known"] if self._summary.has_known else []
        words += ["confirmed"] if self._summary.confirmed else []
        if words:
            options = "".join(f'<option value="{word}">{word}</option>' for word in words)
            state = f'<label>State <select id="state"><option value="">any</option>{options}</select></label>\n'
        sizes = sorted({len(finding.sample) for finding in self._summary.findings})
        threads = "".join(f'<option value="{size}">{size}</option>' for size in sizes)
        return _filled("tools.html", state=state, threads=threads)

    def _data(self, finding: Finding) -> str:
        """What the script filters and orders by."""
        state = " ".join(self._summary.states(finding))
        return f'data-cycles="{finding.cycles}" data-threads="{len(finding.sample)}" data-state="{state}"'

    def _anchor(self, finding: Finding) -> str:
        """The finding's id; with a number where another one has it too, as the same code under two names of files."""
        count = self._ids[finding.id] = self._ids.get(finding.id, 0) + 1
        return f"finding-{finding.id}" + (f"-{count}" if count > 1 else "")

    def _badge(self, finding: Finding) -> str:
        return "".join(f' <span class="badge {word}">{word}</span>' for word in self._summary.states(finding))

    def _confirmation(self, finding: Finding) -> str:
        """What goodlock-confirm said of the run that came to the deadlock."""
        if finding.confirmation is None:
            return ""
        head, *lines = (escaped(shortened(line, _LINE, "…")) for line in finding.confirmation.text)
        rest = len(lines) - _LINES
        lines = lines[:_LINES] + ([f"and {counted(rest, 'more line')}"] if rest > 0 else [])
        shown = "".join(f"<span>{line}</span>" for line in lines)
        source = f'<div class="source"><pre>{shown}</pre></div>'
        return f'<details class="small"><summary>Confirmed: a run {head}</summary>{source}</details>'

    def _places(self, finding: Finding, most: int = 3) -> str:
        """The pairs of places that make the finding."""
        short = self._names.short
        texts = [f"{short(held, 48)} → {short(wanted, 48)}" for held, wanted in finding.pairs[:most]]
        rest = len(finding.pairs) - most
        texts += [f"and {counted(rest, 'more pair')}"] if rest > 0 else []
        return f'<span class="places small">{"; ".join(texts)}</span>'

    def _who(self, finding: Finding, most: int = 3) -> str:
        """The threads and locks of one cycle, in a line."""
        short = self._names.short
        edges = finding.sample[:most]
        texts = [
            f"{short(edge.thread, 32)} holds {short(edge.held, 32)} wants {short(edge.wanted, 32)}" for edge in edges
        ]
        rest = len(finding.sample) - most
        return "; ".join(texts + ([f"and {counted(rest, 'more thread')}"] if rest > 0 else []))

    def _edge(self, at: int, edge: Edge, seen: Seen) -> str:
        held, wanted = self._names.short(edge.held), self._names.short(edge.wanted)
        parts = [f'<li class="edge e{at % 6}"><div class="who">{at + 1}. {self._names.short(edge.thread)}</div>']
        word = "holds" + mode_word(edge.held_mode)
        parts.append(f'<div class="what">{word} {held} since {self._names.short(edge.held_at)}</div>')
        word = "wants" + mode_word(edge.wanted_mode)
        parts.append(f'<div class="what">{word} {wanted} at {self._names.short(edge.wanted_at)}</div>')
        others = [guard for guard in edge.guards if guard != edge.held]
        if others:
            names = ", ".join(self._names.short(guard) for guard in others)
            parts.append(f'<div class="what small faint">holds meanwhile {names}</div>')
        return "".join(parts) + self._source(edge, seen) + "</li>"

    def _finding(self, number: int, finding: Finding) -> str:
        is_open = not finding.is_known and (number <= _OPEN or len(self._summary.findings) <= _FEW)
        seen: Seen = set()
        edges = "".join(self._edge(at, edge, seen) for at, edge in enumerate(finding.sample))
        threads, locks = finding.threads, finding.locks
        counts = ((finding.cycles, "cycle"), (len(threads), "thread"), (len(locks), "lock"))
        facts = ", ".join(counted(count, noun) for count, noun in counts)
        which = "The shortest of them" if finding.cycles > 1 else "The cycle"
        anchor = self._anchor(finding)
        legend = "Each arrow is a thread, from the lock that it holds to the one that it wants."
        parts = [
            f'<details class="finding" id="{anchor}" {self._data(finding)}{" open" if is_open else ""}>',
            f"<summary><b>Finding {number:,}</b>{self._badge(finding)} <span>{facts}</span>",
            f"{self._places(finding)}</summary>",
            f'{Picture(finding.sample).drawn()}<p class="legend small faint">{legend}</p>',
            f'<p class="small faint">{which} in full:</p><ol class="edges">{edges}</ol>',
            self._confirmation(finding),
            self._names.listed("Threads", sorted(threads, key=by_numbers)),
            self._names.listed("Locks", sorted(locks, key=by_numbers)),
            self._names.listed("Reports", list(finding.reports)) if len(self._summary.reports) > 1 else "",
            f'<p class="small faint">Id <a href="#{anchor}">{finding.id}</a></p></details>\n',
        ]
        return "".join(parts)

    def _sought(self, finding: Finding, most: int = 3) -> str:
        """What search finds of a finding in the table beside what is shown: all its places, threads and locks."""
        places = dict.fromkeys(place for pair in finding.pairs[most:] for place in pair)
        shown = {name for edge in finding.sample[:most] for name in (edge.thread, edge.held, edge.wanted)}
        names = sorted((finding.threads | finding.locks) - shown)
        return self._names.sought("places", places) + self._names.sought("names", names)

    def _rest(self) -> str:
        """The findings that aren't drawn, in a line each."""
        left = self._summary.findings[self._most :]
        if not left:
            return ""
        rows = []
        for number, finding in enumerate(left[:_REST], self._most + 1):
            cells = f'<td class="number">{number:,}{self._badge(finding)}</td>'
            who = f'<div class="small faint">{self._who(finding)}</div>'
            cells += f'<td class="number">{finding.cycles:,}</td>'
            cells += f"<td>{self._places(finding)}{who}{self._sought(finding)}</td>"
            rows.append(f"<tr {self._data(finding)}>{cells}</tr>\n")
        head = '<tr><th class="number">Finding</th><th class="number">Cycles</th><th>Places</th></tr>'
        more = f"<p>And {len(left) - _REST:,} more, which only the text output lists.</p>" if len(left) > _REST else ""
        title = f"<h2>{counted(len(left), 'more finding')}</h2>"
        return f'{title}<div class="scroll"><table>{head}{"".join(rows)}</table></div>{more}'

    def _reports(self) -> str:
        rows = []
        for report in self._summary.reports:
            more = "more than listed" if report.more else "all"
            cells = f'<td class="number">{report.listed:,}</td><td>{more}</td><td>{report.mode}</td>'
            name = self._names.short(report.name)
            rows.append(f'<tr><td>{name}</td>{cells}<td class="number">{report.length}</td></tr>\n')
        head = '<tr><th>Report</th><th class="number">Cycles</th><th></th><th>Mode</th>'
        head += '<th class="number">Longest</th></tr>'
        table = f'<div class="scroll"><table>{head}{"".join(rows)}</table></div>'
        if len(rows) <= 5:
            return f"<h2>Reports</h2>{table}"
        return f"<h2>Reports</h2><details><summary>{counted(len(rows), 'report')}</summary>{table}</details>"
