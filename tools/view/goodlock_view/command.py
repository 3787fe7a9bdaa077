"""The command line."""

from __future__ import annotations

import argparse
import gc
import os
import re
import sys
from collections.abc import Callable, Sequence
from typing import Any, NoReturn

from . import TOOL, __version__
from .confirmed import read_confirmations
from .dot import dot_of
from .files import reports_of, write_files, write_text
from .findings import Summary, places_of, read_reports
from .fingerprints import Fingerprints
from .known import known_text, read_known
from .names import file_name, spell
from .page import Page
from .refusal import Refusal
from .sarif import sarif_of
from .sources import Sources, files_of
from .text import text_of


class _Formatter(argparse.HelpFormatter):
    """As other programs of the project spell it, and as man pages are made from it."""

    def add_usage(self, usage: Any, actions: Any, groups: Any, prefix: str | None = None) -> None:
        super().add_usage(usage, actions, groups, "Usage: ")


class _Parser(argparse.ArgumentParser):
    def error(self, message: str) -> NoReturn:
        raise Refusal(f"{spell(os.fsencode(message))} (--help tells the usage)")

    def _print_message(self, message: str, file: Any = None) -> None:
        write_text(message)


def _whole_number(text: str) -> int:
    if not re.fullmatch(r"[0-9]{1,9}", text):
        raise argparse.ArgumentTypeError("not a whole number")
    return int(text)


def _output(text: str) -> str:
    if text == "":
        raise argparse.ArgumentTypeError("the name is empty")
    return text


def _category(text: str) -> str:
    if not re.fullmatch(r"[A-Za-z0-9][A-Za-z0-9._-]{0,99}", text):
        raise argparse.ArgumentTypeError("not a word of letters, digits, dots, underscores and hyphens")
    return text


def parser() -> argparse.ArgumentParser:
    """What the command line may say."""
    made = _Parser(
        prog=TOOL,
        usage="%(prog)s [OPTION..] REPORT..",
        allow_abbrev=False,
        formatter_class=_Formatter,
        add_help=False,
        description="Groups the cycles of goodlock's JSON reports into findings and shows them.",
        epilog="Status: 0 no (new) finding, 1 (new) findings, 2 input or usage refused, or writing failed.",
    )
    reports = made.add_argument_group("Arguments")
    reports.add_argument(
        "reports", nargs="*", metavar="REPORT", help="a JSON report; a folder: all *.json below it; -: standard input"
    )
    options = made.add_argument_group("Options")
    _add_options(options.add_argument)
    return made


def _add_options(add: Callable[..., argparse.Action]) -> None:
    add("--source", metavar="DIR", help="show source lines of files below DIR, and tell findings by their text")
    add("-o", "--html", metavar="FILE", type=_output, help="write a page")
    add("--sarif", metavar="FILE", type=_output, help="write SARIF 2.1.0, for code hosts")
    add("--category", metavar="NAME", type=_category, default="goodlock", help="of the SARIF run (goodlock)")
    add("--dot", metavar="FILE", type=_output, help="write a graph for Graphviz")
    add("--text", action="store_true", help="print the findings (if nothing else is written, always)")
    add("--known", metavar="FILE", help="findings that are accepted: only others give status 1")
    add("--confirmed", metavar="FILE", action="append", default=[], help="an outcome of goodlock-confirm (repeatable)")
    add("--write-known", metavar="FILE", type=_output, help="write the present findings as accepted ones")
    add("--most", metavar="N", type=_whole_number, default=200, help="findings drawn in the page and the graph (200)")
    add("-V", "--version", action="version", version=f"{TOOL} {__version__}", help="print version")
    add("-h", "--help", action="help", help="print help")


def _options_of(arguments: Sequence[str]) -> argparse.Namespace:
    end = arguments.index("--") if "--" in arguments else len(arguments)
    options = parser().parse_intermixed_args(arguments[:end])
    options.reports += arguments[end + 1 :]  # argparse looks for reports once more, and has forgotten the dashes then
    if not options.reports:
        raise Refusal("the following arguments are required: REPORT (--help tells the usage)")
    options.reports = [report for path in options.reports for report in reports_of(path)]
    _check_paths(options)
    return options


def _outputs_of(options: argparse.Namespace) -> dict[str, str]:
    paths = {"html": options.html, "sarif": options.sarif, "dot": options.dot, "known": options.write_known}
    return {key: os.path.realpath(path) for key, path in paths.items() if path is not None}


def _check_paths(options: argparse.Namespace) -> None:
    if options.source is not None and not os.path.isdir(options.source):
        raise Refusal(f"{file_name(options.source)}: not a directory")
    known = [] if options.known is None else [options.known]
    read = options.reports + options.confirmed
    if (read + known).count("-") > 1:
        raise Refusal("standard input can't be read twice")
    inputs = {os.path.realpath(path) for path in read if path != "-"}
    outputs = _outputs_of(options)
    for key, path in outputs.items():
        others = inputs | {other for k, other in outputs.items() if k != key}
        if key != "known":
            others.update(os.path.realpath(path) for path in known if path != "-")
        if path in others:
            raise Refusal(f"{file_name(path)}: would be written over another file of this command")
        if os.path.lexists(path) and not os.path.isfile(path):
            raise Refusal(f"{file_name(path)}: can't be written: not a regular file")


def _run(arguments: Sequence[str]) -> int:
    options = _options_of(arguments)
    known = None if options.known is None else read_known(options.known)
    confirmations = read_confirmations(options.confirmed)
    reports, findings = read_reports(options.reports)
    sources: Sources | None = None
    if options.source is not None:
        sources = Sources(options.source, files_of(places_of(findings)))
    summary = Summary(reports, findings, known, Fingerprints(sources))
    summary.confirm(confirmations)
    makers: dict[str, Callable[[], str]] = {
        "html": lambda: Page(summary, sources, options.most).made(),
        "sarif": lambda: sarif_of(summary, sources, options.category),
        "dot": lambda: dot_of(summary, options.most),
        "known": lambda: known_text((finding.id, finding.pairs) for finding in summary.findings),
    }
    outputs = _outputs_of(options)
    write_files({path: makers[key]() for key, path in outputs.items()})
    if options.text or not outputs:
        write_text(text_of(summary))
    return 1 if summary.new else 0


def main(arguments: list[str] | None = None) -> int:
    """Runs the command; its status. Whatever is wrong is told in one line on standard error."""
    gc.disable()  # reports become millions of small objects and no loops: looking for loops takes half the time
    try:
        return _run(sys.argv[1:] if arguments is None else arguments)
    except Refusal as refusal:
        text = str(refusal)
    except MemoryError:
        text = "out of memory"
    except KeyboardInterrupt:
        text = "interrupted"
    _tell(f"{TOOL}: {text}\n")
    return 2


def _tell(line: str) -> None:
    """On standard error. Where that is closed, or on a full disk, nobody hears it: nothing is kept of it that Python
    would try to write in the end, with a status of its own if it can't."""
    try:
        if sys.stderr is not None:
            os.write(sys.stderr.fileno(), line.encode("utf-8", "backslashreplace"))
    except OSError:
        pass
