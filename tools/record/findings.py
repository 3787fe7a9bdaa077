"""The findings of one report, numbered as goodlock-view numbers them."""

import json
import re

# Names of reports are printable ASCII, and so is what stands in them for other bytes.
NAME = re.compile(r"[\x20-\x7e]*")
ADDRESS = re.compile(r"0x[0-9a-fA-F]+")


class ReportError(Exception):
    pass


class Finding:
    """Cycles with the same set of pairs of places."""

    def __init__(self, pairs):
        self.pairs = sorted(pairs)
        self.cycles = 0
        self.sample = None  # the first of the shortest cycles: its edges

    def add(self, cycle):
        self.cycles += 1
        if self.sample is None or len(cycle) < len(self.sample):
            self.sample = cycle


def place_of(location, lock):
    """The location, or the lock without its addresses where the location says nothing."""
    if not (NAME.fullmatch(location) and NAME.fullmatch(lock)):
        raise ValueError("no name of a report")
    return location if location.strip() not in ("", "?") else "?(%s)" % ADDRESS.sub("0x*", lock)


def pair_of(edge):
    return place_of(edge["held_at"], edge["held"]), place_of(edge["wanted_at"], edge["wanted"])


def cycles_of(report):
    """Those that it lists; of format 3 those that show its findings."""
    if report["format"] not in (1, 2, 3):
        raise ValueError("no format of a report")
    listed = report["findings" if report["format"] == 3 else "cycles"]
    if not all(listed):
        raise ValueError("a cycle without edges")
    if report["format"] == 1:
        return listed
    return [[report["edges"][position] for position in cycle] for cycle in listed]


def read_findings(path):
    try:
        with open(path, encoding="utf-8") as file:
            report = json.load(file)
        findings = {}
        for cycle in cycles_of(report):
            key = frozenset(map(pair_of, cycle))
            findings.setdefault(key, Finding(key)).add(cycle)
    except OSError as error:
        raise ReportError("%s: %s" % (path, error.strerror))
    except (ValueError, TypeError, KeyError, IndexError, AttributeError, RecursionError):
        raise ReportError("%s: not a report of goodlock as JSON" % path)
    return sorted(findings.values(), key=lambda f: (len(f.sample), -f.cycles, f.pairs))
