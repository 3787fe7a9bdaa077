#!/usr/bin/env python3
"""Compares answers about reports: by hand, of tests/checker/check.py, and of a program's command `check`.

    tamper.py [--cases N] [--seed S] [--only K] [PROGRAM]

Worked reports have answers by hand (worked_reports.py). Random ones are made by the reference from random traces, in each format,
and then tampered with: a field changed, an edge dropped or doubled, a cycle rotated, two swapped, a finding told twice or shown by
another of its cycles, a name escaped otherwise, numbers at their bounds, text that is no JSON, another trace. What is known of the
answer beforehand must come. A PROGRAM that has `check` must answer like tests/checker/check.py byte for byte; of one that has only
`predict`, its own reports are checked. The last line is `N passed, N failed`, with one for each answer.
"""

import argparse
import collections
import copy
import functools
import json
import os
import pathlib
import random
import subprocess
import sys
import tempfile

sys.dont_write_bytecode = True
sys.path.insert(0, str(pathlib.Path(__file__).resolve().parent.parent))

from checker import check, worked_reports  # noqa: E402
from checker.worked_reports import EMPTY_FINDINGS_LINE, EMPTY_LINE  # noqa: E402
from fuzz import random_traces  # noqa: E402
from oracle import compare, reference, worked_traces  # noqa: E402

# --- Random reports -------------------------------------------------------------------------------------

SAME, WRONG = "the same answer", "a fault"


class Raw(str):
    """A piece of JSON text that stands as it is."""


def dumped(tree, random_=None):
    """The compact text; with some random_, spelled in another way that says the same."""
    pieces = []

    def kept(value):
        if isinstance(value, Raw):
            pieces.append(value)
            return f"\x00{len(pieces) - 1}\x00"
        if isinstance(value, dict):
            items = list(value.items())
            if random_ is not None:
                random_.shuffle(items)
            return {key: kept(inner) for key, inner in items}
        return [kept(inner) for inner in value] if isinstance(value, list) else value

    marked = kept(tree)
    separators = (",", ":") if random_ is None else random_.choice([(", ", ": "), (" ,\t", " :"), (",", ":")])
    text = json.dumps(marked, separators=separators, sort_keys=random_ is None)
    for at, piece in enumerate(pieces):
        text = text.replace(f'"\\u0000{at}\\u0000"', piece)
    if random_ is not None and random_.random() < 0.5:
        for sign in random_.sample("abTx01", 2):
            text = text.replace(f'"{sign}', f'"\\u{ord(sign):04x}')
    return text.encode()


NUMBERS = [
    "0",
    "1",
    "2",
    "3",
    "4294967295",
    "4294967296",
    "18446744073709551616",
    "-1",
    "-0",
    "1.0",
    "1e0",
    "1e999",
    "16",
    "17",
]
OTHERS = ["null", "true", "false", '""', '"x"', '"s"', "[]", "{}", "[0]", '"full"', '["a"]', "1.5", "NaN", '"\\ud800"']


class Tamper:
    """Changes a true report. Each way says what is known of the answer: SAME, WRONG, a fault's name with its place, the
    answer of a shorter list (a number), or nothing. Of a report of findings, `cycles` are those of its query."""

    def __init__(self, random_, tree, trace, cycles):
        self.random, self.tree, self.trace, self.all_cycles = random_, tree, trace, cycles
        self.is_plain = tree["format"] == 1
        self.of_findings = tree["format"] == 3

    def listed(self):
        """The list of cycles, or of those that show findings."""
        return self.tree["findings" if self.of_findings else "cycles"]

    def any_edge(self):
        """An edge of the report, and the fault that it gives when it isn't the trace's."""
        places = [(i, k) for i, cycle in enumerate(self.listed()) for k in range(len(cycle))]
        if self.is_plain and places:
            i, k = self.random.choice(places)
            return self.listed()[i][k], ("Edge", i, k)
        if not self.is_plain and self.tree["edges"]:
            k = self.random.randrange(len(self.tree["edges"]))
            return self.tree["edges"][k], ("Table", k)
        return None, None

    def field(self):
        edge_, fault = self.any_edge()
        if edge_ is None:
            return SAME
        key = self.random.choice(sorted(edge_))
        value = edge_[key]
        if isinstance(value, int):
            edge_[key] = self.random.choice([number for number in (value + 1, value - 1, 0, 2**32 - 1) if
                                             number != value and number >= 0])  # fmt: skip
        elif key in ("held_mode", "wanted_mode"):
            edge_[key] = "xs"[value == "x"]
        elif key == "guard_modes":
            at = self.random.randrange(len(value))
            value[at] = "xs"[value[at] == "x"]
        elif key == "guards":
            at = self.random.randrange(len(value))
            way = self.random.randrange(3 if self.is_plain else 2)
            if way == 0:
                value[at] += self.random.choice([" ", "a", "\\"])
            elif way == 1:
                if value == value[::-1]:
                    return SAME
                value.reverse()
            else:
                value.append("g")
        elif self.random.random() < 0.5:
            edge_[key] = value + self.random.choice([" ", "0", "\\x00"])
        else:
            edge_[key] = self.random.choice(["a", "b", "T0", "T1", "1", "2", ""])
            if edge_[key] == value:
                return SAME
        # Format 1: another thread or held lock may have an edge that reads so too.
        return None if self.is_plain and key in ("thread", "held") else fault

    def escape(self):
        """A name that is escaped where it needn't be, or by capital digits."""
        edge_, fault = self.any_edge()
        if edge_ is None:
            return SAME
        key = self.random.choice(["held", "wanted", "thread", "held_at", "wanted_at"])
        value = edge_[key]
        if value == "":
            return SAME
        at = self.random.randrange(len(value))
        edge_[key] = value[:at] + f"\\x{ord(value[at]):02x}" + value[at + 1 :]
        if "\\x" in value and self.random.random() < 0.5:
            edge_[key] = value.upper()
        return SAME if edge_[key] == value else fault

    def edges(self):
        """An edge left out, doubled, or two swapped."""
        if self.is_plain or not self.tree["edges"]:
            return SAME
        edges = self.tree["edges"]
        at = self.random.randrange(len(edges))
        way = self.random.randrange(3)
        if way == 0:
            del edges[at]
            is_outside = any(position >= len(edges) for cycle in self.listed() for position in cycle)
            return ("Shape",) if is_outside else ("Table", at)
        if way == 1:
            edges.insert(at, copy.deepcopy(edges[at]))
            return ("Table", at + 1)
        other = self.random.randrange(len(edges))
        edges[at], edges[other] = edges[other], edges[at]
        return SAME if at == other else ("Table", min(at, other))

    def cycles(self):
        """A cycle rotated, doubled or left out, two swapped, or one without one of its edges."""
        cycles = self.listed()
        if not cycles:
            return SAME
        at = self.random.randrange(len(cycles))
        way = self.random.randrange(5) if len(cycles[at]) > 1 else 1
        if way == 0:
            by = self.random.randrange(1, len(cycles[at]))
            cycles[at] = cycles[at][by:] + cycles[at][:by]
            return ("Verdict", at)
        if way == 1:
            cycles.insert(at, copy.deepcopy(cycles[at]))
            return ("Shape",) if len(cycles) > self.tree["max"] else ("Order", at + 1)
        if way == 2:
            del cycles[at]
            return len(cycles)
        if way == 3:
            other = self.random.randrange(len(cycles))
            cycles[at], cycles[other] = cycles[other], cycles[at]
            return SAME if at == other else ("Order", min(at, other) + 1)
        cut = self.random.randrange(len(cycles[at]))
        del cycles[at][cut]
        return ("Verdict", at)

    def finding(self):
        """A finding shown by another of its cycles, or told once more by it, right behind or elsewhere."""
        if not self.of_findings:
            return self.cycles()
        if not self.listed():
            return SAME
        shown, places = self.listed(), [(edge_["held_at"], edge_["wanted_at"]) for edge_ in self.tree["edges"]]

        def ring(cycle):
            return [places[at] for at in cycle if at < len(places)]

        at = self.random.randrange(len(shown))
        own = ring(shown[at])
        turns = [own[k:] + own[:k] for k in range(len(own))]
        others = [cycle for cycle in self.all_cycles if ring(cycle) in turns and cycle != shown[at]]
        if not others:
            return SAME
        other = self.random.choice(others)
        way = self.random.randrange(3)
        if way == 0:
            shown[at] = other
            return SAME
        where = at + 1 if way == 1 else sum(cycle < other for cycle in shown)
        shown.insert(where, other)
        if len(shown) > self.tree["max"]:
            return ("Shape",)
        return ("Order", at + 1) if way == 1 else ("Order",)

    def positions(self):
        """Cycles of positions drawn at random, or with one changed."""
        if self.is_plain:
            return SAME
        count, cycles = len(self.tree["edges"]), self.listed()
        cycle = self.random.choice(cycles or [[]])
        if cycle and self.random.random() < 0.5:
            cycle[self.random.randrange(len(cycle))] = self.random.randrange(count + 1)
        else:
            size = self.random.choice([0, 1, 2, 2, 2, 3, 4, 17])
            at = self.random.randint(0, len(cycles))
            cycles.insert(at, [self.random.randrange(max(count, 1)) for _ in range(size)])
        return None

    def trim(self):
        if self.is_plain:
            return SAME
        if self.of_findings:  # which have none
            self.tree["trim"] = self.random.choice([None, [], list(range(len(self.tree["edges"])))])
            return ("Shape",)
        count, trim = len(self.tree["edges"]), self.tree["trim"]
        way = self.random.randrange(5)
        if trim is None or way == 0:
            self.tree["trim"] = self.random.sample(range(count), count) if self.random.random() < 0.7 else []
            return WRONG if trim is None else None
        if way == 1:
            self.tree["trim"] = None
            return len(self.listed())
        if way == 2 and trim:
            del trim[self.random.randrange(len(trim))]
            return WRONG
        if way == 3 and count > 0:
            trim.insert(self.random.randint(0, len(trim)), self.random.randrange(count + 2))
            return WRONG
        if trim:
            at, other = self.random.randrange(len(trim)), self.random.randrange(len(trim))
            trim[at], trim[other] = trim[other], trim[at]
        return None

    def asked(self):
        """The query at its bounds, or another one."""
        key = self.random.choice(["len", "max", "mode", "more"])
        if key == "more":
            self.tree["more"] = not self.tree["more"]
            return SAME
        value = self.random.choice(
            {
                "len": [1, 2, 3, 16, 17],
                "max": [0, 1, 2, 100_000, 100_001],
                "mode": ["basic", "guarded", "full", "none"],
            }[key]
        )
        self.tree[key] = value
        is_out = value in {"len": (1, 17), "max": (0, 100_001), "mode": ("none",)}[key]
        is_few = key == "max" and len(self.listed()) > value
        is_fine = key == "max" or (key == "len" and value == 16)
        return ("Shape",) if is_out or is_few else SAME if is_fine else None

    def kind(self):
        """A value of another kind, or a number at a bound, somewhere."""
        places = [(self.tree, key) for key in self.tree]
        edge_, _ = self.any_edge()
        places += [(edge_, key) for key in edge_ or {}] * 2
        for name in ("cycles", "findings", "edges", "trim"):
            inner = self.tree.get(name) or []
            places += [(inner, at) for at in range(min(len(inner), 3))]
        where, key = self.random.choice(places)
        where[key] = Raw(self.random.choice(NUMBERS if self.random.random() < 0.5 else OTHERS))
        return None

    def keys(self):
        """A key left out, put in, renamed or doubled; that of a list of another format."""
        edge_, _ = self.any_edge()
        where = self.tree if edge_ is None or self.random.random() < 0.5 else edge_
        key = self.random.choice(sorted(where))
        way = self.random.randrange(4)
        if way == 0:
            del where[key]
        elif way == 3:
            other = "cycles" if self.of_findings else "findings"
            self.tree[other] = copy.deepcopy(self.listed())
        elif way == 1:
            where[self.random.choice(["a", "Format", key + " ", ""])] = 1
        else:
            where[key + "_"] = where.pop(key)
        return ("Shape",)

    def other_trace(self):
        """The trace with bytes changed, or a line left out."""
        parts = self.trace.split(b"\n")
        if self.random.random() < 0.5:
            del parts[self.random.randrange(len(parts))]
            self.trace = b"\n".join(parts)
        else:
            self.trace = random_traces.damaged(self.random, self.trace)
        return None

    KEEPING_SHAPE = [*[field] * 3, escape, *[edges, cycles, finding, trim] * 2, positions, asked]
    WAYS = [*KEEPING_SHAPE, kind, kind, keys, other_trace]

    def change(self):
        """The report's text, the trace, and what is known of the answer."""
        way = self.random.random()
        if way < 0.08:
            return dumped(self.tree, self.random), self.trace, SAME
        if way < 0.2:
            text = random_traces.damaged(self.random, dumped(self.tree)) if way < 0.14 else self.cut(dumped(self.tree))
            return text.replace(b"\n", b" "), self.trace, None
        if self.random.random() < 0.15:
            self.random.choice(self.KEEPING_SHAPE)(self)
            self.random.choice(self.WAYS)(self)
            return dumped(self.tree), self.trace, None
        known = self.random.choice(self.WAYS)(self)
        return dumped(self.tree), self.trace, known

    def cut(self, text):
        """Brackets, commas and quotes left out or put in."""
        for _ in range(self.random.choice([1, 1, 2])):
            at = self.random.choice([i for i, sign in enumerate(text) if chr(sign) in '[]{}",:'] or [0])
            sign = self.random.choice([b"", b"", b",", b"]", b"}", b'"', b"[", b"{", b" ", b"0", b"\\"])
            text = text[:at] + sign + text[at + self.random.randint(0, 1) :]
        return text


def is_as_known(known, answer, before):
    """Whether the answer is what was known beforehand; `before` is that of the true report."""
    if known is None:
        return True
    if known == SAME:
        return answer == before
    if known == WRONG:
        return answer[0] != "yes"
    if isinstance(known, int):
        return answer[:2] == ("yes", known)
    return answer[: len(known)] == known


@functools.lru_cache(maxsize=8)
def judged(text, trace):
    """What tests/checker/check.py judges, once for all that is compared with it: also where a change left all as it was."""
    return check.judge(text, trace)


def answered(text, trace):
    """The answer of tests/checker/check.py as a tuple."""
    found = judged(text, trace)
    return found.args if isinstance(found, check.Fault) else ("yes", *found)


def shown(given):
    """The answer of tests/checker/check.py to an input, as it shows it."""
    report, _, trace = given.partition(b"\n")
    return check.shown(judged(report, trace))


@functools.lru_cache(maxsize=4)
def predicted(text, mode, length, most, findings, form):
    """The reference's answer, once for all that is made of it."""
    return reference.answer("predict", text, reference.Query(mode, length, most, findings=findings), form)


def by_reference(text, query, form):
    return predicted(text, query.mode, query.length, query.most, query.findings, form)


def true_report(text, query, form):
    """The reference's report and the answer that it must get; the report of nothing where the trace is refused."""
    query.findings = form == 3
    printed, errors, status = by_reference(text, query, form)
    if status == 2:
        told = errors.decode("latin-1")
        number, _, problem = told.removeprefix("goodlock: line ").partition(": ")
        names = {"inconsistent": ("Inconsistent",), "line": ("Line",)}
        empty = EMPTY_FINDINGS_LINE if form == 3 else EMPTY_LINE
        return empty, names["inconsistent" if "precedes itself" in told else "line"]
    tree = json.loads(printed)
    if form == 3:
        return printed[:-1], ("yes", len(tree["findings"]), False, "findings")
    if form == 2:
        return printed[:-1], ("yes", len(tree["cycles"]), tree["trim"] is not None, "cycles")
    # Of a listed edge whose modes aren't all exclusive, format 1 says nothing that can be checked.
    table = json.loads(by_reference(text, query, 2)[0])
    for i, cycle in enumerate(table["cycles"]):
        for k, at in enumerate(cycle):
            told = table["edges"][at]
            if "s" in [told["held_mode"], told["wanted_mode"], *told["guard_modes"]]:
                return printed[:-1], ("Edge", i, k)
    return printed[:-1], ("yes", len(tree["cycles"]), False, "cycles")


def crowded(random_):
    """A trace of threads that run few pieces of code on few locks, so that a finding has several cycles."""
    pieces = random_.sample([("P", "Q"), ("R", "S"), ("P", "S")], random_.randint(1, 3))
    told = []
    for _ in range(random_.randint(4, 12)):
        (held, wanted), (held_at, wanted_at) = random_.sample("abc", 2), random_.choice(pieces)
        told.append(f"T{random_.randrange(6)} {held} {held_at} {wanted} {wanted_at}")
    return worked_traces.sections(*told)


def cycles_of(text, query):
    """All cycles of the query by positions, as many as 1,000; none where the trace is refused."""
    all_ = reference.Query(query.mode, query.length)
    printed, _, status = reference.answer("predict", text, all_, 2)
    return json.loads(printed)["cycles"] if status != 2 else []


# --- Comparing ------------------------------------------------------------------------------------------


class Tests:
    def __init__(self, program, has_check, has_format_2):
        self.program, self.has_check, self.has_format_2 = program, has_check, has_format_2
        self.passed = self.failed = self.skipped = 0
        self.right = collections.deque(maxlen=4)  # what the program was given last and answered rightly

    def that(self, name, is_right, told):
        self.passed, self.failed = self.passed + is_right, self.failed + (not is_right)
        if not is_right and self.failed <= 20:
            print(f"{name}: {told}")

    def by_program(self, name, text, trace):
        """The program's answer is that of tests/checker/check.py, byte for byte. It isn't asked twice for the same bytes."""
        if not self.has_check:
            return
        if not self.has_format_2 and is_of_format_2(text):
            self.skipped += 1
            return
        given = text + b"\n" + trace
        if given in self.right:
            return
        expected = shown(given)
        got = compare.run([self.program, "check"], given)
        if got != expected:
            path = os.path.join(tempfile.gettempdir(), f"goodlock-checks-{self.failed}.in")
            with open(path, "wb") as file:
                file.write(given)
            self.that(
                name,
                False,
                f"answers differ on {path}\n    check.py: {compare.show(expected)}\n    program: {compare.show(got)}",
            )
        else:
            self.right.append(given)
            self.that(name, True, "")


def has_command(program, command):
    done = subprocess.run([program, command, "--help"], stdin=subprocess.DEVNULL, capture_output=True)
    return done.returncode == 0


def is_of_format_2(text):
    try:
        value = check.read_json(text)
    except check.Fault:
        return False
    return isinstance(value, dict) and check.is_number(value.get("format"), 2, 2)


def main():
    parser = argparse.ArgumentParser(description=__doc__, formatter_class=argparse.RawDescriptionHelpFormatter)
    parser.add_argument("--cases", type=int, default=3000)
    parser.add_argument("--seed", default="1")
    parser.add_argument("--only", type=int, help="this case alone, with its report, trace and answer")
    parser.add_argument("program", nargs="?")
    options = parser.parse_args()
    program = os.path.abspath(options.program) if options.program else None
    has_check = program is not None and has_command(program, "check")
    if not has_check:
        print(
            f"{program or 'no program'}: no command check, so its answers are SKIPPED: tests/checker/check.py is tried alone"
        )
    has_format_2 = has_check and compare.run([program, "check"], EMPTY_LINE)[2] == 0
    if has_check and not has_format_2:
        print(f"{program}: check reads no reports of format 2, so what it says of them is SKIPPED")
    tests = Tests(program, has_check, has_format_2)
    if options.only is None:
        for name, text, trace, line, verdict in worked_reports.worked():
            told = shown(text + b"\n" + trace)
            tests.that(name, told == worked_reports.by_hand(line), f"by hand {line!r}, check.py {told}")
            if verdict is not None:
                answer = answered(text, trace)
                tests.that(f"{name}, verdict", answer[2:] == (verdict,), f"by hand {verdict}, check.py {answer}")
            tests.by_program(name, text, trace)
    seen = {}
    for number in range(options.cases) if options.only is None else [options.only]:
        random_ = random.Random(f"{options.seed}/{number}/report")
        trace = random_traces.case(options.seed, number, 28)
        query = reference.Query(
            random_.choice(["basic", "guarded", "full"]),
            random_.choice([2, 3, 4, 5, 16]),
            random_.choice([1, 2, 5, 1000]),
        )
        form = random_.choice([1, 2, 2, 3, 3])
        trace = crowded(random_) if form == 3 and random_.random() < 0.5 else trace
        text, expected = true_report(trace, query, form)
        before = answered(text, trace)
        tests.that(
            f"case {number}, true", before[: len(expected)] == expected, f"expected {expected}, check.py {before}"
        )
        tests.by_program(f"case {number}, true", text, trace)
        if program is not None:
            words = ["--mode", query.mode, "--len", str(query.length), "--max", str(query.most), "--json"]
            words += ["--findings"] * (form == 3)
            own, _, status = compare.run([program, "predict", *words], trace)
            if status != 2:
                tests.that(f"case {number}, the program's own", own.count(b"\n") == 1, "not one line")
                form_of_own = json.loads(own)["format"]
                _, wanted = true_report(trace, query, form_of_own)
                got = answered(own[:-1], trace)
                tests.that(
                    f"case {number}, the program's own", got[: len(wanted)] == wanted, f"{wanted}, check.py {got}"
                )
                tests.by_program(f"case {number}, the program's own", own[:-1], trace)
        if expected[0] != "yes":
            seen[expected[0]] = seen.get(expected[0], 0) + 1
        cycles = cycles_of(trace, query) if form == 3 else []
        for turn in range(3):
            tamper = Tamper(random_, json.loads(text), trace, cycles)
            other, other_trace, known = tamper.change()
            answer = answered(other, other_trace)
            seen[answer[0]] = seen.get(answer[0], 0) + 1
            name = f"case {number}, change {turn}"
            known = known if expected[0] == "yes" else None
            tests.that(
                name, is_as_known(known, answer, before), f"known is {known}, check.py {answer}: {other[:300]!r}"
            )
            tests.by_program(name, other, other_trace)
            if options.only is not None:
                print(f"{other.decode('latin-1')}\n{other_trace.decode('latin-1')}\nknown {known}, answer {answer}")
    if options.only is None:
        least = min(10, options.cases // 300)
        for name in check.LINES:
            tests.that(f"answers of the kind {name}", seen.get(name, 0) >= least, f"only {seen.get(name, 0)}")
    if tests.skipped:
        print(f"{tests.skipped} reports of format 2 weren't given to the program")
    print("answers: " + ", ".join(f"{name} {count}" for name, count in sorted(seen.items())))
    print(f"{tests.passed} passed, {tests.failed} failed")
    return 1 if tests.failed or tests.passed == 0 else 0


if __name__ == "__main__":
    sys.exit(main())
