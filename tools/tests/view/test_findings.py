"""Which cycles are one finding, and how findings are told in the terminal."""

import errno
import hashlib
import json
import os
import subprocess

import pytest
from viewing import (
    EXAMPLE,
    HOSTILE,
    TWO,
    broken,
    edge,
    heads,
    hostile_report,
    pair,
    read,
    report,
    ring,
    second_format,
    text_of_page,
    third_format,
    view,
    write,
)


def test_the_example_in_the_terminal():
    write("r.json", EXAMPLE)
    # The id is the hash of the sorted pairs, a line each, with a tab between the two places.
    number = hashlib.sha256(b"1\t2\n5\t6").hexdigest()[:16]
    lines = [
        "finding 1: 1 cycle in 1 report",
        "  T0 holds a since 1 wants b at 2",
        "  T1 holds b since 5 wants a at 6",
        f"  2 threads, 2 locks, id {number}",
        "1 finding, 1 cycle in 1 report",
    ]
    assert view("r.json") == (1, "\n".join(lines) + "\n", "")
    assert view("--text", "r.json", "-o", "p.html") == (1, "\n".join(lines) + "\n", "")
    assert view("-", stdin=EXAMPLE.encode()) == (1, "\n".join(lines) + "\n", "")


def test_rotations_and_other_names_are_one_finding():
    turned = pair("x", "y", ("T8", "T9"))[::-1]
    write("r.json", report(pair(), turned))
    found, last = heads(view("r.json")[1])
    assert found == ["finding 1: 2 cycles in 1 report"]
    assert last == "1 finding, 2 cycles in 1 report"


def test_a_rotated_ring_of_three_is_the_same_finding_and_a_reflected_one_is_not():
    def three(pairs):
        return [edge(f"T{i}", f"l{i}", a, f"l{(i + 1) % 3}", b) for i, (a, b) in enumerate(pairs)]

    pairs = [("1", "2"), ("3", "4"), ("5", "6")]
    write("r.json", report(three(pairs), three(pairs[1:] + pairs[:1]), three(pairs[::-1])))
    assert heads(view("r.json")[1])[0] == ["finding 1: 3 cycles in 1 report"]
    other = [("2", "1"), ("4", "3"), ("6", "5")]  # what is held and what is wanted change sides
    write("r.json", report(three(pairs), three(other)))
    assert len(heads(view("r.json")[1])[0]) == 2


def test_the_same_places_in_other_pairs_are_another_finding():
    write("r.json", report(pair(places=("1", "2", "5", "6")), pair(places=("1", "6", "5", "2"))))
    assert len(heads(view("r.json")[1])[0]) == 2


def test_a_ring_of_the_same_lines_is_one_finding_whatever_its_length():
    cycles = [ring("abcd", "f.c:1", "f.c:2"), ring("abc", "f.c:1", "f.c:2"), ring("ab", "f.c:1", "f.c:2")]
    write("r.json", report(*cycles))
    output = view("r.json")[1]
    assert heads(output)[0] == ["finding 1: 3 cycles in 1 report"]
    # The shortest is shown in full; the threads and locks are those of all.
    assert output.count(" holds ") == 2
    assert "  P1 holds b since f.c:1 wants a at f.c:2\n  4 threads, 4 locks, id " in output


def test_many_reports_are_one_list():
    write("night/1.json", report(pair(), pair("c", "d")))
    write("night/2.json", report(pair("e", "f")))
    write("night/3.json", report(pair(places=("7", "8", "9", "10"))))
    write("night/4.json", report())
    status, output, _ = view(*(f"night/{i}.json" for i in (1, 2, 3, 4)))
    assert status == 1
    expected = ["finding 1: 3 cycles in 2 reports", "finding 2: 1 cycle in 1 report"]
    assert heads(output) == (expected, "2 findings, 4 cycles in 4 reports")


def test_a_folder_is_all_reports_below_it():
    for name in ("night/b/2.json", "night/a/1.json", "night/3.json"):
        write(name, report(pair(places=(name, "2", "3", "4"))))
    write("night/run.std", "not a report")
    assert view("night") == view("night/3.json", "night/a/1.json", "night/b/2.json")
    assert heads(view("night")[1])[1] == "3 findings, 3 cycles in 3 reports"


def test_a_folder_that_cannot_be_read_is_told(monkeypatch):
    """Its findings would be missing. Root reads all, so a call that fails stands in for the real one."""
    for path in ("night/a.json", "night/closed/b.json"):
        write(path, EXAMPLE)

    def scandir(path, known=os.scandir):
        if path.endswith("closed"):
            raise PermissionError(errno.EACCES, os.strerror(errno.EACCES), path)
        return known(path)

    monkeypatch.setattr(os, "scandir", scandir)
    assert view("night") == (2, "", "goodlock-view: night/closed: can't be read: Permission denied\n")


@pytest.mark.parametrize("pipe", ["night/b.json", "elsewhere"])
def test_a_pipe_in_a_folder_is_told_and_not_waited_for(pipe):
    """Nor one that a link leads to. One that is named is read."""
    write("night/a.json", EXAMPLE)
    os.mkfifo(pipe)
    if pipe == "elsewhere":
        os.symlink("../elsewhere", "night/b.json")
    writer = subprocess.Popen(["cp", "night/a.json", "night/b.json"])
    try:
        assert view("night") == (2, "", "goodlock-view: night/b.json: can't be read: not a regular file\n")
        assert heads(view("night/a.json", "night/b.json")[1])[1] == "1 finding, 2 cycles in 2 reports"
    finally:
        writer.kill()
        writer.wait()


def test_links_in_a_folder_are_read():
    """One to nothing is told."""
    write("disk/a.json", EXAMPLE)
    write("night/b.json", EXAMPLE)
    os.symlink("../disk/a.json", "night/c.json")
    assert heads(view("night")[1])[1] == "1 finding, 2 cycles in 2 reports"
    os.unlink("disk/a.json")
    assert view("night") == (2, "", "goodlock-view: night/c.json: can't be read: No such file or directory\n")


def test_standard_input_is_no_folder_of_its_name():
    write("-/r.json", EXAMPLE)
    assert view("-", stdin=report().encode()) == (0, "0 findings, 0 cycles in 1 report\n", "")


def test_words_behind_two_dashes_are_reports():
    write("-r.json", EXAMPLE)
    write("other.json", EXAMPLE)
    assert view("--", "-r.json") == view("--text", "--", "-r.json") == view("./-r.json")
    assert view("other.json", "--", "-r.json", "other.json") == view("other.json", "./-r.json", "other.json")
    assert view("-r.json")[0] == view("--text", "--")[0] == 2


def test_blank_places_are_told_apart_by_locks_but_not_by_addresses():
    blank = ("", "?", " ", "")
    write("r.json", report(pair("m@0x12", "n@0x7fAB", places=blank), pair("m@0x99", "n@0x3", places=blank)))
    assert heads(view("r.json")[1])[0] == ["finding 1: 2 cycles in 1 report"]
    write("r.json", report(pair("m1", "n", places=blank), pair("m2", "n", places=blank)))
    assert len(heads(view("r.json")[1])[0]) == 2


def test_callers_are_part_of_a_place():
    write("r.json", report(pair(places=("a.c:1<m.c:5", "2", "5", "6")), pair(places=("a.c:1<n.c:5", "2", "5", "6"))))
    assert len(heads(view("r.json")[1])[0]) == 2


def test_findings_come_shortest_first_then_most_cycles():
    long = ring("abc", "p", "q")
    many = pair(places=("z1", "z2", "z3", "z4"))
    one = pair(places=("1", "2", "5", "6"))
    write("r.json", report(long, one, many, many, long, long))
    lines = view("r.json")[1].splitlines()
    shown = [lines[at + 1].split(" since ")[1] for at, line in enumerate(lines) if line.startswith("finding ")]
    assert shown == ["z1 wants b at z2", "1 wants b at 2", "p wants b at q"]


def test_all_formats_give_the_same_findings():
    write("1.json", report(pair(), ring("abc", "p", "q")))
    write("2.json", second_format(pair(), ring("abc", "p", "q")))
    write("3.json", third_format(pair(), ring("abc", "p", "q")))
    assert view("2.json") == view("1.json")
    assert view("3.json") == view("1.json")
    assert heads(view("1.json", "2.json", "3.json")[1])[1] == "2 findings, 6 cycles in 3 reports"


def test_more_findings_than_listed_are_told():
    write("whole.json", third_format(pair()))
    write("cut.json", third_format(pair(), more=True))
    write("cycles.json", report(pair(), more=True))
    assert "may be missing" not in view("whole.json")[1]
    words = "findings may be missing: cut.json has more findings than are listed (ask for a larger max)"
    assert words in view("whole.json", "cut.json")[1]
    words = "findings may be missing: cut.json and cycles.json have more cycles or findings than are listed"
    assert words.replace(" and ", ", ") in view("cut.json", "cycles.json")[1]


def test_a_trim_order_shows_no_findings():
    for trim in ("[0,1]", "[1,0]"):
        write("r.json", broken(lambda v: v.update(cycles=[], trim=json.loads(trim)), TWO))
        assert view("r.json")[::2] == (0, "")
    write("none.json", broken(lambda v: v.update(cycles=[], edges=[], trim=[]), TWO))
    assert view("none.json")[::2] == (0, "")


def test_shared_modes_are_told():
    write("r.json", second_format(pair(), modes=("s", "x")))
    assert "T0 holds a (shared) since 1 wants b at 2" in view("r.json", "-o", "p.html", "--text")[1]
    assert "holds (shared) a since 1" in text_of_page("p.html")
    assert "wants b at 2" in text_of_page("p.html")
    write("r.json", second_format(pair(), modes=("x", "s")))
    assert "T0 holds a since 1 wants b (shared) at 2" in view("r.json")[1]


def test_more_cycles_than_listed_is_said_everywhere():
    write("whole.json", report(pair()))
    write("cut.json", report(pair(), more=True))
    words = "findings may be missing: cut.json has more cycles than are listed"
    outputs = ["-o", "p.html", "--sarif", "s.sarif", "--dot", "g.dot", "--text"]
    text = view("whole.json", "cut.json", *outputs)[1]
    assert words in text
    assert words[1:] in text_of_page("p.html")
    notes = json.loads(read("s.sarif"))["runs"][0]["invocations"][0]["toolExecutionNotifications"]
    assert words in notes[0]["message"]["text"]
    assert words in read("g.dot")
    text = view("whole.json", *outputs)[1]
    for words_of_one in (text, read("p.html"), read("s.sarif"), read("g.dot")):
        assert "may be missing" not in words_of_one


def test_names_in_the_terminal_are_one_ascii_line_and_short():
    write("r.json", hostile_report())
    status, output, errors = view("r.json")
    assert (status, errors) == (1, "")
    assert [c for c in output if not (" " <= c <= "~" or c == "\n")] == []
    # A finding has four lines, and one line ends them all.
    assert len(output.splitlines()) == 4 * len(HOSTILE) + 1
    assert max(len(line) for line in output.splitlines()) < 500
    long = [line for line in output.splitlines() if line.startswith("  nnn")]
    assert len(set(long)) == 2  # the two long names differ only in the middle, and still look different
