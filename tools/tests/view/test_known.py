"""Known findings: what stays known and what is new."""

import hashlib
import os

import pytest
from viewing import EXAMPLE, HOSTILE, OTHER, heads, hostile_report, pair, read, report, text_of_page, view, write


def test_known_findings_are_status_0_and_a_new_one_is_1():
    write("old.json", report(pair()))
    write("now.json", report(pair("x", "y"), pair(places=OTHER)))
    assert view("old.json", "--write-known", "known")[0] == 1
    status, output, _ = view("old.json", "--known", "known")
    assert (status, heads(output)[1]) == (0, "1 finding (0 new, 1 known), 1 cycle in 1 report")
    status, output, _ = view("now.json", "--known", "known")
    expected = ["finding 1: new 1 cycle in 1 report", "finding 2: known 1 cycle in 1 report"]
    assert (status, heads(output)[0]) == (1, expected)
    assert "since 7 wants" in output.splitlines()[1]


def test_the_known_file_is_what_the_document_says():
    write("r.json", report(pair(places=OTHER), pair()))
    view("r.json", "--write-known", "known")
    lines = [line for line in read("known").splitlines() if not line.startswith("#")]
    # The ids are hashes of the sorted pairs, a line each, with a tab between the two places.
    numbers = [hashlib.sha256(pairs).hexdigest()[:16] for pairs in (b"1\t2\n5\t6", b"7\t8\n9\t10")]
    assert lines == [f'{numbers[0]} [["1","2"],["5","6"]]', f'{numbers[1]} [["7","8"],["9","10"]]']


def test_a_known_file_by_hand():
    write("r.json", EXAMPLE)
    write("known", '# why\r\n\r\n  [ ["5", "6"], ["1", "2"] ]  \r\n[["9","9"]]\n[["9","9"],["9","9"]]')
    status, output, errors = view("r.json", "--known", "known", "-o", "p.html", "--text")
    assert (status, errors) == (0, "")
    assert "known findings that weren't seen: 1\n" in output  # the two last lines are the same finding
    assert "1 known finding didn't come up in these reports." in text_of_page("p.html")
    write("known", "")
    assert view("r.json", "--known", "known")[0] == 1
    write("known", '[["1","2"]]\n[["1","2"],["5","6"],["7","8"]]\n')  # a part of it and more than it: not it
    assert view("r.json", "--known", "known")[0] == 1


def test_hostile_places_go_through_the_known_file():
    write("r.json", hostile_report())
    view("r.json", "--write-known", "known")
    status, output, errors = view("r.json", "--known", "known")
    assert (status, errors) == (0, "")
    assert (
        heads(output)[1] == f"{len(HOSTILE)} findings (0 new, {len(HOSTILE)} known), {len(HOSTILE)} cycles in 1 report"
    )


def test_the_known_file_can_be_written_over_itself():
    write("r.json", EXAMPLE)
    write("known", '[["9","9"]]\n')
    assert view("r.json", "--known", "known", "--write-known", "known")[0] == 1
    assert view("r.json", "--known", "known")[0] == 0


def test_known_findings_may_come_on_standard_input():
    """An output of that name is a file all the same."""
    write("r.json", EXAMPLE)
    assert view("r.json", "--known", "-", "-o", "-", stdin=b'[["1","2"],["5","6"]]\n') == (0, "", "")
    assert sorted(os.listdir()) == ["-", "r.json"]


KNOWN_FAULTS = [
    ("#\nx\n", "known: line 2: begins with neither an id of 16 digits (0-9, a-f) nor an array"),
    ('[["1","2"]]\n[["1","2"]\n', "known: line 2, column 11: not JSON: Expecting ',' delimiter"),
    ("[]", "known: line 1: not a non-empty array of pairs"),
    ('[["1"]]', "known: line 1: not a non-empty array of pairs"),
    ('[["1",2]]', "known: line 1: not a non-empty array of pairs"),
    ('{"1":"2"}', "known: line 1: begins with neither"),
    ('\n[["1","\\u00e9"]]', "known: line 2: not an escaped place: '\\xe9'"),
    (b'\n\n[["\xff","2"]]', "known: line 3: not UTF-8"),
]


@pytest.mark.parametrize("text, words", KNOWN_FAULTS)
def test_a_fault_in_the_known_file_is_told_with_its_line(text, words):
    write("r.json", EXAMPLE)
    write("known", text)
    status, output, errors = view("r.json", "--known", "known")
    assert (status, output, errors.count("\n")) == (2, "", 1)
    assert f"goodlock-view: {words}" in errors
