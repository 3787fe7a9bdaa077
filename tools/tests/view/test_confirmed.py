"""Confirmations: what goodlock-confirm said of a finding is shown with it."""

import json
import re

import pytest
from viewing import EXAMPLE, HOSTILE, OTHER, heads, pair, read, report, text_of_page, view, write

PAIRS = [["1", "2"], ["5", "6"]]  # those of the example
TEXT = ["deadlocked in try 1", "  T0 holds a since 1 and waits for b at 2", "    at    main (a.c:2)"]


def confirmation(pairs=None, outcome="deadlocked", text=None, tries=1):
    return json.dumps({"outcome": outcome, "pairs": pairs or PAIRS, "text": text or TEXT, "tries": tries}) + "\n"


def two_findings():
    write("r.json", report(pair(), pair(places=OTHER)))
    write("c.json", confirmation())


def results():
    return json.loads(read("s.sarif"))["runs"][0]["results"]


def test_the_confirmed_finding_is_marked_in_the_text():
    two_findings()
    status, output, errors = view("r.json", "--confirmed", "c.json")
    assert (status, errors) == (1, "")
    findings = ["finding 1: confirmed 1 cycle in 1 report", "finding 2: 1 cycle in 1 report"]
    assert heads(output) == (findings, "2 findings (1 confirmed), 2 cycles in 1 report")


def test_a_known_finding_can_be_confirmed():
    two_findings()
    write("known", json.dumps(PAIRS))
    status, output, _ = view("r.json", "--known", "known", "--confirmed", "c.json")
    findings = ["finding 1: new 1 cycle in 1 report", "finding 2: known confirmed 1 cycle in 1 report"]
    assert (status, heads(output)) == (1, (findings, "2 findings (1 new, 1 known, 1 confirmed), 2 cycles in 1 report"))


def test_confirmations_of_many_findings():
    two_findings()
    write("d.json", confirmation([["7", "8"], ["9", "10"]], text=["deadlocked in the first run"]))
    _, output, _ = view("r.json", "--confirmed", "c.json", "--confirmed", "d.json")
    assert heads(output)[1] == "2 findings (2 confirmed), 2 cycles in 1 report"


def test_what_was_not_seen_is_not_confirmed():
    two_findings()
    write("c.json", confirmation(outcome="not seen", text=["not seen in 5 tries"], tries=5))
    _, output, _ = view("r.json", "--confirmed", "c.json", "--text", "-o", "p.html", "--sarif", "s.sarif")
    assert heads(output)[1] == "2 findings (0 confirmed), 2 cycles in 1 report"
    assert "Confirmed" not in text_of_page("p.html")
    assert [(result["level"], "properties" in result) for result in results()] == [("warning", False)] * 2


def test_a_confirmation_of_another_finding_is_told():
    two_findings()
    write("c.json", confirmation([["1", "2"], ["5", "6"], ["7", "8"]]))
    _, output, _ = view("r.json", "--confirmed", "c.json", "--text", "-o", "p.html")
    assert "confirmations of findings that aren't here: 1\n2 findings (0 confirmed)" in output
    assert "1 confirmation is of a finding that isn't in these reports." in text_of_page("p.html")
    assert 'id="state"' not in read("p.html")


def test_the_page_has_what_was_said():
    two_findings()
    view("r.json", "--confirmed", "c.json", "-o", "p.html")
    page = read("p.html")
    first, second = page.split('<details class="finding"')[1:]
    assert '<span class="badge confirmed">confirmed</span>' in first
    assert 'data-state="confirmed"' in first
    assert "Confirmed: a run deadlocked in try 1" in first
    assert "<span>    at    main (a.c:2)</span>" in first
    assert 'data-state=""' in second
    assert "onfirmed" not in second.partition("</details>")[0]
    assert '<option value="confirmed">' in page
    assert "2 findings (1 confirmed)" in text_of_page("p.html")


def test_sarif_and_the_graph_say_it():
    two_findings()
    view("r.json", "--confirmed", "c.json", "--sarif", "s.sarif", "--dot", "g.dot")
    first, second = results()
    assert (first["level"], first["properties"]) == ("error", {"confirmed": True})
    assert first["message"]["text"].endswith("of the reports is this. Confirmed: a run of the program came to it.")
    assert (second["level"], "properties" in second) == ("warning", False)
    assert "onfirmed" not in second["message"]["text"]
    assert re.findall('label="(finding .*)";', read("g.dot")) == ["finding 1: 1 cycle, confirmed", "finding 2: 1 cycle"]


def test_hostile_text_is_shown_as_text():
    two_findings()
    lines = [raw.decode("utf-8", "replace") for raw in HOSTILE] + ["\ud800"]
    write("c.json", confirmation(text=lines))
    assert view("r.json", "--confirmed", "c.json", "-o", "p.html")[0] == 1
    text = text_of_page("p.html")
    assert "Confirmed: a run <script>window.hit=1</script>" in text
    assert "\\xe2\\x80\\xae" in text  # an override of the direction
    assert "\\xed\\xa0\\x80" in text


def test_long_text_is_cut():
    two_findings()
    write("c.json", confirmation(text=["deadlocked in try 1", *(f"line {i}." for i in range(1, 301)), "x" * 10_000]))
    view("r.json", "--confirmed", "c.json", "-o", "p.html")
    page = read("p.html")
    assert "<span>line 200.</span><span>and 101 more lines</span></pre>" in page
    write("c.json", confirmation(text=["x" * 10_000]))
    view("r.json", "--confirmed", "c.json", "-o", "p.html")
    assert 200 < len(re.findall("Confirmed: a run ([^<]*)", read("p.html"))[0]) <= 300


FAULTS = [
    ("[]", "c.json: not an outcome of goodlock-confirm"),
    (EXAMPLE, "c.json: not an outcome of goodlock-confirm"),
    (confirmation(outcome="perhaps"), "c.json: not an outcome of goodlock-confirm"),
    (confirmation().replace('"outcome": "deadlocked"', '"outcome": []'), "c.json: not an outcome of goodlock-confirm"),
    (confirmation().replace('"tries": 1', '"trials": 1'), "c.json: not an outcome of goodlock-confirm"),
    (confirmation(tries=-1), "c.json: not an outcome of goodlock-confirm"),
    (confirmation(tries="1"), "c.json: not an outcome of goodlock-confirm"),
    (confirmation(text=[1]), "c.json: not an outcome of goodlock-confirm: text isn't a non-empty array of strings"),
    (confirmation([["1"]]), "c.json: not a non-empty array of pairs"),
    (confirmation([["1", "\u00e9"]]), "c.json: not an escaped place: '\\xe9'"),
    ("{", "c.json: line 1, column 2: not JSON"),
]


@pytest.mark.parametrize("text, words", FAULTS)
def test_a_fault_in_a_confirmation_is_told(text, words):
    write("r.json", EXAMPLE)
    write("c.json", text)
    status, output, errors = view("r.json", "--confirmed", "c.json")
    assert (status, output, errors.count("\n")) == (2, "", 1)
    assert f"goodlock-view: {words}" in errors


def test_a_confirmation_is_never_written_over():
    two_findings()
    status, _, errors = view("r.json", "--confirmed", "c.json", "-o", "c.json")
    assert (status, errors.count("\n")) == (2, 1)
    assert "c.json: would be written over another file of this command" in errors
    assert read("c.json") == confirmation()
    status, _, errors = view("-", "--confirmed", "-", stdin=EXAMPLE.encode())
    assert (status, errors) == (2, "goodlock-view: standard input can't be read twice\n")
