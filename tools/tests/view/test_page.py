"""The page: what is in it, what is not, and how it looks in the source."""

import re
import xml.etree.ElementTree

import pytest
from goodlock_view import page as page_module
from viewing import (
    EXAMPLE,
    HOSTILE,
    OTHER,
    Checked,
    heads,
    hostile_report,
    pair,
    read,
    report,
    ring,
    text_of_page,
    view,
    write,
)


def test_the_page_of_the_example():
    write("r.json", EXAMPLE)
    view("r.json", "-o", "p.html")
    text = text_of_page("p.html")
    edges = ("1. T0holds a since 1wants b at 2", "2. T1holds b since 5wants a at 6")
    for words in ("1 finding", "1 → 2; 5 → 6", *edges):
        assert words in text
    page = read("p.html")
    assert (page.count('class="lock"'), page.count('class="arc '), page.count('class="head ')) == (2, 2, 2)


def test_the_page_with_hostile_names():
    write("r.json", hostile_report())
    assert view("r.json", "-o", "p.html")[0] == 1
    page = read("p.html")
    checked = Checked(page)
    text = "".join(checked.texts)
    for raw in HOSTILE[:3] + HOSTILE[5:6]:
        name = raw.decode()
        assert f"holds {name} since {name}" in text
    assert "é日本\\xe2\\x80\\xaeevil\\xe2\\x80\\xac\\xe2\\x81\\xa6x\\xe2\\x81\\xa9\\xe2\\x80\\x8b\\xef\\xbb\\xbf" in text
    assert "holds \\xff\\xfe\\xc3(\\x80 since" in text
    assert "holds " + "".join("\\x%02x" % b for b in range(8)) in text  # as much as the first end has room for
    assert "holds (empty) since (empty)" in text
    assert [c for c in page if not c.isprintable() and c != "\n"] == []
    assert max(len(title) for title in checked.titles) <= 501
    # Each long name is in the page in full once, and everywhere else by its ends.
    assert (text.count("n" * 30_000 + "<b>"), text.count("n" * 30_000 + "<i>")) == (1, 1)
    assert "57,006 bytes" in text  # 30,000 and 3 and 27,000 and 3
    assert len(page) < 1_000_000


def test_findings_beyond_those_drawn_are_listed():
    cycles = [pair(places=(f"f.c:{i}", "2", "3", "4")) for i in range(10)]
    write("r.json", report(*cycles))
    view("r.json", "-o", "p.html", "--dot", "g.dot", "--most", "3")
    page = read("p.html")
    assert (page.count("<svg"), page.count('class="finding"')) == (3, 3)
    text = text_of_page("p.html")
    assert "7 more findings" in text
    for i in range(10):
        assert f"f.c:{i} → 2" in text
    assert read("g.dot").count("subgraph") == 3
    assert "7 more findings aren't drawn" in read("g.dot")


def test_beyond_two_thousand_only_the_text_lists_findings():
    write("r.json", report(*(pair(places=(f"f.c:{i}", "2", "3", "4")) for i in range(2_010)), most=3_000))
    text = view("r.json", "-o", "p.html", "--most", "3", "--text")[1]
    assert len(heads(text)[0]) == 2_010
    assert read("p.html").count("<tr data-") == 2_000
    assert "And 7 more, which only the text output lists." in text_of_page("p.html")


@pytest.mark.parametrize("room, cut, last", [(28, "", 1), (27, "places", 0), (5, "names and places", 0)])
def test_the_page_says_where_search_does_not_find_all(monkeypatch, room, cut, last):
    """In the table four places of seven characters each, with the blank, aren't shown, and as names P3, P4 and e."""
    monkeypatch.setattr(page_module, "_SOUGHT", room)
    five = ring("abcde", "", "")
    for i, one in enumerate(five):
        one.update(held_at=f"y{i}.c:1", wanted_at=f"y{i}.c:2")
    write("r.json", report(pair(), five, length=5))
    view("r.json", "-o", "p.html", "--most", "1")
    text = text_of_page("p.html")
    said = re.findall(r"There are too many ([a-z ]+) for search to find them all\.", text)
    assert (said, text.count("y4.c:2")) == ([cut] if cut else [], last)
    assert text.count("P4") == (room > 5)


def test_new_findings_are_open_and_known_ones_are_marked():
    write("r.json", report(pair(), pair(places=OTHER)))
    write("known", '[["1","2"],["5","6"]]\n')
    view("r.json", "-o", "p.html", "--known", "known")
    found = re.findall(
        r'<details class="finding" id="finding-[0-9a-f]{16}" data-[^>]*?( open)?>\s*<summary>', read("p.html")
    )
    assert found == [" open", ""]
    text = text_of_page("p.html")
    assert "2 findings (1 new, 1 known)" in text
    assert text.index("Finding 1 new") < text.index("Finding 2 known")


def test_guards_and_lists_of_names_are_shown():
    cycles = []
    for i in range(10):
        cycle = pair(f"conn-{i}", "pool", (f"worker {i}", "main"))
        cycle[0]["guards"] = [f"conn-{i}", "gate"]
        cycles.append(cycle)
    write("r.json", report(*cycles))
    view("r.json", "-o", "p.html")
    text = text_of_page("p.html")
    assert "holds meanwhile gate" in text
    assert "Locks: 11, as conn-* 10, pool 1" in text
    assert "Threads: 11, as worker * 10, main 1" in text


def test_rings_of_any_size_are_drawn():
    for size in (2, 3, 4, 5, 12, 100):
        locks = [f"lock {i}" for i in range(size)]
        write("r.json", report(ring(locks, "p", "q"), length=100))
        view("r.json", "-o", "p.html")
        page = read("p.html")
        picture = xml.etree.ElementTree.fromstring(re.search(r"<svg.*?</svg>", page, re.S)[0])
        width, height = (float(number) for number in picture.get("viewBox").split()[2:])
        assert (page.count('class="lock"'), page.count('class="arc ')) == (size, size)
        for path in picture.iter("path"):
            numbers = [float(number) for number in re.findall(r"-?[0-9.]+", path.get("d"))]
            for x, y in zip(numbers[0::2], numbers[1::2]):
                assert (0 <= x <= width, -30 <= y <= height + 30) == (True, True)


@pytest.mark.parametrize("length, is_whole", [(19, True), (40, True), (41, False), (4_000, False)])
def test_two_threads_are_named_in_whole_beside_their_arrows(length, is_whole):
    name = ("main.1:bank::transfer::lambda" + "n" * length)[:length]
    write("r.json", report(pair(threads=(name, "main.2"))))
    view("r.json", "-o", "p.html")
    picture = xml.etree.ElementTree.fromstring(re.search(r"<svg.*?</svg>", read("p.html"), re.S)[0])
    width, height = (float(number) for number in picture.get("viewBox").split()[2:])
    first, second = (text for text in picture.iter("text") if text.get("class"))
    assert (first.text == f"1. {name}", second.text) == (is_whole, "2. main.2")
    for text in (first, second):  # as wide as letters of 12 pixels are
        half = 7.3 * len(text.text) / 2
        assert half <= float(text.get("x")) <= width - half
        assert 6 <= float(text.get("y")) <= height - 6
    # Each is on the far side of its arrow, which so stays in sight.
    arrows = [path.get("d") for path in picture.iter("path") if path.get("class").startswith("arc")]
    middles = []
    for arrow in arrows:
        _, start, _, control, _, end = (float(number) for number in re.findall(r"-?[0-9.]+", arrow))
        middles.append((start + 2 * control + end) / 4)
    assert float(first.get("y")) <= middles[0] - 8
    assert float(second.get("y")) >= middles[1] + 8
