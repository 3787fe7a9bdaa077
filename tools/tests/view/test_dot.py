"""The graph, as Graphviz reads it."""

import shutil
import subprocess
import xml.etree.ElementTree

import pytest
from viewing import HOSTILE, hostile_report, pair, report, ring, spell, view, write

pytestmark = pytest.mark.skipif(shutil.which("dot") is None, reason="dot isn't installed (Debian: graphviz)")


def drawn_by_dot(path):
    """The texts that `dot` draws, and how many nodes and edges."""
    done = subprocess.run(["dot", "-Tsvg", path], capture_output=True, timeout=60)
    assert (done.returncode, done.stderr) == (0, b"")
    root = xml.etree.ElementTree.fromstring(done.stdout)
    tag = "{http://www.w3.org/2000/svg}"
    kinds = [group.get("class") for group in root.iter(tag + "g")]
    return [text.text or "" for text in root.iter(tag + "text")], kinds.count("node"), kinds.count("edge")


def test_dot_reads_the_graph_of_the_example():
    write("r.json", report(pair(), ring("abc", "p", "q")))
    view("r.json", "--dot", "g.dot")
    texts, nodes, edges = drawn_by_dot("g.dot")
    assert (nodes, edges) == (5, 5)
    for words in ("finding 1: 1 cycle", "a", "b", "T0", "since 1", "wants at 2", "T1", "since 5", "wants at 6", "P2"):
        assert words in texts


def test_dot_reads_hostile_names_as_they_are():
    write("r.json", hostile_report())
    view("r.json", "--dot", "g.dot")
    texts, nodes, edges = drawn_by_dot("g.dot")
    assert (nodes, edges) == (2 * len(HOSTILE), 2 * len(HOSTILE))
    shown = [text.replace("\xa0", " ").strip() for text in texts]
    for raw in HOSTILE:
        name = spell(raw)
        if 0 < len(name.strip()) <= 40:
            assert (name, name in shown, f"since {name}" in shown) == (name, True, True)
