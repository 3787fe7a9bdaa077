"""How long large reports take, and how much memory many."""

import json
import resource
import subprocess

from viewing import TOOL, heads, read, view, write

OUTPUTS = ["-o", "p.html", "--sarif", "s.sarif", "--dot", "g.dot", "--text"]


def timed(*arguments):
    """Status, last line and errors of a command, and its user time."""
    before = resource.getrusage(resource.RUSAGE_CHILDREN).ru_utime
    status, output, errors = view(*arguments)
    return status, heads(output)[1], errors, resource.getrusage(resource.RUSAGE_CHILDREN).ru_utime - before


def one_edge(a, b, held_at, thread, wanted_at, **more):
    value = {"first": 0, "guards": [a], "held": a, "held_at": held_at, "place": 7, "second": 0, "thread": thread}
    return dict(value, wanted=b, wanted_at=wanted_at, **more)


def a_server(count):
    """Cycles of a server's connections with its pool, at a thousand pairs of places."""
    for i in range(count):
        a, b = f"lock-{i % 300}", f"lock-{300 + i % 7000}"
        yield [
            one_edge(a, b, f"server.c:{1 + i % 1000}", f"T{i % 40}", "server.c:2000"),
            one_edge(b, a, "pool.c:10", "main", "pool.c:20"),
        ]


def test_a_hundred_thousand_edges_take_less_than_three_seconds():
    modes = {"guard_modes": ["x"], "held_mode": "x", "wanted_mode": "x"}
    edges = [dict(edge, **modes) for cycle in a_server(50_000) for edge in cycle]
    cycles = [[2 * i, 2 * i + 1] for i in range(50_000)]
    value = {"cycles": cycles, "edges": edges, "format": 2, "len": 4, "max": 100_000, "mode": "full", "more": False}
    write("r.json", json.dumps(dict(value, trim=None)))
    write("src/server.c", "".join(f"    lock(&table[{i}]);\n" for i in range(2_500)))
    write("src/pool.c", "void reap(void)\n{\n" + 30 * "    lock(&pool);\n" + "}\n")
    times = []
    while len(times) < 3 and min(times, default=3) >= 3:  # a busy machine may need a second try
        status, last, errors, used = timed("r.json", "--source", "src", *OUTPUTS)
        assert (status, errors, last) == (1, "", "1,000 findings, 50,000 cycles in 1 report")
        times.append(used)
    assert min(times) < 3


def test_a_hundred_thousand_cycles_make_a_page_of_some_megabytes():
    value = {"cycles": list(a_server(100_000)), "format": 1, "len": 4, "max": 100_000, "mode": "full", "more": False}
    write("r.json", json.dumps(value))
    status, last, errors, used = timed("r.json", *OUTPUTS)
    assert (status, errors, last) == (1, "", "1,000 findings, 100,000 cycles in 1 report")
    assert used < 6
    assert len(read("p.html")) < 3_000_000


def test_reports_whose_names_all_differ_take_the_memory_of_a_few():
    """Each of 40 runs has 8,000 edges between locks of its own, and shows one of the same two places."""
    modes = {"guard_modes": ["x"], "held_mode": "x", "wanted_mode": "x"}
    value = {"findings": [[0, 1]], "format": 3, "len": 4, "max": 100, "mode": "full", "more": False}
    for run in range(40):
        pairs = [(f"run-{run}-lock-{2 * i}", f"run-{run}-lock-{2 * i + 1}") for i in range(4_000)]
        edges = [one_edge(a, b, "a.c:1", f"run-{run}-T0", "a.c:2", **modes) for a, b in pairs]
        back = [one_edge(b, a, "b.c:1", f"run-{run}-T1", "b.c:2", **modes) for a, b in pairs]
        write(f"runs/{run}.json", json.dumps(dict(value, edges=[edge for both in zip(edges, back) for edge in both])))
    limited = ["sh", "-c", 'ulimit -v 230000 && exec "$0" "$@"', TOOL, "runs"]  # all edges: 320,000 kB
    output = subprocess.run(limited, stdout=subprocess.PIPE, text=True).stdout
    assert heads(output) == (["finding 1: 40 cycles in 40 reports"], "1 finding, 40 cycles in 40 reports")
