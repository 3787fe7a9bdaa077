"""More threads than goodlock reads at once."""

import os
import subprocess
import sys

from c_programs import REFERENCE, Run


def test_first_and_last_of_many():
    """Those that do what no other one does are in all windows, however many were born in between."""
    run = Run(["./crowd", "3000"])
    assert run.status == 0, run.said
    windows = [name for name in run.files() if ".window" in name]
    assert len(windows) == 5, str(run.files())
    for name in windows:
        lines = run.lines(name[len("t.std") :])
        threads = {line.split("|")[0] for line in lines}
        assert {"main.1:first", "main.3000:last"} <= threads and len(threads) <= 1024, name
        both = [line for line in lines if "main.1:first" in line or "main.3000:last" in line]
        text = "".join(line + "\n" for line in both).encode()
        report = subprocess.run([sys.executable, REFERENCE], input=text, stdout=subprocess.PIPE).stdout
        assert report.endswith(b"cycles: 1\n"), report.decode()


def threads_of_chain(*arguments):
    run = Run(["./chain", *arguments])
    assert run.status == 0, run.said
    return list(dict.fromkeys(line.split("|")[0] for line in run.lines()))


def test_names_of_threads_that_make_each_other():
    """As many numbers as threads lead to one: where there are many, equal ones are counted."""
    named = ["main"] + ["main.%s:link_of" % ".".join("1" * depth) for depth in range(1, 25)]
    assert threads_of_chain("24") == named
    assert threads_of_chain("30") == named + ["main.1*%d:link_of" % depth for depth in range(25, 31)]


def test_names_of_threads_that_make_each_other_in_turns():
    """And where the numbers change again and again, the first ones are a digest. No two names are equal, and those of one run are those
    of another."""
    named = threads_of_chain("200", "others")
    assert named == threads_of_chain("200", "others")
    assert len(set(named)) == len(named) > 200 and max(map(len, named)) < 150, max(named, key=len)
    assert named[18] == "main.1.1.1.2.1.1.2.1.1.2.1.1.2.1.1.2.1.1:link_of", named[18]


def test_trace_of_a_long_chain():
    run = Run(["./chain", "3000"])
    assert run.status == 0, run.said
    assert os.path.getsize("t.std") < 1_000_000, "%d bytes" % os.path.getsize("t.std")
