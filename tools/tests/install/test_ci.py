"""The job of docs/CI.md, on a small project: a seeded deadlock, an accepted one, moved lines, a new one, a mended one."""

import json
import pathlib
import re
import shutil
import textwrap

import pytest
from installing import TOP, has, run
from test_install import TRACE

PAGE = (TOP / "docs" / "CI.md").read_text()
MAKEFILE = "bank: bank.cc\n\tg++ -g -pthread bank.cc -o bank\ncheck: bank\n\t./bank\n"
BANK = """\
#include <atomic>
#include <mutex>
#include <thread>

std::mutex savings, current;
std::atomic<int> turn;  // keeps the threads apart in each run, of which a trace tells nothing

void transfer(std::mutex &from, std::mutex &to) {
    std::lock_guard<std::mutex> first(from);
    std::lock_guard<std::mutex> second(to);
}

void in_turn(int mine, void (*work)()) {
    while (turn != mine)
        std::this_thread::yield();
    work();
    turn++;
}

int main() {
    std::thread saver(in_turn, 0, +[] { transfer(current, savings); });
    std::thread spender(in_turn, 1, +[] { transfer(savings, current); });
    saver.join();
    spender.join();
}
"""
FEE = """\
void fee(std::mutex &from, std::mutex &to) {
    std::lock_guard<std::mutex> first(from);
    std::lock_guard<std::mutex> second(to);
}

"""


def block(language, at=0):
    return re.findall(rf"^```{language}\n(.*?)^```", PAGE, re.M | re.S)[at]


def line_with(word):
    """The page's line of shell, set off by four blanks, that has this word."""
    (line,) = [
        line.strip() for line in PAGE.splitlines() if line.startswith("    ") and word in line and "#" not in line
    ]
    return line


def job(source=None):
    """Builds the project anew and runs the job as a code host does: each line has to succeed."""
    if source is not None:
        pathlib.Path("bank.cc").write_text(source)
    for folder in ("traces", "reports"):
        shutil.rmtree(folder, ignore_errors=True)
    assert run("make", "bank")[0] == 0
    return run("sh", "-e", "-c", block("sh"), timeout=600)


def results():
    return json.loads(pathlib.Path("goodlock.sarif").read_text())["runs"][0]["results"]


needs_compiler = pytest.mark.skipif(not has("g++", "make"), reason="g++ or make isn't installed")


@needs_compiler
def test_the_job_fails_on_new_findings_alone(path):
    pathlib.Path("Makefile").write_text(MAKEFILE)
    status, output, errors = job(BANK)
    assert status == 1, errors
    assert "finding 1: new 1 cycle in 1 report\n" in output
    assert "since bank.cc:9 wants" in output
    assert "<!DOCTYPE html>" in pathlib.Path("findings.html").read_text()
    place = results()[0]["locations"][0]["physicalLocation"]
    assert (place["artifactLocation"]["uri"], place["region"]["startLine"]) == ("bank.cc", 10)

    assert run("sh", "-c", line_with("--write-known"))[0] == 1  # there is a finding, which is now accepted
    assert job()[0] == 0
    assert [result["suppressions"][0]["status"] for result in results()] == ["accepted"]

    moved = BANK.replace("void transfer", 10 * "// more\n" + "void transfer")
    status, output, _ = job(moved)
    assert (status, "finding 1: known" in output, "since bank.cc:19 wants" in output) == (0, True, True)

    status, output, _ = job(moved.replace("first(from)", "source(from)"))
    assert (status, "finding 1: new" in output) == (1, True)
    assert "known findings that weren't seen: 1\n" in output

    clerk = "    std::thread clerk(in_turn, 2, +[] { fee(savings, current); });\n    clerk.detach();\n"
    second = moved.replace("int main() {\n", f"{FEE}int main() {{\n{clerk}")
    second = second.replace("    spender.join();\n", "    spender.join();\n    in_turn(3, +[] {});\n")
    status, output, _ = job(second)
    assert (status, "2 findings (1 new, 1 known)" in output) == (1, True)

    lines = "    std::lock_guard<std::mutex> first(from);\n    std::lock_guard<std::mutex> second(to);\n"
    status, output, _ = job(moved.replace(lines, "    std::scoped_lock both(from, to);\n"))
    assert (status, results()) == (0, [])


@needs_compiler
def test_a_failing_suite_fails_the_job_before_anything_is_predicted(path):
    pathlib.Path("Makefile").write_text(MAKEFILE.replace("./bank", "./bank && false"))
    status, _, _ = job(BANK)
    assert status != 0
    assert not pathlib.Path("reports").exists()


def test_both_code_hosts_run_the_same_lines():
    lines = block("sh")
    for at in (0, 1):
        found = re.search(r"^( +)mkdir traces\n.*?goodlock\.sarif\n", block("yaml", at), re.M | re.S)
        assert textwrap.dedent(found[0]) == lines


def test_slices_of_many_traces_make_the_findings_of_all(path, tmp_path):
    for number in range(12):
        text = TRACE.replace("Main.java:10", f"Main.java:{10 + number % 3}")
        pathlib.Path(f"traces/{number % 7}").mkdir(parents=True, exist_ok=True)
        pathlib.Path(f"traces/{number % 7}/{number}.std").write_text(text)
    found = sorted(str(path) for path in pathlib.Path("traces").rglob("*.std"))
    pathlib.Path("traces.txt").write_text("".join(name + "\n" for name in found))
    slice_ = re.search(r"--wrap '(.*)'$", line_with("sbatch"))[1].replace("/data/reports", "slices")
    assert run("goodlock-predict-all", "-o", "all", "traces")[0] == 0
    for number in (5, 12, 5, *range(1, 13)):  # in any order, and some of them twice
        status, _, errors = run("sh", "-c", f"SLURM_ARRAY_TASK_ID={number}; {slice_}")
        assert status == 0, errors
    merged = run("goodlock-view", "slices")[1]
    assert merged == run("goodlock-view", "all")[1]
    assert merged.endswith("3 findings, 12 cycles in 12 reports\n")
