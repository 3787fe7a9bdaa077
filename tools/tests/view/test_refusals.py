"""What is refused: text that isn't a report, usage, files that can't be read or written."""

import os
import pathlib
import shutil
import stat
import subprocess

import pytest
from viewing import (
    EXAMPLE,
    THREE,
    TOOL,
    TWO,
    broken,
    heads,
    hostile_report,
    pair,
    read,
    report,
    text_of_page,
    view,
    write,
)


def put(key, new):
    def change(value):
        first = value["cycles"][0][0] if value["format"] == 1 else value["edges"][0]
        first[key] = new

    return change


def put_top(key, new):
    return lambda value: value.__setitem__(key, new)


FIRST = "not a report: cycles[0][0]"
MALFORMED = [
    (b"", "line 1, column 1: not JSON: Expecting value"),
    (b"cycles: 0\n", "line 1, column 1: not JSON: Expecting value"),
    (EXAMPLE[:-20], "not JSON"),
    (EXAMPLE + EXAMPLE, "line 2, column 1: not JSON: Extra data"),
    (b'\n{"a":\xff}', "line 2: not UTF-8"),
    (b"\xef\xbb\xbf" + EXAMPLE.encode(), "not JSON: Unexpected UTF-8 BOM"),
    (b"[]", "not a report: the report is an array, not an object"),
    (b"null", "not a report: the report is null, not an object"),
    (b"[" * 100_000, "not a report: nested too deeply"),
    (b"{}", "not a report: the report has no key `format` of 1, 2 or 3"),
    (EXAMPLE.replace('"max":1000', '"max":NaN'), "not JSON: NaN isn't JSON"),
    (EXAMPLE.replace('"max":1000', '"max":' + "9" * 5000), "not "),  # some versions of Python refuse it as JSON
    (EXAMPLE.replace('"max":1000', '"max":18446744073709551616'), "not a report: max is too large"),
    (EXAMPLE.replace('"max":1000', '"max":1000,"max":1000'), "not JSON: the key 'max' comes twice in one object"),
    (EXAMPLE.replace('"max":1000', '"max":1e3'), "max is a number with a fraction or exponent, not a whole number"),
    (broken(put_top("format", 4)), "not a report: the report has no key `format` of 1, 2 or 3"),
    (broken(put_top("format", True)), "not a report: the report has no key `format` of 1, 2 or 3"),
    (broken(put_top("format", 2)), "not a report: the report has no key `edges`"),
    (broken(lambda v: v.pop("more")), "not a report: the report has no key `more`"),
    ('{"len":' + "9" * 100_000 + "}", "not a report: a number has too many digits"),
    (broken(put_top("extra", 1)), "not a report: the report has the unknown key 'extra'"),
    (broken(put_top("\ud800" * 90, 1)), "not a report: the report has the unknown key '\\ud800"),
    (broken(put_top("mode", "fast")), 'not a report: mode is none of "basic", "guarded", "full"'),
    (broken(put_top("mode", ["full"])), 'not a report: mode is none of "basic", "guarded", "full"'),
    (broken(put_top("len", -1)), "not a report: len is below 0"),
    (broken(put_top("max", True)), "not a report: max is true or false, not a whole number"),
    (broken(put_top("more", 0)), "not a report: more is a number, not true or false"),
    (broken(put_top("cycles", {})), "not a report: cycles is an object, not an array"),
    (broken(put_top("cycles", [3])), "not a report: cycles[0] is a number, not an array"),
    (broken(put_top("cycles", [[3]])), f"{FIRST} is a number, not an object"),
    (broken(put_top("cycles", [[]])), "not a report: cycles[0] has 0 edges, a cycle has two or more"),
    (broken(put_top("max", 0)), "not a report: cycles lists 1 cycles, more than `max`"),
    (broken(put_top("len", 1)), "not a report: cycles[0] has 2 edges, more than `len`"),
    (broken(lambda v: v["cycles"][0].pop()), "not a report: cycles[0] has 1 edge, a cycle has two or more"),
    (broken(lambda v: v["cycles"].append([])), "not a report: cycles[1] has 0 edges"),
    (broken(put("wanted", "c")), f"{FIRST} wants another lock than the next edge holds"),
    (broken(put("thread", "T1")), "not a report: cycles[0] has a thread twice"),
    (report(pair("a", "b") + pair("a", "b", ("T2", "T3"))), "not a report: cycles[0] has a held lock twice"),
    (broken(put("wanted", "a")), f"{FIRST}.wanted is the held lock"),
    (report(pair("", "")), f"{FIRST}.wanted is the held lock"),  # libgoodlock's, of locks without a name
    (broken(put("guards", [])), f"{FIRST}.guards are without the held lock"),
    (broken(put("guards", "a")), f"{FIRST}.guards is a string, not an array"),
    (broken(put("guards", ["a", 7])), f"{FIRST}.guards[1] is a number, not a string"),
    (broken(put("guards", ["a", []])), f"{FIRST}.guards[1] is an array, not a string"),
    (broken(put("guards", ["a", "\\"])), f"{FIRST}.guards[1] isn't an escaped name"),
    (broken(put("place", "1")), f"{FIRST}.place is a string, not a whole number"),
    (broken(put("first", -1)), f"{FIRST}.first is below 0"),
    (broken(put("second", None)), f"{FIRST}.second is null, not a whole number"),
    (broken(put("held_mode", "x")), f"{FIRST} has the unknown key 'held_mode'"),
    (broken(lambda v: v["cycles"][0][1].pop("held_at")), "not a report: cycles[0][1] has no key `held_at`"),
    (broken(put("thread", None)), f"{FIRST}.thread is null, not a string"),
    (broken(put("thread", {})), f"{FIRST}.thread is an object, not a string"),
    (broken(put("held_at", "a\\b")), f"{FIRST}.held_at isn't an escaped name: 'a\\\\b'"),
    (broken(put("held_at", "\\x4")), f"{FIRST}.held_at isn't an escaped name"),
    (broken(put("held_at", "\\x41")), f"{FIRST}.held_at isn't an escaped name"),
    (broken(put("held_at", "\\xC3")), f"{FIRST}.held_at isn't an escaped name"),
    (broken(put("held_at", "a\n")), f"{FIRST}.held_at isn't an escaped name"),
    (broken(put("held_at", "\u00e9")), f"{FIRST}.held_at isn't an escaped name"),
    (broken(put("held_at", "\x7f" * 99_999)), f"{FIRST}.held_at isn't an escaped name"),
    (broken(put("held_at", "a" * 60_000 + "\x00")), f"{FIRST}.held_at isn't an escaped name"),
    (broken(put_top("trim", 1), TWO), "not a report: trim is a number, not an array or null"),
    (broken(put_top("trim", ["T0"]), TWO), "not a report: trim[0] isn't a position in `edges`"),
    (broken(put_top("trim", [0, 2]), TWO), "not a report: trim[1] isn't a position in `edges`"),
    (broken(put_top("trim", [1, True]), TWO), "not a report: trim[1] isn't a position in `edges`"),
    (broken(put_top("trim", [1, 1]), TWO), "not a report: trim has a position twice"),
    (broken(put_top("trim", [1]), TWO), "not a report: trim has 1 position for 2 edges"),
    (broken(put_top("edges", {}), TWO), "not a report: edges is an object, not an array"),
    (broken(put_top("cycles", [[0, 2]]), TWO), "not a report: cycles[0][1] isn't a position in `edges`"),
    (broken(put_top("cycles", [[0, -1]]), TWO), "not a report: cycles[0][1] isn't a position in `edges`"),
    (broken(put_top("cycles", [[False, 1]]), TWO), "not a report: cycles[0][0] isn't a position in `edges`"),
    (broken(put("held_mode", "r"), TWO), 'not a report: edges[0].held_mode is none of "x", "s"'),
    (broken(put("wanted_mode", 1), TWO), 'not a report: edges[0].wanted_mode is none of "x", "s"'),
    (broken(put("guard_modes", []), TWO), "not a report: edges[0].guard_modes hasn't one mode for each guard"),
    (broken(put("guard_modes", ["y"]), TWO), "not a report: edges[0].guard_modes isn't an array"),
    (broken(lambda v: v["edges"][1].pop("held_mode"), TWO), "not a report: edges[1] has no key `held_mode`"),
    (broken(put_top("format", 2), THREE), "not a report: the report has no key `cycles`"),
    (broken(put_top("format", 3), TWO), "not a report: the report has no key `findings`"),
    (broken(put_top("trim", None), THREE), "not a report: the report has the unknown key 'trim'"),
    (broken(put_top("cycles", []), THREE), "not a report: the report has the unknown key 'cycles'"),
    (broken(put_top("findings", {}), THREE), "not a report: findings is an object, not an array"),
    (broken(put_top("findings", [[0, 2]]), THREE), "not a report: findings[0][1] isn't a position in `edges`"),
    (broken(put_top("findings", [[0]]), THREE), "not a report: findings[0] has 1 edge, a cycle has two or more"),
    (broken(put_top("max", 0), THREE), "not a report: findings lists 1 findings, more than `max`"),
    (broken(put_top("len", 1), THREE), "not a report: findings[0] has 2 edges, more than `len`"),
    (broken(lambda v: v["edges"][1].pop("held_mode"), THREE), "not a report: edges[1] has no key `held_mode`"),
]


def one_refusal(text, words):
    """Status 2, nothing on the output, one line that names the file and begins as told; outputs stay as they were."""
    write("bad.json", text)
    write("good.json", EXAMPLE)
    write("p.html", "as it was")
    status, output, errors = view("good.json", "bad.json", "-o", "p.html", "--sarif", "s.sarif")
    assert (status, output) == (2, "")
    assert errors.count("\n") == 1
    assert len(errors) < 400
    assert "goodlock-view: bad.json: " in errors
    assert words in errors
    assert read("p.html") == "as it was"
    assert sorted(os.listdir()) == ["bad.json", "good.json", "p.html"]


@pytest.mark.parametrize("text, words", MALFORMED, ids=[words[:60] for _, words in MALFORMED])
def test_what_is_no_report_is_refused(text, words):
    one_refusal(text, words)


def test_no_cycle_is_status_0():
    write("r.json", report())
    assert view("r.json", "--text", "-o", "p.html") == (0, "0 findings, 0 cycles in 1 report\n", "")
    assert "No report lists a cycle." in text_of_page("p.html")


def test_nothing_is_printed_where_files_are_asked_for():
    write("r.json", EXAMPLE)
    assert view("r.json", "--dot", "g.dot") == (1, "", "")


def usage_cases():
    yield [], "goodlock-view: the following arguments are required: REPORT"
    yield ["missing.json"], "goodlock-view: missing.json: can't be read: No such file or directory"
    yield ["folder"], "goodlock-view: folder: no report (*.json) is in this folder"
    yield ["a\nb\x1b\\\u00e9"], "goodlock-view: a\\x0ab\\x1b\\x5c\\xc3\\xa9: can't be read: No such file"
    yield ["r.json", "--nonsense"], "goodlock-view: unrecognized arguments: --nonsense"
    yield ["r.json", "--tex"], "goodlock-view: unrecognized arguments: --tex"
    yield ["r.json", "--most", "-1"], "goodlock-view: argument --most: "
    yield ["r.json", "--most", "x"], "goodlock-view: argument --most: not a whole number"
    yield ["r.json", "--source", "r.json"], "goodlock-view: r.json: not a directory"
    yield ["r.json", "--source", "none"], "goodlock-view: none: not a directory"
    yield ["r.json", "--known", "none"], "goodlock-view: none: can't be read: No such file or directory"
    yield ["-", "-"], "goodlock-view: standard input can't be read twice"
    yield ["-", "--known", "-"], "goodlock-view: standard input can't be read twice"
    yield ["r.json", "--known", "-", "--confirmed", "-"], "goodlock-view: standard input can't be read twice"
    yield ["r.json", "-o", "r.json"], "would be written over another file of this command"
    yield ["r.json", "-o", "./folder/../r.json"], "would be written over another file of this command"
    yield ["r.json", "-o", "x", "--dot", "x"], "would be written over another file of this command"
    yield ["r.json", "--known", "k", "-o", "k"], "would be written over another file of this command"
    yield ["r.json", "-o", ""], "goodlock-view: argument -o/--html: the name is empty"
    yield ["r.json", "--write-known", ""], "goodlock-view: argument --write-known: the name is empty"
    yield ["r.json", "-o", "folder"], "can't be written: not a regular file"
    yield ["r.json", "-o", "/dev/null"], "goodlock-view: /dev/null: can't be written: not a regular file"
    yield ["r.json", "-o", "none/p.html"], "can't be written: No such file or directory"
    yield ["r.json", "-o", "ok.html", "--dot", "none/g.dot"], "can't be written: No such file or directory"


@pytest.mark.parametrize("arguments, words", usage_cases())
def test_wrong_usage_is_told_in_a_line_and_writes_nothing(arguments, words):
    write("r.json", EXAMPLE)
    write("folder/x", "")
    write("k", "")
    status, output, errors = view(*arguments)
    assert (status, output, errors.count("\n")) == (2, "", 1)
    assert words in errors
    assert sorted(os.listdir()) == ["folder", "k", "r.json"]
    assert read("r.json") == EXAMPLE


def test_options_may_stand_between_reports():
    write("1.json", EXAMPLE)
    write("2.json", EXAMPLE)
    assert heads(view("1.json", "--text", "2.json")[1])[1] == "1 finding, 2 cycles in 2 reports"


@pytest.mark.parametrize("word", ["r.json", "--help", "--version"])
def test_a_full_disk_is_status_2(word):
    write("r.json", EXAMPLE)
    with open("/dev/full", "wb") as full:
        done = subprocess.run([str(TOOL), word], stdout=full, stderr=subprocess.PIPE)
    errors = b"goodlock-view: standard output: can't be written: No space left on device\n"
    assert (done.returncode, done.stderr) == (2, errors)


@pytest.mark.parametrize("stream", ["2>/dev/full", "2>&-"])
def test_an_error_that_nobody_hears_is_status_2(stream):
    done = subprocess.run(f'"{TOOL}" none.json {stream}', shell=True)
    assert done.returncode == 2


def test_closed_streams_are_status_2():
    write("r.json", EXAMPLE)
    for arguments, words in (("r.json >&-", "standard output: can't be written: it is closed"),
                             ("--help >&-", "standard output: can't be written: it is closed"),
                             ("- <&-", "standard input: can't be read: it is closed")):  # fmt: skip
        done = subprocess.run(f'"{TOOL}" {arguments}', shell=True, stderr=subprocess.PIPE)
        assert (done.returncode, done.stderr.decode()) == (2, f"goodlock-view: {words}\n")


@pytest.mark.parametrize(
    "there, words",
    [
        ([], "readlink, which tells where its own files are, can't be run"),
        (["readlink"], "there is no python3 on PATH"),
    ],
)
def test_a_command_that_it_needs_and_that_is_missing_is_told_in_a_line(there, words):
    write("r.json", EXAMPLE)
    os.mkdir("bin")
    for name in there:
        os.symlink(shutil.which(name), f"bin/{name}")
    done = subprocess.run([str(TOOL), "r.json"], capture_output=True, env={"PATH": os.path.abspath("bin")})
    assert (done.returncode, done.stdout, done.stderr.decode()) == (2, b"", f"goodlock-view: {words}\n")


def test_files_get_usual_permissions_and_a_link_stays_a_link():
    write("r.json", EXAMPLE)
    write("real/p.html", "old")
    os.symlink("real/p.html", "p.html")
    before = os.umask(0o027)
    try:
        assert view("r.json", "-o", "p.html")[0] == 1
    finally:
        os.umask(before)
    assert os.path.islink("p.html")
    assert "<!DOCTYPE html>" in read("real/p.html")
    assert stat.S_IMODE(os.stat("real/p.html").st_mode) == 0o640
    assert os.listdir("real") == ["p.html"]


def test_the_same_input_gives_the_same_bytes():
    write("1.json", hostile_report())
    write("2.json", report(*(pair(f"a{i}", f"b{i}", (f"T{i}", f"U{i}")) for i in range(50))))
    write("src/x.c", "line\n")
    made = []
    for seed, folder in (("1", "one"), ("2", "two")):
        os.mkdir(folder)
        names = [f"{folder}/{name}" for name in ("p.html", "s.sarif", "g.dot", "k")]
        options = zip(("-o", "--sarif", "--dot", "--write-known"), names)
        command = [str(TOOL), "1.json", "2.json", "--text", "--source", "src", *sum(options, ())]
        environment = dict(os.environ, PYTHONHASHSEED=seed, LC_ALL="C", COLUMNS=str(20 * int(seed)))
        done = subprocess.run(command, capture_output=True, env=environment)
        assert (done.returncode, done.stderr) == (1, b"")
        made.append([done.stdout] + [pathlib.Path(name).read_bytes() for name in names])
    assert made[0] == made[1]


def test_interrupted_as_it_begins(monkeypatch):
    """While its own parts are loaded: a line says so, as it does afterwards."""
    os.mkdir("modules")
    with open("modules/argparse.py", "w", encoding="utf-8") as file:
        file.write("raise KeyboardInterrupt\n")
    monkeypatch.setenv("PYTHONPATH", os.path.abspath("modules"))
    done = subprocess.run([str(TOOL), "none.json"], capture_output=True)
    assert (done.returncode, done.stdout, done.stderr) == (2, b"", b"goodlock-view: interrupted\n"), done
