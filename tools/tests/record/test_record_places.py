"""What stands for the place of a call: its line and its callers', or its address."""

import os
import re
import signal
import subprocess
import sys

import pytest
from c_programs import Run
from c_traces import PAIR, known, record
from known_traces import TOOLS, compare

sys.path.insert(0, os.path.join(TOOLS, "record"))
import symbols  # noqa: E402


def test_more_callers():
    run = record("./locks", "frames", options=["--frames", "3"])
    assert run.status == 0, run.said
    compare(
        run.lines(),
        known(
            """
        main|acq(a)|@frames_lock<@frames_1<@frames_outer_1
        main|rel(a)|@frames_unlock<@frames_outer_1<@frames_main
        main|acq(a)|@frames_lock<@frames_2<@frames_outer_2
        main|rel(a)|@frames_unlock<@frames_outer_2<@frames_main"""
        ),
    )


def test_one_caller_unless_asked_for_more():
    """The second way to the same calls is then a repeat."""
    compare(
        record("./locks", "frames").lines(),
        known(
            """
        main|acq(a)|@frames_lock
        main|rel(a)|@frames_unlock"""
        ),
    )


def test_callers_of_frames_without_a_fixed_size():
    run = record("./locks", "frames_vary", options=["--frames", "3"])
    assert run.status == 0, run.said
    text = """
        main|acq(a)|@frames_lock<@varies<@vary_%s
        main|rel(a)|@varies_unlock<@vary_%s<@frames_main"""
    compare(run.lines(), known("".join(text % (way, way) for way in ("one", "two"))))


def test_without_debug_information():
    """The place is that of the call: an address inside of the call instruction that addr2line would find."""
    run = record("./locks-without-lines", "aborts")
    assert run.status == 128 + signal.SIGABRT, run.said
    lines = run.lines()
    assert len(lines) == 2, str(lines)
    places = [re.fullmatch(r"main\|(acq|rel)\(a\)\|locks-without-lines\+0x([0-9a-f]+)", line) for line in lines]
    assert all(places), str(lines)
    command = ["objdump", "-d", "--no-show-raw-insn", "locks-without-lines"]
    code = subprocess.run(command, stdout=subprocess.PIPE).stdout.decode()
    calls = re.findall(r"call .*<pthread_mutex_(?:un)?lock@plt>\n\s*([0-9a-f]+):", code)
    ends = [int(address, 16) for address in calls]
    assert len(ends) > 10, "objdump shows no calls"
    for place in places:
        assert int(place.group(2), 16) + 1 in ends, "%s is no place of a call" % place.group(2)


def test_files_whose_names_are_no_text():
    """The program's, and those of the recording and the trace: lines are found, and nothing is lost."""
    folder, program = os.fsdecode(b"caf\xe9"), os.fsdecode(b"./locks \xff")
    os.link("locks", program)
    os.mkdir(folder)
    traced = Run([program, "leaves_at_once"], trace=os.path.join(folder, "t.std"))
    assert traced.status == 5, traced.said
    compare(traced.lines(), known(PAIR))
    live = Run([program, "leaves_at_once"], ["--live"], trace=os.path.join(folder, "r.txt"))
    assert live.status == 5, live.said
    assert live.lines() == ["cycles: 0"], live.said


def split_off(program, file):
    """Puts the symbols and lines of a program like `locks` into a file of this name, which the program then names. The number of its
    build, by which such a file is looked for, too, is taken away."""
    for arguments in (
        ["objcopy", "--remove-section=.note.gnu.build-id", "locks", program],
        ["objcopy", "--only-keep-debug", program, file],
        ["objcopy", "--strip-all", "--add-gnu-debuglink=" + file, program],
    ):
        subprocess.run(arguments, check=True)


@pytest.mark.parametrize("place", [".", ".debug"])
def test_debug_file_that_the_program_names(place):
    """Locks have their names, and places their lines."""
    split_off("split", "other.name")
    os.makedirs(place, exist_ok=True)
    os.replace("other.name", os.path.join(place, "other.name"))
    run = record("./split", "leaves_at_once")
    assert run.status == 5, run.said
    compare(run.lines(), known(PAIR))


def test_debug_file_of_another_build():
    """It has the right name, and another checksum."""
    split_off("split", "other.name")
    with open("other.name", "ab") as file:
        file.write(b"more")
    run = record("./split", "leaves_at_once")
    assert run.status == 5, run.said
    shape = r"main\|(acq|rel)\(split\+0x[0-9a-f]+\)\|split\+0x[0-9a-f]+"
    assert len(run.lines()) == 2 and all(re.fullmatch(shape, line) for line in run.lines()), run.lines()


def test_debug_file_below_the_folder_of_all(monkeypatch, tmp_path):
    """It lies there in a folder of the same path as the program's."""
    split_off("split", "other.name")
    everywhere = tmp_path / "everywhere"
    os.makedirs(f"{everywhere}{tmp_path}")
    os.replace("other.name", f"{everywhere}{tmp_path}/other.name")
    monkeypatch.setattr(symbols, "DEBUG_FILES", str(everywhere))
    listed = subprocess.run(["nm", "locks"], stdout=subprocess.PIPE, text=True, check=True).stdout
    place = int(re.search(r"^([0-9a-f]+) b a$", listed, re.M).group(1), 16)
    found = symbols.Module(str(tmp_path / "split")).symbol_at(place)
    assert found and found.name == "a", found
