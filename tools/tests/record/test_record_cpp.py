"""Wrappers of C++: the places are those of the program that uses them, and the names are the program's."""

import os
import re
import shutil
import subprocess

import pytest
from c_programs import C_FLAGS, LLVM_FLAGS, SOURCES, build, build_or_skip
from c_traces import expect, known, record
from known_traces import RECORD, compare, cycles_in, killed, read_lines

WRAPPERS = """
    main|acq(a)|@lock
    main|tryacq(b)|@try
    main|rel(b)|@unlock_b
    main|rel(a)|@unlock
    main|acq(a)|@guard
    main|acq(b)|@unique
    main|rel(b)|@unique_end
    main|rel(a)|@guard_end
    main|acq(a)|@scoped
    main|rel(a)|@scoped_end
    main|acq(again)|@again
    main|rel(again)|@again_end
    main|tryacq(timed)|@timed
    main|rel(timed)|@timed_end
    main|racq(shared)|@shared
    main|rrel(shared)|@shared_end
    main|racq(shared)|@shared_guard
    main|rrel(shared)|@shared_guard_end
    main|acq(bank::Account::guard)|@bank
    main|rel(bank::Account::guard)|@bank_end
    main|acq(a)|@lock_both
    main|tryacq(b)|@lock_both
    main|rel(a)|@both_a
    main|rel(b)|@both_b
    main|acq(a)|@scoped_both
    main|tryacq(b)|@scoped_both
    main|rel(a)|@scoped_both_end
    main|rel(b)|@scoped_both_end
    main|acq(a)|@hold
    main|fork(main.1:signaller)|@first
    main|rel(a)|@wait
    main|acq(a)|@wait
    main|rel(a)|@hold_end
    main|join(main.1:signaller)|@first_join
    main|fork(main.2:main::lambda)|@second_end
    main|join(main.2:main::lambda)|@second_join
    main|fork(main.3:user)|@third
    main|join(main.3:user)|@third_join
    main|acq(a)|@many_first
    main|acq(b)|@many_second
    main|rel(a)|@many_end
    main|rel(b)|@many_end
    main|acq(a)|@made
    main|rel(a)|@made_end
    main|racq(shared)|@perhaps
    main|rrel(shared)|@perhaps_end
    main|fork(main.4:user)|@worker
    main|join(main.4:user)|@worker_join
    main.1:signaller|acq(a)|@signaller
    main.1:signaller|rel(a)|@signaller_end
    main.2:main::lambda|acq(a)|@lambda_lock
    main.2:main::lambda|rel(a)|@lambda_unlock
    main.3:user|acq(b)|@late_lock
    main.3:user|rel(b)|@late_unlock
    main.4:user|acq(b)|@late_lock
    main.4:user|rel(b)|@late_unlock"""


@pytest.mark.parametrize(
    "program", ["O0", "O2", "static"], ids=["that_are_calls", "that_are_inlined", "that_are_linked_in"]
)
def test_wrappers(program):
    run = record("./wrappers-" + program)
    assert run.status == 0, run.said
    compare(run.lines(), known(WRAPPERS, "wrappers.cc"))


def test_wrappers_of_a_program_that_the_loader_is_given():
    """To the system the loader is the program then. The program's own file has the lines, and says what the C++ library in it is."""
    with open("wrappers-static", "rb") as file:
        loader = re.search(rb"/lib[\w/.-]*/ld-[\w.-]+", file.read())
    run = record(os.fsdecode(loader.group()), "./wrappers-static")
    assert run.status == 0, run.said
    compare(run.lines(), known(WRAPPERS, "wrappers.cc"))


def split_off(program, file, more=()):
    """Puts the symbols and lines of the program whose wrappers are calls into a file of this name."""
    for arguments in (
        ["objcopy", "--only-keep-debug", "wrappers-O0", file],
        ["objcopy", "--strip-all", *more, "wrappers-O0", program],
    ):
        subprocess.run(arguments, check=True)


@pytest.mark.parametrize("number", ["told", "untold"])
@pytest.mark.parametrize("place", [".", ".debug"])
def test_wrappers_of_a_program_that_names_its_debug_file(number, place):
    """By the number of the build, where both tell it, or else by the checksum it is that of the program. The places of the calls are
    the program's then."""
    if number == "untold":
        command = ["objcopy", "--remove-section=.note.gnu.build-id", "wrappers-O0", "untold"]
        subprocess.run(command, check=True)
        os.replace("untold", "wrappers-O0")
    split_off("split", "other.name", ["--add-gnu-debuglink=other.name"])
    os.makedirs(place, exist_ok=True)
    os.replace("other.name", os.path.join(place, "other.name"))
    run = record("./split")
    assert run.status == 0, run.said
    compare(run.lines(), known(WRAPPERS, "wrappers.cc"))


def test_wrappers_of_a_program_whose_debug_file_is_known_by_the_build():
    """It lies in the folder of all debug files, of which this test has one of its own."""
    split_off("split", "other.name")
    notes = subprocess.run(["readelf", "-n", "split"], stdout=subprocess.PIPE).stdout.decode()
    number = re.search(r"Build ID: (\w+)", notes).group(1)
    folder = "/usr/lib/debug/.build-id/" + number[:2]
    script = 'mount -t tmpfs tmpfs /usr/lib/debug && mkdir -p "$1" && cp other.name "$1/$2" && shift 2 && exec "$@"'
    words = ["unshare", "-m", "sh", "-c", script, "sh", folder, number[2:] + ".debug"]
    if subprocess.run([*words, "true"], stderr=subprocess.PIPE).returncode != 0:
        pytest.skip("no namespace of mounts can be had, or there is no folder of debug files")
    done = subprocess.run([*words, RECORD, "-o", "t.std", "./split"], stderr=subprocess.PIPE)
    assert done.returncode == 0, done.stderr.decode()
    compare(read_lines("t.std"), known(WRAPPERS, "wrappers.cc"))


@pytest.mark.skipif(not shutil.which("clang++"), reason="clang++ isn't installed")
def test_wrappers_by_clang():
    """It has other names for lambdas, and tells the first line of a call."""
    run = record("./wrappers-clang")
    assert run.status == 0, run.said
    compare(run.lines(), known(WRAPPERS.replace("@second_end", "@second"), "wrappers.cc"))


def test_wrappers_of_the_library_of_llvm():
    """It has other names for the same. Its shared and timed mutexes are of its own, and aren't seen."""
    build_or_skip("C++ library of LLVM", "clang++", LLVM_FLAGS, "wrappers.cc", "wrappers-llvm")
    run = record("./wrappers-llvm")
    assert run.status == 0, run.said
    of_its_own = re.compile(r"\((timed|shared|.*libc\+\+.*|.*std::__1::.*)\)\|")
    lines = known(WRAPPERS.replace("@second_end", "@second"), "wrappers.cc")
    compare(*([line for line in some if not of_its_own.search(line)] for some in (run.lines(), lines)))


def test_errors_of_the_loader_are_those_of_the_program():
    """What the recorder looks up, and doesn't find, is none of it."""
    build("g++", [*C_FLAGS, "-o", "opens", os.path.join(SOURCES, "opens.cc"), "-ldl"])
    run = record("./opens")
    fault = "./no-such-library.so: cannot open shared object file: No such file or directory"
    assert run.status == 0 and run.out == "nothing\n%s\n" % fault, run.out + run.said


USE_A = """
        main|acq(a)|@use_a
        main|rel(a)|@use_a_end"""


def test_routine_that_runs_once():
    expect(
        "routine",
        """
        main|acq(control)|@once_first"""
        + USE_A
        + """
        main|rel(control)|@once_first
        main|acq(a)|@once_lock
        main|acq(control)|@once_second
        main|rel(control)|@once_second
        main|rel(a)|@once_unlock""",
        "once.cc",
    )


def test_routine_that_fails_and_runs_again():
    expect(
        "throws",
        """
        main|acq(flag)|@call_first"""
        + USE_A
        + """
        main|rel(flag)|@call_first
        main|acq(flag)|@call_second"""
        + USE_A
        + """
        main|rel(flag)|@call_second""",
        "once.cc",
    )


GUARD = "guard variable for has_static::variable"


def test_static_variables_that_are_initialised():
    """The first one fails, the second one succeeds, the third needs none."""
    one = "\nmain|acq(%s)|@static" % GUARD + USE_A + "\nmain|rel(%s)|@static" % GUARD
    expect("initialises", one + one, "once.cc", options=["--all"])


def test_lock_and_static_variable_that_wait_for_each_other():
    lines = killed(RECORD, ["./once", "hangs"])
    text = """
        main|fork(main.1:other_way)|@hang_fork
        main|acq(GUARD)|@static
        main|acq(a)|@use_a
        main.1:other_way|acq(a)|@hang_lock
        main.1:other_way|acq(GUARD)|@static"""
    compare(lines, known(text.replace("GUARD", GUARD), "once.cc"))
    assert cycles_in(lines) == 1, "the cycle isn't predicted"
