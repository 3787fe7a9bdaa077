"""Names of threads by what they run, in whichever way it was given to them."""

import re

from c_programs import LLVM_FLAGS, Run, build_or_skip

ROUTINES = (
    "counts",
    "Worker::works",
    "counts",
    "counts",
    "main::lambda",
    "main::lambda",
    "main::lambda",
    "",  # a function that std::async was given
    "",  # an object
    "",  # a reference to one
)


def names_of_threads(program):
    run = Run([program])
    assert run.status == 0, run.said
    found = [re.fullmatch(r"main\|fork\(main\.(\d+):?(.*)\)\|.*", line) for line in run.lines()]
    return {int(match.group(1)): match.group(2) for match in found if match}


def test_names_of_what_threads_run():
    """Where it is no function that is known there is none: what lies behind the object that a thread runs isn't taken for it."""
    names = names_of_threads("./routines")
    assert names == dict(enumerate(ROUTINES, 1)), names


def test_names_of_what_threads_of_llvm_run():
    """Its C++ library has objects of other shapes, and of a std::function they tell none."""
    build_or_skip("C++ library of LLVM", "clang++", LLVM_FLAGS, "routines.cc", "routines-llvm")
    names = names_of_threads("./routines-llvm")
    assert names == dict(enumerate([*ROUTINES[:3], "", "", *ROUTINES[5:]], 1)), names
