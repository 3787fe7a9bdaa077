"""Each test runs in a folder of its own with the programs."""

import os

import pytest
from c_programs import C_FLAGS, SOURCES, build, put


@pytest.fixture(scope="session")
def programs(tmp_path_factory):
    folder = tmp_path_factory.mktemp("programs")
    for name in ("statics", "callers", "functions", "names", "operators", "routines", "long"):
        source = os.path.join(SOURCES, name + ".cc")
        build("g++", C_FLAGS + ["-std=c++17", "-O0", "-o", name, source], folder)
    source = os.path.join(SOURCES, "functions.cc")
    build("g++", C_FLAGS + ["-std=c++17", "-O0", "-g0", "-o", "functions-without-lines", source], folder)
    for name in ("crowd", "chain", "mapped", "varying", "twins", "reloads"):
        build("gcc", C_FLAGS + ["-O1", "-o", name, os.path.join(SOURCES, name + ".c"), "-ldl"], folder)
    return folder


@pytest.fixture(autouse=True)
def in_a_folder_with_the_programs(programs, folder):
    put(programs, folder)
