"""Each test runs in a folder of its own with the programs."""

import os

import pytest
from c_programs import C_FLAGS, SOURCES, build, put

pytest.register_assert_rewrite("following")


@pytest.fixture(scope="session")
def programs(tmp_path_factory):
    folder = tmp_path_factory.mktemp("programs")
    for name in ("live", "locks", "cycles", "random"):
        build("gcc", C_FLAGS + ["-O1", "-o", name, os.path.join(SOURCES, name + ".c")], folder)
    return folder


@pytest.fixture(autouse=True)
def in_a_folder_with_the_programs(programs, folder):
    put(programs, folder)
