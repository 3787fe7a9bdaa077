"""Each test runs in a folder of its own; Locks.java is compiled once in each way. Without Java, what needs its classes is skipped."""

import os

import pytest

pytest.register_assert_rewrite("java_traces")

from java_traces import SOURCES, compile_classes, missing  # noqa: E402


@pytest.fixture(autouse=True)
def in_a_folder_of_its_own(folder):
    pass


def compiled_in(place, debug):
    if missing() is not None:
        pytest.skip("%s isn't here (Debian: openjdk-17-jdk-headless, libasm-java)" % missing())
    compile_classes(os.path.join(SOURCES, "Locks.java"), place, debug)
    return place


@pytest.fixture(scope="session")
def compiled(tmp_path_factory):
    return compiled_in(tmp_path_factory.mktemp("java") / "classes", "-g")


@pytest.fixture(scope="session")
def compiled_without_lines(tmp_path_factory):
    return compiled_in(tmp_path_factory.mktemp("java") / "no-lines", "-g:none")


@pytest.fixture
def classes(compiled, folder):
    os.symlink(compiled, folder / "classes")


@pytest.fixture
def classes_without_lines(compiled_without_lines, folder):
    os.symlink(compiled_without_lines, folder / "no-lines")
