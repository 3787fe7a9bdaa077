"""Each test runs in a folder of its own with the programs; each program's cycle is predicted once."""

import functools
import os
import pathlib
import shutil
import tempfile

import pytest
from c_programs import C_FLAGS, SOURCES, build, put

pytest.register_assert_rewrite("confirming")

import confirming  # noqa: E402


@pytest.fixture(scope="session")
def programs(tmp_path_factory):
    folder = tmp_path_factory.mktemp("programs")
    source = os.path.join(SOURCES, "cycles.c")
    build("gcc", C_FLAGS + ["-O1", "-o", "cycles", source], folder)
    build("gcc", C_FLAGS + ["-O1", "-static", "-o", "cycles-static", source], folder)
    return folder


@pytest.fixture(scope="session")
def predict(programs, tmp_path_factory):
    """Takes a program's name, and gives the path of its report."""
    folder = tmp_path_factory.mktemp("reports")
    put(programs, folder)
    return functools.lru_cache(maxsize=None)(lambda name: confirming.predict(name, folder))


@pytest.fixture(autouse=True)
def in_a_folder_with_the_programs(programs, folder, monkeypatch):
    """And no test leaves anything."""
    put(programs, folder)
    (folder / confirming.TEMPORARY).mkdir()
    monkeypatch.setenv("TMPDIR", str(folder / confirming.TEMPORARY))
    yield
    confirming.check_that_nothing_is_left(folder)


@pytest.fixture
def open_folder(programs, monkeypatch):
    """The test runs where everybody may go, with the program, and with a folder for temporary files; the path."""
    if os.geteuid() != 0:
        pytest.skip("not root")
    path = tempfile.mkdtemp(prefix="goodlock-confirm-tests.", dir="/tmp")
    os.mkdir(os.path.join(path, confirming.TEMPORARY))
    for place in (path, os.path.join(path, confirming.TEMPORARY)):
        os.chmod(place, 0o755)
    shutil.copy(programs / "cycles", path)
    monkeypatch.chdir(path)
    monkeypatch.setenv("TMPDIR", os.path.join(path, confirming.TEMPORARY))
    yield pathlib.Path(path)
    shutil.rmtree(path)
