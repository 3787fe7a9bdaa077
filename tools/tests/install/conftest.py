"""Each test runs in an empty folder of its own; one installed tree serves all."""

import os
import pathlib

import pytest

pytest.register_assert_rewrite("installing")

import installing  # noqa: E402


@pytest.fixture(autouse=True)
def in_a_folder_of_its_own(tmp_path, monkeypatch):
    monkeypatch.chdir(tmp_path)
    monkeypatch.delenv("MAKEFLAGS", raising=False)


@pytest.fixture(scope="session")
def copy(tmp_path_factory):
    if installing.program() is None:
        pytest.skip("there is no program: PROGRAM names one")
    return installing.checkout(tmp_path_factory.mktemp("install") / "goodlock-0.1.0")


@pytest.fixture(scope="session")
def prefix(copy):
    """Where `make install` put everything."""
    place = copy.parent / "prefix"
    command = ("make", "-s", "-C", copy, "install", f"PREFIX={place}", "PROGRAM=prebuilt/goodlock")
    status, output, errors = installing.run(*command)
    assert status == 0, output + errors
    return place


@pytest.fixture
def path(prefix, monkeypatch):
    """The installed commands come first on PATH."""
    monkeypatch.setenv("PATH", f"{prefix / 'bin'}:{os.environ['PATH']}")
    return pathlib.Path(prefix / "bin")
