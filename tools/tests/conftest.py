"""What the tests of the recorders share: an empty folder for each, which goes with it."""

import os
import shutil
import signal

import pytest

pytest.register_assert_rewrite("known_traces", "c_programs")

from known_traces import processes_in  # noqa: E402


@pytest.fixture(scope="session")
def interruptible():
    """Where the tests run in the background this signal may be ignored, and programs inherit that."""
    before = signal.signal(signal.SIGINT, signal.default_int_handler)
    yield
    signal.signal(signal.SIGINT, before)


@pytest.fixture
def folder(interruptible, tmp_path, monkeypatch):
    """The test runs in this folder. What a test that fails leaves running there is ended."""
    monkeypatch.chdir(tmp_path)
    yield tmp_path
    for process in processes_in(tmp_path):
        os.kill(process, signal.SIGKILL)
    shutil.rmtree(tmp_path)
