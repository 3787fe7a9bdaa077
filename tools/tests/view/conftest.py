"""Each test runs in an empty folder of its own."""

import pytest

pytest.register_assert_rewrite("viewing")


@pytest.fixture(autouse=True)
def in_a_folder_of_its_own(tmp_path, monkeypatch):
    monkeypatch.chdir(tmp_path)
