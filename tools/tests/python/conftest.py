"""Each test runs in a folder of its own."""

import pytest

pytest.register_assert_rewrite("python_traces")


@pytest.fixture(autouse=True)
def in_a_folder_of_its_own(folder):
    pass
