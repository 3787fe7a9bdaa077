"""`tools/setup-tests`: what it installs, and that it never fails."""

import os
import shutil

import pytest
from installing import TOP, run


def set_up(tmp_path, apt_get, here=("sh", "dirname", "timeout")):
    """Status, output and errors where these commands alone are installed, and apt-get does this."""
    folder = tmp_path / "commands"
    folder.mkdir()
    for name in here:
        (folder / name).symlink_to(os.path.realpath(shutil.which(name)))
    (folder / "id").write_text("#!/bin/sh\necho 0\n")
    (folder / "apt-get").write_text(f'#!/bin/sh\necho "$*" >>{tmp_path}/asked\n{apt_get}\n')
    for name in ("id", "apt-get"):
        (folder / name).chmod(0o755)
    return run("/bin/sh", TOP / "tools" / "setup-tests", env={"PATH": str(folder)})


def test_what_is_missing_is_installed(tmp_path):
    status, output, errors = set_up(tmp_path, "exit 0", ("sh", "timeout", "dirname", "gcc", "make"))
    assert (status, output) == (0, "")
    update, install = (tmp_path / "asked").read_text().splitlines()
    assert update.endswith(" update")
    packages = install.split("--no-install-recommends ")[1].split()
    assert {"shellcheck", "mypy", "black"} <= set(packages)
    assert {"gcc", "make"} & set(packages) == set()
    assert errors.startswith("setup-tests: missing: ")


@pytest.mark.parametrize("apt_get", ["exit 100", 'case "$*" in *update) ;; *) exit 100 ;; esac'])
def test_without_network_it_tells_and_ends_well(tmp_path, apt_get):
    status, output, errors = set_up(tmp_path, apt_get)
    assert (status, output) == (0, "")
    assert errors.endswith("setup-tests: not all could be installed\n")


def test_the_gate_calls_it():
    lines = (TOP / ".ci" / "run").read_text().splitlines()
    assert "tools/setup-tests" in lines
    assert lines[-1] == "exec ./test"
