"""The package: it runs from a folder and as one file, without further packages."""

import os
import pathlib
import resource
import shutil
import subprocess
import sys

import pytest
from viewing import EXAMPLE, TOOL, TOP, write


@pytest.fixture(scope="module")
def zipapp(tmp_path_factory):
    """The one file, made from a copy of the package."""
    folder = tmp_path_factory.mktemp("package") / "view"
    shutil.copytree(TOP / "tools" / "view", folder, ignore=shutil.ignore_patterns("out", "__pycache__"))
    subprocess.run(["make", "-s", f"PYTHON={sys.executable}"], cwd=folder, check=True)
    return folder / "out" / "goodlock-view"


def outputs(command):
    """Status, output and written files of a command on the example."""
    names = ("p.html", "s.sarif", "g.dot", "k")
    options = [word for pair in zip(("-o", "--sarif", "--dot", "--write-known"), names) for word in pair]
    done = subprocess.run([*command, "r.json", "--text", *options], capture_output=True)
    return done.returncode, done.stdout, done.stderr, [pathlib.Path(name).read_bytes() for name in names]


def test_the_folder_and_the_one_file_do_what_the_command_does(zipapp):
    write("r.json", EXAMPLE)
    expected = outputs([str(TOOL)])
    assert expected[0] == 1
    assert outputs([sys.executable, str(TOP / "tools" / "view")]) == expected
    assert outputs([sys.executable, str(zipapp)]) == expected


def test_the_one_file_needs_neither_the_checkout_nor_packages(zipapp):
    write("r.json", EXAMPLE)
    shutil.copy(zipapp, "alone")
    # Isolated, and without the folders in which packages are installed.
    done = subprocess.run([sys.executable, "-I", "-S", "alone", "r.json"], capture_output=True)
    assert (done.returncode, done.stderr) == (1, b"")
    assert b"finding 1: 1 cycle in 1 report\n" in done.stdout


def test_the_one_file_is_a_command(zipapp):
    write("r.json", EXAMPLE)
    assert subprocess.run([str(zipapp), "r.json"], capture_output=True).returncode == 1


def test_the_same_package_makes_the_same_file(zipapp):
    first = zipapp.read_bytes()
    zipapp.unlink()
    subprocess.run(["make", "-s", f"PYTHON={sys.executable}"], cwd=zipapp.parent.parent, check=True)
    assert zipapp.read_bytes() == first


def viewed_in_a_copy(limit):
    """Status and errors of the command on the example, in a copy of the tools, where files may become so large."""
    environment = {name: value for name, value in os.environ.items() if not name.startswith("PYTHON")}
    done = subprocess.run(
        ["tools/goodlock-view", "r.json"],
        capture_output=True,
        env=environment,
        preexec_fn=lambda: resource.setrlimit(resource.RLIMIT_FSIZE, (limit, resource.RLIM_INFINITY)),
    )
    return done.returncode, done.stderr


def kept_bytecode():
    return list(pathlib.Path("tools").glob("**/*.pyc"))


def test_a_first_use_under_a_limit_of_file_sizes_leaves_no_half_of_the_bytecode():
    """Python would keep what fits of a module, and each later use would end there."""
    write("r.json", EXAMPLE)
    for name in ("view", "record"):
        shutil.copytree(TOP / "tools" / name, f"tools/{name}", ignore=shutil.ignore_patterns("out", "__pycache__"))
    shutil.copy(TOOL, "tools")
    assert viewed_in_a_copy(1 << 13) == (1, b"")
    assert not kept_bytecode()
    assert viewed_in_a_copy(resource.RLIM_INFINITY) == (1, b"")
    assert kept_bytecode()  # as soon as there is room
    for path in kept_bytecode():
        path.unlink()
    shutil.rmtree("tools/record")
    assert viewed_in_a_copy(resource.RLIM_INFINITY) == (1, b"")
    assert not kept_bytecode()  # nobody says whether there is room
