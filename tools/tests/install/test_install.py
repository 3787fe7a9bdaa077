"""`make install`: what is installed runs without the checkout, and all of it can be taken away."""

import os
import re
import shutil

import pytest
from installing import COMMANDS, RECORDERS, SUBCOMMANDS, TOP, archive, has, run

TRACE = """\
T0|acq(a)|Main.java:10
T0|acq(b)|Main.java:11
T0|rel(b)|Main.java:12
T0|rel(a)|Main.java:13
T1|acq(b)|Main.java:20
T1|acq(a)|Main.java:21
"""


def test_each_command_is_installed_and_has_help_and_this_version(path):
    version = run(path / "goodlock", "--version")[1].split()[1]
    for command in COMMANDS:
        status, output, errors = run(path / command, "--help")
        assert (status, errors) == (0, "")
        assert command in output
        assert run(path / command, "--version")[1] == f"{command} {version}\n"
    assert f"goodlock ({version}) " in (TOP / "debian" / "changelog").read_text().splitlines()[0]


def test_the_installed_commands_need_no_checkout(prefix, path, copy):
    hidden = copy.with_name("hidden")
    copy.rename(hidden)
    try:
        with open("run.std", "w") as file:
            file.write(TRACE)
        assert run("goodlock-predict-all", "run.std")[0] == 0
        status, output, errors = run("goodlock-view", "reports")
        assert (status, errors) == (1, "")
        assert "finding 1: 1 cycle in 1 report" in output
        assert run("goodlock-record", "-o", "t.std", "true")[0] == 124  # no lock and no thread: no trace
        with open("locks.py", "w") as file:
            file.write("import threading\nlock = threading.Lock()\nwith lock:\n    pass\n")
        assert run("goodlock-python", "-o", "p.std", "locks.py")[0] == 0
        with open("p.std") as file:
            assert file.read().startswith("main|acq(Lock@locks.py:2#1)|locks.py:3\n")
        assert run("goodlock-confirm", "--tries", "1", "reports/run.std.json", "--", "sh", "-c", "exit 0")[:2] == (
            0,
            "not seen in 1 try\n",
        )
    finally:
        hidden.rename(copy)


@pytest.mark.skipif(not has("g++"), reason="g++ isn't installed")
def test_the_installed_recorder_builds_nothing(prefix, path, tmp_path, monkeypatch):
    run("g++", "-g", "-pthread", TOP / "samples" / "bank.cc", "-o", "bank")
    # Without make on PATH: the library was built before it was installed, and is newer than its sources.
    tools = tmp_path / "tools"
    tools.mkdir()
    for name in ("sh", "env", "dirname", "readlink", "python3", "addr2line", "c++filt", "nm", "readelf", "objdump"):
        if shutil.which(name):
            (tools / name).symlink_to(os.path.realpath(shutil.which(name)))
    monkeypatch.setenv("PATH", str(tools))
    assert run(path / "goodlock-record", "-o", "bank.std", "./bank")[0] == 0
    assert "bank.cc:18" in (tmp_path / "bank.std").read_text()
    if archive() is not None:
        assert run(path / "goodlock-record", "--live", "-o", "bank.txt", "./bank")[0] == 0
        assert "cycles: 1\n" in (tmp_path / "bank.txt").read_text()


def test_uninstalling_leaves_no_file(copy, tmp_path):
    place = tmp_path / "place"
    for goal in ("install", "uninstall"):
        command = ("make", "-s", "-C", copy, goal, f"DESTDIR={place}", "PREFIX=/usr", "PROGRAM=prebuilt/goodlock")
        assert run(*command)[0] == 0
        files = [name for _, _, names in os.walk(place) for name in names]
        assert (files == []) == (goal == "uninstall")


def test_installing_twice_leaves_nothing_of_the_first(copy, tmp_path):
    command = ("make", "-s", "-C", copy, "install", f"PREFIX={tmp_path}", "PROGRAM=prebuilt/goodlock")
    assert run(*command)[0] == 0
    old = tmp_path / "lib" / "goodlock" / "record" / "of_an_earlier_version.py"
    old.write_text("")
    assert run(*command)[0] == 0
    assert not old.exists()


def test_installing_from_and_to_folders_whose_names_have_blanks(copy, tmp_path):
    checkout, place = tmp_path / "my own checkout", tmp_path / "my own place"
    shutil.copytree(copy, checkout, symlinks=True, ignore=shutil.ignore_patterns("out"))
    command = ("make", "-s", "-C", checkout, "install", f"DESTDIR={place}", "PREFIX=/usr", "PROGRAM=prebuilt/goodlock")
    status, _, errors = run(*command)
    assert status == 0, errors
    built = {"goodlock_record.so", "goodlock_lines"} | ({"goodlock_live"} if archive() is not None else set())
    assert built <= set(os.listdir(place / "usr" / "lib" / "goodlock" / "out"))


def test_what_is_installed_is_everybodys_to_read_and_belongs_to_who_installs_it(copy, tmp_path):
    """Whatever the masks of who installs it and of who made the checkout, and whoever has that."""
    tree, place = tmp_path / "tree", tmp_path / "place"
    shutil.copytree(copy, tree, symlinks=True)
    for path in (tree, *tree.rglob("*")):
        if not path.is_symlink():
            path.chmod(path.stat().st_mode & 0o700)
        if os.geteuid() == 0:
            os.chown(path, 65534, 65534, follow_symlinks=False)
    command = ("make", "-s", "-C", tree, "install", f"PREFIX={place}", "PROGRAM=prebuilt/goodlock")
    assert run(*command, umask=0o077)[0] == 0
    stats = {str(path): path.lstat() for path in place.rglob("*") if not path.is_symlink()}
    assert len(stats) > 80
    assert [path for path, stat in stats.items() if stat.st_mode & 0o444 != 0o444] == []
    assert [path for path, stat in stats.items() if stat.st_mode & 0o100 and stat.st_mode & 0o011 != 0o011] == []
    assert [path for path, stat in stats.items() if stat.st_uid != os.geteuid()] == []


def test_installing_without_a_program_fails(copy, tmp_path):
    status, _, errors = run("make", "-s", "-C", copy, "install", f"PREFIX={tmp_path / 'p'}", "PROGRAM=none/goodlock")
    assert status != 0
    assert "none/goodlock" in errors
    assert not (tmp_path / "p" / "bin").exists()


# --- Man pages ----------------------------------------------------------------------------------------

needs_help2man = pytest.mark.skipif(not has("help2man"), reason="help2man isn't installed")


@needs_help2man
def test_each_command_has_a_page_with_all_its_options(prefix, path):
    from installing import long_options

    words = [[command] for command in COMMANDS] + [["goodlock", command] for command in SUBCOMMANDS]
    pages = {page.name for page in (prefix / "share/man/man1").iterdir()}
    assert pages == {"-".join(command) + ".1" for command in words}
    for command in words:
        page = (prefix / "share/man/man1" / ("-".join(command) + ".1")).read_text()
        assert f".SH NAME\n{'-'.join(command)} \\- " in page
        shown = page.replace("\\", "")
        for option in long_options(run(path / command[0], *command[1:], "--help")[1]):
            assert option in shown


@needs_help2man
@pytest.mark.parametrize("name", RECORDERS)
def test_a_recorders_page_has_a_line_for_each_usage_and_each_option(prefix, path, name):
    page = (prefix / "share/man/man1" / f"{name}.1").read_text()
    text = run(path / name, "--help")[1]
    usages, options = (re.findall(begins, text, re.M) for begins in (rf"^    {name} ", r"^(-.*?)  "))
    synopsis = page.split(".SH SYNOPSIS\n")[1].split(".SH ")[0]
    assert synopsis.count(f".B {name}\n") == len(usages) >= 1
    heads = re.findall(r"^\.TP\n(.*)$", page, re.M)
    assert [re.sub(r"\\f.|\\", "", head) for head in heads] == options


@needs_help2man
@pytest.mark.skipif(not has("man"), reason="man isn't installed (Debian: man-db)")
def test_man_shows_the_pages_without_a_warning(prefix):
    for page in sorted((prefix / "share/man/man1").iterdir()):
        status, output, errors = run(
            "man", "--warnings", "-l", page, env=dict(os.environ, MANWIDTH="80", LC_ALL="C.UTF-8")
        )
        assert (status, errors) == (0, "")
        assert "NAME" in output


# --- The library for C ---------------------------------------------------------------------------------


needs_library = pytest.mark.skipif(archive() is None, reason="there is no archive: LIBRARY names one")


@needs_library
@pytest.mark.skipif(not has("gcc", "g++", "pkg-config"), reason="gcc, g++ or pkg-config isn't installed")
@pytest.mark.parametrize(
    "source, compiler, held",
    [
        ("bank.c", "gcc", "T1 holds current"),
        ("bank.cc", "g++", "T1 holds current"),
        ("bank.c", "gcc -DGOODLOCK_DEBUG", "T1 holds current"),
        ("named.c", "gcc", "T0 holds shelf"),
    ],
)
def test_a_program_is_built_by_pkg_config(prefix, source, compiler, held, monkeypatch):
    monkeypatch.setenv("PKG_CONFIG_PATH", str(prefix / "lib" / "pkgconfig"))
    shutil.copy(prefix / "share/doc/goodlock/examples" / source, source)
    flags = run("pkg-config", "--cflags", "--libs", "goodlock")[1].split()
    assert f"-I{prefix}/include" in flags
    assert run(*compiler.split(), source, *flags, "-lpthread", "-o", "shared")[0] == 0
    static = run("pkg-config", "--static", "--libs", "goodlock")[1].replace("-lgoodlock", "-l:libgoodlock.a").split()
    assert run(*compiler.split(), source, f"-I{prefix}/include", *static, "-o", "static")[0] == 0
    by_shared = run("./shared", env={**os.environ, "LD_LIBRARY_PATH": str(prefix / "lib")})
    assert by_shared == run("./static")
    assert by_shared[0] == 0
    assert by_shared[1].startswith(f"cycle 1: 2 edges\n  {held} since ")


@needs_library
def test_the_library_and_the_program_may_have_blanks_in_their_paths(copy, tmp_path):
    """The checkout has no other library, which would be built into the reader for --live."""
    checkout, place, folder = tmp_path / "checkout", tmp_path / "place", tmp_path / "my own"
    shutil.copytree(copy, checkout, symlinks=True, ignore=shutil.ignore_patterns("out", "libgoodlock.a"))
    folder.mkdir()
    library = shutil.copy(archive(), folder / "a library.a")
    program = shutil.copy(copy / "prebuilt" / "goodlock", folder / "a program")
    command = ("make", "-s", "-C", checkout, "install", f"PREFIX={place}")
    status, _, errors = run(*command, f"PROGRAM={program}", f"LIBRARY={library}")
    assert status == 0, errors
    assert (place / "lib" / "libgoodlock.a").read_bytes() == archive().read_bytes()
    assert (place / "bin" / "goodlock").read_bytes() == program.read_bytes()
    for name in ("lib/libgoodlock.so.0", "lib/goodlock/out/goodlock_live", "include/goodlock.h"):
        assert (place / name).exists()


@needs_library
@pytest.mark.skipif(not has("pkg-config"), reason="pkg-config isn't installed")
def test_the_library_is_found_where_it_was_moved(prefix, tmp_path, monkeypatch):
    """The header and the library that belong together: not the one here and the other where it was."""
    moved = tmp_path / "moved"
    shutil.copytree(prefix / "lib" / "pkgconfig", moved / "lib" / "pkgconfig")
    monkeypatch.setenv("PKG_CONFIG_PATH", str(moved / "lib" / "pkgconfig"))
    flags = run("pkg-config", "--define-prefix", "--cflags", "--libs", "goodlock")[1].split()
    assert flags == [f"-I{moved}/include", f"-L{moved}/lib", "-lgoodlock"]


@needs_library
@pytest.mark.skipif(not has("nm"), reason="nm isn't installed")
def test_the_shared_library_shows_its_calls_alone(prefix):
    shown = run("nm", "-D", "--defined-only", prefix / "lib" / "libgoodlock.so.0")[1].split("\n")
    names = [line.split()[-1] for line in shown if line]
    assert "goodlock_record" in names
    assert [name for name in names if not name.startswith("goodlock_")] == []


# --- The Debian package -------------------------------------------------------------------------------


@pytest.mark.skipif(
    not has("dpkg-buildpackage", "dh", "help2man"), reason="debhelper, dpkg-dev or help2man isn't installed"
)
def test_the_debian_package_has_all_and_its_recorder_builds_nothing(copy, tmp_path):
    source = tmp_path / "source"
    shutil.copytree(copy, source, symlinks=True, ignore=shutil.ignore_patterns("out"))
    status, output, errors = run("dpkg-buildpackage", "-us", "-uc", "-b", "-d", cwd=source)
    assert status == 0, output[-2000:] + errors[-2000:]
    (package,) = tmp_path.glob("goodlock_*_amd64.deb")
    root = tmp_path / "root"
    assert run("dpkg-deb", "-x", package, root)[0] == 0
    for command in COMMANDS:
        assert os.access(root / "usr/bin" / command, os.X_OK)
        assert (root / "usr/share/man/man1" / f"{command}.1.gz").exists()
        assert (root / "usr/share/bash-completion/completions" / command).exists()
    assert (root / "usr/share/zsh/vendor-completions/_goodlock").exists()
    assert (root / "usr/bin/goodlock-view").read_bytes().startswith(b"#!/usr/bin/python3\n")
    library = root / "usr/lib/goodlock/out/goodlock_record.so"
    sources = [path for path in (root / "usr/lib/goodlock/record").rglob("*") if path.suffix in (".c", ".h")]
    assert library.stat().st_mtime >= max(path.stat().st_mtime for path in sources)
    if has("lintian"):
        (changes,) = tmp_path.glob("goodlock_*_amd64.changes")
        status, output, errors = run("lintian", "--fail-on", "error,warning", changes)
        assert status == 0, output + errors


def test_a_carried_program_of_another_sum_is_not_packed(copy, tmp_path):
    if not has("make", "dh"):
        pytest.skip("debhelper isn't installed")
    source = tmp_path / "source"
    shutil.copytree(copy, source, symlinks=True, ignore=shutil.ignore_patterns("out"))
    with open(source / "prebuilt" / "goodlock", "ab") as file:
        file.write(b"\n")
    status, output, _ = run("debian/rules", "override_dh_auto_build", cwd=source)
    assert status != 0
    assert "goodlock: FAILED" in output
