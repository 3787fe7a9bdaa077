"""What the tests of the installation share: the program, an installed tree, and the commands in it."""

import os
import pathlib
import re
import shutil
import subprocess

TOP = pathlib.Path(__file__).resolve().parents[3]
# Their help has options in its usage, too.
RECORDERS = ("goodlock-record", "goodlock-python", "goodlock-confirm")
COMMANDS = ("goodlock", *RECORDERS, "goodlock-predict-all", "goodlock-view")
SUBCOMMANDS = ("predict", "live", "stats", "replay", "check")


def program():
    """The program that is tested, or else the one that is carried or built; nothing where there is none."""
    built = (TOP / "prebuilt" / "goodlock", TOP / "crates" / "goodlock" / "out" / "goodlock")
    for path in (os.environ.get("PROGRAM"), *built):
        if path and os.access(path, os.X_OK):
            return pathlib.Path(path).resolve()
    return None


def archive():
    """The archive of the library that is tested, or else the carried one; nothing where there is none."""
    path = pathlib.Path(os.environ.get("LIBRARY") or TOP / "prebuilt" / "libgoodlock.a").resolve()
    return path if path.is_file() else None


def has(*commands):
    return all(shutil.which(command) for command in commands)


def run(*command, **more):
    """Status, output and errors."""
    done = subprocess.run([str(word) for word in command], capture_output=True, text=True, **more)
    return done.returncode, done.stdout, done.stderr


def checkout(folder):
    """A copy of what is packed, with its times, and with the program and the archive as the carried ones."""
    shutil.copytree(
        TOP, folder, symlinks=True, ignore=shutil.ignore_patterns(".git", "crates", "out", "__pycache__", "prebuilt")
    )
    (folder / "prebuilt").mkdir()
    shutil.copy(program(), folder / "prebuilt" / "goodlock")
    if archive() is not None:
        shutil.copy(archive(), folder / "prebuilt" / "libgoodlock.a")
    digest = run("sha256sum", "goodlock", cwd=folder / "prebuilt")[1]
    (folder / "prebuilt" / "SHA256SUMS").write_text(digest)
    return folder


def long_options(text):
    """The long options that a help text lists, each at the beginning of a line's option part."""
    lines = [line for line in text.splitlines() if re.match(r"\s+-", line)]
    return {option for line in lines for option in re.findall(r"(?<![\w-])--[a-z][a-z-]*", line.split("  [")[0][:40])}
