"""What is built of the C sources here: the preload libraries and the program that reads events."""

import os
import resource

SOURCES = os.path.dirname(os.path.realpath(__file__))
TOOLS = os.path.dirname(SOURCES)


BYTECODE_ROOM = 8 << 20  # for all modules together


class BuildError(Exception):
    pass


def has_bytecode_room():
    """Whether there is room for the bytecode of these modules. Python asks only whether it could write some of it: where half of a module
    fits, it keeps that half, and each later use ends there."""
    limit = resource.getrlimit(resource.RLIMIT_FSIZE)[0]
    disk = os.statvfs(TOOLS)
    is_unlimited = limit == resource.RLIM_INFINITY or limit >= BYTECODE_ROOM
    return is_unlimited and disk.f_bavail * disk.f_frsize >= BYTECODE_ROOM


# In a checkout, what is linked from it is as new as it.
ARCHIVE = os.path.join(os.path.dirname(TOOLS), "prebuilt", "libgoodlock.a")


def newest_source(name):
    newest = os.stat(os.path.join(TOOLS, "Makefile")).st_mtime
    if name == "goodlock_live" and os.path.exists(ARCHIVE):
        newest = max(newest, os.stat(ARCHIVE).st_mtime)
    for directory, _, names in os.walk(SOURCES):
        for name in names:
            if name.endswith((".c", ".h", ".map")):
                newest = max(newest, os.stat(os.path.join(directory, name)).st_mtime)
    return newest


def mark_as_built(path):
    """Where the newer source is none of its own, make leaves it as it was: each later use would ask make again."""
    try:
        os.utime(path)
    except OSError:  # it is somebody else's
        pass


def built(name):
    """The path of what is built under this name; it is built here if it is missing or older than a source."""
    path = os.path.join(TOOLS, "out", name)
    if not os.path.exists(path) or os.stat(path).st_mtime < newest_source(name):
        import subprocess

        try:
            made = subprocess.run(
                ["make", "-s", "-C", TOOLS, "out/" + name], stdout=subprocess.PIPE, stderr=subprocess.STDOUT
            )
        except OSError as error:
            raise BuildError("%s isn't built, and make can't be run: %s" % (name, error))
        if made.returncode != 0:
            raise BuildError("building %s failed:\n%s" % (name, made.stdout.decode(errors="replace")))
        mark_as_built(path)
    return path
