#!/usr/bin/env python3
"""Checks how shell, C and Python are written, by Debian's tools.

    lint.py [TOOL..]

Every shell script and Python file has to be read by its language. shellcheck reads all shell scripts, clang-format lays out the
C but for programs whose lines are expected in traces (.clang-format), black and isort the Python but for such a program, and
pylint and mypy check the viewer (pyproject.toml). A tool that isn't installed is skipped by name, and so is a
black of another major version than pyproject.toml asks for, as it would lay out otherwise. The last line is `N passed, N failed`, with one for each
Python file, each shell script and each tool; with `, N skipped` behind it where tools are missing.
"""

import ast
import os
import pathlib
import re
import shutil
import subprocess
import sys

TOP = pathlib.Path(__file__).resolve().parent.parent.parent
PACKAGE = "tools/view/goodlock_view"
NOT_PYTHON = ("tools/tests/python/locks.py",)
NOT_LAID_OUT = ("tools/tests/record/", "tools/tests/recorder_cases/")


def files():
    """The repository's files: those that git knows, or all where this is no clone."""
    listed = subprocess.run(["git", "ls-files", "-co", "--exclude-standard"], cwd=TOP, capture_output=True, text=True)
    if listed.returncode == 0:
        names = listed.stdout.splitlines()
    else:
        names = [str(path.relative_to(TOP)) for path in TOP.rglob("*") if not {"out", ".git"} & set(path.parts)]
    return sorted(name for name in names if (TOP / name).is_file() and not name.startswith("crates/"))


def first_line(name):
    with open(TOP / name, "rb") as file:
        return file.readline(80)


def is_shell(name):
    return first_line(name).startswith((b"#!/bin/sh", b"#!/bin/bash", b"#!/usr/bin/env bash")) or name.endswith(
        (".bash", ".sh")
    )


def is_python(name):
    return name.endswith(".py") or (first_line(name).startswith(b"#!") and b"python3" in first_line(name))


def is_c(name):
    return name.endswith((".c", ".h", ".cc")) and not name.startswith(NOT_LAID_OUT)


def black_version():
    """The major version of black that pyproject.toml asks for."""
    return re.search(r'^required-version = "(\d+)"', (TOP / "pyproject.toml").read_text(encoding="utf-8"), re.M)[1]


def python_that_has(module, version=""):
    """A Python that has this module, where a major version is asked for in that one: this Python, or the system's."""
    asked = f"import {module}" + (f"; assert {module}.__version__.split('.')[0] == '{version}'" if version else "")
    for python in (sys.executable, "/usr/bin/python3"):
        if (
            os.access(python, os.X_OK)
            and subprocess.run([python, "-c", asked], stderr=subprocess.DEVNULL).returncode == 0
        ):
            return python
    return None


class Lint:
    """What was checked, and how many checks passed, failed and were skipped."""

    def __init__(self, tools):
        self.tools = tools
        self.passed = self.failed = self.skipped = 0

    def tell(self, name, what, complaint):
        if complaint is None:
            self.passed += 1
        else:
            self.failed += 1
            print(f"{name}: {what}: {complaint}")

    def parse(self, names):
        for name in names:
            try:
                ast.parse((TOP / name).read_bytes(), name)
                self.tell(name, "python", None)
            except (SyntaxError, ValueError) as error:
                self.tell(name, "python", error)

    def run(self, tool, command, names, version=""):
        """Runs a command on all of these names; the version is told where the tool is missing."""
        if self.tools and tool not in self.tools:
            return
        if command[0] is None:
            self.skipped += 1
            print(f"{tool}{version and ' ' + version} isn't installed, so its check of {len(names)} files is SKIPPED")
            return
        done = subprocess.run([*command, *names], cwd=TOP, stdout=subprocess.PIPE, stderr=subprocess.STDOUT, text=True)
        self.tell(f"{len(names)} files", tool, None if done.returncode == 0 else done.stdout[-8000:])


def main():
    lint = Lint(sys.argv[1:])
    names = files()
    shell, python, c = ([name for name in names if test(name)] for test in (is_shell, is_python, is_c))
    laid_out = [name for name in python if name not in NOT_PYTHON]
    if not lint.tools:
        lint.parse(python)
    for name in shell:
        lint.run("bash", ["bash", "-n"], [name])
    lint.run("shellcheck", [shutil.which("shellcheck")], shell)
    lint.run("clang-format", [shutil.which("clang-format"), "--dry-run", "--Werror"], c)
    black = black_version()
    lint.run("black", [python_that_has("black", black), "-m", "black", "--quiet", "--diff", "--check"], laid_out, black)
    lint.run("isort", [python_that_has("isort"), "-m", "isort", "--quiet", "--diff", "--check"], laid_out)
    lint.run("pylint", [python_that_has("pylint"), "-m", "pylint", "--score=n"], [PACKAGE])
    lint.run("mypy", [python_that_has("mypy"), "-B", "-m", "mypy", "--cache-dir=/dev/null"], [PACKAGE])
    print(f"{lint.passed} passed, {lint.failed} failed" + (f", {lint.skipped} skipped" if lint.skipped else ""))
    return 1 if lint.failed else 0


if __name__ == "__main__":
    sys.exit(main())
