#!/usr/bin/env python3
"""Proves the C library's exports and builds their archive, crates/gl_c/out/libgl_c.a.

    library.py            over libraries as ./goodlock builds them; those that aren't there are proved and built first
    library.py --proved   over the libraries as `rt ci` has just left them, proved in this run or an earlier one, which no
                          other command takes; where rt ci put back those of earlier checks, over what these kept

Beside the archive stands libgl_c.sources, the sum of the sources that it was built from. The last line is `N passed, N
failed`. Status: 0 built, 1 not built, 2 the words were wrong, 3 the toolchain at hand can't be used so.
"""

import os
import pathlib
import subprocess
import sys

import toolchain

NAME = "gl_c"
ARCHIVE = f"lib{NAME}.a"
PROVE = os.path.join(toolchain.TOP, "tools/gate/prove.py")


def sources():
    """The sum over all that the library is built from."""
    words = [os.path.join(toolchain.TOP, "tools/gate/sources"), "--of", NAME]
    return subprocess.run(words, stdout=subprocess.PIPE, text=True, check=True).stdout.strip()


def build_proved():
    """Builds the archive over the libraries that rt ci left; its status."""
    library = toolchain.load()
    crate = toolchain.crates(library, [NAME])[-1]
    if any(os.path.isfile(f"{below.folder}/out/rlib/stamp") for below in crate.below()):
        return build_kept()
    missing = [below.name for below in crate.below() if not os.path.isdir(below.rlib)]
    if missing:
        raise SystemExit(f"rt ci left no library {', '.join(missing)}")
    words = crate.words(["--jobs", str(toolchain.processors())], keeps=False)
    os.makedirs(os.path.join(crate.folder, "out"), exist_ok=True)
    made = ["--toolchain", f"{library.KIT}/toolchain", "-o", f"out/{ARCHIVE}"]
    return crate.call(library.RATTLE, "build", *words, *made)


def build_kept():
    """Builds it with `rt lib`, once the libraries below are proved over what was kept; the status."""
    status = subprocess.run([PROVE, "--kept", NAME]).returncode
    return status or subprocess.run(["rt", "lib"], cwd=os.path.join(toolchain.TOP, "crates", NAME)).returncode


def main(words):
    if words not in ([], ["--proved"]):
        print(__doc__, file=sys.stderr)
        return 2
    try:
        of = sources()
        status = build_proved() if words else subprocess.run([PROVE, NAME]).returncode
    except toolchain.NoToolchain as error:
        print(f"{error}", file=sys.stderr)
        return 3
    out = pathlib.Path(toolchain.TOP, "crates", NAME, "out")
    if status == 0:
        (out / f"lib{NAME}.sources").write_text(f"{of}\n")
    print("0 passed, 1 failed" if status else "1 passed, 0 failed")
    return 1 if status else 0


if __name__ == "__main__":
    sys.exit(main(sys.argv[1:]))
