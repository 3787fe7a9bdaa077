#!/usr/bin/env python3
"""What is quick to see of a change, over what earlier checks kept: the loop between a check and the gate.

    near.py [REV]      (what differs from REV: origin/main where there is such a branch, else HEAD)

In this order: the layout of each changed crate; the proof of the changed crates and of all that stand on them, with
their tests; the must-fail edits of the changed ones. What isn't committed counts, and new files too. The lines before
the last say what was left out; the last line is `N passed, N failed`.
"""

import pathlib
import subprocess
import sys
import tempfile

import prove
import toolchain

REFUSED = ": refused, as it must be"  # how rt must-fail tells of an edit


def git(*words):
    done = subprocess.run(["git", "-C", toolchain.TOP, *words], stdout=subprocess.PIPE, text=True)
    return done.stdout.splitlines() if done.returncode == 0 else None


def changed_files(revision):
    """The files that differ from a revision, those that git doesn't know yet among them."""
    differing = git("diff", "--name-only", revision, "--")
    if differing is None:
        raise SystemExit(f"git knows no revision {revision}")
    return differing + git("ls-files", "--others", "--exclude-standard")


def default_revision():
    return "origin/main" if git("rev-parse", "--verify", "--quiet", "origin/main") else "HEAD"


def changed_crates(crates, files):
    """The crates of which a file changed; all of them, where what names them changed."""
    if "crates.txt" in files:
        return list(crates)
    names = {file.split("/")[1] for file in files if file.startswith("crates/")}
    return [crate for crate in crates if crate.name in names]


def is_laid_out(library, crate):
    return library.fmt(crate.folder, "--check", sys.stdout) == 0


def prove_whole(library, crate, jobs):
    """Proves a crate over what was kept, and its tests where it has any; whether it is proved, and what was said."""
    well, said = prove.build_kept(library, crate, jobs) if crate.makes_rlib() else (True, "")
    with tempfile.TemporaryFile("w+", errors="replace") as crate.out:
        for flags in [[]] * (not crate.makes_rlib()) + [["--test"]] * crate.has_tests():
            well = well and crate.check([*flags, "--jobs", str(jobs)]) == 0
        crate.out.seek(0)
        return well, said + crate.out.read()


def edits_of(crates):
    """The files of the crates' edits."""
    return [edit for crate in crates for edit in pathlib.Path(crate.folder, "must-fail").glob("*.edit")]


def try_edits(crates):
    """Tries the edits of proved crates over what their checks kept; how many are refused, and how many not."""
    refused, wanted = 0, len(edits_of(crates))
    if not crates:
        return 0, 0
    words = ["rt", "must-fail", *(crate.name for crate in crates)]
    with subprocess.Popen(words, cwd=toolchain.TOP, stdout=subprocess.PIPE, text=True, errors="replace") as process:
        for line in process.stdout:
            print(line, end="", flush=True)
            refused += line.startswith("rt: must-fail ") and REFUSED in line
    return refused, max(wanted - refused, process.returncode != 0)


def main(words):
    revision = words[0] if words else default_revision()
    library = toolchain.load()
    crates = toolchain.crates(library)
    changed = changed_crates(crates, changed_files(revision))
    above = [crate for crate in crates if crate not in changed and any(below in changed for below in crate.below())]
    print(f"changed since {revision}: {' '.join(crate.name for crate in changed) or 'no crate'}", flush=True)
    passed, failed = 1, 0  # what changed is known, be it nothing
    for crate in changed:
        failed += not is_laid_out(library, crate)
    wanted = [crate for crate in crates if crate in changed or crate in above]
    below = [crate for crate in crates if any(crate in one.below() for one in wanted) and crate not in wanted]
    library.lock([*below, *wanted])
    proved = []

    def told(crate, jobs, well, said, seconds):
        prove.tell(crate, jobs, well, said, seconds)
        proved.extend([crate] * well)

    work = lambda crate, jobs: prove_whole(library, crate, jobs)
    prove.in_order([*below, *wanted], toolchain.processors(), work, told)
    passed += len(proved)
    failed += len(below) + len(wanted) - len(proved)
    refused, accepted = try_edits([crate for crate in changed if crate in proved])
    passed, failed = passed + refused, failed + accepted
    others, edits = len(crates) - len(wanted) - len(below), len(edits_of(crates)) - len(edits_of(changed))
    print(f"left out: the proof of {others} crates that stand on nothing changed, {edits} edits of other crates,")
    print("a proof from nothing, each program as two compilers build it, the tests in crates as they run")
    print(f"{passed} passed, {failed} failed")
    return 1 if failed else 0


if __name__ == "__main__":
    sys.exit(main(sys.argv[1:]))
