"""Where the trace has no room."""

import os
import resource
import subprocess

from c_programs import RECORD, REFUSED, Run


def test_trace_beyond_the_limit_of_file_sizes():
    """It says so, and what was recorded can be converted without the limit."""
    whole = Run(["./crowd", "900"], trace="whole.std").lines()
    done = subprocess.run(
        [RECORD, "-o", "t.std", "./crowd", "900"],
        stdout=subprocess.PIPE,
        stderr=subprocess.PIPE,
        preexec_fn=lambda: resource.setrlimit(resource.RLIMIT_FSIZE, (65536, 65536)),
    )
    said = done.stderr.decode()
    assert done.returncode == REFUSED and "File too large (what was recorded is kept in " in said, said
    (kept,) = [name for name in os.listdir(".") if name.startswith("t.std")]
    assert kept.startswith("t.std.raw."), kept
    done = subprocess.run([RECORD, "-o", "later.std", "--convert", kept], stderr=subprocess.PIPE)
    assert done.returncode == 0, done.stderr.decode()
    with open("later.std") as file:
        assert file.read().splitlines() == whole
