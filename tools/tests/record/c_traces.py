"""What the tests of goodlock-record share: the programs beside them, recorded, and their known traces."""

import os
import subprocess

from c_programs import Run, expand
from known_traces import LIMIT, RECORD, compare

PAIR = """
    main|acq(a)|@pair_lock
    main|rel(a)|@pair_unlock"""


def known(text, source="locks.c"):
    """The lines of a known trace, with this source's marks for places."""
    return expand(text, source)


def record(*command, options=(), trace="t.std", environment=None):
    return Run(list(command), options, trace, environment)


def expect(name, text, source="locks.c", status=0, options=()):
    """What this source's program does under this name leaves exactly this trace."""
    run = record("./" + os.path.splitext(source)[0], name, options=options)
    assert run.status == status, "status %d: %s" % (run.status, run.said)
    compare(run.lines(), known(text, source))
    assert run.files() == ["t.std"], "further files: %s" % run.files()
    return run


def convert(directory, trace="t.std"):
    """Makes traces of what a recording left behind."""
    return subprocess.run(
        [RECORD, "-o", trace, "--convert", directory], stdout=subprocess.PIPE, stderr=subprocess.PIPE, timeout=LIMIT
    )
