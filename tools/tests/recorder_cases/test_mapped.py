"""Memory with locks in it that is replaced without being given back: what comes there are other locks."""

from c_programs import Run, expand
from known_traces import compare


def locks(program, count):
    """A use of a lock that was used before is left out: so there are as many as there are locks."""
    run = Run(["./mapped", program])
    assert run.status == 0, run.said
    names = [f"mutex@@use#{number}" for number in range(1, count + 1)]
    known = [f"main|{what}" for name in names for what in (f"acq({name})|@use", f"rel({name})|@use_end")]
    compare(run.lines(), expand("\n".join(known), "mapped.c"))


def test_mapped_over():
    locks("over", 3)


def test_moved_onto_another():
    locks("moved", 4)


def test_made_smaller():
    locks("smaller", 3)


def test_segment_in_the_place_of_another():
    locks("attached", 2)
