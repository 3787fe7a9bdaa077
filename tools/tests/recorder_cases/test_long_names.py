"""Names that are longer than a line of a trace may be."""

from c_programs import Run
from known_traces import cycles_in

LINE = 65536  # bytes: a longer one is refused


def test_names_that_a_line_has_no_room_for():
    """Each is cut, and differs from others that begin alike. The lines are read, and the locks are two."""
    run = Run(["./long"])
    assert run.status == 0, run.said
    lines = run.lines()
    assert max(len(line.encode()) for line in lines) <= LINE, [len(line) for line in lines]
    locks = [line.split("|")[1][len("acq(") : -1] for line in lines if "|acq(" in line]
    assert len(locks) == 4 and locks[0] == locks[3] and locks[1] == locks[2] and locks[0] != locks[1], locks
    assert all(lock.startswith("Holder<Pair<Pair<Pair<") for lock in locks), locks
    assert lines[0].startswith("main|fork(main.1:begins<Pair<Pair<Pair<"), lines[0]
    assert cycles_in(lines) == 1


def test_report_of_a_running_program_has_them_too():
    trace, report = Run(["./long"]), Run(["./long"], ["--live"], "r.txt")
    assert report.status == 0, report.said
    lock = next(line.split("|")[1] for line in trace.lines() if "|acq(" in line)
    assert " wants %s at long.cc:" % lock[len("acq(") : -1] in "\n".join(report.lines())
