"""Looks at threads that run on: each sees what was there at one moment."""

import os
import signal
import sys
import time

from c_programs import raw_directories, raw_directory
from following import Live, lines_of, read_report
from known_traces import LIMIT, TOOLS, wait_for

sys.path.insert(0, os.path.join(TOOLS, "record"))

MANY = 20  # locks of a round, besides the gate
ROUND = 2 * (MANY + 1)


def words_of_threads(recording):
    """The words of each thread of the program but the first, as a copy has them: (kind, lock)."""
    from live import copy_events  # as a module of the recorder

    for copied in copy_events(recording).values():
        for thread, _, path, offset, count in copied.chunks:
            with open(path, "rb") as file:
                data = os.pread(file.fileno(), 8 * count, offset)
            words = [int.from_bytes(data[at : at + 8], sys.byteorder) for at in range(0, len(data), 8)]
            if thread > 0:
                yield [(word & 31, word >> 32) for word in words if word]


def check_rounds(words):
    """Two rounds with other locks, which are news: acquire the gate and many, release these and the gate. Then a part of either: in
    a copy that isn't of one moment it would be of both."""
    rounds = words[:ROUND], words[ROUND : 2 * ROUND]
    for found in rounds:
        locks = [lock for _, lock in found[: MANY + 1]]
        whole = [(1, lock) for lock in locks] + [(2, lock) for lock in locks[1:] + locks[:1]]
        assert len(set(locks)) == len(locks) and found == whole[: len(found)], "not a round: %s" % words
    rest = words[2 * ROUND :]
    assert rest in [found[: len(rest)] for found in rounds], "not a part of a round: %s" % words


def test_copies_are_of_one_moment():
    """Threads leave out whole rounds while they are looked at: each copy is a list that was there once."""
    from recording import Recording

    live = Live("./live", "gates", "2000000000")
    wait_for(lambda: raw_directories() and os.path.exists(raw_directory("r.json") + "/recording"), "a recording")
    recording = Recording(os.path.realpath(raw_directory("r.json")))
    looks = partial = 0
    limit = time.monotonic() + LIMIT
    while looks < (400 if time.monotonic() < limit else 100):
        assert live.process.poll() is None, "the program ended"
        for words in words_of_threads(recording):
            looks += 1
            check_rounds(words)
            partial += len(words) % ROUND != 0
    assert partial > 0, "%d lists, none of them within a round" % looks
    live.end(signal.SIGTERM)


def test_no_cycle_comes_of_a_look():
    """Opposite orders below a gate, at full speed: no report so far has a cycle."""
    live = Live("./live", "gates_until_told", options=["--every", "0.1"]).is_ready()
    wait_for(lambda: len(lines_of()) >= 15, "lines")
    live.end(status=0)
    assert not any(line["cycles"] for line in lines_of()), "%d lines" % len(lines_of())
    assert read_report()["cycles"] == [] and len(read_report()["edges"]) == 2 * 2 * 21 * 20 // 2, "edges"


def test_repeats_take_no_room():
    """Eight million events, and the recording is as large as at the start."""
    live = Live("./live", "repeats", "1000000").is_ready()
    directory = raw_directory("r.json")
    size = sum(os.path.getsize(os.path.join(directory, name)) for name in os.listdir(directory))
    assert size < 300000, "%d bytes" % size
    live.end(signal.SIGTERM)
    assert "(and 7999992 of repeats" in live.said, live.said
