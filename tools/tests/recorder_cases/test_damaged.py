"""Recordings whose files were damaged: that is said, and they are kept."""

import os
import struct
import subprocess
import sys

import pytest
from c_programs import RECORD
from known_traces import TOOLS

sys.path.insert(0, os.path.join(TOOLS, "record"))
from convert import (  # noqa: E402
    CHUNK_EVENTS,
    CHUNK_HEAD,
    CHUNK_TABLE,
    END_EXIT,
    END_UNKNOWN,
    RECORD_END,
    RECORD_THREAD,
)
from recording import MARK, MARK_BYTES, MARK_TEXT  # noqa: E402

UNIT = 4096
NOTHING = bytes(UNIT)
ORDER_AT = 8  # in a chunk's head
EVENTS = (1 | 5 << 32, 2 | 5 << 32)  # a lock is acquired and released


def chunk(magic, thread, order, *words):
    data = struct.pack("=IIIIQQ", magic, thread, order, UNIT, len(words), 0) + struct.pack("=%dQ" % len(words), *words)
    assert CHUNK_HEAD == 32 and len(data) < UNIT
    return data.ljust(UNIT, b"\0")


def table(threads, end=END_UNKNOWN):
    """The tables of a process that ended so, with these threads: number, parent, how many chunks it counted."""
    command = b"program\0"
    words = [1 | 11 << 32, 1, 77, 0, 0, 0, 1, 1, 1, 0, *struct.unpack("=Q", command), RECORD_END | 2 << 32, end]
    for thread, parent, chunks in threads:
        words += [RECORD_THREAD | 20 << 32, thread, parent, thread, 0, 0, chunks, 0, 0, 0, 0, 0, *[0] * 8]
    return chunk(CHUNK_TABLE, 0, 0, *words)


def converted(chunks, *options, others=(), name="77.0.0"):
    """Makes a recording with a file of these chunks, and perhaps others, and converts it."""
    os.mkdir("t.raw", 0o700)
    files = [(MARK, MARK_TEXT + bytes(MARK_BYTES - len(MARK_TEXT))), (name, b"".join(chunks)), *others]
    for path, data in files:
        with open("t.raw/" + path, "wb") as file:
            file.write(data)
    command = [RECORD, *options, "-o", "t.std", "--convert", "t.raw"]
    done = subprocess.run(command, stdout=subprocess.PIPE, stderr=subprocess.PIPE)
    return done.returncode, done.stderr.decode()


def is_refused(status, said, words=""):
    assert "the files of process 77 are damaged" + words in said, said
    assert "is kept" in said and "internal error" not in said and "what was recorded is damaged" in said, said
    assert status == 124 and os.path.exists("t.raw") and not os.path.exists("t.std"), said


# --- Births -------------------------------------------------------------------------------------------


def born(threads):
    """A process with these pairs of a thread and its parent, each of which took a lock."""
    return converted(
        [table([(*pair, 1) for pair in threads])] + [chunk(CHUNK_EVENTS, thread, 0, *EVENTS) for thread, _ in threads]
    )


def test_births_that_can_be():
    """Also where a thread has a smaller number than the one that made it."""
    status, said = born([(0, 0), (2, 3), (3, 0)])
    assert status == 0 and "6 events" in said and not os.path.exists("t.raw"), said
    with open("t.std") as file:
        threads = [line.split("|")[0] for line in file]
    assert threads == ["main", "main", "main.3", "main.3", "main.3.2", "main.3.2"], str(threads)


@pytest.mark.parametrize("threads", ([(0, 0), (1, 9)], [(0, 0), (1, 1)], [(0, 0), (1, 2), (2, 1)]))
def test_births_that_cannot_be(threads):
    is_refused(*born(threads))


# --- Chunks that are missing --------------------------------------------------------------------------

# Of the file's chunks: the tables, those of main, of its thread, of main ..
MAIN = (1, 3, 5)
CHILD = (2, 4)


def chunks_of(end=END_UNKNOWN, counted=3):
    """A process with three chunks of main, of which so many are counted, and two of a thread; and room for one more."""
    found = [table([(0, 0, counted), (1, 0, 2)], end), *[NOTHING] * 6]
    for thread, places in enumerate((MAIN, CHILD)):
        for order, place in enumerate(places):
            found[place] = chunk(CHUNK_EVENTS, thread, order, *EVENTS)
    return found


def wrong(place, magic=b"\xff\xff\xff\xff"):
    """The chunk there has another magic number."""
    chunks = chunks_of()
    chunks[place] = magic + chunks[place][4:]
    return chunks


def zeroed(*places, **of):
    chunks = chunks_of(**of)
    for place in places:
        chunks[place] = NOTHING
    return chunks


def cut(chunks, size):
    return [b"".join(chunks)[:size]]


SECOND_TABLE = chunk(CHUNK_TABLE, 0, 2)
DAMAGES = {
    "first": (wrong(MAIN[0]), "main lost 1 of 3 chunks of events"),
    "within": (wrong(MAIN[1]), "main lost 1 of 3 chunks of events"),
    "last": (wrong(MAIN[2]), "main lost 1 of 3 chunks of events"),
    "without a magic number": (wrong(MAIN[2], bytes(4)), "main lost 1 of 3 chunks of events"),
    "of another thread": (wrong(CHILD[1]), "main.1 lost 1 of 2 chunks of events"),
    "zeros within": (zeroed(MAIN[1]), "main lost 2 of 3 chunks of events, main.1 lost 1 of 2 chunks of events"),
    "zeros of two": (zeroed(MAIN[1], MAIN[2], CHILD[1]), "main lost 2 of 3 chunks of events, main.1 lost 1 of 2"),
    "zeros of two at the end": (zeroed(CHILD[1], MAIN[2]), "main lost 1 of 3 chunks of events, main.1 lost 1 of 2"),
    "zeros after an exit": (zeroed(MAIN[2], end=END_EXIT), "main lost 1 of 3 chunks of events"),
    "cut off": (chunks_of()[:5], "main lost 1 of 3 chunks of events"),
    "cut within": (cut(chunks_of(), 5 * UNIT + CHUNK_HEAD + 8), "main lost 1 of 3 chunks of events"),
    "tables": (chunks_of()[:6] + [SECOND_TABLE], "1 of 3 chunks of tables are lost"),
    "what is none": (chunks_of()[:6] + [b"\xff" * UNIT], "something in them is no chunk of events or tables"),
}


@pytest.mark.parametrize("options", ((), ("--live",)), ids=("trace", "live"))
@pytest.mark.parametrize("name", DAMAGES)
def test_chunks_that_are_lost(name, options):
    """Which thread lost how many is said, and nothing is made of the rest."""
    chunks, words = DAMAGES[name]
    is_refused(*converted(chunks, *options), ": " + words)


HALF_MADE = struct.pack("=IIII", 0, 0, 2, UNIT).ljust(UNIT, b"\0")
WHOLE = {
    "all": (chunks_of(), 10),
    "not counted yet": (chunks_of(counted=2), 10),
    "counted, and not there yet": (zeroed(MAIN[2]), 8),
    "counted, and without a magic number yet": (zeroed(MAIN[2])[:5] + [HALF_MADE, NOTHING], 8),
    "without a magic number yet": (zeroed(MAIN[2], counted=2)[:5] + [HALF_MADE, NOTHING], 8),
    "of a recorder that counts none": (zeroed(MAIN[2], counted=0), 8),
}


@pytest.mark.parametrize("options", ((), ("--live",)), ids=("trace", "live"))
@pytest.mark.parametrize("name", WHOLE)
def test_what_a_kill_leaves(name, options):
    """A chunk that was about to be begun is none, whether or not it was counted."""
    chunks, events = WHOLE[name]
    status, said = converted(chunks, *options)
    assert status == 0 and "t.std: %d events" % events in said and "damaged" not in said, said
    assert not os.path.exists("t.raw"), said


def test_a_file_that_begins_otherwise():
    """Its chunks are none, and it isn't somebody else's file: the recording has its name."""
    chunks = chunks_of()
    later = b"\xff" * 4 + chunks[MAIN[2]][4:]
    words = ": 77.0.1 begins as no file of a recording, main lost 1 of 3 chunks of events"
    is_refused(*converted(chunks[:5], others=[("77.0.1", later)]), words)
    os.rename("t.raw", "other.raw")
    chunks[0] = b"\xff" * 4 + chunks[0][4:]
    is_refused(*converted(chunks), ": 77.0.0 begins as no file of a recording\n")


def test_one_process_of_two():
    """The other one's trace is there, and the recording is kept."""
    other = b"".join([table([(0, 0, 1)]), chunk(CHUNK_EVENTS, 0, 0, *EVENTS)])
    status, said = converted(wrong(MAIN[1]), others=[("78.0.0", other)])
    assert (
        "the files of process 77 are damaged: main lost 1 of 3 chunks of events\n" in said and "is kept" in said
    ), said
    assert status == 0 and os.path.exists("t.std.78") and not os.path.exists("t.std"), said
