"""Disks that are full, and limits of files: what was recorded is whole up to where the room ended, and it is said what is missing."""

import os
import re
import subprocess

import pytest
from c_programs import NO_DISK, SmallDisk
from c_traces import convert, known, record
from known_traces import LIMIT, NO_EVENTS, RECORD, REFUSED, read_lines


@pytest.fixture
def small_disk(request):
    """A disk of this size."""
    with SmallDisk(request.param) as mounted:
        if not mounted:
            pytest.skip(NO_DISK)
        yield


def record_on_it(name):
    command = [RECORD, "-o", "small/t.std", "./locks", name]
    return subprocess.run(command, stdin=subprocess.DEVNULL, stderr=subprocess.PIPE, timeout=LIMIT)


def kept_and_lost(name):
    """How many events of a program that fills the disk are in the trace, and how many are said to be lost."""
    done = record_on_it(name)
    assert done.returncode == REFUSED, "%d: %s" % (done.returncode, done.stderr.decode())
    assert b"No space left" in done.stderr, done.stderr.decode()
    names = os.listdir("small")
    assert len(names) == 1 and ".raw." in names[0], str(names)
    done = convert("small/" + names[0])
    assert done.returncode == 0, done.stderr.decode()
    return len(read_lines("t.std")), int(re.search(r"(\d+) events were lost", done.stderr.decode()).group(1))


@pytest.mark.parametrize("small_disk", ["1500k"], indirect=True)
def test_full_disk(small_disk):
    """The program goes on."""
    lines, lost = kept_and_lost("volume")
    assert lines > 10000 and lines + lost == 2 * 4 * 224 * 224, "%d lines, %d lost" % (lines, lost)
    assert os.listdir("small") == [], str(os.listdir("small"))


@pytest.mark.parametrize("files", [1024, 64])
def test_file_whose_number_is_taken_away(files):
    """It is made once more, and the file that got its number stays as it is; also where few may be open."""
    run = record("sh", "-c", "ulimit -n %d; exec ./numbers" % files)
    assert run.status == 0, run.said
    assert os.path.getsize("own") == 0, os.path.getsize("own")
    (trace,) = (name for name in os.listdir(".") if name.startswith("t.std."))
    lines = read_lines(trace)
    assert 4 * 224 * 224 <= len(lines) <= 4 * 224 * 224 + 40, "%d lines" % len(lines)


@pytest.mark.parametrize("small_disk", ["1500k"], indirect=True)
def test_thread_that_begins_on_a_full_disk(small_disk):
    """Its birth, acquire, release and join are among what is lost; its beginning and its end may be counted, too."""
    lines, lost = kept_and_lost("volume_and_thread")
    assert lines > 10000 and 4 <= lines + lost - 2 * 4 * 224 * 224 <= 6, "%d lines, %d lost" % (lines, lost)


@pytest.mark.parametrize("small_disk", ["64k"], indirect=True)
@pytest.mark.parametrize("room", [0, 8, 16, 40])
def test_disk_that_is_full_at_once(small_disk, room):
    with open("small/filler", "wb", buffering=0) as file:
        try:
            while True:
                file.write(bytes(4096))
        except OSError:
            file.truncate(max(0, os.fstat(file.fileno()).st_size - 1024 * room))
    done = record_on_it("volume")
    assert done.returncode in (REFUSED, NO_EVENTS), "%d: %s" % (done.returncode, done.stderr.decode())
    assert b"room" in done.stderr or b"No space left" in done.stderr, done.stderr.decode()
    assert not os.path.exists("small/t.std"), "there is a trace"


@pytest.mark.parametrize("small_disk", ["1200k"], indirect=True)
def test_locks_without_records_keep_their_own_names(small_disk):
    record_on_it("many_locks")
    names = [name for name in os.listdir("small") if ".raw." in name]
    assert names, "the disk was large enough"
    done = convert("small/" + names[0])
    assert b"locks were lost" in done.stderr, done.stderr.decode()
    locks = [re.search(r"\|acq\((.*)\)\|", line).group(1) for line in read_lines("t.std") if "|acq(" in line]
    assert len(locks) > 1000 and len(locks) == len(set(locks)), "%d acquires of %d locks" % (
        len(locks),
        len(set(locks)),
    )


@pytest.mark.parametrize("limit", [64, 1000])
def test_limit_of_file_sizes_that_leaves_room(limit):
    run = record("sh", "-c", "ulimit -f %d; exec ./locks volume" % limit)
    assert run.status == 0, "%d: %s" % (run.status, run.said)
    lines = run.lines(run.files()[-1][len("t.std") :])
    assert len(lines) >= 4 * 224 * 224 and "lost" not in run.said, "%d lines: %s" % (len(lines), run.said)


def test_limit_of_memory_that_leaves_room_for_small_files():
    run = record("./locks", "confined", options=("--all",))
    assert run.status == 0 and "lost" not in run.said, "%d: %s" % (run.status, run.said)
    assert len(run.lines()) == 2 * 40000, "%d lines: %s" % (len(run.lines()), run.said)


def test_no_file_can_be_opened():
    """The reason is told. What one thread repeats where its room ends leaves the other's events alone, which are behind it."""
    run = record("./locks", "no_files")
    assert run.status == 0, "%d: %s" % (run.status, run.said)
    assert re.search(r"\d+ events were lost: Too many open files\n", run.said), run.said
    assert "no room" not in run.said, run.said
    (first,) = known("main.1:takes_all_room|acq(a)|@takes_all_room")
    theirs = [line for line in run.lines() if line.startswith("main.1:")]
    assert theirs[:1] == [first] and len(theirs) > 5000, "%d lines: %s" % (len(theirs), theirs[:1])


def test_limit_of_file_sizes_that_leaves_none():
    run = record("sh", "-c", "ulimit -f 1; exec ./locks volume")
    assert run.status == NO_EVENTS, "%d: %s" % (run.status, run.said)
    assert "there was no room for their files" in run.said, run.said
    assert "no trace: what the program did was lost" in run.said and "took no lock" not in run.said, run.said
