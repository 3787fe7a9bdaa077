"""Chunks that are missing in the files of a recording (layout.h): events without which a trace would be wrong."""

import os

from convert import CHUNK_EVENTS, CHUNK_TABLE, END_UNKNOWN, FREE_PLACE, UNKNOWN_PLACE, read_chunks

TOLD = 8  # threads of a process


def found_chunks(recording):
    """The orders of the chunks of each process that are there, by (pid, image): of each thread's events, the tables, and what is none."""
    found = {}
    for pid, image, _, path in recording.extents():
        chunks = found.setdefault((pid, image), {})
        for magic, thread, order, _, _ in read_chunks(path):
            chunks.setdefault((magic, thread), set()).add(order)
    return found


def count_of(orders, told=0):
    """How many chunks there were, of which these are left."""
    return max(told, 1 + max(orders, default=-1))


def lost_of(process, chunks):
    """Of each thread that lost some, by its number: how many chunks, and how many it had."""
    lost = {}
    for number, thread in process.threads.items():
        orders = chunks.get((CHUNK_EVENTS, number), ())
        count = count_of(orders, thread.chunk_count)
        if count > len(orders):
            lost[number] = count - len(orders), count
    return lost


def is_by_a_kill(process, chunks, lost):
    """Whether what is missing is what a kill leaves between the count of a thread's chunks and the head of its last one: one chunk, behind
    all others of its thread, where the files have nothing but zeros."""
    if process.end != END_UNKNOWN or (UNKNOWN_PLACE, 0) in chunks or (FREE_PLACE, 0) not in chunks or len(lost) != 1:
        return False
    (number,) = lost
    return lost[number][0] == 1 and count_of(chunks.get((CHUNK_EVENTS, number), ())) < lost[number][1]


def damage_of(process, chunks):
    """What is missing of a process, in words."""
    lost = lost_of(process, chunks)
    if lost and is_by_a_kill(process, chunks, lost):
        lost = {}
    parts = [
        "%s lost %d of %d chunks of events" % (process.names.thread_name(number), *lost[number])
        for number in sorted(lost)[:TOLD]
    ]
    if len(lost) > TOLD:
        parts.append("so did %d more threads" % (len(lost) - TOLD))
    tables = chunks.get((CHUNK_TABLE, 0), ())
    if count_of(tables) > len(tables):
        parts.append("%d of %d chunks of tables are lost" % (count_of(tables) - len(tables), count_of(tables)))
    if not parts and (UNKNOWN_PLACE, 0) in chunks:
        parts.append("something in them is no chunk of events or tables")
    return parts


def strangers_of(recording):
    """The names of the files of each process that begin as none of a recording, by (pid, image)."""
    found = {}
    for pid, image, _, path in recording.strangers():
        found.setdefault((pid, image), []).append("%s begins as no file of a recording" % os.path.basename(path))
    return found


def take_damaged(recording, processes):
    """Takes the processes of which something is missing away; a line for each. They have their names. Of those that still run nothing is
    missing either: a chunk is counted once it is there, and what comes later lies behind it."""
    found, strangers = found_chunks(recording), strangers_of(recording)
    faults = []
    for key in sorted({*processes, *strangers}):
        process, parts = processes.get(key), strangers.get(key, [])
        if process:
            parts = parts + damage_of(process, found.get(key, {}))
        if parts:
            faults.append("the files of process %d are damaged: %s" % (key[0], ", ".join(parts)))
            processes.pop(key, None)
    return faults
