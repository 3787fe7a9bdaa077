"""The files that a recorded Python process leaves behind: those of ../record/layout.h, with records of names."""

import errno
import os
from struct import pack, pack_into

from goodlock_memory import Mapped

LAYOUT_VERSION = 1
EXTENT_BYTES = 64 << 20
CHUNK_UNIT = 4096
CHUNK_HEAD = 32
CHUNK_DOUBLINGS = 8
TABLE_CHUNK_BYTES = 16 * CHUNK_UNIT
CHUNK_EVENTS, CHUNK_TABLE = 0x676C6576, 0x676C7462

RECORD_PROCESS, RECORD_LOCK, RECORD_THREAD, RECORD_LOSSES = 1, 4, 5, 8
RECORD_PLACE, RECORD_LOCK_KIND, RECORD_LOCK_NAME, RECORD_ROUTINE, RECORD_NOTE, RECORD_NO_LOCK = 16, 17, 18, 19, 20, 21
LOCK_MUTEX, LOCK_MADE = 1, 1
FOREIGN = 0xFFFFFFFF
OBJECT_WORDS = 8
IMAGE_LIMIT = 100000
# Longer texts are cut: goodlock reads lines of 65,536 bytes.
PLACE_LIMIT, NAME_LIMIT, CUT = 8000, 1000, b"..."

# In a chunk's head, as words.
USED = 2
# Of the launcher's mark: its size, and words in it.
MARK_BYTES, UNRECORDED, UNRECORDED_REASON = 4096, 8, 9

# Words of a process's and a thread's record, from the record's head on.
PROCESS_FORKS = 9
THREAD_UNMADE, THREAD_CHILDREN, THREAD_LEFT_OUT, THREAD_LOST, THREAD_OTHERS = 5, 7, 9, 10, 11


def bytes_of(text, limit):
    data = text.encode("utf-8", "backslashreplace")
    if len(data) < limit:
        return data
    end = limit - len(CUT) - 1
    while data[end] & 0xC0 == 0x80:  # within a character
        end -= 1
    return data[:end] + CUT


def identity_of(descriptor):
    """Which file this is."""
    status = os.fstat(descriptor)
    return status.st_dev, status.st_ino


class Mark:
    """The launcher's count of processes that aren't recorded (../record/recording.py), mapped as long as there may be one."""

    def __init__(self, directory):
        self.words = None
        try:
            descriptor = os.open("%s/recording" % directory, os.O_RDWR | os.O_CLOEXEC | os.O_NOFOLLOW | os.O_NONBLOCK)
        except OSError:
            return
        try:
            if os.fstat(descriptor).st_size == MARK_BYTES:
                self.words = Mapped(descriptor, MARK_BYTES).bytes.cast("Q")
        except OSError:
            pass
        finally:
            os.close(descriptor)

    def count(self, reason):
        """One more, for this error."""
        if self.words is not None:
            self.words[UNRECORDED] += 1
            self.words[UNRECORDED_REASON] = self.words[UNRECORDED_REASON] or reason


class Files:
    """The files of one process. No descriptor stays open. Calls come from one thread at a time."""

    def __init__(self, directory):
        self.directory = directory
        self.process = os.getpid()
        self.image = 0
        self.extents = 0
        self.extent = None
        self.path = None
        self.identity = None
        self.used = 0
        self.table = None
        self.table_head = None
        self.table_place = 0
        self.table_chunks = 0
        while not self.open_extent():
            self.image += 1
            if self.image == IMAGE_LIMIT:
                raise OSError("no free name in %s" % directory)

    def open_extent(self):
        """Opens the next extent; False if there is a first extent of this image already: the program became another one."""
        path = "%s/%d.%d.%d" % (self.directory, self.process, self.image, self.extents)
        try:
            descriptor = os.open(path, os.O_RDWR | os.O_CREAT | os.O_EXCL | os.O_CLOEXEC | os.O_NOFOLLOW, 0o600)
        except FileExistsError:
            if self.extents:
                raise
            return False
        self.extents += 1
        try:
            os.fchmod(descriptor, 0o600)  # whatever the program's umask is; until then it is empty
            os.ftruncate(descriptor, EXTENT_BYTES)
            extent, identity = Mapped(descriptor, EXTENT_BYTES), identity_of(descriptor)
        finally:
            os.close(descriptor)
        self.extent, self.path, self.identity, self.used = extent, path, identity, 0
        return True

    def reserve(self, start, size):
        """Room on the disk now: a store without it would end the program with SIGBUS. Where the file can't be opened any more, as under
        another user, its memory gets the room, and under an old kernel there is none."""
        refusal = self.allocate(start, size)
        try:
            self.extent.populate(start, size)
        except OSError as error:
            if error.errno != errno.EINVAL:
                raise
            if refusal is not None:
                raise refusal

    def allocate(self, start, size):
        """Gives the file its room, if it can be opened; else the error."""
        try:
            descriptor = os.open(self.path, os.O_RDWR | os.O_CLOEXEC | os.O_NOFOLLOW | os.O_NONBLOCK)
        except OSError as error:
            return error
        try:
            if identity_of(descriptor) != self.identity:
                return OSError(errno.ESTALE, os.strerror(errno.ESTALE))
            os.posix_fallocate(descriptor, start, size)
        finally:
            os.close(descriptor)
        return None

    def new_chunk(self, magic, thread, order, size, used):
        """The numbers of a new chunk's head and its words, all zero; an OSError if there is no room. An exception of a signal's handler may
        come at each call: the place counts as used once the chunk is whole, as none behind a hole is read."""
        if self.used + size > EXTENT_BYTES:
            self.open_extent()
        self.reserve(self.used, size)
        chunk = self.extent.bytes[self.used : self.used + size]
        pack_into("=IIIQ", chunk, 4, thread, order, size, used)
        pack_into("=I", chunk, 0, magic)
        self.used += size
        return chunk[:CHUNK_HEAD].cast("Q"), chunk[CHUNK_HEAD:].cast("Q")

    def new_events(self, thread, order):
        """A word of zero is no event: all words of events count as used from the beginning."""
        size = CHUNK_UNIT << min(order, CHUNK_DOUBLINGS)
        return self.new_chunk(CHUNK_EVENTS, thread, order, size, (size - CHUNK_HEAD) // 8)[1]

    def write(self, kind, numbers, text=None):
        """Writes a record; its words, to be changed later. It counts once it is whole."""
        data = pack("=%dQ" % len(numbers), *numbers)
        if text is not None:
            data += bytes_of(text, PLACE_LIMIT if kind == RECORD_PLACE else NAME_LIMIT) + b"\0"
        data += bytes(-len(data) % 8)
        size = 1 + len(data) // 8
        if self.table is None or self.table_place + size > len(self.table):
            self.table_head, self.table = self.new_chunk(CHUNK_TABLE, 0, self.table_chunks, TABLE_CHUNK_BYTES, 0)
            self.table_chunks += 1
            self.table_place = 0
        record = self.table[self.table_place : self.table_place + size]
        record[0] = kind | size << 32
        record[1:] = memoryview(data).cast("Q")
        self.table_place += size
        self.table_head[USED] = self.table_place
        return record

    def write_process(self, command, parent, first_lock, first_site, frames):
        numbers = [LAYOUT_VERSION, self.process, self.image, *parent, first_lock, first_site, frames, 0]
        return self.write(RECORD_PROCESS, numbers, command[:500])

    def write_losses(self):
        return self.write(RECORD_LOSSES, [0] * 5)

    def write_thread(self, number, parent, child):
        return self.write(RECORD_THREAD, [number, parent, child] + [0] * (8 + OBJECT_WORDS))
