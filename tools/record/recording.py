"""The directory of a recording: which files in it are the recorder's own, who still writes them, and how it is removed."""

import errno
import fcntl
import os
import re
import stat
import struct

MARK = "recording"
# The mark's text, and where in it the processes are counted that couldn't begin their files (process.c). The number of the first
# one's error is behind; a recorder may leave it out.
MARK_TEXT = b"goodlock recording\n"
MARK_BYTES = 4096
UNRECORDED_PLACE = 64
CONVERTED = ".converted"
DIRECTORY_MOST = 2999  # bytes of a directory's path, of which a recorded process keeps so many (recorder.h)

EXTENT_NAME = re.compile(r"([0-9]{1,18})\.([0-9]{1,18})\.([0-9]{1,18})")
# Of live.py, there while a report is made: the events' copy and the report, with the number of the process that makes it.
WORK_NAME = re.compile(r"(copy|report)\.[0-9]{1,18}")
USER_NAME = re.compile(r"u([0-9]{1,18})")
CHUNK_HEAD = 32
RECORD_PROCESS, RECORD_START = 1, 6
MAGICS = (b"", struct.pack("=I", 0), struct.pack("=I", 0x676C6576), struct.pack("=I", 0x676C7462))


class Recording:
    def __init__(self, directory, lock=None):
        self.directory = directory
        self.lock = lock  # an open file, as long as the launcher is at work

    # --- Files

    def places(self):
        """The directory itself and those of users that a process became, each with the users who may own files there."""
        owner = os.stat(self.directory).st_uid
        yield self.directory, {owner, os.geteuid()}
        for name in sorted(os.listdir(self.directory)):
            match = USER_NAME.fullmatch(name)
            path = os.path.join(self.directory, name)
            if match:
                status = os.lstat(path)
                if stat.S_ISDIR(status.st_mode) and status.st_uid == int(match.group(1)):
                    yield path, {status.st_uid}

    def named_files(self):
        """(pid, image, number, path) of each file that has a name as a recorded process gives it, and the users who may own it."""
        for place, owners in self.places():
            for name in os.listdir(place):
                match = EXTENT_NAME.fullmatch(name)
                if match:
                    yield tuple(map(int, match.groups())) + (os.path.join(place, name),), owners

    def extents(self):
        """(pid, image, number, path) of each file that a recorded process wrote."""
        return sorted(file for file, owners in self.named_files() if is_extent(file[3], owners))

    def strangers(self):
        """The same of files that have such a name and owner, and begin as none that a recorded process wrote."""
        files = [file for file, owners in self.named_files() if holds_something(file[3], owners)] if self.mark() else []
        return sorted(set(files).difference(self.extents()))

    def mark(self):
        """The mark's bytes; empty where there is none."""
        try:
            with open(
                os.open(os.path.join(self.directory, MARK), os.O_RDONLY | os.O_NOFOLLOW | os.O_NONBLOCK), "rb"
            ) as file:
                data = file.read(MARK_BYTES)
        except OSError:
            return b""
        return data if data.startswith(MARK_TEXT) and len(data) == MARK_BYTES else b""

    def unrecorded(self):
        """How many processes couldn't begin their files, and the number of the error, or 0."""
        data = self.mark()
        count, reason = struct.unpack_from("=QQ", data, UNRECORDED_PLACE) if data else (0, 0)
        return count, reason & 0xFFFF

    def is_recording(self):
        return bool(self.mark()) or bool(self.extents())

    # --- Who writes

    def launcher_is_at_work(self):
        if not self.mark():
            return False
        with open(os.path.join(self.directory, MARK), "rb") as file:
            try:
                fcntl.flock(file, fcntl.LOCK_EX | fcntl.LOCK_NB)
            except OSError as error:
                return error.errno in (errno.EWOULDBLOCK, errno.EAGAIN)
        return False

    def writers(self):
        """The processes that still write: those that map a file of the directory; where a process's maps can't be read, those
        that have the number of a recorded one and began at the same moment; and the launcher."""
        token = os.fsencode(os.path.basename(self.directory)) + b"/"
        moments = {}
        for _, _, number, path in self.extents():
            pid, moment = beginning(path) if number == 0 else (0, 0)
            if moment:
                moments.setdefault(pid, set()).add(moment)
        found = []
        for process in sorted(map(int, names_in_proc())):
            mapped = maps_file(process, token)
            if mapped or (mapped is None and started(process) in moments.get(process, ())):
                found.append("%d" % process)
        return found + (["of the recorder"] if self.launcher_is_at_work() else [])

    # --- Making reports

    def work_file(self, what):
        """A path that no other process uses, for a copy or report."""
        return os.path.join(self.directory, "%s.%d" % (what, os.getpid()))

    def remove_work(self, process=None):
        """Removes such files: those of a process, else of this one."""
        self.remove_named(re.compile(r"(copy|report)\.%d" % (process or os.getpid())))

    def remove_named(self, names):
        for name in os.listdir(self.directory):
            path = os.path.join(self.directory, name)
            if names.fullmatch(name) and stat.S_ISREG(os.lstat(path).st_mode):
                os.unlink(path)

    # --- Removing

    def remove(self):
        """Removes the recorder's own files and nothing else; whether the directory is gone. It gets another name first, so
        that a half of it is never taken for a recording."""
        away = self.directory + CONVERTED
        os.rename(self.directory, away)
        self.directory = away
        for _, _, _, path in self.extents():
            os.unlink(path)
        for place, _ in list(self.places())[1:]:
            rmdir_if_empty(place)
        self.remove_named(WORK_NAME)
        if self.mark():
            os.unlink(os.path.join(away, MARK))
        return rmdir_if_empty(away)


def beginning(path):
    """The number of the process that wrote this first extent, and when it began: its RECORD_PROCESS and RECORD_START stand at
    the front (layout.h). Zeros where it doesn't say."""
    with open(path, "rb") as file:
        data = file.read(CHUNK_HEAD + MARK_BYTES)
    used = struct.unpack_from("=Q", data, 16)[0] if len(data) > CHUNK_HEAD else 0
    place, end = CHUNK_HEAD, min(len(data), CHUNK_HEAD + 8 * used)
    pid = 0
    while place + 24 <= end:
        kind, size, first, second = struct.unpack_from("=IIQQ", data, place)
        if kind == RECORD_PROCESS:
            pid = second
        if kind == RECORD_START:
            return pid, first
        place += 8 * max(size, 1)
    return 0, 0


def rmdir_if_empty(path):
    try:
        os.rmdir(path)
    except OSError as error:
        if error.errno not in (errno.ENOTEMPTY, errno.EEXIST):
            raise
        return False
    return True


def is_extent(path, owners):
    """Whether this is a regular file of one of these users that begins as a recorded process's. A pipe or a link in its
    place isn't waited for or followed. One of theirs that can't be opened is an error, as its events would be missing.
    """
    try:
        descriptor = os.open(path, os.O_RDONLY | os.O_NOFOLLOW | os.O_NONBLOCK | os.O_CLOEXEC)
    except OSError as error:
        if holds_something(path, owners):
            raise OSError("%s can't be read: %s" % (path, error.strerror))
        return False
    try:
        status = os.fstat(descriptor)
        return stat.S_ISREG(status.st_mode) and status.st_uid in owners and os.pread(descriptor, 4, 0) in MAGICS
    finally:
        os.close(descriptor)


def holds_something(path, owners):
    """Whether this is a regular file of one of these users that isn't empty, as each is while it is made (process.c)."""
    try:
        status = os.lstat(path)
    except OSError:
        return False
    return stat.S_ISREG(status.st_mode) and status.st_uid in owners and status.st_size > 0


def names_in_proc():
    """The processes that /proc has; none where it isn't there, as in some containers."""
    try:
        return [name for name in os.listdir("/proc") if name.isdigit()]
    except OSError:
        return []


def state_of(path):
    """The letter by which the kernel tells how the process or thread of this folder in /proc is; empty where it is gone."""
    try:
        with open(path + "/stat", "rb") as status:
            return status.read().rsplit(b")", 1)[1].split()[0]
    except (OSError, IndexError):
        return b""


def has_ended(path):
    return state_of(path) in (b"", b"Z", b"X")


def living_thread(process):
    """The number of a thread of a process that hasn't ended; 0 where all have. The first one may have, by pthread_exit, while others
    run on: /proc then tells under its number neither that the process runs nor what it maps, and under theirs it does.
    """
    if not has_ended("/proc/%d" % process):
        return process
    try:
        threads = map(int, os.listdir("/proc/%d/task" % process))
        return next((thread for thread in threads if not has_ended("/proc/%d/task/%d" % (process, thread))), 0)
    except OSError:
        return 0


def maps_file(process, token):
    """Whether a process maps a file whose path has these bytes; None where that isn't for us to know."""
    try:
        with open("/proc/%d/maps" % living_thread(process), "rb") as maps:
            return token in maps.read()
    except PermissionError:
        return None
    except OSError:
        return False


def started(process):
    """When a process began, in the kernel's ticks; -1 if it is gone."""
    try:
        with open("/proc/%d/stat" % process, "rb") as status:
            return int(status.read().rsplit(b")", 1)[1].split()[19])
    except (OSError, IndexError, ValueError):
        return -1


def new_recording(trace):
    """A fresh directory beside the trace, for nobody else. A process that gives up root's rights makes a directory in it for
    the user it becomes, as long as it may (process.c)."""
    directory = "%s.raw.%s" % (trace, os.urandom(8).hex())
    os.mkdir(directory, 0o700)
    directory = os.path.realpath(directory)
    if len(os.fsencode(directory)) > DIRECTORY_MOST:
        os.rmdir(directory)
        raise OSError(errno.ENAMETOOLONG, os.strerror(errno.ENAMETOOLONG))
    try:
        descriptor = os.open(os.path.join(directory, MARK), os.O_RDWR | os.O_CREAT | os.O_EXCL | os.O_CLOEXEC, 0o600)
        lock = open(descriptor, "wb", buffering=0)
        if lock.write(MARK_TEXT + bytes(MARK_BYTES - len(MARK_TEXT))) != MARK_BYTES:
            raise OSError(errno.ENOSPC, os.strerror(errno.ENOSPC))
        fcntl.flock(lock, fcntl.LOCK_EX)
    except OSError:
        for name in os.listdir(directory):
            os.unlink(os.path.join(directory, name))
        os.rmdir(directory)
        raise
    return Recording(directory, lock)
