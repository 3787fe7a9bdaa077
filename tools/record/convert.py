"""Turns the files of recorded processes (layout.h) into traces. The events are read by goodlock_lines (convert/lines.c);
here are the tables and the names."""

import errno
import hashlib
import mmap
import os
import re
import struct
import sys
from array import array
from collections import Counter

from births import threads_by_birth
from build import built
from loaded import Modules
from recording import living_thread
from symbols import Module, demangled, is_wrapper_source, short_function, short_paths, short_variable

LAYOUT_VERSION = 1
CHUNK_UNIT = 4096
CHUNK_HEAD = 32
CHUNK_EVENTS, CHUNK_TABLE = 0x676C6576, 0x676C7462
FREE_PLACE, UNKNOWN_PLACE = 0, 1  # of read_chunks: nothing is stored from here on; something that is no chunk
RECORD_PROCESS, RECORD_MODULE, RECORD_SITE, RECORD_LOCK, RECORD_THREAD = 1, 2, 3, 4, 5
RECORD_START, RECORD_UNLOADED, RECORD_LOSSES, RECORD_END = 6, 7, 8, 11
RECORD_PLACE, RECORD_LOCK_KIND, RECORD_LOCK_NAME, RECORD_ROUTINE, RECORD_NOTE, RECORD_NO_LOCK = 16, 17, 18, 19, 20, 21
LOCK_CLASSES = {1: "mutex", 2: "rwlock", 3: "spin", 4: "once", 5: "static"}
LOCK_MADE = 1
END_UNKNOWN, END_EXIT, END_EXEC = 0, 1, 2
FOREIGN = 0xFFFFFFFF

SITE_SHIFT, SITE_MASK = 5, (1 << 27) - 1
OBJECT_SHIFT = 32
KINDS = 32
NO_KINDS = (0,) * KINDS
JOIN, UPGRADE, BEYOND, AGAIN = 8, 9, 10, 11
NO_THREAD = 0xFFFFFFFFFFFFFFFF
THREAD_LIMIT = 1024  # goodlock reads no more threads
NO_ROOM = (0, errno.ENOSPC, errno.EFAULT)  # some file systems say the last of memory that they give no block
EXAMPLES = 256  # how many threads at most are in all windows for what they do
PIECE = 1 << 16  # words that are looked at at once
KIND_AND_SITE = 0 if sys.byteorder == "little" else 1  # which half of a word has these
HELD_LIMIT = 64
DEPTH_LIMIT = 1000000
NAME_LIMIT = 20000  # bytes: a line, which has a thread, a lock or another thread, and a place, has 65,536 at most


# In the mangled name of the class of what a thread of the C++ library runs: how the first of what the thread was given begins where
# a word of the object points to it. It is a function, a member's, one in a std::function, or one that std::bind binds.
FUNCTION_GIVEN = re.compile(r"St5tupleIJ(PF|M|St8functionI|St5_BindI)")
# The same in the start routine of a thread of LLVM's C++ library: where it is a function, a member's, or bound, the second word of the
# object points to it.
FUNCTION_GIVEN_BY_LLVM = re.compile(r"14__thread_proxy\w*?15__thread_struct\w*?EEEE(PF|M|NS_6__bindI)")


class ConvertError(Exception):
    pass


# --- Reading the files ------------------------------------------------------------------------------


class Lock:
    __slots__ = ("number", "kind", "made", "address", "site", "thread", "order", "when", "name")

    def __init__(self, values, when):
        self.number, kinds, self.address, self.site, thread = values
        self.kind = LOCK_CLASSES.get(kinds & 0xFFFFFFFF, "lock")
        self.made = kinds >> 32 == LOCK_MADE
        self.thread, self.order = thread & 0xFFFFFFFF, thread >> 32
        self.when = when
        self.name = None  # that its recorder told


class Thread:
    """There may be very many."""

    __slots__ = (
        "number",
        "parent",
        "child",
        "routine",
        "unmade",
        "chunk_count",
        "children",
        "left_out",
        "lost",
        "others",
        "object",
        "when",
        "chunks",
        "kinds",
        "name",
        "routine_name",
    )

    def __init__(self, values, when):
        (self.number, self.parent, self.child, self.routine, self.unmade) = values[:5]
        self.chunk_count, self.children = values[5:7]
        (self.left_out, self.lost, self.others) = values[8:11]
        self.object = values[11:19] if any(values[11:19]) else ()
        self.when = when
        self.chunks = []  # (order, path, offset of the words, how many)
        self.kinds = NO_KINDS
        self.name = None
        self.routine_name = None  # that its recorder told


class Process:
    """What one process (one image of it) left: numbers only, no names yet."""

    def __init__(self, key):
        self.key = key
        self.command = "?"
        self.parent = None
        self.first_lock = 1
        self.first_site = 1
        self.frames = 1
        self.modules = Modules()
        self.sites = {}  # number: (return addresses, when)
        self.locks = {}
        self.threads = {}
        self.lost = Counter()
        self.end = END_UNKNOWN
        self.reason = 0  # why something was lost: the number of an error
        self.places = {}  # number: lines `path:line`, of a recorder that knows names
        self.notes = []
        self.no_locks = []
        self.names = None
        self.windows = None

    def read_table(self, words, modules):
        """Records of the tables, one after the other."""
        place = 0
        while place < len(words):
            kind, size = words[place] & 0xFFFFFFFF, words[place] >> 32
            if size == 0 or place + size > len(words):
                raise ConvertError("a table of process %d is damaged" % self.key[0])
            self.read_record(kind, words[place + 1 : place + size], modules)
            place += size

    def check_births(self):
        """Whether each thread was made by threads that are there, none by itself in the end."""
        checked = set()
        for number in self.threads:
            way = {}
            while number not in checked and number not in way:
                thread = way[number] = self.threads[number]
                if thread.parent == FOREIGN or thread.child == 0:
                    break
                number = thread.parent
            else:
                if number in way:
                    raise KeyError(number)
            checked.update(way)

    def drop_unmade(self):
        """Threads that couldn't be made are none."""
        for number in [number for number, thread in self.threads.items() if thread.unmade]:
            del self.threads[number]

    def read_record(self, kind, values, modules):
        if kind == RECORD_PROCESS:
            if values[0] != LAYOUT_VERSION:
                raise ConvertError("process %d was recorded by another version of the recorder" % self.key[0])
            self.parent = (values[3], values[4]) if values[3] else None
            self.first_lock, self.first_site, self.frames = values[5:8]
            self.command = text_of(values[9:])
        elif kind == RECORD_MODULE:
            path = path_of(values[3:])
            self.modules.load(values[:3].tolist(), modules.setdefault(path, Module(path)))
        elif kind == RECORD_UNLOADED:
            self.modules.unload(values[0])
        elif kind == RECORD_SITE:
            self.sites[values[0]] = values[1:].tolist(), self.modules.when
        elif kind == RECORD_LOCK:
            self.locks[values[0]] = Lock(values.tolist(), self.modules.when)
        elif kind == RECORD_THREAD:
            self.threads[values[0]] = Thread(values.tolist(), self.modules.when)
        elif kind == RECORD_LOSSES:
            self.lost = Counter(dict(zip(("events", "locks", "places", "threads"), values.tolist())))
            self.reason = values[4] & 0xFFFF if len(values) > 4 else 0
        elif kind == RECORD_END:
            self.end = values[0]
        elif kind == RECORD_NO_LOCK:
            self.no_locks.append(values[0])
        elif RECORD_PLACE <= kind <= RECORD_NOTE:
            self.read_text(kind, values[0], text_of(values[1:]))

    def read_text(self, kind, number, text):
        """A record of a recorder that knows names. It comes after that of the lock or thread."""
        if kind == RECORD_PLACE:
            self.places[number] = text.split("\n")
        elif kind == RECORD_LOCK_KIND:
            self.locks[number].kind = text
        elif kind == RECORD_LOCK_NAME:
            self.locks[number].name = text
        elif kind == RECORD_ROUTINE:
            self.threads[number].routine_name = text
        else:
            self.notes.append(text.replace("%d", "%d" % number))


def text_of(words):
    return words.tobytes().split(b"\0", 1)[0].decode("utf-8", "backslashreplace")


def path_of(words):
    """By which a file is found again, also where it is no text."""
    return os.fsdecode(words.tobytes().split(b"\0", 1)[0])


def read_chunks(path):
    """(magic, thread, order, offset of the words, the words in use) of each chunk of an extent; FREE_PLACE where its chunks end before the
    file does; UNKNOWN_PLACE for what lies in between and is none, as it was damaged or the file was cut."""
    with open(path, "rb") as file:
        size = os.fstat(file.fileno()).st_size // 8 * 8
        if size == 0:
            return
        data = memoryview(mmap.mmap(file.fileno(), size, access=mmap.ACCESS_READ))
    place, is_known = 0, True
    while place + CHUNK_HEAD <= size:
        magic, thread, order, length, used = struct.unpack_from("=IIIIQ", data, place)
        offset, end = place + CHUNK_HEAD, place + max(length, CHUNK_UNIT)
        used_end = min(offset + 8 * used, max(offset, place + length))
        if magic in (CHUNK_EVENTS, CHUNK_TABLE) and used_end <= size:
            yield magic, thread, order, offset, data[offset:used_end].cast("Q")
            place, is_known = end, True
            continue
        if (
            is_known and magic == 0 and not any(data[offset:end])
        ):  # chunks follow one another: this is the next one's place
            yield FREE_PLACE, 0, 0, offset, data[:0].cast("Q")
            return
        if struct.unpack_from("=I", data, place)[0] != magic:
            continue  # it was just made
        if is_known:
            yield UNKNOWN_PLACE, 0, 0, offset, data[:0].cast("Q")
        place, is_known = place + CHUNK_UNIT, False


def read_events(recording):
    """Where the events of each process are, by (pid, image): for each chunk thread, order, file, offset and number of words."""
    events = {}
    for pid, image, _, path in recording.extents():
        found = events.setdefault((pid, image), [])
        for magic, thread, order, offset, words in read_chunks(path):
            if magic == CHUNK_EVENTS and len(words):
                found.append((thread, order, path, offset, len(words)))
    return events


def read_processes(recording):
    """All processes, by (pid, image), and what is damaged. The events that are there are found before the tables are read: of a
    process that still runs, the tables then have all that these events name."""
    events = read_events(recording)
    return processes_of(events, read_tables(recording, events), {})


def processes_of(events, tables, modules):
    """All processes, by (pid, image), and what is damaged, of what was read. `modules`: those that are known, by path."""
    processes, faults = {}, []
    for key, found in tables.items():
        process = Process(key)
        try:
            for words in found:
                process.read_table(words, modules)
            for thread, order, path, offset, count in sorted(events[key]):
                process.threads[thread].chunks.append((path, offset, count))
            process.check_births()
            process.drop_unmade()
            processes[key] = process
        except (ConvertError, KeyError, IndexError, ValueError) as error:
            faults.append(
                str(error) if isinstance(error, ConvertError) else "the files of process %d are damaged" % key[0]
            )
    for process in processes.values():
        process.parent = processes.get(process.parent)
    find_deleted(processes, modules)
    return processes, faults


DELETED = " (deleted)"  # behind the name of a file that has none any more


def deleted_files(pid, image):
    """The files that a process runs and that were deleted or replaced: by the address where each begins in memory a path by which it
    can be read, as long as the process runs. Only the system's administrator may read those of libraries."""
    thread = living_thread(pid)
    try:
        with open("/proc/%d/maps" % thread, "rb") as file:
            lines = [line.split(None, 5) for line in os.fsdecode(file.read()).split("\n")]
        program = os.readlink("/proc/%d/exe" % thread)
    except OSError:
        return {}
    mapped = [parts for parts in lines if len(parts) == 6]
    if not any(parts[5].endswith("/%d.%d.0" % (pid, image)) for parts in mapped):
        return {}  # another process has this number, in a namespace around
    found = {}
    for area, *_, path in (parts for parts in mapped if parts[5].endswith(DELETED)):
        start, end = (int(address, 16) for address in area.split("-"))
        found[start] = "/proc/%d/exe" % thread if path == program else "/proc/%d/map_files/%x-%x" % (thread, start, end)
    return found


def find_deleted(processes, modules):
    """Has the modules whose files are gone read by way of the processes that still run them. `modules`: those that are known, also
    each by its file, and by process and path."""
    for process in processes.values():
        files = deleted_files(*process.key)
        for loaded in process.modules.loaded:
            file, key = files.get(loaded.start // CHUNK_UNIT * CHUNK_UNIT), (process.key, loaded.module.path)
            try:
                if file and os.access(file, os.R_OK):
                    status = os.stat(file)
                    path = loaded.module.path.removesuffix(DELETED)
                    modules[key] = modules.setdefault((status.st_dev, status.st_ino), Module(path))
                    modules[key].file = file
            except OSError:  # it has just ended
                pass
            loaded.module = modules.get(key, loaded.module)


def read_tables(recording, wanted):
    """The words of the tables of each of these processes, in order. They are copied: a chunk keeps its file open, of which there may be
    more than this process may have."""
    tables = {key: [] for key in wanted}
    for pid, image, _, path in recording.extents():
        if (pid, image) in tables:
            for magic, _, order, _, words in read_chunks(path):
                if magic == CHUNK_TABLE:
                    tables[pid, image].append((order, array("Q", words.tobytes())))
    return {key: [words for _, words in sorted(found, key=lambda table: table[0])] for key, found in tables.items()}


# --- Events -------------------------------------------------------------------------------------------


def packed_bytes(data):
    return array("Q", [len(data)]).tobytes() + data + bytes(-len(data) % 8)


def packed_text(text):
    return packed_bytes(text.encode("utf-8", "backslashreplace"))


def packed_path(path):
    return packed_bytes(os.fsencode(path))


def packed_texts(texts):
    return array("Q", [len(texts)]).tobytes() + b"".join(
        array("Q", [number]).tobytes() + packed_text(text) for number, text in texts.items()
    )


def packed_files(threads):
    """The files of these threads' events, and their numbers."""
    files = {}
    for thread in threads:
        for path, _, _ in thread.chunks:
            files.setdefault(path, len(files))
    return files, array("Q", [len(files)]).tobytes() + b"".join(map(packed_path, files))


def packed_numbers(numbers):
    return array("Q", [len(numbers), *numbers]).tobytes()


def packed_chunks(threads, files):
    chunks = array("Q")
    for thread in threads:
        for path, offset, count in thread.chunks:
            chunks.extend((files[path], thread.number, offset, count))
    return array("Q", [len(chunks) // 4]).tobytes() + chunks.tobytes()


def run_program(name, arguments, request):
    """What a program that is built of convert/ answers."""
    import subprocess

    done = subprocess.run([built(name)] + arguments, input=request, stdout=subprocess.PIPE, stderr=subprocess.PIPE)
    if done.returncode != 0:
        raise ConvertError(
            done.stderr.decode(errors="replace").strip() or "%s ended by signal %d" % (name, -done.returncode)
        )
    return done.stdout


def scan_events(process, threads):
    """Counts each thread's events by kind; the thread and word of each lock's first event, in the order of these threads."""
    files, packed = packed_files(threads)
    answer = array("Q")
    answer.frombytes(
        run_program(
            "goodlock_lines", ["scan"], packed + packed_numbers(process.no_locks) + packed_chunks(threads, files)
        )
    )
    place = 0
    while answer[place] != NO_THREAD:
        process.threads[answer[place]].kinds = answer[place + 1 : place + 1 + KINDS]
        place += 1 + KINDS
    firsts = answer[place + 1 + KINDS :].tolist()
    return zip(firsts[::2], firsts[1::2])


# --- Names --------------------------------------------------------------------------------------------


def clean(text):
    """Names stand between bars, in lines."""
    return within_line(re.sub(r"[\x00-\x1f\x7f]", "?", text.replace("|", "!")) or "?")


def within_line(name):
    """What a line has no room for stands in it as a digest."""
    if len(name) <= NAME_LIMIT // 4:  # a character has four bytes at most
        return name
    data = name.encode("utf-8", "backslashreplace")
    if len(data) <= NAME_LIMIT:
        return name
    return "%s~%s" % (data[:NAME_LIMIT].decode("utf-8", "ignore"), hashlib.blake2b(data, digest_size=8).hexdigest())


class Places:
    """Texts of sites (return addresses, perhaps several callers) of one process."""

    def __init__(self, process, sources):
        self.process = process
        self.sources = sources
        self.known = {}

    def text(self, site):
        if site not in self.known:
            self.known[site] = self.find_text(site)
        return self.known[site]

    def text_without_functions(self, site):
        text = self.text(site)
        return re.sub(r"(:[0-9]+|\+0x[0-9a-f]+) \([^<]*\)(?=<|$)", r"\1", text) if self.sources.functions else text

    def owner_of(self, site):
        """The process that told it: this one, or the nearest that it has it from; None where none did."""
        process = self.process
        while process and site not in process.places and site not in process.sites:
            process = process.parent
        return process

    def find_text(self, site):
        owner = self.owner_of(site)
        if owner is not self.process:
            return owner.names.places.text(site) if owner else "?"
        if site in self.process.places:
            return clean("<".join(map(self.sources.shortened, self.process.places[site])))
        callers, when = self.process.sites[site]
        parts = []
        for address in callers:
            parts.extend(self.sources.frames(self.process, address - 1, when))
        return clean("<".join(parts[: self.process.frames]))

    def all(self):
        """The texts of all sites that an event may have."""
        process, numbers = self.process, set()
        while process:
            numbers.update(process.sites, process.places)
            process = process.parent
        return {number: self.text(number) for number in sorted(numbers)}


class Sources:
    """Lines of addresses, of all processes together, so that each module is asked once."""

    def __init__(self, processes, with_functions=False):
        asked = {}
        for process in processes:
            for callers, when in process.sites.values():
                for address in callers:
                    loaded = process.modules.at(address - 1, when)
                    if loaded:
                        asked.setdefault(loaded.module, set()).add(address - 1 - loaded.bias)
        self.lines = {module: module.lines_of(addresses) for module, addresses in asked.items()}
        paths = {f[1] for found in self.lines.values() for frames in found.values() for f in frames}
        for process in processes:
            paths.update(
                place.rpartition(":")[0] for places in process.places.values() for place in places if ":" in place
            )
        self.short = short_paths(paths)
        self.functions = self.find_functions() if with_functions else {}

    def find_functions(self):
        """The short name of each function, by the name that the symbols have; that of an address without lines by its symbol."""
        names = {frame[0] for found in self.lines.values() for frames in found.values() for frame in frames}
        for module, found in self.lines.items():
            symbols = [module.symbol_at(address) for address, frames in found.items() if not frames]
            names.update(symbol.name for symbol in symbols if symbol)
        readable = demangled(names)
        return {name: short_function(readable.get(name, name)) for name in names if name != "??"}

    def with_function(self, place, name):
        function = self.functions.get(name)
        return "%s (%s)" % (place, function) if function else place

    def shortened(self, place):
        path, colon, line = place.rpartition(":")
        return self.short[path] + colon + line if colon else line

    def frames(self, process, address, when):
        """The program's own lines at an address, the innermost first; never empty."""
        loaded = process.modules.at(address, when)
        if not loaded:
            return ["?"]
        offset = address - loaded.bias
        frames = self.lines[loaded.module].get(offset, [])
        own = [frame for frame in frames if not is_wrapper_source(frame[1])] or frames[-1:]
        if own:
            return [self.with_function("%s:%d" % (self.short[path], line), name) for name, path, line in own]
        symbol = loaded.module.symbol_at(offset) if self.functions else None
        place = "%s+0x%x" % (process.modules.name_of(loaded.module), offset)
        return [self.with_function(place, symbol.name if symbol else None)]


class Names:
    """Names of the threads and locks of one process."""

    def __init__(self, process, sources):
        self.process = process
        self.places = Places(process, sources)
        self.counts = process.parent.names.counts_of(process.first_lock) if process.parent else Counter()
        self.inherited_counts = Counter(self.counts)
        self.counted = {}  # by lock: what was counted for its name, and how far
        self.locks = {}
        self.order = self.name_threads()
        self.name_locks()

    # Threads

    def name_threads(self):
        """Gives them in the order of their births."""
        threads = self.process.threads
        routines = {thread.number: self.routine_of(thread) for thread in threads.values()}
        readable = demangled(routines.values())
        order = []
        for thread, way in threads_by_birth(threads, FOREIGN):
            routine = thread.routine_name or routine_name(routines[thread.number], readable)
            thread.name = clean(way.name() + (":" + routine if routine else ""))
            order.append(thread)
        return order

    def symbol_of(self, address, when, begins=False):
        """The name of the symbol at an address in memory; with `begins`, only of one that begins there."""
        loaded = self.process.modules.at(address, when) if address else None
        symbol = loaded.module.symbol_at(address - loaded.bias) if loaded else None
        if symbol is None or (begins and symbol.start != address - loaded.bias):
            return ""
        return symbol.name

    def routine_of(self, thread):
        """The symbol of the start routine. A thread of the C++ library's runs an object: a function that it points to,
        else its class. Of an object that has none no word is looked at: behind its end lies what others left."""
        routine = self.symbol_of(thread.routine, thread.when)
        if not any(thread.object):
            return routine
        table, shape, words = self.symbol_of(thread.object[0], thread.when), FUNCTION_GIVEN, thread.object[1:]
        if "14__thread_proxy" in routine:
            table, shape, words = routine, FUNCTION_GIVEN_BY_LLVM, words[:1]
        if shape.search(table):
            for word in words:
                name = self.symbol_of(word, thread.when, begins=True)
                if name and not name.startswith("_ZT"):
                    return name
        return table

    # Locks

    def name_locks(self):
        """Names the locks in an order that no schedule decides: first those that were made, by thread and by the order in
        which the thread made them, then those found, by the first event of the first thread that used them."""
        own = self.process.locks
        firsts = scan_events(self.process, self.order)
        self.name_static(own)
        self.name_told(own)
        rank = {thread.number: i for i, thread in enumerate(self.order)}
        made = [lock for lock in own.values() if lock.made]
        for lock in sorted(made, key=lambda lock: (rank.get(lock.thread, len(rank)), lock.order)):
            if lock.number not in self.locks:
                self.name_by_place(lock.number, lock, lock.site, self.thread_name(lock.thread))
        for thread, word in firsts:
            number = word >> OBJECT_SHIFT
            if number not in self.locks:
                self.name_found(number, word >> SITE_SHIFT & SITE_MASK, self.thread_name(thread))
            self.used += 1

    used = 0  # how many locks have an event

    def thread_name(self, number):
        thread = self.process.threads.get(number)
        return thread.name if thread else "?"

    def name_found(self, number, site, thread):
        """A lock that nobody made: its parent's name for it, or one by its first use."""
        name = self.inherited(number)
        if name:
            self.locks[number] = name
        else:
            self.name_by_place(number, self.process.locks.get(number) or self.parents_lock(number), site, thread)

    def inherited(self, number):
        """What the nearest process calls it that this one has it from."""
        process = self.process
        while process.parent and number < process.first_lock:
            process = process.parent
            if number in process.names.locks:
                return process.names.locks[number]
        return None

    def parents_lock(self, number):
        parent = self.process.parent
        while parent and number not in parent.locks:
            parent = parent.parent
        return parent.locks[number] if parent else None

    def name_static(self, locks):
        """Locks in the memory of a module: its symbol. A lock made again there is told by a number."""
        found = {}
        for lock in sorted(locks.values(), key=lambda lock: lock.number):
            loaded = self.process.modules.at(lock.address, lock.when)
            if loaded:
                found.setdefault((loaded.module, lock.address - loaded.bias), []).append(lock)
        symbols = {place: place[0].symbol_at(place[1]) for place in found}
        readable = demangled(s.name for s in symbols.values() if s)
        addresses = {place: "%s+0x%x" % (self.process.modules.name_of(place[0]), place[1]) for place in found}
        names = {place: clean(static_name(place, symbols[place], readable) or addresses[place]) for place in found}
        shared = Counter(names.values())
        for place, group in found.items():
            name = names[place]
            if shared[name] > 1:
                name = "%s@%s" % (name, addresses[place])
            for lock in group:
                self.name_counted(lock, name)

    def name_told(self, locks):
        """Locks whose whole name was told."""
        for lock in sorted(locks.values(), key=lambda lock: lock.number):
            if lock.name:
                self.name_counted(lock, lock.name)

    def count(self, number, name):
        """How many locks have this name so far, with the one of this number."""
        self.counts[name] += 1
        self.counted[number] = name, self.counts[name]
        return self.counts[name]

    def counts_of(self, first_lock):
        """How far names are counted of the locks below this number. A child goes on from there: what its parent counts after the
        fork is none of its own. (Such a lock may have a higher number than one after the fork, so how many there are doesn't do.)
        """
        counts = Counter(self.inherited_counts)
        for number, (name, count) in self.counted.items():
            if number < first_lock:
                counts[name] = max(counts[name], count)
        return counts

    def name_counted(self, lock, name):
        name = clean(name)  # others may be the same then
        count = self.count(lock.number, name)
        self.locks[lock.number] = clean(name if count == 1 else "%s#%d" % (name, count))

    def name_by_place(self, number, lock, site, thread):
        """kind@file:line#count, with the thread's name where it isn't the first thread."""
        base = "%s@%s#" % (lock.kind if lock else "lock", self.places.text_without_functions(site))
        if thread != "main":
            base += thread.split(":", 1)[0] + ":"
        self.locks[number] = clean("%s%d" % (base, self.count(number, base)))


# Of what stands for a function without a name of its own: what the thread was given, in the class that it runs, in what std::async
# runs, and in a std::function; and the same of LLVM's C++ library.
OBJECTS = [
    re.compile(r"vtable for std::thread::_State_impl<.*?tuple<(.*)> *> *>$"),
    re.compile(r"std::__future_base::_Async_state_impl<.*?tuple<(.*)> *>, .*>::_M_run\b"),
    re.compile(r"std::_Function_handler<.*?\), (.*)>::_M_\w+"),
    re.compile(r"std::__1::__thread_proxy.*?__async_func<(.*?)>"),
    re.compile(r"std::__1::__thread_proxy.*?tuple<std::__1::unique_ptr<.*?> >, (.*)> *>"),
]


def lambda_name(given):
    match = re.match(r"([\w:]+)(\(.*?\))?( const)?::(\{lambda.*\}|\$_\d+)", given)
    return match.group(1) + "::lambda" if match else ""


def routine_name(symbol, readable):
    """A short name of a start routine; of a lambda, the function that it stands in."""
    name = readable.get(symbol, symbol)
    for shape in OBJECTS:
        match = shape.match(name)
        if match:
            return lambda_name(match.group(1))
    return name


def static_name(place, symbol, readable):
    _, offset = place
    if symbol is None:
        return None
    name = short_variable(readable.get(symbol.name, symbol.name))
    return name if offset == symbol.start else "%s+0x%x" % (name, offset - symbol.start)


# --- Writing --------------------------------------------------------------------------------------------


class Summary:
    """What was written of one process."""

    def __init__(self, process, path):
        threads = process.threads.values()
        self.path = path
        self.process = process
        self.kinds = [sum(counts) for counts in zip(*(t.kinds for t in threads))] or [0] * KINDS
        self.events = sum(self.kinds)
        self.locks = process.names.used
        self.left_out = sum(t.left_out for t in threads)
        self.others = sum(t.others for t in threads)
        self.lost = Counter(process.lost)
        self.lost["events"] += sum(t.lost for t in threads)

    def lines(self):
        process = self.process
        if self.events:
            yield "%s: %d events (and %d of repeats, left out), %d threads, %d locks, %d other calls; %s" % (
                self.path,
                self.events,
                self.left_out,
                len(process.threads),
                self.locks,
                self.others,
                self.name(),
            )
        for what, count in self.lost.items():
            if count:
                yield "%s: %d %s were lost: %s" % (
                    self.path if self.events else self.name(),
                    count,
                    what,
                    "there was no room for them" if process.reason in NO_ROOM else os.strerror(process.reason),
                )
        for note in process.notes:
            yield "%s: %s" % (self.path if self.events else self.name(), note)
        if not self.events:
            return
        if not self.locks:
            yield "%s: threads, but no lock: does the program have locks of its own?" % self.path
        yield from self.special_lines()

    def special_lines(self):
        if self.kinds[AGAIN]:
            yield "%s: %d times a thread asked for a lock that isn't recursive and that it held (`again` lines): it waits for itself" % (
                self.path,
                self.kinds[AGAIN],
            )
        if self.kinds[UPGRADE]:
            yield "%s: %d times a thread asked for a lock exclusively that it held shared (`upgrade` lines): it waits for itself" % (
                self.path,
                self.kinds[UPGRADE],
            )
        if self.kinds[BEYOND]:
            yield "%s: %d acquires by threads that held %d locks, or the lock %d times (`beyond` lines): goodlock skips these" % (
                self.path,
                self.kinds[BEYOND],
                HELD_LIMIT,
                DEPTH_LIMIT,
            )
        if len(self.process.threads) > THREAD_LIMIT:
            yield from self.too_many_lines()

    def too_many_lines(self):
        yield "%s: goodlock reads at most %d threads, it will refuse this trace" % (self.path, THREAD_LIMIT)
        yield "%s.window1 to .window%d have at most %d threads each, born one after the other, or doing what few others do: a cycle is seen only where all its threads are in one" % (
            self.path,
            len(windows(self.process)),
            THREAD_LIMIT,
        )

    def name(self):
        return described(self.process)


def summary_lines(summaries):
    """What is said of the traces; processes without events are counted."""
    found = [line for summary in summaries for line in summary.lines()]
    silent = [summary for summary in summaries if not summary.events]
    if len(silent) == 1:
        found.append("%s: no events, no file" % silent[0].name())
    elif silent:
        found.append("%d processes: no events, no file" % len(silent))
    return found


def described(process):
    return "process %d (%s)" % (process.key[0], shortened(process.command))


def shortened(command):
    command = clean(command.strip())
    return command if len(command) <= 60 else command[:57] + "..."


def write_lines(process, traces):
    """Writes traces of one process: for each the path of its file, and the threads that it is of, or None for all. Forks and joins of
    other threads are left out."""
    names = process.names
    files, packed = packed_files(names.order)
    parts = [packed, packed_numbers(process.no_locks), packed_texts(names.locks), packed_texts(names.places.all())]
    parts.append(array("Q", [len(traces)]).tobytes())
    for path, members in traces:
        order = [thread for thread in names.order if members is None or thread.number in members]
        parts += [
            packed_path(path),
            packed_texts({thread.number: thread.name for thread in order}),
            packed_chunks(order, files),
        ]
    run_program("goodlock_lines", ["write"], b"".join(parts))


def windows(process):
    """Sets of threads that goodlock reads, for a process that has too many: in each the first thread, those that made threads, some
    that do what few others do, and others that were born one after the other. Half of a window's are in the next one too, so
    that all that were born close to each other are in one together."""
    if process.windows is None:
        process.windows = found_windows(process)
    return process.windows


def found_windows(process):
    threads = process.threads
    if len(threads) <= THREAD_LIMIT:
        return []
    kept = {number for number, thread in threads.items() if thread.child == 0 or thread.children}
    if len(kept) > THREAD_LIMIT // 2:
        kept = {number for number, thread in threads.items() if thread.child == 0 and thread.parent != FOREIGN}
    found = windows_with(process, kept)
    more = examples(process, found, min(EXAMPLES, THREAD_LIMIT // 2 - len(kept)))
    return windows_with(process, kept | more) if more else found


def windows_with(process, kept):
    """Those with these threads in each."""
    others = sorted(set(process.threads) - kept)
    room = THREAD_LIMIT - len(kept)
    starts = range(0, max(1, len(others) - room + room // 2), room // 2)
    return [kept.union(others[start : start + room]) for start in starts]


def examples(process, found, room):
    """Threads of each behaviour that isn't in all windows, so many at most: first of those that few threads have."""
    groups = {}
    with OpenFiles() as files:
        for number, thread in sorted(process.threads.items()):
            groups.setdefault(behaviour(thread, files), []).append(number)
    groups = [group for group in groups.values() if any(members.isdisjoint(group) for members in found)]
    groups.sort(key=lambda group: (len(group), group[0]))
    chosen = set()
    for place, group in enumerate(groups):
        share = min(len(group), (room - len(chosen)) // (len(groups) - place) or 1, room - len(chosen))
        chosen.update(group[(len(group) - 1) * i // max(1, share - 1)] for i in range(share))
    return chosen


def behaviour(thread, files):
    """What a thread does at which places, whatever its locks are."""
    text = hashlib.blake2b(digest_size=16)
    for path, offset, count in thread.chunks:
        for place in range(0, count, PIECE):
            words = array("I")
            words.frombytes(os.pread(files.of(path), 8 * min(PIECE, count - place), offset + 8 * place))
            text.update(words[KIND_AND_SITE::2].tobytes())
    return text.digest()


class OpenFiles:
    def __init__(self):
        self.files = {}

    def __enter__(self):
        return self

    def of(self, path):
        if path not in self.files:
            self.files[path] = os.open(path, os.O_RDONLY | os.O_CLOEXEC)
        return self.files[path]

    def __exit__(self, *_):
        for file in self.files.values():
            os.close(file)


def process_paths(keys, trace, first):
    """The first image of the first process has the trace's own name; others add their process's number, and the image's
    from the second on."""
    paths = {}
    for key in keys:
        pid, image = key
        if pid == first and image == 0:
            paths[key] = trace
        else:
            paths[key] = "%s.%d" % (trace, pid) + (".%d" % image if image else "")
    return paths


def trace_paths(processes, trace, first):
    """The path of each process's trace. Nothing that exists is overwritten."""
    paths = process_paths(processes, trace, first)
    for key, path in paths.items():
        for taken in [path] + ["%s.window%d" % (path, i + 1) for i in range(len(windows(processes[key])))]:
            if os.path.lexists(taken):
                raise ConvertError("%s exists already" % taken)
    return paths


def traces_of(summary):
    """The name of each trace of a process, and the threads that it is of."""
    yield summary.path, None
    for number, members in enumerate(windows(summary.process), 1):
        yield "%s.window%d" % (summary.path, number), members


def write_traces(summaries):
    """Writes all traces aside, and gives them their names when all are whole: none is there in part or alone."""
    aside, named = [], []
    ending = ".part.%s" % os.urandom(4).hex()
    try:
        for summary in summaries:
            traces = list(traces_of(summary)) if summary.events else []
            for name, _ in traces:
                os.close(os.open(name + ending, os.O_WRONLY | os.O_CREAT | os.O_EXCL | os.O_CLOEXEC, 0o666))
                aside.append((name + ending, name))
            if traces:
                write_lines(summary.process, [(name + ending, members) for name, members in traces])
        for path, name in aside:
            take_name(path, name)
            named.append(name)
    except BaseException:
        for name in named:
            os.unlink(name)
        raise
    finally:
        for path, _ in aside:
            if os.path.lexists(path):
                os.unlink(path)


def take_name(path, name):
    """Renames a file, but over none. Where the file system knows no second names, the name was free a moment ago."""
    try:
        os.link(path, name)
    except FileExistsError:
        raise ConvertError("%s exists already" % name)
    except OSError:
        os.rename(path, name)


def convert_recording(recording, trace, first=None, with_functions=False):
    """Writes the trace of each process; their summaries, the first process's first, and what was damaged. `first`: its number,
    else the least. `with_functions`: places have the names of their functions."""
    from damage import take_damaged

    processes, faults = read_processes(recording)
    if first is None and processes:
        first = min(processes)[0]
    sources = Sources(processes.values(), with_functions)
    for process in processes.values():
        name_process(process, sources)
    faults += take_damaged(recording, processes)
    paths = trace_paths(processes, trace, first)
    order = sorted(processes.values(), key=lambda process: (process.key[0] != first, process.key))
    summaries = [Summary(process, paths[process.key]) for process in order]
    write_traces(summaries)
    return summaries, faults


def name_process(process, sources):
    """Parents first: a child's names of inherited locks are its parent's."""
    waiting = []
    while process and not process.names:
        waiting.append(process)
        process = process.parent
    for process in reversed(waiting):
        process.names = Names(process, sources)
