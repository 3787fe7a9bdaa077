"""Tries to make a predicted deadlock happen.

    goodlock-confirm [--finding N] [--tries N] [--seconds S] [-o FILE] REPORT.json -- PROGRAM [ARGUMENT..]

--finding N        the finding that is tried, by its number in goodlock-view (1)
--tries N          how often the program is run (5)
--seconds S        how long each run takes at most (30)
-o FILE            write the outcome as JSON, for goodlock-view --confirmed
--help, --version  print this, print the version

docs/CONFIRMING.md explains it.
"""

import json
import mmap
import os
import re
import shutil
import signal
import stat
import struct
import sys
import tempfile
import time
import traceback

SOURCES = os.path.dirname(os.path.realpath(__file__))
sys.path.insert(0, SOURCES)
sys.pycache_prefix = os.path.join(os.path.dirname(SOURCES), "out", "python")
sys.dont_write_bytecode = True

from early import end_when_interrupted  # noqa: E402

if __name__ == "__main__":
    end_when_interrupted("goodlock-confirm")

from build import BuildError, has_bytecode_room  # noqa: E402

sys.dont_write_bytecode = not has_bytecode_room()

from convert import ConvertError, Sources, clean, described, name_process, read_processes, take_name  # noqa: E402
from family import BEGIN_LIMIT, Family, adopt_orphans, send_signal, start  # noqa: E402
from findings import ReportError, place_of, read_findings  # noqa: E402
from interrupt import interrupt_once  # noqa: E402
from launch import (  # noqa: E402
    VERSION,
    Failed,
    Preload,
    became_unrecorded,
    child_environment,
    fill_closed_descriptors,
    forget_locale,
    print_text,
    tell,
    what_became,
)
from recording import maps_file, new_recording  # noqa: E402
from symbols import demangled  # noqa: E402

STATUS_NOT_SEEN, STATUS_DEADLOCKED, STATUS_ERROR = 0, 1, 125
EDGE_LIMIT = 16
ENDING = (signal.SIGINT, signal.SIGTERM, signal.SIGHUP)
# How long a thread is held back, by try; the last one for all further tries.
HOLDS = (300, 300, 1000, 1000, 3000)
# Seconds between two looks at what the threads wait for. A cycle counts if it is the same in two of them.
LOOK = 0.1

# confirm.c has this layout.
WAITS_NAME = re.compile(r"([0-9]{1,18})\.([0-9]{1,18})\.waits")
HELD_LIMIT, STACK_LIMIT = 64, 16
HELD = 7
WANTED_STACK = HELD + HELD_LIMIT
HELD_STACKS = WANTED_STACK + STACK_LIMIT
WAIT_WORDS = HELD_STACKS + EDGE_LIMIT * STACK_LIMIT
OBJECT_SHIFT, SITE_SHIFT, SITE_MASK, KIND_MASK = 32, 5, (1 << 27) - 1, 31
SHARED = (3, 6)
# Where in a mutex of glibc its owner stands.
MUTEX_OWNER = 8
# In place of what stands there: this process may not look.
NO_RIGHT = -1
# Bytes that a file of the outcome is given before the runs: it seldom has more.
OUTPUT_ROOM = 1 << 16

USAGE = "usage: goodlock-confirm [--finding N] [--tries N] [--seconds S] [-o FILE] REPORT.json -- PROGRAM [ARGUMENT..]"


def say(text):
    tell("goodlock-confirm", text)


# --- Arguments --------------------------------------------------------------------------------------


class Settings:
    def __init__(self):
        self.finding = 1
        self.tries = 5
        self.seconds = 30
        self.output = None
        self.report = None
        self.command = []
        self.mask = ()  # the signals that were blocked before


def read_number(word, text):
    if not (text.isascii() and text.isdigit() and len(text) <= 7 and 1 <= int(text) <= 1000000):
        raise Failed("%s takes a number from 1 to 1000000" % word)
    return int(text)


def read_arguments(arguments):
    settings = Settings()
    if arguments in (["-h"], ["--help"]):
        print_text(__doc__.strip())
        sys.exit(0)
    if arguments in (["-V"], ["--version"]):
        print_text("goodlock-confirm " + VERSION)
        sys.exit(0)
    rest = list(arguments)
    while rest and rest[0] != "--":
        word = rest.pop(0)
        if word in ("--finding", "--tries", "--seconds", "-o") and rest:
            value = rest.pop(0)
            if word == "-o" and value == "":
                raise Failed("-o takes a name that isn't empty\n%s" % USAGE)
            if word == "-o":
                settings.output = value
            else:
                setattr(settings, word[2:], read_number(word, value))
        elif word.startswith("-") or settings.report is not None:
            raise Failed("wrong word %s\n%s" % (word, USAGE))
        else:
            settings.report = word
    settings.command = rest[1:]
    if settings.report is None or not settings.command:
        raise Failed(USAGE)
    if settings.command[0] == "":
        raise Failed("the program's name is empty\n%s" % USAGE)
    if settings.output is not None and os.path.lexists(settings.output):
        raise Failed("%s exists already; nothing was run" % settings.output)
    return settings


# --- What the threads wait for ----------------------------------------------------------------------


class Wait:
    """A thread that waits for a lock."""

    def __init__(self, process, words):
        self.process = process  # (pid, image)
        self.turns, self.task, self.wanted, self.address, self.condition, count, self.thread = words[:HELD]
        self.held = words[HELD : HELD + min(count, HELD_LIMIT)]
        self.stacks = words[WANTED_STACK:]
        self.is_hidden = False  # whether the kernel wouldn't say what it waits for

    def key(self):
        return self.process, self.thread, self.turns, self.wanted

    def held_word(self, lock):
        """The acquire by which it holds the lock, or None."""
        return next((word for word in self.held if word >> OBJECT_SHIFT == lock), None)

    def is_for(self, other):
        """Whether it waits for a lock that the other one holds, and can't share."""
        word = other.held_word(self.wanted >> OBJECT_SHIFT)
        return word is not None and not (word & KIND_MASK in SHARED and self.wanted & KIND_MASK in SHARED)

    def mutex_owner(self):
        """The thread that has the mutex, as the C library keeps it in there; None if it can't be read, NO_RIGHT if it may not be."""
        try:
            with open("/proc/%d/mem" % self.process[0], "rb", buffering=0) as memory:
                memory.seek(self.address + MUTEX_OWNER)
                return struct.unpack("=i", memory.read(4))[0]
        except PermissionError:
            return NO_RIGHT
        except (OSError, ValueError, struct.error):
            return None

    def is_blocked(self):
        """Who waits for a condition waits for the lock only where the kernel says so."""
        if not self.condition:
            return True
        try:
            with open("/proc/%d/task/%d/syscall" % (self.process[0], self.task)) as file:
                return file.read().split()[1] == "0x%x" % self.address
        except PermissionError:
            self.is_hidden = True
            return False
        except (OSError, IndexError):
            return False


def waits_files(recording):
    """Where it stands what the threads of each process wait for, by (pid, image); of none that has no room for that."""
    found = {}
    for place, _ in recording.places():
        for match in filter(None, map(WAITS_NAME.fullmatch, os.listdir(place))):
            path = os.path.join(place, match.group())
            status = os.lstat(path)
            if stat.S_ISREG(status.st_mode) and status.st_size > 0:
                found[int(match.group(1)), int(match.group(2))] = path
    return found


def read_waits(recording):
    """The threads that wait, of all processes."""
    found = []
    for process, path in waits_files(recording).items():
        with open(path, "rb") as file:
            data = mmap.mmap(file.fileno(), 0, access=mmap.ACCESS_READ)
        for place in range(0, len(data) - 8 * WAIT_WORDS + 1, 8 * WAIT_WORDS):  # fewer of a file that is just made
            if struct.unpack_from("=Q", data, place + 16)[0]:
                found.append(Wait(process, struct.unpack_from("=%dQ" % WAIT_WORDS, data, place)))
        data.close()
    return found


def waiting_cycle(waits):
    """Threads each of which waits for a lock that the next one holds, the last one's next being the first; [] if there are
    none."""
    nexts = {}
    for wait in waits:
        if wait.is_blocked():
            nexts[wait] = [
                other for other in waits if other is not wait and other.process == wait.process and wait.is_for(other)
            ]
    for start in nexts:
        way, seen = [start], {start}
        while True:
            further = [other for other in nexts.get(way[-1], ()) if other in nexts]
            if start in further and len(way) > 1:
                return way
            further = [other for other in further if other not in seen]
            if not further:
                break
            way.append(further[0])
            seen.add(further[0])
    return []


# --- Places -----------------------------------------------------------------------------------------


# A line of a file, or an offset in a module; a file's name may have all that stands between places in it.
PLACE = re.compile(r".*?(?::[0-9]+|\+0x[0-9a-f]+)(?= \(|<|$)")


def first_place(text):
    """Without its callers and its function."""
    match = None if text.startswith("?<") else PLACE.match(text)
    return match[0] if match else text.split("<", 1)[0].partition(" (")[0]


def spelled(text):
    """A place as a report spells it: what isn't printable ASCII, and a backslash, as a backslash, x and two digits."""
    data = text.encode("utf-8", "backslashreplace")
    return "".join(chr(byte) if 0x20 <= byte < 0x7F and byte != 0x5C else "\\x%02x" % byte for byte in data)


def same_place(one, other):
    """Places of two runs: a file has as many directories before its name as tell it from others in its run."""
    one, other = first_place(one), first_place(other)
    return one == other or one.endswith("/" + other) or other.endswith("/" + one)


class Places:
    """Where in the modules the places of the cycle are: found in what was recorded."""

    def __init__(self, edges):
        self.edges = edges
        self.known = set()  # (role, offset, path)
        self.missing = set()

    def learn(self, processes):
        for process in processes.values():
            for number, (callers, when) in process.sites.items():
                loaded = process.modules.at(callers[0] - 1, when)
                text = spelled(process.names.places.text(number))
                for role, place in self.roles() if loaded else ():
                    if same_place(place, text):
                        self.known.add((role, callers[0] - 1 - loaded.bias, loaded.module.path))
        seen = {role for role, _, _ in self.known}
        self.missing = {place for role, place in self.roles() if role not in seen}

    def roles(self):
        for number, edge in enumerate(self.edges):
            yield number, edge["wanted_at"]
            yield EDGE_LIMIT + number, edge["held_at"]

    def plan(self, milliseconds):
        lines = ["%d %d" % (len(self.edges), milliseconds)]
        lines += [
            "%d %x %d %s" % (role, offset, len(os.fsencode(path)), path) for role, offset, path in sorted(self.known)
        ]
        return "\n".join(lines) + "\n"


# --- A run ------------------------------------------------------------------------------------------


def started(command, environment, mask):
    """Starts the program, which nobody hears, with the signals blocked that were so before."""
    _, fault = start(command, environment, mask, is_quiet=True)
    if fault:
        raise OSError(fault, os.strerror(fault), command[0])


class Run:
    """One run of the program."""

    def __init__(self, settings, directory, preload, plan):
        self.recording = new_recording(os.path.join(directory, "run"))
        plan_path = os.path.join(self.recording.directory, "plan")
        with open(plan_path, "wb") as file:
            file.write(os.fsencode(plan))
        os.chmod(plan_path, 0o644)  # for the user whom the program may become
        settings.frames, settings.all = 1, False
        environment = child_environment(settings, self.recording.directory, preload.path)
        environment["GOODLOCK_CONFIRM_PLAN"] = plan_path
        self.family = Family(self.recording, say)
        self.cycle = []
        self.hidden = []  # processes of which the kernel wouldn't say what a thread waits for
        self.in_time = True
        self.killed = set()  # processes
        self.unrecorded = set()  # those of them that ran what isn't recorded
        self.limit = time.monotonic() + settings.seconds
        try:
            started(settings.command, environment, settings.mask)
            self.watch()
            self.kill()
        finally:  # also what a signal ends, of which there is one at most
            self.kill()

    def members(self):
        return self.family.living()

    def watch(self):
        """Until the program and all that it started have ended, hang in a cycle, or took too long."""
        before = None
        while self.members():
            self.family.reap()
            waits = read_waits(self.recording)
            cycle = waiting_cycle(waits)
            self.hidden += [wait.process[0] for wait in waits if wait.is_hidden]
            keys = {wait.key() for wait in cycle}
            if cycle and keys == before:
                self.cycle = cycle
                self.owners = [wait.mutex_owner() for wait in cycle]
                return
            before = keys
            if time.monotonic() > self.limit:
                self.in_time = False
                self.unrecorded = self.others()
                return
            time.sleep(LOOK)

    def others(self):
        """The processes that run what isn't recorded. One that has just become another program has a moment to begin its files."""
        others = set(self.members())
        limit = time.monotonic() + BEGIN_LIMIT
        while others and time.monotonic() < limit:
            others = {process for process in others & set(self.members()) if not maps_file(process, self.family.token)}
            time.sleep(LOOK)
        return others

    def kill(self):
        """Ends the program and what it started: each is held fast, and looked at again, before it is sent the signal."""
        while True:
            members = self.members()
            if not members:
                break
            self.killed.update(members)
            send_signal(members, signal.SIGKILL, self.members)
            self.family.reap()
            time.sleep(0.01)
        self.family.reap()

    def blind(self, processes):
        """Those in which there was no room for what threads wait for: a cycle there isn't seen."""
        return processes.keys() - waits_files(self.recording).keys()

    def doubts(self, processes):
        """What isn't known of this run: (which kind of doubt, text)."""
        gone = became_unrecorded(self.recording, processes.values(), self.killed - self.unrecorded)
        if gone:
            yield "unrecorded", what_became([described(process) for process in gone])
        if self.hidden:
            yield "hidden", "unknown whether threads that waited for conditions had woken: " + no_right(self.hidden[0])

    def processes(self):
        processes, _ = read_processes(self.recording)
        addresses = [address for wait in self.cycle for address in wait.stacks if address]
        for process in processes.values():
            process.sites[SITE_MASK + 1] = addresses or [0], process.modules.when
        self.sources = Sources(processes.values())
        for process in processes.values():
            del process.sites[SITE_MASK + 1]
            name_process(process, self.sources)
        return processes


def no_right(process):
    return "no right to look at process %d (CAP_SYS_PTRACE)" % process


# --- A deadlock -------------------------------------------------------------------------------------


class Deadlock:
    """The threads of a cycle, in words."""

    def __init__(self, run, processes, places):
        self.process = processes[run.cycle[0].process]
        self.sources = run.sources
        self.places = places
        self.owners = run.owners
        self.steps = []
        for i, wait in enumerate(run.cycle):
            wanted_by_last = run.cycle[i - 1].wanted >> OBJECT_SHIFT
            self.steps.append((wait, wait.held_word(wanted_by_last)))

    def place(self, word):
        return self.process.names.places.text(word >> SITE_SHIFT & SITE_MASK)

    def location(self, word):
        """As findings tell it."""
        return place_of(spelled(self.place(word)), spelled(self.process.names.locks.get(word >> OBJECT_SHIFT, "?")))

    def pairs(self):
        return [(self.location(held), self.location(wait.wanted)) for wait, held in self.steps]

    def doubt(self):
        """Why it may be no deadlock, if it may: each mutex of the cycle has to belong to the thread that acquired it, as another one may
        have unlocked it."""
        for i, (wait, _) in enumerate(self.steps):
            number = wait.wanted >> OBJECT_SHIFT
            lock = self.process.locks.get(number) or self.process.names.parents_lock(number)
            if not lock or lock.kind != "mutex" or self.owners[i] == self.steps[(i + 1) % len(self.steps)][0].task:
                continue
            if self.owners[i] == NO_RIGHT:
                unknown = "hung in a cycle, and it is unknown whether its mutexes are those threads': %s"
                return unknown % no_right(wait.process[0])
            return "waited for a mutex that another thread had unlocked"
        return None

    def is_of(self, finding):
        """Whether its pairs of places are those of the finding."""

        def covers(ones, others):
            return all(any(same_place(a, c) and same_place(b, d) for c, d in others) for a, b in ones)

        return covers(self.pairs(), finding.pairs) and covers(finding.pairs, self.pairs())

    def stack(self, addresses):
        parts = []
        for address in addresses:
            if not address:
                break
            loaded = self.process.modules.at(address - 1, self.process.modules.when)
            symbol = loaded.module.symbol_at(address - 1 - loaded.bias) if loaded else None
            name = demangled([symbol.name]).get(symbol.name, symbol.name) if symbol else "?"
            place = self.sources.frames(self.process, address - 1, self.process.modules.when)[0]
            parts.append(clean("%s (%s)" % (name, place)))
        return parts

    def held_stack(self, wait, held):
        """The stack of the acquire of a held lock, where it was at a place of the cycle."""
        for number, edge in enumerate(self.places.edges):
            if same_place(edge["held_at"], spelled(self.place(held))):
                return self.stack(wait.stacks[STACK_LIMIT * (number + 1) : STACK_LIMIT * (number + 2)])
        return []

    def lines(self):
        names = self.process.names
        for wait, held in self.steps:
            yield "  %s holds %s since %s and waits for %s at %s" % (
                names.thread_name(wait.thread),
                names.locks.get(held >> OBJECT_SHIFT, "?"),
                self.place(held),
                names.locks.get(wait.wanted >> OBJECT_SHIFT, "?"),
                self.place(wait.wanted),
            )
            for word, stack in (("since", self.held_stack(wait, held)), ("at", self.stack(wait.stacks[:STACK_LIMIT]))):
                for number, frame in enumerate(stack):
                    yield "    %-5s %s" % (word if number == 0 else "", frame)


# --- All tries --------------------------------------------------------------------------------------


def let_through(folder):
    """To what they know the name of: a program that gives up root's rights has to come to its recording, and nobody else knows it."""
    os.chmod(folder, 0o711)


def outcome_of(settings, finding, directory, preload):
    """A deadlock and the number of the run in which it came (0: the first one, that finds the places), or None. Also how many
    runs took too long."""
    places = Places(finding.sample)
    late, doubts = 0, {}
    for number in range(settings.tries + 1):
        hold = HOLDS[min(number, len(HOLDS)) - 1] if number else 0
        own = os.path.join(directory, "%d" % number)
        os.mkdir(own)
        let_through(own)
        run = Run(settings, own, preload, places.plan(hold))
        processes = recorded_processes(run, directory)
        if run.cycle:
            deadlock = Deadlock(run, processes, places)
            doubt = deadlock.doubt()
            if not doubt and deadlock.is_of(finding):
                return deadlock, number, late
            say("run %d: the program %s:" % (number, doubt or "hung in another cycle"))
            for line in deadlock.lines():
                say(line)
        late += not run.in_time
        for kind, text in run.doubts(processes):
            doubts.setdefault(kind, text)
        places.learn(processes)
        shutil.rmtree(own)
    for text in [*doubts.values(), *("no run came to %s" % place for place in sorted(places.missing))]:
        say(text)
    return None, settings.tries, late


def recorded_processes(run, directory):
    """Those of a run, in which there has to be one whose threads can be looked at."""
    processes = run.processes()
    if not processes:
        raise Failed(
            "nothing was recorded: is the program statically linked, set-user-id, with file capabilities or of another "
            "machine type?"
        )
    if len(run.blind(processes)) == len(processes):
        raise Failed("%s: no room for what the threads wait for" % directory)
    return processes


class Output:
    """The outcome for tools: a file that is there whole, or not at all. Whether it can be written is seen before anything is run: it is
    made aside then, with room for what it mostly has."""

    def __init__(self, path):
        self.path = path
        self.aside = path + ".part.%s" % os.urandom(4).hex()
        try:
            with open(self.aside, "xb") as file:
                file.write(bytes(OUTPUT_ROOM))
        except OSError as error:
            self.remove()
            raise Failed("%s: %s; nothing was run" % (path, error.strerror))

    def write(self, value):
        text = json.dumps(value, sort_keys=True, separators=(",", ":")) + "\n"
        try:
            with open(self.aside, "r+b") as file:
                file.write(text.encode())
                file.truncate()
            take_name(self.aside, self.path)
        except OSError as error:
            raise Failed("%s: %s" % (self.path, error.strerror))

    def remove(self):
        """What stands aside, if it does."""
        if os.path.lexists(self.aside):
            os.unlink(self.aside)


def run_and_tell(settings, finding, output):
    """All tries; their outcome on standard output and, where that is asked for, in a file."""
    preload = Preload()
    directory = tempfile.mkdtemp(prefix="goodlock-confirm.")
    try:
        let_through(directory)
        deadlock, number, late = outcome_of(settings, finding, directory, preload)
    finally:
        preload.remove()
        shutil.rmtree(directory, ignore_errors=True)
    if deadlock:
        lines = ["deadlocked in try %d" % number if number else "deadlocked in the first run"] + list(deadlock.lines())
    else:
        lines = ["not seen in %d tries" % number if number > 1 else "not seen in 1 try"]
        if late:
            lines[0] += ", %d runs ended after %d seconds" % (late, settings.seconds)
    try:
        print_text("\n".join(lines))
    finally:
        if output:
            pairs = [list(pair) for pair in finding.pairs]
            outcome = "deadlocked" if deadlock else "not seen"
            output.write({"outcome": outcome, "pairs": pairs, "text": lines, "tries": number})
    return STATUS_DEADLOCKED if deadlock else STATUS_NOT_SEEN


def confirm(settings, finding):
    output = Output(settings.output) if settings.output is not None else None
    try:
        return run_and_tell(settings, finding, output)
    finally:
        if output:
            output.remove()


def main():
    fill_closed_descriptors()
    forget_locale()
    settings = read_arguments(sys.argv[1:])
    findings = read_findings(settings.report)
    if settings.finding > len(findings):
        raise Failed("%s has %d findings" % (settings.report, len(findings)))
    finding = findings[settings.finding - 1]
    if len(finding.sample) > EDGE_LIMIT:
        raise Failed("a cycle of more than %d edges" % EDGE_LIMIT)
    if not adopt_orphans():
        raise Failed("Python's ctypes is missing")
    settings.mask = interrupt_once(ENDING)
    return confirm(settings, finding)


if __name__ == "__main__":
    try:
        sys.exit(main())
    except (Failed, ReportError, ConvertError, BuildError) as failure:
        say(str(failure))
    except OSError as error:
        say("%s: %s" % (error.filename, error.strerror) if error.filename else str(error))
    except KeyboardInterrupt:
        say("interrupted")
    except Exception:  # its own status 1 would say that there is a deadlock
        say(traceback.format_exc().rstrip())
    sys.exit(STATUS_ERROR)
