"""Reports of a program while it runs: a process beside the launcher that follows the files of the recording, and the reports at the
end. The events are copied and reported by goodlock_live (convert/live.c); the names are those that a trace would have (convert.py)."""

import json
import os
import re
import select
import signal
import struct
import time
from array import array
from collections import namedtuple

from build import BuildError
from convert import (
    CHUNK_HEAD,
    END_EXEC,
    END_UNKNOWN,
    JOIN,
    KINDS,
    OBJECT_SHIFT,
    SITE_MASK,
    SITE_SHIFT,
    THREAD_LIMIT,
    ConvertError,
    Sources,
    Summary,
    described,
    name_process,
    packed_chunks,
    packed_files,
    packed_numbers,
    packed_path,
    packed_texts,
    process_paths,
    processes_of,
    run_program,
    take_name,
    windows,
)
from damage import take_damaged
from family import FORWARDED, adopt_orphans
from recording import maps_file

WAY_JSON, WAY_SETTLED, WAY_SHORT, WAY_COUNT, WAY_FINDINGS = 1, 2, 4, 8, 16
MODES = {"basic": 0, "guarded": 1, "full": 2}  # as goodlock.h has them
BATCH = 16  # windows that are reported at once
# What the library answers, and what goodlock_live adds.
OK, MEMORY, INCONSISTENT, WITHOUT_EVENTS = 0, 1, 10, 1000
CODES = {
    MEMORY: "there wasn't enough memory",
    4: "it has more threads than goodlock reads",
    INCONSISTENT: "its forks and joins order a part of a thread before itself",
    11: "it has more names than goodlock keeps",
    20: "a thread has more events than goodlock keeps",
    25: "a lock was taken too often by a thread that held it",
}

# Seconds: between two looks at the files, that threads wait for each other before it counts as a hang, and until a report is made
# of what is never quiet. A look takes a tenth of the time at most.
LOOK = 0.5
HANG = 0.5
UNQUIET = 10
SHARE = 10
END_LIMIT = 5
ENDING = (signal.SIGINT, signal.SIGTERM, signal.SIGHUP, signal.SIGQUIT)


# --- The copy of the events ------------------------------------------------------------------------------

# Of each thread that waits: its number, the word of its acquire or join, who has the lock or is joined, whether that one has ended,
# and two numbers that tell how far it is.
WAIT_WORDS = 6
OF_PARENT = 2  # that a thread of the parent's has the lock, which this process doesn't have


class Copied:
    """What goodlock_live copied of one process: where its events and tables are, a hash of the events, threads that wait for each
    other, and between which moments."""

    def __init__(self, words, extents, path, began, ended):
        self.began, self.ended = began, ended
        self.tables = [(next(words), extents[next(words)], next(words)) for _ in range(next(words))]
        self.chunks = []  # as convert.read_events
        for order in range(next(words)):
            thread, offset, count = next(words), next(words), next(words)
            if count:
                self.chunks.append((thread, order, path, offset, count))
        self.hash = next(words)
        self.round = [tuple(next(words) for _ in range(WAIT_WORDS)) for _ in range(next(words))]


def copy_events(recording):
    """The events of all processes as they are now, by (pid, image)."""
    extents = {}
    for pid, image, _, path in recording.extents():
        extents.setdefault((pid, image), []).append(path)
    request = [array("Q", [len(extents)]).tobytes()]
    for paths in extents.values():
        request += [array("Q", [len(paths)]).tobytes()] + [packed_path(path) for path in paths]
    path = recording.work_file("copy")
    answer = array("Q")
    began = time.monotonic()
    answer.frombytes(run_program("goodlock_live", ["copy", path], b"".join(request)))
    ended = time.monotonic()
    words = iter(answer)
    return {key: Copied(words, paths, path, began, ended) for key, paths in extents.items()}


def last_copy(recording, running):
    """The same at the end. In a process that still runs threads are copied at different moments: that they wait for each other counts
    where they did so half a second before."""
    before = copy_events(recording)
    waiting = [key for key, copy in before.items() if copy.round and is_among(key, running)]
    if not waiting:
        return before
    time.sleep(HANG)
    copied = copy_events(recording)
    for key, copy in copied.items():
        if is_among(key, running) and copy.round != (before[key].round if key in waiting else []):
            copy.round = []
    return copied


def is_among(key, running):
    """Whether it is a process of these, which are told as numbers or as texts."""
    return str(key[0]) in map(str, running)


def read_tables(tables):
    """The words of these chunks of tables, as far as they are in use by now."""
    found = []
    for _, path, offset in sorted(tables):
        with open(path, "rb") as file:
            head = os.pread(file.fileno(), CHUNK_HEAD, offset)
            length, used = struct.unpack_from("=IQ", head, 12)
            words = array("Q")
            words.frombytes(os.pread(file.fileno(), min(8 * used, length - CHUNK_HEAD) // 8 * 8, offset + CHUNK_HEAD))
        found.append(words)
    return found


def named_processes(recording, copied, modules, with_functions):
    """All processes with their names, and what is damaged. The tables are read after the events: they have all that these name."""
    events = {key: copy.chunks for key, copy in copied.items()}
    tables = {key: read_tables(copy.tables) for key, copy in copied.items()}
    processes, faults = processes_of(events, tables, modules)
    sources = Sources(processes.values(), with_functions)
    for process in processes.values():
        name_process(process, sources)
    return processes, faults


# --- Reports ---------------------------------------------------------------------------------------------


# Which cycles count, how many edges they may have, and how many are listed: of these, or of findings.
Question = namedtuple("Question", ("mode", "length", "most", "findings"), defaults=(False,))


class Report:
    """What goodlock_live answered for one report, and what it wrote. It lists so many cycles, or findings."""

    def __init__(self, code, listed, more, data, findings=False):
        self.code = code
        self.listed = listed
        self.more = more
        self.data = data
        self.word = "finding" if findings else "cycle"

    def count(self):
        many = "" if self.listed == 1 else "s"
        return "%d %s%s%s" % (self.listed, self.word, many, " (more)" if self.more else "")

    def fault(self):
        return CODES.get(self.code, "goodlock answers %d" % self.code)


def answered_reports(process, sets, question, ways, path):
    """A report for each of these sets of threads; None stands for all. Of several, each is a line of JSON."""
    names = process.names
    ways += WAY_FINDINGS * question.findings
    files, packed = packed_files(names.order)
    parts = [packed, packed_numbers(process.no_locks), packed_texts(names.locks), packed_texts(names.places.all())]
    parts.append(array("Q", [MODES[question.mode], question.length, question.most, len(sets)]).tobytes())
    for members in sets:
        order = [thread for thread in names.order if members is None or thread.number in members]
        parts += [packed_path(path), array("Q", [ways]).tobytes()]
        parts += [packed_texts({thread.number: thread.name for thread in order}), packed_chunks(order, files)]
    os.close(os.open(path, os.O_WRONLY | os.O_CREAT | os.O_TRUNC | os.O_CLOEXEC | os.O_NOFOLLOW, 0o600))
    answer = array("Q")
    answer.frombytes(run_program("goodlock_live", ["report"], b"".join(parts)))
    with open(path, "rb") as file:
        for _ in sets:
            code, listed, more = answer[:3]
            del answer[:3]
            written = b"" if code != OK else file.read() if len(sets) == 1 else file.readline()
            yield Report(code, listed, more, written, question.findings)


def report_of(recording, process, question, is_settled, is_json, is_short):
    """The report of a process: of all its threads, or, where goodlock doesn't read so many, of all windows together."""
    aside = recording.work_file("report")
    ways = WAY_SETTLED * is_settled + WAY_JSON * is_json + WAY_SHORT * is_short
    sets = windows(process)
    if not sets:
        return next(answered_reports(process, [None], question, ways, aside))
    is_counted = question.findings and not is_json  # of all edges
    ways = WAY_SETTLED * is_settled + WAY_JSON + WAY_SHORT * (not is_counted)
    parts = [sets[at : at + BATCH] for at in range(0, len(sets), BATCH)]
    reports = (report for part in parts for report in answered_reports(process, part, question, ways, aside))
    return merged(reports, question, is_json)


def merged(reports, question, is_json):
    """The cycles or findings of all these reports, each once, as one report."""
    edges, cycles, more = {}, {}, False
    key = "findings" if question.findings else "cycles"
    counts = Counts()
    for report in reports:
        if report.code not in (OK, WITHOUT_EVENTS):
            return report
        if report.code == WITHOUT_EVENTS:
            continue
        part = json.loads(report.data)
        more = more or part["more"]
        for cycle in part[key]:
            found = [part["edges"][at] for at in cycle]
            places = [edges.setdefault(identity(edge), (len(edges), edge))[0] for edge in found]
            cycles.setdefault(signature(found) if question.findings else tuple(places), places)
        if question.findings and not is_json:
            counts.add(part["edges"])
    listed = list(cycles.values())[: question.most]
    kept = sorted({at for cycle in listed for at in cycle})
    numbers = {at: number for number, at in enumerate(kept)}
    # No `trim`: of cycles whose threads are in no window together nothing is known.
    whole = {"format": 3} if question.findings else {"format": 2, "trim": None}
    whole.update(len=question.length, max=question.most, mode=question.mode, more=more or len(cycles) > question.most)
    whole["edges"] = [edge for at, edge in edges.values() if at in numbers]
    whole[key] = [[numbers[at] for at in cycle] for cycle in listed]
    text = json.dumps(whole, sort_keys=True, separators=(",", ":")) + "\n" if is_json else text_of(whole, key, counts)
    return Report(OK, len(listed), whole["more"], text.encode("utf-8", "surrogateescape"), question.findings)


def signature(cycle):
    """The pairs of places where these edges were made, one after the other round the cycle, wherever it begins."""
    pairs = [places_of(edge) for edge in cycle]
    return min(tuple(pairs[at:] + pairs[:at]) for at in range(len(pairs)))


def places_of(edge):
    return edge["held_at"], edge["wanted_at"]


class Counts:
    """For each pair of places how many threads made edges there, and how many locks these hold or want."""

    def __init__(self):
        self.threads, self.locks = {}, {}

    def add(self, edges):
        for edge in edges:
            places = places_of(edge)
            self.threads.setdefault(places, set()).add(edge["thread"])
            self.locks.setdefault(places, set()).update((edge["held"], edge["wanted"]))

    def line(self, edge):
        places = places_of(edge)
        return "    threads: %d, locks: %d" % (len(self.threads[places]), len(self.locks[places]))


def identity(edge):
    """What tells an edge from others in whichever window it is. Its positions among the events are others there, and so is the order of
    what its thread holds: that of the locks' numbers, which each window counts anew."""
    apart = ("first", "second", "place", "guards", "guard_modes")
    guards = sorted(zip(edge["guards"], edge["guard_modes"]))
    return json.dumps([guards] + [edge[key] for key in sorted(edge) if key not in apart])


def text_of(report, listed, counts):
    """A report as `goodlock predict` prints it, of cycles, or of findings with what was counted."""
    lines = []
    for number, cycle in enumerate(report[listed], 1):
        lines.append("%s %d: %d edges" % (listed[:-1], number, len(cycle)))
        for at in cycle:
            edge = {key: plain(value) for key, value in report["edges"][at].items() if isinstance(value, str)}
            lines.append("  {thread} holds {held} since {held_at} wants {wanted} at {wanted_at}".format(**edge))
            if listed == "findings":
                lines.append(counts.line(report["edges"][at]))
    lines.append("%s: %d%s" % (listed, len(report[listed]), " (more)" if report["more"] else ""))
    return "\n".join(lines) + "\n"


def plain(name):
    """A name of a JSON report, where bytes that can't be printed stand as a backslash, x and two digits."""
    data = re.sub(rb"\\x([0-9a-f]{2})", lambda match: bytes([int(match.group(1), 16)]), name.encode())
    return data.decode("utf-8", "surrogateescape")


def round_text(process, found):
    """Who waits for whom, circle after circle."""
    parts = []
    for thread, word, holder, has_ended, *_ in found:
        name = process.names.thread_name(thread)
        place = process.names.places.text(word >> SITE_SHIFT & SITE_MASK)
        who = "itself" if thread == holder else process.names.thread_name(holder)
        if word % KINDS == JOIN:
            parts.append("%s waits for the end of %s at %s" % (name, who, place))
            continue
        lock = process.names.locks.get(word >> OBJECT_SHIFT, "?")
        text = "%s waits for %s at %s, which " % (name, lock, place)
        if has_ended == OF_PARENT:
            parts.append(text + "a thread of its parent held at the fork")
        else:
            parts.append(text + "%s holds%s" % (who, ", though it has ended" if has_ended else ""))
    return "; ".join(parts)


# --- While the program runs ------------------------------------------------------------------------------


class Followed:
    """What is known of a process that is followed."""

    def __init__(self):
        self.hash = None  # of its events at the last look
        self.reported = None  # of those that the last report is of
        self.told = None  # those that the last line is of
        self.listed = 0, False  # cycles or findings of the last report, and whether there are more
        self.round = []
        self.since = None  # the threads of this round wait, and had no event
        self.hangs = None

    def hangs_at(self, copy):
        """Whether threads wait for each other and did so half a second before, without an event of theirs in between. However soon
        looks follow each other: threads are copied one after the other, so that one look may see a round that never was.
        """
        if copy.round != self.round:
            self.round, self.since = copy.round, copy.ended
        return bool(copy.round) and copy.began >= self.since + HANG


class Follower:
    """Looks at the files of a recording again and again, and writes lines of reports so far."""

    def __init__(self, recording, path, first, every, question, with_functions, say):
        self.recording = recording
        self.question = question
        self.with_functions = with_functions
        self.path = path
        self.first = first
        self.every = every
        self.say = say
        self.token = os.fsencode(os.path.basename(recording.directory)) + b"/"
        self.followed = {}
        self.modules = {}
        self.faults = set()
        self.made = time.monotonic()
        self.files = set()

    def follow(self, pipe):
        """Goes on until the launcher closes its end of the pipe. A byte asks for lines now."""
        now = time.monotonic()
        look, line = now + LOOK, now + self.every if self.every else float("inf")
        while True:
            ready, _, _ = select.select([pipe], [], [], max(0, min(look, line) - time.monotonic()))
            if ready and not os.read(pipe, 4096):
                return
            reap()
            start = time.monotonic()
            is_due = start >= line
            self.try_to_look(bool(ready) or is_due)
            now = time.monotonic()
            look = now + max(LOOK, SHARE * (now - start))
            if is_due:
                line = max(line + self.every, now)

    def try_to_look(self, wants_lines):
        """What can't be done now is said once; the program and its recording go on."""
        try:
            try:
                self.look(wants_lines)
            finally:
                self.recording.remove_work()
        except (BuildError, ConvertError, OSError) as error:
            self.say_once("no report so far: %s" % error)

    def say_once(self, fault):
        if fault not in self.faults:
            self.faults.add(fault)
            self.say(fault)

    def look(self, wants_lines):
        copied = copy_events(self.recording)
        due = {}
        for key, copy in copied.items():
            followed = self.followed.setdefault(key, Followed())
            if copy.chunks:
                due[key] = self.what_is_due(key, copy, followed, wants_lines)
            followed.hash = copy.hash
        if not any(due.values()):
            return
        processes, _ = named_processes(self.recording, copied, self.modules, self.with_functions)
        paths = process_paths(processes, self.path, self.first)
        for key in due:
            if due[key] and key in processes:
                self.tell(processes[key], copied[key], paths[key], due[key])
        self.made = time.monotonic()

    def what_is_due(self, key, copy, followed, wants_lines):
        """Why a report is to be made of a process now, if it is."""
        if followed.hangs_at(copy) and copy.round != followed.hangs:
            return "hangs"
        if wants_lines and (copy.hash != followed.told or maps_file(key[0], self.token)):
            return "asked"
        is_quiet = copy.hash == followed.hash or time.monotonic() > self.made + UNQUIET
        return "quiet" if copy.hash != followed.reported and is_quiet else None

    def tell(self, process, copy, path, why):
        """What is due of a process. A report that can't be made keeps nothing else from being told."""
        followed = self.followed[process.key]
        try:
            self.report(process, copy, path, why)
        except (BuildError, ConvertError, OSError) as error:
            self.say_once("no report so far: %s" % error)
        if why == "hangs":
            followed.hangs = copy.round
            self.say("%s hangs: %s" % (described(process), round_text(process, copy.round)))

    def counted(self, process):
        """A report that nobody may ask to see: the JSON of all its edges takes far longer, and far more memory, than to count the cycles,
        and mostly the findings. None of windows, whose cycles are told apart by their edges.
        """
        if windows(process):
            return None
        return next(answered_reports(process, [None], self.question, WAY_COUNT, self.recording.work_file("report")))

    def report(self, process, copy, path, why):
        """Makes a report so far: it is written if somebody asked, and if it has more cycles, or findings, than those before."""
        followed = self.followed[process.key]
        report = self.counted(process) if why == "quiet" else None
        if report is None or (report.code == OK and (report.listed, report.more) > followed.listed):
            report = report_of(self.recording, process, self.question, False, True, True)
        followed.reported = copy.hash
        if report.code == WITHOUT_EVENTS:
            return
        if report.code != OK:
            raise ConvertError("%s: %s" % (path, report.fault()))
        has_more = (report.listed, report.more) > followed.listed
        if why != "quiet" or has_more:
            if self.try_to_write(path + ".lines", report.data):
                followed.told = copy.hash
        if has_more:
            self.say("%s.lines: %s so far; %s" % (path, report.count(), described(process)))
        followed.listed = report.listed, report.more

    def try_to_write(self, path, data):
        """Adds a line; whether it could be. What standard error tells doesn't hang on it."""
        try:
            self.write_line(path, data)
            return True
        except OSError as error:
            self.say_once("no line: %s: %s" % (path, error.strerror))
            return False

    def write_line(self, path, data):
        """Adds a line to a file that this recording made, or to a new one where somebody moved that away. No half of a line stays."""
        flags = os.O_WRONLY | os.O_APPEND | os.O_CLOEXEC | os.O_NOFOLLOW
        if path not in self.files or not os.path.lexists(path):
            flags |= os.O_CREAT | os.O_EXCL
        file = os.open(path, flags, 0o666)
        self.files.add(path)
        size = os.fstat(file).st_size
        try:
            while data:
                data = data[os.write(file, data) :]
        except OSError:
            os.ftruncate(file, size)
            raise
        finally:
            os.close(file)


def reap():
    try:
        while os.waitpid(-1, os.WNOHANG)[0]:
            pass
    except ChildProcessError:
        pass


class Companion:
    """The process beside the launcher. It has a group of its own, which a terminal's signals don't reach."""

    def __init__(self, follower):
        reading, writing = os.pipe()
        self.pipe = writing
        self.recording = follower.recording
        self.process = self.number = os.fork()
        if self.process == 0:
            os.close(writing)
            self.run(follower, reading)
        os.setpgid(self.process, self.process)
        os.close(reading)

    def run(self, follower, reading):
        """In the child. Doesn't return."""
        try:
            for number in FORWARDED + (signal.SIGTTOU,):
                signal.signal(number, signal.SIG_IGN)
            signal.pthread_sigmask(signal.SIG_SETMASK, ())
            adopt_orphans()  # what feeds a tool may outlive it, and is none of the program's
            follower.follow(reading)
        except BaseException as failure:
            follower.say("no further report so far: internal error: %r" % failure)
        finally:
            os._exit(0)

    def ask(self):
        """Lines now."""
        try:
            os.write(self.pipe, b"\n")
        except OSError:
            pass

    def ended(self, process):
        """Some child of the launcher's ended."""
        if process == self.process:
            self.process = None

    def end(self):
        """Ends it, and removes what it left aside, if it was killed."""
        self.end_soon()
        try:
            self.recording.remove_work(self.number)
        except OSError:  # somebody removed the recording, or moved it away
            pass

    def end_soon(self):
        """At once after a moment."""
        os.close(self.pipe)
        limit = time.monotonic() + END_LIMIT
        while self.process is not None and os.waitpid(self.process, os.WNOHANG)[0] == 0:
            if time.monotonic() > limit:
                os.killpg(self.process, signal.SIGKILL)
                os.waitpid(self.process, 0)
                return
            time.sleep(0.005)


# --- At the end ------------------------------------------------------------------------------------------


class Ended(BaseException):
    """A signal ends this process."""


class Aside:
    """While copies and reports are made aside. They are removed in the end, also where a signal is that."""

    def __init__(self, recording):
        self.recording = recording
        self.handlers = {}
        self.number = None
        self.is_ending = False

    def __enter__(self):
        for number in ENDING:
            if signal.getsignal(number) in (signal.SIG_DFL, signal.default_int_handler):
                self.handlers[number] = signal.signal(number, self.end_by)

    def end_by(self, number, _):
        """The first signal ends what is made; none ends the removal."""
        self.number = number
        if not self.is_ending:
            self.is_ending = True
            raise Ended

    def __exit__(self, *_):
        self.is_ending = True
        try:
            self.recording.remove_work()
        finally:
            for number, handler in self.handlers.items():
                signal.signal(number, handler)
            if self.number:
                signal.signal(self.number, signal.SIG_DFL)
                os.kill(os.getpid(), self.number)


class LiveSummary(Summary):
    """What is said of a process whose report was made."""

    def __init__(self, process, path, copy):
        super().__init__(process, path)
        self.copy = copy
        self.report = None
        self.open = None  # why the report isn't settled

    def settle(self, running, how):
        """Says what stands against the report being that of all that the process does. `how`: its wait status, or None where that
        isn't known."""
        end = self.process.end
        if is_among(self.process.key, running):
            self.open = "the process still runs"
        elif how is not None and os.WIFSIGNALED(how) and end != END_EXEC:
            self.open = "signal %d ended the process" % os.WTERMSIG(how)
        elif how is None and end == END_UNKNOWN:
            self.open = "it isn't known how the process ended"
        elif self.lost["events"]:
            self.open = "events were lost"
        elif any(has_ended == OF_PARENT for _, _, _, has_ended, *_ in self.copy.round):
            self.open = "it ended while a thread waited for one of its parent's"
        elif any(has_ended for _, _, _, has_ended, *_ in self.copy.round):
            self.open = "it ended while a thread waited for one that had ended before"
        elif self.copy.round:
            self.open = "it ended while threads waited for each other"

    def lines(self):
        yield from super().lines()
        if self.report is None or self.report.code != OK:
            return
        sets = windows(self.process)
        scope = ", of %d windows" % len(sets) if sets else ""
        state = "so far%s, as %s" % (scope, self.open) if self.open else "settled" + scope
        yield "%s: %s; %s" % (self.path, self.report.count(), state)
        if self.copy.round:
            yield "%s hung: %s" % (self.name(), round_text(self.process, self.copy.round))

    def lacks_report(self):
        return self.report is not None and self.report.code not in (OK, WITHOUT_EVENTS)

    def no_report(self):
        return "%s: no report: %s" % (self.path, self.report.fault())

    def special_lines(self):
        for line in super().special_lines():
            yield line.replace("goodlock skips these", "the report skips these")

    def too_many_lines(self):
        cycles = "findings of cycles" if self.report and self.report.word == "finding" else "cycles"
        yield "%s: goodlock reads at most %d threads at once: the report has the %s whose threads are in one of %d windows" % (
            self.path,
            THREAD_LIMIT,
            cycles,
            len(windows(self.process)),
        )


def report_recording(recording, path, first, running, ends, question, with_functions):
    """Writes the report of each process; what is said of each, the first process's first, and what was damaged or has no report.
    Nothing is written where there is none, or no memory for one. `ends`: the wait statuses that are known, by process.
    """
    with Aside(recording):
        copied = last_copy(recording, running)
        processes, faults = named_processes(recording, copied, {}, with_functions)
        if first is None and processes:
            first = min(processes)[0]
        faults += take_damaged(recording, processes)
        summaries = live_summaries(processes, process_paths(processes, path, first), copied, first)
        last_images = dict(sorted(processes))
        for summary in summaries:
            pid, image = summary.process.key
            summary.settle(running, ends.get(pid) if image == last_images[pid] else None)
            if summary.events:
                is_json = path.endswith(".json")
                summary.report = report_of(recording, summary.process, question, not summary.open, is_json, False)
                if summary.report.code == MEMORY:
                    raise ConvertError(summary.no_report())
        recording.remove_work()
        without = [summary.no_report() for summary in summaries if summary.lacks_report()]
        if without and not any(summary.report and summary.report.code == OK for summary in summaries):
            raise ConvertError("; ".join(without))
        write_reports(summaries)
    return summaries, faults + without


def live_summaries(processes, paths, copied, first):
    """Those of processes whose reports have these paths, none of which is there yet; the first process's first."""
    for taken in paths.values():
        if os.path.lexists(taken):
            raise ConvertError("%s exists already" % taken)
    order = sorted(processes, key=lambda key: (key[0] != first, key))
    return [LiveSummary(processes[key], paths[key], copied[key]) for key in order]


def write_reports(summaries):
    """Writes each report aside, and gives it its name."""
    for summary in summaries:
        if summary.report is None or summary.report.code != OK:
            continue
        aside = "%s.part.%s" % (summary.path, os.urandom(4).hex())
        try:
            with open(os.open(aside, os.O_WRONLY | os.O_CREAT | os.O_EXCL | os.O_CLOEXEC, 0o666), "wb") as file:
                file.write(summary.report.data)
            take_name(aside, summary.path)
        finally:
            if os.path.lexists(aside):
                os.unlink(aside)
