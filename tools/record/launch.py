"""Records the lock events of a program, unchanged, as a trace that goodlock reads.

    goodlock-record [-o TRACE] [--frames N] [--functions] [--all] [--] PROGRAM [ARGUMENT..]
    goodlock-record --live [--every S] [--mode M] [--len N] [--max N] [--findings] [-o REPORT] [OPTION..] [--] PROGRAM [ARGUMENT..]
    goodlock-record [--live [--mode M] [--len N] [--max N] [--findings]] [-o FILE] [--functions] --convert DIRECTORY

-o TRACE, -o REPORT  the file, else goodlock.std, or goodlock.report with --live
--frames N           show N callers in a location (1 to 16)
--functions          show the function beside each line, as a.c:10 (main)
--all                leave no repeats out
--live               no trace: follow the program while it runs, and write the report of what it did at its end, as JSON where
                     REPORT ends in .json. SIGUSR1 to goodlock-record adds a report so far to REPORT.lines, and so does a
                     cycle that is new, and a hang
--every S            with --live, add a report so far to REPORT.lines every S seconds
--mode M             with --live, which cycles count, as in goodlock predict: basic, guarded, or full (full)
--len N              with --live, the most edges that a cycle may have, 2 to 16 (4)
--max N              with --live, the most cycles or findings that are listed, 1 to 100000 (1000)
--findings           with --live, list findings in place of cycles, as in goodlock predict: cycles that were made at the same
                     places are one
--convert DIRECTORY  no run: write the trace, or with --live the report, of what a recording left behind
--help, --version    print this, print the version

docs/RECORDING.md explains it.
"""

import os
import signal
import sys

SOURCES = os.path.dirname(os.path.realpath(__file__))
TOOLS = os.path.dirname(SOURCES)
sys.path.insert(0, SOURCES)
sys.pycache_prefix = os.path.join(TOOLS, "out", "python")
sys.dont_write_bytecode = True

from early import STATUS_FAILED, end_when_interrupted, raise_when_interrupted  # noqa: E402

if __name__ == "__main__":
    end_when_interrupted("goodlock-record")

from build import has_bytecode_room  # noqa: E402

sys.dont_write_bytecode = not has_bytecode_room()

VERSION = "0.1.0"
STATUS_NO_EVENTS = 124
STATUS_NOT_EXECUTABLE = 126
STATUS_NOT_FOUND = 127
FRAMES_LIMIT = 16
SECONDS_LEAST, SECONDS_MOST = 0.1, 1000000
# What `goodlock predict` takes, and what it takes where nothing is said.
MODES = ("basic", "guarded", "full")
LENGTHS, COUNTS = (2, 16), (1, 100000)
MODE, LENGTH, COUNT = "full", 4, 1000
USR1_WAS_DEFAULT = "GOODLOCK_RECORD_USR1"  # the script ignores that signal up to here
WERE_IGNORED = "GOODLOCK_RECORD_IGNORED"  # the signals that were ignored before Python came, as a mask in hexadecimal
LIVE_VALUES = ("every", "mode", "len", "max")  # options that take a value with --live alone
LIVE_FLAGS = ("findings",)  # and that take none
# The loader takes these in the path of a preload library as separators and variables.
PRELOAD_SEPARATORS = " :$\t\n"
LINK_DIRECTORIES = ("/tmp", "/var/tmp", "/dev/shm")

USAGE = (
    "usage: goodlock-record [--live [--every S] [--mode M] [--len N] [--max N] [--findings]] [-o FILE] [--frames N] "
    "[--functions] [--all] [--] PROGRAM [ARGUMENT..]"
)


class Failed(Exception):
    """The recorder itself can't go on."""

    def __init__(self, text, status=STATUS_FAILED):
        super().__init__(text)
        self.status = status


class Recorder:
    """What the recorders have each in their own way: this is the one of the C library's locks."""

    name = "goodlock-record"

    def prepare(self):
        """Before anything is made."""
        self.preload = Preload()

    def environment(self, settings, directory):
        """The program's."""
        return child_environment(settings, directory, self.preload.path)

    def clean_up(self):
        self.preload.remove()

    def advice(self, processes, settings):
        """Lines on what another recorder would see."""
        from runtimes import runtime_lines

        return runtime_lines(processes, settings.command)

    def reason(self, loaded):
        """Why there is no event."""
        if loaded:
            return "the program took no lock and made no thread by a call that can be recorded, or there was no room"
        return (
            "the recorder wasn't loaded: is the program statically linked, set-user-id, with file capabilities or of another "
            "machine type?"
        )


recorder = Recorder()


def readable(text):
    """Bytes of a file's name that are no text stand as a backslash, x and two digits, as in goodlock's own words."""
    return text.encode("utf-8", "surrogateescape").decode("utf-8", "backslashreplace")


def tell(name, text):
    """A line on standard error, in this command's name. Where that is closed, or on a full disk, nobody hears it: nothing is kept of it
    that Python would try to write in the end, with a status of its own if it can't."""
    try:
        if sys.stderr:
            line = readable("%s: %s\n" % (name, text))
            os.write(sys.stderr.fileno(), line.encode(sys.stderr.encoding, "backslashreplace"))
    except OSError:
        pass


def say(text):
    tell(recorder.name, text)


def print_text(text):
    """On standard output, at once: nothing is left that Python would try to write in the end, with a status of its own if it can't."""
    data = (text + "\n").encode("utf-8", "backslashreplace")
    try:
        while data:
            data = data[os.write(1, data) :]
    except OSError as error:
        raise Failed("standard output: %s" % error.strerror)


def fill_closed_descriptors():
    """Standard input, output and error that are closed: /dev/null stands in their place here, so that no other file gets their
    numbers. The program finds them closed as they were."""
    for number in range(3):
        try:
            os.fstat(number)
        except OSError:
            os.open(os.devnull, os.O_RDWR | os.O_CLOEXEC)


def forget_locale():
    """Where no locale is asked for Python sets LC_CTYPE, for itself and for all that it starts. The program has it as who asked: the
    system still tells the variables with which this process began."""
    try:
        with open("/proc/self/environ", "rb") as file:
            given = dict(word.split(b"=", 1) for word in file.read().split(b"\0") if b"=" in word)
    except OSError:
        return
    if given.get(b"LC_CTYPE") is None:
        os.environ.pop("LC_CTYPE", None)
    else:
        os.environb[b"LC_CTYPE"] = given[b"LC_CTYPE"]


# --- Arguments --------------------------------------------------------------------------------------


class Settings:
    def __init__(self):
        self.trace = None
        self.frames = 1
        self.all = False
        self.functions = False
        self.live = False
        self.every = self.mode = self.len = self.max = None
        self.findings = False
        self.convert = None
        self.command = []


def read_number(word, text, least, most):
    try:
        number = int(text) if text.isascii() and text.isdigit() else -1
    except ValueError:  # of very many digits
        number = -1
    if not least <= number <= most:
        raise Failed("%s takes a number from %d to %d" % (word, least, most))
    return number


def read_mode(text):
    if text not in MODES:
        raise Failed("--mode takes %s or %s" % (", ".join(MODES[:-1]), MODES[-1]))
    return text


def read_seconds(text):
    """A number in digits, perhaps with a point: no more than that of what Python takes for one."""
    digits = text.replace(".", "", 1)
    seconds = float(text) if digits.isascii() and digits.isdigit() else 0
    if not SECONDS_LEAST <= seconds <= SECONDS_MOST:
        raise Failed("--every takes a number of seconds, as 2 or 0.5, from %g to %d" % (SECONDS_LEAST, SECONDS_MOST))
    return seconds


def read_value(settings, word, value):
    """An option that takes a value."""
    if word == "-o":
        settings.trace = value
    elif word == "--frames":
        settings.frames = read_number(word, value, 1, FRAMES_LIMIT)
    elif word == "--every":
        settings.every = read_seconds(value)
    elif word == "--mode":
        settings.mode = read_mode(value)
    elif word == "--len":
        settings.len = read_number(word, value, *LENGTHS)
    elif word == "--max":
        settings.max = read_number(word, value, *COUNTS)
    else:
        settings.convert = value


def read_words(arguments, explanation, usage, flags, values):
    """What these words ask for: options, and then the program and its own words."""
    settings = Settings()
    rest = list(arguments)
    while rest and rest[0].startswith("-"):
        word = rest.pop(0)
        if word == "--":
            break
        if word in ("-h", "--help"):
            print_text(explanation.strip())
            sys.exit(0)
        if word in ("-V", "--version"):
            print_text("%s %s" % (recorder.name, VERSION))
            sys.exit(0)
        if word in flags:
            setattr(settings, word[2:], True)
            continue
        if word not in values:
            raise Failed("unknown option %s\n%s" % (word, usage))
        if not rest:
            raise Failed("%s takes a value\n%s" % (word, usage))
        if word in ("-o", "--convert") and rest[0] == "":
            raise Failed("%s takes a name that isn't empty\n%s" % (word, usage))
        read_value(settings, word, rest.pop(0))
    settings.command = rest
    if not settings.command and settings.convert is None:
        raise Failed(usage)
    if settings.command and settings.command[0] == "":
        raise Failed("the program's name is empty\n%s" % usage)
    settings.trace = settings.trace or ("goodlock.report" if settings.live else "goodlock.std")
    return settings


def check_convert(settings, usage):
    """Where a recording is converted, no program runs: what stands behind its directory would be passed over."""
    if settings.command and settings.convert is not None:
        raise Failed("--convert takes one directory, and runs no program\n%s" % usage)


def read_arguments(arguments, explanation, usage):
    """Those of each recorder."""
    settings = read_words(arguments, explanation, usage, ("--all",), ("-o", "--frames", "--convert"))
    check_convert(settings, usage)
    return settings


def read_own_arguments(arguments):
    """Those of goodlock-record: it can follow a program, too."""
    values = ("-o", "--frames", "--convert", *("--" + name for name in LIVE_VALUES))
    flags = ("--all", "--live", "--functions", *("--" + name for name in LIVE_FLAGS))
    settings = read_words(arguments, __doc__, USAGE, flags, values)
    for name in LIVE_VALUES + LIVE_FLAGS:
        if getattr(settings, name) not in (None, False) and not settings.live:
            raise Failed("--%s is for --live\n%s" % (name, USAGE))
    check_convert(settings, USAGE)
    return settings


# --- Before the run -----------------------------------------------------------------------------------


def built_before(name):
    """The path of what has to be there before anything is run."""
    from build import BuildError, built

    try:
        return built(name)
    except BuildError as error:
        raise Failed(str(error))


class Preload:
    """The preload library under a path that the loader can read: a link, where its own has spaces or colons in it."""

    def __init__(self):
        self.path = built_before("goodlock_record.so")
        self.directory = None
        if any(mark in self.path for mark in PRELOAD_SEPARATORS):
            self.directory = self.make_directory()
            link = os.path.join(self.directory, os.path.basename(self.path))
            os.symlink(self.path, link)
            self.path = link

    def make_directory(self):
        for place in LINK_DIRECTORIES:
            path = "%s/goodlock-record.%s" % (place, os.urandom(8).hex())
            try:
                os.mkdir(path, 0o755)
                return path
            except OSError:
                continue
        raise Failed(
            "%s: the loader can't preload a path with spaces or colons, and no link to it can be made in %s"
            % (self.path, " or ".join(LINK_DIRECTORIES))
        )

    def remove(self):
        if self.directory:
            os.unlink(self.path)
            os.rmdir(self.directory)


def child_environment(settings, directory, preload):
    environment = dict(os.environ)
    earlier = environment.get("LD_PRELOAD")
    environment["LD_PRELOAD"] = preload + (":" + earlier if earlier else "")
    # A program built with AddressSanitizer wants its own library to be the first one; it works as the second too.
    sanitizer = environment.get("ASAN_OPTIONS")
    environment["ASAN_OPTIONS"] = (sanitizer + ":" if sanitizer else "") + "verify_asan_link_order=0"
    environment["GOODLOCK_RECORD_DIRECTORY"] = directory
    environment["GOODLOCK_RECORD_FRAMES"] = str(settings.frames)
    if settings.all:
        environment["GOODLOCK_RECORD_ALL"] = "1"
    return environment


# --- The run ------------------------------------------------------------------------------------------


def were_ignored():
    """Which signals were ignored before Python came; none where nobody told."""
    try:
        mask = int(os.environ.pop(WERE_IGNORED, ""), 16)
    except ValueError:
        return ()
    return [number for number in range(1, 65) if mask >> number - 1 & 1]


def started_program(settings, environment, mask, ignored):
    from family import start

    process, fault = start(settings.command, environment, mask, ignored)
    if process is None:
        status = STATUS_NOT_FOUND if fault in (2, 20) else STATUS_NOT_EXECUTABLE
        raise Failed("%s: %s" % (settings.command[0], os.strerror(fault)), status)
    return process


def record(settings):
    """Runs the program; the recording, the program's number and wait status, which processes still run, and how those ended of
    which that is known."""
    from family import WAITED, Family, adopt_orphans
    from recording import new_recording

    recorder.prepare()
    for name in ("goodlock_lines",) + ("goodlock_live",) * settings.live:
        built_before(name)
    mask, ignored = signal.pthread_sigmask(signal.SIG_BLOCK, WAITED), were_ignored()  # none ends this half way
    if os.environ.pop(USR1_WAS_DEFAULT, None):
        signal.signal(signal.SIGUSR1, signal.SIG_DFL)
    try:
        recording = new_recording(settings.trace)
    except OSError as error:
        recorder.clean_up()
        signal.pthread_sigmask(signal.SIG_SETMASK, mask)
        raise Failed("can't write beside %s: %s" % (settings.trace, error.strerror))
    environment = recorder.environment(settings, recording.directory)
    if not adopt_orphans():
        say("processes that outlive their parents aren't waited for: Python's ctypes is missing")
    family = Family(recording, say)
    try:
        process = started_program(settings, environment, mask, ignored)
        if settings.live:
            follow(settings, recording, process, family)
        status = family.wait_for_first(process)
        running = [] if family.wait_for_others() else family.recorded()
    except Failed:
        recording.remove()
        raise
    finally:
        if family.companion:
            family.companion.end()
        recorder.clean_up()
    return recording, process, status, running, {**family.signalled, process: status}


def follow(settings, recording, process, family):
    """Starts what looks at the recording while the program runs."""
    from live import Companion, Follower

    question = question_of(settings)
    try:
        family.accompany(
            Companion(Follower(recording, settings.trace, process, settings.every, question, settings.functions, say))
        )
    except OSError as error:
        say("no reports so far: %s" % error)


def question_of(settings):
    """What the reports are to list."""
    from live import Question

    return Question(settings.mode or MODE, settings.len or LENGTH, settings.max or COUNT, settings.findings)


def exit_status(status):
    if os.WIFSIGNALED(status):
        return 128 + os.WTERMSIG(status)
    return os.WEXITSTATUS(status)


# --- After the run --------------------------------------------------------------------------------------


def recording_at(path):
    """The recording that was left in a directory."""
    from recording import CONVERTED, Recording

    if not os.path.isdir(path):
        raise Failed("%s: %s" % (path, "not a directory" if os.path.exists(path) else "no such directory"))
    recording = Recording(os.path.realpath(path))
    if recording.directory.endswith(CONVERTED):
        raise Failed("%s: its traces were written already" % path)
    if not recording.is_recording():
        raise Failed("%s holds no files of a recording; nothing was changed" % path)
    return recording


def left_behind(path):
    """The recording that was left in a directory, and the processes that still write it."""
    try:
        recording = recording_at(path)
        return recording, recording.writers()
    except OSError as error:
        raise Failed("%s: nothing was changed" % error)


def was_removed(recording, first):
    """Whether somebody removed the recording, or a part of it, or moved it away, while the program ran: its mark isn't there any more."""
    return first is not None and not recording.mark()


def written(recording, settings, first, running, ends):
    """Writes the traces or reports; what is to be said of each process, and what was damaged."""
    if settings.live:
        from live import report_recording

        return report_recording(
            recording, settings.trace, first, running, ends, question_of(settings), settings.functions
        )
    from convert import convert_recording

    return convert_recording(recording, settings.trace, first, settings.functions)


def convert_all(recording, settings, first, running, ends):
    """Writes the traces or reports; whether there is an event in any, and if not, why. `running`: the processes that still write, as
    was seen before anything is read. `ends`: the wait statuses that are known, by process."""
    from build import BuildError
    from convert import ConvertError, summary_lines

    removed = "%s was removed or moved away while the program ran" % recording.directory
    try:
        summaries, faults = written(recording, settings, first, running, ends)
    except (BuildError, ConvertError, OSError) as error:
        if was_removed(recording, first):
            return False, removed
        raise Failed("%s (what was recorded is kept in %s)" % (error, recording.directory))
    for line in summary_lines(summaries) + faults:
        say(line)
    for line in recorder.advice([summary.process for summary in summaries], settings):
        say(line)
    became_unrecorded = say_what_became(recording, summaries, running)
    lost = say_unrecorded(recording) or any(sum(summary.lost.values()) for summary in summaries)
    is_removed = was_removed(recording, first)
    keep_or_remove(recording, running, faults)
    found = any(summary.events for summary in summaries)
    if is_removed:
        why = removed
        if found:
            say("%s: what lay there is missing" % removed)
    elif faults:
        why = "what was recorded is damaged"
    elif became_unrecorded:
        why = "the program became one that wasn't recorded"
    else:
        why = "what the program did was lost" if lost else recorder.reason(bool(summaries))
    return found, why


def became_unrecorded(recording, processes, running):
    """Those of these processes that became programs by exec that left nothing, though there was room, but for those that run."""
    from convert import END_EXEC

    if recording.unrecorded()[0]:
        return []
    begun = {(pid, image) for pid, image, *_ in recording.extents()}
    gone = []
    for process in processes:
        pid, image = process.key
        if process.end == END_EXEC and (pid, image + 1) not in begun and str(pid) not in map(str, running):
            gone.append(process)
    return gone


def what_became(names):
    """What is said of such processes."""
    who = "%s became a program that wasn't" % names[0]
    if len(names) > 1:
        who = "%d processes became programs that weren't" % len(names)
    kinds = "statically linked, set-user-id, with file capabilities, of another machine type"
    return "%s recorded: %s, or with a cleared environment or an LD_PRELOAD of its own?" % (who, kinds)


def say_what_became(recording, summaries, running):
    """Says which processes became programs that weren't recorded; whether there is one."""
    gone = became_unrecorded(recording, [summary.process for summary in summaries], running)
    if gone:
        say(what_became([summary.name() for summary in summaries if summary.process in gone]))
    return bool(gone)


def say_unrecorded(recording):
    """Says how many processes couldn't begin their files; whether there is one."""
    from convert import NO_ROOM

    count, reason = recording.unrecorded()
    if count:
        why = "there was no room for their files" if reason in NO_ROOM else os.strerror(reason)
        say("%d processes weren't recorded: %s" % (count, why))
    return count > 0


def keep_or_remove(recording, running, faults):
    """What was recorded is removed once it is all in traces."""
    if running:
        say(
            "still running: %s; this is what they did so far, and %s is kept"
            % (", ".join("process %s" % process for process in running), recording.directory)
        )
    elif faults:
        say("%s is kept" % recording.directory)
    else:
        try:
            if not recording.remove():
                say("%s is kept: it holds files that aren't the recorder's" % recording.directory)
        except OSError as error:
            say("%s can't be removed: %s" % (recording.directory, error.strerror))


def run(settings):
    for path in [settings.trace] + [settings.trace + ".lines"] * settings.live:
        if os.path.lexists(path):
            raise Failed("%s exists already; nothing was run" % path)
    if settings.convert is not None:
        recording, running = left_behind(settings.convert)
        first, status, ends = None, 0, {}
    else:
        recording, first, status, running, ends = record(settings)
    status = exit_status(status)
    found, why = convert_all(recording, settings, first, running, ends)
    if not found:
        what = "report" if settings.live else "trace"
        say("no events, no %s: %s (the program's own status was %d)" % (what, why, status))
        return STATUS_NO_EVENTS
    return status


def main(read, used):
    """Reads the arguments and runs, with this recorder; the status."""
    global recorder
    recorder = used
    fill_closed_descriptors()
    forget_locale()
    try:
        raise_when_interrupted()
        return run(read(sys.argv[1:]))
    except Failed as failure:
        say(str(failure))
        return failure.status
    except KeyboardInterrupt:  # before the program is run, or in --convert: else signals wait
        say("interrupted")
        return STATUS_FAILED
    except Exception as failure:  # Python's own status 1 could be the program's
        say("internal error: %r" % failure)
        return STATUS_FAILED


if __name__ == "__main__":
    sys.exit(main(read_own_arguments, Recorder()))
