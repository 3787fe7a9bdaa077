"""The processes that a recording waits for: what the program starts, also what outlives it."""

import errno
import os
import signal
import time

from recording import living_thread, maps_file, names_in_proc
from tool import find_tool

PR_SET_CHILD_SUBREAPER = 36
FORWARDED = (
    signal.SIGINT,
    signal.SIGTERM,
    signal.SIGHUP,
    signal.SIGQUIT,
    signal.SIGUSR1,
    signal.SIGUSR2,
    signal.SIGWINCH,
)
WAITED = FORWARDED + (signal.SIGCHLD,)
# A signal that the kernel sent, as a terminal does on Ctrl-C: the program got it already.
FROM_KERNEL = 128
# Seconds: between two looks at processes whose end sends no signal, and for a process that was just made to begin its files.
LOOK = 0.5
MOMENT = 0.01
BEGIN_LIMIT = 2
SHELL = "/bin/sh"
HELD_MOST = 64  # how many processes are held fast at once
HEAD_BYTES = 80  # of a file, by which it is known whether it is a text


def adopt_orphans():
    """Processes whose parent ends become children of this one. Whether the system can do that."""
    try:
        import ctypes

        return ctypes.CDLL(None).prctl(PR_SET_CHILD_SUBREAPER, 1, 0, 0, 0) == 0
    except (ImportError, OSError, AttributeError):
        return False


def has_children():
    """Whether this process has any, also of those that have ended."""
    try:
        os.waitid(os.P_ALL, 0, os.WEXITED | os.WNOHANG | os.WNOWAIT)
        return True
    except OSError:
        return False


def is_living_child(process):
    """Whether it is a child of this process that hasn't ended."""
    try:
        return os.waitid(os.P_PID, process, os.WEXITED | os.WNOHANG | os.WNOWAIT) is None
    except OSError:
        return False


def number_in_proc():
    """This process's number in /proc, which may be that of a PID namespace around ours."""
    try:
        return int(os.readlink("/proc/self"))
    except (OSError, ValueError):
        return os.getpid()


def numbers_of(process):
    """Its numbers in /proc's PID namespace and in each one below down to its own."""
    try:
        with open("/proc/%d/status" % process, "rb") as status:
            return [int(number) for line in status if line.startswith(b"NSpid:") for number in line.split()[1:]]
    except (OSError, ValueError):
        return []


def number_here(process):
    """What a process of /proc is called by us; None if it is gone, or isn't in our namespace."""
    own = number_in_proc()
    if own == os.getpid():
        return process
    level = len(numbers_of(own)) - 1
    numbers = numbers_of(process)
    return numbers[level] if 0 <= level < len(numbers) else None


def descendants(strangers=()):
    """The living processes below this one, but not these children and theirs, by their numbers in /proc."""
    children = {}
    for name in names_in_proc():
        try:
            with open("/proc/%s/stat" % name, "rb") as status:
                fields = status.read().rsplit(b")", 1)[1].split()
        except (OSError, IndexError):
            continue
        if fields[0] not in (b"Z", b"X") or living_thread(int(name)):
            children.setdefault(int(fields[1]), []).append(int(name))
    found, waiting = [], [number_in_proc()]
    while waiting:
        for child in children.get(waiting.pop(), []):
            if child not in strangers:
                found.append(child)
                waiting.append(child)
    return found


def is_news_alone(info):
    """Whether a signal asks for nothing: a child has ended, or a terminal, as it tells all that run in it, has another size."""
    if info.si_signo == signal.SIGWINCH:
        return info.si_code == FROM_KERNEL
    return info.si_signo == signal.SIGCHLD


def told_to_run_on(processes):
    """These processes, in words."""
    numbers = ", ".join(map(str, processes))
    return "process %s, which runs on" % numbers if len(processes) == 1 else "processes %s, which run on" % numbers


def hold(processes):
    """Holds living processes fast, by their numbers."""
    holders = {}
    for process in processes:
        try:
            holders[process] = os.pidfd_open(number_here(process) or 0)
        except OSError:
            continue
    return holders


def send_signal(processes, number, members):
    """To processes, held fast before it is looked at again which of them are among the members: some at a time, as each takes a file, and
    a look goes through all of /proc."""
    for first in range(0, len(processes), HELD_MOST):
        holders = hold(processes[first : first + HELD_MOST])
        for process in holders.keys() & set(members()):
            try:
                signal.pidfd_send_signal(holders[process], number)
            except OSError:
                continue
        for holder in holders.values():
            os.close(holder)


class Family:
    """The program and what it starts. Nothing else is ever waited for or sent a signal."""

    def __init__(self, recording, say):
        self.recording = recording
        self.token = os.fsencode(os.path.basename(recording.directory)) + b"/"
        self.say = say
        self.strangers = frozenset(descendants())  # children from before: an exec may bring some
        self.companion = None  # of a live recording: SIGUSR1 is for it
        self.signalled = {}  # wait statuses of the children that a signal ended
        self.ends = 0  # how many children's ends were taken
        self.files = 0  # how many files recorded processes had begun

    def accompany(self, companion):
        self.companion = companion
        self.strangers |= {process for process in descendants() if number_here(process) == companion.process}

    def is_asked(self, info):
        """Whether a signal asks for a report so far, which it does then."""
        if self.companion is None or info.si_signo != signal.SIGUSR1:
            return False
        self.companion.ask()
        return True

    def living(self):
        """The living processes. One that was made after /proc was listed isn't seen; if its makers all end before we look at them, none is,
        though it lives: as where a server goes into the background by two forks. Its first maker ends as our child then, so where the
        end of one comes in between, we look again."""
        while True:
            ends = self.ends
            family = descendants(self.strangers)
            self.reap()
            if family or self.ends == ends:
                return family

    def recorded(self):
        """Those that write files of the recording, or may."""
        return self.recorded_among(self.living())

    def recorded_among(self, family):
        """Without /proc these are the children that have files there: who outlives its parent becomes one."""
        if not names_in_proc():
            return sorted({pid for pid, *_ in self.recording.extents() if is_living_child(pid)})
        return [p for p in family if maps_file(p, self.token) is not False]

    def has_begun_files(self):
        """Whether files of the recording were begun since this was last asked: some ran then, though each was gone by the time that we
        looked whether it writes any, as where processes fork and end quickly on a busy machine."""
        before, self.files = self.files, len(self.recording.extents())
        return self.files != before

    def reap(self, first=None):
        """Takes the ends of children; the wait status of the first one if it is among them."""
        status = None
        while True:
            try:
                ended, how = os.waitpid(-1, os.WNOHANG)
            except ChildProcessError:
                return status
            if ended == 0:
                return status
            self.ends += 1
            if ended == first:
                status = how
            if os.WIFSIGNALED(how):
                self.signalled[ended] = how
            if self.companion:
                self.companion.ended(ended)

    def wait_for_first(self, process):
        """Waits for the program, and hands signals on to it; its wait status."""
        while True:
            status = self.reap(process)
            if status is not None:
                return status
            info = signal.sigwaitinfo(WAITED)
            if self.is_asked(info):
                continue
            if not is_news_alone(info) and info.si_code != FROM_KERNEL:
                os.kill(process, info.si_signo)  # not waited for yet: its number is its own

    def hand_on(self, number):
        """Sends a signal to the recorded processes, each held fast before it is looked at again."""
        send_signal(self.recorded(), number, self.recorded)

    def wait_for_others(self):
        """Waits for the further processes, as those of a server that went into the background. A signal is handed on to
        them; at a second one they are no longer waited for. Whether all have ended."""
        told = stop = False
        limit = time.monotonic() + BEGIN_LIMIT
        while True:
            self.reap()
            family = self.living()
            running = self.recorded_among(family)
            has_family = bool(family) or (not names_in_proc() and has_children())
            if running or (has_family and self.has_begun_files()):
                limit = time.monotonic() + BEGIN_LIMIT
            if not running and (not has_family or time.monotonic() > limit):
                self.reap()  # some may have ended while we looked
                return True
            if running and not told:
                self.say("waiting for " + told_to_run_on(sorted(running)))
                told = True
            info = signal.sigtimedwait(WAITED, LOOK if running else MOMENT)
            if info is None or is_news_alone(info) or self.is_asked(info):
                continue
            if stop:
                return False
            stop = True
            if info.si_code != FROM_KERNEL:
                self.hand_on(info.si_signo)


def script_command(command, error):
    """Where the system couldn't execute a script, as its first line doesn't say who runs it (`#!`), the words by which sh does: so the C
    library's execvp has it run, and a shell. None where that isn't why."""
    if error.errno != errno.ENOEXEC:
        return None
    path = command[0] if "/" in command[0] else find_tool(command[0])
    with open(path, "rb") as file:
        is_text = b"\0" not in file.read(HEAD_BYTES)
    return [SHELL, path, *command[1:]] if is_text else None


def execute(command, environment):
    """Becomes the program."""
    try:
        os.execvpe(command[0], command, environment)
    except OSError as error:
        script = script_command(command, error)
        if script is None:
            raise
        os.execve(SHELL, script, environment)


def fall_silent():
    """This process reads nothing, and nobody hears it."""
    null = os.open(os.devnull, os.O_RDWR)
    for number in (0, 1, 2):
        os.dup2(null, number)


def start(command, environment, mask, ignored=(), is_quiet=False):
    """Starts the program, with the signals blocked that were so before, and those `ignored` that were so before Python came; its
    number, or the error that it wasn't started for, which comes over a pipe."""
    reading, writing = os.pipe()
    process = os.fork()
    if process == 0:
        try:
            os.close(reading)
            for number in (signal.SIGPIPE, signal.SIGXFSZ):  # Python ignores these
                if number not in ignored:
                    signal.signal(number, signal.SIG_DFL)
            if is_quiet:
                fall_silent()
            signal.pthread_sigmask(signal.SIG_SETMASK, mask)
            execute(command, environment)
        except OSError as error:
            os.write(writing, b"%d" % error.errno)
        finally:
            os._exit(125)
    os.close(writing)
    with os.fdopen(reading, "rb") as pipe:
        fault = pipe.read()
    if fault:
        os.waitpid(process, 0)
        return None, int(fault)
    return process, 0
