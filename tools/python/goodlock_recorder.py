"""Stands before the locks and threads of the threading module: docs/RECORDING-PYTHON.md says what is recorded as what.

When the interpreter ends it empties the modules that something still knows, while finalizers take locks. So the recorder's own
modules know names of each other's, and not each other.
"""

import _thread
import functools
import os
import sys
import threading
from _thread import RLock as RawRLock
from _thread import allocate_lock
from sys import _getframe

from goodlock_events import Places, Process, Recorder, settle
from goodlock_files import Files, Mark

FRAMES_LIMIT = 16
AGAIN = 3  # in a token of an acquire: the thread seemed to hold the lock already
ONCE = (True,)  # for a call that is made once, by `map`
AFTER_YIELD = 2  # in the instruction that begins a function, from Python 3.11 on: it doesn't look whether a signal came

# Modules whose frames stand for their callers.
STANDARD = os.path.dirname(threading.Thread.start.__code__.co_filename)
STANDARD_PREFIX = STANDARD + os.sep
INSTALLED = tuple(STANDARD_PREFIX + folder + os.sep for folder in ("site-packages", "dist-packages"))
THREADING = threading.Thread.start.__code__.co_filename
OWN_FILES = {_getframe(0).f_code.co_filename, Places.text_of.__code__.co_filename}
PASSED_OVER = (
    {THREADING}
    | OWN_FILES
    | {
        os.path.join(STANDARD, name)
        for name in (
            "queue.py",
            "contextlib.py",
            "concurrent/futures/_base.py",
            "concurrent/futures/thread.py",
            "concurrent/futures/process.py",
        )
    }
)
UNSEEN_MODULES = {
    "asyncio.locks": "asyncio was imported: its locks (asyncio.Lock, ..) are no locks of threads, and aren't seen",
    "multiprocessing.synchronize": "multiprocessing's locks were imported: they aren't seen",
}
SEMAPHORES_UNSEEN = "%d semaphores were made with another value than 1: they are no locks, and aren't seen"
SEMAPHORES_NO_LOCKS = (
    "%d semaphores of value 1 were released by threads that didn't hold them: they are no locks, and are left out"
)
GREENLETS_UNSEEN = (
    "%d threads were greenlets, which aren't seen: what they did is recorded as done by the threads that ran them"
)

recorder = None


def caller():
    """The frame that called the recorder's function; that function's own where C code did, outside of any of Python's."""
    try:
        return _getframe(2)
    except ValueError:
        return _getframe(1)


# --- Locks ------------------------------------------------------------------------------------------------


def without_look(function):
    """The same function, which doesn't look whether a signal came before its first line, as any other one does from Python 3.11 on (before,
    it doesn't if that is a `try`). The handler's exception would be raised there, and what the function is to do would be left out.
    """
    code = function.__code__.co_code
    if sys.version_info >= (3, 11) and code[:2] == without_look.__code__.co_code[:2]:
        function.__code__ = function.__code__.replace(co_code=code[:1] + bytes([AFTER_YIELD]) + code[2:])
    return function


def made_by(frame):
    """What makes a lock: the name of the class of the standard library whose constructor does, and whether it is a lock of
    threads, of semaphores or of the threading module itself."""
    name, inner = None, False
    while frame is not None and frame.f_code.co_filename in PASSED_OVER:
        function = frame.f_code.co_name
        if function == "__init__":
            maker = frame.f_locals.get("self")
            name = type(maker).__name__
            inner = inner or isinstance(maker, (threading.Thread, threading.Semaphore))
        elif function == "_after_fork":
            inner = True
        elif function != "RLock":
            break
        frame = frame.f_back
    return name, inner


class RecordedLock:
    """What Lock and RLock have in common."""

    __slots__ = ("_raw", "_known", "__weakref__")

    def __new__(cls, *arguments, **words):
        frame = caller()
        name, inner = made_by(frame)
        raw = cls.make_raw(*arguments, **words)
        if inner:
            return raw
        lock = object.__new__(cls)
        lock._raw = raw
        lock._known = recorder.made(name or cls.__name__, issubclass(cls, RLock), frame)
        return lock

    def acquire(self, blocking=True, timeout=-1):
        if blocking and timeout == -1:
            return RecordedLock.__enter__(self, caller())
        recorder.before_try()
        taken = []
        try:
            taken.extend(map(self._raw.acquire, (blocking,), (timeout,)))
            if taken[0]:
                recorder.took(self._known, caller())
            else:
                recorder.did_not_take()
        except RecursionError:
            if not taken:
                raise
            # Else the call of the program's would have ended well.
        except BaseException:
            if taken and taken[0]:
                self._raw.release()
                recorder.settles(self._known, caller(), depth_of(self))
            raise
        return taken[0]

    def __enter__(self, frame=None):
        """An exception of a signal's handler may come just when the lock was taken. Then it is free again: a block that isn't begun
        doesn't leave it."""
        token, taken = recorder.wants(self._known, frame or caller()), []
        try:
            taken.extend(map(self._raw.acquire, ONCE))
            if token is not None and token[AGAIN]:
                recorder.gives_up(token)  # it was another thread that released the lock
        except BaseException:
            if taken:
                self._raw.release()
            recorder.gives_up(token)
            raise
        return taken[0]

    # Both are written out: an exception of a handler may come where one calls the other, and nothing would be released then.

    @without_look
    def release(self):
        try:
            self._raw.release()
        except BaseException as error:
            interrupted(self, error, caller())
            raise
        try:
            recorder.released(self._known, caller())
        except RecursionError:
            recorder.local.state.put_off.append((settle, self._known, "?", "?", ()))
        except BaseException:
            recorder.settles(self._known, caller(), depth_of(self))
            raise

    @without_look
    def __exit__(self, *ignored):
        try:
            self._raw.release()
        except BaseException as error:
            interrupted(self, error, caller())
            raise
        try:
            recorder.released(self._known, caller())
        except RecursionError:
            recorder.local.state.put_off.append((settle, self._known, "?", "?", ()))
        except BaseException:
            recorder.settles(self._known, caller(), depth_of(self))
            raise

    def __repr__(self):
        return repr(self._raw)

    def __reduce__(self):
        kind = type(self._raw)
        raise TypeError("cannot pickle '%s.%s' object" % (kind.__module__, kind.__qualname__))

    def __getattr__(self, name):
        return getattr(self._raw, name)

    @property
    def __class__(self):
        """For isinstance: the lock is one of the real kind too."""
        return type(self._raw)

    acquire.__qualname__, release.__qualname__ = "lock.acquire", "lock.release"

    # What threading.Condition and forks ask for

    def _acquire_restore(self, saved):
        self._raw._acquire_restore(saved)

    def _at_fork_reinit(self):
        self._raw._at_fork_reinit()
        recorder.settles(self._known, caller(), 0)


class Lock(RecordedLock):
    __slots__ = ()
    __module__ = "threading"  # where it is known by its name, as what is pickled asks for

    make_raw = staticmethod(allocate_lock)

    acquire_lock = RecordedLock.acquire
    release_lock = RecordedLock.release

    def __init_subclass__(cls):
        raise TypeError("type '_thread.lock' is not an acceptable base type")

    def locked(self):
        return self._raw.locked()

    _is_owned = locked_lock = locked

    def _release_save(self):
        recorder.waits(self._known, caller())
        self._raw.release()

    def _acquire_restore(self, saved):
        self._raw.acquire()


class RLock(RecordedLock):
    __slots__ = ()
    make_raw = RawRLock

    def _release_save(self):
        recorder.waits(self._known, caller())
        return self._raw._release_save()


def is_standard(file):
    """Whether this is a file of the standard library."""
    return file.startswith("<frozen ") or file.startswith(STANDARD_PREFIX) and not file.startswith(INSTALLED)


def depth_of(lock):
    """How often this thread holds a lock that it has just released."""
    if not issubclass(type(lock), RLock) or not lock._raw._is_owned():
        return 0
    return int(repr(lock._raw).split("count=")[1].split()[0])


def interrupted(lock, error, frame):
    """What a release raised: an error of the lock's own, which wasn't released, or the exception of a signal's handler, just after it
    was."""
    if not issubclass(type(error), RuntimeError) or error.__traceback__.tb_next is not None:
        recorder.settles(lock._known, frame, depth_of(lock))


class AllocateLock:
    """Stands for _thread.allocate_lock, and for what the threading module has of it: the standard library's own locks stay as they are. The
    real one isn't written in Python: as a field of a class it is given no object, and it is pickled by its name."""

    __slots__ = ()
    __module__ = "_thread"

    def __call__(self):
        return allocate_lock() if is_standard(caller().f_code.co_filename) else Lock()

    def __reduce__(self):
        return self.__name__

    def __getattr__(self, name):
        return getattr(allocate_lock, name)


# --- Semaphores -------------------------------------------------------------------------------------------

real_semaphore_start = threading.Semaphore.__init__
real_semaphore_acquire = threading.Semaphore.acquire
real_releases = {kind: kind.release for kind in (threading.Semaphore, threading.BoundedSemaphore)}


@functools.wraps(real_semaphore_start)
def semaphore_start(self, value=1):
    """A semaphore that is made with the value 1 is a lock, as long as only those release it that acquired it."""
    real_semaphore_start(self, value)
    self._goodlock_known = None
    if value == 1:
        self._goodlock_known = recorder.made(type(self).__name__, False, caller())
    elif is_made_by_program(caller()):
        recorder.note(SEMAPHORES_UNSEEN)


def is_made_by_program(frame):
    """Whether a semaphore that is made in this frame is the program's own. Each pool of threads has one, to count those that wait."""
    while frame is not None and frame.f_code.co_filename == THREADING:  # the constructor of another class of semaphores
        frame = frame.f_back
    return frame is None or not is_standard(frame.f_code.co_filename)


@functools.wraps(real_semaphore_acquire)
def semaphore_acquire(self, blocking=True, timeout=None):
    known = self._goodlock_known
    if known is None:
        return real_semaphore_acquire(self, blocking, timeout)
    if blocking and timeout is None:
        token = recorder.wants(known, caller())
        try:
            return real_semaphore_acquire(self, blocking, timeout)
        except BaseException:
            recorder.gives_up(token)
            raise
    taken = real_semaphore_acquire(self, blocking, timeout)
    if taken:
        recorder.took(known, caller())
    else:
        recorder.did_not_take()
    return taken


def semaphore_release_of(kind):
    real_release = real_releases[kind]

    @functools.wraps(real_release)
    def release(self, n=1):
        real_release(self, n)
        known = self._goodlock_known
        if known is None:
            return
        for _ in range(n):
            if recorder.released(known, caller()) is False:
                self._goodlock_known = None
                recorder.is_no_lock(known, caller())
                recorder.note(SEMAPHORES_NO_LOCKS)
                return

    return release


# --- Threads ----------------------------------------------------------------------------------------------

real_start, real_join, real_bootstrap = threading.Thread.start, threading.Thread.join, threading.Thread._bootstrap
real_shutdown = threading._shutdown


def routine_of(thread):
    """A short name of what the thread runs, which may be an object that answers any question in its own way."""
    routine = getattr(thread, "_target", None)
    while issubclass(type(routine), functools.partial):
        routine = routine.func
    try:
        name = getattr(routine, "__qualname__", None)
    except Exception:
        name = None
    if not issubclass(type(name), str):
        name = "" if type(thread) is threading.Thread else type(thread).__qualname__
    return name.replace(".<locals>", "").replace("<lambda>", "lambda")


@functools.wraps(real_start)
def thread_start(self):
    plan = None
    if getattr(self, "_initialized", False) and not self._started.is_set():
        plan = self._goodlock_plan = recorder.starting(routine_of(self), caller())
    try:
        real_start(self)
    except BaseException:
        # The exception of a signal's handler may come after the thread was made: then it is among those that begin, until it runs.
        begins = any(thread is self for thread in list(threading._limbo.values()))
        if plan is not None and not begins and not self._started.is_set():
            recorder.not_started(plan)
        raise


@functools.wraps(real_bootstrap)
def thread_bootstrap(self):
    plan = getattr(self, "_goodlock_plan", None)
    if plan is not None and not recorder.adopt(plan, self.daemon):
        recorder.note(GREENLETS_UNSEEN)
    real_bootstrap(self)


@functools.wraps(real_join)
def thread_join(self, timeout=None):
    real_join(self, timeout)
    plan = getattr(self, "_goodlock_plan", None)
    if plan is not None and not self.is_alive():
        recorder.joined(plan, caller())
    else:
        recorder.did_not_take()


@functools.wraps(real_shutdown)
def threads_shutdown():
    """What the interpreter calls when the script has ended, before exit handlers."""
    real_shutdown()
    recorder.ended(caller())


# --- Start ------------------------------------------------------------------------------------------------


class UnseenModules:
    """Stands among the finders of modules; finds nothing, and notes which are looked for."""

    @staticmethod
    def find_spec(name, path=None, target=None):
        if name in UNSEEN_MODULES:
            recorder.note(UNSEEN_MODULES[name])
        return None


def read_command():
    try:
        with open("/proc/self/cmdline", "rb") as file:
            return file.read().replace(b"\0", b" ").decode("utf-8", "backslashreplace")
    except OSError:
        return "python"


def say(text):
    """A line on standard error, which may be closed."""
    try:
        if sys.stderr is not None:
            sys.stderr.write("goodlock-python: this process isn't recorded: %s\n" % text)
    except (OSError, ValueError):
        pass


def started_process(directory):
    """The present process with its files, or None."""
    frames = max(1, min(FRAMES_LIMIT, int(os.environ.get("GOODLOCK_PYTHON_FRAMES", "1"))))
    places = Places(PASSED_OVER, OWN_FILES, frames)
    everything = "GOODLOCK_PYTHON_ALL" in os.environ
    mark = Mark(directory)
    process = Process(lambda: Files(directory), places, everything, read_command(), mark)
    try:
        process.begin()
    except OSError as error:
        mark.count(error.errno or 0)
        say(error)
        return None
    return process


def stand_before_threading():
    threading.Lock = Lock
    threading._CRLock = RLock
    threading._allocate_lock = _thread.allocate_lock = _thread.allocate = AllocateLock()
    threading.Semaphore._goodlock_known = None  # of those that were made before, or without that constructor
    threading.Semaphore.__init__ = semaphore_start
    threading.Semaphore.acquire = threading.Semaphore.__enter__ = semaphore_acquire
    for kind in real_releases:
        kind.release = semaphore_release_of(kind)
    threading.Thread.start = thread_start
    threading.Thread.join = thread_join
    threading.Thread._bootstrap = thread_bootstrap
    threading._shutdown = threads_shutdown


def start():
    global recorder
    directory = os.environ.get("GOODLOCK_PYTHON_DIRECTORY")
    if not directory or recorder is not None:
        return
    if sys.implementation.name != "cpython" or sys.version_info < (3, 9):
        say("it is no CPython 3.9 or later")
        return
    process = started_process(directory)
    if process is None:
        return
    recorder = Recorder(process)
    os.register_at_fork(
        before=recorder.before_fork,
        after_in_parent=recorder.after_fork_in_parent,
        after_in_child=recorder.after_fork_in_child,
    )
    sys.meta_path.insert(0, UnseenModules)
    stand_before_threading()
