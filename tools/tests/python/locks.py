"""Programs with known traces, by name. Marks in comments name their lines."""

import _thread
import atexit
import copy
import dataclasses
import functools
import gc
import os
import pickle
import queue
import random
import signal
import subprocess
import sys
import tempfile
import threading
import time

a = threading.Lock()  # @a
b = threading.Lock()  # @b
again = threading.RLock()  # @again
PROGRAMS = {}


def program(function):
    PROGRAMS[function.__name__] = function
    return function


def run_in_turn(*routines):
    """Runs each in a thread of its own, one after the other, with nothing that goodlock takes for an order."""
    turns = [queue.SimpleQueue() for _ in range(len(routines) + 1)]

    def run(i):
        turns[i].get()
        routines[i]()
        turns[i + 1].put(1)

    threads = [threading.Thread(target=run, args=(i,)) for i in range(len(routines))]
    for thread in threads:
        thread.start()
    turns[0].put(1)
    for thread in threads:
        thread.join()


# Sends a process the signal once its first thread has slept at three looks one after the other.
ALARM = r"""
looks=0
while [ $looks -lt 3 ] && state=$(sed -n 's/^State:[[:space:]]*//p' "/proc/$1/task/$1/status" 2>&1); do
    case $state in
        S*) looks=$((looks + 1)) ;;
        *) looks=0 ;;
    esac
done
kill -ALRM "$1"
"""


def alarm_once_it_waits():
    """A signal comes when this thread waits for a lock: it sleeps nowhere else. From a process beside it, as a thread beside it
    would have it wait for the interpreter."""
    os.posix_spawn("/bin/sh", ["sh", "-c", ALARM, "sh", str(os.getpid())], os.environ)


def both(first, second):
    with first:
        with second:
            pass


@program
def mutexes():
    a.acquire()  # @mutex_lock
    with b:  # @mutex_with
        pass
    a.release()  # @mutex_unlock
    b.acquire(False)  # @mutex_try
    b.release()  # @mutex_unlock_2
    b.acquire(timeout=1)  # @mutex_timed
    b.release()  # @mutex_unlock_3
    b.acquire(blocking=True, timeout=-1)  # @mutex_lock_2
    b.release()  # @mutex_unlock_4


@program
def failing():
    a.acquire()  # @failing_lock
    assert not a.acquire(False)
    assert not a.acquire(timeout=0.001)
    for call in (b.release, again.release, lambda: b.acquire(False, 1), threading.Thread().join):
        try:
            call()
        except (RuntimeError, ValueError):
            continue
        raise AssertionError(call)
    a.release()  # @failing_unlock


@program
def opposite():
    run_in_turn(lambda: both(a, b), lambda: both(b, a))


@program
def gate():
    def gated(first, second):
        with again:
            both(first, second)

    run_in_turn(lambda: gated(a, b), lambda: gated(b, a))


@program
def joined_in_between():
    for first, second in ((a, b), (b, a)):
        thread = threading.Thread(target=both, args=(first, second))
        thread.start()
        thread.join()


@program
def tries():
    def try_second(first, second):
        with first:
            assert second.acquire(False)
            second.release()

    run_in_turn(lambda: both(a, b), lambda: try_second(b, a))


@program
def three_in_a_ring():
    c = threading.Lock()
    run_in_turn(lambda: both(a, b), lambda: both(b, c), lambda: both(c, a))


@program
def reentrant():
    with again:  # @again_1
        with again:  # @again_2
            with a:  # @again_a
                pass


class Named(type(threading.RLock())):
    def __init__(self, name):
        super().__init__()
        self.name = name


@program
def class_of_locks():
    lock = Named("x")  # @named
    with lock:  # @named_1
        with lock:  # @named_2
            assert lock.name == "x"


@program
def own_lock_twice_is_no_cycle():
    run_in_turn(lambda: both(again, again), lambda: both(again, again))


@program
def waits():
    condition = threading.Condition()  # @waits_made

    def signals():
        with condition:  # @signals
            condition.notify()

    with condition:  # @waits
        threading.Thread(target=signals).start()  # @waits_start
        condition.wait()  # @wait
        condition.wait(0.001)  # @wait_timed


@program
def wait_of_a_lock_held_twice():
    condition = threading.Condition(again)
    with again:  # @twice_1
        with again:  # @twice_2
            condition.wait(0.001)  # @twice_wait


@program
def wait_that_takes_again():
    """A thread waits with `a` for a condition of `b`; who signals it takes `a` while holding `b`."""
    condition = threading.Condition(b)

    def waiter():
        with a:
            with condition:
                condition.wait(0.001)

    def other():
        with condition:
            with a:
                pass

    run_in_turn(waiter, other)


@program
def refused_wait():
    try:
        threading.Condition(a).wait()
    except RuntimeError:
        pass
    with b:  # @refused_b
        pass


class Account:
    def __init__(self):
        self.lock = threading.Lock()  # @account


@program
def locks_of_objects():
    accounts = [Account() for _ in range(3)]
    with accounts[2].lock:  # @account_2
        with accounts[0].lock:  # @account_0
            pass


@program
def locks_of_racing_threads():
    def walk():
        own = [Account() for _ in range(3)]
        for account in own:
            with account.lock:  # @walk
                pass

    threads = [threading.Thread(target=walk) for _ in range(3)]
    for thread in threads:
        thread.start()  # @walk_start
    for thread in threads:
        thread.join()  # @walk_join


@program
def semaphore_as_lock():
    semaphore = threading.Semaphore()  # @semaphore
    bounded = threading.BoundedSemaphore(1)  # @bounded
    with semaphore:  # @semaphore_with
        bounded.acquire()  # @bounded_acquire
        bounded.release()  # @bounded_release
    assert semaphore.acquire(False)  # @semaphore_try
    assert not semaphore.acquire(False)
    semaphore.release()  # @semaphore_release


@program
def semaphore_cycle():
    semaphore = threading.Semaphore()
    run_in_turn(lambda: both(a, semaphore), lambda: both(semaphore, a))


@program
def semaphore_as_signal():
    semaphore = threading.Semaphore()
    threading.Semaphore(0).release()
    semaphore.acquire()
    thread = threading.Thread(target=semaphore.release)
    thread.start()  # @signal_start
    thread.join()  # @signal_join
    with a:  # @signal_a
        semaphore.acquire()


class OwnSemaphore(threading.Semaphore):
    """Its constructor doesn't call the other one."""

    def __init__(self):
        self._cond = threading.Condition(threading.Lock())
        self._value = 1


@program
def semaphore_with_a_constructor_of_its_own():
    semaphore = OwnSemaphore()
    with semaphore:
        assert not semaphore.acquire(False)
        pair()


class Worker(threading.Thread):
    def run(self):
        pass


class Server:
    def serve(self):
        pass


@program
def threads():
    def parent():
        child = threading.Thread(target=Server().serve)
        child.start()  # @parent_start
        child.join()  # @parent_join

    for thread in (threading.Thread(target=parent), Worker(), threading.Thread(target=lambda: None),
                   threading.Thread(target=functools.partial(max, 1, 2)), threading.Thread(daemon=True)):
        thread.start()  # @threads_start
        thread.join(60)  # @threads_join
    late = threading.Thread(target=a.acquire)  # @late
    a.acquire()  # @late_a
    late.start()  # @late_start
    late.join(0.001)
    try:
        late.start()
    except RuntimeError:
        pass
    a.release()  # @late_a_end
    late.join()  # @late_join


class InterruptedStart(threading.Event):
    """Who waits for the thread's beginning is interrupted before it begins."""

    def __init__(self):
        super().__init__()
        self.interrupted = queue.SimpleQueue()

    def wait(self, timeout=None):
        raise KeyboardInterrupt

    def set(self):
        self.interrupted.get()
        super().set()


@program
def interrupted_start():
    thread = threading.Thread(target=pair)
    started = thread._started = InterruptedStart()
    try:
        thread.start()  # @interrupted_start
    except KeyboardInterrupt:
        started.interrupted.put(1)
    while not started.is_set():
        time.sleep(0.001)
    thread.join()  # @interrupted_join


class AnswersAll:
    """Each attribute of it is such an object."""
    answers = 100

    def __getattr__(self, name):
        assert self.answers > 0
        AnswersAll.answers -= 1
        return AnswersAll()

    def __call__(self):
        pair()


class AnswersNothing:
    def __init__(self):
        self.__name__ = "which the threading module asks for"

    def __getattr__(self, name):
        raise RuntimeError(name)

    def __call__(self):
        pass


@program
def odd_routines():
    for routine in (AnswersAll(), AnswersNothing(), functools.partial(AnswersNothing())):
        thread = threading.Thread(target=routine)
        thread.start()  # @odd_start
        thread.join()  # @odd_join


@program
def pool():
    from concurrent.futures import ThreadPoolExecutor

    with ThreadPoolExecutor(max_workers=1) as executor:  # @pool_end
        assert executor.submit(pair).result() is None  # @pool_submit


def pair():
    with a:  # @pair_a
        with b:  # @pair_b
            pass


@program
def exceptions():
    def raises():
        with a:  # @raises_a
            with b:  # @raises_b
                raise KeyError

    try:
        raises()
    except KeyError:
        pass
    with b:  # @after_b
        pass


@program
def queues():
    tasks = queue.Queue()  # @queue_made
    with a:  # @queue_a
        tasks.put(1)  # @queue_put
    assert tasks.get() == 1  # @queue_get


@program
def lock_held_through_many_starts():
    """On a small stack, where nothing that grows with their number fits."""

    def starts():
        with a:
            for _ in range(1500):
                thread = threading.Thread()
                thread.start()
                thread.join()

    threading.stack_size(128 * 1024)
    thread = threading.Thread(target=starts)
    thread.start()
    thread.join()


@program
def greenlets():
    """As where a library lets them stand for threads: each one runs on the thread that starts it."""
    first = threading.current_thread()
    threading._start_new_thread = lambda routine, arguments: routine(*arguments)
    threading.Thread(target=pair, daemon=True).start()  # @greenlet_start
    threading._active[first.ident] = first
    pair()


@program
def repeats():
    for _ in range(5):
        pair()
    thread = threading.Thread()
    thread.start()  # @repeats_start
    pair()
    thread.join()  # @repeats_join
    for _ in range(3):
        pair()


@program
def repeats_of_code_that_is_made_anew():
    for _ in range(1000):
        exec("with a:\n    with b:\n        pass\n")


@program
def frames():
    def outer():
        pair()  # @frames_outer

    outer()  # @frames_call


@program
def many_locks():
    locks = [threading.Lock() for _ in range(66)]  # @many
    for lock in locks:
        lock.acquire()  # @many_acquire
    for lock in reversed(locks):
        lock.release()  # @many_release


@program
def leaks():
    """As where a release is forgotten: the thread never has to wait for itself. The limit is lowered, as events are slow."""
    events = sys.modules["goodlock_events"]
    assert events.DEPTH_LIMIT == 1000000
    events.DEPTH_LIMIT = 3
    for _ in range(5):
        again.acquire()  # @leaks_acquire
    for _ in range(5):
        again.release()  # @leaks_release


@program
def deadlock():
    meeting = [queue.SimpleQueue(), queue.SimpleQueue()]

    def other():
        with b:  # @dead_b
            meeting[0].put(1)
            meeting[1].get()
            with a:  # @dead_ba
                pass

    threading.Thread(target=other).start()  # @dead_start
    with a:  # @dead_a
        meeting[1].put(1)
        meeting[0].get()
        print("ready", os.getpid(), flush=True)
        with b:  # @dead_ab
            pass


@program
def waits_for_itself():
    a.acquire()  # @itself_1
    print("ready", os.getpid(), flush=True)
    a.acquire()  # @itself_2


@program
def busy():
    """Runs until it is killed, and says so once each thread has made some turns."""
    turns = [0] * 3

    def work(seed):
        choose = random.Random(seed)
        locks = [threading.RLock() for _ in range(12)]
        while True:
            held = choose.sample(locks, choose.randrange(1, 5))
            for lock in held:
                lock.acquire()
            for lock in held:
                lock.release()
            turns[seed] += 1

    for seed in range(3):
        threading.Thread(target=work, args=(seed,), daemon=True).start()
    while min(turns) < 20:
        time.sleep(0.001)
    print("ready", os.getpid(), flush=True)
    threading.Event().wait()


@program
def interrupted():
    """An acquire that a signal's exception ends is taken back."""
    signal.signal(signal.SIGALRM, lambda *_: 1 / 0)
    a.acquire()  # @interrupted_a
    alarm_once_it_waits()
    with b:  # @interrupted_b
        try:
            a.acquire()
        except ZeroDivisionError:
            pass
        with again:  # @interrupted_again
            pass


@program
def interrupted_by_a_handler_that_locks():
    """What the handler takes is taken without the lock that isn't had, and later with it."""
    held, wanted = queue.SimpleQueue(), queue.SimpleQueue()

    def hold():
        with a:  # @holds_a
            held.put(1)
            wanted.get()
        held.put(1)

    def handle(*_):
        with b:  # @handles_b
            pass
        1 / 0

    signal.signal(signal.SIGALRM, handle)
    _thread.start_new_thread(hold, ())
    held.get()
    alarm_once_it_waits()
    for has_it in (False, True):
        try:
            with a:  # @handles_a
                handle()
        except ZeroDivisionError:
            if not has_it:
                wanted.put(1)
                held.get()


@program
def interrupted_at_last():
    signal.signal(signal.SIGALRM, lambda *_: 1 / 0)
    held_by_another = threading.Lock()
    thread = threading.Thread(target=held_by_another.acquire)
    thread.start()
    thread.join()
    with a:  # @last_a
        alarm_once_it_waits()
        try:
            held_by_another.acquire()
        except ZeroDivisionError:
            os._exit(5)


@program
def storm_of_exceptions():
    """A signal's handler raises at any moment: however that ends a block, or keeps it from beginning, its locks are free then."""

    class Late(Exception):
        pass

    def handle(*_):
        raise Late

    def locks():
        while True:
            with a:
                with again:
                    with again:
                        pass

    choose = random.Random(1)
    signal.signal(signal.SIGALRM, handle)
    for turn in range(1000):
        try:
            signal.setitimer(signal.ITIMER_REAL, choose.uniform(0.0001, 0.001))
            locks()
        except Late:
            pass
        assert not a.locked() and not again._is_owned(), "held at turn %d" % turn
        with b:  # @storm_b
            pass


@program
def storm():
    """Locks in a signal's handler and in finalizers, at any moment."""
    inner = [threading.Lock(), threading.RLock()]

    class Ends:
        def __del__(self):
            with inner[0]:
                pass

    def handle(*_):
        with inner[1]:
            pass

    signal.signal(signal.SIGALRM, handle)
    signal.setitimer(signal.ITIMER_REAL, 0.0005, 0.0005)
    gc.set_threshold(5)
    for _ in range(3000):
        ring = Ends()
        ring.self = ring
        both(a, b)
        both(b, again)
    signal.setitimer(signal.ITIMER_REAL, 0)


@program
def random_events():
    choose = random.Random(int(sys.argv[2]))
    locks = [threading.RLock() for _ in range(6)]
    held = []
    for _ in range(6000):
        if held and choose.random() < 0.5:
            held.pop(choose.randrange(len(held)) if choose.random() < 0.3 else -1).release()
        elif len(held) < 5:
            lock = choose.choice(locks)
            if choose.random() < 0.2:
                lock.acquire(False)
            else:
                lock.acquire()
            held.append(lock)
        if choose.random() < 0.002:
            thread = threading.Thread()
            thread.start()
            thread.join()


@program
def forks():
    with a:  # @forks_a
        child = os.fork()
        if child == 0:
            pair_in_child()
            a.release()  # @forks_release
            os._exit(0)
        os.waitpid(child, 0)
        print(child)


def pair_in_child():
    with b:  # @forks_b
        pass


@program
def children():
    child = subprocess.Popen([sys.executable, __file__, "mutexes"])
    child.wait()
    print(child.pid)
    with b:  # @children_b
        pass


@program
def becomes_another():
    print(os.getpid(), flush=True)
    with b:  # @becomes_b
        pass
    os.execv(sys.executable, [sys.executable, __file__, "mutexes"])


@program
def unseen():
    import asyncio
    import multiprocessing.synchronize  # noqa: F401

    asyncio.Lock()
    with a:  # @unseen_a
        pass


@program
def nothing():
    pass


@program
def leaves_at_once():
    pair()
    os._exit(5)


@program
def called_at_exit():
    """By C code, outside of any function of Python's; the last one first."""
    semaphore = threading.Semaphore()  # @exit_semaphore
    for call in (a.release, semaphore.release, semaphore.acquire, functools.partial(a.acquire, False)):
        atexit.register(call)


@program
def threads_without_a_join():
    """The interpreter's end waits for them, but for daemons; the exit handler comes after it."""
    atexit.register(pair)
    ended = queue.SimpleQueue()
    threading.Thread(target=ended.put, args=(1,), daemon=True).start()  # @daemon_start
    ended.get()
    for _ in range(2):
        threading.Thread(target=pair).start()  # @left_start
    joined = threading.Thread(target=pair)
    joined.start()  # @not_left_start
    joined.join()  # @not_left_join


@program
def finalizer_at_the_end():
    """The interpreter has emptied modules when it runs."""

    class Kept:
        def __init__(self):
            self.lock = threading.Lock()  # @kept_made

        def __del__(self):
            with self.lock:  # @kept
                pass

    threading.kept = Kept()


@program
def stray():
    thread = threading.Thread(target=a.acquire)  # @stray_acquire
    thread.start()  # @stray_start
    thread.join()  # @stray_join
    a.release()  # @stray_release


@program
def stray_and_again():
    """The lock is taken again after another thread released it: nobody waits for itself."""
    a.acquire()  # @handed_1
    thread = threading.Thread(target=a.release)  # @handed_release
    thread.start()  # @handed_start
    thread.join()  # @handed_join
    a.acquire()
    with b:  # @handed_b
        a.release()  # @handed_2


@program
def raw_locks():
    raw = _thread.allocate_lock()  # @raw_made
    raw.acquire()  # @raw
    with b:  # @raw_b
        raw.release()  # @raw_end
    tempfile.gettempdir()  # takes a lock of the standard library's own


class Maker:
    make, make_again, make_seen = _thread.allocate_lock, _thread.allocate, threading._allocate_lock


@program
def raw_locks_by_fields():
    maker = Maker()
    first, second = maker.make(), maker.make_again()  # @field_made
    third = maker.make_seen()  # @field_made_last
    with first:  # @field_first
        with second:  # @field_second
            with third:  # @field_third
                pass
    assert pickle.loads(pickle.dumps(maker.make)) is _thread.allocate_lock and maker.make.__name__ == "allocate_lock"
    assert b"_thread" in pickle.dumps(maker.make) and b"goodlock" not in pickle.dumps(maker.make_seen)


@dataclasses.dataclass
class Record:
    name: str
    lock: object = dataclasses.field(default_factory=threading.Lock)
    again: object = dataclasses.field(init=False, default_factory=threading.RLock)


@program
def fields_of_dataclasses():
    record = Record("one")  # @record
    with record.lock:  # @record_lock
        with record.again:  # @record_again
            pass


@program
def long_names():
    for name in ("x" + "n\u00e4" * 50000, "short|\n"):

        def routine():
            pair()

        routine.__qualname__ = name
        thread = threading.Thread(target=routine)
        thread.start()  # @long_start
        thread.join()  # @long_join


@program
def too_deep():
    """However the interpreter's limit of depth ends a block, the lock isn't held afterwards."""

    def deeper():
        with again:  # @deeper
            deeper()

    def deeper_tries():
        again.acquire(False)
        try:
            deeper_tries()
        finally:
            again.release()

    sys.setrecursionlimit(120)
    for i in range(60):
        for function in (deeper, deeper_tries):
            try:
                nested(function, i % 20)
            except RecursionError:
                pass
    try:
        again.release()
    except RuntimeError:
        pass
    else:
        raise AssertionError("it is held")
    with b:
        pass
    run_in_turn(lambda: both(b, again))


def nested(function, more):
    """The limit comes at another call."""
    if more:
        nested(function, more - 1)
    else:
        function()


@program
def like_the_real_ones():
    for lock, real in ((a, _thread.LockType), (again, _thread.RLock)):
        assert isinstance(lock, real) and isinstance(lock, type(lock))
        name = "%s.%s" % (real.__module__, real.__qualname__)
        for call in (copy.copy, copy.deepcopy, pickle.dumps):
            try:
                call(lock)
            except TypeError as error:
                assert str(error) == "cannot pickle '%s' object" % name, error
            else:
                raise AssertionError(call)
        assert "unlocked" in repr(lock) and lock in {lock}
        lock.__enter__()  # @real_enter
        lock.__exit__()  # @real_exit
    try:
        type("OwnLock", (threading.Lock,), {})
    except TypeError:
        pass
    else:
        raise AssertionError("Lock can't be a base")
    with b:  # @real_b
        pass


if __name__ == "__main__":
    PROGRAMS[sys.argv[1]]()
