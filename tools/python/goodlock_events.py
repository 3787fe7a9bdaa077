"""Events of one thread, and what of them is left out: the same rule as in ../record/locks.c.

Nothing here takes a lock but where a lock, place or thread is new. A signal handler and the collector of garbage may run
Python code, and so take locks, between any two steps: what they do while a thread is in here is put off until it is
done (`busy`, `put_off`). A RecursionError may come at each call of a function: what follows the last one in an acquire or a
release is done wholly, or not at all.
"""

from _thread import RLock, _local, get_ident
from errno import EDEADLK

from goodlock_files import (
    FOREIGN,
    LOCK_MADE,
    LOCK_MUTEX,
    PROCESS_FORKS,
    RECORD_LOCK,
    RECORD_LOCK_KIND,
    RECORD_NO_LOCK,
    RECORD_NOTE,
    RECORD_PLACE,
    RECORD_ROUTINE,
    THREAD_CHILDREN,
    THREAD_LEFT_OUT,
    THREAD_LOST,
    THREAD_OTHERS,
    THREAD_UNMADE,
)

ACQUIRE, RELEASE, TRY_ACQUIRE, FORK, JOIN, BEYOND, AGAIN = 1, 2, 5, 7, 8, 10, 11
KIND_MASK = 31
SITE_SHIFT, OBJECT_SHIFT = 5, 32
CALL_MASK = ~KIND_MASK
HELD_LIMIT = 64
DEPTH_LIMIT = 1000000  # goodlock takes no more acquires of a lock by a thread that holds it
# Words of the record of losses.
LOST_LOCKS, LOST_PLACES, LOST_THREADS, LOST_REASON = 2, 3, 4, 5
KEYS_LIMIT = 1 << 22
BIRTHS_LIMIT = 10  # seconds that a thread waits to write what is new, where another thread may never be done with it


class Held:
    """A lock that a thread holds, and what lies above it: see `struct held` and `struct level` in ../record/recorder.h."""

    __slots__ = ("lock", "identity", "context", "depth", "place", "chunk", "news")

    def __init__(self, lock, identity, context, news):
        self.lock = lock
        self.identity = identity
        self.context = context
        self.depth = 1
        self.place = None  # of the acquire; None: a lock below had an event since
        self.chunk = None
        self.news = news

    def word(self):
        """The word of its acquire, which its identity is, or begins with where it was acquired in an earlier segment."""
        return self.identity[0] if isinstance(self.identity, tuple) else self.identity


class ThreadState:
    """What is known of a thread that runs."""

    def __init__(self, process, record, number):
        self.process = process
        self.record = record  # None: nothing is recorded of it
        self.number = number
        self.busy = False
        self.put_off = []
        self.children = 0
        self.made = 0
        self.held = []
        self.news = 0
        self.segments = 0
        self.contexts = {}
        self.seen = set()
        self.last_context = 0
        self.chunks = 0
        self.words = None
        self.room = 0
        self.place = 0

    # Words

    def store(self, word):
        place = self.place
        if place >= self.room and not self.next_chunk():
            self.record[THREAD_LOST] += 1
            return None
        place = self.place
        self.words[place] = word
        self.place = place + 1
        return place

    def lose(self):
        """An event of a lock that has no number."""
        self.record[THREAD_LOST] += 1

    def next_chunk(self):
        words = self.process.new_events(self.number, self.chunks)
        if words is None:
            return False
        self.chunks += 1
        self.words = words
        self.room = len(words)
        self.place = 0
        return True

    def leave_out(self, start):
        """Takes the words from here on away, the last one first: if the process is killed in between, what stays is the front
        of what happened."""
        end = self.place
        words = self.words
        for place in range(end - 1, start - 1, -1):
            words[place] = 0
        self.place = start
        self.record[THREAD_LEFT_OUT] += end - start + 1

    def count_other(self):
        self.record[THREAD_OTHERS] += 1

    # What is known already

    def context_of(self, before, identity):
        """A number for: this is acquired while all that is held which has the number `before`."""
        key = (before, identity)
        context = self.contexts.get(key)
        if context is None:
            if len(self.contexts) >= KEYS_LIMIT:
                self.contexts = {}
                self.seen = set()
            context = self.last_context = self.last_context + 1
            self.contexts[key] = context
        return context

    def is_news(self, context):
        if context in self.seen and not self.process.all:
            return False
        self.seen.add(context)
        return True

    def end_segment(self):
        """Locks that stay held were acquired in an earlier segment: they get other identities."""
        self.segments += 1
        self.contexts = {}
        self.seen = set()
        context = 0
        for held in self.held:
            held.place = None
            held.identity = (held.word(), self.segments)
            context = held.context = self.context_of(context, held.identity)

    # Acquires and releases

    def find(self, lock):
        for held in reversed(self.held):
            if held.lock == lock:
                return held
        return None

    def keep_above(self, index):
        for held in self.held[index + 1 :]:
            held.place = None

    def acquire(self, call, kind, reentrant=True):
        """Writes an acquire; what to take back if it fails."""
        lock = call >> OBJECT_SHIFT
        if self.held:
            held = self.find(lock)
            if held is not None or len(self.held) == HELD_LIMIT:
                return self.acquire_further(call, kind, held, reentrant)
            before = self.held[-1].context
        else:
            before = 0
        word = call | kind
        context = self.context_of(before, word)
        held = Held(lock, word, context, self.news)
        if self.place >= self.room:
            self.next_chunk()
        self.held.append(held)
        if context not in self.seen or self.process.all:
            self.seen.add(context)
            self.news += 1
        place = self.place
        if place < self.room:
            self.words[place] = word
            self.place = place + 1
            held.place = place
        else:
            self.record[THREAD_LOST] += 1
        held.chunk = self.words
        return held, held.chunk, held.place, False

    def acquire_further(self, call, kind, held, reentrant):
        """An acquire of a lock that is held already, or where too many are held. Who holds a lock that isn't reentrant waits for
        itself, or for another thread to release it."""
        if held is None:
            kind = BEYOND
        else:
            self.keep_above(self.held.index(held))
            if not reentrant:
                held, kind = None, AGAIN
            elif held.depth == DEPTH_LIMIT:
                held, kind = None, BEYOND
        word = call | kind
        if self.is_news(self.context_of(self.held[-1].context, word)):
            self.news += 1
        place = self.store(word)
        if held is not None:
            held.depth += 1
        return held, self.words, place, kind == AGAIN

    def take_back(self, token):
        """The acquire failed. What a handler did meanwhile isn't known after all: it did it without that lock."""
        held, words, place, _ = token
        if place is not None:
            words[place] = 0
        if words is self.words and place is not None and self.place == place + 1:
            self.place = place
        else:
            self.seen = set()
        if held is not None and held.depth > 1:
            held.depth -= 1
        elif held is not None and held in self.held:
            if held.news != self.news:
                self.seen.discard(held.context)
            self.remove(held)
        self.count_other()

    def remove(self, held):
        """Takes a lock out of those held. If it wasn't acquired last, the later ones have new contexts."""
        index = self.held.index(held)
        self.keep_above(index)
        del self.held[index]
        for later in self.held[index:]:
            before = self.held[index - 1].context if index else 0
            later.context = self.context_of(before, later.identity)
            index += 1

    def release(self, call):
        """Writes a release, or leaves it out with all since the thread last held as many locks as afterwards. Whether the
        thread held the lock."""
        held = self.held[-1] if self.held else None
        if (
            held is not None
            and held.lock == call >> OBJECT_SHIFT
            and held.depth == 1
            and held.news == self.news
            and held.place is not None
            and held.chunk is self.words
        ):
            self.leave_out(held.place)
            self.held.pop()
            return True
        return self.release_further(call)

    def release_further(self, call):
        word = call | RELEASE
        held = self.find(call >> OBJECT_SHIFT)
        if held is None and not self.is_news(self.context_of(0, word)):
            self.record[THREAD_LEFT_OUT] += 1
            return False
        if held is not None:
            self.keep_above(self.held.index(held))
        self.store(word)
        if held is None:
            return False
        if held.depth > 1:
            held.depth -= 1
        else:
            self.remove(held)
        return True


class Known:
    """A lock as it was made. It gets its number at its first event."""

    __slots__ = ("number", "kind", "site", "maker", "order", "reentrant")

    def __init__(self, kind, reentrant, site, maker, order):
        self.number = 0
        self.reentrant = reentrant
        self.kind = kind
        self.site = site
        self.maker = maker
        self.order = order


def is_generated(code):
    """Whether this is a constructor that was made for a class with fields: of dataclasses, or attrs. Its fields may be locks."""
    name = code.co_filename
    if code.co_name != "__init__":
        return False
    return (
        name.startswith("<attrs generated") or name == "<string>" and any("dflt_" in free for free in code.co_freevars)
    )


class Places:
    """Numbers of places. Frames of the modules that are made of locks stand for their callers, and so do generated constructors."""

    def __init__(self, passed_over, own, frames):
        self.passed_over = passed_over
        self.own = own
        self.frames = frames
        self.sites = {}
        self.sites_of_texts = {}  # code that is made anew for each call, as by exec, has its places again
        self.kept = []  # the code whose identities are keys

    def first_frame(self, frame):
        """The innermost frame of the program's own; where there is none, the innermost that isn't of a passed over file. What such a
        file does while it is imported nobody called for: that has its own place, whoever imports it."""
        passed_over = self.passed_over
        start = frame
        while frame is not None:
            code = frame.f_code
            name = code.co_filename
            if name not in passed_over and (name[:1] != "<" or not is_generated(code)) or code.co_name == "<module>":
                break
            frame = frame.f_back
        if frame is None:
            frame = start
            while frame.f_back is not None and frame.f_code.co_filename in self.own:
                frame = frame.f_back
        return frame

    def key_of(self, frame):
        if self.frames == 1:
            return id(frame.f_code), frame.f_lasti
        key = []
        while frame is not None and len(key) < 2 * self.frames:
            key += (id(frame.f_code), frame.f_lasti)
            frame = frame.f_back
        return tuple(key)

    def text_of(self, frame):
        """A line for each frame. A file's name may have line ends in it, which are shown as other marks that can't be in a name."""
        texts = []
        while frame is not None and len(texts) < self.frames:
            self.kept.append(frame.f_code)
            name = frame.f_code.co_filename
            if name not in self.own:
                texts.append("%s:%d" % (name.replace("\n", "?"), frame.f_lineno or 0))
            frame = frame.f_back
        return "\n".join(texts)


class Process:
    """One recorded process. What is new is written under `births`, which no thread holds while it waits for a lock of the
    program's, but in a signal's handler or a finalizer, which comes at any moment. Where that waits for other threads, these go on after a
    while, and what is new of them is lost."""

    def __init__(self, make_files, places, everything, command, mark, parent=None):
        self.births = RLock()
        self.stuck = False
        self.places = places
        self.all = everything
        self.make_files = make_files
        self.command = command
        self.mark = mark
        self.next_lock = parent.next_lock if parent else 1
        self.next_site = parent.next_site if parent else 1
        self.next_thread = 0
        self.unjoined = set()  # numbers of threads for which the interpreter's end waits
        self.notes = {}
        self.full = False
        self.key = parent.key if parent else (0, 0)  # number and image of the recorded process that this is or comes of
        self.files = None
        self.record, self.losses = [0] * (PROCESS_FORKS + 1), [0] * (LOST_REASON + 1)

    def begin(self):
        """Makes the files; an OSError if that can't be."""
        files = self.make_files()
        self.record = files.write_process(self.command, self.key, self.next_lock, self.next_site, self.places.frames)
        self.losses = files.write_losses()
        self.files, self.key = files, (files.process, files.image)

    def child(self):
        """The process that was forked of this one. It is counted where nothing can be recorded of it."""
        child = Process(self.make_files, self.places, self.all, self.command, self.mark, self)
        try:
            child.begin()
        except Exception as error:
            child.full = True
            child.mark.count(getattr(error, "errno", None) or 0)
        return child

    def is_stuck(self):
        """Whether another thread has `births`, and goes on to have it."""
        births = self.births
        if births._is_owned():
            return False
        try:
            self.stuck = not births.acquire(True, 0 if self.stuck else BIRTHS_LIMIT)
        finally:
            if births._is_owned():
                births.release()
        if self.stuck:
            self.losses[LOST_REASON] = self.losses[LOST_REASON] or EDEADLK
        return self.stuck

    def ask(self, call, *words):
        """What a call of the files gives; None if it fails, and then no further one is made."""
        try:
            return call(*words)
        except OSError as error:
            self.full = True
            self.losses[LOST_REASON] = error.errno or 0
            return None

    def write(self, *record):
        """A record's words, or None."""
        return None if self.full else self.ask(self.files.write, *record)

    def new_events(self, thread, order):
        if self.is_stuck():
            return None
        with self.births:
            return None if self.full else self.ask(self.files.new_events, thread, order)

    def new_thread(self, parent, child, routine):
        """Number and record of a new thread; the record is None if there is no room for it."""
        if self.is_stuck():
            self.losses[LOST_THREADS] += 1
            return 0, None
        with self.births:
            number = self.next_thread
            self.next_thread += 1
            record = None if self.full else self.ask(self.files.write_thread, number, parent, child)
            if record is None:
                self.losses[LOST_THREADS] += 1
            elif routine:
                self.write(RECORD_ROUTINE, [number], routine)
            return number, record

    def site_of(self, frame):
        places = self.places
        frame = places.first_frame(frame)
        key = places.key_of(frame)
        site = places.sites.get(key)
        return self.new_site(key, places.text_of(frame)) if site is None else site

    def new_site(self, key, text):
        if self.is_stuck():
            self.losses[LOST_PLACES] += 1
            return 0
        with self.births:
            site = self.places.sites_of_texts.get(text)
            if site is None:
                site = self.next_site
                self.next_site += 1
                if self.write(RECORD_PLACE, [site], text) is None:
                    self.losses[LOST_PLACES] += 1
                self.places.sites_of_texts[text] = site
            self.places.sites[key] = site
            return site

    def number_of(self, known):
        """The number of a lock at its first event; 0 where it can't have one yet."""
        if self.is_stuck():
            return 0
        with self.births:
            if known.number == 0:
                number = self.next_lock
                self.next_lock += 1
                made = [number, LOCK_MUTEX | LOCK_MADE << 32, 0, known.site, known.maker | known.order << 32]
                if self.write(RECORD_LOCK, made) is None:
                    self.losses[LOST_LOCKS] += 1
                else:
                    self.write(RECORD_LOCK_KIND, [number], known.kind)
                known.number = number
            return known.number

    def call_of(self, known, frame):
        """Lock and site, as parts of a word."""
        number = known.number or self.number_of(known)
        return number << OBJECT_SHIFT | self.site_of(frame) << SITE_SHIFT

    def no_lock(self, number):
        if not self.is_stuck():
            with self.births:
                self.write(RECORD_NO_LOCK, [number])

    def note(self, text):
        """Counts a note; `%d` in it stands for how often."""
        if self.is_stuck():
            return
        with self.births:
            if text not in self.notes:
                self.notes[text] = self.write(RECORD_NOTE, [0], text)
            if self.notes[text] is not None:
                self.notes[text][1] += 1


class Recorder:
    """What the wrappers call. One for all processes that come of forks."""

    def __init__(self, process):
        self.process = process
        self.local = _local()
        self.local.state = self.first_state()

    def first_state(self):
        """The present thread is the first one of its process."""
        number, record = self.process.new_thread(0, 0, None)
        return ThreadState(self.process, record, number)

    def state(self):
        try:
            return self.local.state
        except AttributeError:
            return self.enter_foreign()

    def enter_foreign(self):
        """A thread that threading.Thread didn't make. Until its state is there, it is busy."""
        self.local.state = busy = ThreadState(self.process, None, 0)
        busy.busy = True
        number, record = self.process.new_thread(FOREIGN, 0, None)
        self.local.state = ThreadState(self.process, record, number)
        return self.local.state

    def put_off(self, state, operation, known, frame, arguments):
        """The thread is in the recorder already. The place is told by its text, as the frame goes on."""
        places = self.process.places
        frame = places.first_frame(frame)
        state.put_off.append((operation, known, places.key_of(frame), places.text_of(frame), arguments))

    def do(self, operation, known, frame, *arguments):
        """Does an operation of a thread's state on a lock, with all that was put off meanwhile."""
        state = self.state()
        if state.busy or state.record is None:
            if state.record is not None:
                self.put_off(state, operation, known, frame, arguments)
            return None
        if state.put_off:
            self.catch_up(state)
        state.busy = True
        call = None
        try:
            call = self.process.call_of(known, frame)
            return operation(state, call, *arguments) if call >> OBJECT_SHIFT else state.lose()
        except RecursionError:
            raise  # nothing was done
        except BaseException:
            # An exception of a signal handler's. The program doesn't go on with the lock.
            if call is not None:
                settle(state, call)
            raise
        finally:
            state.busy = False
            if state.put_off:
                self.catch_up(state)

    def catch_up(self, state):
        """Does what was put off. A handler may come before each step here, and do it first."""
        while state.put_off and not state.busy:
            state.busy = True
            try:
                if not state.put_off:
                    continue
                late = state.put_off.pop(0)
                operation, known, key, text, arguments = late
                call = None if known is None else self.late_call(known, key, text)
                if call is None or call >> OBJECT_SHIFT:
                    operation(state, call, *arguments)
                else:
                    state.lose()
            except RecursionError:
                state.put_off.insert(0, late)
                raise
            finally:
                state.busy = False

    def late_call(self, known, key, text):
        """Lock and site of what was put off."""
        number = known.number or self.process.number_of(known)
        return number << OBJECT_SHIFT | self.process.new_site(key, text) << SITE_SHIFT

    def note(self, text):
        """Counts a note, once the thread is in nothing else here."""
        state = self.state()
        state.put_off.append((note, None, None, None, (text,)))
        self.catch_up(state)

    # Locks

    def made(self, kind, reentrant, frame):
        """A lock that is made in this frame."""
        state = self.state()
        if state.busy or state.record is None:
            return Known(kind, reentrant, 0, 0, 0)
        state.busy = True
        try:
            state.made += 1
            return Known(kind, reentrant, self.process.site_of(frame), state.number, state.made)
        finally:
            state.busy = False
            if state.put_off:
                self.catch_up(state)

    def wants(self, known, frame):
        return self.do(ThreadState.acquire, known, frame, ACQUIRE, known.reentrant)

    def before_try(self):
        """Near the limit of depth the call fails here, not when the lock is to be released."""
        self.state()

    def took(self, known, frame):
        self.do(ThreadState.acquire, known, frame, TRY_ACQUIRE, known.reentrant)

    def did_not_take(self):
        state = self.state()
        if state.record is not None:
            state.count_other()

    def gives_up(self, token):
        """An acquire that was written failed."""
        state = self.state()
        if token is not None and not state.busy:
            state.take_back(token)

    def released(self, known, frame):
        return self.do(ThreadState.release, known, frame)

    def waits(self, known, frame):
        self.do(wait, known, frame)

    def is_no_lock(self, known, frame):
        """What was recorded as a lock is none."""
        self.do(no_lock, known, frame)

    def settles(self, known, frame, depth):
        """The thread holds the lock so often, whatever of its last call was recorded."""
        self.do(settle_to, known, frame, depth)

    # Threads

    def starting(self, routine, frame):
        """Plans a thread; what `started` or `not_started` wants."""
        state = self.state()
        if state.busy or state.record is None:
            return None
        state.busy = True
        try:
            site = self.process.site_of(frame)
            number, record = self.process.new_thread(state.number, state.children + 1, routine)
            if record is None:
                return None
            state.children += 1
            state.record[THREAD_CHILDREN] = state.children
            state.end_segment()
            place = state.store(FORK | site << SITE_SHIFT | number << OBJECT_SHIFT)
            return ThreadState(self.process, record, number), state.words, place, get_ident()
        finally:
            state.busy = False
            if state.put_off:
                self.catch_up(state)

    def not_started(self, plan):
        new, words, place, _ = plan
        state = self.state()
        state.children -= 1
        state.record[THREAD_CHILDREN] = state.children
        new.record[THREAD_UNMADE] = 1
        if place is not None:
            words[place] = 0
        state.count_other()

    def adopt(self, plan, daemon):
        """The present thread is the planned one; False where it isn't: a greenlet runs on the thread that started it."""
        new, _, _, starter = plan
        if starter == get_ident():
            return False
        self.local.state = new
        if not daemon:
            self.process.unjoined.add(new.number)
        return True

    def joined(self, plan, frame):
        self.joined_all([plan[0].number], frame)

    def ended(self, frame):
        """The interpreter's end has waited for all threads but daemons."""
        unjoined = sorted(self.process.unjoined)
        if unjoined:
            self.joined_all(unjoined, frame)

    def joined_all(self, numbers, frame):
        state = self.state()
        if state.busy or state.record is None:
            return
        state.busy = True
        try:
            site = self.process.site_of(frame)
            state.end_segment()
            for number in numbers:
                state.store(JOIN | site << SITE_SHIFT | number << OBJECT_SHIFT)
            self.process.unjoined.difference_update(numbers)
        finally:
            state.busy = False
            if state.put_off:
                self.catch_up(state)

    # Forks

    def before_fork(self):
        """From here on no event is written, until it is known which process this is."""
        self.state().busy = True
        if not self.process.is_stuck():
            self.process.births.acquire()
        self.process.record[PROCESS_FORKS] += 1

    def after_fork_in_parent(self):
        if self.process.births._is_owned():
            self.process.births.release()
        state = self.state()
        state.busy = False
        self.catch_up(state)

    def after_fork_in_child(self):
        """The child has one thread. It holds what the forking thread held, and never asked for it."""
        old = self.local.state
        self.process = self.process.child()
        state = self.local.state = self.first_state()
        state.made = old.made
        for held in old.held if state.record is not None else []:
            for _ in range(held.depth):
                state.acquire(held.word() & CALL_MASK, TRY_ACQUIRE)


def wait(state, call):
    """A wait releases the lock, as often as the thread acquired it, and takes it again. All is written before: the wait may
    hang while it takes the lock again."""
    held = state.find(call >> OBJECT_SHIFT)
    if held is None:
        state.count_other()
        return
    depth = held.depth
    for _ in range(depth):
        state.release(call)
    for _ in range(depth):
        state.acquire(call, ACQUIRE)


def no_lock(state, call):
    state.process.no_lock(call >> OBJECT_SHIFT)


def note(state, call, text):
    state.process.note(text)


def settle(state, call):
    """The thread doesn't hold this lock as often as it seems."""
    if state.find(call >> OBJECT_SHIFT) is not None:
        state.release_further(call)


def settle_to(state, call, depth):
    """The thread holds this lock no more often than so."""
    held = state.find(call >> OBJECT_SHIFT)
    for _ in range(held.depth - depth if held is not None else 0):
        state.release(call)
