"""A bank that predicts its own deadlock: two threads move money between two accounts, in opposite directions. The run ends
well, as the second thread starts when the first one is done; no event tells so, and another run deadlocks.

    python3 library/examples/bank.py /usr/local/lib/libgoodlock.so.0

(tools/goodlock-python records any Python program, without a change. This is for a program that records itself.)
"""

import ctypes
import sys
import threading
import time

OK, FULL = 0, 2
ACQUIRE, RELEASE, FORK, JOIN = 0, 2, 6, 7
FULL_MODE = 2
LANES, RING = 3, 256  # of the main thread, the saver and the spender


class Handle(ctypes.Structure):
    """A session, a lane or a report. It is given to one call at a time."""

    _fields_ = [("at", ctypes.c_void_p)]


class Pulled(ctypes.Structure):
    _fields_ = [("events", ctypes.c_uint32), ("ended", ctypes.c_uint32)]


goodlock = ctypes.CDLL(sys.argv[1])
handle, number, size = ctypes.POINTER(Handle), ctypes.c_uint32, ctypes.c_size_t
a_number, a_size = ctypes.POINTER(number), ctypes.POINTER(size)
for name, arguments in {
    "open": [ctypes.c_uint64, number, number, handle],
    "lane_open": [handle, handle, a_number],
    "lock": [handle, ctypes.c_char_p, size, a_number],
    "place": [handle, ctypes.c_char_p, size, a_number],
    "record": [handle, number, number, number, a_number],
    "close": [handle],
    "pull": [handle, number, ctypes.POINTER(Pulled)],
    "hand_in": [handle, handle],
    "settle": [handle, a_number],
    "settled_report": [handle, number, number, number, handle],
    "text": [handle, handle, ctypes.c_char_p, size, a_size],
}.items():
    getattr(goodlock, f"goodlock_{name}").argtypes = arguments
    getattr(goodlock, f"goodlock_{name}").restype = number
goodlock.goodlock_session_free.argtypes = goodlock.goodlock_report_free.argtypes = [handle]
goodlock.goodlock_session_free.restype = goodlock.goodlock_report_free.restype = None


def check(code):
    if code != OK:
        raise RuntimeError(f"goodlock answers {code}")


class Lane:
    """What one thread records into."""

    def __init__(self, session):
        self.handle, self.thread, self.at = Handle(), number(), number()
        check(goodlock.goodlock_lane_open(session, self.handle, self.thread))

    def record(self, kind, operand, place):
        """Records an event, as soon as there is room for it."""
        code = FULL
        while code == FULL:
            code = goodlock.goodlock_record(self.handle, kind, operand, place, self.at)
            if code == FULL:
                time.sleep(0)  # until the collecting thread pulls
        check(code)

    def close(self):
        while (code := goodlock.goodlock_close(self.handle)) == FULL:
            time.sleep(0)
        check(code)


class Account:
    """A lock with its number beside it."""

    def __init__(self, session, name):
        self.lock, self.balance, told = threading.Lock(), 100, number()
        check(goodlock.goodlock_lock(session, name, len(name), told))
        self.number = told.value

    def take(self, lane, place):
        lane.record(ACQUIRE, self.number, place)  # before the call that may wait
        self.lock.acquire()

    def give(self, lane, place):
        lane.record(RELEASE, self.number, place)  # before the lock is given up
        self.lock.release()


def transfer(lane, places, source, target, amount):
    source.take(lane, places["first"])
    target.take(lane, places["second"])
    source.balance -= amount
    target.balance += amount
    target.give(lane, places["end"])
    source.give(lane, places["end"])


def collect(session):
    """The collecting thread: pulls until every lane has ended, with short sleeps while all are empty. A pull may take what
    all rings hold, so that a busy thread keeps no other one waiting."""
    pulled, ended = Pulled(), 0
    while ended < LANES:
        check(goodlock.goodlock_pull(session, LANES * RING, pulled))
        ended += pulled.ended
        if pulled.events == 0:
            time.sleep(0.0001)


def place(session, name):
    told = number()
    check(goodlock.goodlock_place(session, name, len(name), told))
    return told.value


def print_report(session):
    report, needed = Handle(), size()
    check(goodlock.goodlock_settled_report(session, FULL_MODE, 4, 1000, report))
    text = ctypes.create_string_buffer(1)
    check(goodlock.goodlock_text(session, report, text, 0, needed))
    text = ctypes.create_string_buffer(needed.value)
    check(goodlock.goodlock_text(session, report, text, needed, needed))
    print(text.raw.decode(), end="")
    goodlock.goodlock_report_free(report)


def main():
    session, missing = Handle(), number()
    check(goodlock.goodlock_open(1, LANES, RING, session))
    savings, current = Account(session, b"savings"), Account(session, b"current")
    places = {word: place(session, b"transfer, " + word.encode()) for word in ("first", "second", "end")}
    lanes = [Lane(session) for _ in range(LANES)]
    collector = threading.Thread(target=collect, args=[session])
    collector.start()  # the session is the collector's from here

    def tell(lane, source, target):
        for i in range(1000):
            transfer(lane, places, source, target, -1 if i % 2 else 1)
        lane.close()
        is_done.set()

    is_done, threads = threading.Event(), []
    for lane, source, target in ((lanes[1], current, savings), (lanes[2], savings, current)):
        lanes[0].record(FORK, lane.thread.value, 0)  # before the thread starts
        threads.append(threading.Thread(target=tell, args=[lane, source, target]))
        threads[-1].start()
        is_done.wait()
        is_done.clear()
    for lane, thread in zip(lanes[1:], threads):
        thread.join()
        lanes[0].record(JOIN, lane.thread.value, 0)  # after it was waited for
    lanes[0].close()

    collector.join()  # .. and ours again
    for lane in lanes:
        check(goodlock.goodlock_hand_in(session, lane.handle))
    check(goodlock.goodlock_settle(session, missing))
    print_report(session)
    goodlock.goodlock_session_free(session)
    return 0 if savings.balance + current.balance == 200 else 1


if __name__ == "__main__":
    sys.exit(main())
