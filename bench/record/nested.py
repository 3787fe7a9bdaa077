"""Four threads, each with two nested locks of its own: nested.py TURNS."""

import sys
import threading

TURNS = int(sys.argv[1])


def work():
    outer, inner = threading.Lock(), threading.Lock()
    for _ in range(TURNS):
        with outer:
            with inner:
                pass


threads = [threading.Thread(target=work) for _ in range(4)]
for thread in threads:
    thread.start()
for thread in threads:
    thread.join()
