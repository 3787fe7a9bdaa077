"""Who made which thread: the order of threads and what of their names tells it, the same whatever the schedule was."""

import hashlib

NUMBERS = 24  # so many numbers stand one by one in a name
RUNS = 24  # and where there are more of them, so many runs of equal ones, the last ones


class Way:
    """Which child of which child of a first thread somebody is. Threads that make each other one after the other have ways as long as
    there are threads before them: so a way is kept in few words, whatever its length."""

    __slots__ = ("root", "digest", "runs", "length")

    def __init__(self, root, digest="", runs=(), length=0):
        self.root = root
        self.digest = digest  # of the runs in front of those that are kept
        self.runs = runs  # (number, how often in a row)
        self.length = length

    def child(self, number):
        runs, digest = self.runs, self.digest
        if runs and runs[-1][0] == number:
            runs = (*runs[:-1], (number, runs[-1][1] + 1))
        else:
            runs = (*runs, (number, 1))
        if len(runs) > RUNS:
            digest = hashlib.blake2b(("%s %d %d" % (digest, *runs[0])).encode(), digest_size=8).hexdigest()
            runs = runs[1:]
        return Way(self.root, digest, runs, self.length + 1)

    def name(self):
        if self.length <= NUMBERS:
            parts = ["%d" % number for number, count in self.runs for _ in range(count)]
        else:
            parts = ["%d*%d" % run if run[1] > 1 else "%d" % run[0] for run in self.runs]
        if self.digest:
            parts.insert(0, "~" + self.digest)
        return ".".join([self.root, *parts])


def threads_by_birth(threads, foreign):
    """(thread, way) of each: a parent stands before its children, and these are in the order of their births. Those that no
    recorded call made, whose parent is `foreign`, come after all others, as do those whose parents aren't known."""
    children, roots, others = {}, [], []
    for thread in sorted(threads.values(), key=lambda thread: thread.number):
        if thread.parent == foreign or (thread.child > 0 and thread.parent not in threads):
            others.append((thread, Way("other").child(thread.number)))
        elif thread.child == 0:
            roots.append((thread, Way("main")))
        else:
            children.setdefault(thread.parent, []).append(thread)
    waiting = (roots + others)[::-1]
    while waiting:
        thread, way = waiting.pop()
        yield thread, way
        own = sorted(children.get(thread.number, ()), key=lambda child: child.child, reverse=True)
        waiting += [(child, way.child(child.child)) for child in own]
