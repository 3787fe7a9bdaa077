"""Which module (program or library) of a process an address lay in, and when: programs load and unload libraries as often as they
like."""

import bisect
import os

from symbols import short_paths

FOREVER = float("inf")


class LoadedModule:
    def __init__(self, values, module, since):
        self.bias, self.start, self.end = values
        self.module = module
        self.since = since  # counts the loads and unloads of modules before it
        self.until = FOREVER


class Row:
    """Modules in the order in which they were loaded. Mostly each was unloaded before the next one came."""

    def __init__(self):
        self.loaded = []
        self.since = []
        self.until = []  # of each and those before it: when the last one was unloaded

    def add(self, loaded):
        self.loaded.append(loaded)
        self.since.append(loaded.since)
        self.until.append(max(loaded.until, self.until[-1] if self.until else 0))

    def at(self, when):
        """The last one that was there at this moment, and the first one that was loaded since; None where there is none."""
        later = place = bisect.bisect_left(self.since, when)
        while place > 0 and self.until[place - 1] >= when > self.loaded[place - 1].until:
            place -= 1
        is_there = place > 0 and self.until[place - 1] >= when
        return self.loaded[place - 1] if is_there else None, self.loaded[later] if later < len(self.loaded) else None


class Modules:
    """The modules of a process, by address and by when they were there."""

    def __init__(self):
        self.loaded = []
        self.when = 0
        self.present = {}  # those that weren't unloaded, by where they begin
        self.borders = None
        self.rows = {}
        self.names = None

    def load(self, values, module):
        loaded = LoadedModule(values, module, self.when)
        self.loaded.append(loaded)
        self.present.setdefault(loaded.start, []).append(loaded)
        self.when += 1

    def unload(self, start):
        for loaded in self.present.pop(start, ()):
            loaded.until = self.when
        self.when += 1

    def find_rows(self):
        """The parts of memory between two borders are the leaves of a tree, and a module has a place in the rows of the fewest nodes
        that are all of it: however many there are, an address has few rows, and a module stands in few."""
        self.borders = sorted({m.start for m in self.loaded} | {m.end for m in self.loaded})
        for loaded in self.loaded:
            first = bisect.bisect_left(self.borders, loaded.start) + len(self.borders)
            last = bisect.bisect_left(self.borders, loaded.end) + len(self.borders)
            while first < last:
                for node in [first] * (first % 2) + [last - 1] * (last % 2):
                    self.rows.setdefault(node, Row()).add(loaded)
                first, last = (first + 1) // 2, last // 2

    def at(self, address, when):
        """The module that an address lay in when so many loads and unloads had been told; a module may be told of only after
        the first lock in it."""
        if self.borders is None:
            self.find_rows()
        leaf = bisect.bisect_right(self.borders, address) - 1
        node = leaf + len(self.borders) if leaf >= 0 else 0
        there, later = [], []
        while node > 0:
            if node in self.rows:
                one, next_one = self.rows[node].at(when)
                there += [one] if one else []
                later += [next_one] if next_one else []
            node //= 2
        if there:
            return max(there, key=lambda loaded: loaded.since)
        return min(later, key=lambda loaded: loaded.since) if later else None

    def name_of(self, module):
        """That of its file, with as many directories as tell it from others of the process."""
        if self.names is None:
            self.names = short_paths({loaded.module.path for loaded in self.loaded})
        return os.fsencode(self.names[module.path] or "?").decode("utf-8", "backslashreplace")
