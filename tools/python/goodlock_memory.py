"""Memory that is a file's, and stays so without a descriptor.

A descriptor that stayed open would be closed by programs that close all they inherited, as daemons do, and its number would then be
that of a file of the program's own. Before Python 3.13, `mmap` keeps one: there the C library maps, and what it mapped stays so.
"""

import mmap
import os
import struct
import sys

POPULATE_WRITE = 23  # MADV_POPULATE_WRITE, from Linux 5.14 on
MAP_FAILED = (1 << 8 * struct.calcsize("P")) - 1
VIEW_WRITE = 0x200  # PyBUF_WRITE


def c_functions():
    """mmap and madvise of the C library, the number of their last error, and what makes a view of memory; None without ctypes, or where
    it finds no library, as in an interpreter that is linked statically."""
    try:
        import ctypes

        library = ctypes.CDLL(None, use_errno=True)
        view = ctypes.PyDLL(None).PyMemoryView_FromMemory
    except (ImportError, OSError, AttributeError):
        return None
    size, number, address = ctypes.c_size_t, ctypes.c_int, ctypes.c_void_p
    library.mmap.restype = address
    library.mmap.argtypes = [address, size, number, number, number, ctypes.c_long]
    library.madvise.argtypes = [address, size, number]
    view.restype = ctypes.py_object
    view.argtypes = [address, ctypes.c_ssize_t, number]
    return library.mmap, library.madvise, ctypes.get_errno, view


class MappedByPython:
    """A file's bytes, shared with it."""

    options = {"trackfd": False} if sys.version_info >= (3, 13) else {}
    kept = []  # what is taken apart closes the number of its descriptor, where it has one

    def __init__(self, descriptor, size):
        self.map = mmap.mmap(descriptor, size, **self.options)
        self.bytes = memoryview(self.map)
        if not self.options:
            self.kept.append(self.map)

    def populate(self, start, size):
        """Gives pages their room on the disk; an OSError where there is none, or where the kernel doesn't know how."""
        self.map.madvise(POPULATE_WRITE, start, size)


class MappedByC:
    """The same, by the C library's calls."""

    functions = None

    def __init__(self, descriptor, size):
        map_file, self.advise, self.error, view = self.functions
        self.address = map_file(None, size, mmap.PROT_READ | mmap.PROT_WRITE, mmap.MAP_SHARED, descriptor, 0)
        self.check(self.address != MAP_FAILED)
        self.bytes = view(self.address, size, VIEW_WRITE)

    def check(self, went_well):
        if not went_well:
            raise OSError(self.error(), os.strerror(self.error()))

    def populate(self, start, size):
        self.check(self.advise(self.address + start, size, POPULATE_WRITE) == 0)


def best_way():
    """A class of these."""
    MappedByC.functions = None if MappedByPython.options else c_functions()
    return MappedByC if MappedByC.functions else MappedByPython


Mapped = best_way()
