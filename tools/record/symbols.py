"""Names of addresses: symbols and source lines of the modules (program and libraries) of a process."""

import bisect
import itertools
import os
import re
import struct
import zlib

from tool import run_tool

STT_OBJECT, STT_FUNC, STT_TLS = 1, 2, 6
SHT_SYMTAB, SHT_NOTE, SHT_DYNSYM = 2, 7, 11
NT_GNU_BUILD_ID = 3
DEBUG_LINK = b".gnu_debuglink\0"
DEBUG_FILES = "/usr/lib/debug"

# Sources of the C++ library: what is inlined from them isn't the program's own line.
WRAPPER_SOURCE = re.compile(r"/c\+\+/(v1|\d+(\.\d+)*)/|libstdc\+\+-v3/|/gthr-[a-z]+\.h$")
# Names of Python's that say nothing without a directory, and the directories that have its own modules and those that are installed.
PACKAGE_FILES = ("__init__.py", "__main__.py")
INSTALLED = re.compile(r"python3\.\d+t?|(site|dist)-packages")
# What stands in a readable name as one mark: an operator with such marks, the name of what has none, or any other mark.
PARTS = re.compile(r"\boperator(?:\(\)|<=>|->\*?|<<=?|>>=?|[<>]=?)|\(anonymous namespace\)|.")
OPERATOR = re.compile(r"\boperator((?:<<|>>|->|<|>)[=*]?)")
OPERATOR_MARKS = {"<": "less", ">": "greater", "-": "minus", "=": "equal", "*": "star"}
CLONE = re.compile(r" ?\[(?:clone|abi:)[^\]]*\]")
DISCRIMINATOR = re.compile(r" \(discriminator \d+\)$")


class Symbol:
    def __init__(self, start, size, name):
        self.start = start
        self.size = size
        self.name = name


def read_sections(data):
    """(type, offset, size, link) of each section of a 64-bit ELF file of this machine's byte order; [] for others."""
    if len(data) < 64 or data[:5] != b"\x7fELF\x02":
        return []
    offset = struct.unpack_from("=Q", data, 40)[0]
    size, count = struct.unpack_from("=HH", data, 58)
    if size != 64 or offset + size * count > len(data):
        return []
    sections = []
    for i in range(count):
        kind = struct.unpack_from("=I", data, offset + 64 * i + 4)[0]
        place, length = struct.unpack_from("=QQ", data, offset + 64 * i + 24)
        link = struct.unpack_from("=I", data, offset + 64 * i + 40)[0]
        sections.append((kind, place, length, link))
    return sections


def read_symbols(data, sections, wanted):
    """Symbols of the sections of one kind."""
    found = []
    for kind, place, length, link in sections:
        if kind != wanted or link >= len(sections):
            continue
        _, strings, strings_size, _ = sections[link]
        text = data[strings : strings + strings_size]
        for name, info, _, section, start, size in struct.iter_unpack(
            "=IBBHQQ", data[place : place + length // 24 * 24]
        ):
            if section == 0 or (info & 15) not in (STT_OBJECT, STT_FUNC) or name >= len(text):
                continue
            found.append(Symbol(start, size, text[name : text.index(b"\0", name)].decode("utf-8", "backslashreplace")))
    return found


def build_id(data, sections):
    for kind, place, length, _ in sections:
        if kind != SHT_NOTE or length < 16:
            continue
        name_size, size, note = struct.unpack_from("=III", data, place)
        if note == NT_GNU_BUILD_ID and data[place + 12 : place + 16] == b"GNU\0":
            return data[place + 16 : place + 16 + size].hex()
    return None


def debug_link(data, sections):
    """The name and the checksum of the file into which this one's symbols were put, where that is told; else None."""
    headers, count = struct.unpack_from("=Q", data, 40)[0], len(sections)
    texts = struct.unpack_from("=H", data, 62)[0]  # the section with the sections' names
    if texts >= count:
        return None
    _, start, size, _ = sections[texts]
    text = data[start : start + size]
    for number, (_, place, length, _) in enumerate(sections):
        if text.startswith(DEBUG_LINK, struct.unpack_from("=I", data, headers + 64 * number)[0]):
            told = data[place : place + length]
            name = told.split(b"\0", 1)[0]
            checksum = told[len(name) // 4 * 4 + 4 :][:4]
            return (os.fsdecode(name), struct.unpack("=I", checksum)[0]) if name and len(checksum) == 4 else None
    return None


def file_symbols(path, checksum):
    """The symbols of a separate debug file; [] where it isn't there, or has another checksum than this one, if there is one."""
    try:
        if not os.path.isfile(path):
            return []
        with open(path, "rb") as file:
            data = file.read()
    except (OSError, ValueError):
        return []
    if checksum is not None and zlib.crc32(data) != checksum:
        return []
    return read_symbols(data, read_sections(data), SHT_SYMTAB)


# What c++filt has answered already: a report so far asks for the same names again.
readable_names = {}


def demangled(names):
    """A dictionary from mangled names to readable ones, without parameters."""
    mangled = {n for n in names if n.startswith("_Z")}
    asked = sorted(mangled - readable_names.keys())
    output = run_tool("c++filt", ["-p"], asked) if asked else None
    readable_names.update(zip(asked, output.split("\n")) if output else ())
    return {name: readable_names[name] for name in mangled if name in readable_names}


def short_function(name):
    """A function's readable name without its parameters, its template's arguments and its return type: a place has these marks
    between its parts."""
    for long, short in (
        ("(anonymous namespace)", "{anonymous}"),
        ("operator()", "operator call"),
        ("operator<=>", "operator three-way"),
    ):
        name = name.replace(long, short)
    name = OPERATOR.sub(lambda match: "operator " + "".join(OPERATOR_MARKS[mark] for mark in match.group(1)), name)
    kept, depth = [], 0
    for mark in CLONE.sub("", name):
        depth += mark in "(<"
        if depth == 0:
            kept.append(mark)
        depth -= mark in ")>" and depth > 0
    words = re.split(r"(?<!operator) ", re.sub(r" const$", "", "".join(kept).strip()))
    return words[-1].replace("operator call", "operator()")


def short_variable(name):
    """A variable's readable name without the parameters of the functions that it stands in. Arguments of templates stay."""
    kept, parentheses, angles = [], 0, 0
    for part in PARTS.findall(name):
        parentheses += part == "(" and angles == 0
        if parentheses == 0:
            kept.append("{anonymous}" if part == "(anonymous namespace)" else part)
            angles += (part == "<") - (part == ">")
        parentheses -= part == ")" and angles == 0
    return name if parentheses or angles else re.sub(r" (?:const|volatile)(?=::)", "", "".join(kept))


class Module:
    """A program or library file. Addresses are those of the file: address in memory less bias."""

    def __init__(self, path):
        self.path = path
        self.file = path  # by which it is read: another one where its own is gone
        self.symbols = None
        self.starts = None
        self.lines = {}  # what addr2line has answered already

    def load(self):
        """Reads the symbols: those of the file itself, else those of its separate debug file, else the exported ones."""
        if self.symbols is not None:
            return
        self.symbols = []
        try:
            with open(self.file, "rb") as file:
                data = file.read()
            sections = read_sections(data)
            symbols = read_symbols(data, sections, SHT_SYMTAB)
            if not symbols:
                symbols = self.debug_symbols(data, sections) or read_symbols(data, sections, SHT_DYNSYM)
        except (OSError, struct.error, ValueError):
            symbols = []
        self.symbols = sorted((s for s in symbols if s.name), key=lambda s: (s.start, -s.size, s.name))
        self.starts = [s.start for s in self.symbols]

    def debug_symbols(self, data, sections):
        """Those of its separate debug file, which is found as gdb finds it: by the file's build, or by the name that it tells."""
        identity, link = build_id(data, sections), debug_link(data, sections)
        files = []
        if identity:
            files.append(("%s/.build-id/%s/%s.debug" % (DEBUG_FILES, identity[:2], identity[2:]), None))
        if link:
            name, checksum = link
            folder = os.path.dirname(os.path.realpath(self.path))
            for place in (folder, folder + "/.debug", DEBUG_FILES + folder):
                files.append((os.path.join(place, name), checksum))
        return next(filter(None, itertools.starmap(file_symbols, files)), [])

    def symbol_at(self, address):
        """The symbol that an address lies in, or None. Of several that begin alike, the first by name."""
        self.load()
        place = bisect.bisect_right(self.starts, address)
        best = None
        while place > 0 and (best is None or self.starts[place - 1] == best.start):
            place -= 1
            symbol = self.symbols[place]
            if symbol.start <= address < symbol.start + max(symbol.size, 1):
                best = symbol
            elif best is None and symbol.start + symbol.size <= address and symbol.start < address:
                break
        return best

    def lines_of(self, addresses):
        """For each address the list of (function, path, line) of the calls inlined there, the innermost first."""
        asked = sorted(set(addresses) - self.lines.keys())
        if asked and os.path.isfile(self.file):
            self.lines.update(dict.fromkeys(asked, ()))
            self.lines.update(self.lines_found(["0x%x" % address for address in asked]))
        return self.lines

    def lines_found(self, asked):
        output = run_tool("addr2line", ["-e", self.file, "-i", "-f", "-a"], asked)
        found = {}
        frames = None
        function = None
        for line in (output or "").split("\n"):
            if function is None and line.startswith("0x"):
                frames = found.setdefault(int(line, 16), [])
            elif function is None:
                function = line
            else:
                path, _, number = DISCRIMINATOR.sub("", line).rpartition(":")
                if path and path != "??" and number.isdigit() and number != "0":
                    frames.append((function, path, int(number)))
                function = None
        return found


def is_wrapper_source(path):
    return WRAPPER_SOURCE.search(path) is not None


def least_length(parts):
    """How many parts of a path its short name has at least: a file of Python's that is installed has its package's directories."""
    if not parts or not parts[-1].endswith(".py"):
        return 1
    packages = [place for place, part in enumerate(parts, 1) if INSTALLED.fullmatch(part)]
    return len(parts) - packages[-1] if packages else 1 + (parts[-1] in PACKAGE_FILES)


def short_paths(paths):
    """A short name for each path: its last part, with as many parts before it as tell it from the others."""
    parts = {path: [p for p in path.split("/") if p not in ("", ".")] for path in paths}
    short = {}
    waiting = sorted(parts)
    length = 1
    while waiting:
        groups = {}
        for path in waiting:
            groups.setdefault("/".join(parts[path][-length:]), []).append(path)
        waiting = []
        for name, group in groups.items():
            whole = all(len(parts[p]) <= length for p in group)
            if whole or len(group) == 1 and length >= least_length(parts[group[0]]):
                for path in group:
                    short[path] = name
            else:
                waiting.extend(group)
        length += 1
    return short
