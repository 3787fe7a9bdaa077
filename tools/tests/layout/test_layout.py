"""The layout of a recording's files has one truth, layout.h: what Python and Java say of it is compared with what C makes of it."""

import ast
import pathlib
import re
import shutil
import subprocess

import pytest

TOOLS = pathlib.Path(__file__).resolve().parents[2]
RECORD = TOOLS / "record"
JAVA = TOOLS / "java" / "src" / "goodlock" / "runtime"
pytestmark = pytest.mark.skipif(shutil.which("gcc") is None, reason="gcc isn't installed")

HEAD = "sizeof(struct chunk)"
KINDS = "1 << SITE_SHIFT"
SHIFTS = {"SITE_SHIFT": "SITE_SHIFT", "OBJECT_SHIFT": "OBJECT_SHIFT"}
MAGICS = {"CHUNK_EVENTS": "CHUNK_EVENTS", "CHUNK_TABLE": "CHUNK_TABLE"}


def same(*names):
    return {name: name for name in names}


def events(*names):
    return {name: f"EVENT_{name}" for name in names}


def word(record, member):
    """Which word of a record a member is."""
    return f"offsetof(struct {record}, {member}) / 8"


def records(*names):
    return same(*(f"RECORD_{name}" for name in names))


NAMED = ("PLACE", "LOCK_KIND", "LOCK_NAME", "ROUTINE", "NOTE", "NO_LOCK")
LOST = {f"LOST_{what.upper()}": word("losses_record", what) for what in ("locks", "places", "threads")}
COMMON = {**MAGICS, **same("LAYOUT_VERSION", "CHUNK_UNIT"), "CHUNK_HEAD": HEAD, "FOREIGN": "THREAD_FOREIGN"}

# By file, each constant that is the layout's, and what it is in C.
PYTHON = {
    RECORD
    / "convert.py": {
        **COMMON,
        **SHIFTS,
        **records("PROCESS", "MODULE", "SITE", "LOCK", "THREAD", "START", "UNLOADED", "LOSSES", "END", *NAMED),
        **same("END_UNKNOWN", "END_EXIT", "END_EXEC"),
        **events("JOIN", "UPGRADE", "BEYOND", "AGAIN"),
        **same("LOCK_MADE", "HELD_LIMIT"),
        "SITE_MASK": "SITE_LIMIT - 1",
        "KINDS": KINDS,
    },
    RECORD / "recording.py": {**records("PROCESS", "START"), "CHUNK_HEAD": HEAD},
    RECORD
    / "confirm.py": {**SHIFTS, "SITE_MASK": "SITE_LIMIT - 1", "KIND_MASK": f"({KINDS}) - 1", **same("HELD_LIMIT")},
    TOOLS
    / "python"
    / "goodlock_files.py": {
        **COMMON,
        **records("PROCESS", "LOCK", "THREAD", "LOSSES", *NAMED),
        **same("EXTENT_BYTES", "LOCK_MUTEX", "LOCK_MADE", "OBJECT_WORDS"),
        "USED": word("chunk", "used"),
        "PROCESS_FORKS": word("process_record", "forks"),
        "THREAD_UNMADE": word("thread_record", "unmade"),
        "THREAD_CHILDREN": word("thread_record", "children"),
        "THREAD_LEFT_OUT": word("thread_record", "left_out"),
        "THREAD_LOST": word("thread_record", "lost"),
        "THREAD_OTHERS": word("thread_record", "others"),
    },
    TOOLS
    / "python"
    / "goodlock_events.py": {
        **SHIFTS,
        **events("ACQUIRE", "RELEASE", "TRY_ACQUIRE", "FORK", "JOIN", "BEYOND", "AGAIN"),
        "KIND_MASK": f"({KINDS}) - 1",
        **same("HELD_LIMIT"),
        **LOST,
        "LOST_REASON": word("losses_record", "reason"),
    },
}
KINDS_OF_JAVA = ("ACQUIRE", "RELEASE", "SHARED_ACQUIRE", "SHARED_RELEASE", "TRY_ACQUIRE", "TRY_SHARED_ACQUIRE")
IN_JAVA = {
    JAVA
    / "Files.java": {
        **{name: f"RECORD_{name}" for name in ("PROCESS", "LOCK", "THREAD", "LOSSES", *NAMED[:-1])},
        **same("LAYOUT_VERSION", "EXTENT_BYTES", "CHUNK_UNIT", "OBJECT_WORDS"),
        "CHUNK_HEAD": HEAD,
        "EVENTS_MAGIC": "CHUNK_EVENTS",
        "TABLE_MAGIC": "CHUNK_TABLE",
        "USED_PLACE": "offsetof(struct chunk, used)",
        "CHILDREN": word("thread_record", "children"),
        "LEFT_OUT": word("thread_record", "left_out"),
        "LOST": word("thread_record", "lost"),
        "OTHERS": word("thread_record", "others"),
    },
    JAVA
    / "ThreadState.java": {
        **SHIFTS,
        **events(*KINDS_OF_JAVA, "FORK", "JOIN", "UPGRADE", "BEYOND"),
        **same("HELD_LIMIT"),
    },
    JAVA / "Recorder.java": {"FOREIGN": "THREAD_FOREIGN"},
    JAVA / "Process.java": LOST,
}
ALL = {**PYTHON, **IN_JAVA}
LAYOUT_NAME = re.compile(r"(?:RECORD|CHUNK|EVENT|LOCK|LAYOUT|EXTENT)_[A-Z_]+$")
NO_NUMBERS_OF_THE_LAYOUT = {"CHUNK_DOUBLINGS", "LOCK_CLASSES"}


def constants_of_python(path):
    """The numbers that a module gives names to."""
    found = {}
    for node in ast.parse(path.read_text(encoding="utf-8")).body:
        if not isinstance(node, ast.Assign):
            continue
        (target,) = node.targets
        names = target.elts if isinstance(target, ast.Tuple) else [target]
        try:
            value = eval(compile(ast.Expression(node.value), str(path), "eval"), {"__builtins__": {}}, found)
        except (NameError, AttributeError, TypeError):
            continue  # not made of numbers alone
        values = value if isinstance(target, ast.Tuple) else [value]
        found.update({name.id: each for name, each in zip(names, values) if isinstance(name, ast.Name)})
    return found


def constants_of_java(path):
    text = re.sub(r"(?<=\d)_(?=\d)", "", path.read_text(encoding="utf-8"))
    plain = re.findall(r"static final (?:int|long) (\w+) = (0x[0-9a-fA-F]+|\d+(?: << \d+)?)L?;", text)
    return {name: eval(value) for name, value in plain}


def constants_of(path):
    return (constants_of_java if path.suffix == ".java" else constants_of_python)(path)


@pytest.fixture(scope="module")
def in_c(tmp_path_factory):
    """What each of these expressions is in C."""
    expressions = sorted({expression for table in ALL.values() for expression in table.values()})
    folder = tmp_path_factory.mktemp("layout")
    lines = "".join(f'    printf("%llu\\n", (unsigned long long)({expression}));\n' for expression in expressions)
    heads = '#include <stddef.h>\n#include <stdio.h>\n#include "recorder.h"\n'
    (folder / "values.c").write_text(f"{heads}int main(void)\n{{\n{lines}}}\n")
    gcc = ["gcc", "-std=gnu11", f"-I{RECORD}", "-o", folder / "values", folder / "values.c"]
    subprocess.run(gcc, check=True)
    printed = subprocess.run([folder / "values"], check=True, stdout=subprocess.PIPE, text=True).stdout.split()
    return dict(zip(expressions, map(int, printed)))


@pytest.mark.parametrize("path", ALL, ids=lambda path: path.name)
def test_constants_are_those_of_the_header(path, in_c):
    constants = constants_of(path)
    expected = {name: in_c[expression] for name, expression in ALL[path].items()}
    assert {name: constants.get(name) for name in expected} == expected


@pytest.mark.parametrize("path", PYTHON, ids=lambda path: path.name)
def test_each_constant_named_as_in_the_header_is_compared(path):
    named = {name for name in constants_of(path) if LAYOUT_NAME.match(name)} - NO_NUMBERS_OF_THE_LAYOUT
    assert named <= set(PYTHON[path])


def test_classes_of_locks_and_magics_are_those_of_the_header():
    header = (RECORD / "layout.h").read_text(encoding="utf-8")
    enum = re.search(r"enum lock_class \{(.*?)\}", header, re.S)[1]
    classes = {int(number): name.lower() for name, number in re.findall(r"LOCK_(\w+) = (\d+)", enum)}
    assert len(classes) == 5
    assert constants_of(RECORD / "convert.py")["LOCK_CLASSES"] == classes
    magics = [int(number, 16) for number in re.findall(r"#define CHUNK_\w+ (0x\w+)u", header)]
    text = (RECORD / "recording.py").read_text(encoding="utf-8")
    assert [int(number, 16) for number in re.findall(r'struct\.pack\("=I", (0x\w+)\)', text)] == magics
