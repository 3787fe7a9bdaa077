"""What the tests of goodlock-java share: the program Locks, recorded, and its known traces."""

import os
import re
import shutil
import subprocess

from known_traces import TESTS, TOOLS, Run, compare, cycles_in, expand, marks_of

JAVA_RECORD = os.path.join(TOOLS, "goodlock-java")
SOURCES = os.path.join(TESTS, "java")
MARKS = marks_of(SOURCES, "//")
NEEDED = ("java", "javac")
# Of a compiler's short run most would go into making it faster.
QUICK = "-XX:TieredStopAtLevel=1"
ASM = "/usr/share/java/asm-commons.jar"
PAIR = """
    main|acq(Object@@a#1)|@monitor_a
    main|acq(Object@@b#1)|@monitor_b
    main|rel(Object@@b#1)|@monitor_b_end
    main|rel(Object@@a#1)|@monitor_a_end"""


def program(name, *arguments):
    return ["java", QUICK, "-cp", "classes", "Locks", name, *arguments]


def record(name, *options, arguments=(), command=None):
    return Run(JAVA_RECORD, command or program(name, *arguments), options)


def expect(name, text, status=0):
    """The program of this name leaves exactly this trace."""
    run = record(name)
    assert run.status == status, "status %d: %s" % (run.status, run.said)
    compare(run.lines(), expand(text, MARKS))
    assert run.files() == ["t.std"], "further files: %s" % run.files()
    return run


def expect_cycles(name, number):
    run = record(name)
    assert run.status == 0, run.said
    found = cycles_in(run.lines())
    assert found == number, "%d cycles in\n%s" % (found, "\n".join(run.lines()))


def line_of(mark):
    return int(MARKS[mark].split(":")[1])


def missing():
    for name in NEEDED:
        if shutil.which(name) is None:
            return name
    return None if os.path.exists(ASM) else ASM


def version_of(java):
    """Its number, as 17; 0 where there is none."""
    if not os.access(java, os.X_OK):
        return 0
    done = subprocess.run([java, "-version"], stdout=subprocess.PIPE, stderr=subprocess.STDOUT)
    version = re.search(rb'version "(\d+)', done.stdout)
    return int(version.group(1)) if version else 0


def all_of_java():
    """The first one of PATH, and each further one that is newer."""
    found = [shutil.which("java") or "java"]
    for name in sorted(os.listdir("/usr/lib/jvm")) if os.path.isdir("/usr/lib/jvm") else ():
        path = "/usr/lib/jvm/%s/bin/java" % name
        if version_of(path) > max(map(version_of, found)):
            found.append(path)
    return found


def compile_classes(source, place, debug="-g", javac="javac"):
    done = subprocess.run(
        [javac, "-J" + QUICK, debug, "-cp", place, "-d", place, source],
        stdout=subprocess.PIPE,
        stderr=subprocess.STDOUT,
    )
    assert done.returncode == 0, done.stdout.decode()


def compile_source(name, text, javac="javac"):
    """A class of its own, into the folder `own`."""
    with open(name + ".java", "w") as file:
        file.write(text)
    compile_classes(name + ".java", "own", javac=javac)
