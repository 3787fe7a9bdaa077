"""Words and folders that are refused, with and without Java, and those that aren't."""

import os
import re
import shutil
import subprocess
import zipfile

import pytest
from java_traces import ASM, JAVA_RECORD, MARKS, PAIR, program
from known_traces import NO_EVENTS, REFUSED, TOOLS, Run, compare, expand


def test_wrong_words():
    with open("kept.std", "w") as file:
        file.write("old\n")
    for words in (
        [],
        ["-o"],
        ["--frames", "0", "java"],
        ["--wrong", "java"],
        ["-o", "kept.std", "java"],
        ["-o", "no/such/t.std", "java"],
    ):
        done = subprocess.run([JAVA_RECORD, *words], stdout=subprocess.PIPE, stderr=subprocess.PIPE)
        assert done.returncode == REFUSED, "%s: %d" % (words, done.returncode)
        assert done.stderr.startswith(b"goodlock-java: "), done.stderr.decode()
    assert open("kept.std").read() == "old\n", "the file was changed"


def test_no_word_at_all_tells_the_usage():
    done = subprocess.run([JAVA_RECORD], stdout=subprocess.PIPE, stderr=subprocess.PIPE)
    assert done.stderr.decode().startswith("goodlock-java: usage:\n    goodlock-java [-o TRACE]"), done.stderr


def test_help_explains_each_option():
    told = subprocess.run([JAVA_RECORD, "--help"], stdout=subprocess.PIPE).stdout.decode()
    options = ["-o TRACE", "--frames N", "--all", "--jdk", "--convert DIRECTORY", "--help, --version"]
    assert re.findall(r"^(-.*?)  +[a-z]", told, re.M) == options


def tools_in(folder):
    """A copy of the recorder there, built if it is here."""
    for name in ("java", "record", "out"):
        if os.path.isdir(os.path.join(TOOLS, name)):
            shutil.copytree(os.path.join(TOOLS, name), os.path.join(folder, name))
    for name in ("goodlock-java", "Makefile"):
        shutil.copy2(os.path.join(TOOLS, name), folder)
    return os.path.join(folder, "goodlock-java")


def said_by(recorder):
    done = subprocess.run([recorder, "true"], stdout=subprocess.PIPE, stderr=subprocess.PIPE)
    return done.returncode, done.stderr.decode()


@pytest.mark.parametrize("name", ["a=b", "a:b"])
def test_folders_that_no_agent_can_be_in(name):
    recorder = tools_in(name)
    built = os.path.join(os.path.realpath(name), "out", "java")
    told = "goodlock-java: %s: a JVM can't be given an agent whose path has = or : in it\n" % built
    assert said_by(recorder) == (REFUSED, told)


@pytest.mark.usefixtures("classes")
def test_folder_where_nothing_can_be_made():
    recorder = tools_in("full")
    shutil.rmtree("full/out", ignore_errors=True)
    with open("full/out", "w"):
        pass
    status, told = said_by(recorder)
    assert status == REFUSED and told.startswith("goodlock-java: the agent can't be built: "), told


@pytest.mark.usefixtures("classes")
def test_folder_whose_name_has_quotes_and_blanks():
    run = Run(tools_in('it\'s "here" now'), program("monitors"))
    assert run.status == 0, run.said
    compare(run.lines(), expand(PAIR, MARKS))


@pytest.mark.usefixtures("classes")
def test_classes_of_the_jdk_that_the_recorder_uses():
    """What it does itself isn't recorded, as where it goes on in a new file: here each has 1 MB, and is full after 131,072 events. The
    program takes its 100,000 pairs of monitors after the join, and nothing else."""
    recorder = tools_in("small")
    path = "small/java/src/goodlock/runtime/Files.java"
    with open(path) as file:
        source = file.read()
    assert "EXTENT_BYTES = 64 << 20;" in source
    with open(path, "w") as file:
        file.write(source.replace("EXTENT_BYTES = 64 << 20;", "EXTENT_BYTES = 1 << 20;"))
    run = Run(recorder, program("repeats"), ["--jdk", "--all"])
    assert run.status == 0 and "lost" not in run.said, run.said
    lines = run.lines()
    after = lines[next(at for at, line in enumerate(lines) if "|join(" in line) + 1 :]
    compare(after[:400000], expand(PAIR, MARKS) * 100000)


def older_asm(folder):
    """The libraries as ASM 9.1 has them: of the numbers of class file versions it has a name for that of Java 17 and for those before."""
    os.mkdir(folder)
    for name in ("asm.jar", "asm-tree.jar", "asm-commons.jar"):
        with zipfile.ZipFile(os.path.join(os.path.dirname(ASM), name)) as here:
            classes = {entry: here.read(entry) for entry in here.namelist()}
        with zipfile.ZipFile(os.path.join(folder, name), "w") as archive:
            for entry, data in classes.items():
                is_changed = entry == "org/objectweb/asm/Opcodes.class"
                archive.writestr(entry, re.sub(rb"(?<=\x00\x03)V(?=1[89]|[2-9]\d)", b"W", data) if is_changed else data)


@pytest.mark.usefixtures("classes")
def test_older_asm():
    recorder = tools_in("older")
    shutil.rmtree("older/out/java", ignore_errors=True)
    older_asm("libraries")
    with open("older/java/agent.py") as file:
        source = file.read()
    assert source.count('LIBRARIES = "/usr/share/java"') == 1
    with open("older/java/agent.py", "w") as file:
        file.write(source.replace('"/usr/share/java"', repr(os.path.abspath("libraries"))))
    run = Run(recorder, program("monitors"))
    assert run.status == 0, run.said
    assert os.path.abspath("libraries") in run.said, "another ASM was used: %s" % run.said
    compare(run.lines(), expand(PAIR, MARKS))


@pytest.mark.usefixtures("classes")
def test_java_that_is_too_old():
    """It runs on as without the recorder. That is seen by a recorder that is made too new; the agent itself is read by Java 8."""
    recorder = tools_in("new")
    assert Run(recorder, program("monitors")).status == 0
    with zipfile.ZipFile("new/out/java/goodlock-agent.jar") as archive:
        assert archive.read("goodlock/agent/Agent.class")[:8] == b"\xca\xfe\xba\xbe\0\0\0\x34"
    with zipfile.ZipFile("new/out/java/goodlock-runtime.jar") as archive:
        classes = {name: archive.read(name) for name in archive.namelist()}
    with zipfile.ZipFile("new/out/java/goodlock-runtime.jar", "w") as archive:
        for name, data in classes.items():
            archive.writestr(name, data[:6] + b"\xff" + data[7:] if name.endswith(".class") else data)
    run = Run(recorder, ["java", "-cp", "classes", "Locks", "halts"])
    assert run.status == NO_EVENTS and "own status was 5" in run.said, run.said
    assert "goodlock-java: this process isn't recorded: it needs Java 17 or later\n" in run.said, run.said
