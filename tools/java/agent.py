"""Builds the agent, when it is missing or older than its sources: three parts, each with its own class loader."""

import os
import shutil
import subprocess
import tempfile
import zipfile

HERE = os.path.dirname(os.path.realpath(__file__))
SOURCES = os.path.join(HERE, "src", "goodlock")
BUILT = os.path.join(os.path.dirname(HERE), "out", "java")
LIBRARIES = "/usr/share/java"
ASM = ("asm.jar", "asm-tree.jar", "asm-commons.jar")
PARTS = ("runtime", "agent", "transform")
SEPARATORS = "=:"  # in the option that names an agent's file, its words and their class path
MANIFEST = """Premain-Class: goodlock.agent.Agent
Boot-Class-Path: goodlock-runtime.jar
Can-Retransform-Classes: true
"""


# In a class file: where its version stands, and that of Java 8.
VERSION_PLACE, VERSION_8 = 6, b"\0\x34"


class AgentError(Exception):
    pass


def asm_path():
    paths = [os.path.join(LIBRARIES, name) for name in ASM]
    for path in paths:
        if not os.path.exists(path):
            raise AgentError("%s is missing (Debian: libasm-java)" % path)
    return ":".join(paths)


def sources_of(part):
    folder = os.path.join(SOURCES, part)
    return [os.path.join(folder, name) for name in sorted(os.listdir(folder)) if name.endswith(".java")]


def tool_of_java(name):
    home = os.environ.get("JAVA_HOME")
    path = os.path.join(home, "bin", name) if home else None
    return path if path and os.access(path, os.X_OK) else shutil.which(name)


def compile_sources(*arguments):
    path = tool_of_java("javac")
    if path is None:
        raise AgentError("javac is missing (Debian: openjdk-17-jdk-headless)")
    # Options that the environment has for the program's own JVMs aren't meant for this one.
    environment = {
        k: v for k, v in os.environ.items() if k not in ("JAVA_TOOL_OPTIONS", "JDK_JAVAC_OPTIONS", "_JAVA_OPTIONS")
    }
    done = subprocess.run([path, *arguments], stdout=subprocess.PIPE, stderr=subprocess.STDOUT, env=environment)
    if done.returncode != 0:
        raise AgentError("building the agent failed:\n" + done.stdout.decode(errors="replace"))


def class_file(path, part):
    """A class file's bytes. The agent's own class has nothing in it that is newer than Java 8, and says so: a JVM that is too old to be
    recorded loads it and runs on."""
    with open(path, "rb") as file:
        data = file.read()
    return data[:VERSION_PLACE] + VERSION_8 + data[VERSION_PLACE + 2 :] if part == "agent" else data


def write_jar(folder, classes, part, manifest):
    with zipfile.ZipFile(os.path.join(folder, "goodlock-%s.jar" % part), "w") as archive:
        archive.writestr("META-INF/MANIFEST.MF", "Manifest-Version: 1.0\n" + manifest)
        for name in sorted(os.listdir(os.path.join(classes, "goodlock", part))):
            archive.writestr(
                "goodlock/%s/%s" % (part, name), class_file(os.path.join(classes, "goodlock", part, name), part)
            )


def build_into(folder):
    classes = os.path.join(folder, "classes")
    sources = [path for part in PARTS for path in sources_of(part)]
    compile_sources("--release", "17", "-cp", asm_path(), "-d", classes, *sources)
    for part in PARTS:
        write_jar(folder, classes, part, MANIFEST if part == "agent" else "")


def is_built():
    jars = [os.path.join(BUILT, "goodlock-%s.jar" % part) for part in PARTS]
    if not all(os.path.exists(path) for path in jars):
        return False
    sources = [os.path.realpath(__file__), *(path for part in PARTS for path in sources_of(part))]
    newest = max(os.stat(path).st_mtime for path in sources)
    return min(os.stat(path).st_mtime for path in jars) >= newest


def agent_option():
    """The JVM's option that loads the agent, which is built here if need be."""
    if any(mark in BUILT for mark in SEPARATORS):
        raise AgentError("%s: a JVM can't be given an agent whose path has = or : in it" % BUILT)
    class_path = asm_path()
    if not is_built():
        os.makedirs(BUILT, exist_ok=True)
        with tempfile.TemporaryDirectory(dir=BUILT) as folder:
            build_into(folder)
            for part in PARTS:
                name = "goodlock-%s.jar" % part
                os.replace(os.path.join(folder, name), os.path.join(BUILT, name))
    transform = os.path.join(BUILT, "goodlock-transform.jar")
    return "-javaagent:%s=%s:%s" % (os.path.join(BUILT, "goodlock-agent.jar"), transform, class_path)
