"""Where classes come from, and what a JVM may be told."""

import os
import subprocess
import zipfile

import pytest
from java_traces import JAVA_RECORD, MARKS, PAIR, all_of_java, compile_source, program, record, version_of
from known_traces import NO_EVENTS, TOOLS, compare, expand, read_lines

pytestmark = pytest.mark.usefixtures("classes")

WITHOUT_SECURITY_MANAGERS = 24
WITH_DURATIONS = 19
PROGRAM = """PACKAGE
public class Main {
    static final Object lock = new Object();

    public static void main(String[] words) throws Exception {
        Thread thread = new Thread(Main::take);
        thread.start();
        thread.join(LIMIT);
    }

    static void take() {
        synchronized (lock) {
            lock.notify();
        }
    }
}
"""
# Asks other loaders for the JDK's classes alone, from the first instruction of its method on.
LOADER = """
import java.nio.file.Files;
import java.nio.file.Path;

public class Loader extends ClassLoader {
    Loader() {
        super(null);
    }

    @Override
    protected synchronized Class<?> loadClass(String name, boolean resolve) throws ClassNotFoundException {
        while (name.startsWith("java.")) {
            return ClassLoader.getPlatformClassLoader().loadClass(name);
        }
        try {
            byte[] code = Files.readAllBytes(Path.of("own", name.replace('.', '/') + ".class"));
            return defineClass(name, code, 0, code.length);
        } catch (java.io.IOException absent) {
            throw new ClassNotFoundException(name);
        }
    }

    public static void main(String[] words) throws Exception {
        new Loader().loadClass(words[0]).getMethod("main", String[].class).invoke(null, (Object) null);
    }
}
"""
# An agent of others, and a class that the recorder changes, which that agent has transformed anew.
AGENT = """
import java.lang.instrument.Instrumentation;

public class Agent {
    static Instrumentation instrumentation;

    public static void premain(String words, Instrumentation given) {
        instrumentation = given;
    }
}
"""
TRANSFORMED = """import java.util.concurrent.locks.ReentrantLock;
public class Main implements java.io.Serializable {
    static final ReentrantLock lock = new ReentrantLock();

    synchronized void take() {
        lock.lock();
        Runnable last = lock::unlock;
        last.run();
    }

    public static void main(String[] words) throws Exception {
        Main main = new Main();
        main.take();
        Agent.instrumentation.retransformClasses(Main.class, java.io.DataOutputStream.class);
        main.take();
    }
}
"""
TAKEN = """main|acq(Main@Main.java:6#1)|Main.java:6
main|acq(ReentrantLock@Main.java:3#1)|Main.java:6
main|rel(ReentrantLock@Main.java:3#1)|Main.java:7
main|rel(Main@Main.java:6#1)|Main.java:9"""
TRACE = """main|fork(main.1:Main.lambda)|Main.java:7
main|join(main.1:Main.lambda)|Main.java:8
main.1:Main.lambda|acq(Object@Main.java:3#1)|Main.java:12
main.1:Main.lambda|rel(Object@Main.java:3#1)|Main.java:14"""


def expect_trace(text, *words, javac="javac", java="java"):
    compile_source("Main", text, javac)
    run = record(None, command=[java, *words])
    assert run.status == 0, run.said
    compare(run.lines(), TRACE.split("\n"))


def in_package(name, limit=""):
    return PROGRAM.replace("PACKAGE", "package %s;" % name).replace("LIMIT", limit)


def test_package_of_the_recorders_name():
    expect_trace(in_package("goodlock.runtime.of.mine"), "-cp", "own", "goodlock.runtime.of.mine.Main")


def test_classes_on_the_boot_class_path():
    expect_trace(in_package("booted"), "-Xbootclasspath/a:own", "booted.Main")


def test_class_loader_that_asks_no_other_one():
    compile_source("Loader", LOADER)
    compile_source("Main", in_package("alone"))
    run = record(None, command=["java", "-Xverify:all", "-cp", "own", "Loader", "alone.Main"])
    assert run.status == 0, run.said
    compare([line for line in run.lines() if "Loader" not in line], TRACE.split("\n"))


@pytest.mark.parametrize("options", [[], ["--jdk"]])
def test_class_that_another_agent_transforms_anew(options):
    """As some libraries for tests do: it stays as the recorder made it, and goes on to be recorded. So does a class of the JDK that the
    recorder itself uses."""
    compile_source("Agent", AGENT)
    compile_source("Main", TRANSFORMED)
    with zipfile.ZipFile("agent.jar", "w") as archive:
        archive.writestr(
            "META-INF/MANIFEST.MF", "Manifest-Version: 1.0\nPremain-Class: Agent\nCan-Retransform-Classes: true\n"
        )
        archive.write("own/Agent.class", "Agent.class")
    command = ["java", "-javaagent:agent.jar", "-cp", "agent.jar:own", "Main"]
    run = record(None, "--all", *options, command=command)
    assert run.status == 0, run.said
    compare([line for line in run.lines() if "|Main.java:" in line], 2 * TAKEN.split("\n"))


def test_recorder_that_runs_the_recorder():
    """The JVM has two agents then, of which the first one records, for the inner recorder."""
    run = record(None, command=[JAVA_RECORD, "-o", "inner.std", "--", *program("monitors")])
    assert run.status == NO_EVENTS, run.said
    compare(read_lines("inner.std"), expand(PAIR, MARKS))


def test_agent_whose_library_is_gone():
    """The JVM says so, and runs the program."""
    record("nothing")  # builds the agent
    built = os.path.join(TOOLS, "out", "java", "goodlock-")
    agent = "-javaagent:%sagent.jar=%stransform.jar" % (built, built)
    command = ["java", agent, "-cp", "classes", "Locks", "halts"]
    environment = {**os.environ, "GOODLOCK_JAVA_DIRECTORY": os.getcwd()}
    done = subprocess.run(command, stdout=subprocess.PIPE, stderr=subprocess.PIPE, env=environment)
    told = b"goodlock-java: this process isn't recorded: java.lang.NoClassDefFoundError"
    assert done.returncode == 5 and done.stderr.startswith(told), done.stdout + done.stderr


def test_security_manager():
    if version_of(all_of_java()[0]) >= WITHOUT_SECURITY_MANAGERS:
        pytest.skip("this Java has no security managers")
    expect_trace(in_package("secured"), "-Djava.security.manager", "-cp", "own", "secured.Main")


def test_join_with_a_duration():
    java = all_of_java()[-1]
    javac = os.path.join(os.path.dirname(java), "javac")
    if version_of(java) < WITH_DURATIONS or not os.access(javac, os.X_OK):
        pytest.skip("no Java 19 or later with its compiler here")
    text = in_package("later", "java.time.Duration.ofMinutes(1)")
    expect_trace(text, "-cp", "own", "later.Main", javac=javac, java=java)
