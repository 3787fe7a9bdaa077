"""However a program ends there is a trace, and the program stays as it is."""

import os
import random
import re
import subprocess

import pytest
from java_traces import (
    JAVA_RECORD,
    MARKS,
    PAIR,
    QUICK,
    all_of_java,
    compile_source,
    expect,
    program,
    record,
    version_of,
)
from known_traces import NO_EVENTS, compare, cycles_in, expand, is_front_of_a_run, killed, others_of

pytestmark = pytest.mark.usefixtures("classes")


WITH_VIRTUAL_THREADS = 21
DEADLOCK = """
    main|fork(main.1:Locks.lambda)|@dead_start
    main|acq(Object@@a#1)|@dead_a
    main|acq(Object@@b#1)|@dead_ab
    main.1:Locks.lambda|acq(Object@@b#1)|@dead_b
    main.1:Locks.lambda|acq(Object@@a#1)|@dead_ba"""
# Starts a thread with what stack there is, a little more at each try.
DEEP = """public class Deep implements Runnable {
    public void run() { }

    public static void main(String[] words) {
        new Thread(new Deep()).start();
        deeper();
    }

    static void deeper() {
        try {
            deeper();
        } catch (StackOverflowError end) {
            new Thread(new Deep()).start();
        }
    }
}
"""


def test_killed_in_a_deadlock():
    lines = killed(JAVA_RECORD, program("deadlock"), lines=DEADLOCK.strip().count("\n") + 1)
    compare(lines, expand(DEADLOCK, MARKS))
    assert cycles_in(lines) == 1, "no cycle"


def test_killed_at_any_moment():
    for _ in range(4):
        lines = killed(JAVA_RECORD, program("busy"), random.random() / 3)
        assert len(lines) > 10, "%d lines" % len(lines)
        is_front_of_a_run(lines)


def test_exit_without_an_end():
    expect("halts", PAIR, status=5)


@pytest.mark.parametrize("compiler", [QUICK, "-Xmixed"])
def test_threads_that_run_out_of_stack(compiler):
    """They go on as without the recorder, which loses nothing but what it was at."""
    run = record(None, command=["java", compiler, "-cp", "classes", "Locks", "outOfStack"])
    assert run.status == 0 and "lost" not in run.said, run.said
    after = "main|acq(Object@@b#1)|@after_overflow\nmain|rel(Object@@b#1)|@after_overflow_end"
    lines = [line for line in run.lines() if "|beyond(" not in line]
    compare(lines[-2:], expand(after, MARKS))
    assert others_of(lines)[1] == {"main": []}, "held at the end"


def test_thread_started_where_the_stack_ends():
    """Where the recorder has too little stack the program meets the JVM's own error, as at any call."""
    compile_source("Deep", DEEP)
    run = record(None, command=["java", "-Xint", "-cp", "own", "Deep"])
    assert run.status == 0, run.said
    first, *_, last = run.lines()
    assert first == "main|fork(main.1:Deep)|Deep.java:5"
    assert re.fullmatch(r"main\|fork\(main\.\d+:Deep\)\|Deep\.java:13", last), last


def test_thread_that_runs_out_of_memory():
    """With callers the recorder needs some at each event; the thread leaves its monitors without."""
    command = ["java", QUICK, "-Xmx24m", "-XX:+UseSerialGC", "-cp", "classes", "Locks", "outOfMemory"]
    run = record(None, "--frames", "2", command=command)
    assert run.status == 0, run.said
    words = [line.split("<")[0] for line in run.lines()]
    compare(words[-2:], expand("main|acq(Object@@b#1)|@after_memory\nmain|rel(Object@@b#1)|@after_memory_end", MARKS))
    assert others_of(run.lines())[1] == {"main": []}, "held at the end"


def test_memory_that_ends_in_the_recorder():
    """What there is none for is lost, and what comes later isn't."""
    command = ["java", QUICK, "-Xmx24m", "-XX:+UseSerialGC", "-cp", "classes", "Locks", "outOfMemoryInTheRecorder"]
    run = record(None, command=command)
    assert run.status == 0 and re.findall(r"(\d+) (\w+) were lost", run.said) == [("1", "places")], run.said
    text = """
        main|acq(Object@@scarce#1)|@scarce
        main|rel(Object@@scarce#1)|@scarce_end
        main|fork(main.1:Locks$Worker)|@scarce_start
        main|join(main.1:Locks$Worker)|@scarce_join"""
    compare(run.lines(), expand(text, MARKS))


def test_acquire_at_which_the_stack_ended():
    """It ends before the next event; what the thread holds stays so."""
    expect(
        "overflowInTheRecorder",
        """
        main|acq(Object@@b#1)|@overflow_b
        main|acq(Object@@a#1)|Locks.java:1
        main|rel(Object@@a#1)|Locks.java:1
        main|acq(Object@@a#1)|@overflow_a
        main|rel(Object@@a#1)|@overflow_a_end
        main|rel(Object@@b#1)|@overflow_b_end""",
    )


def test_shutdown_hook_comes_after_main():
    """The thread that starts it is that of main."""
    run = record("shutdownHook")
    assert run.status == 0 and "2 threads" in run.said, run.said
    assert [line.split("|")[1] for line in run.lines() if "fork" in line] == ["fork(main.1:hook)"]
    assert cycles_in(run.lines()) == 0, run.lines()


def test_child_process():
    run = record("child")
    assert run.status == 0, run.said
    child = run.out.strip()
    assert "t.std." + child in run.files(), "%s %s" % (run.files(), run.said)
    compare(run.lines("." + child), expand(PAIR, MARKS))


def test_serial_versions_stay():
    plain = subprocess.run(program("serial"), stdout=subprocess.PIPE).stdout.decode()
    assert record("serial").out == plain != "", "another serial version"


def test_fields_of_classes_stay():
    """That of a serial version is marked as none of the program's own."""
    run = record("fields")
    assert run.status == 0, run.said
    fields = ["int Locks$Account.money false", "private static final long Locks$Account.serialVersionUID true"]
    assert sorted(run.out.splitlines()) == fields


def test_classes_of_the_jdk_on_demand():
    run = record("queue")
    assert run.status == NO_EVENTS, "%d %s" % (run.status, run.said)
    assert "in classes that aren't the JDK's" in run.said, run.said
    run = record("queue", "--jdk")
    assert any(re.match(r"main\|acq\(Vector@", line) for line in run.lines()), "\n".join(run.lines())
    assert "couldn't be instrumented" not in run.said, run.said


def test_virtual_threads_are_refused_by_name():
    java = all_of_java()[-1]
    if version_of(java) < WITH_VIRTUAL_THREADS:
        pytest.skip("no Java 21 or later here")
    command = [java, "-cp", "classes", "Locks", "virtualThreads"]
    run = record(None, command=command)
    assert run.status == 0, run.said
    assert "virtual threads are refused" in run.said and "1 virtual threads took locks" in run.said, run.said
    main = [line for line in run.lines() if re.match(r"main\|(acq|rel)", line)]
    compare(main, expand(PAIR, MARKS))
