"""Threads and their names; repeats, which are left out; and the places of events."""

import itertools
import re

import pytest
from java_traces import MARKS, PAIR, QUICK, compile_source, expect, record
from known_traces import compare, edges_of, expand

pytestmark = pytest.mark.usefixtures("classes")

# One thread joins another while the recorder's table of threads shows nothing, as for a moment where a third one makes it larger.
GROWING = """import java.lang.reflect.Array;
import java.lang.reflect.Field;

public class Growing {
    static volatile boolean ready, isLarger;

    static Field field(Class<?> owner, String name) throws Exception {
        Field field = owner.getDeclaredField(name);
        field.setAccessible(true);
        return field;
    }

    public static void main(String[] words) throws Exception {
        Thread child = new Thread(() -> { }, "child");
        child.start();
        Thread joiner = new Thread(() -> join(child), "joiner");
        joiner.start();
        while (child.isAlive() || !ready) {
            Thread.onSpinWait();
        }
        Object threads = field(Class.forName("goodlock.runtime.Recorder"), "THREADS").get(null);
        Field table = field(threads.getClass(), "table");
        synchronized (threads) {
            Object whole = table.get(threads);
            table.set(threads, Array.newInstance(whole.getClass().getComponentType(), Array.getLength(whole)));
            isLarger = true;
            while (joiner.isAlive() && joiner.getState() != Thread.State.BLOCKED) {
                Thread.onSpinWait();
            }
            table.set(threads, whole);
        }
    }

    static void join(Thread child) {
        synchronized (Growing.class) {
            ready = true;
        }
        while (!isLarger) {
            Thread.onSpinWait();
        }
        try {
            child.join();
        } catch (InterruptedException never) {
            throw new IllegalStateException(never);
        }
    }
}
"""
# The JVM names a hidden class by the name in its code and an address, as Hidden$Task/0x00007f7e0c017400.
HIDDEN = """import java.lang.invoke.MethodHandles;
import java.lang.reflect.Array;
import java.nio.file.Files;
import java.nio.file.Path;

public class Hidden {
    public static class Task implements Runnable {
        public void run() { }
    }

    public static void main(String[] words) throws Exception {
        byte[] code = Files.readAllBytes(Path.of("own", "Hidden$Task.class"));
        Class<?> hidden = MethodHandles.lookup().defineHiddenClass(code, true).lookupClass();
        Runnable task = (Runnable) hidden.getDeclaredConstructor().newInstance();
        Object several = Array.newInstance(hidden, 1);
        synchronized (hidden) { synchronized (task) { synchronized (several) { } } }
        Thread thread = new Thread(task);
        thread.start();
        thread.join();
    }
}
"""


def test_threads_made_and_joined():
    expect(
        "threads",
        """
        main|fork(main.1:Locks.lambda)|@threads_start
        main|join(main.1:Locks.lambda)|@threads_join
        main|fork(main.2:Locks$Task)|@threads_start
        main|join(main.2:Locks$Task)|@threads_join
        main|fork(main.3:named)|@threads_start
        main|join(main.3:named)|@threads_join
        main|fork(main.4:Locks.lambda)|@late_start
        main|join(main.4:Locks.lambda)|@late_join
        main.1:Locks.lambda|fork(main.1.1:Locks$Worker)|@child_start
        main.1:Locks.lambda|join(main.1.1:Locks$Worker)|@child_join""",
    )


def test_thread_joined_while_the_table_of_threads_grows():
    compile_source("Growing", GROWING)
    run = record(None, command=["java", QUICK, "-cp", "own", "Growing"])
    assert run.status == 0, run.said
    joins = [line.split("|")[:2] for line in run.lines() if "|join(" in line]
    assert joins == [["main.2:joiner", "join(main.1:child)"]]


def test_names_that_are_long():
    """A name that goodlock couldn't read in a line is cut, between two characters."""
    name = "main.1:x" + "n\u00e4" * 331 + "n..."
    text = ""
    for thread in (name, "main.2:short!?"):
        text += "\nmain|fork(%s)|@long_start\nmain|join(%s)|@long_join" % (thread, thread)
    expect("longNames", text + PAIR.replace("main|", name + "|") + PAIR.replace("main|", "main.2:short!?|"))


def test_names_of_hidden_classes_have_no_address():
    compile_source("Hidden", HIDDEN)
    run = record(None, command=["java", QUICK, "-cp", "own", "Hidden"])
    assert run.status == 0, run.said
    names = [re.search(r"\((.*)\)", line).group(1) for line in run.lines() if "|rel(" not in line]
    locks = ["Hidden$Task.class", "Hidden$Task@Hidden.java:16#1", "Hidden$Task[]@Hidden.java:16#1"]
    assert names == [*locks, "main.1:Hidden$Task", "main.1:Hidden$Task"]


def test_thread_pools():
    expect("pool", "main|fork(main.1:pool-1-thread-1)|@pool_submit" + PAIR.replace("main|", "main.1:pool-1-thread-1|"))


def test_locks_of_racing_threads():
    names = ["main.%d:Locks.lambda" % i for i in (1, 2, 3)]
    text = ["main|fork(%s)|@racing_start" % name for name in names] + [
        "main|join(%s)|@racing_join" % name for name in names
    ]
    for number, name in enumerate(names, 1):
        for i in (1, 2, 3):
            text.append("%s|acq(Object@@own#main.%d:%d)|@walk" % (name, number, i))
            text.append("%s|rel(Object@@own#main.%d:%d)|@walk_end" % (name, number, i))
    for _ in range(2):
        expect("racing", "\n".join(text))


def test_repeats_are_left_out():
    worker = "main.1:Locks$Worker"
    run = expect(
        "repeats",
        PAIR + "\nmain|fork(%s)|@repeats_start" % worker + PAIR + "\nmain|join(%s)|@repeats_join" % worker + PAIR,
    )
    assert "and %d of repeats" % (4 * (4 + 99_999)) in run.said, run.said


def test_what_is_left_out_adds_no_edge():
    for seed in ("1", "2"):
        short = record("randomEvents", arguments=[seed]).lines()
        whole = record("randomEvents", "--all", arguments=[seed]).lines()
        assert len(edges_of(whole)) > 100, "only %d edges" % len(edges_of(whole))
        assert edges_of(short) == edges_of(whole), "seed %s: the edges differ" % seed
        assert len(short) < 0.95 * len(whole), "%d of %d lines are left" % (len(short), len(whole))


def test_more_callers():
    run = record("frames", "--frames", "3")
    places = "<@frames_outer<@frames_call"
    lines = [line.rsplit("|", 1)[1] for line in run.lines()]
    compare(lines, expand("\n".join("@monitor_%s%s" % (mark, places) for mark in ("a", "b", "b_end", "a_end")), MARKS))


def places_of(run):
    return [line.rsplit("|", 1)[1] for line in run.lines()]


def test_callers_of_synchronized_methods():
    """The acquire has the method's first line, as without callers."""
    run = record("synchronizedMethods", "--frames", "2")
    called = ["@add<@calls_add", "@add_end<@calls_add", "@fail<@calls_fail", "@fail_end<@calls_fail"]
    called += ["@count<@calls_count", "@count_early<@calls_count"]
    compare(places_of(run)[:6], expand("\n".join(called), MARKS))


@pytest.mark.usefixtures("classes_without_lines")
@pytest.mark.parametrize("compiled_to", ["classes", "no-lines"])
def test_callers_leave_the_place_as_it_is(compiled_to):
    for name in ("synchronizedMethods", "monitors", "conditions", "references"):
        command = ["java", QUICK, "-cp", compiled_to, "Locks", name]
        alone = places_of(record(None, command=command))
        for frames in ("2", "5"):
            innermost = [place.split("<")[0] for place in places_of(record(None, "--frames", frames, command=command))]
            compare(innermost, alone)


NATIVE = """class Main {
    static final Object lock = new Object();

    static class Late {
        static {
            synchronized (lock) {
                lock.notify();
            }
        }
    }

    public static void main(String[] words) throws Exception {
        Class.forName("Main$Late");
    }
}
"""


def test_native_caller():
    """It has no line and no instructions."""
    compile_source("Main", NATIVE)
    run = record(None, "--frames", "2", command=["java", "-cp", "own", "Main"])
    compare(places_of(run), ["Main.java:6<java.lang.Class.forName0", "Main.java:8<java.lang.Class.forName0"])


@pytest.mark.usefixtures("classes_without_lines")
def test_without_line_numbers():
    """The place is a method and the number of an instruction in it."""
    lines = record(None, command=["java", "-cp", "no-lines", "Locks", "monitors"]).lines()
    words = [
        re.fullmatch(r"main\|(\w+)\(Object@Locks\.<clinit>\+\d+#1\)\|Locks\.monitors\+\d+", line) for line in lines
    ]
    assert all(words) and [word.group(1) for word in words] == ["acq", "acq", "rel", "rel"], str(lines)


def test_more_locks_than_goodlock_reads():
    text = ["main|%s(ReentrantLock@@beyond_made#%d)|@beyond" % ("acq" if i < 65 else "beyond", i) for i in range(1, 67)]
    text += ["main|rel(ReentrantLock@@beyond_made#%d)|@beyond_end" % i for i in range(64, 0, -1)]
    run = expect("manyLocks", "\n".join(text))
    assert "2 acquires by threads that held 64 locks" in run.said, run.said


def test_lock_taken_more_often_than_goodlock_reads():
    """What is beyond that counts as not taken: it is neither taken back nor released. Of the other calls one was interrupted, and two
    are unlocks."""
    run = record("leaks")
    assert run.status == 0 and "3 other calls" in run.said, run.said
    assert "2 acquires by threads that held 64 locks, or the lock 1000000 times" in run.said, run.said
    counts = [(line, len(list(group))) for line, group in itertools.groupby(run.lines())]
    words = (("acq", "lock", 1000000), ("beyond", "lock", 2), ("rel", "unlock", 1000000))
    known = [("main|%s(ReentrantLock@@again#1)|@leaks_%s" % (word, place), count) for word, place, count in words]
    assert counts == [(expand(line, MARKS)[0], count) for line, count in known], counts


def test_many_locks_that_are_collected():
    run = record("manyObjects")
    assert run.status == 0, run.said
    assert "400000 events" in run.said and "200000 locks" in run.said, run.said
