"""Memory that is given back: a lock in it is at its end, and the next one there is another."""

import os
import platform
import subprocess

import pytest
from c_traces import expect, known, record
from known_traces import compare


def test_lock_in_freed_memory_is_at_its_end():
    expect(
        "freed",
        """
        main|acq(mutex@@freed_first#1)|@freed_first
        main|acq(b)|@freed_first_b
        main|rel(b)|@freed_first_b_end
        main|rel(mutex@@freed_first#1)|@freed_first_end
        main|acq(b)|@freed_second_b
        main|acq(mutex@@freed_second#1)|@freed_second
        main|rel(mutex@@freed_second#1)|@freed_second_end
        main|rel(b)|@freed_second_b_end""",
        "memory.c",
    )


HELD = """
    main|acq(mutex@@held#1)|@held
    main|rel(mutex@@held#1)|@held
    main|acq(b)|@held_b
    main|rel(b)|@held_b_end"""


def test_lock_that_is_held_in_freed_memory():
    expect("freed_held", HELD, "memory.c")


@pytest.mark.skipif(platform.machine() != "x86_64", reason="the versions of this machine's C library aren't asked for")
def test_lock_in_memory_that_is_checked():
    """By the library that the C library has for it: it ends a program where another one gives back what it has given."""
    environment = {**os.environ, "LD_PRELOAD": "libc_malloc_debug.so.0", "MALLOC_CHECK_": "3"}
    plain = subprocess.run(["./memory", "freed_held"], env=environment, stderr=subprocess.PIPE)
    if plain.returncode != 0 or plain.stderr:
        pytest.skip("the C library has none for it")
    run = record("./memory", "freed_held", environment=environment)
    assert run.status == 0, run.said
    compare(run.lines(), known(HELD, "memory.c"))


def uses(*numbers):
    """A use of a lock that was used before is left out: so there are as many as there are locks."""
    return "\n".join("main|acq(mutex@@use#%d)|@use\nmain|rel(mutex@@use#%d)|@use_end" % (n, n) for n in numbers)


# The C++ library's operators; a library's own ones; those of a library that has free as well, which they don't call.
OPERATORS = pytest.mark.parametrize("program", ["deleted", "deleted-arena", "deleted-blocks"])


def expect_deleted(program, name, text):
    run = record("./" + program, name)
    assert run.status == 0, "status %d: %s" % (run.status, run.said)
    compare(run.lines(), known(text, "deleted.cc"))


@pytest.mark.parametrize("program", ["deleted-arena", "deleted-blocks"])
def test_lock_in_deleted_memory_is_at_its_end(program):
    """Each of the 12 forms gives a block back, and another lock is made in it."""
    expect_deleted(program, "forms", uses(*range(1, 25)))


@OPERATORS
def test_lock_that_is_held_in_deleted_memory(program):
    expect_deleted(
        program,
        "held",
        """
        main|acq(mutex@@held#1)|@held
        main|rel(mutex@@held#1)|@held
        main|acq(b)|@use
        main|rel(b)|@use_end""",
    )


@OPERATORS
def test_lock_beside_deleted_memory(program):
    expect_deleted(
        program,
        "beside",
        """
        main|acq(mutex@@beside#1)|@beside
        main|acq(b)|@use
        main|rel(b)|@use_end
        main|rel(mutex@@beside#1)|@beside_end""",
    )


@OPERATORS
def test_memory_that_new_refuses(program):
    expect_deleted(program, "refused", "main|acq(b)|@use\nmain|rel(b)|@use_end")


def test_operators_of_a_library_that_a_program_without_cxx_loads():
    """They stay the ones that it and the C++ library take."""
    extension = os.path.abspath("extension.so")
    run = record("./memory", "wanders", environment={**os.environ, "PLUGIN": extension})
    assert run.status == 0, "status %d: %s" % (run.status, run.said)
    uses_it = "main|acq(lock_of_extension)|@extension\nmain|rel(lock_of_extension)|@extension_end"
    compare(run.lines(), known(uses_it, "extension.cc"))


def test_lock_in_memory_that_moves():
    expect("moved", uses(1, 2, 3, 4), "memory.c")


def test_locks_at_the_ends_of_a_block_and_beside_it():
    """Four are used at first, and two of them are others after the block was given back; of the two beside it nothing is new."""
    text = ["main|acq(spin@@spin#%d)|@spin\nmain|rel(spin@@spin#%d)|@spin_end" % (n, n) for n in range(1, 20 * 6 + 1)]
    expect("edges", "\n".join(text), "memory.c")


def test_lock_in_memory_that_is_unmapped():
    expect("unmapped", uses(1, 2, 3), "memory.c")


def held(name):
    """A lock that is held while another one is used, now and later. That use is known the second time."""
    return "\nmain|acq(%s)|@hold\nmain|acq(b)|@use\nmain|rel(b)|@use_end\nmain|rel(%s)|@let_go" % (name, name)


def test_calls_that_fail_give_nothing_back():
    expect("failing", held("mutex@@hold#1") + held("mutex@@hold#2"), "memory.c")


def test_segment_that_is_let_go_twice():
    expect("detached_twice", uses(1) + held("mutex@@hold#1"), "memory.c")


def test_block_that_another_one_has_before_the_call_comes_back():
    run = record("./memory", "taken_early", environment={**os.environ, "LD_PRELOAD": os.path.abspath("moves.so")})
    assert run.status == 0, "status %d: %s" % (run.status, run.said)
    compare(run.lines(), known(uses(1) + held("mutex@@hold#1"), "memory.c"))


def test_locks_that_are_made_anew_or_destroyed_while_they_are_held():
    expect(
        "remade",
        """
        main|acq(made_twice)|@remade
        main|rel(made_twice)|@remade
        main|acq(b)|@use
        main|rel(b)|@use_end
        main|acq(made_twice#2)|@use
        main|rel(made_twice#2)|@use_end
        main|racq(gone)|@gone
        main|racq(gone)|@gone
        main|rrel(gone)|@gone
        main|rrel(gone)|@gone
        main|acq(gone_too)|@gone_too
        main|rel(gone_too)|@gone_too""",
        "memory.c",
    )


def test_lock_on_the_stack_of_a_thread_that_ended():
    text = [
        "main|fork(main.%d:uses_stack)|@stack_fork\nmain|join(main.%d:uses_stack)|@stack_join" % (i, i) for i in (1, 2)
    ]
    for i in (1, 2):
        text.append("main.%d:uses_stack|acq(mutex@@stack#main.%d:1)|@stack" % (i, i))
        text.append("main.%d:uses_stack|rel(mutex@@stack#main.%d:1)|@stack_end" % (i, i))
    expect("stacks", "\n".join(text), "memory.c")


def test_lock_on_the_stack_of_a_thread_that_ended_with_another_one_held():
    text = ["main|fork(main.%d:keeps)|@keeps_fork\nmain|join(main.%d:keeps)|@keeps_join" % (i, i) for i in (1, 2)]
    for i, kept in ((1, "kept"), (2, "kept+0x28")):
        text.append("main.%d:keeps|acq(%s)|@keeps" % (i, kept))
        text.append("main.%d:keeps|acq(mutex@@stack#main.%d:1)|@stack" % (i, i))
        text.append("main.%d:keeps|rel(mutex@@stack#main.%d:1)|@stack_end" % (i, i))
    expect("keepers", "\n".join(text), "memory.c")


def test_lock_on_the_stack_of_a_thread_that_another_one_used():
    text = ["main|fork(main.%d:lends)|@lends_fork\nmain|join(main.%d:lends)|@lends_join" % (i, i) for i in (1, 2)]
    for i in (1, 2):
        text.append("main.%d:lends|fork(main.%d.1:uses_lent)|@lent_fork" % (i, i))
        text.append("main.%d:lends|join(main.%d.1:uses_lent)|@lent_join" % (i, i))
        text.append("main.%d.1:uses_lent|acq(mutex@@use#main.%d.1:1)|@use" % (i, i))
        text.append("main.%d.1:uses_lent|rel(mutex@@use#main.%d.1:1)|@use_end" % (i, i))
    expect("lent", "\n".join(text), "memory.c")


def test_thread_local_lock_of_a_thread_that_ended():
    text = ["main|fork(main.%d:uses_own)|@own_fork\nmain|join(main.%d:uses_own)|@own_join" % (i, i) for i in (1, 2)]
    for i in (1, 2):
        text.append("main.%d:uses_own|acq(mutex@@own#main.%d:1)|@own" % (i, i))
        text.append("main.%d:uses_own|rel(mutex@@own#main.%d:1)|@own_end" % (i, i))
    expect("owns", "\n".join(text), "memory.c")


def test_lock_that_a_thread_came_upon_while_it_ran_on_another_stack():
    forked = "main|fork(main.1:goes_elsewhere)|@elsewhere_fork\nmain|join(main.1:goes_elsewhere)|@elsewhere_join\n"
    thread = "\nmain.1:goes_elsewhere|acq(mutex@@use#1)|@use\nmain.1:goes_elsewhere|rel(mutex@@use#1)|@use_end"
    expect("elsewhere", forked + uses(1) + thread, "memory.c")


def test_thread_that_gives_its_handle_back():
    """The memory may be gone before the call that made the thread has come back."""
    run = record("./memory", "handles")
    assert run.status == 0 and "1001 threads" in run.said, "status %d: %s" % (run.status, run.said)


def test_library_in_the_place_of_another():
    expect(
        "plugins",
        """
        main|acq(lock_of_one)|plugin.c:100
        main|rel(lock_of_one)|plugin.c:100
        main|acq(lock_of_two)|plugin.c:200
        main|rel(lock_of_two)|plugin.c:200""",
        "memory.c",
    )


def test_library_of_a_relative_path():
    plugin = os.path.join(".", os.path.basename(os.getcwd()), "plugin-one.so")
    run = record("./memory", "wanders", environment={**os.environ, "PLUGIN": plugin})
    assert run.status == 0, "status %d: %s" % (run.status, run.said)
    compare(run.lines(), ["main|acq(lock_of_one)|plugin.c:100", "main|rel(lock_of_one)|plugin.c:100"])


def test_library_without_code_in_the_place_of_another():
    expect(
        "lockers",
        """
        main|acq(lock_of_one)|@use
        main|rel(lock_of_one)|@use_end
        main|acq(lock_of_two)|@use
        main|rel(lock_of_two)|@use_end""",
        "memory.c",
    )


def test_libraries_that_are_visited_while_others_are_unloaded():
    """The visitor takes new locks while it keeps the list of libraries from being changed. The program goes on."""
    run = record("./memory", "visits")
    assert run.status == 0, "status %d: %s" % (run.status, run.said)
