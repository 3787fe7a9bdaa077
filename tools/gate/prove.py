#!/usr/bin/env python3
"""Proves crates, several at once, with all that they stand on, and builds what they make.

    prove.py [--jobs N] [CRATE ..]             the program goodlock, where no crate is named
    prove.py --kept [--jobs N] [CRATE ..]      the libraries among them alone, over what earlier checks kept

A library is built without its proofs, which the checks above would read; it stays where it is, but of one that changed
nothing is kept. With --kept, what earlier checks of a crate kept is taken, function by function, and its library is built
with its proofs, as `rt check` and `rt lib` take it.

A crate begins once those that it stands on are proved, the one that leads the longest chain first. On one of the longest
chains, which say when the last crate is done, it gets as many processes as --jobs says (one for each processor, as long as
there is memory for them); where several of them are to run at once, they share twice as many. Any other gets one, which
is the cheapest, and the more lines it could begin later by, the more it stands back: a check begins and ends with one
process alone, and what stands beside it fills the others' time. Twice as many processes as --jobs says run at once at the
most. Standard output has a line for each crate that is done, and what a check said that failed. Status: 0 proved and
built, 1 not, 2 the words were wrong, 3 the toolchain at hand can't be used so.
"""

import argparse
import os
import sys
import threading
import time
from concurrent.futures import FIRST_COMPLETED, Future, wait

import toolchain

# A chain that is as long as the longest but for this share of it is one of the longest.
SHORT = 0.1
# How nice a check is whose crate could begin later by all lines of the longest chain, and how nice one is at the most.
NICE = 12
NICEST = 10


def lines(crate):
    return crate.count(rb"\n")


def chains_up(crates):
    """For each crate the lines on the longest chain of crates that begins with it, each standing on the one before."""
    chains = {}
    for crate in reversed(sorted(crates, key=lambda crate: len(crate.below()))):
        above = (chains[other] for other in chains if crate in other.deps)
        chains[crate] = lines(crate) + max(above, default=0)
    return chains


def chains_down(crates):
    """For each crate the lines on the longest chain of crates that ends below it."""
    chains = {}
    for crate in sorted(crates, key=lambda crate: len(crate.below())):
        below = (chains[other] + lines(other) for other in crate.deps if other in chains)
        chains[crate] = max(below, default=0)
    return chains


def delays(crates):
    """For each crate by how much of the longest chain it could begin later, without being the last that is done."""
    up, down = chains_up(crates), chains_down(crates)
    longest = max(up.values(), default=0)
    return {crate: 1 - (up[crate] + down[crate]) / max(longest, 1) for crate in crates}


def share_of(processes, leading):
    """How many processes each of so many crates of the longest chains gets, which are to run at once."""
    return max(1, min(processes, 2 * processes // max(leading, 1)))


def jobs_for(share, idle, memory):
    """How many processes a crate's check gets: its share, where so many are idle and there is memory for each."""
    room = 1 + (memory - toolchain.MEMORY_OF_A_CHECK) // toolchain.MEMORY_OF_A_JOB
    return max(1, min(share, idle, room))


def in_order(crates, processes, work, told):
    """Calls work(crate, jobs) for each crate once those below it have passed; tells of each. Whether all passed."""
    chains, delay = chains_up(crates), delays(crates)
    left = sorted(crates, key=lambda crate: -chains[crate])
    running, passed, taken = {}, set(), {}
    while left or running:
        ready = [crate for crate in left if passed.issuperset(crate.below())]
        share = share_of(processes, sum(delay[crate] < SHORT for crate in [*ready, *running.values()]))
        for crate in ready:
            idle = 2 * processes - sum(taken[crate] for crate in running.values())
            memory = toolchain.free_memory()
            if idle <= 0 or running and memory < toolchain.MEMORY_OF_A_CHECK:
                break
            taken[crate] = jobs_for(share, idle, memory) if delay[crate] < SHORT else 1
            left.remove(crate)
            running[begun(work, crate, taken[crate], min(int(NICE * delay[crate]), NICEST))] = crate
        if not running:
            break
        for done in wait(running, return_when=FIRST_COMPLETED).done:
            crate = running.pop(done)
            jobs, well, said, seconds = done.result()
            told(crate, jobs, well, said, seconds)
            passed |= {crate} if well else set()
    return len(passed) == len(crates)


def begun(work, crate, jobs, nice):
    """What work(crate, jobs) will have answered, with its jobs and its seconds on the clock. It works in a thread of its
    own, which is so much nicer than this process, and what that starts is as nice as it is."""
    answer = Future()

    def run():
        try:
            own = os.getpriority(os.PRIO_PROCESS, 0)
            os.setpriority(os.PRIO_PROCESS, threading.get_native_id(), min(own + nice, 19))
            start = time.monotonic()
            well, said = work(crate, jobs)
            answer.set_result((jobs, well, said, time.monotonic() - start))
        except BaseException as error:  # it is raised where the answer is asked for
            answer.set_exception(error)

    threading.Thread(target=run, daemon=True).start()
    return answer


def build_kept(library, crate, jobs):
    """Proves a crate and builds its library, over what was kept; whether it is proved, and what was said."""
    return toolchain.told(crate, lambda: crate.build_rlib(["--jobs", str(jobs)], anew=False), library)


def prove(library, names, processes, is_kept, told):
    """Proves the crates with these names and those below them, and builds what they make; whether all is there."""
    crates = toolchain.crates(library, names)
    if is_kept:
        crates = [crate for crate in crates if crate.makes_rlib()]
        work = lambda crate, jobs: build_kept(library, crate, jobs)
    else:
        work = toolchain.Statements(library, crates).build
    library.lock(crates)
    return in_order(crates, processes, work, told)


def tell(crate, jobs, well, said, seconds):
    print(f"== {crate.name} {'proved' if well else 'NOT PROVED'} ({seconds:.0f} s, {jobs} processes)", flush=True)
    if not well:
        print(said, flush=True)


def main(words):
    parser = argparse.ArgumentParser(usage=__doc__)
    parser.add_argument("--jobs", type=int, default=0)
    parser.add_argument("--kept", action="store_true")
    parser.add_argument("names", nargs="*")
    asked = parser.parse_args(words)
    try:
        library = toolchain.load()
        processes = asked.jobs if asked.jobs > 0 else toolchain.processors()
        return 0 if prove(library, asked.names or ["goodlock"], processes, asked.kept, tell) else 1
    except toolchain.NoToolchain as error:
        print(f"{error}", file=sys.stderr)
        return 3


if __name__ == "__main__":
    sys.exit(main(sys.argv[1:]))
