#!/bin/bash
# Times `record` and `pull` for an event, beside a mutex that no other thread wants.
#
#     bench/lanes.sh
#
# BENCH_DIR   folder for a copy of the crates, in which bench/lanes is proved, built and run   (/tmp/goodlock-bench)
#
# The first line is of one thread that records 1,000 events and then pulls them, 2,000 times over, and of 2,000,000 times
# locking and unlocking a mutex. The next ones are of two threads that run at once, one recording and one pulling. The last
# ones are of whole sessions of three threads: one records nested acquires, an edge for every four events, one collects and
# ships, and one serves the edges. What is proved already is copied too;
# the rest is proved first. It needs rt on PATH.
set -eu

top=$(cd "$(dirname "$(readlink -f -- "$0")")/.." && pwd)
copy=${BENCH_DIR:-/tmp/goodlock-bench}/lanes
rm -rf "$copy"
mkdir -p "$copy/crates"
cp "$top/HANDLES" "$copy"
{ grep '^gl_' "$top/crates.txt"; echo "lanes: gl_engine gl_event gl_shards"; } >"$copy/crates.txt"
# a crate is copied without its must-fail edits and without what only a further check of it would use
(cd "$top/crates" && tar -c --exclude=must-fail --exclude=out/incremental gl_*) | tar -x -C "$copy/crates"
# the crate's files end in .in, since rt reads no source outside of crates/
(cd "$top/bench/lanes" && find . -name '*.in') | while read -r file; do
    mkdir -p "$copy/crates/lanes/$(dirname "$file")"
    cp "$top/bench/lanes/$file" "$copy/crates/lanes/${file%.in}"
done
cd "$copy/crates/lanes"
rt run
