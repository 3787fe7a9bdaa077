#!/bin/bash
# Times the C library: a record alone and with a collector beside it, a pull, a report, what a lane takes, and the number of a
# name that is known. Each row is measured in a process of its own that has a second thread, as programs that record have; where it
# is of records or names, a mutex that no other thread wants is measured there, too, by turns with them: so how many such mutexes
# a record costs is told while other programs run, too. Prints a table.
#
#     bench/library.sh
#
# LIBRARY   the archive   (prebuilt/libgoodlock.a)
set -eu
here=$(dirname -- "$(readlink -f -- "$0")")
archive=${LIBRARY:-$here/../prebuilt/libgoodlock.a}
work=$(mktemp -d)
trap 'rm -rf "$work"' EXIT
gcc -O2 -I"$here/../library" "$here/library/library.c" "$archive" -lpthread -o "$work/library"
echo "$(nproc) processors, $(date +%F), $(gcc --version | head -n 1)"
echo
"$work/library"
