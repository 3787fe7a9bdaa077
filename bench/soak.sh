#!/bin/bash
# Runs `live` and `live --stream` on a long trace and compares the bytes with `predict`'s.
#
#     bench/soak.sh [PROGRAM]
#
# PROGRAM is goodlock's (what ./goodlock runs unless given). The trace goes from bench/make_trace.py into the program
# without a file, once for each command.
# EVENTS    about how many lines it has                     (10000000)
# SHAPE     its shape, and further options of make_trace.py (many-locks)
# QUERY     what each of them is asked, as "--findings"     (none)
# OPTIONS   further words for live, as "--shards 8"         (none)
#
# A row for each command has the status, seconds of the clock (the making of the trace among them) and of the processor (the
# program's alone), the greatest resident memory, and that memory over the events that were kept. The status is 1 where an
# answer isn't predict's.
set -u

top=$(cd "$(dirname "$(readlink -f -- "$0")")/.." && pwd)
program=${1:-$(GOODLOCK_WHICH=1 "$top/goodlock")}
events=${EVENTS:-10000000}
work=$(mktemp -d)
trap 'rm -rf "$work"' EXIT

if [ ! -x "$program" ]; then
    echo "soak.sh: there is no program at $program" >&2
    exit 2
fi

trace() {
    # shellcheck disable=SC2086  # the shape's options are words
    python3 "$top/bench/make_trace.py" --shape ${SHAPE:-many-locks} --events "$events" --seed 1
}

# run NAME WORD..: leaves NAME.out, NAME.err, NAME.status, the processor's seconds and the peak of its memory in kB.
run() {
    local name=$work/$1
    shift
    trace | python3 -c '
import os, subprocess, sys
name, *words = sys.argv[1:]
child = subprocess.Popen(words, stdout=open(name + ".out", "wb"), stderr=open(name + ".err", "wb"))
_, status, used = os.wait4(child.pid, 0)
for part, told in [("status", os.waitstatus_to_exitcode(status)), ("peak", used.ru_maxrss),
                   ("spent", round(used.ru_utime + used.ru_stime, 1))]:
    print(told, file=open(f"{name}.{part}", "w"))
' "$name" "$program" "$@"
}

row() { # name, words
    local start=$SECONDS name=$1
    run "$@"
    printf '%-15s %6s %8s %10s %9s %14s  %s\n' "$name" "$(cat "$work/$name.status")" "$((SECONDS - start)) s" \
        "$(cat "$work/$name.spent") s" "$(($(cat "$work/$name.peak") * 1024 / 1000000)) MB" \
        "$(awk -v peak="$(cat "$work/$name.peak")" -v kept="$kept" 'BEGIN { printf "%.1f B/event", peak * 1024 / kept }')" \
        "$(same "$name")"
}

same() {
    local part
    [ "$1" = predict ] && return
    for part in out err status; do
        cmp -s "$work/$1.$part" "$work/predict.$part" || { echo "the $part DIFFERS from predict's"; return; }
    done
    echo "as predict"
}

run stats stats
kept=$(awk '/^events:/ { print $2 }' "$work/stats.out")
if [ -z "$kept" ]; then
    echo "soak.sh: stats has status $(cat "$work/stats.status"): $(cat "$work/stats.err")" >&2
    exit 2
fi
echo "${SHAPE:-many-locks}: $(tr '\n' ' ' <"$work/stats.out")"
printf '%-15s %6s %8s %10s %9s\n' command status clock processor memory
{
    # shellcheck disable=SC2086  # the query and the options are words
    row predict predict ${QUERY:-}
    # shellcheck disable=SC2086
    row live live ${QUERY:-} ${OPTIONS:-}
    # shellcheck disable=SC2086
    row live-stream live --stream --threads 1024 ${QUERY:-} ${OPTIONS:-}
} | tee "$work/rows"
! grep -q DIFFERS "$work/rows"
