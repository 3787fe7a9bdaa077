#!/bin/bash
# Times goodlock, a plain and a tuned Rust program on the same large traces, and checks that they agree.
#
#     bench/run.sh [PROGRAM [ARGUMENT..]]
#
# PROGRAM is goodlock's (what ./goodlock runs, with `predict --jobs 1`, unless given: one thread reads, since processor
# seconds are compared); ARGUMENTs go to it, as `live` or `live --stream --threads 1024`, which print the same.
# BENCH_DIR   folder for the two Rust programs and the traces   (/tmp/goodlock-bench)
# EVENTS      about how many lines a trace has              (1000000)
# SHAPES      which shapes of bench/make_trace.py           (all)
# FILES       which traces of files, .std or .std.xz        (bench/traces, recorded servers)
# STAGE       full: mode full, length 4; first: mode basic, length 2, forks and joins skipped  (full)
# RUNS        runs of each program; the best counts         (3)
set -u

here=$(cd "$(dirname "$(readlink -f -- "$0")")" && pwd)
top=$(dirname "$here")
folder=${BENCH_DIR:-/tmp/goodlock-bench}
events=${EVENTS:-1000000}
shapes=${SHAPES-few-locks many-locks long-names deep-nesting many-cycles none readers forks item-locks long-sections connections lock-table}
files=${FILES-$(echo "$here"/traces/*.std.xz)}
runs=${RUNS:-3}
case ${STAGE:-full} in
    full) options="--mode full --len 4 --max 1000" ;;
    first) options="--mode basic --len 2 --max 1000 --skip-forks" ;;
    *) echo "run.sh: STAGE is first or full" >&2; exit 2 ;;
esac
program=${1:-$(GOODLOCK_WHICH=1 "$top/goodlock")}
if [ $# -gt 0 ]; then shift; else set -- predict --jobs 1; fi

if [ ! -x "$program" ]; then
    echo "run.sh: there is no program at $program" >&2
    exit 2
fi
mkdir -p "$folder"
for peer in plain tuned; do
    rustc --edition 2021 -C opt-level=3 -o "$folder/$peer" "$here/$peer/main.rs" || exit 2
done

# run_once NAME TRACE COMMAND..: user and system seconds; leaves NAME.out, NAME.err and NAME.status.
run_once() {
    local name=$folder/$1 trace=$2
    shift 2
    local TIMEFORMAT="%3U %3S"
    { time "$@" <"$trace" >"$name.out" 2>"$name.err"; echo $? >"$name.status"; } 2>"$name.time"
    awk '{ printf "%.3f", $1 + $2 }' "$name.time"
}

# lesser BEST SPENT: the lesser of the two; BEST may be empty.
lesser() {
    awk -v best="$1" -v spent="$2" 'BEGIN { print (best == "" || spent + 0 < best + 0) ? spent : best }'
}

# compare SHAPE PEER: fails where the peer's answer differs from goodlock's; both are kept under the shape's name.
compare() {
    local part is_equal=0
    for part in out err status; do
        if ! cmp -s "$folder/$2.$part" "$folder/goodlock.$part"; then
            is_equal=1
            cp "$folder/$2.$part" "$folder/$1.$2.$part"
            cp "$folder/goodlock.$part" "$folder/$1.goodlock.$part"
        fi
    done
    return "$is_equal"
}

# trace_of SHAPE|FILE: the path of the trace, which is made or unpacked where that wasn't done yet.
trace_of() {
    local trace
    case $1 in
        *.xz)
            trace=$folder/$(basename "$1" .xz)
            [ "$trace" -nt "$1" ] || xz -dc "$1" >"$trace" || exit 2
            ;;
        *.std) trace=$1 ;;
        *)
            trace=$folder/$1-$events.std
            if [ ! -s "$trace" ] || [ "$here/make_trace.py" -nt "$trace" ]; then
                python3 "$here/make_trace.py" --shape "$1" --events "$events" --seed 1 >"$trace.new" || exit 2
                mv "$trace.new" "$trace"
            fi
            ;;
    esac
    echo "$trace"
}

echo "user and system seconds, best of $runs; stage ${STAGE:-full}; about $events lines a shape"
echo "/plain and /tuned: goodlock's time over the peer's"
printf '%-13s %7s %8s  %8s %5s  %7s %5s  %7s %5s  %6s %6s  %s\n' \
    shape MB lines goodlock MB/s plain MB/s tuned MB/s /plain /tuned answers
differ=0
for source in $shapes $files; do
    trace=$(trace_of "$source") || exit 2
    shape=$(basename "$source")
    shape=${shape%.std*}
    goodlock="" plain="" tuned=""
    for ((run = 0; run < runs; run++)); do
        # shellcheck disable=SC2086  # the options are words
        {
            goodlock=$(lesser "$goodlock" "$(run_once goodlock "$trace" "$program" "$@")")
            plain=$(lesser "$plain" "$(run_once plain "$trace" "$folder/plain" $options)")
            tuned=$(lesser "$tuned" "$(run_once tuned "$trace" "$folder/tuned" $options)")
        }
    done
    answers=equal
    for peer in plain tuned; do
        if ! compare "$shape" "$peer"; then
            answers=DIFFERENT
            differ=1
        fi
    done
    awk -v shape="$shape" -v bytes="$(stat -c %s "$trace")" -v count="$(wc -l <"$trace")" -v answers="$answers" \
        -v goodlock="$goodlock" -v plain="$plain" -v tuned="$tuned" '
        function speed(seconds) { return seconds > 0 ? sprintf("%.0f", bytes / 1e6 / seconds) : "-" }
        function over(seconds) { return seconds > 0 ? sprintf("%.2f", goodlock / seconds) : "-" }
        BEGIN {
            printf "%-13s %7.1f %8d  %8.3f %5s  %7.3f %5s  %7.3f %5s  %6s %6s  %s\n", shape, bytes / 1e6, count,
                goodlock, speed(goodlock), plain, speed(plain), tuned, speed(tuned), over(plain), over(tuned), answers
        }'
done
if [ "$differ" -ne 0 ]; then
    echo "run.sh: the answers differ; see SHAPE.PEER.* and SHAPE.goodlock.* in $folder" >&2
    exit 1
fi
