#!/bin/bash
# What recording costs: user and system time of two programs, run plainly, recorded, and under other tools.
#
#   bench/record.sh [REQUESTS]
#
# The programs are four threads on two nested locks of their own each, and a memcached that answers REQUESTS requests
# (400,000 without an argument). All tools run in the same minutes, in turn; of three runs the least time counts
# (Helgrind runs once, with fewer turns and requests, and its time is scaled up). The time of `goodlock-record` is all that it
# needs: the program, the launcher and the writing of the trace. Tools that aren't installed are left out.
set -eu
here=$(dirname -- "$(readlink -f -- "$0")")
record=$here/../tools/goodlock-record
requests=${1:-400000}
turns=1000000
connections=8
port=21211
work=$(mktemp -d)
trap 'rm -rf "$work"' EXIT
TIMEFORMAT='%U %S'

# User and system time of a command, in seconds.
cost() {
    { time "$@" > "$work/out" 2>&1; } 2>&1 | awk '{ print $1 + $2 }'
}

least() {
    sort -n | head -n 1
}

three_times() {
    for _ in 1 2 3; do
        rm -rf "$work"/trace*
        "$@"
    done | least
}

row() { # name, seconds, seconds of the plain run
    awk -v name="$1" -v time="$2" -v plain="$3" 'BEGIN { printf "%-26s %8.2f s %8.2f\n", name, time, time / plain }'
}

server_is_up() {
    for _ in $(seq 1200); do
        if (exec 3<> /dev/tcp/127.0.0.1/$port) 2> /dev/null; then
            return 0
        fi
        sleep 0.05
    done
    echo "record.sh: the server doesn't answer" >&2
    return 1
}

# Time of a memcached under load, in a subshell of its own whose children it is. The arguments are the number of
# requests and the command that runs the server. The server ends by a signal to that command.
server_cost() (
    count=$1
    shift
    trap '' TERM
    # Helgrind keeps 12 files for itself, and wants the server's limit to be just what it leaves.
    ulimit -n 1024
    "$@" memcached -u nobody -l 127.0.0.1 -p $port -t 4 -c 1012 > "$work/server" 2>&1 &
    server=$!
    server_is_up
    "$work/load" $port $connections $((count / connections)) &
    wait $!
    # The load's time is in the file; what comes on top of it later is the server's.
    times > "$work/load.times"
    kill $server
    wait $server || true
    times > "$work/all.times"
    cat "$work/load.times" "$work/all.times" | awk '
        function seconds(text) { split(text, part, /[ms]/); return part[1] * 60 + part[2] }
        { time[NR] = seconds($1) + seconds($2) }
        END { print time[4] - time[2] }'
)

gcc -O2 -pthread -o "$work/nested" "$here/record/nested.c"
gcc -O2 -pthread -o "$work/load" "$here/record/load.c"

echo "four threads, two nested locks each, $turns turns"
plain=$(three_times cost "$work/nested" $turns)
row plain "$plain" "$plain"
row goodlock-record "$(three_times cost "$record" -o "$work/trace" "$work/nested" $turns)" "$plain"
row "goodlock-record --frames 3" "$(three_times cost "$record" --frames 3 -o "$work/trace" "$work/nested" $turns)" "$plain"
row "goodlock-record --live" "$(three_times cost "$record" --live --every 1 -o "$work/trace" "$work/nested" $turns)" "$plain"
for compiler in gcc clang; do
    if $compiler -O2 -fsanitize=thread -pthread -o "$work/tsan" "$here/record/nested.c" 2> /dev/null; then
        row "ThreadSanitizer, $compiler" "$(three_times cost "$work/tsan" $turns)" "$plain"
    fi
done
if command -v valgrind > /dev/null; then
    time=$(cost valgrind --tool=helgrind "$work/nested" $((turns / 50)))
    row Helgrind "$(awk -v t="$time" 'BEGIN { print t * 50 }')" "$plain"
fi

if ! command -v memcached > /dev/null; then
    echo "no memcached here (Debian: apt-get install memcached)"
    exit 0
fi
echo "memcached, 4 threads, $connections connections, $requests requests"
plain=$(three_times server_cost "$requests")
row plain "$plain" "$plain"
row goodlock-record "$(three_times server_cost "$requests" "$record" -o "$work/trace")" "$plain"
row "goodlock-record --frames 3" "$(three_times server_cost "$requests" "$record" --frames 3 -o "$work/trace")" "$plain"
row "goodlock-record --live" "$(three_times server_cost "$requests" "$record" --live --every 1 -o "$work/trace")" "$plain"
if command -v valgrind > /dev/null; then
    time=$(server_cost $((requests / 20)) valgrind --tool=helgrind)
    row Helgrind "$(awk -v t="$time" 'BEGIN { print t * 20 }')" "$plain"
fi
