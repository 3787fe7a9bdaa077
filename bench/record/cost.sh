# shellcheck shell=bash disable=SC2154  # work and here are the variables of the script that reads this
# What the scripts that measure recorders share. `work` is a directory of the script's own.
TIMEFORMAT='%U %S'

# User and system time of a command, in seconds.
cost() {
    { time "$@" > "$work/out" 2>&1; } 2>&1 | awk '{ print $1 + $2 }'
}

# The same of a web server that ends after a number of requests, without those who ask. The arguments are the port, the
# number of requests and the server's command, to which these two are added.
server_cost() {
    local port=$1 requests=$2
    shift 2
    /usr/bin/python3 "$here/record/requests.py" "$port" "$requests" > /dev/null 2>&1 &
    cost "$@" "$port" "$requests"
    wait $!
}

# The least of three costs.
three_times() {
    for _ in 1 2 3; do
        rm -rf "$work"/trace*
        "$@"
    done | sort -n | head -n 1
}

row() { # name, seconds, seconds of the plain run
    awk -v name="$1" -v time="$2" -v plain="$3" 'BEGIN { printf "%-24s %8.2f s %8.2f\n", name, time, time / plain }'
}
