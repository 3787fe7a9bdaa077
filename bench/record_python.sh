#!/bin/bash
# What goodlock-python costs: user and system time of programs, run plainly and recorded, in turn; of three runs the least counts.
#
#   bench/record_python.sh [INTERPRETER]
#
# The programs are four threads on two nested locks of their own each, and a web server of the standard library's, with a thread for each
# of 500 requests. The time of `goodlock-python` is all that it needs: the program, the launcher and the writing of the trace.
set -eu
here=$(dirname -- "$(readlink -f -- "$0")")
python=${1:-/usr/bin/python3}
record=$here/../tools/goodlock-python
turns=100000
requests=500
port=21411
work=$(mktemp -d)
trap 'rm -rf "$work"' EXIT
# shellcheck disable=SC1091  # that file is checked by itself
. "$here/record/cost.sh"

echo "four threads, two nested locks each, $turns turns"
plain=$(three_times cost "$python" "$here/record/nested.py" $turns)
row plain "$plain" "$plain"
row goodlock-python "$(three_times cost "$record" -o "$work/trace" --python "$python" "$here/record/nested.py" $turns)" "$plain"

echo "a web server, a thread for each of $requests requests"
plain=$(three_times server_cost $port $requests "$python" "$here/record/pages.py")
row plain "$plain" "$plain"
row goodlock-python "$(three_times server_cost $port $requests "$record" -o "$work/trace" --python "$python" "$here/record/pages.py")" "$plain"
