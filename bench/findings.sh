#!/bin/bash
# Times `predict --findings` beside `predict`, which reads the same trace and lists cycles, for each length.
#
#     bench/findings.sh [PROGRAM]
#
# PROGRAM is goodlock's (what ./goodlock runs, unless given). The table goes to standard output.
# FILES    traces, .std or .std.xz       (bench/traces, recorded servers; and shared-code of bench/make_trace.py)
# LENGTHS  the most edges of a cycle     (2 3 4)
# RUNS     runs of each; the best counts (3)
set -eu

here=$(cd "$(dirname "$(readlink -f -- "$0")")" && pwd)
program=${1:-$(GOODLOCK_WHICH=1 "$here/../goodlock")}
folder=$(mktemp -d)
trap 'rm -rf "$folder"' EXIT
files=${FILES-$folder/shared-code.std $(echo "$here"/traces/*.std.xz)}
if [ -z "${FILES+set}" ]; then
    "$here/make_trace.py" --shape shared-code >"$folder/shared-code.std"
fi

# best TRACE WORD..: user and system seconds of predict with these words, the best of the runs; leaves `out`.
best() {
    local trace=$1 status TIMEFORMAT="%3U %3S"
    shift
    for _ in $(seq "${RUNS:-3}"); do
        status=0
        { time "$program" predict "$@" <"$trace" >"$folder/out"; } 2>>"$folder/times" || status=$?
        if [ "$status" -gt 1 ]; then
            echo "findings.sh: $program predict $* ended with $status" >&2
            exit 1
        fi
    done
    awk '{ spent = $1 + $2; if (NR == 1 || spent < least) least = spent } END { printf "%.2f", least }' "$folder/times"
    rm "$folder/times"
}

echo "| trace | edges | \`--len\` | cycles | seconds | findings | seconds |"
echo "|---|---|---|---|---|---|---|"
for file in $files; do
    name=$(basename "$file")
    case $file in
        *.xz) xz -dc "$file" >"$folder/trace" ;;
        *) cp "$file" "$folder/trace" ;;
    esac
    edges=$("$program" stats <"$folder/trace" | sed -n 's/^edges: //p')
    for length in ${LENGTHS:-2 3 4}; do
        plain=$(best "$folder/trace" --len "$length")
        cycles=$(sed -n 's/^cycles: //p' "$folder/out")
        found=$(best "$folder/trace" --len "$length" --findings)
        findings=$(sed -n 's/^findings: //p' "$folder/out")
        echo "| $name | $edges | $length | $cycles | $plain | $findings | $found |"
    done
done
