#!/bin/bash
# What goodlock-java costs: user and system time of programs, run plainly and recorded, in turn; of three runs the least counts.
#
#   bench/record_java.sh [SOURCES]
#
# The programs are four threads on two nested monitors of their own each, javac on all .java files below SOURCES (the agent's own
# without an argument), a web server that answers 2,000 requests, and ant, where it is installed, which copies and packs these
# files. The time of `goodlock-java` is all that it needs: the program, the launcher and the writing of the trace.
set -eu
here=$(dirname -- "$(readlink -f -- "$0")")
record=$here/../tools/goodlock-java
sources=$(readlink -f -- "${1:-$here/../tools/java/src}")
turns=5000000
requests=2000
port=21311
work=$(mktemp -d)
trap 'rm -rf "$work"' EXIT
# shellcheck disable=SC1091  # that file is checked by itself
. "$here/record/cost.sh"

compare() { # title, command..
    echo "$1"
    shift
    plain=$(three_times "$@")
    row plain "$plain" "$plain"
}

recorded() { # command.., with -- where the recorder comes
    row goodlock-java "$(three_times "$@")" "$plain"
}

javac -d "$work/classes" "$here/record/Nested.java" "$here/record/Web.java"
"$record" -o "$work/trace" java -cp "$work/classes" Nested 1 > /dev/null 2>&1 # builds the agent

compare "four threads, two nested monitors each, $turns turns" cost java -cp "$work/classes" Nested $turns
recorded cost "$record" -o "$work/trace" java -cp "$work/classes" Nested $turns

asm=/usr/share/java
find "$sources" -name '*.java' ! -name module-info.java > "$work/list"
javac=(javac -nowarn -proc:none -cp "$asm/asm.jar:$asm/asm-tree.jar:$asm/asm-commons.jar" -d "$work/compiled" "@$work/list")
compare "javac, $(wc -l < "$work/list") files of $sources" cost "${javac[@]}"
recorded cost "$record" -o "$work/trace" "${javac[@]}"

compare "a web server, 4 threads, $requests requests" server_cost $port $requests java -cp "$work/classes" Web
recorded server_cost $port $requests "$record" -o "$work/trace" java -cp "$work/classes" Web

if ! command -v ant > /dev/null; then
    echo "no ant here (Debian: apt-get install ant)"
    exit 0
fi
cat > "$work/build.xml" << END
<project default="all"><target name="all">
  <delete dir="$work/copies"/>
  <parallel threadCount="4">
    <copy todir="$work/copies/1"><fileset dir="$sources"/></copy>
    <copy todir="$work/copies/2"><fileset dir="$sources"/></copy>
    <zip destfile="$work/copies/3.zip" basedir="$sources"/>
  </parallel>
</target></project>
END
compare "ant, which copies and packs these files" cost ant -q -f "$work/build.xml"
recorded cost "$record" -o "$work/trace" ant -q -f "$work/build.xml"
