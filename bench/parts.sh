#!/bin/sh
# Times parts of the framework beside the same work in ACE: timers in the three queues, a message queue, and streams of passing
# modules. Prints nanoseconds for each timer, entry or message, ours and ACE's, and their ratio, from one run. Needs rt; ACE's column
# needs a C++ compiler and the Debian package libace-dev, and is left out without them.
root=$(cd "$(dirname "$0")/.." && pwd)
work=$(mktemp -d) || exit 1
trap 'rm -rf "$work"' EXIT
(cd "$root/crates/bench_parts_run" && rt run >/dev/null 2>&1 </dev/null) || { echo "bench_parts could not be built" >&2; exit 1; }
c++ -O2 -o "$work/ace" "$root/bench/ace_parts.cpp" -lACE 2>/dev/null || echo "ACE is not here (libace-dev): its column is left out"
"$root/crates/bench_parts_run/out/bench_parts_run" time >"$work/ours" || exit 1
[ -x "$work/ace" ] && "$work/ace" >"$work/theirs"
awk -F': ' '
    FILENAME ~ /theirs$/ { theirs[$1] = $2; next }
    ($1 in theirs) && theirs[$1] > 0 { printf "%-55s %8d %8d  ratio %.2f\n", $1, $2, theirs[$1], $2 / theirs[$1]; next }
    { printf "%-55s %8d\n", $1, $2 }
' $(ls "$work/theirs" 2>/dev/null) "$work/ours"
