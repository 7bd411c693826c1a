#!/bin/sh
# Runs crates/bench_reactor_run on about 2,000,000 and on about 20,000,000 events with 4,000 handles, and prints the most memory that each run
# took, in kilobytes, and its processor time. With the word `refused` it has instead each allocation of the short run that makes every call
# of the reactor refused, one in each run, and says how often the journal was the same: the program makes each call that was refused
# once more. Its first allocations read the arguments; a refusal there ends the program. Needs GNU time, cc, glibc and rt.
root=$(cd "$(dirname "$0")/.." && pwd)
cd "$root/crates/bench_reactor_run" || exit 1
rt run >/dev/null 2>&1 </dev/null || exit 1
if [ "$1" = refused ]; then
    work=$(mktemp -d) || exit 1
    trap 'rm -rf "$work"' EXIT
    cc -O1 -fno-builtin -shared -fPIC -o "$work/refuse.so" "$root/bench/refuse.c" || exit 1
    journal=$(COUNT=1 LD_PRELOAD="$work/refuse.so" out/bench_reactor_run calls 2>"$work/count")
    count=$(sed -n 's/^allocations: //p' "$work/count")
    same=0
    for number in $(seq 1 "${count:?not told}"); do
        found=$(REFUSE=$number LD_PRELOAD="$work/refuse.so" out/bench_reactor_run calls 2>/dev/null)
        if [ "$found" = "$journal" ]; then same=$((same + 1)); else echo "allocation $number refused: differs"; fi
    done
    echo "$count allocations: with $same of them refused the journal was the same"
    exit
fi
for run in long longer; do
    /usr/bin/time -f "$run: %M KB, %U s" out/bench_reactor_run "$run" || exit 1
done
