#!/bin/sh
# Has each allocation of `logd one` on one record refused, one in each run, and prints how the run ended: status 6 with no line, with the
# lines of what came before and a closing line `no memory` or `stopped`, or status 0. Then the same with `logd replay --journal` by two
# workers on a script of two connections: status 0 or 6, and a journal that `logd audit` finds legal, in which each handle that was opened
# was closed, or none. Ends with status 1 if a run ended otherwise. Needs cc and glibc.
root=$(cd "$(dirname "$0")/.." && pwd)
work=$(mktemp -d) || exit 1
trap 'rm -rf "$work"' EXIT
cc -O1 -fno-builtin -shared -fPIC -o "$work/refuse.so" "$root/bench/refuse.c" || exit 1
"$root/bin/logd" one </dev/null >/dev/null || exit 1
logd="$root/crates/logd/out/logd"
record="$root/crates/logd/stdin"

# how many allocations a command makes on an input
count_of() {
    input=$1
    shift
    COUNT=1 LD_PRELOAD="$work/refuse.so" "$logd" "$@" <"$input" 2>&1 >/dev/null | sed -n 's/^allocations: //p'
}

count=$(count_of "$record" one)
echo "one: ${count:?not told} allocations"
wrong=0
for number in $(seq 1 "$count"); do
    REFUSE=$number LD_PRELOAD="$work/refuse.so" "$logd" one <"$record" >"$work/out" 2>/dev/null
    status=$?
    said="$status: $(tr '\n' '|' <"$work/out")"
    case $said in
    '0: 0 1,2 7 LM_DEBUG: hi|0 closed: end|') ;;
    '6: ' | '6: 0 closed: stopped|' | '6: 0 closed: no memory|') ;;
    '6: 0 1,2 7 LM_DEBUG: hi|0 closed: end|' | '6: 0 1,2 7 LM_DEBUG: hi|0 closed: stopped|') ;;
    *) wrong=1 said="$said (wrong)" ;;
    esac
    echo "$number refused: status $said"
done

printf 'open 0\nopen 1\ndata 0 000000000000001600000004000000070000000100000002000000026869\nshut 1\nat 5\nshut 0\n' >"$work/script"
count=$(count_of "$work/script" replay --journal --workers 2)
echo "replay by two workers: ${count:?not told} allocations"
for number in $(seq 1 "$count"); do
    REFUSE=$number LD_PRELOAD="$work/refuse.so" "$logd" replay --journal --workers 2 <"$work/script" >"$work/out" 2>/dev/null
    status=$?
    opened=$(grep -c '^opened' "$work/out")
    closed=$(grep -c '^closed' "$work/out")
    verdict=none
    [ ! -s "$work/out" ] || verdict=$("$logd" audit <"$work/out" 2>/dev/null)
    said="$status: $verdict, $opened opened, $closed closed"
    case "$status $verdict" in
    '0 legal '* | '6 legal '* | '6 none') [ "$opened" = "$closed" ] || wrong=1 said="$said (wrong)" ;;
    *) wrong=1 said="$said (wrong)" ;;
    esac
    echo "$number refused: status $said"
done
exit $wrong
