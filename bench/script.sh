#!/bin/sh
# Compares the reader of scripts with a plain parser in C++ that makes the same tests and keeps the same things, on the script of 1000
# connections with 125 records each, in 252,000 steps. Prints both times, of the fastest of five, and their ratio. Needs rt and a C++
# compiler.
root=$(cd "$(dirname "$0")/.." && pwd)
work=$(mktemp -d) || exit 1
trap 'rm -rf "$work"' EXIT
c++ -O2 -std=c++17 -o "$work/gen" "$root/bench/gen_script.cpp" || exit 1
c++ -O2 -std=c++17 -o "$work/plain" "$root/bench/plain_script.cpp" || exit 1
(cd "$root/crates/bench_parts_run" && rt run >/dev/null 2>&1 </dev/null) || { echo "bench_parts could not be built" >&2; exit 1; }
"$work/gen" 1000 7 >"$work/script" || exit 1
"$work/plain" <"$work/script" >"$work/theirs" || exit 1
"$root/crates/bench_parts_run/out/bench_parts_run" time script <"$work/script" >"$work/ours" || exit 1
read -r bad theirs <"$work/theirs"
read -r found ours <"$work/ours"
[ "$bad" = "$found" ] || { echo "the first bad lines differ: $bad and $found" >&2; exit 1; }
echo "$theirs $ours" | awk '{ printf "plain parser %.1f ms, ours %.1f ms, ratio %.2f\n", $1 / 1e6, $2 / 1e6, $2 / $1 }'
