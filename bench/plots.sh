#!/bin/sh
# Draws the pictures of docs/SPEED.md, docs/plots/*.svg: runs serve.sh, parts.sh and memory.sh, keeps what they print in bench/output, and has plots.py
# draw that. With the word `again` it draws what the last run printed. Needs what the three need; read the figures on a machine that does nothing else.
root=$(cd "$(dirname "$0")/.." && pwd)
mkdir -p "$root/bench/output" || exit 1
if [ "$1" != again ]; then
    for name in serve parts memory; do
        "$root/bench/$name.sh" >"$root/bench/output/$name.txt" || exit 1
    done
fi
exec python3 "$root/bench/plots.py" "$root/bench/output" "$root/docs/plots"
