#!/bin/sh
# Compares `logd one` with a plain decoder in C that makes the same reads and writes: 100 MB of records with messages of 100
# bytes. It prints the times, their ratio, and the most memory that logd took on 1 to 800 MB. Needs cc and python3.
root=$(cd "$(dirname "$0")/.." && pwd)
work=$(mktemp -d) || exit 1
trap 'rm -rf "$work"' EXIT
mkfifo "$work/pipe" || exit 1
cc -O2 -o "$work/plain" "$root/bench/plain_decoder.c" || exit 1
"$root/bin/logd" one </dev/null >/dev/null || exit 1
python3 - "$work/records" <<'P'
import struct, sys
record = struct.pack(">BxxxIiiiII", 0, 120, 4, 7, 1, 2, 100) + bytes(97 + i % 26 for i in range(100))
with open(sys.argv[1], "wb") as f:
    for _ in range(100):
        f.write(record * 7813)
P
python3 - "$work" "$root" <<'P'
import subprocess, sys, time
work, root = sys.argv[1:]
def best(command):
    times = []
    for _ in range(5):
        with open(work + "/records", "rb") as source, open("/dev/null", "wb") as sink:
            start = time.perf_counter()
            subprocess.run(command, stdin=source, stdout=sink, check=True)
            times.append(time.perf_counter() - start)
    return min(times)
def same(command):
    with open(work + "/records", "rb") as source:
        return subprocess.run(command, stdin=source, stdout=subprocess.PIPE, check=True).stdout
plain, logd = [work + "/plain"], [root + "/crates/logd/out/logd", "one"]
assert same(plain) == same(logd), "the outputs differ"
a, b = best(plain), best(logd)
print(f"plain decoder {a:.3f} s, logd one {b:.3f} s, ratio {b / a:.2f}")
P
# The memory of logd at its most: it holds up to 512 entries of its journal, with the records of 256 reads, and lets them go.
for part in 1 100 200 400 800; do
    for _ in $(seq 1 $(((part + 99) / 100))); do cat "$work/records"; done | head -c "$((part * 1000000))" >"$work/pipe" &
    "$root/crates/logd/out/logd" one <"$work/pipe" >/dev/null &
    most=0
    while kill -0 $! 2>/dev/null; do
        now=$(sed -n 's/^VmHWM:[^0-9]*\([0-9]*\).*/\1/p' /proc/$!/status 2>/dev/null)
        [ "${now:-0}" -gt "$most" ] && most=$now
    done
    echo "$part MB of records: at most $most KiB of memory"
done
