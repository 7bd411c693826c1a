#!/bin/sh
# Compares `logd replay --grouped` with a plain program in C++ that parses the script and prints the same text, on the script of 1000 connections
# with 125 records each, in 252,000 steps: with 1 worker and with 4. Prints the times, of the fastest of five, their ratios and the most memory, also as a
# multiple of the script and the text of the run's journal together, and the time of `logd gen 1000 7` beside the replay of its script. Needs rt, a C++ compiler and python3.
root=$(cd "$(dirname "$0")/.." && pwd)
work=$(mktemp -d) || exit 1
trap 'rm -rf "$work"' EXIT
c++ -O2 -std=c++17 -o "$work/gen" "$root/bench/gen_script.cpp" || exit 1
c++ -O2 -std=c++17 -o "$work/plain" "$root/bench/plain_replay.cpp" || exit 1
"$root/bin/logd" one </dev/null >/dev/null || exit 1
"$work/gen" 1000 7 >"$work/script" || exit 1
python3 - "$work" "$root/crates/logd/out/logd" <<'P'
import os, subprocess, sys, time
work, logd = sys.argv[1:]
def run(command):
    with open(work + "/script", "rb") as source, open(work + "/out", "wb") as sink:
        start = time.perf_counter()
        child = subprocess.Popen(command, stdin=source, stdout=sink)
        _, status, used = os.wait4(child.pid, 0)
        taken = time.perf_counter() - start
    assert status == 0, f"{command} ended with {status}"
    return taken, used.ru_utime + used.ru_stime, used.ru_maxrss
def best(command):
    runs = [run(command) for _ in range(5)]
    with open(work + "/out", "rb") as text:
        return min(t for t, _, _ in runs), min(c for _, c, _ in runs), max(m for _, _, m in runs), text.read()
run([logd, "replay", "--journal"])
texts = os.path.getsize(work + "/script") + os.path.getsize(work + "/out")
print(f"script: {os.path.getsize(work + '/script')} bytes, journal: {os.path.getsize(work + '/out')} bytes")
plain = best([work + "/plain"])
print(f"plain program: {plain[0]:.3f} s, {plain[2]} KiB")
for workers in 1, 4:
    ours = best([logd, "replay", "--grouped", "--workers", str(workers)])
    assert ours[3] == plain[3], "the outputs differ"
    print(f"replay --grouped, {workers} workers: {ours[0]:.3f} s, ratio {ours[0] / plain[0]:.1f}, {ours[2]} KiB, {ours[2] * 1024 / texts:.1f} times both texts")
    if workers == 4:
        gen = best([logd, "gen", "1000", "7"])
        print(f"gen 1000 7: {gen[0]:.3f} s, {gen[0] / ours[0]:.2f} of that, {gen[2]} KiB")
P
