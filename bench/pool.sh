#!/bin/sh
# Runs crates/bench_reactor_run by one thread and by pools in turn, five times each, and prints medians: what an event costs in a pool of 1, 2, 4
# and 8 workers over 1, 100 and 4,000 handles, in nanoseconds, as a multiple of what it costs in the one-thread reactor with the same handlers,
# and as one of what it costs there with handlers that are 8 bytes smaller and count nothing; how many upcalls of about 20 microseconds of
# work are made in a second by 1, 2, 4 and 8 workers; and how long the slowest of 10,000 removals, and of the settlings beside them, took
# while a leader waited at a net for up to 10 seconds. Needs rt and python3; read the ratios on a machine that does nothing else.
root=$(cd "$(dirname "$0")/.." && pwd)
(cd "$root/crates/bench_reactor_run" && rt run >/dev/null 2>&1 </dev/null) || exit 1
exec python3 - "$root/crates/bench_reactor_run/out/bench_reactor_run" <<'P'
import collections, re, statistics, subprocess, sys
program = sys.argv[1]
TURNS = 5

def lines(*words):
    return subprocess.run([program, *words, "time"], stdin=subprocess.DEVNULL, stdout=subprocess.PIPE, check=True, text=True).stdout.splitlines()

own, alone, nanos, rates, slowest = (collections.defaultdict(list) for _ in range(5))
for _ in range(TURNS):
    for line in lines():
        if found := re.fullmatch(r"(\d+) handles, \d+ events reported: (\d+) ns each", line):
            own[int(found[1])].append(int(found[2]))
    for line in lines("pool"):
        if found := re.fullmatch(r"(\d+) handles, one thread: (\d+) ns for an event", line):
            alone[int(found[1])].append(int(found[2]))
        elif found := re.match(r"(\d+) handles, (\d+) workers: (\d+) ns", line):
            nanos[int(found[1]), int(found[2])].append(int(found[3]))
        elif found := re.fullmatch(r"(\d+) workers, upcalls of 20 microseconds: (\d+) events a second", line):
            rates[int(found[1])].append(int(found[2]))
        elif found := re.search(r"removals (\d+) us, of (\d+) settlings (\d+) us", line):
            slowest["removal"].append(int(found[1]))
            slowest["settling"].append(int(found[3]))

median = statistics.median
for handles in own:
    print(f"{handles} handles: smaller handlers {median(own[handles]):.0f} ns, one thread {median(alone[handles]):.0f} ns")
for (handles, workers), told in nanos.items():
    of = median(told)
    print(f"{handles} handles, {workers} workers: {of:.0f} ns for an event, {of / median(alone[handles]):.2f} times one thread, {of / median(own[handles]):.2f} times smaller handlers")
for workers, told in rates.items():
    print(f"{workers} workers, upcalls of 20 microseconds: {median(told):.0f} events a second, {median(told) / median(rates[1]):.2f} times one worker")
for call, told in slowest.items():
    print(f"beside a leader that waits up to 10 s: the slowest {call} of each run took {', '.join(map(str, told))} us")
P
