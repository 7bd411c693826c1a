#!/bin/sh
# Loads `logd serve` and a plain server on epoll that makes the same reads and writes (`plain_epoll.c`), each with 1 and with 4 workers, and checks
# every line that they print. For each load it prints the rate of ours by that of the plain server (above 1 ours is faster), and the processor
# time of ours by that of the plain one (below 1 ours is cheaper): the medians of nine runs of each, which take turns; how many times as fast as
# one worker it was; and what part of the machine's processor time its host took away meanwhile (steal). Behind that it prints the same of servers on
# ACE's TP_Reactor and Dev_Poll_Reactor (`ace_serve.cpp`), by five runs, which take turns with the plain server. A load of short connections leaves tens of
# thousands of sockets behind that the system keeps for a minute, and that slow both servers: before each of these it rests so long, and they have
# 15 runs, since one takes less than a tenth of a second. Then it prints how long a record's line takes to come: the medians of three runs of each.
# Behind that come loads that only ours gets: 4,096 connections at once, peers that send a byte a second, and 10,000 hostile streams beside an honest
# one. Needs rt, cc and python3, and for ACE's lines a C++ compiler and the Debian package libace-dev.
root=$(cd "$(dirname "$0")/.." && pwd)
work=$(mktemp -d) || exit 1
trap 'rm -rf "$work"' EXIT
cc -O2 -pthread -o "$work/plain" "$root/bench/plain_epoll.c" || exit 1
cc -O2 -pthread -o "$work/load" "$root/bench/serve_load.c" || exit 1
c++ -O2 -o "$work/ace" "$root/bench/ace_serve.cpp" -lACE 2>/dev/null || echo "ACE is not here (libace-dev): its lines are left out"
"$root/bin/logd" one </dev/null >/dev/null || exit 1
ulimit -n "$(ulimit -Hn)"
python3 - "$work" "$root/crates/logd/out/logd" <<'P'
import os, socket, statistics, subprocess, sys, time
work, logd = sys.argv[1:]

def free_port():
    with socket.socket() as s:
        s.bind(("127.0.0.1", 0))
        return s.getsockname()[1]

def listens(port):
    with open("/proc/net/tcp") as table:
        return any(line.split()[1].endswith(f":{port:04X}") and line.split()[3] == "0A" for line in table.readlines()[1:])

def serve(command, port, load, groups):
    """The seconds of the load, and those of the server's processor."""
    with open(work + "/lines", "wb") as lines:
        server = subprocess.Popen(command, stdin=subprocess.DEVNULL, stdout=lines)
    while not listens(port):
        assert server.poll() is None, f"{command} ended with {server.returncode}"
        time.sleep(0.01)
    told = subprocess.run([work + "/load", str(port), *load], stdout=subprocess.PIPE, check=True).stdout
    _, status, used = os.wait4(server.pid, 0)
    assert status == 0, f"{command} ended with {status}"
    subprocess.run([work + "/load", "check", work + "/lines", *groups], stdout=subprocess.DEVNULL, check=True)
    return float(told), used.ru_utime + used.ru_stime

def ours(port, until, workers):
    return [logd, "serve", "--port", str(port), "--until", str(until), "--workers", str(workers), "--most", "4096"]

def plain(port, until, workers):
    return [work + "/plain", str(port), str(until), str(workers)]

def tp_reactor(port, until, workers):
    return [work + "/ace", "tp", str(port), str(until), str(workers)]

def dev_poll_reactor(port, until, workers):
    return [work + "/ace", "dev_poll", str(port), str(until), str(workers)]

ACES = {"TP_Reactor": tp_reactor, "Dev_Poll_Reactor": dev_poll_reactor} if os.path.exists(work + "/ace") else {}

def processor_time():
    """The ticks of all processors since the system began, and how many of them its host took away."""
    with open("/proc/stat") as table:
        ticks = [int(word) for word in table.readline().split()[1:9]]
    return sum(ticks), ticks[7]

def steal(since):
    """Which part of the processor time since then the host took away, as a percentage."""
    now = processor_time()
    return 100 * (now[1] - since[1]) / max(1, now[0] - since[0])

def medians(servers, times, until, counts, load, groups):
    """The median seconds and processor seconds of so many runs of each server with each number of workers, which take turns."""
    runs = {(server, workers): [] for workers in counts for server in servers}
    for _ in range(times):
        for (server, workers), told in runs.items():
            port = free_port()
            told.append(serve(server(port, until, workers), port, load, groups))
    return {of: [statistics.median(each) for each in zip(*told)] for of, told in runs.items()}

# Each load: its name, how many connections it makes, its words, what is asked of its lines, the seconds of rest before each set of runs, how many
# runs a set has, and the numbers of workers of each set.
LOADS = [
    ("bulk, 8 connections of 200,000 records", 8, ["bulk", "8", "200000"], ["8x200000"], 0, 9, [(1, 2, 4)]),
    ("one stream", 1, ["bulk", "1", "400000"], ["1x400000"], 0, 9, [(1, 4)]),
    ("900 silent, one busy", 901, ["silent", "900", "200000"], ["900x0", "1x200000"], 0, 9, [(1, 4)]),
    ("2,000 short connections", 2000, ["short", "2000"], ["2000x1"], 65, 15, [(1,), (4,)]),
]
for name, until, load, groups, rest, times, sets in LOADS:
    told, stolen = {}, {}
    for counts in sets:
        time.sleep(rest)
        since = processor_time()
        told.update(medians((plain, ours), times, until, counts, load, groups))
        stolen.update((workers, steal(since)) for workers in counts)
    for workers in stolen:
        a, b = told[plain, workers], told[ours, workers]
        gains = [told[server, 1][0] / told[server, workers][0] for server in (ours, plain)]
        print(f"{name}, {workers} workers: rate {a[0] / b[0]:.2f}, processor {b[1] / a[1]:.2f} ({b[0]:.3f} s, {b[1]:.2f} s of processor), {gains[0]:.2f} times one worker (plain server {gains[1]:.2f}), steal {stolen[workers]:.1f} %", flush=True)
    for reactor, ace in ACES.items():
        time.sleep(rest)
        since = processor_time()
        told = medians((plain, ace), 5, until, (1, 4), load, groups)
        for workers in 1, 4:
            a, b = told[plain, workers], told[ace, workers]
            print(f"{name}, ACE's {reactor}, {workers} threads: rate {a[0] / b[0]:.2f}, processor {b[1] / a[1]:.2f} ({b[0]:.3f} s, {b[1]:.2f} s of processor), steal {steal(since):.1f} %", flush=True)

def latency(server, until, workers, load):
    port = free_port()
    os.mkfifo(work + "/fifo")
    child = subprocess.Popen(["sh", "-c", 'exec "$@" > "$0"', work + "/fifo", *server(port, until, workers)], stdin=subprocess.DEVNULL)
    lines = os.open(work + "/fifo", os.O_RDONLY)
    while not listens(port):
        time.sleep(0.01)
    told = subprocess.run([work + "/load", str(port), *load, work + "/fifo"], stdout=subprocess.PIPE, check=True).stdout
    os.close(lines)
    assert child.wait() == 0
    os.unlink(work + "/fifo")
    return [int(word) for word in told.split()]

for name, until, load in [
    ("latency beside 900 silent", lambda workers: 901, lambda workers: ["latency", "900", "1000"]),
    ("a record every 5 ms beside an endless stream for each worker", lambda workers: workers + 1, lambda workers: ["beside", str(workers), "400"]),
]:
    for workers in 1, 2, 4:
        runs, since = {server: [] for server in (plain, ours, *ACES.values())}, processor_time()
        for _ in range(3):
            for server, told in runs.items():
                told.append(latency(server, until(workers), workers, load(workers)))
        a, b, *c = ([statistics.median(each) for each in zip(*told)] for told in runs.values())
        theirs = "".join(f", ACE's {reactor} {it[0]} us, {it[1]} us" for reactor, it in zip(ACES, c))
        print(f"{name}, {workers} workers: median {b[0]} us, 99 % {b[1]} us (plain server {a[0]} us, {a[1]} us{theirs}), steal {steal(since):.1f} %", flush=True)
for workers in 1, 4:
    for name, until, load, groups in [
        ("4,096 at once", 4096, ["silent", "4095", "1000"], ["4095x0", "1x1000"]),
        ("8 peers that send a byte a second", 9, ["slow", "8", "20000", "10"], ["8x1", "1x20000"]),
        ("10,000 hostile streams", 10001, ["hostile", "10000", "20000", "7"], ["1x20000", "10000xother"]),
    ]:
        port = free_port()
        took, processor = serve(ours(port, until, workers), port, load, groups)
        print(f"{name}, {workers} workers: every line is there once and in order ({took:.3f} s, {processor:.2f} s of processor)", flush=True)
P
