#!/bin/sh
# Compares `logd aio`, an echo server made of asynchronous operations, with a plain echo server on epoll that makes the same reads and writes (`plain_echo.c`), under four loads (`echo_load.c`): 8
# connections in bulk; 100 bytes and back; 10,000 bytes and back; 100 bytes and back beside 900 silent connections. The load compares all that comes back.
# They take turns, nine runs each. It prints the medians, and the rate of ours by that of the plain one in bulk (above 1 ours is faster), or the time of
# ours by that of the plain one (below 1 ours is sooner), with what part of the machine's processor time its host took away (steal). LOGD names a built program to be
# taken in place of the one that is built here. Needs rt, cc and python3.
root=$(cd "$(dirname "$0")/.." && pwd)
work=$(mktemp -d) || exit 1
trap 'rm -rf "$work"' EXIT
cc -O2 -o "$work/plain" "$root/bench/plain_echo.c" || exit 1
cc -O2 -pthread -o "$work/load" "$root/bench/echo_load.c" || exit 1
[ -n "$LOGD" ] || { "$root/bin/build" logd && LOGD="$root/crates/logd/out/logd"; } || exit 1
ulimit -n "$(ulimit -Hn)"
python3 - "$work" "$LOGD" <<'P'
import socket, statistics, subprocess, sys, time
work, logd = sys.argv[1:]
LOADS = {
    "8 connections in bulk": (8, ["bulk", "8", "40000000"], True),
    "100 bytes and back": (1, ["turns", "100", "20000"], False),
    "10,000 bytes and back": (1, ["turns", "10000", "5000"], False),
    "100 bytes and back beside 900 silent": (901, ["turns", "100", "20000", "900"], False),
}
def free_port():
    with socket.socket() as s:
        s.bind(("127.0.0.1", 0))
        return s.getsockname()[1]
def listens(port):
    with open("/proc/net/tcp") as table:
        return any(it.split()[1].endswith(f":{port:04X}") and it.split()[3] == "0A" for it in table.readlines()[1:])
def run(command, load):
    port = command[command.index("--port") + 1] if command[0] == logd else command[1]
    server = subprocess.Popen(command, stdin=subprocess.DEVNULL, stdout=subprocess.DEVNULL)
    while not listens(int(port)):
        assert server.poll() is None, f"{command} ended with {server.returncode}"
        time.sleep(0.01)
    told = subprocess.run([work + "/load", port, *load], stdout=subprocess.PIPE, check=True).stdout
    status = server.wait(10)
    assert status == 0, f"{command} ended with {status}"
    return float(told)
def ours(until):
    return [logd, "aio", "--port", str(free_port()), "--until", str(until)]
def plain(until):
    return [work + "/plain", str(free_port()), str(until)]
def steal():
    row = [int(it) for it in open("/proc/stat").readline().split()[1:9]]
    return sum(row), row[7]
for name, (until, load, is_rate) in LOADS.items():
    before, sets = steal(), ([], [])
    for _ in range(9):
        sets[0].append(run(ours(until), load))
        sets[1].append(run(plain(until), load))
    after = steal()
    a, b = map(statistics.median, sets)
    ratio = f"rate {b / a:.2f}" if is_rate else f"time {a / b:.2f}"
    print(f"{name}: ours {a:.3f} s, plain {b:.3f} s, {ratio}; steal {100 * (after[1] - before[1]) / (after[0] - before[0]):.1f} %", flush=True)
P
