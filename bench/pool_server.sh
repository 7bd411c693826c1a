#!/bin/sh
# Loads `logd pool` (2 writers), a bare server on epoll that keeps its lines and writes them grouped at its end (`plain_epoll.c` with the word `grouped`), and a
# half-sync/half-async server on ACE's TP_Reactor (`ace_pool.cpp`, 2 writers), each with 1, 2 and 4 threads that read, and checks every line. Two loads: 8
# connections of 100,000 records, and one beside 900 silent ones. For each it prints the medians of seven runs, which take turns, and the rate of ours by
# that of each other (above 1 ours is faster), with what part of the machine's processor time its host took away (steal). Then it prints the most memory of ours by the
# bytes of the text that it wrote. Needs rt, cc and python3, and for ACE's lines a C++ compiler and the Debian package libace-dev.
root=$(cd "$(dirname "$0")/.." && pwd)
work=$(mktemp -d) || exit 1
trap 'rm -rf "$work"' EXIT
cc -O2 -pthread -o "$work/plain" "$root/bench/plain_epoll.c" || exit 1
cc -O2 -pthread -o "$work/load" "$root/bench/serve_load.c" || exit 1
c++ -O2 -o "$work/ace" "$root/bench/ace_pool.cpp" -lACE 2>/dev/null || echo "ACE is not here (libace-dev), or its server does not compile: its lines are left out"
[ -n "$LOGD" ] || "$root/bin/logd" one </dev/null >/dev/null || exit 1
ulimit -n "$(ulimit -Hn)"
python3 - "$work" "${LOGD:-$root/crates/logd/out/logd}" <<'P'
import os, socket, statistics, subprocess, sys, time
work, logd = sys.argv[1:]
def free_port():
    with socket.socket() as s:
        s.bind(("127.0.0.1", 0))
        return s.getsockname()[1]
def listens(port):
    with open("/proc/net/tcp") as table:
        return any(it.split()[1].endswith(f":{port:04X}") and it.split()[3] == "0A" for it in table.readlines()[1:])
def run(command, port, load, groups):
    """Seconds from the first connect until the server ended, and its most memory in KiB."""
    with open(work + "/lines", "wb") as lines:
        server = subprocess.Popen(command, stdin=subprocess.DEVNULL, stdout=lines)
    while not listens(port):
        assert server.poll() is None, f"{command} ended with {server.returncode}"
        time.sleep(0.01)
    start = time.perf_counter()
    subprocess.run([work + "/load", str(port), *load], stdout=subprocess.DEVNULL, check=True)
    _, status, used = os.wait4(server.pid, 0)
    took = time.perf_counter() - start
    assert status == 0, f"{command} ended with {status}"
    subprocess.run([work + "/load", "check", work + "/lines", *groups], stdout=subprocess.DEVNULL, check=True)
    return took, used.ru_maxrss
SERVERS = {
    "ours": lambda port, until, threads: [logd, "pool", "--port", str(port), "--until", str(until), "--workers", str(threads), "--writers", "2"],
    "bare": lambda port, until, threads: [work + "/plain", str(port), str(until), str(threads), "grouped"],
}
if os.path.exists(work + "/ace"):
    SERVERS["ACE"] = lambda port, until, threads: [work + "/ace", str(port), str(until), str(threads), "2"]
LOADS = [("8 connections", 8, ["bulk", "8", "100000"], ["8x100000"]), ("900 silent, one busy", 901, ["silent", "900", "100000"], ["900x0", "1x100000"])]
def steal():
    row = [int(it) for it in open("/proc/stat").readline().split()[1:9]]
    return sum(row), row[7]
most = 0
for name, until, load, groups in LOADS:
    for threads in 1, 2, 4:
        before, sets = steal(), {server: [] for server in SERVERS}
        for _ in range(7):
            for server, command in SERVERS.items():
                port = free_port()
                sets[server].append(run(command(port, until, threads), port, load, groups))
                if server == "ours": most = max(most, 1024 * sets[server][-1][1] / os.path.getsize(work + "/lines"))
        after = steal()
        middle = {server: statistics.median(it[0] for it in told) for server, told in sets.items()}
        rates = ", ".join(f"{server} {middle[server]:.3f} s, rate {middle[server] / middle['ours']:.2f}" for server in SERVERS if server != "ours")
        print(f"{name}, {threads} threads: ours {middle['ours']:.3f} s; {rates}; steal {100 * (after[1] - before[1]) / (after[0] - before[0]):.1f} %", flush=True)
print(f"most memory of ours: {most:.1f} times the text")
P
