#!/bin/sh
# Has a client that logs with ACE 7 as it stands (`ace7_client.cpp`) log to `logd serve --ace7`, with 1 worker and with 4, and checks each line
# but its time and process. Needs a C++ compiler, python3, the Debian package libace-dev, and rt, or the program that LOGD names.
root=$(cd "$(dirname "$0")/.." && pwd)
work=$(mktemp -d) || exit 1
trap 'rm -rf "$work"' EXIT
c++ -O2 -o "$work/client" "$root/bench/ace7_client.cpp" -lACE || exit 1
if [ -z "$LOGD" ]; then
    "$root/bin/logd" one </dev/null >/dev/null || exit 1
fi
python3 - "$work/client" "${LOGD:-$root/crates/logd/out/logd}" <<'P'
import re, socket, subprocess, sys, time
client, logd = sys.argv[1:]
CLIENTS = 4
WANTED = [r"LM_DEBUG: hi\x0a", r"LM_ERROR: a worse one: 42\x0a"] + [
    rf"LM_INFO: {i} and more, since a long line goes the same way as a short one\x0a" for i in range(1000)]

def free_port():
    with socket.socket() as s:
        s.bind(("127.0.0.1", 0))
        return s.getsockname()[1]

def listens(port):
    with open("/proc/net/tcp") as table:
        return any(line.split()[1].endswith(f":{port:04X}") and line.split()[3] == "0A" for line in table.readlines()[1:])

for workers in 1, 4:
    port = free_port()
    server = subprocess.Popen([logd, "serve", "--port", str(port), "--ace7", "--workers", str(workers), "--until", str(CLIENTS)],
        stdin=subprocess.DEVNULL, stdout=subprocess.PIPE, text=True)
    while not listens(port):
        assert server.poll() is None, f"logd ended with {server.returncode}"
        time.sleep(0.01)
    clients = [subprocess.Popen([client, f"127.0.0.1:{port}"]) for _ in range(CLIENTS)]
    told = server.communicate()[0].splitlines()
    assert server.returncode == 0 and all(it.wait() == 0 for it in clients)
    for number in range(CLIENTS):
        lines = [line.split(" ", 1)[1] for line in told if line.startswith(f"{number} ")]
        assert lines.pop() == "closed: end"
        assert len(lines) == len(WANTED), len(lines)
        for line, wanted in zip(lines, WANTED):
            time_, rest = re.fullmatch(r"(\d+),\d+ \d+ (LM_.*)", line).groups()
            assert rest == wanted and abs(int(time_) - time.time()) < 600, line
    print(f"{workers} workers: {CLIENTS} clients of ACE, {CLIENTS * len(WANTED)} records as they were meant")
P
