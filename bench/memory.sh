#!/bin/sh
# Samples how much memory `logd serve` takes over time, with 1 and with 4 workers, and a plain server on epoll, while 8 connections send 1,000,000
# records of 100 bytes each. Prints lines `SERVER: SECONDS s KILOBYTES KB`, ten a second. Needs rt, cc and python3.
root=$(cd "$(dirname "$0")/.." && pwd)
work=$(mktemp -d) || exit 1
trap 'rm -rf "$work"' EXIT
cc -O2 -pthread -o "$work/plain" "$root/bench/plain_epoll.c" || exit 1
cc -O2 -pthread -o "$work/load" "$root/bench/serve_load.c" || exit 1
"$root/bin/logd" one </dev/null >/dev/null || exit 1
python3 - "$work" "$root/crates/logd/out/logd" <<'P'
import re, socket, subprocess, sys, time
work, logd = sys.argv[1:]

def listens(port):
    with open("/proc/net/tcp") as table:
        return any(line.split()[1].endswith(f":{port:04X}") and line.split()[3] == "0A" for line in table.readlines()[1:])

def sample(name, command):
    with socket.socket() as s:
        s.bind(("127.0.0.1", 0))
        port = s.getsockname()[1]
    server = subprocess.Popen(command(str(port)), stdin=subprocess.DEVNULL, stdout=subprocess.DEVNULL)
    while not listens(port):
        assert server.poll() is None, f"{name} ended with {server.returncode}"
        time.sleep(0.01)
    begun = time.monotonic()
    load = subprocess.Popen([work + "/load", str(port), "bulk", "8", "1000000"], stdout=subprocess.DEVNULL)
    while load.poll() is None:
        with open(f"/proc/{server.pid}/status") as status:
            held = re.search(r"VmRSS:\s+(\d+)", status.read())
        if held:
            print(f"{name}: {time.monotonic() - begun:.1f} s {held[1]} KB", flush=True)
        time.sleep(0.1)
    assert server.wait() == 0, f"{name} ended with {server.returncode}"

for workers in 1, 4:
    sample(f"logd serve, {workers} workers", lambda port: [logd, "serve", "--port", port, "--until", "8", "--workers", str(workers)])
sample("plain server, 1 worker", lambda port: [work + "/plain", port, "8", "1"])
P
