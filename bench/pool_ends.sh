#!/bin/sh
# pool_ends.sh [RUNS]: runs `logd pool` again and again (200 times if left out), each with 1 worker, 2 writers and 8 connections of 20,000 records, which
# overrun its queue, and checks every line. A run that has not ended after 10 seconds is told with what its threads wait for, and the script ends with 1:
# so a wake that is lost shows. Needs rt, cc and python3. LOGD=PATH runs that program.
root=$(cd "$(dirname "$0")/.." && pwd)
work=$(mktemp -d) || exit 1
trap 'rm -rf "$work"' EXIT
cc -O2 -pthread -o "$work/load" "$root/bench/serve_load.c" || exit 1
[ -n "$LOGD" ] || "$root/bin/logd" one </dev/null >/dev/null || exit 1
python3 - "$work" "${LOGD:-$root/crates/logd/out/logd}" "${1:-200}" <<'P'
import glob, socket, subprocess, sys, time
work, logd, runs = sys.argv[1], sys.argv[2], int(sys.argv[3])
LIMIT = 10
def free_port():
    with socket.socket() as s:
        s.bind(("127.0.0.1", 0))
        return s.getsockname()[1]
def listens(port):
    with open("/proc/net/tcp") as table:
        return any(it.split()[1].endswith(f":{port:04X}") and it.split()[3] == "0A" for it in table.readlines()[1:])
def waits_of(server):
    told = []
    for name in sorted(glob.glob(f"/proc/{server.pid}/task/*/wchan")):
        with open(name) as it:
            told.append(it.read())
    return ", ".join(told)
def run():
    """Seconds from the first connect until the server ended, or None if it did not."""
    port = free_port()
    words = [logd, "pool", "--port", str(port), "--workers", "1", "--writers", "2", "--until", "8"]
    with open(work + "/lines", "wb") as lines:
        server = subprocess.Popen(words, stdin=subprocess.DEVNULL, stdout=lines)
    while not listens(port):
        assert server.poll() is None, f"it ended with {server.returncode}"
        time.sleep(0.002)
    start = time.perf_counter()
    try:
        subprocess.run([work + "/load", str(port), "bulk", "8", "20000"], stdout=subprocess.DEVNULL, check=True, timeout=LIMIT)
        status = server.wait(LIMIT)
    except subprocess.TimeoutExpired:
        print(f"a run did not end within {LIMIT} s; its threads wait for: {waits_of(server)}", flush=True)
        server.kill()
        server.wait()
        return None
    took = time.perf_counter() - start
    assert status == 0, f"it ended with {status}"
    subprocess.run([work + "/load", "check", work + "/lines", "8x20000"], stdout=subprocess.DEVNULL, check=True)
    return took
longest = 0
for at in range(runs):
    took = run()
    if took is None:
        sys.exit(f"run {at + 1} of {runs} did not end")
    longest = max(longest, took)
print(f"{runs} runs ended, the longest after {longest:.2f} s")
P
