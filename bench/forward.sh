#!/bin/sh
# Compares `logd forward` with a plain forwarder in C that makes the same reads and writes (`plain_forward.c`), and with a forwarding daemon on ACE that
# has a thread that sends (`ace_forward.cpp`): 100 MB of records with messages of 100 bytes, in little-endian order, to a peer that only reads. They take turns,
# nine runs each; it prints the medians, the rate of ours by that of each (above 1 ours is faster), and the processor time of ours by that of each
# (below 1 ours is cheaper). The peer compares all bytes. Then it prints the most memory of ours on 10 to 400 MB, and how long five records that come in one
# piece to a pipe that stays open take to be at the peer. Needs rt, cc and python3, and for ACE's lines a C++ compiler and the Debian package libace-dev.
root=$(cd "$(dirname "$0")/.." && pwd)
work=$(mktemp -d) || exit 1
trap 'rm -rf "$work"' EXIT
cc -O2 -o "$work/plain" "$root/bench/plain_forward.c" || exit 1
c++ -O2 -o "$work/ace" "$root/bench/ace_forward.cpp" -lACE 2>/dev/null || echo "ACE is not here (libace-dev), or its forwarder does not compile: its lines are left out"
[ -n "$LOGD" ] || "$root/bin/logd" one </dev/null >/dev/null || exit 1
python3 - "$work" "${LOGD:-$root/crates/logd/out/logd}" <<'P'
import os, select, socket, statistics, struct, subprocess, sys, threading, time
work, logd = sys.argv[1:]
COUNT = 781250

def records(order, count):
    form, octet = ("<", 1) if order == "little" else (">", 0)
    return b"".join(struct.pack(form + "BxxxIiiiII", octet, 120, 4, 7, 1, i, 100) + bytes(97 + (i + j) % 26 for j in range(100)) for i in range(count))

given, wanted = records("little", 1000) * (COUNT // 1000), records("big", 1000) * (COUNT // 1000)
with open(work + "/records", "wb") as f:
    f.write(given)

class Peer:
    """Listens on a port of its own, and reads one connection to its end."""
    def __init__(self, keeps):
        self.socket = socket.create_server(("127.0.0.1", 0))
        self.port = self.socket.getsockname()[1]
        self.got, self.length, self.keeps = [], 0, keeps
        self.thread = threading.Thread(target=self.read)
        self.thread.start()
    def read(self):
        peer, _ = self.socket.accept()
        buffer = bytearray(1 << 20)
        while n := peer.recv_into(buffer):
            self.length += n
            if self.keeps: self.got.append(bytes(buffer[:n]))
        self.over = time.perf_counter()
        peer.close()
        self.socket.close()

def most_memory(pid):
    """The most memory of a process so far, in KiB."""
    with open(f"/proc/{pid}/status") as f:
        return max([int(it.split()[1]) for it in f if it.startswith("VmHWM:")], default=0)

def run(command, keeps=False, source=work + "/records", watches=False):
    """The seconds until all was at the peer, those of the forwarder's processor, and its most memory in KiB."""
    peer = Peer(keeps)
    most = 0
    with open(source, "rb") as f:
        start = time.perf_counter()
        ran = subprocess.Popen(command(peer.port), stdin=f, stdout=subprocess.PIPE)
        while watches and not select.select([ran.stdout], [], [], 0.005)[0]:
            most = max(most, most_memory(ran.pid))
        said = ran.stdout.read().decode()
        _, status, used = os.wait4(ran.pid, 0)
    peer.thread.join()
    assert status == 0, f"{command(0)} ended with {status}"
    if keeps: assert b"".join(peer.got) == wanted, f"{command(0)}: other bytes"
    return peer.over - start, used.ru_utime + used.ru_stime, most, said

ours = lambda port: [logd, "forward", "--port", str(port)]
others = {"plain": lambda port: [work + "/plain", str(port)]}
if os.path.exists(work + "/ace"):
    others["ACE"] = lambda port: [work + "/ace", str(port)]
said = run(ours, True)[3]
assert said == f"records {COUNT // 1000 * 1000}\nbytes {len(wanted)}\n", said
for other in others.values(): run(other, True)
def steal():
    row = [int(it) for it in open("/proc/stat").readline().split()[1:9]]
    return sum(row), row[7]
before = steal()
sets = {name: [] for name in ["ours", *others]}
for _ in range(9):
    sets["ours"].append(run(ours))
    for name, other in others.items(): sets[name].append(run(other))
after = steal()
middle = {name: [statistics.median(it[at] for it in rows) for at in range(2)] for name, rows in sets.items()}
for name in others:
    print(f"{name}: {middle[name][0]:.3f} s, ours {middle['ours'][0]:.3f} s, rate {middle[name][0] / middle['ours'][0]:.2f}; "
          f"processor {middle[name][1]:.3f} s, ours {middle['ours'][1]:.3f} s, ratio {middle['ours'][1] / middle[name][1]:.2f}")
print(f"steal {100 * (after[1] - before[1]) / (after[0] - before[0]):.1f} %")
for part in 10, 100, 400:
    with open(work + "/part", "wb") as f:
        for _ in range(max(1, part // 100)): f.write(given[: min(part, 100) * 1000000 // 128 * 128])
    print(f"{part} MB of records: at most {run(ours, source=work + '/part', watches=True)[2]} KiB of memory")
# five records in one piece, to a pipe that stays open
peer = Peer(True)
ran = subprocess.Popen(ours(peer.port), stdin=subprocess.PIPE, stdout=subprocess.DEVNULL)
time.sleep(0.3)
start = time.perf_counter()
ran.stdin.write(given[: 5 * 128])
ran.stdin.flush()
while peer.length < 5 * 128 and time.perf_counter() - start < 5: time.sleep(0.0005)
took = time.perf_counter() - start
ran.stdin.close()
ran.wait()
peer.thread.join()
assert b"".join(peer.got) == wanted[: 5 * 128]
print(f"five records in one piece to an open pipe: at the peer after {1000 * took:.1f} ms")
P
