#!/bin/sh
# Times `logd audit` on journals of 1,000,000 entries: one of connections that come and end without a record, and one of connections that bring a
# record of 100 bytes each. Prints the times, the fastest of five, the most memory, and how many bytes of it an entry takes beside an empty journal:
# its text, which is let go before the check, is among them.
# Then compares `logd display` with a plain decoder in C, on 10 and on 100 MB of records with messages of 100 bytes: the times, their ratio, and the
# most memory of logd. Needs rt, cc and python3.
root=$(cd "$(dirname "$0")/.." && pwd)
work=$(mktemp -d) || exit 1
trap 'rm -rf "$work"' EXIT
cc -O2 -o "$work/decoder" "$root/bench/plain_decoder.c" || exit 1
"$root/bin/logd" one </dev/null >/dev/null || exit 1
# journal KIND ENTRIES: the text of a journal. Each connection is accepted, ends and is closed; if KIND is `with`, it brings a record before that.
cat >"$work/journal" <<'P'
import sys
kind, entries = sys.argv[1], int(sys.argv[2])
lines, count = ["most 2"], 0
def put(line):
    global count
    lines.append(line)
    count += 1
    return count - 1
def report(handle, now):
    put(f"polled {now}")
    event = put(f"ready {handle} read")
    put(f"started {event}")
    return event
connection = 0
if entries:
    put("opened 0 r--")
while count + 13 <= entries:
    handle = connection + 1
    event = report(0, connection)
    put(f"opened {handle} r--")
    put(f"returned {event} keep accepted {connection}")
    if kind == "with":
        event = report(handle, connection)
        put(f"returned {event} keep piece {connection} 128 1 4:7:{connection}:2:" + "61" * 100)
    event = report(handle, connection)
    put(f"returned {event} close none")
    put(f"closed {handle} end {connection} end")
    connection += 1
while count < entries:
    put(f"polled {connection}")
sys.stdout.write("\n".join(lines) + "\n")
P
for kind in without with; do python3 "$work/journal" "$kind" 1000000 >"$work/$kind" || exit 1; done
python3 "$work/journal" without 0 >"$work/empty" || exit 1
python3 - "$work" "$root/crates/logd/out/logd" <<'P'
import os, struct, subprocess, sys, time
work, logd = sys.argv[1:]
def text(command, source):
    with open(f"{work}/{source}", "rb") as given:
        return subprocess.run(command, stdin=given, stdout=subprocess.PIPE, check=True).stdout
def best(command, source):
    times = []
    for _ in range(5):
        with open(f"{work}/{source}", "rb") as given, open("/dev/null", "wb") as sink:
            start = time.perf_counter()
            subprocess.run(command, stdin=given, stdout=sink, check=True)
            times.append(time.perf_counter() - start)
    return min(times)
# The most memory of a run in KiB, by what the kernel tells of it while it runs.
def most(command, source):
    seen = 0
    with open(f"{work}/{source}", "rb") as given, open("/dev/null", "wb") as sink:
        child = subprocess.Popen(command, stdin=given, stdout=sink)
        while child.poll() is None:
            try:
                with open(f"/proc/{child.pid}/status") as status:
                    seen = max([seen] + [int(line.split()[1]) for line in status if line.startswith("VmHWM")])
            except ProcessLookupError:
                pass
    assert child.returncode == 0, f"{command} ended with {child.returncode}"
    return seen
audit = [logd, "audit"]
assert text(audit, "empty") == b"legal 0\n", "the empty journal is not legal"
none = most(audit, "empty")
for kind in "without", "with":
    assert text(audit, kind) == b"legal 1000000\n", f"the journal {kind} records is not legal"
    memory, size = most(audit, kind), os.path.getsize(f"{work}/{kind}")
    print(f"audit of 1,000,000 entries {kind} records, {size / 1e6:.0f} MB: {best(audit, kind):.3f} s, {memory} KiB, {(memory - none) * 1024 / 1e6:.0f} bytes an entry")
record = struct.pack(">BxxxIiiiII", 0, 120, 4, 7, 1, 2, 100) + bytes(97 + i % 26 for i in range(100))
decoder, display = [work + "/decoder"], [logd, "display"]
for part in 10, 100:
    with open(work + "/input", "wb") as given:
        for _ in range(part):
            given.write(record * 7813)
    lines = text(decoder, "input").replace(b"\n0 ", b"\n")
    assert text(display, "input") + b"closed: end\n" == lines.removeprefix(b"0 "), "the outputs differ"
    a, b = best(decoder, "input"), best(display, "input")
    print(f"display of {part} MB of records: plain decoder {a:.3f} s, logd {b:.3f} s, ratio {b / a:.2f}, at most {most(display, 'input')} KiB of memory")
P
