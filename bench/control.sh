#!/bin/sh
# Ends `logd serve --control` by its standard input, with 1 worker and with 4: a FIFO that is closed, also if bytes came there before; a
# terminal; a socket; /dev/null and a file, which are at their end from the start; and contrib/logd_until_signal at SIGTERM. Up to 1,000
# connections are open then. It checks the status and that each of them has its line. Needs python3, script(1), and rt, or the program that LOGD names.
root=$(cd "$(dirname "$0")/.." && pwd)
if [ -z "$LOGD" ]; then
    "$root/bin/logd" one </dev/null >/dev/null || exit 1
fi
ulimit -n "$(ulimit -Hn)"
python3 - "$root" "${LOGD:-$root/crates/logd/out/logd}" <<'P'
import os, signal, socket, subprocess, sys, tempfile, time
root, logd = sys.argv[1:]
RECORD = bytes.fromhex("0000000000000016000000040000000700000001000000020000000268690000")[:30]

def free_port():
    with socket.socket() as s:
        s.bind(("127.0.0.1", 0))
        return s.getsockname()[1]

def listens(port):
    with open("/proc/net/tcp") as table:
        return any(line.split()[1].endswith(f":{port:04X}") and line.split()[3] == "0A" for line in table.readlines()[1:])

def start(command, port, **streams):
    server = subprocess.Popen(command, **streams)
    while not listens(port) and server.poll() is None:
        time.sleep(0.01)
    return server

def serve(port, workers):
    return [logd, "serve", "--port", str(port), "--workers", str(workers), "--most", "4096", "--control"]

def connect(port, many):
    """Connections, each of which has sent one record."""
    streams = [socket.create_connection(("127.0.0.1", port)) for _ in range(many)]
    for it in streams:
        it.sendall(RECORD)
    return streams

def check(name, workers, lines, status, many):
    told = open(lines).read().splitlines()
    wanted = sorted([f"{n} 1,2 7 LM_DEBUG: hi" for n in range(many)] + [f"{n} closed: stopped" for n in range(many)])
    assert status == 0, f"{name}: status {status}"
    assert sorted(told) == wanted, f"{name}: {len(told)} lines in place of {len(wanted)}"
    print(f"{workers} workers, {name}: status 0, {many} connections stopped", flush=True)

def wait_for_lines(lines, many):
    end = time.time() + 60
    while open(lines).read().count("\n") < many:
        assert time.time() < end, "the lines do not come"
        time.sleep(0.02)

def with_stream(name, workers, many, make, end):
    """A server whose standard input is what `make` gives; `end` ends that."""
    with tempfile.TemporaryDirectory() as work:
        port, lines = free_port(), work + "/lines"
        stdin, ours = make(work)
        with open(lines, "wb") as out:
            server = start(serve(port, workers), port, stdin=stdin, stdout=out)
        if stdin is not None and not isinstance(stdin, int):
            stdin.close()
        streams = connect(port, many)
        wait_for_lines(lines, many)
        assert server.poll() is None
        end(ours)
        status = server.wait(timeout=30)
        check(name, workers, lines, status, many)
        for it in streams:
            it.close()

def fifo(work):
    os.mkfifo(work + "/control")
    hold = os.open(work + "/control", os.O_RDWR)
    reader = open(work + "/control", "rb", buffering=0)
    writer = open(work + "/control", "wb", buffering=0)
    os.close(hold)
    return reader, writer

def pair(work):
    ours, theirs = socket.socketpair()
    return theirs, ours

def write_and_close(stream):
    for _ in range(50):
        stream.write(b"x" * 4096)
    time.sleep(0.2)
    stream.close()

for workers in 1, 4:
    with_stream("a FIFO that is closed", workers, 0, fifo, lambda s: s.close())
    with_stream("a FIFO that is closed", workers, 1000, fifo, lambda s: s.close())
    with_stream("a FIFO after 204,800 bytes", workers, 3, fifo, write_and_close)
    with_stream("a socket", workers, 3, pair, lambda s: s.close())
    with tempfile.TemporaryDirectory() as work:
        for name in "/dev/null", work + "/file":
            if name != "/dev/null":
                open(name, "wb").write(b"some bytes\n")
            with open(name, "rb") as stdin, open(work + "/lines", "wb") as out:
                server = subprocess.Popen(serve(free_port(), workers), stdin=stdin, stdout=out)
            check("/dev/null" if name == "/dev/null" else "a file", workers, work + "/lines", server.wait(timeout=30), 0)
    with tempfile.TemporaryDirectory() as work:
        port, lines = free_port(), work + "/lines"
        command = " ".join(serve(port, workers)) + f" >{lines}; echo $? >{work}/status"
        terminal = start(["script", "-qc", command, "/dev/null"], port, stdin=subprocess.PIPE, stdout=subprocess.DEVNULL)
        streams = connect(port, 3)
        wait_for_lines(lines, 3)
        terminal.stdin.write(b"some words\n\x04")
        terminal.stdin.flush()
        end = time.time() + 30
        while not os.path.exists(work + "/status") and time.time() < end:
            time.sleep(0.05)
        time.sleep(0.1)
        check("a terminal", workers, lines, int(open(work + "/status").read()), 3)
        terminal.stdin.close()
        terminal.wait(timeout=30)
        port = free_port()
        words = serve(port, workers)[1:-1]
        with open(lines, "wb") as out:
            script = start([root + "/contrib/logd_until_signal", *words], port, stdin=subprocess.DEVNULL, stdout=out, env={**os.environ, "LOGD": logd})
        streams += connect(port, 3)
        wait_for_lines(lines, 3)
        script.send_signal(signal.SIGTERM)
        check("SIGTERM to logd_until_signal", workers, lines, script.wait(timeout=30), 3)
P
