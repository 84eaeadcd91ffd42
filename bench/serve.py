#!/usr/bin/env python3
"""Runs one server and several clients as processes on this machine, and prints how fast keys get through, how much
memory and processor time each takes, and what peers that don't read cost.

    bench/serve.py

Build the program first, by running ./synergy-share once. Nothing here passes or fails: the exit code is
0 if the program could be run.
"""

import os
import pathlib
import select
import socket
import statistics
import subprocess
import sys
import tempfile
import time

from frames import MIB, PROGRAM
from replay import CLIP, FIRST_KEY, FORGETFUL, MOST_SCREENS, clients, name, visits

sys.path.insert(0, str(pathlib.Path(__file__).resolve().parent.parent / "tools"))

from row_texts import grab, hello, info, whole

HOST = "127.0.0.1"
TURNS = str(2**32 - 1)
WHEELS = 200_000
SWITCHES = 200
IDLE_SECONDS = 10
TICKS = os.sysconf("SC_CLK_TCK")


def free_port():
    with socket.create_server((HOST, 0)) as listener:
        return str(listener.getsockname()[1])


def peak(pid):
    """The most memory that a process has had, in bytes."""
    lines = pathlib.Path(f"/proc/{pid}/status").read_text(encoding="ascii").splitlines()
    return next(int(line.split()[1]) << 10 for line in lines if line.startswith("VmHWM"))


def processor(pid):
    """The seconds of the processor that a process has taken."""
    fields = pathlib.Path(f"/proc/{pid}/stat").read_text(encoding="ascii").rsplit(")", 1)[1].split()
    return (int(fields[11]) + int(fields[12])) / TICKS


class Run:
    """A server of a configuration and a script, and its clients."""

    def __init__(self, config, script):
        self.folder = tempfile.TemporaryDirectory()
        for file, text in [("conf", config), ("script", script), ("client", "")]:
            pathlib.Path(self.folder.name, file).write_text(text, encoding="ascii")
        self.port = free_port()
        self.children = []
        self.server = self.start("serve", "conf", "script", self.port, TURNS)
        while True:
            try:
                socket.create_connection((HOST, int(self.port))).close()
                break
            except ConnectionRefusedError:
                time.sleep(0.02)

    def start(self, *words, output=subprocess.PIPE):
        child = subprocess.Popen(
            [PROGRAM, *words], cwd=self.folder.name, stdin=subprocess.DEVNULL, stdout=output, stderr=subprocess.DEVNULL
        )
        self.children.append(child)
        return child

    def join(self, number):
        return self.start("join", name(number), HOST, self.port, "1024", "768", "client", TURNS)

    def end(self):
        for child in self.children:
            child.kill()
            child.wait()
        self.folder.cleanup()


def awaits(count):
    return "primary desk 1920 1080\n" + "".join(f"await {name(n)}\n" for n in range(1, count + 1))


def show(title, run, clients_there):
    times = [processor(client.pid) for client in clients_there]
    peaks = [peak(client.pid) for client in clients_there]
    print(
        f"    {title}: the server took {processor(run.server.pid):.2f} s of the processor and {peak(run.server.pid) / MIB:.1f} MiB;"
        f" each client at most {max(times):.2f} s and {max(peaks) / MIB:.1f} MiB",
        flush=True,
    )


# ---- how many frames a second


def frames(count):
    """Wheel lines for the first of that many clients."""
    script = awaits(count) + visits([1]) + "wheel 0 120\n" * WHEELS + "sleep 60000\n"
    run = Run(clients(count), script)
    joined = [run.join(n) for n in range(1, count + 1)]
    drain = subprocess.Popen(["cat"], stdin=run.server.stdout, stdout=subprocess.DEVNULL)
    first, begin, seen = joined[0].stdout, None, 0
    while seen < WHEELS:
        piece = first.read1(1 << 16)
        seen += piece.count(b"\n")
        if seen and begin is None:
            begin = time.monotonic()
    seconds = time.monotonic() - begin
    print(f"  {count} clients: {WHEELS / seconds:,.0f} frames a second to one of them", flush=True)
    show("after that", run, joined)
    run.end()
    drain.wait()


# ---- from a line of the script to the client's printed line


def delays(count):
    """Switches from client to client, a few milliseconds apart: the time from the server's line to the client's."""
    rounds = [1 + at % count for at in range(SWITCHES)] if count > 1 else [1 + at % 2 for at in range(SWITCHES)]
    screens = max(count, 2)
    script = awaits(screens) + "".join(f"sleep 20\n{visits([n])}" for n in rounds) + "sleep 60000\n"
    run = Run(clients(screens), script)
    joined = {run.join(n).stdout: n for n in range(1, screens + 1)}
    serials, sent, found = {}, {}, []
    poll = [run.server.stdout, *joined]
    for stream in poll:
        os.set_blocking(stream.fileno(), False)
    rest = {stream: b"" for stream in poll}
    while len(found) < SWITCHES * 9 // 10:
        ready, _, _ = select.select(poll, [], [], 10)
        if not ready:
            break
        now = time.monotonic()
        for stream in ready:
            *lines, rest[stream] = (rest[stream] + (stream.read() or b"")).split(b"\n")
            for words in (line.decode().split() for line in lines):
                if stream is run.server.stdout and words[0] == "join":
                    serials[words[1]] = words[2]
                elif stream is run.server.stdout and words[0] == "send" and words[2] == "CINN":
                    sent.setdefault((serials[words[1]], words[5]), now)
                elif words[0] == "enter" and (name(joined[stream]), words[3]) in sent:
                    found.append(1000 * (now - sent[name(joined[stream]), words[3]]))
    if found:
        ordered = sorted(found)
        print(
            f"  {screens} clients: {statistics.median(ordered):.2f} ms from a switch to the client's line, as a median;"
            f" 99 of 100 within {ordered[len(ordered) * 99 // 100]:.2f} ms",
            flush=True,
        )
    run.end()


# ---- at rest


def idle():
    """Three clients that have joined and do nothing."""
    run = Run(clients(3), awaits(3) + "sleep 3600000\n")
    joined = [run.join(n) for n in range(1, 4)]
    time.sleep(2)
    before = processor(run.server.pid)
    time.sleep(IDLE_SECONDS)
    share = (processor(run.server.pid) - before) / IDLE_SECONDS
    print(f"  at rest with 3 clients the server takes {100 * share:.2f} % of a processor", flush=True)
    run.end()


# ---- peers that don't read


def stuck():
    """Two queues of clipboards for each of 61 peers that read nothing, and a client that goes on."""
    count = MOST_SCREENS - 1
    source, living = count, count - 1
    others = range(1, living)
    keys = f"\tkeystroke(\\u{FIRST_KEY:04X}) = switchToScreen(desk)\n"
    again = f"key down {FIRST_KEY} 1\nkey up 1\n"
    spread = "".join(f"sleep 1\n{visits([n])}" for n in others)
    script = awaits(count) + f"sleep 5000\n{spread}{visits([living])}{again}" * 2 + "sleep 60000\n"
    run = Run(clients(count, FORGETFUL + keys), script)
    drain = subprocess.Popen(["cat"], stdin=run.server.stdout, stdout=subprocess.DEVNULL)
    peers = {}
    for n in [*others, source]:
        peers[n] = socket.create_connection((HOST, int(run.port)))
        peers[n].sendall(bytes.fromhex(hello(6, name(n)) + info(1024, 768)))
    client = run.join(living)
    data = b"x" * CLIP
    for sequence in (0, count):
        time.sleep(2 if sequence == 0 else 5)
        for clip in (0, 1):
            peers[source].sendall(bytes.fromhex(grab(clip, sequence) + whole(clip, sequence, data)))
    entered = 0
    while entered < 2:
        entered += client.stdout.readline().startswith(b"enter")
    time.sleep(2)
    print(f"  {len(peers) - 1} peers that read nothing: the server has {peak(run.server.pid) / MIB:.0f} MiB at its peak", flush=True)
    print("    a client beside them was entered and left meanwhile", flush=True)
    run.end()
    drain.wait()


def main():
    if not os.access(PROGRAM, os.X_OK):
        print("the program isn't built: run ./synergy-share once", file=sys.stderr)
        return 1
    for count in (1, 8, MOST_SCREENS - 1):
        frames(count)
        delays(count)
    idle()
    stuck()
    return 0


if __name__ == "__main__":
    sys.exit(main())
