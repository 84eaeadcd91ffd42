#!/usr/bin/env python3
"""Feeds large streams of frames to the program, and prints how fast it takes them and in how much memory.

    bench/frames.py [WORDS ..]

Each WORDS is a command in one argument, as "show server" or inject; without any, these two are
measured. If rustc is here, bench/yardstick.rs is compiled, and the user time of the commands is compared
with that of this plain Rust program on the same streams, in the same run. Build the program first, by
running ./synergy-share once. Nothing here passes or fails: the exit code is 0 if the program could be run.
"""

import filecmp
import os
import pathlib
import random
import shutil
import struct
import subprocess
import sys
import tempfile
import time

TOP = pathlib.Path(__file__).resolve().parent.parent
PROGRAM = TOP / "crates" / "synergy_share" / "out" / "synergy_share"
YARDSTICK = TOP / "bench" / "yardstick.rs"
COMMANDS = ["show server", "inject"]
USAGE = 2
MIB = 1 << 20
CHUNK = 32_768
BODY_LIMIT = 4_194_304
TRICKLED_FRAMES = 20_000
COMPARED_SIZE = 20 * MIB
ROUNDS = 5


def frame(body):
    return struct.pack(">I", len(body)) + body


def motion(count):
    """DMMV frames, of 12 bytes each."""
    for n in range(count):
        yield frame(struct.pack(">4shh", b"DMMV", n % 1920, n % 1080))


def motion_of(size):
    return motion(size // 12)


def clipboard(size):
    """One clipboard of so many bytes: its start, chunks of 32,768 bytes, its end."""

    def part(mark, data):
        return frame(struct.pack(">4sBIBI", b"DCLP", 0, 1, mark, len(data)) + data)

    yield part(1, str(size).encode())
    for at in range(0, size, CHUNK):
        yield part(2, bytes(min(CHUNK, size - at)))
    yield part(3, b"")


def options():
    """One DSOP frame whose body is as long as a body may be."""
    count = (BODY_LIMIT - 8) // 4
    yield frame(struct.pack(">4sI", b"DSOP", count) + bytes(4 * count))


def toggled_key(draw, down, most):
    """A key of some button that goes down, or up where it is down."""
    button = draw.randrange(1, most)
    code, id = (b"DKUP", 97) if button in down else (b"DKDN", 97 + button % 26)
    down ^= {button}
    return struct.pack(">4sHHH", code, id, 0, button)


def moved(draw):
    return struct.pack(">4shh", b"DMMV", draw.randrange(1024), draw.randrange(768))


def mixed(draw, down):
    kind = draw.randrange(10)
    if kind < 6:
        return moved(draw)
    if kind < 7:
        return struct.pack(">4shh", b"DMWM", 0, 120)
    return b"CALV" if kind < 8 else toggled_key(draw, down, 100)


def session(body_of):
    """A server's stream of COMPARED_SIZE bytes at least: an entering, the messages that are drawn, a farewell."""
    draw, down = random.Random(1), set()
    size = 0
    yield frame(struct.pack(">4shhIH", b"CINN", 0, 384, 1, 0))
    while size < COMPARED_SIZE:
        piece = frame(body_of(draw, down))
        size += len(piece)
        yield piece
    yield frame(b"CBYE")


COMPARED = [
    ("motion", lambda: session(lambda draw, down: moved(draw))),
    ("mixed", lambda: session(mixed)),
    ("keys", lambda: session(lambda draw, down: toggled_key(draw, down, 200))),
]
STREAMS = [
    ("nothing", lambda: iter(())),
    ("a million DMMV", lambda: motion(1_000_000)),
    ("DCLP parts, 3 MiB", lambda: clipboard(3 * MIB)),
    ("one DSOP of 4 MiB", options),
]
GROWING = [("DMMV", motion_of), ("DCLP parts", clipboard)]


class Run:
    """One run of a program: its seconds, the processor's and of these the user's, its peak of memory, how it ended."""

    def __init__(self, words, feed, program=PROGRAM, output=subprocess.DEVNULL):
        """`feed` is a file at its beginning, or None for the motion stream one byte a write."""
        with tempfile.TemporaryFile() as told:
            begin = time.monotonic()
            child = subprocess.Popen(
                [program, *words],
                stdin=feed or subprocess.PIPE,
                stdout=output,
                stderr=told,
            )
            if feed is None:
                trickle(child.stdin)
            self.peak = 0
            ended = 0
            while not ended:
                self.peak = max(self.peak, peak_so_far(child.pid))
                time.sleep(0.0002)
                ended, status, usage = os.wait4(child.pid, os.WNOHANG)
            self.seconds = time.monotonic() - begin
            self.processor = usage.ru_utime + usage.ru_stime
            self.user = usage.ru_utime
            self.code = child.returncode = os.waitstatus_to_exitcode(status)
            told.seek(0)
            self.line = told.read().decode(errors="replace").strip()

    def ending(self):
        return f"{self.code} {self.line}".rstrip()


def peak_so_far(pid):
    """The most memory that a process held so far, in KiB; 0 once it ended.

    What `wait4` tells in the end is no less than the memory of this interpreter, which started it.
    """
    with open(f"/proc/{pid}/status", encoding="ascii") as lines:
        return next((int(line.split()[1]) for line in lines if line.startswith("VmHWM")), 0)


def trickle(pipe):
    """Writes the motion stream one byte a write, as far as the program takes it."""
    try:
        for piece in motion(TRICKLED_FRAMES):
            for at in range(len(piece)):
                os.write(pipe.fileno(), piece[at : at + 1])
    except BrokenPipeError:
        pass
    finally:
        pipe.close()


def fed(words, pieces):
    """The size of a stream, and the run on it. The stream comes from a file, so that only the program's time counts."""
    with tempfile.TemporaryFile() as stream:
        for piece in pieces:
            stream.write(piece)
        size = stream.tell()
        stream.seek(0)
        return size, Run(words, stream)


def show(name, size, run):
    rate = size / run.seconds if run.seconds > 0 else 0
    peak = f"{run.peak:,} KiB" if run.peak else "unseen"
    print(
        f"  {name:<22} {size:>11,} bytes {run.seconds:>8.3f} s {rate:>14,.0f} bytes/s"
        f"   peak {peak:>10}   ended {run.ending()}",
        flush=True,
    )


def measure(command):
    words = command.split()
    size, first = fed(words, iter(()))
    if first.code == USAGE:
        print(f"{command}: not there yet")
        return
    print(f"{command}:")
    for name, pieces in STREAMS:
        show(name, *fed(words, pieces()))
    show("DMMV, a byte a write", 12 * TRICKLED_FRAMES, Run(words, None))
    for name, sized in GROWING:
        print(f"  {name}: {ratio(words, sized, first.ending())}", flush=True)


def ratio(words, sized, whole):
    """How much longer ten times the stream takes, where it is read to its end, as `whole` tells."""
    taken = []
    for mebibytes in (1, 10):
        runs = [fed(words, sized(mebibytes * MIB))[1] for _ in range(3)]
        if runs[0].ending() != whole:
            return f"no ratio, since it ended {runs[0].ending()}"
        taken.append(max(min(run.processor for run in runs), 1e-6))
    small, large = taken
    return f"10 MiB take {large / small:.1f} times as long as 1 MiB ({large:.3f} s, {small:.3f} s of the processor)"


def compare(commands):
    """Prints the user time of each command as a multiple of the yardstick's, on the same streams and in turn."""
    compiler = shutil.which("rustc")
    if compiler is None:
        print("rustc is not here, so there are no ratios to plain Rust")
        return
    with tempfile.TemporaryDirectory() as folder:
        yardstick = pathlib.Path(folder) / "yardstick"
        if subprocess.run([compiler, "-O", "--edition", "2021", "-o", yardstick, YARDSTICK]).returncode:
            print("bench/yardstick.rs does not compile with this rustc, so there are no ratios to plain Rust")
            return
        print(f"user time, best of {ROUNDS}, beside the plain Rust of bench/yardstick.rs:")
        for name, pieces in COMPARED:
            stream = pathlib.Path(folder) / name
            stream.write_bytes(b"".join(pieces()))
            for command in commands:
                print(f"  {name:<8} {beside(command, yardstick, stream)}", flush=True)


def beside(command, yardstick, stream):
    """How one command compares with the yardstick on a stream."""
    runs = {"ours": (PROGRAM, command.split()), "plain": (yardstick, [])}
    best = dict.fromkeys(runs, float("inf"))
    for _ in range(ROUNDS):
        for name, (program, words) in runs.items():
            with open(stream, "rb") as feed, open(stream.with_suffix(f".{name}"), "wb") as output:
                best[name] = max(min(best[name], Run(words, feed, program, output).user), 1e-6)
    size = stream.stat().st_size / 1e6
    times = ", ".join(f"{name} {best[name]:.3f} s ({size / best[name]:.0f} MB/s)" for name in runs)
    equal = ""
    if command == "inject":
        same = filecmp.cmp(stream.with_suffix(".ours"), stream.with_suffix(".plain"), shallow=False)
        equal = ", equal output" if same else ", DIFFERENT output"
    return f"{command:<12} {times}: {best['ours'] / best['plain']:.2f} times{equal}"


def main():
    if not os.access(PROGRAM, os.X_OK):
        print("the program isn't built: run ./synergy-share once", file=sys.stderr)
        return 1
    commands = sys.argv[1:] or COMMANDS
    for command in commands:
        measure(command)
    compare(commands)
    return 0


if __name__ == "__main__":
    sys.exit(main())
