#!/usr/bin/env python3
"""Runs the server over traces, and prints how many lines and happenings it takes a second and in how much memory.

    bench/replay.py

Build the program first, by running ./synergy-share once. Nothing here passes or fails: the exit code is
0 if the program could be run.
"""

import os
import pathlib
import sys
import tempfile

from frames import MIB, PROGRAM, Run

sys.path.insert(0, str(pathlib.Path(__file__).resolve().parent.parent / "tools"))

from row_texts import BEGIN, DESKS, HELLO, INFO, JOIN, frame, grab, hello, options, whole

RUNS = 3
LINES = 999_000
TURNS = 200_000
ALIVE = frame("CALV")
MOST_SCREENS = 64
# Two clipboards of this size twice over come near to a queue's limit of 16 MiB.
CLIP = 4 * MIB - 4_096
FIRST_KEY = 0x1000
FORGETFUL = "\theartbeat = 0\n\tclipboardSharingSize = 4096\n"


def replayed(config, script, trace, runs=RUNS):
    """The quickest of some runs, with the peak of all of them."""
    with tempfile.TemporaryDirectory() as folder, open(os.devnull, "rb") as nothing:
        names = []
        for name, text in [("conf", config), ("script", script), ("trace", trace)]:
            names.append(os.path.join(folder, name))
            with open(names[-1], "w", encoding="ascii") as file:
                file.writelines(text if not isinstance(text, str) else [text])
        made = [Run(["replay", *names], nothing) for _ in range(runs)]
    best = min(made, key=lambda run: run.processor)
    best.peak = max(run.peak for run in made)
    return best


def show(title, count, what, run):
    print(
        f"  {title}: {count / max(run.processor, 1e-6):,.0f} {what} a second of the processor"
        f" ({run.processor:.2f} s, {run.peak / 1024:.1f} MiB at its peak, code {run.code})",
        flush=True,
    )


def compare(title, what, count, texts):
    """The same work of half the size and of the whole size."""
    half, full = (replayed(*texts(size)) for size in (count // 2, count))
    show(title, count, what, full)
    print(f"    twice the size takes {full.processor / max(half.processor, 1e-6):.2f} times as long", flush=True)


# ---- texts that are read and not run


def filled(lines, size):
    """The lines over and over, that many bytes of them and no more."""
    return lines * (size // len(lines))


def unrun_script(size):
    """A script of that size whose lines wait for a screen that never joins."""
    return DESKS, BEGIN + filled("key down 61374 200\nkey repeat 65535 200\nkey up 200\nmotion -12345 32767\n", size), "turn 0\n"


def unread_trace(size):
    """A trace of that size with long lines for a connection that never joins."""
    return DESKS, BEGIN, "turn 0\n" + filled(f"got 1 {'5a' * 262_144}\n", size)


def compare_reading(title, small, large, texts):
    runs = [replayed(*texts(size)) for size in (small, large)]
    show(title, large, "bytes", runs[1])
    less, more = (max(run.processor, 1e-6) for run in runs)
    print(f"    {large // small} times the size takes {more / less:.1f} times as long", flush=True)


# ---- one client


def script_lines(count):
    """That many lines for the screen of the pad."""
    return DESKS, BEGIN + "motion 960 0\n" + "wheel 0 120\n" * count, JOIN + "turn 0\n"


def trace_turns(count):
    """That many turns, in each of which the pad says that it is alive."""
    return DESKS, BEGIN, JOIN + "".join(f"turn {at}\ngot 1 {ALIVE}\n" for at in range(count))


# ---- a row of clients


def name(number):
    return f"s{number}"


def clients(count, more=""):
    """A desk, and that many screens, each with a hotkey that switches to it."""
    names = "".join(f"\t{name(n)}:\n" for n in range(1, count + 1))
    keys = "".join(f"\tkeystroke(\\u{FIRST_KEY + n:04X}) = switchToScreen({name(n)})\n" for n in range(1, count + 1))
    return options(more + keys, f"section: screens\n\tdesk:\n{names}end\n")


def visits(numbers):
    return "".join(f"key down {FIRST_KEY + n} 1\nkey up 1\n" for n in numbers)


def join_all(count):
    numbers = range(1, count + 1)
    yield "turn 0\n" + "".join(f"join {n}\n" for n in numbers)
    yield "turn 0\n" + "".join(f"got {n} {hello(6, name(n))}\n" for n in numbers)
    yield "turn 0\n" + "".join(f"got {n} {INFO}\n" for n in numbers)


def crowd(turns):
    """As many clients as there may be, each of which says in each turn that it is alive."""
    count = MOST_SCREENS - 1
    script = "primary desk 1920 1080\n" + "".join(f"await {name(n)}\n" for n in range(1, count + 1))
    said = "".join(f"got {n} {ALIVE}\n" for n in range(1, count + 1))
    trace = "".join(join_all(count)) + "".join(f"turn {at}\n{said}" for at in range(turns))
    return clients(count), script, trace


def full_queues(pause):
    """One client sends both clipboards twice, and all others are entered after each and take nothing: all at one moment,
    or with so many milliseconds between two of them."""
    count = MOST_SCREENS - 1
    others = range(1, count)
    data = b"x" * CLIP
    sizes = sum(len(whole(clip, 0, data)) // 2 for clip in (0, 1))
    reads = "turn {0}\n" * (sizes // 65_536 + 2)
    home = f"key down {FIRST_KEY} 1\nkey up 1\n"
    spread = "".join((f"sleep {pause}\n" if pause else "") + visits([n]) for n in others)

    def trace():
        yield from join_all(count)
        yield "turn 0\n" + "".join(f"room {n} 0\n" for n in others)
        start = 1
        for sequence in (0, count):
            yield f"turn {start}\ngot {count} {grab(0, sequence)}{grab(1, sequence)}\n"
            for clip in (0, 1):
                yield f"got {count} {whole(clip, sequence, data)}\n"
            yield reads.format(start)
            last = start + 9 + pause * len(others)
            yield "".join(f"turn {at}\n" for at in range(start + 9, last + 1))
            start = last + 1

    script = "primary desk 1920 1080\n" + "".join(f"await {name(n)}\n" for n in range(1, count + 1))
    keys = f"\tkeystroke(\\u{FIRST_KEY:04X}) = switchToScreen(desk)\n"
    return clients(count, FORGETFUL + keys), script + f"sleep 10\n{spread}{home}" * 2, trace()


def main():
    if not os.access(PROGRAM, os.X_OK):
        print("the program isn't built: run ./synergy-share once", file=sys.stderr)
        return 1
    show("nothing", 0, "lines", replayed(DESKS, BEGIN, ""))
    compare_reading("reading a script of 16 MiB", MIB, 16 * MIB - MIB // 64, unrun_script)
    compare_reading("reading a trace of 64 MiB", 4 * MIB, 64 * MIB - MIB, unread_trace)
    compare("a script's lines, one client", "lines", LINES, script_lines)
    compare("turns of a trace, one client", "turns", TURNS, trace_turns)
    turns = TURNS // 50
    run = replayed(*crowd(turns))
    show(f"{MOST_SCREENS - 1} clients", turns * (MOST_SCREENS - 1), "messages", run)
    for pause, how in ((0, "at one moment"), (1, "one a millisecond")):
        run = replayed(*full_queues(pause), runs=1)
        show(f"{MOST_SCREENS - 2} queues of nearly 16 MiB, {how}", MOST_SCREENS - 2, "queues", run)
    return 0


if __name__ == "__main__":
    sys.exit(main())
