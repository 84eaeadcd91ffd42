#!/usr/bin/env python3
"""Gives configurations to the command `check`, and prints how fast it reads and prints them and in how much memory.

    bench/config.py

Build the program first, by running ./synergy-share once. Nothing here passes or fails: the exit code is
0 wherever the program could be run.
"""

import os
import sys
import tempfile

from frames import PROGRAM, Run, show

KIB = 1 << 10
MOST = 1 << 20
SMALL, LARGE = 64 * KIB, MOST
RUNS = 10
SIDES = ("left", "right", "up", "down")
FILLING = (
    "\t# a comment, as people write them between their options\n",
    "\theartbeat = 5000\n",
    "\tswitchCorners = none +top-left +bottom-right  # two of the corners\n",
    "\tswitchDelay=250\n",
    "\n",
)


def name(number):
    return f"screen-{number}.office.example"


def section(title, lines):
    yield f"section: {title}\n"
    yield from lines
    yield "end\n"


def screens(count):
    for number in range(count):
        yield f"\t{name(number)}:\n"
        yield "\t\tswitchCornerSize = 20\n"


def aliases(count, each):
    for number in range(count):
        yield f"\t{name(number)}:\n"
        for k in range(each):
            yield f"\t\talias-{number}-{k}\n"


def links(count, parts):
    """Every side of every screen in so many parts, each with a link."""
    step = 100 // parts
    for number in range(count):
        yield f"\t{name(number)}:\n"
        for side in SIDES:
            for at in range(0, 100, step):
                yield f"\t\t{side}({at},{at + step}) = {name((number + 1) % count)}({at},{at + step})\n"


def hotkeys(count, each):
    """Hotkeys of so many actions on each of their lists. Every key of an action has its own number, up to 256."""
    for number in range(count):
        actions = ", ".join(f"keyDown(Control+Alt+\\u{0x1000 + (number + k) % 256:04X})" for k in range(each))
        yield f"\tkeystroke(Shift+\\u{0x2000 + number:04X}) = {actions}; {actions}\n"


def filling(size):
    """Comments and repeated options, no more than so many bytes."""
    while True:
        for line in FILLING:
            size -= len(line)
            if size < 0:
                return
            yield line


def of_size(size):
    """A few screens with aliases and links, and options and comments up to so many bytes."""
    head = "".join(
        [
            *section("screens", screens(8)),
            *section("aliases", aliases(8, 2)),
            *section("links", links(8, 2)),
        ]
    )
    frame = "".join(section("options", ()))
    return head + "".join(section("options", filling(size - len(head) - len(frame))))


def full():
    """As many screens, aliases and links as there may be."""
    return "".join(
        [
            *section("screens", screens(64)),
            *section("aliases", aliases(64, 4)),
            *section("links", links(64, 4)),
        ]
    )


def full_of_hotkeys():
    """As many hotkeys, actions and keys of actions as there may be."""
    return "".join(section("options", hotkeys(256, 8)))


def checked(text):
    """The quickest of some runs on a file of that text, with the peak of all of them, and the least time that the
    processor took."""
    with tempfile.NamedTemporaryFile() as file, open(os.devnull, "rb") as nothing:
        file.write(text.encode("ascii"))
        file.flush()
        runs = [Run(["check", file.name], nothing) for _ in range(RUNS)]
    quickest = min(runs, key=lambda run: run.seconds)
    quickest.peak = max(run.peak for run in runs)
    return quickest, min(run.processor for run in runs)


def main():
    if not os.access(PROGRAM, os.X_OK):
        print("the program isn't built: run ./synergy-share once", file=sys.stderr)
        return 1
    taken = {}
    for title, text in [
        ("nothing", ""),
        ("64 KiB", of_size(SMALL)),
        ("1 MiB", of_size(LARGE)),
        ("1,024 links, 256 aliases", full()),
        ("all hotkeys", full_of_hotkeys()),
    ]:
        run, taken[title] = checked(text)
        show(title, len(text), run)
    small, large = (max(taken[title] - taken["nothing"], 1e-6) for title in ("64 KiB", "1 MiB"))
    print(
        f"  1 MiB takes {large / small:.1f} times as long as 64 KiB"
        f" ({large:.4f} s, {small:.4f} s of the processor beside the start), and is {LARGE // SMALL} times as long a text"
    )
    return 0


if __name__ == "__main__":
    sys.exit(main())
