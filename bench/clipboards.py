#!/usr/bin/env python3
"""Feeds clipboards in parts to the command `inject`, and prints how fast it prints them and in how much memory.

    bench/clipboards.py

Build the program first, by running ./synergy-share once. Nothing here passes or fails: the exit code is
0 if the program could be run.
"""

import os
import sys

from frames import MIB, PROGRAM, clipboard, fed, show

# The most bytes of one clipboard, and of a small one.
MOST, SMALL = 4 * MIB, 1 << 10
SIZES = (32 * MIB, 64 * MIB)
RUNS = 3


def clipboards(each, total):
    """Clipboards of so many bytes each, one after another, of so many bytes in all."""
    one = b"".join(clipboard(each))
    for _ in range(total // each):
        yield one


def quickest(each, total):
    """The size of a stream of clipboards, and the quickest of some runs on it, with the peak of all of them."""
    runs = [fed(["inject"], clipboards(each, total)) for _ in range(RUNS)]
    size, best = min(runs, key=lambda run: run[1].processor)
    best.peak = max(run.peak for _, run in runs)
    return size, best


def measure(title, each):
    taken = []
    for total in SIZES:
        size, run = quickest(each, total)
        show(f"{title}, {total // MIB} MiB", size, run)
        taken.append(max(run.processor, 1e-6))
    half, whole = taken
    print(
        f"  {title}: {size / 1e6 / whole:.1f} MB/s of the processor;"
        f" twice the size takes {whole / half:.2f} times as long ({whole:.3f} s, {half:.3f} s)",
        flush=True,
    )


def main():
    if not os.access(PROGRAM, os.X_OK):
        print("the program isn't built: run ./synergy-share once", file=sys.stderr)
        return 1
    show("nothing", *fed(["inject"], iter(())))
    measure("4 MiB each", MOST)
    measure("1 KiB each", SMALL)
    return 0


if __name__ == "__main__":
    sys.exit(main())
