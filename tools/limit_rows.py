"""Rows for `replay` at the limits of texts and queues. The texts are made here, since they are long.

None of the logs is copied from a run: each follows from docs/machine.md and docs/scripts.md.
"""

from row_texts import *

MOST_LINES = 1_000_000
MOST_SCRIPT = 16 << 20
MOST_TRACE = 64 << 20
MOST_QUEUED = 16 << 20
MOST_CLIP = 4 << 20
ONE_READ = 65_536

LONG_COPY = f"{BEGIN}copy 0 {'61' * MOST_CLIP}\n"


def lines_up_to(text, count):
    """The text with empty lines after it, that many lines in all."""
    return text + "\n" * (count - text.count("\n"))


def size_with(cost):
    """How many bytes a clipboard has of which the frames have that many."""
    return next(size for size in range(cost - 18 * 130 - 60, cost) if clip_size(size) == cost)


def clipboards(over):
    """Four clipboards whose frames fill a queue behind a CINN and a CCLP, and that many bytes more."""
    first = [b"x" * MOST_CLIP] * 3
    rest = MOST_QUEUED - 18 - 13 - 3 * clip_size(MOST_CLIP)
    return [*first, b"x" * (size_with(rest) + over)]


def filled(name, clips, script, trace, log, lines=""):
    """The cursor goes to a pad that takes nothing, and the tab sends the clipboards."""
    said = grab(0, 1) + "".join(whole(0, 1, data) for data in clips)
    reads = len(said) // 2 // ONE_READ
    return both(
        name,
        "motion 960 0\n" + script,
        "turn 0\nroom 1 0\n" + got(2, said) + turns(*[0] * reads) + trace,
        ENTERED + "local grab 0\nsend 1 CCLP 0 0\n" + log,
        options("\tclipboardSharingSize = 4096\n" + lines, THREE),
    )


def queued(name, over):
    """The queue is full to its last byte, or would get that many bytes more. The last frame, an end of 18 bytes, is
    left out then, and the pad is lost."""
    clips = clipboards(over)
    sent_all = "".join(sent_clip(1, 0, data) for data in clips)
    if over:
        sent_all = sent_all.removesuffix("send 1 DCLP 0 0 3 -\n") + f"part 1 slow\n{BACK}local clip 0 {clips[-1].hex()}\n"
    left = closed(TAKEN, TAKEN + MOST_QUEUED + over - 18 * bool(over))
    return filled(name, clips, "", "", sent_all + left + closed(TAKEN, serial=2))


def lost_in_a_list(name, actions, log):
    """The queue of the pad is full as a hotkey's list runs: its first key has no room, and the pad parts as the line
    ends, whatever came between."""
    clips = clipboards(0)
    sent_all = "".join(sent_clip(1, 0, data) for data in clips)
    back = f"{BACK}local clip 0 {clips[-1].hex()}\n"
    return filled(
        name,
        clips,
        "sleep 5\nkey down 61374 67\nkey up 67\n",
        turns(5),
        sent_all + log(back) + closed(TAKEN, TAKEN + MOST_QUEUED) + closed(TAKEN, serial=2),
        f"\tkeystroke(F1) = {actions}\n",
    )


ROWS = [
    row("a script of a million lines", lines_up_to(BEGIN, MOST_LINES)[len(BEGIN) :], JOIN, JOINED + closed(TAKEN)),
    refused(f"script {MOST_LINES + 1} TooLong", script=lines_up_to(BEGIN, MOST_LINES + 1)),
    row("a trace of a million lines", "", lines_up_to(JOIN, MOST_LINES), JOINED + closed(TAKEN)),
    refused(f"trace {MOST_LINES + 1} TooLong", trace=lines_up_to("turn 0\n", MOST_LINES + 1)),
    row("a script of 16 MiB", ("#" * (MOST_SCRIPT - len(BEGIN) - 1)) + "\n", JOIN, JOINED + closed(TAKEN)),
    refused("script 0 TooLong", script=BEGIN + "#" * (MOST_SCRIPT - len(BEGIN) + 1)),
    row("a trace of 64 MiB", "", JOIN + "#" * (MOST_TRACE - len(JOIN)), JOINED + closed(TAKEN)),
    refused("trace 0 TooLong", trace=JOIN + "#" * (MOST_TRACE - len(JOIN) + 1)),
    row("the longest copy is too long to be shared", LONG_COPY[len(BEGIN) :], JOIN + turns(0), JOINED + closed(TAKEN)),
    refused("script 3 BadHex", script=f"{BEGIN}copy 0 {'61' * (MOST_CLIP + 1)}\n"),
    queued("a queue that is full to its last byte", 0),
    queued("a frame too much for a queue", 1),
    lost_in_a_list(
        "a pad is lost within a hotkey's list",
        "keystroke(a), keystroke(b)",
        lambda back: "part 1 slow\n" + back,
    ),
    lost_in_a_list(
        "a hotkey's list goes on past a loss, on the screen that it entered",
        "keystroke(a), switchToScreen(desk), keystroke(b)",
        lambda back: back + "local key down 98 61441 0\nlocal key up 98 61441\npart 1 slow\n",
    ),
]
