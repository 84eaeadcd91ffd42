"""What the rows for `replay` are written with: configurations, traces, frames, and lines of the log."""

from typing import NamedTuple


class Row(NamedTuple):
    name: str
    config: bytes
    script: bytes
    trace: bytes
    log: bytes
    code: int = 0
    line: str = ""


# ---- configurations

DESKS = """section: screens
\tdesk:
\tpad:
end
section: links
\tdesk:
\t\tright = pad
\tpad:
\t\tleft = desk
end
"""
# A pad to the right of the desk, and a tab to its left.
THREE = """section: screens
\tdesk:
\tpad:
\ttab:
end
section: links
\tdesk:
\t\tright = pad
\t\tleft = tab
\tpad:
\t\tleft = desk
\ttab:
\t\tright = desk
end
"""


def options(text, config=DESKS):
    return config + f"section: options\n{text}end\n"


# ---- frames, in hex


def frame(code, fields=""):
    body = code.encode("ascii").hex() + fields.replace(" ", "")
    return f"{len(body) // 2:08x}{body}"


def hello(minor, name):
    return frame("Synergy", f"0001{minor:04x}{len(name):08x}" + name.encode().hex())


def info(w, h):
    return frame("DINF", f"0000 0000 {w:04x} {h:04x} 0000 {w // 2:04x} {h // 2:04x}")


def grab(clip, sequence):
    return frame("CCLP", f"{clip:02x} {sequence:08x}")


def part(clip, sequence, mark, data):
    return frame("DCLP", f"{clip:02x} {sequence:08x} {mark:02x} {len(data):08x} {data.hex()}")


def start(clip, sequence, size):
    return part(clip, sequence, 1, str(size).encode())


def chunk(clip, sequence, data):
    return part(clip, sequence, 2, data)


def end(clip, sequence):
    return part(clip, sequence, 3, b"")


def pieces(data):
    return [data[at : at + 32_768] for at in range(0, len(data), 32_768)]


def whole(clip, sequence, data):
    return start(clip, sequence, len(data)) + "".join(chunk(clip, sequence, piece) for piece in pieces(data)) + end(clip, sequence)


HELLO = hello(6, "pad")
INFO = info(1024, 768)

# ---- scripts and traces

BEGIN = "primary desk 1920 1080\nawait pad\n"
BEGIN_BOTH = BEGIN + "await tab\n"
# The pad connects, says who it is, and says what its screen is.
JOIN = f"turn 0\njoin 1\nturn 0\ngot 1 {HELLO}\nturn 0\ngot 1 {INFO}\n"
# The pad as 1, and beside it the tab as 2.
JOIN_BOTH = (
    "turn 0\njoin 1\njoin 2\n"
    f"turn 0\ngot 1 {HELLO}\ngot 2 {hello(6, 'tab')}\n"
    f"turn 0\ngot 1 {INFO}\ngot 2 {INFO}\n"
)


def turns(*moments):
    return "".join(f"turn {moment}\n" for moment in moments)


def got(serial, data, moment=0):
    return f"turn {moment}\ngot {serial} {data}\n"


# ---- lines of the log


def greeted(serial):
    return f"open {serial}\nsend {serial} Synergy 1 6\n"


def sent(serial, words="0"):
    """The acknowledgement, the reset and the options that a screen gets as it joins."""
    return f"send {serial} CIAK\nsend {serial} CROP\nsend {serial} DSOP {words}\n"


def joined(words="0"):
    return greeted(1) + "send 1 QINF\njoin 1 pad\n" + sent(1, words)


JOINED = joined()
JOINED_BOTH = greeted(1) + greeted(2) + "send 1 QINF\nsend 2 QINF\njoin 1 pad\n" + sent(1) + "join 2 tab\n" + sent(2)
# The cursor leaves the desk in the middle of its right side.
ENTERED = "local leave\nsend 1 CINN 0 384 1 0\n"
BACK = "local enter 960 540 2 0\n"
TAKEN = 51  # bytes of the frames up to the options


def closed(taken, queued=None, serial=1):
    return f"closed {serial} {taken} {taken if queued is None else queued}\n"


def sent_clip(serial, clip, data):
    """The lines of a clipboard that a screen is sent."""
    line = f"send {serial} DCLP {clip} 0 "
    return (
        f"{line}1 {str(len(data)).encode().hex()}\n"
        + "".join(f"{line}2 {piece.hex()}\n" for piece in pieces(data))
        + f"{line}3 -\n"
    )


def clip_size(size):
    """How many bytes the frames of a clipboard of that size have: those of its start, its chunks and its end."""
    return 18 + len(str(size)) + size + 18 * -(-size // 32_768) + 18


# ---- rows


def row(name, script, trace, log, config=DESKS, begin=BEGIN, **ends):
    texts = (text.encode() for text in (config, begin + script, trace, log))
    return Row(name, *texts, **ends)


def both(name, script, trace, log, config=THREE):
    """A row in which the pad and the tab have joined."""
    return row(name, script, JOIN_BOTH + trace, JOINED_BOTH + log, config, BEGIN_BOTH)


def refused(line, script=BEGIN, trace="turn 0\n", config=DESKS):
    return Row(line, config.encode(), script.encode(), trace.encode(), b"", 1, line)
