"""Rows for `replay` on clipboards: a configuration, a script, a trace, and the log that the rules of docs/machine.md
give.

None of the logs is copied from a run: each was worked out by hand.
"""

from row_texts import *

SMALL = options("\tclipboardSharingSize = 1\n")
# The most bytes of a clipboard, unless the configuration says otherwise.
USUAL_LIMIT = 3_072 * 1_024
GRABBED = "local grab 0\n"
TO_THE_TAB = "local leave\nsend 2 CINN 1023 384 1 0\n"


def spelled(data):
    return data.hex() or "-"


def copies(name, script, log, config=DESKS, words="0"):
    """A row with a script alone: its log begins after the pad has joined."""
    return row(name, script, JOIN + turns(0), joined(words) + log, config)


def grabs(name, data, log, config=DESKS, words="0"):
    """A row in which the pad grabs the first clipboard, and then sends that."""
    grabbed = 0 if words != "0" else 1
    return row(name, "", JOIN + got(1, grab(0, 0)) + got(1, data), joined(words) + GRABBED * grabbed + log, config)


X = whole(0, 0, b"x")
KNOWN = "local clip 0 78\n"

ROWS = [
    copies(
        "a copy goes along",
        "copy 0 616263\nmotion 960 0\n",
        "send 1 CCLP 0 0\n" + ENTERED + "send 1 DCLP 0 0 1 33\nsend 1 DCLP 0 0 2 616263\nsend 1 DCLP 0 0 3 -\n" + closed(140),
    ),
    copies(
        "an empty copy",
        "copy 0 -\nmotion 960 0\n",
        "send 1 CCLP 0 0\n" + ENTERED + "send 1 DCLP 0 0 1 30\nsend 1 DCLP 0 0 3 -\n" + closed(119),
    ),
    copies(
        "both clipboards, the first before the second",
        "copy 1 62\ncopy 0 61\nmotion 960 0\n",
        "send 1 CCLP 1 0\nsend 1 CCLP 0 0\n" + ENTERED + sent_clip(1, 0, b"a") + sent_clip(1, 1, b"b") + closed(207),
    ),
    copies(
        "a copy while the pad is active",
        "motion 960 0\ncopy 0 61\n",
        ENTERED + "send 1 CCLP 0 0\n" + sent_clip(1, 0, b"a") + closed(51 + 18 + 13 + 56),
    ),
    copies(
        "no clipboards are shared",
        "copy 0 616263\nmotion 960 0\n",
        ENTERED + closed(77),
        options("\tclipboardSharing = false\n"),
        "2 1129074771 0",
    ),
    copies("a kilobyte, and one byte more", f"copy 0 {'61' * 1_025}\ncopy 1 {'61' * 1_024}\n", "send 1 CCLP 1 0\n" + closed(64), SMALL),
    copies(
        "the usual limit, and one byte more",
        f"copy 0 {'61' * (USUAL_LIMIT + 1)}\ncopy 1 {'61' * USUAL_LIMIT}\n",
        "send 1 CCLP 1 0\n" + closed(64),
    ),
    copies("nothing but nothing", "copy 0 61\ncopy 1 -\n", "send 1 CCLP 1 0\n" + closed(64), options("\tclipboardSharingSize = 0\n")),
    # Where the pad is entered its clipboard isn't sent back to it.
    row(
        "a client's clipboard",
        "motion 960 0\nmotion -1 0\nsleep 5\nmotion 1 0\n",
        JOIN + turns(0) + got(1, grab(0, 1) + whole(0, 1, b"x")) + got(1, grab(0, 0) + grab(0, 3)) + turns(5),
        JOINED
        + ENTERED
        + "send 1 COUT\nlocal enter 1919 540 2 0\n"
        + GRABBED
        + KNOWN
        + "local leave\nsend 1 CINN 0 384 3 0\n"
        + closed(51 + 18 + 8 + 18),
    ),
    both(
        "a client's clipboard goes along to the next",
        "sleep 5\nmotion -961 0\n",
        turns(0) + got(1, grab(0, 0) + X) + turns(5),
        GRABBED + "send 2 CCLP 0 0\n" + KNOWN + TO_THE_TAB + sent_clip(2, 0, b"x") + closed(51) + closed(51 + 13 + 18 + 56, serial=2),
    ),
    both(
        "an owner that leaves while its clipboard is on the way",
        "sleep 5\nmotion -961 0\n",
        turns(0) + got(1, grab(0, 0) + start(0, 0, 1)) + "turn 0\nend 1\n" + turns(5),
        GRABBED + "send 2 CCLP 0 0\npart 1 ended\n" + closed(51) + TO_THE_TAB + closed(51 + 13 + 18, serial=2),
    ),
    both(
        "an owner that leaves its clipboard behind",
        "sleep 5\nmotion -961 0\n",
        turns(0) + got(1, grab(0, 0) + X) + "turn 0\nend 1\n" + turns(5),
        GRABBED
        + "send 2 CCLP 0 0\n"
        + KNOWN
        + "part 1 ended\n"
        + closed(51)
        + TO_THE_TAB
        + sent_clip(2, 0, b"x")
        + closed(51 + 13 + 18 + 56, serial=2),
    ),
    # The whole that the pad ends is no longer its own to send.
    both(
        "a grab between another's start and end",
        "",
        got(1, grab(0, 0) + start(0, 0, 1)) + got(2, grab(0, 0)) + got(1, chunk(0, 0, b"x") + end(0, 0)) + got(2, whole(0, 0, b"y")),
        GRABBED + "send 2 CCLP 0 0\n" + GRABBED + "send 1 CCLP 0 0\nlocal clip 0 79\n" + closed(64) + closed(64, serial=2),
    ),
    grabs("a whole after one that is too short", start(0, 0, 2) + chunk(0, 0, b"x") + end(0, 0) + X, KNOWN + closed(51)),
    grabs("a whole after one that is too long", start(0, 0, 1) + chunk(0, 0, b"xy") + end(0, 0) + X, KNOWN + closed(51)),
    grabs("a whole after a size that is no number", part(0, 0, 1, b"1x") + chunk(0, 0, b"y") + end(0, 0) + X, KNOWN + closed(51)),
    grabs("a whole after a size of eleven digits", part(0, 0, 1, b"00000000001") + chunk(0, 0, b"y") + end(0, 0) + X, KNOWN + closed(51)),
    grabs("a size of ten digits", part(0, 0, 1, b"0000000001") + chunk(0, 0, b"x") + end(0, 0), KNOWN + closed(51)),
    grabs("a whole after a chunk of another sequence", start(0, 0, 1) + chunk(0, 1, b"y") + end(0, 0) + X, KNOWN + closed(51)),
    grabs("a whole after a start within a start", start(0, 0, 3) + X, KNOWN + closed(51)),
    grabs("a whole after a chunk without a start", chunk(0, 0, b"y") + end(0, 0) + X, KNOWN + closed(51)),
    grabs("an empty whole", whole(0, 0, b""), "local clip 0 -\n" + closed(51)),
    grabs("the other clipboard between the parts", start(0, 0, 1) + grab(1, 0) + start(1, 0, 1) + chunk(0, 0, b"x") + end(0, 0), "local grab 1\n" + KNOWN + closed(51)),
    grabs("a size past the limit", start(0, 0, 1_025) + chunk(0, 0, b"x" * 1_025) + end(0, 0), closed(51), SMALL),
    grabs("a size at the limit", whole(0, 0, b"x" * 1_024), f"local clip 0 {'78' * 1_024}\n" + closed(51), SMALL),
    grabs("a clipboard that is not shared", X, closed(59), options("\tclipboardSharing = false\n"), "2 1129074771 0"),
    grabs(
        "a third clipboard, where none is shared",
        grab(2, 0),
        "send 1 EBAD\npart 1 bad 57 clip\n" + closed(67),
        options("\tclipboardSharing = false\n"),
        "2 1129074771 0",
    ),
]
