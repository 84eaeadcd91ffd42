"""Rows for `replay` on connections, motion, edges, gates and partings: a configuration, a script, a trace, and the
log that the rules of docs/machine.md give.

None of the logs is copied from a run: each was worked out by hand.
"""

from row_texts import *

# The keys of the pad's visit: 18 bytes enter it, 14 are a key's down or up, and 8 a farewell.
TYPED = "send 1 DKDN 97 0 38\nsend 1 DKUP 97 0 38\n"
# A connection with a hello of another version that takes nothing more; and a second one.
PARTING = "turn 0\njoin 1\nturn 0\nroom 1 0\ngot 1 " + hello(7, "pad") + "\n"
PARTED = greeted(1) + "send 1 EICV 1 6\npart 1 version\n"
SECOND = greeted(2)
GREET_BAD = "turn 0\njoin 1\nturn 0\ngot 1 "
# As many bytes as one read takes.
ONE_READ = 65_536


def corner(y):
    """From the middle of the desk to that row, and then past its right edge."""
    return f"motion 0 {y - 540}\nmotion 960 0\n"


# The upper half of the desk's right side leads to one screen, and the lower half to another.
HALVES = """section: screens
\tdesk:
\ta:
\tb:
end
section: links
\tdesk:
\t\tright(0,50) = a
\t\tright(50,100) = b
end
"""
JOIN_HALVES = (
    f"turn 0\njoin 1\njoin 2\nturn 0\ngot 1 {hello(6, 'a')}\ngot 2 {hello(6, 'b')}\nturn 0\ngot 1 {INFO}\ngot 2 {INFO}\n"
)
JOINED_HALVES = greeted(1) + greeted(2) + "send 1 QINF\nsend 2 QINF\njoin 1 a\n" + sent(1) + "join 2 b\n" + sent(2)
CORNERS = DESKS.replace("\tdesk:\n\tpad:", "\tdesk:\n\t\tswitchCorners = all\n\t\tswitchCornerSize = 20\n\tpad:")


def past(target):
    """To the right of the desk stands a screen that never joins, and to the right of that one the target."""
    return DESKS.replace("\tpad:\nend", "\tgone:\n\tpad:\nend").replace(
        "\t\tright = pad\n", f"\t\tright = gone\n\tgone:\n\t\tright = {target}\n"
    )


ROWS = [
    row("the pad joins", "", JOIN, JOINED + closed(TAKEN)),
    row(
        "a key on the pad, and goodbye",
        "motion 960 0\nkey down 97 38\nkey up 38\nquit\n",
        JOIN + turns(0),
        JOINED + ENTERED + TYPED + "send 1 CBYE\npart 1 bye\n" + BACK + closed(105),
    ),
    row("a pixel short of the edge", "motion 959 0\n", JOIN + turns(0), JOINED + "local move 1919 540\n" + closed(TAKEN)),
    row(
        "the pad's stream fails after 5 bytes",
        "motion 960 0\n",
        JOIN + "turn 0\nroom 1 5\nturn 0\nfail 1\n",
        JOINED + ENTERED + "part 1 failed\n" + BACK + closed(56, 69),
    ),
    row(
        "a button holds the cursor on its screen",
        "motion 959 0\nbutton down 1\nmotion 5000 0\nbutton up 1\nmotion 1 0\n",
        JOIN + turns(0),
        JOINED + "local move 1919 540\nlocal button down 1\nlocal move 1919 540\nlocal button up 1\n" + ENTERED + closed(69),
    ),
    row(
        "beats, and a silent pad's death",
        "",
        JOIN + turns(3000, 6000, 8999, 9000),
        JOINED + "send 1 CALV\nsend 1 CALV\npart 1 dead\n" + closed(67),
    ),
    row(
        "a delay before the switch",
        "motion 960 0\n",
        JOIN + turns(0, 249, 250),
        joined("2 1397970772 250") + "local move 1919 540\n" + ENTERED + closed(77),
        config=options("\tswitchDelay = 250\n"),
    ),
    row(
        "a hello of another version",
        "",
        GREET_BAD + hello(7, "pad") + "\n" + turns(0),
        greeted(1) + "send 1 EICV 1 6\npart 1 version\n" + closed(27),
    ),
    row(
        "a name that no screen has",
        "",
        GREET_BAD + hello(6, "nobody") + "\n" + turns(0),
        greeted(1) + "send 1 EUNK\npart 1 unknown\n" + closed(23),
    ),
    row(
        "a frame that is too long",
        "",
        GREET_BAD + "00000401\n" + turns(0),
        greeted(1) + "send 1 EBAD\npart 1 bad 0 toolong\n" + closed(23),
    ),
    row(
        "a screen without width",
        "",
        f"turn 0\njoin 1\nturn 0\ngot 1 {HELLO}\nturn 0\ngot 1 0000001244494e460000000000000300000000000180\n",
        greeted(1) + "send 1 QINF\n" + "send 1 EBAD\npart 1 size\n" + closed(31),
    ),
    row(
        "a name that is taken",
        "",
        JOIN + "turn 0\njoin 2\nturn 0\ngot 2 " + hello(6, "PAD") + "\n",
        JOINED + "open 2\nsend 2 Synergy 1 6\nsend 2 EBSY\npart 2 busy\n" + closed(23, serial=2) + closed(TAKEN),
    ),
    row("silent for not quite 30 seconds", "", "turn 0\njoin 1\n" + turns(29999), greeted(1) + closed(15)),
    row("silent for 30 seconds", "", "turn 0\njoin 1\n" + turns(30000), greeted(1) + "part 1 silent\n" + closed(15)),
    row("not quite the closing time", "", PARTING + "turn 4999\nturn 4999\njoin 2\n", PARTED + SECOND + closed(15, 27) + closed(15, serial=2)),
    row("the closing time", "", PARTING + "turn 5000\nturn 5000\njoin 2\n", PARTED + closed(15, 27) + SECOND + closed(15, serial=2)),
    row(
        "one connection too many",
        "",
        "turn 0\n" + "".join(f"join {n}\n" for n in range(1, 66)) + turns(0),
        "".join(greeted(n) for n in range(1, 65))
        + "open 65\npart 65 full\n"
        + closed(0, serial=65)
        + "".join(closed(15, serial=n) for n in range(1, 65)),
    ),
    row("every byte in a turn of its own", "", "turn 0\njoin 1\n" + "".join(got(1, (HELLO + INFO)[at : at + 2]) for at in range(0, 88, 2)), JOINED + closed(TAKEN)),
    row("nobody connects", "motion 960 0\n", "turn 0\n", ""),
    row("no trace", "motion 960 0\n", "", ""),
    row(
        "to the pad, and back over its edge",
        "motion 960 0\nmotion -5 3\n",
        JOIN + turns(0),
        JOINED + ENTERED + "send 1 COUT\nlocal enter 1919 544 2 0\n" + closed(77),
    ),
    row(
        "the pad's stream ends with a key down",
        "motion 960 0\nkey down 97 38\n",
        JOIN + turns(0) + "turn 0\nend 1\n",
        JOINED + ENTERED + "send 1 DKDN 97 0 38\npart 1 ended\n" + BACK + closed(83),
    ),
    # The pad comes back under a new serial, with the key still down in the script.
    row(
        "a pad that was lost joins again",
        "motion 960 0\nkey down 97 38\nsleep 10\nawait pad\nmotion 960 0\nkey up 38\n",
        JOIN + turns(0) + "turn 5\nend 1\nturn 6\njoin 2\n" + got(2, HELLO, 7) + got(2, INFO, 8) + turns(10),
        JOINED
        + ENTERED
        + "send 1 DKDN 97 0 38\npart 1 ended\n"
        + BACK
        + closed(83)
        + greeted(2)
        + "send 2 QINF\njoin 2 pad\n"
        + sent(2)
        + "local leave\nsend 2 CINN 0 384 3 0\nsend 2 DKUP 97 0 38\n"
        + closed(83, serial=2),
    ),
    both(
        "a bad frame of the pad leaves the tab joined",
        "sleep 5\nmotion -961 0\n",
        turns(0) + got(1, "00400001", 1) + turns(5),
        "send 1 EBAD\npart 1 bad 44 toolong\n" + closed(59) + "local leave\nsend 2 CINN 1023 384 1 0\n" + closed(69, serial=2),
    ),
    row("a length past the limit", "", JOIN + got(1, "00400001"), JOINED + "send 1 EBAD\npart 1 bad 44 toolong\n" + closed(59)),
    row(
        "a body of zeros as long as may be, not read to its end",
        "",
        JOIN + got(1, "00400000" + "00" * 4_194_304) + turns(*[0] * (4_194_304 // ONE_READ - 1)),
        JOINED + closed(TAKEN),
    ),
    row(
        "a body of zeros as long as may be",
        "",
        JOIN + got(1, "00400000" + "00" * 4_194_304) + turns(*[0] * (4_194_304 // ONE_READ)),
        JOINED + "send 1 EBAD\npart 1 bad 44 code\n" + closed(59),
    ),
    row(
        "the lower end of the upper half",
        "await b\nmotion 960 -1\n",
        JOIN_HALVES + turns(0),
        JOINED_HALVES + "local leave\nsend 1 CINN 0 767 1 0\n" + closed(69) + closed(TAKEN, serial=2),
        config=HALVES,
        begin="primary desk 1920 1080\nawait a\n",
    ),
    row(
        "the upper end of the lower half",
        "await b\nmotion 960 0\n",
        JOIN_HALVES + turns(0),
        JOINED_HALVES + "local leave\nsend 2 CINN 0 0 1 0\n" + closed(TAKEN) + closed(69, serial=2),
        config=HALVES,
        begin="primary desk 1920 1080\nawait a\n",
    ),
    row("through a screen that has not joined", "motion 960 0\n", JOIN + turns(0), JOINED + ENTERED + closed(69), config=past("pad")),
    row("through such a screen back to the desk", "motion 960 0\n", JOIN + turns(0), JOINED + "local move 1919 540\n" + closed(TAKEN), config=past("desk")),
    row(
        "beats of a second",
        "",
        JOIN + turns(1000, 2000, 3000),
        joined("2 1212240468 1000") + "send 1 CALV\nsend 1 CALV\npart 1 dead\n" + closed(75),
        config=options("\theartbeat = 1000\n"),
    ),
    row("the last row of the upper corner", corner(19), JOIN + turns(0), JOINED + "local move 960 19\nlocal move 1919 19\n" + closed(TAKEN), config=CORNERS),
    row("below the upper corner", corner(20), JOIN + turns(0), JOINED + "local move 960 20\nlocal leave\nsend 1 CINN 0 14 1 0\n" + closed(69), config=CORNERS),
    row("above the lower corner", corner(1059), JOIN + turns(0), JOINED + "local move 960 1059\nlocal leave\nsend 1 CINN 0 753 1 0\n" + closed(69), config=CORNERS),
    row("the first row of the lower corner", corner(1060), JOIN + turns(0), JOINED + "local move 960 1060\nlocal move 1919 1060\n" + closed(TAKEN), config=CORNERS),
    row(
        "a pad with another shift key",
        "",
        JOIN,
        joined("2 1296909907 2") + closed(59),
        config=DESKS.replace("\tpad:\nend", "\tpad:\n\t\tshift = ctrl\nend"),
    ),
    row(
        "a second tap on the edge",
        "motion 960 0\nmotion -1 0\nmotion 5 0\n",
        JOIN + turns(0),
        joined("2 1397970004 500") + "local move 1919 540\nlocal move 1918 540\n" + ENTERED + closed(77),
        config=options("\tswitchDoubleTap = 500\n"),
    ),
    row(
        "a second tap that comes too late",
        "motion 960 0\nmotion -1 0\nsleep 501\nmotion 5 0\n",
        JOIN + turns(0, 501),
        joined("2 1397970004 500") + "local move 1919 540\nlocal move 1918 540\nlocal move 1919 540\n" + closed(59),
        config=options("\tswitchDoubleTap = 500\n"),
    ),
    # Both screens lead to each other over their right sides, so that the kept side is the same.
    row(
        "a tap before a switch does not count after it",
        "motion 960 0\nmotion -1 0\nmotion 5 0\nmotion 1024 0\n",
        JOIN + turns(0),
        joined("2 1397970004 500") + "local move 1919 540\nlocal move 1918 540\n" + ENTERED + "send 1 DMMV 1023 384\n" + closed(59 + 18 + 12),
        config=options("\tswitchDoubleTap = 500\n", DESKS.replace("left = desk", "right = desk")),
    ),
    row(
        "past both edges, where nothing lies to the right",
        "motion 960 -541\n",
        JOIN + turns(0),
        JOINED + "local leave\nsend 1 CINN 1023 767 1 0\n" + closed(69),
        config=DESKS.replace("right = pad", "up = pad"),
    ),
    row(
        "past both edges, where the right one waits",
        "motion 960 -541\n",
        JOIN + turns(0, 249, 250),
        joined("2 1397970772 250") + "local move 1919 0\nlocal leave\nsend 1 CINN 0 0 1 0\n" + closed(77),
        config=options("\tswitchDelay = 250\n", DESKS.replace("right = pad", "right = pad\n\t\tup = pad")),
    ),
    # The key is down as the cursor leaves, and goes up on the pad, which was never sent its down.
    row(
        "a switch that needs a modifier",
        "motion 960 0\nkey down 61409 50\nmotion 1 0\nkey up 50\n",
        JOIN + turns(0),
        JOINED + "local move 1919 540\nlocal key down 61409 50 0\nlocal key up 61409 50\n" + ENTERED + "send 1 DKUP 61409 1 50\n" + closed(83),
        config=options("\tswitchNeedsShift = true\n"),
    ),
    row(
        "the pad's screen gets smaller under the cursor",
        "motion 960 0\nmotion 900 300\nsleep 5\nmotion -1 -1\n",
        JOIN + turns(0) + got(1, info(640, 480)) + turns(5),
        JOINED + ENTERED + "send 1 DMMV 900 684\nsend 1 CIAK\nsend 1 DMMV 638 478\n" + closed(TAKEN + 18 + 12 + 8 + 12),
    ),
    # Each parts and is lost before the next one's goodbye.
    both(
        "goodbye to two",
        "motion -961 0\nquit\n",
        turns(0),
        "local leave\nsend 2 CINN 1023 384 1 0\nsend 1 CBYE\npart 1 bye\nsend 2 CBYE\npart 2 bye\nlocal enter 960 540 2 0\n"
        + closed(59)
        + closed(77, serial=2),
    ),
    row(
        "goodbye to one that has not said who it is",
        "quit\n",
        JOIN + "join 2\n" + turns(0),
        greeted(1)
        + "send 1 QINF\n"
        + greeted(2)
        + "join 1 pad\n"
        + sent(1)
        + "send 1 CBYE\npart 1 bye\nsend 2 CBYE\npart 2 bye\n"
        + closed(59)
        + closed(23, serial=2),
    ),
    refused("script 2 NotDown", script="primary desk 1920 1080\nkey up 38\n"),
    refused("script 1 NoPrimary", script="await pad\n"),
    refused("trace 1 NoTurn", trace="join 1\n"),
    refused("config 1 10 UnknownSection", config="section: doors\n"),
]
