"""Rows for `replay` on hotkeys, their actions, the lock and the screen saver: a configuration, a script, a trace, and
the log that the rules of docs/machine.md give.

None of the logs is copied from a run: each was worked out by hand.
"""

from row_texts import *

# Presses and releases the first two function keys.
F1 = "key down 61374 67\nkey up 67\n"
F2 = "key down 61375 68\nkey up 68\n"
# A hotkey brings the cursor to the middle of the pad.
TO_THE_PAD = "local leave\nsend 1 CINN 512 384 1 0\n"
RELATIVE = "2 1296321620 1"
# The lock keys: name, number, and bit in a mask.
LOCK_KEYS = [("CapsLock", 61413, 4096), ("NumLock", 61311, 8192), ("ScrollLock", 61204, 16384)]


def hotkeys(*lines, config=DESKS):
    return options("".join(f"\t{line}\n" for line in lines), config)


def hot(name, lines, script, log, trace=JOIN + turns(0), config=DESKS):
    """A row with these lines of options; its log begins after the pad has joined."""
    return row(name, script, trace, JOINED + log, hotkeys(*lines, config=config))


ROWS = [
    hot(
        "a hotkey brings the cursor home",
        ["keystroke(Escape) = switchToScreen(desk)"],
        "motion 960 0\nkey down 97 38\nkey down 61211 9\nkey up 9\nkey up 38\n",
        ENTERED + "send 1 DKDN 97 0 38\nsend 1 COUT\n" + BACK + closed(91),
    ),
    hot(
        "the lock holds the cursor",
        ["keystroke(ScrollLock) = lockCursorToScreen(toggle)"],
        "key down 61204 70\nkey up 70\nmotion 960 0\n",
        "local move 1919 540\n" + closed(TAKEN),
    ),
    hot(
        "the lock lets go",
        ["keystroke(ScrollLock) = lockCursorToScreen(toggle)"],
        "key down 61204 70\nkey up 70\nmotion 960 0\nkey down 61204 70\nkey up 70\nmotion 1 0\n",
        "local move 1919 540\n" + ENTERED + closed(69),
    ),
    hot(
        "on and off",
        ["keystroke(F1) = lockCursorToScreen(on)", "keystroke(F2) = lockCursorToScreen(off)"],
        F1 + "motion 960 0\n" + F2 + "motion 1 0\n",
        "local move 1919 540\n" + ENTERED + closed(69),
    ),
    row(
        "relative motion while the cursor is locked",
        "motion 960 0\n" + F1 + "motion -5 -2\n",
        JOIN + turns(0),
        joined(RELATIVE) + ENTERED + "send 1 DMRM -5 -2\n" + closed(89),
        config=hotkeys("relativeMouseMoves = true", "keystroke(F1) = lockCursorToScreen(on)"),
    ),
    hot(
        "the lock holds no named switch, and then the pad's edge",
        ["keystroke(F1) = lockCursorToScreen(on), switchToScreen(pad)"],
        F1 + "motion -600 0\n",
        TO_THE_PAD + "send 1 DMMV 0 384\n" + closed(81),
    ),
    hot(
        "a keystroke as an action",
        ["keystroke(F1) = keystroke(Control+c)"],
        "motion 960 0\nkey down 61374 67\nkey repeat 3 67\nkey up 67\n",
        ENTERED + "send 1 DKDN 99 2 61440\nsend 1 DKUP 99 2 61440\n" + closed(97),
    ),
    hot(
        "keys and a button as actions, on the desk",
        ["keystroke(F1) = keyDown(Shift_L), keystroke(a), keyUp(Shift_L), mousebutton(2)"],
        F1,
        "local key down 61409 61440 0\nlocal key down 97 61441 0\nlocal key up 97 61441\nlocal key up 61409 61440\n"
        "local button down 2\nlocal button up 2\n" + closed(TAKEN),
    ),
    # The key goes up where it is left, and its own up then goes to the pad.
    hot(
        "a key of an action is down as the cursor leaves",
        ["keystroke(F1) = keyDown(Shift_L), switchToScreen(pad), keyUp(Shift_L)"],
        F1,
        "local key down 61409 61440 0\nlocal key up 61409 61440\n" + TO_THE_PAD + "send 1 DKUP 61409 0 61440\n" + closed(83),
    ),
    hot(
        "a press list on the desk, its release list on the pad",
        ["keystroke(F1) = switchToScreen(pad); keystroke(b)"],
        "key down 61374 67\nkey repeat 2 67\nkey up 67\n",
        TO_THE_PAD + "send 1 DKDN 98 0 61440\nsend 1 DKUP 98 0 61440\n" + closed(97),
    ),
    hot(
        "a motion between the lists",
        ["keystroke(F1) = keystroke(a); keystroke(b)"],
        "key down 61374 67\nmotion 960 0\nkey up 67\n",
        "local key down 97 61440 0\nlocal key up 97 61440\n" + ENTERED + "send 1 DKDN 98 0 61441\nsend 1 DKUP 98 0 61441\n" + closed(97),
    ),
    hot(
        "switches that lead nowhere",
        ["keystroke(F1) = switchToScreen(desk), switchToScreen(tab), switchInDirection(up)"],
        F1 + "motion 960 0\n",
        ENTERED + closed(69),
        config=THREE,
    ),
    hot(
        "a switch to a screen that was lost",
        ["keystroke(F1) = switchToScreen(pad)"],
        "sleep 10\n" + F1,
        "part 1 ended\n" + closed(TAKEN),
        JOIN + turns(0) + "turn 5\nend 1\n" + turns(10),
    ),
    # A button is down, which would hold the cursor at an edge: it goes up on the desk, and again on the pad.
    hot(
        "a direction in a release list",
        ["keystroke(F1) = ; switchInDirection(right)"],
        "button down 1\n" + F1 + "button up 1\n",
        "local button down 1\nlocal button up 1\n" + ENTERED + "send 1 DMUP 1\n" + closed(78),
    ),
    hot(
        "modifiers count, and toggles do not",
        ["keystroke(Control+F1) = switchToScreen(pad)"],
        F1 + "key down 61413 66\nkey up 66\nkey down 61411 37\n" + F1 + "key up 37\n",
        "local key down 61374 67 0\nlocal key up 61374 67\nlocal key down 61413 66 0\nlocal key up 61413 66\n"
        "local key down 61411 37 4096\nlocal key up 61411 37\nlocal leave\nsend 1 CINN 512 384 1 4096\n"
        "send 1 DKUP 61411 4098 37\n" + closed(83),
    ),
    *(
        hot(
            f"{name} as a hotkey flips its toggle first",
            [f"keystroke({name}) = switchToScreen(pad)"],
            f"key down {number} 77\nkey up 77\n",
            f"local leave\nsend 1 CINN 512 384 1 {bit}\n" + closed(69),
        )
        for name, number, bit in LOCK_KEYS
    ),
    hot(
        "a button that a hotkey takes holds the cursor",
        ["mousebutton(4) = mouseDown(1); mouseUp(1)"],
        "button down 4\nmotion 960 0\nbutton up 4\n",
        "local button down 1\nlocal move 1919 540\nlocal button up 1\n" + closed(TAKEN),
    ),
    hot(
        "a button that an action presses does not",
        ["keystroke(F1) = mouseDown(1)"],
        F1 + "motion 960 0\n",
        "local button down 1\nlocal button up 1\n" + ENTERED + closed(69),
    ),
    hot(
        "the first of two hotkeys of one key",
        ["keystroke(F1) = keystroke(a)", "keystroke(F1) = keystroke(b)"],
        F1,
        "local key down 97 61440 0\nlocal key up 97 61440\n" + closed(TAKEN),
    ),
    hot("the screen saver", [], "motion 960 0\nsaver on\nsaver off\n", ENTERED + "local saver on\nsend 1 CSEC 1\nlocal saver off\nsend 1 CSEC 0\n" + closed(87)),
    hot("a screen saver of the desk alone", ["screenSaverSync = false"], "motion 960 0\nsaver on\n", ENTERED + closed(69)),
]
