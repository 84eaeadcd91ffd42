#!/usr/bin/env python3
"""Makes the three texts of the run that `generate N` makes, without the program: a configuration, a script, a trace.

    tools/generated_texts.py N FOLDER

writes them to FOLDER as generated.conf, generated.script and generated.trace. `replay` of these files logs the run
that `generate N` sums up.
"""

import pathlib
import sys

SCREENS = ("desk", "s1", "s2", "s3")
EVENTS = 2000
TURNS = 20
# What a client's screen information says: x, y, width, height, warp, and the cursor's x and y.
SHAPE = (0, 0, 1024, 768, 0, 512, 384)


class Draws:
    """Numbers drawn one after another, from a seed."""

    def __init__(self, seed):
        self.state = seed

    def draw(self, count):
        """The next number, from 0 to below count."""
        self.state = (self.state * 6364136223846793005 + 1442695040888963407) % 2**64
        return self.state // 2**33 % count


def configuration():
    """The screens in a row, as the normal form of a configuration."""
    lines = ["section: screens", *(f"\t{name}:" for name in SCREENS), "end"]
    lines += ["section: aliases", "end", "section: links"]
    for i, name in enumerate(SCREENS):
        lines.append(f"\t{name}:")
        lines += [f"\t\tleft = {SCREENS[i - 1]}"] if i > 0 else []
        lines += [f"\t\tright = {SCREENS[i + 1]}"] if i + 1 < len(SCREENS) else []
    return lines + ["end", "section: options", "end"]


def turned(down, button):
    """Whether a button was down, which is turned over."""
    was = button in down
    (down.remove if was else down.add)(button)
    return was


def event(draws, keys, buttons):
    """The line of the next event, with the buttons of keys and of the mouse that are down."""
    which = draws.draw(8)
    if which <= 3:
        dx = draws.draw(801) - 400
        dy = draws.draw(401) - 200
        return f"motion {dx} {dy}"
    if which == 4:
        return "wheel 0 120"
    if which == 5:
        button = 1 + draws.draw(40)
        return f"key up {button}" if turned(keys, button) else f"key down {96 + button} {button}"
    if which == 6:
        button = 1 + draws.draw(3)
        return f"button up {button}" if turned(buttons, button) else f"button down {button}"
    return "copy 0 " + (bytes(range(draws.draw(65))).hex() or "-")


def script(seed):
    """The primary screen, a wait for each other one, the events, and the end."""
    draws, keys, buttons = Draws(seed), set(), set()
    lines = ["primary desk 1920 1080", *(f"await {name}" for name in SCREENS[1:])]
    return lines + [event(draws, keys, buttons) for _ in range(EVENTS)] + ["quit"]


def frame(body):
    """A message's frame, in hexadecimal digits."""
    return (len(body).to_bytes(4, "big") + body).hex()


def hello_answer(name):
    """The answer of version 1.6 to a hello."""
    return frame(b"Synergy\0\1\0\6" + len(name).to_bytes(4, "big") + name.encode("ascii"))


def trace():
    """Three clients that join, answer the hello and say their shape; then the turns of the run."""
    clients = list(enumerate(SCREENS[1:], 1))
    info = frame(b"DINF" + b"".join(n.to_bytes(2, "big") for n in SHAPE))
    lines = ["turn 0", *(f"join {c}" for c, _ in clients)]
    lines += ["turn 0", *(f"got {c} {hello_answer(name)}" for c, name in clients)]
    lines += ["turn 0", *(f"got {c} {info}" for c, _ in clients)]
    return lines + [f"turn {t}" for t in range(1, TURNS + 1)]


def texts(seed):
    """The three texts: configuration, script and trace."""
    return tuple("".join(f"{line}\n" for line in lines) for lines in (configuration(), script(seed), trace()))


def main(number, folder):
    """Writes the texts of a number to a folder."""
    for kind, text in zip(("conf", "script", "trace"), texts(int(number))):
        (pathlib.Path(folder) / f"generated.{kind}").write_text(text, encoding="ascii")


if __name__ == "__main__":
    if len(sys.argv) != 3:
        sys.exit(__doc__)
    main(*sys.argv[1:])
