#!/usr/bin/env python3
"""Runs `serve` and `join` of the built program as processes of their own, over TCP on this machine.

    tools/check_serving.py [WORD]

With a WORD, only the checks with that word in their name run. The expected lines follow docs/machine.md and
docs/protocol.md; none is copied from a run.
"""

import os
import pathlib
import signal
import socket
import subprocess
import sys
import tempfile
import time

from check_program import PROGRAMS
from row_texts import BACK, BEGIN, BEGIN_BOTH, DESKS, ENTERED, JOINED, THREE, closed, options

HOST = "127.0.0.1"
TURNS = "100000"
TRIES = 200
SECONDS = 60
# How a client ends that came before its server listened.
TOO_EARLY = {(5, "link fault"), (9, "lost failed")}


def free_port():
    with socket.create_server((HOST, 0)) as listener:
        return str(listener.getsockname()[1])


class Place:
    """A folder with the texts of one run, and the processes that were started there."""

    def __init__(self, program, folder):
        self.program = program
        self.folder = pathlib.Path(folder)
        self.port = free_port()
        self.children = []

    def start(self, *words):
        child = subprocess.Popen(
            [self.program, *words],
            cwd=self.folder,
            bufsize=0,
            stdin=subprocess.DEVNULL,
            stdout=subprocess.PIPE,
            stderr=subprocess.PIPE,
        )
        self.children.append(child)
        return child

    def text(self, name, content):
        (self.folder / name).write_text(content, encoding="ascii")
        return name

    def serve(self, config, script, turns=TURNS):
        return self.start("serve", self.text("conf", config), self.text("script", script), self.port, turns)

    def join(self, name, script=""):
        return self.start("join", name, HOST, self.port, "1024", "768", self.text(f"{name}.script", script), TURNS)

    def joined(self, name, script=""):
        """A client that was not too early, once its first line is there; that line was read."""
        for _ in range(TRIES):
            child = self.join(name, script)
            line = child.stdout.readline()
            if line:
                return child, line.decode()
            if ended(child)[:2] not in TOO_EARLY:
                break
            time.sleep(0.02)
        raise AssertionError(f"{name} never joined")

    def end(self):
        for child in self.children:
            if child.poll() is None:
                child.kill()
            child.communicate()


def ended(child, before=""):
    """The exit code of a process, its line on standard error, and its output, of which that much was read."""
    output, error = child.communicate(timeout=SECONDS)
    return child.returncode, error.decode().rstrip("\n"), before + output.decode()


def expect(what, found, wanted):
    assert found == wanted, f"{what}: {found!r} and not {wanted!r}"


def read_up_to(child, wanted):
    """The lines of a process up to the one that is wanted."""
    lines = ""
    for line in iter(child.stdout.readline, b""):
        lines += line.decode()
        if line.decode() == wanted:
            return lines
    raise AssertionError(f"{lines!r} and no {wanted!r}")


# ---- checks

KEY = "key down 97 38 0\n"
HELD = "reset options\nenter 0 384 1 0\n" + KEY


def two_processes(place):
    server = place.serve(DESKS, BEGIN + "motion 960 0\nkey down 97 38\nkey up 38\nquit\n")
    client, first = place.joined("pad")
    expect("join", ended(client, first), (0, "", HELD + "key up 97 38\n"))
    log = JOINED + ENTERED + "send 1 DKDN 97 0 38\nsend 1 DKUP 97 0 38\nsend 1 CBYE\npart 1 bye\n" + BACK + closed(105)
    # A client that was too early may have been accepted and gone.
    code, line, found = ended(server)
    expect("serve", (code, line), (0, ""))
    if found.count("open") == 1:
        expect("serve", found, log)


def three_processes(place):
    """To the pad and back, a copy, on to the tab, and home by a hotkey with a button down."""
    script = BEGIN_BOTH + (
        "motion 960 0\nkey down 97 38\nkey up 38\nmotion -1 0\ncopy 0 616263\nmotion -1920 0\n"
        "button down 1\nkey down 61374 67\nkey up 67\nbutton up 1\nquit\n"
    )
    server = place.serve(options("\tkeystroke(F1) = switchToScreen(desk)\n", THREE), script)
    pad, pad_line = place.joined("pad")
    tab, tab_line = place.joined("tab")
    expect("pad", ended(pad, pad_line), (0, "", HELD + "key up 97 38\nleave\ngrab 0\n"))
    tab_lines = "reset options\ngrab 0\nenter 1023 384 3 0\nclip 0 616263\nbutton down 1\nbutton up 1\nleave\n"
    expect("tab", ended(tab, tab_line), (0, "", tab_lines))
    expect("serve", ended(server)[:2], (0, ""))


def client_that_copies(place):
    """What is copied at the pad while the cursor is there goes to the desk as the cursor leaves."""
    server = place.serve(DESKS, BEGIN + "motion 960 0\nsleep 1000\nmotion -1 0\nsleep 500\nquit\n")
    client, first = place.joined("pad", "sleep 200\ncopy 0 78\n")
    expect("join", ended(client, first), (0, "", "reset options\nenter 0 384 1 0\nleave\n"))
    code, line, log = ended(server)
    expect("serve", (code, line), (0, ""))
    assert "local grab 0\n" in log and "local clip 0 78\n" in log, f"serve: {log!r}"


def client_that_dies(place):
    """It is killed with a key down; the server goes on, and another client of that name joins."""
    script = BEGIN + "motion 960 0\nkey down 97 38\nsleep 2000\nawait pad\nmotion 960 0\nkey up 38\nsleep 100\nquit\n"
    server = place.serve(DESKS, script)
    client, first = place.joined("pad")
    read_up_to(client, KEY)
    client.send_signal(signal.SIGKILL)
    expect("killed", ended(client)[0], -signal.SIGKILL)
    again, line = place.joined("pad")
    expect("join", ended(again, line), (0, "", "reset options\nenter 0 384 3 0\n"))
    code, line, log = ended(server)
    expect("serve", (code, line), (0, ""))
    assert any(f"part {n} {cause}\nlocal enter 960 540 2 0\n" in log for n in (1, 2) for cause in ("ended", "failed")), f"serve: {log!r}"


def server_that_dies(place):
    server = place.serve(DESKS, BEGIN + "motion 960 0\nkey down 97 38\n")
    client, first = place.joined("pad")
    lines = first + read_up_to(client, KEY)
    server.send_signal(signal.SIGKILL)
    code, line, output = ended(client, lines)
    assert (code, line) in {(9, "lost ended"), (9, "lost failed")}, f"join: {code} {line}"
    expect("join", output, HELD + "key up 97 38\n")


def two_of_one_name(place):
    server = place.serve(DESKS, BEGIN + "sleep 1500\nquit\n")
    client, first = place.joined("pad")
    second = place.join("PAD")
    expect("the second", ended(second), (8, "refused EBSY", ""))
    expect("the first", ended(client, first), (0, "", "reset options\n"))
    expect("serve", ended(server)[:2], (0, ""))


def unknown_name(place):
    server = place.serve(DESKS, BEGIN + "sleep 1500\nquit\n")
    client, first = place.joined("pad")
    expect("a stranger", ended(place.join("sofa")), (8, "refused EUNK", ""))
    expect("the pad", ended(client, first), (0, "", "reset options\n"))
    expect("serve", ended(server)[:2], (0, ""))


def no_turns(place):
    expect("serve", ended(place.serve(DESKS, BEGIN, "0")), (7, "turns spent", ""))


def used_port(place):
    with socket.create_server((HOST, int(place.port))):
        expect("serve", ended(place.serve(DESKS, BEGIN)), (5, "hub fault", ""))


def nobody_listens(place):
    code, line, output = ended(place.join("pad"))
    assert (code, line) in TOO_EARLY and output == "", f"join: {code} {line} {output!r}"


def silent_stranger(place):
    """A peer that says nothing, and one that says nonsense, hold up nobody."""
    server = place.serve(DESKS, BEGIN + "motion 960 0\nkey down 97 38\nkey up 38\nsleep 300\nquit\n")
    client, first = place.joined("pad")
    with socket.create_connection((HOST, int(place.port))), socket.create_connection((HOST, int(place.port))) as stranger:
        stranger.sendall(bytes(8))
        expect("join", ended(client, first), (0, "", HELD + "key up 97 38\n"))
        expect("serve", ended(server)[:2], (0, ""))


CHECKS = (
    two_processes,
    three_processes,
    client_that_copies,
    client_that_dies,
    server_that_dies,
    two_of_one_name,
    unknown_name,
    no_turns,
    used_port,
    nobody_listens,
    silent_stranger,
)


def passes(program, check):
    with tempfile.TemporaryDirectory() as folder:
        place = Place(program, folder)
        try:
            check(place)
            return True
        except (AssertionError, subprocess.TimeoutExpired) as difference:
            print(f"{program.name}: {check.__name__}: {difference}")
            return False
        finally:
            place.end()


def run(word=""):
    """Runs the checks on each build that is there. Returns how many passed and failed."""
    programs = [program for program in PROGRAMS if os.access(program, os.X_OK)]
    results = [passes(program, check) for program in programs for check in CHECKS if word in check.__name__]
    if not results:
        print("no check was run: ./synergy-share builds the program")
    passed = sum(results)
    failed = len(results) - passed if results else 1
    print(f"serving: {passed} passed, {failed} failed")
    return passed, failed


if __name__ == "__main__":
    sys.exit(1 if run(*sys.argv[1:2])[1] else 0)
