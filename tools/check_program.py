#!/usr/bin/env python3
"""Runs the built program on the cases of program_cases.py, and compares its exit code, its line on standard
error and its output.

    tools/check_program.py [WORD]

With a WORD, only the cases with that word in their name run.
"""

import os
import pathlib
import resource
import signal
import subprocess
import sys
import tempfile

from program_cases import CASES

OUT = pathlib.Path(__file__).resolve().parent.parent / "crates" / "synergy_share" / "out"
# The gate builds the program by two compilers; ./synergy-share makes the first build alone.
PROGRAMS = [OUT / "synergy_share", OUT / "synergy_share.by-rattle"]
STREAMS = ("stdin", "stdout", "stderr")
SECONDS = 120


def prepare(case):
    """What the child does before it becomes the program: it closes streams, and limits its memory and its files."""
    for number, name in enumerate(STREAMS):
        if getattr(case, name) == "closed":
            os.close(number)
    if case.memory:
        resource.setrlimit(resource.RLIMIT_AS, (case.memory, case.memory))
    # A write without room is to fail, and not to end the program.
    signal.signal(signal.SIGXFSZ, signal.SIG_IGN)
    resource.setrlimit(resource.RLIMIT_FSIZE, (case.room, case.room))


def feed(pipe, case):
    """Writes the input, as far as the program reads it."""
    try:
        with pipe:
            for piece in case.input() if callable(case.input) else [case.input]:
                step = 1 if case.slowly else max(len(piece), 1)
                for at in range(0, len(piece), step):
                    pipe.write(piece[at : at + step])
    except BrokenPipeError:
        pass


def stream(how, other):
    """What stands for a stream: an open path, a pipe without a reader, or the other."""
    if how == "broken":
        reading, writing = os.pipe()
        os.close(reading)
        return writing
    if how in ("pipe", "closed"):
        return other
    return os.open(how, os.O_RDONLY if other == subprocess.PIPE else os.O_WRONLY)


def ended(program, case, folder):
    """The exit code, the bytes on standard error and the output of one run."""
    with tempfile.TemporaryFile() as output, tempfile.TemporaryFile() as error:
        others = (subprocess.PIPE, os.dup(output.fileno()), os.dup(error.fileno()))
        given = {name: stream(getattr(case, name), other) for name, other in zip(STREAMS, others)}
        child = subprocess.Popen(
            [program, *case.words], cwd=folder, preexec_fn=lambda: prepare(case), bufsize=0, **given
        )
        for descriptor in {*given.values(), *others} - {subprocess.PIPE}:
            os.close(descriptor)
        if child.stdin:
            feed(child.stdin, case)
        try:
            code = child.wait(timeout=SECONDS)
        except subprocess.TimeoutExpired:
            child.kill()
            child.wait()
            code = "none in time"
        output.seek(0)
        error.seek(0)
        return code, error.read(), output.read()


def differences(case, code, error, output):
    """How a run differs from its case."""
    line = f"{case.line}\n".encode() if case.line else b""
    if code != case.code:
        yield f"it ended with {code} and not with {case.code}"
    if error != line:
        yield f"standard error has {error[:200]!r} and not {line!r}"
    if output != case.output:
        yield f"the output has {output[:200]!r} and not {case.output[:200]!r}"


def passes(program, case):
    """Runs one case in a folder of its own, and prints how it differs."""
    with tempfile.TemporaryDirectory() as folder:
        for name, text in [(case.file, case.text), *case.files]:
            (pathlib.Path(folder) / name).write_bytes(text)
        found = list(differences(case, *ended(program, case, folder)))
    for difference in found:
        print(f"{program.name}: {case.name}: {difference}")
    return not found


def run(word=""):
    """Runs the cases on each build that is there. Returns how many passed and failed."""
    programs = [program for program in PROGRAMS if os.access(program, os.X_OK)]
    results = [passes(program, case) for program in programs for case in CASES if word in case.name]
    if not results:
        print("no case was run: ./synergy-share builds the program")
    passed = sum(results)
    failed = len(results) - passed if results else 1
    print(f"program: {passed} passed, {failed} failed")
    return passed, failed


if __name__ == "__main__":
    sys.exit(1 if run(*sys.argv[1:2])[1] else 0)
