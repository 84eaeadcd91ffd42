#!/usr/bin/env python3
"""Compiles the programs that must not compile, and compares the lines and the reasons of their refusals.

    tools/check_refused.py [WORD]

With a WORD, only the programs with that word in their path are compiled. A program is a file
crates/NAME/must-not-compile/*.rs, which uses the crate NAME and the libraries that crates.txt lists for it.
A line that the compiler must refuse ends in `//~` and the compiler's words. All other lines must compile: the
program also makes the calls that are allowed. Nothing is proved, so a program takes 5 to 11 seconds.
"""

import pathlib
import re
import shutil
import subprocess
import sys
import tempfile

TOP = pathlib.Path(__file__).resolve().parent.parent
PARTS = ("src", "specs", "proofs")
SECONDS = 300
REFUSAL = re.compile(r"src/main\.rt:(\d+):\d+: error\[[\w-]+\]: (.*)")
PROGRAM = "refused_program"


def libraries():
    """The libraries that each crate names in crates.txt."""
    lines = (TOP / "crates.txt").read_text(encoding="utf-8").splitlines()
    rows = [line.partition("#")[0].partition(":") for line in lines]
    return {name.strip(): deps.split() for name, colon, deps in rows if colon}


def wanted(text):
    """What the compiler has to say, by the number of the line."""
    lines = enumerate(text.splitlines(), start=1)
    return {number: line.partition("//~")[2].strip() for number, line in lines if "//~" in line}


def compiled(program, room):
    """What the compiler says of a program, by the number of the line, and all that it wrote."""
    crate, known = program.parent.parent.name, libraries()
    for name in known:
        for part in PARTS:
            if (TOP / "crates" / name / part).is_dir():
                shutil.copytree(TOP / "crates" / name / part, room / "crates" / name / part)
    known[PROGRAM] = [crate, *known[crate]]
    rows = [f"{name}: {' '.join(deps)}\n" for name, deps in known.items()]
    (room / "crates.txt").write_text("".join(rows), encoding="utf-8")
    folder = room / "crates" / PROGRAM
    (folder / "src").mkdir(parents=True)
    shutil.copy(program, folder / "src" / "main.rt")
    ran = subprocess.run(
        ["rt", "try"],
        cwd=folder,
        stdin=subprocess.DEVNULL,
        stdout=subprocess.PIPE,
        stderr=subprocess.STDOUT,
        text=True,
        errors="replace",
        timeout=SECONDS,
        check=False,
    )
    found = {}
    for number, said in REFUSAL.findall(ran.stdout):
        found.setdefault(int(number), said)
    return found, ran.stdout


def faults(program):
    """Where a program is refused otherwise than its lines say."""
    want = wanted(program.read_text(encoding="utf-8"))
    with tempfile.TemporaryDirectory(prefix="refused-") as room:
        found, wrote = compiled(program, pathlib.Path(room))
    if not want:
        yield "no line has to be refused"
    if not found:
        yield f"it is not refused: {wrote.strip()[-400:]}"
    for number in sorted({*want, *found}):
        if number not in found:
            yield f"line {number} is not refused"
        elif number not in want:
            yield f"line {number} is refused: {found[number]}"
        elif want[number] not in found[number]:
            yield f"line {number} is refused in other words: {found[number]}"


def run(word=""):
    """Compiles the programs. Returns how many were refused as they say, and how many were not."""
    passed = failed = 0
    for program in sorted(TOP.glob("crates/*/must-not-compile/*.rs")):
        name = str(program.relative_to(TOP))
        if word not in name:
            continue
        found = list(faults(program))
        for fault in found:
            print(f"{name}: {fault}")
        passed, failed = passed + (not found), failed + bool(found)
    print(f"refused programs: {passed} passed, {failed} failed")
    return passed, failed


if __name__ == "__main__":
    passed, failed = run(*sys.argv[1:2])
    sys.exit(1 if failed or not passed else 0)
