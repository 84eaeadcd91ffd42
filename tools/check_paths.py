#!/usr/bin/env python3
"""Fails if a document names a file that the repository does not have.

A file is named in backticks or as the target of a link. It is looked up from the top, beside the document, in
examples/, in crates/, and in each crate, its specs/ and its proofs/.
"""

import pathlib
import re
import sys

TOP = pathlib.Path(__file__).resolve().parent.parent
ENDINGS = "rt|antt|edit|py|rs|md|conf|bin|out|script|trace|txt"
NAMED = re.compile(rf"`((?:[\w.-]+/)*[\w.-]+\.(?:{ENDINGS}))`|\]\(((?!http)[^)#]+)\)")
PLACES = ("", "examples/", "crates/", "crates/*/", "crates/*/specs/", "crates/*/proofs/")


def is_there(document, name):
    """Whether some file has that name, seen from one of the places."""
    if (document.parent / name).exists():
        return True
    return any(next(TOP.glob(place + name), None) for place in PLACES)


def run():
    """Looks up each file that a document names. Returns how many passed and failed."""
    passed = failed = 0
    for document in sorted([*TOP.glob("*.md"), *TOP.glob("docs/*.md"), *TOP.glob("examples/*.md")]):
        for match in NAMED.finditer(document.read_text(encoding="utf-8")):
            name = match[1] or match[2]
            if "NAME" in name or is_there(document, name):
                passed += 1
            else:
                print(f"{document.relative_to(TOP)}: there is no file {name}")
                failed += 1
    print(f"paths: {passed} passed, {failed} failed")
    return passed, failed


if __name__ == "__main__":
    sys.exit(1 if run()[1] else 0)
