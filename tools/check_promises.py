"""Fails if docs/promises.md names a function or a clause that the source does not have.

A promise names what carries it as `crate::function` (`clause`, `clause`), or as
`crate::Type::function` for a method. A function with one clause that has no name stands alone.
"""

import pathlib
import re
import sys

TOP = pathlib.Path(__file__).resolve().parent.parent
NAMED = re.compile(r"`([a-z_0-9]+(?:::\w+)+)`(?:\s+\(((?:`\w+`(?:,\s*)?)+)\))?")
HEADER = r"\bfn\s+{}\b[^;{{]*?(?=\n\s*(?:ghost|requires|ensures)|\{{|;)"


def contracts(crate, path):
    """The text from `fn NAME` to its body, of each function of that path in the crate."""
    owner, name = (path[-2], path[-1]) if len(path) > 1 else (None, path[-1])
    for file in sorted((TOP / "crates" / crate / "src").rglob("*.rt")):
        text = file.read_text(encoding="utf-8")
        for found in re.finditer(HEADER.format(re.escape(name)), text):
            if owner and not enclosing(text[: found.start()], owner):
                continue
            rest = text[found.start() :]
            end = re.search(r"\n\s*\{\s*(?:\n|\})|;\n", rest)
            yield rest[: end.start() if end else len(rest)]


def enclosing(before, owner):
    """Whether the latest impl or trait before a function is the owner's."""
    heads = re.findall(r"^(?:impl|pub trait|trait)\b.*$", before, re.MULTILINE)
    return bool(heads) and re.search(rf"\b{re.escape(owner)}\b", heads[-1]) is not None


def run():
    """Looks up each function and clause. Returns how many passed and failed."""
    document = (TOP / "docs" / "promises.md").read_text(encoding="utf-8")
    passed, missing = 0, []
    for whole, clauses in NAMED.findall(document):
        crate, *path = whole.split("::")
        found = list(contracts(crate, path))
        if not any("ensures" in text for text in found):
            missing.append(f"`{whole}` has no function with a contract")
            continue
        passed += 1
        for clause in re.findall(r"`(\w+)`", clauses):
            if any(re.search(rf"ensures\*?\s+{clause}\s*\{{", text) for text in found):
                passed += 1
            else:
                missing.append(f"`{whole}` has no clause `{clause}`")
    for line in missing:
        print(f"docs/promises.md: {line}")
    print(f"promises: {passed} passed, {len(missing)} failed")
    return passed, len(missing)


if __name__ == "__main__":
    passed, failed = run()
    sys.exit(1 if failed or not passed else 0)
