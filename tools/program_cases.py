"""The table of runs that tools/check_program.py makes of the built program.

The expected values follow docs/protocol.md and docs/configuration.md; none is copied from a run.
"""

import pathlib
import resource
from typing import NamedTuple

import clipboard_rows
import hotkey_rows
import limit_rows
import machine_rows
import row_texts

EXAMPLES = pathlib.Path(__file__).resolve().parent.parent / "examples"
# How the command of an example ends, unless with 0 and no line.
EXAMPLE_ENDS = {("keys", "inject"): (9, "lost ended")}

INPUT_LIMIT = 1 << 30
CONFIG_LIMIT = 1 << 20
BODY_LIMIT = 4 << 20
CLIP_LIMIT = 4 << 20
CHUNK = 32_768
FULL = "/dev/full"
# The name of the file that holds a case's text.
CONFIG = "desks.conf"


class Case(NamedTuple):
    """One run: what the program is given, and how it must end."""

    name: str
    words: list
    # The exit code, the line on standard error without its newline ("" for none), and the output.
    code: int
    line: str = ""
    output: bytes = b""
    # The bytes of standard input, or a function that gives them in pieces; whether they come one byte a write.
    input: object = b""
    slowly: bool = False
    # A file that lies in the folder of the run, and its name.
    text: bytes = b""
    file: str = CONFIG
    # Further files that lie there: their names and bytes.
    files: tuple = ()
    # How each stream is given: a pipe, "closed", a path to open, or for the output "broken", a pipe without a reader.
    stdin: str = "pipe"
    stdout: str = "pipe"
    stderr: str = "pipe"
    # The most bytes of memory that the program may have; 0 for no limit.
    memory: int = 0
    # How many bytes a file takes, the output and standard error among them, before a write to it fails.
    room: int = resource.RLIM_INFINITY


def frame(code, fields=""):
    """One frame: the length, the letters of the code, and fields written in hex."""
    body = code.encode("ascii") + bytes.fromhex(fields)
    return len(body).to_bytes(4, "big") + body


HELLO = frame("Synergy", "0001 0006 00000003 706164")
INFO = frame("DINF", "0000 0000 0400 0300 0000 0200 0180")
ENTER = frame("CINN", "0000 0180 00000001 0000")
LEAVE = frame("COUT")
BYE = frame("CBYE")
KEY = frame("DKDN", "0061 0000 0026")
KEY_UP = frame("DKUP", "0061 0000 0026")
BUTTON = frame("DMDN", "03")
TOO_LONG = bytes.fromhex("00400001")
# As long a clipboard as there may be.
LONGEST = bytes(range(256)) * (CLIP_LIMIT // 256)
# As long a frame as there may be, of a message that prints nothing.
FILE_PART = frame("DFTR", f"01 {BODY_LIMIT - 9:08x}" + bytes(BODY_LIMIT - 9).hex())

ENTERED = b"enter 0 384 1 0\n"
PRESSED = b"key down 97 38 0\n"
LIFTED = b"key up 97 38\n"
HELD = ENTERED + PRESSED + b"button down 3\n"
RELEASED = LIFTED + b"button up 3\n"

NOTHING = b"section: screens\nend\nsection: aliases\nend\nsection: links\nend\nsection: options\nend\n"
BEATS = NOTHING[:-4] + b"\theartbeat = 5000\nend\n"
DESK = b"section: screens\n\tdesk:\nend\n"
DESK_LINKS = DESK + b"section: links\n\tdesk:\n"


def clip_part(clip, mark, data=b""):
    """A part of a clipboard: its start, a chunk, or its end."""
    return frame("DCLP", f"{clip:02x} 00000000 {mark:02x} {len(data):08x} {data.hex()}")


def clipboard(clip, data):
    """The parts of a whole clipboard."""
    chunks = [clip_part(clip, 2, data[at : at + CHUNK]) for at in range(0, len(data), CHUNK)]
    return [clip_part(clip, 1, str(len(data)).encode()), *chunks, clip_part(clip, 3)]


def woven(first, second):
    """The parts of both clipboards in turn."""
    return [part for pair in zip(clipboard(0, first), clipboard(1, second)) for part in pair]


def usage(name, *words):
    """Words that do not name a command. The input is left alone, and nothing is written."""
    return Case(f"words: {name}", list(words), 2, "usage", input=ENTER + BYE)


def injects(name, parts, code, line, output, **how):
    return Case(name, ["inject"], code, line, output, b"".join(parts), **how)


def cut_after(count):
    """A key goes up in a frame of which only the first bytes come."""
    end = (9, "lost ended") if count in (0, len(KEY_UP)) else (1, "frames 32 cut")
    return injects(f"{count} bytes of a frame", [ENTER, KEY, KEY_UP[:count]], *end, ENTERED + PRESSED + LIFTED)


def refused_by(letters, fields=""):
    return injects(f"refused by {letters}", [KEY, frame(letters, fields)], 8, f"refused {letters}", PRESSED + LIFTED)


def bad_frame(reason, stream):
    return Case(f"a bad frame: {reason}", ["show", "server"], 1, f"frames 0 {reason}", input=stream)


def check(name, text, code, line="", output=b"", **how):
    file = how.get("file", CONFIG)
    return Case(f"check: {name}", ["check", file], code, line, output, text=text, **how)


def bad_config(end, text):
    return check(end, text, 1, f"config {end}")


def past_the_limit():
    """One byte more than a command takes, in frames that print nothing."""
    left = INPUT_LIMIT + 1
    while left > 0:
        yield FILE_PART[:left]
        left -= len(FILE_PART)


def text_of_size(size):
    """A configuration of `size` bytes, whose last line but one sets an option."""
    tail = b"section: options\n\theartbeat = 5000\nend\n"
    comment = b"# one of many comments\n"
    count, rest = divmod(size - len(tail), len(comment))
    return comment * count + b"\n" * rest + tail


# What the words of an example's command are, and the endings of the files that it reads by name.
EXAMPLE_WORDS = {
    "inject": lambda name: ["inject"],
    "show": lambda name: ["show", "server"],
    "check": lambda name: ["check", f"{name}.conf"],
    "replay": lambda name: ["replay", f"{name}.conf", f"{name}.script", f"{name}.trace"],
}
TEXTS = (".conf", ".script", ".trace")


def example(name):
    return (EXAMPLES / name).read_bytes()


def examples():
    """Each output that lies beside a file of examples/, as NAME.COMMAND.out."""
    for output in sorted(EXAMPLES.glob("*.*.out")):
        name, command, _ = output.name.split(".")
        end = EXAMPLE_ENDS.get((name, command), (0, ""))
        place = {"input": example(f"{name}.bin")} if command in ("inject", "show") else {}
        files = [(file.name, file.read_bytes()) for file in EXAMPLES.glob(f"{name}.*") if file.suffix in TEXTS]
        yield Case(f"example {output.name}", EXAMPLE_WORDS[command](name), *end, output.read_bytes(), files=files, **place)


def replays():
    """Each row of the tables of rows."""
    for row in [*machine_rows.ROWS, *hotkey_rows.ROWS, *clipboard_rows.ROWS, *limit_rows.ROWS]:
        files = [("conf", row.config), ("script", row.script), ("trace", row.trace)]
        words = ["replay", *(name for name, _ in files)]
        yield Case(f"replay: {row.name}", words, row.code, row.line, row.log, files=files)


def replays_without_room():
    """A key on the pad, its release and the way back, with an output that fails after each number of bytes: what was
    written is a front of the log. There is room for the line on standard error."""
    row = next(row for row in machine_rows.ROWS if row.name == CUT_ROW)
    files = [("conf", row.config), ("script", row.script), ("trace", row.trace)]
    for room in range(len("write fault\n"), len(row.log)):
        words = ["replay", *(name for name, _ in files)]
        yield Case(f"replay: room for {room} bytes", words, 4, "write fault", row.log[:room], files=files, room=room)


def serve(name, script, turns, code, line="", **how):
    """`serve` at a free port, to which nobody connects."""
    files = [("conf", row_texts.DESKS.encode()), ("script", script.encode())]
    words = ["serve", *(name for name, _ in files), "0", str(turns)]
    return Case(f"serve: {name}", words, code, line, files=files, **how)


# What the runs of three numbers come to, worked out without the program.
GENERATED = [
    (1, b"events 2000\nswitches 10\nframes 729\nqueued 9632\ntaken 9632\n"),
    (2, b"events 2000\nswitches 12\nframes 1860\nqueued 28701\ntaken 28701\n"),
    (3, b"events 2000\nswitches 14\nframes 1106\nqueued 15856\ntaken 15856\n"),
]

CUT_ROW = "a key on the pad, and goodbye"

CASES = [
    usage("none"),
    usage("an unknown one", "injects"),
    usage("an empty one", ""),
    usage("an option", "--help"),
    usage("in capitals", "INJECT"),
    usage("one too many", "inject", "inject"),
    usage("too few", "show"),
    usage("no such end", "show", "both"),
    usage("an end too many", "show", "server", "client"),
    usage("no file", "check"),
    usage("a file too many", "check", CONFIG, CONFIG),
    usage("a trace too few", "replay", CONFIG, CONFIG),
    usage("no number of turns", "serve", CONFIG, CONFIG, "0"),
    usage("a port above 65535", "serve", CONFIG, CONFIG, "65536", "0"),
    usage("a port with a leading 0", "serve", CONFIG, CONFIG, "024800", "0"),
    usage("a port with a sign", "serve", CONFIG, CONFIG, "+1", "0"),
    usage("too many turns", "serve", CONFIG, CONFIG, "0", "4294967296"),
    usage("not UTF-8", b"\xff"),
    usage("a file's name that is not UTF-8", "check", CONFIG.encode() + b"\xff"),
    # How a stream ends.
    injects("nothing to inject", [], 9, "lost ended", b""),
    injects("a farewell", [ENTER, LEAVE, BYE], 0, "", ENTERED + b"leave\n"),
    injects("bytes after a farewell", [BYE, TOO_LONG], 0, "", b""),
    injects("left with keys down", [ENTER, KEY, BUTTON, LEAVE, BYE], 0, "", HELD + RELEASED + b"leave\n"),
    injects("lost with keys down", [ENTER, KEY, BUTTON], 9, "lost ended", HELD + RELEASED),
    injects("one byte a write", [ENTER, KEY, BUTTON], 9, "lost ended", HELD + RELEASED, slowly=True),
    injects("a clipboard's start alone", [ENTER, clip_part(0, 1, b"5")], 9, "lost ended", ENTERED),
    injects("a clipboard", [ENTER, *clipboard(0, b"Hello"), BYE], 0, "", ENTERED + b"clip 0 48656c6c6f\n"),
    injects("an empty selection", [*clipboard(1, b""), BYE], 0, "", b"clip 1 -\n"),
    injects("two clipboards at once", [*woven(b"one", b"two"), BYE], 0, "", b"clip 0 6f6e65\nclip 1 74776f\n"),
    injects("as long a clipboard as there may be", [*clipboard(0, LONGEST), BYE], 0, "", b"clip 0 " + LONGEST.hex().encode() + b"\n"),
    injects("a clipboard that is too long", [*clipboard(0, LONGEST + b"!"), BYE], 0, "", b""),
    injects("a bad frame with keys down", [ENTER, KEY, TOO_LONG], 1, "frames 32 toolong", ENTERED + PRESSED + LIFTED),
    *map(cut_after, (0, 1, 4, 13, 14)),
    refused_by("EBSY"),
    refused_by("EUNK"),
    refused_by("EBAD"),
    refused_by("EICV", "0001 0006"),
    Case("nothing to show", ["show", "server"], 0),
    Case("nothing to show of a client", ["show", "client"], 0),
    Case("a client's messages", ["show", "client"], 0, "", b"Synergy 1 6 706164\nDINF 0 0 1024 768 0 512 384\n", HELLO + INFO),
    Case("a server's message of a client", ["show", "client"], 1, "frames 22 end", b"Synergy 1 6 706164\n", HELLO + ENTER),
    bad_frame("toolong", TOO_LONG),
    bad_frame("code", frame("DN")),
    bad_frame("end", frame("CNOP")),
    bad_frame("short", frame("DKDN", "0061 0000 00")),
    bad_frame("trailing", frame("DKDN", "0061 0000 0026 00")),
    bad_frame("clip", frame("CCLP", "02 00000000")),
    bad_frame("mark", frame("DCLP", "00 00000000 04 00000000")),
    bad_frame("cut", LEAVE[:7]),
    Case("too much input", ["inject"], 1, "input too long", input=past_the_limit),
    injects(
        "no memory for a long frame", [ENTER, KEY, BUTTON, FILE_PART], 6, "out of memory", HELD + RELEASED, memory=6 << 20
    ),
    # Streams that fail.
    Case("a closed input", ["inject"], 3, "read fault", stdin="closed"),
    Case("a folder as input", ["show", "server"], 3, "read fault", stdin="."),
    injects("a closed output", [ENTER], 4, "write fault", b"", stdout="closed"),
    injects("a full output", [ENTER, BYE], 4, "write fault", b"", stdout=FULL),
    injects("an output that nobody reads", [ENTER, BYE], 4, "write fault", b"", stdout="broken"),
    Case("a full output of show", ["show", "server"], 4, "write fault", input=ENTER, stdout=FULL),
    Case("a full output with nothing to write", ["show", "server"], 0, stdout=FULL),
    injects("a closed standard error", [ENTER], 9, "", ENTERED, stderr="closed"),
    injects("a full standard error", [ENTER], 9, "", ENTERED, stderr=FULL),
    # Files.
    check("an empty file", b"", 0, "", NOTHING),
    check("5,000 bytes", text_of_size(5_000), 0, "", BEATS),
    check("as many bytes as there may be", text_of_size(CONFIG_LIMIT), 0, "", BEATS),
    check("one byte more", text_of_size(CONFIG_LIMIT + 1), 1, "config 0 0 TooMany"),
    check("lines that end with CR and LF", b"section: options\r\nheartbeat=5000\r\nend\r\n", 0, "", BEATS),
    check("a name that begins with a sign", b"", 0, "", NOTHING, file="--help"),
    Case("check: no such file", ["check", "missing.conf"], 3, "read fault"),
    Case("check: a folder", ["check", "."], 3, "read fault"),
    check("a full output", b"", 4, "write fault", stdout=FULL),
    check("a closed output", b"", 4, "write fault", stdout="closed"),
    # A refusal of each kind, with its line and column.
    bad_config("6 8 BadLine", DESK_LINKS + b"\t\tleft desk\n"),
    bad_config("2 2 BadLine", b"section: aliases\n\tdesk\nend\n"),
    bad_config("2 3 BadLine", b"section: screens\n\td\x01esk:\n"),
    bad_config("2 2 BadName", b"section: screens\n\t-a:\n"),
    bad_config("1 10 UnknownSection", b"section: doors\n"),
    bad_config("1 1 UnclosedSection", b"section: screens"),
    bad_config("3 2 DuplicateScreen", b"section: screens\n\tdesk:\n\tDESK:\n"),
    bad_config("6 3 DuplicateAlias", DESK + b"section: aliases\n\tdesk:\n\t\tdesk\n"),
    bad_config("2 2 UnknownScreen", b"section: links\n\tdesk:\n"),
    bad_config("6 8 BadRange", DESK_LINKS + b"\t\tright(50,50) = desk\n"),
    bad_config("7 3 Overlap", DESK_LINKS + b"\t\tright(0,60) = desk\n\t\tright(50,100) = desk\n"),
    bad_config("2 2 UnknownOption", b"section: options\n\tcolour = blue\n"),
    bad_config("2 14 BadValue", b"section: options\n\theartbeat = -1\n"),
    bad_config("2 12 UnknownKey", b"section: options\n\tkeystroke(Nope) = lockCursorToScreen(on)\n"),
    bad_config("2 18 UnknownAction", b"section: options\n\tkeystroke(F1) = dance(on)\n"),
    bad_config("66 2 TooMany", b"section: screens\n" + b"".join(b"\ts%d:\n" % number for number in range(65))),
    *(Case(f"generate {n}", ["generate", str(n)], 0, "", sums) for n, sums in GENERATED),
    *replays(),
    *replays_without_room(),
    serve("no turn", row_texts.BEGIN, 0, 7, "turns spent"),
    serve("turns in which nobody comes", row_texts.BEGIN, 2, 7, "turns spent"),
    serve("a script that quits", "primary desk 1920 1080\nquit\n", 10, 0),
    serve("a script that is refused", row_texts.BEGIN + "key up 38\n", 0, 1, "script 3 NotDown"),
    serve("an output that nothing is written to", row_texts.BEGIN, 0, 7, "turns spent", stdout=FULL),
    *examples(),
]
