"""Recordings in each format, as their recorders write them, and what the program says of those that break."""
import json
import pathlib
import struct

TOP = pathlib.Path(__file__).resolve().parents[2]
RAW = sorted((TOP / "tests/bench/recordings").glob("*.raw"))
# The words whose output depends on the content alone. That of `events` depends on the recording.
WORDS = ("text", "reports", "repaint", "status", "show", "picture", "log", "trace", "content")
# The words that the specification names: they play their bytes as they are, and print their fault if the reader of the output ends early.
SPECIFIED = ("text", "reports", "repaint", "status")
TTYREC = "--format ttyrec has frames: a header of 12 bytes, and as many bytes as it says"
FIRST_LINE = "--format asciicast begins with a line '{\"version\": 2, ..}', or 3, or is an object of version 1"
EVENT = "--format asciicast has lines such as '[0.25, \"o\", \"text\"]'"
SCRIPT = "--format script begins with a line 'Script started on ..'"
LIKE_SCRIPT = "it looks like a recording by script: use --format script"
LIKE_TTYREC = "it looks like a recording by ttyrec: use --format ttyrec"
LIKE_ASCIICAST = "it looks like a recording by asciinema: use --format asciicast"
LIKE_RAW = "it looks like raw bytes: use --format raw"


def said(*lines):
    """Returns these lines as the program prints them on standard error."""
    return b"".join(f"vt220: {line}\n".encode() for line in lines)


def broken(place, reason, part="recording", name="standard input"):
    return said(f"the {part} is broken at byte {place}", f"{name}: {reason}")


def frames(*pieces):
    """Returns a ttyrec."""
    return b"".join(struct.pack("<III", seconds, micros, len(text)) + text for seconds, micros, text in pieces)


def lines(*values):
    """Returns values as lines of JSON."""
    return "".join(json.dumps(value) + "\n" for value in values).encode()


def cast_of(header):
    return lines(header, [0.5, "o", "one"], [9.5, "o", "two"])


def typescript(content, more=""):
    return f"Script started on 2026-11-24 10:00:00+00:00{more}\n{content}\nScript done on 2026-11-24 10:00:01+00:00\n".encode()


USUAL = {"version": 2, "width": 80, "height": 24}
# A recording in each format whose content is b"onetwo", and what raw bytes of its kind look like.
SESSION = typescript("onetwo", ' [COLUMNS="80" LINES="24"]')
RECORDINGS = (
    ("script", SESSION, LIKE_SCRIPT),
    ("ttyrec", frames((100, 0, b"one"), (109, 0, b"two")), LIKE_TTYREC),
    ("asciicast", cast_of(USUAL), LIKE_ASCIICAST),
    ("asciicast", cast_of({"version": 3, "term": {"cols": 132, "rows": 24}}), LIKE_ASCIICAST),
    ("raw", b"onetwo", None),
)
