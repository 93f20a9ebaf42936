"""The conformance vectors, as lib/rows/vectors.txt has them, the rows of lib/rows/sizes.txt, and the repaints of lib/rows/repaints.txt."""
import pathlib
import re
from typing import NamedTuple

LISTS = pathlib.Path(__file__).resolve().parent
AT_POWER_UP = {"text": "", "cursor": "1;1", "wrap": "0", "brush": "", "alternate": "0", "paste": "0", "bells": "0", "pending": b"", "reports": b"", "lines": ""}
ESCAPES = {b"e": b"\033", b"n": b"\n", b"r": b"\r", b"t": b"\t", b"\\": b"\\",
           b"H": b"\033(B\033*<\033+0\017", b"P": b'\033[0m\033[0"q', b"S": b"\033(B\033)B\033*<\033+<\017\033}"}


class Vector(NamedTuple):
    """A vector: `wanted` has a value for each name of AT_POWER_UP. `repaint` is None if no field has it. `differs` is how xterm differs, or nothing."""

    name: str
    encoding: str
    terminal: str
    input: bytes
    wanted: dict
    repaint: bytes | None
    differs: str

    def text(self):
        """Returns the screen as `vt220 text` writes it: 24 lines, without attributes."""
        lines = re.sub("\033\\[[0-9;]*m", "", self.wanted["text"]).split("\n")
        return "".join(line.rstrip(" ") + "\n" for line in lines + [""] * (24 - len(lines)))


class Sized(NamedTuple):
    """A row of sizes.txt. A size is a pair of rows and columns, and `second` is None if the first one stays. `wanted` is that of a vector. `left` is None
    if no field has it."""

    name: str
    encoding: str
    terminal: str
    first: tuple
    input: bytes
    second: tuple | None
    more: bytes
    wanted: dict
    left: str | None


def spelled(field, parts={}):
    """Returns the bytes that a field spells. In `parts` are those that a list names."""
    found = b""
    for escape, plain in re.findall(rb"\\(x..|\{[^}]*\}|.)|([^\\]+)", field.encode()):
        if escape[:1] == b"x":
            found += bytes.fromhex(escape[1:].decode())
        elif escape[1:-1].isdigit():
            found += found[-1:] * (int(escape[1:-1]) - 1)
        elif escape[:1] == b"{":
            found += parts[escape[1:-1].decode()]
        else:
            found += plain or ESCAPES[escape]
    return found


def value(name, field):
    """Returns a field's value: bytes, or text."""
    return spelled(field) if isinstance(AT_POWER_UP[name], bytes) else spelled(field).decode()


def lines_of(name):
    """Yields the fields of each line of a list."""
    for line in (LISTS / name).read_text(encoding="utf-8").splitlines():
        if not line.startswith("#"):
            yield line.split("\t")


def repaints():
    """Yields each row of repaints.txt: its name, its encoding and terminal, its size, its input, and its repaint, which is None if it has none."""
    for name, encoding, terminal, size, sent, *repaint in lines_of("repaints.txt"):
        yield name, (encoding, terminal), size_of(size), spelled(sent), spelled(repaint[0]) if repaint else None


def wanted_by(fields):
    """Returns what fields name, by their names: the value of each name of AT_POWER_UP, the repaint, or None, and how xterm differs."""
    named = dict(field.split("=", 1) for field in fields)
    differs, repaint = named.pop("differs", ""), spelled(named.pop("repaint")) if "repaint" in named else None
    return AT_POWER_UP | {of: value(of, field) for of, field in named.items()}, repaint, differs


def vectors(*kind):
    """Yields each vector of vectors.txt, or those of an encoding and a terminal."""
    for name, encoding, terminal, sent, *fields in lines_of("vectors.txt"):
        if kind in ((), (encoding, terminal)):
            yield Vector(name, encoding, terminal, spelled(sent), *wanted_by(fields))


def size_of(field):
    """Returns the rows and the columns of COLUMNSxROWS, or None for `-`."""
    return None if field == "-" else tuple(map(int, reversed(field.split("x"))))


def sizes():
    """Yields each row of sizes.txt."""
    for name, encoding, terminal, first, sent, second, more, *fields in lines_of("sizes.txt"):
        left = [spelled(field.removeprefix("left=")).decode() for field in fields if field.startswith("left=")]
        wanted = wanted_by(field for field in fields if not field.startswith("left="))[0]
        yield Sized(name, encoding, terminal, size_of(first), spelled(sent), size_of(second), spelled(more), wanted, *left or [None])
