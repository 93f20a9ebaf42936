"""The rows of lib/rows/cells.txt: inputs of an xterm, and what real xterm then has in its cells."""
import itertools
import unicodedata
from typing import NamedTuple

from vectors import lines_of, size_of, spelled

AT_POWER_UP = {"cells": "", "cursor": "1;1", "wrap": "0", "alternate": "0", "title": b"", "mouse": "0", "coding": "0", "focus": "0", "paste": "0",
               "hidden": "0", "shape": "2"}
SHORT = {"\033": "\\e", "\n": "\\n", "\r": "\\r", "\t": "\\t", "\\": "\\\\"}
LONG_RUN = 16


class CellRow(NamedTuple):
    """`wanted` is what xterm has, by the names of AT_POWER_UP. `here` is what this profile has otherwise, and `differs` how xterm differs, or nothing."""

    name: str
    size: tuple
    sent: str
    then: dict
    wanted: dict
    differs: str
    here: dict

    def steps(self):
        """Returns what is played: bytes, a change of the size, and bytes."""
        change = [size_of(self.then["to"])] if "to" in self.then else []
        return [spelled(self.sent), *change, spelled(self.then.get("more", ""))]

    @property
    def log(self):
        """Returns the lines that leave at the top, or None if the row doesn't say."""
        return spelled(self.then["log"]).decode() if "log" in self.then else None


def value(name, field):
    return spelled(field) if name == "title" else spelled(field).decode()


def cell_rows():
    for name, size, sent, *fields in lines_of("cells.txt"):
        named = dict(field.split("=", 1) for field in fields)
        here = {of.removeprefix("here."): text for of, text in named.items() if of.startswith("here.")}
        yield CellRow(name, size_of(size), sent, {of: named[of] for of in ("to", "more", "log") if of in named},
                      AT_POWER_UP | {of: value(of, text) for of, text in named.items() if of in AT_POWER_UP}, named.get("differs", ""),
                      {of: value(of, text) for of, text in here.items()})


def written(text):
    """Returns a value as a row spells it. What would not be seen is spelled by its bytes, and a long run by its length."""
    if isinstance(text, bytes):
        text = text.decode(errors="replace")
    shown = "".join(run_written(character, len(list(run))) for character, run in itertools.groupby(text))
    return shown[:-1] + "\\x20" if shown.endswith(" ") else shown


def run_written(character, length):
    is_seen = character == " " or character.isprintable() and not unicodedata.category(character).startswith("M")
    shown = SHORT.get(character) or (character if is_seen else "".join(f"\\x{byte:02X}" for byte in character.encode()))
    return f"{shown}\\{{{length}}}" if length >= LONG_RUN and shown == character else shown * length


def line_of(row, wanted):
    """Returns the line of a row with these values."""
    size = "x".join(map(str, reversed(row.size)))
    fields = [f"{of}={text}" for of, text in row.then.items()]
    fields += [f"{of}={written(text)}" for of, text in wanted.items() if text != AT_POWER_UP[of]]
    fields += [f"differs={row.differs}"] if row.differs else []
    fields += [f"here.{of}={written(text)}" for of, text in row.here.items()]
    return "\t".join([row.name, size, row.sent, *fields]) + "\n"
