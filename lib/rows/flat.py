#!/usr/bin/env python3
"""Writes the rows that the tests in C, Go and Rust read, so that these need no parser: a row a line, its fields separated by tabs, all bytes in hex.

    lib/rows/flat.py [DIRECTORY]     writes into DIRECTORY, or else into out/tests/rows/

A language is 0 for a VT220's bytes, 1 for UTF-8 and 2 for TERM=xterm. A setting has LNM, DECCKM, DECKPAM and S8C1T as its bits, from the highest.

screens.rows   the rows of vectors.txt, sizes.txt and repaints.txt: name, language, rows, columns, input, rows and columns to which the size changes then, or 0 and 0,
               more input, what the terminal then has, or -, and its repaint: bytes, `partial`, or -
updates.rows   those of updates.txt: name, rows, columns, what is shown, what is wanted, and what is sent: a word and its value
fields.rows    those of fields.txt: name, input, and each field
keys.rows      those of keys.txt and xterm-keys.txt: language, setting, key, and its bytes, `no key` or `no character`
"""
import os
import pathlib
import sys

sys.dont_write_bytecode = True
import xterm_keys
from vectors import LISTS, lines_of, repaints, size_of, sizes, spelled, vectors

LANGUAGES = {("dec", "vt220"): 0, ("utf-8", "vt220"): 1, ("utf-8", "xterm"): 2}


def described(wanted):
    """Returns what a terminal has, in the order of vectors.AT_POWER_UP: names and values."""
    is_hex = ("text", "pending", "reports", "lines")
    return " ".join(f"{name} {(value.encode() if isinstance(value, str) else value).hex() if name in is_hex else value}" for name, value in wanted.items())


def screens():
    for one in vectors():
        language = LANGUAGES[one.encoding, one.terminal]
        yield one.name, language, 24, 80, one.input, 0, 0, b"", described(one.wanted), one.repaint if one.repaint is not None else "-" if language else "partial"
    for one in sizes():
        yield one.name, LANGUAGES[one.encoding, one.terminal], *one.first, one.input, *(one.second or (0, 0)), one.more, described(one.wanted), "-"
    for name, kind, size, data, repaint in repaints():
        yield name, LANGUAGES[kind], *size, data, 0, 0, b"", "-", repaint if repaint is not None else "-"


def updates():
    for name, size, shown, wanted, sent in lines_of("updates.txt"):
        word, _, value = sent.partition("=")
        yield name, *size_of(size), spelled(shown), spelled(wanted), word, spelled(value) if word == "sent" else value


def fields():
    at_power_up = {f"stop.{column}": "0" for column in range(1, 133)}
    for name, data, *values in lines_of("fields.txt"):
        wanted = at_power_up | dict(value.split("=") for value in values)
        at_power_up = wanted if name == "power-up" else at_power_up
        yield name, bytes.fromhex(data), " ".join(f"{of}={wanted[of]}" for of in sorted(wanted))


def keys():
    """Exactly one row of keys.txt holds for a key under each setting. An xterm's other keys send what a VT220's send, but characters beyond ASCII."""
    lines = [line.split("\t") for line in (LISTS / "keys.txt").read_text(encoding="utf-8").splitlines() if line and line[0] != "#"]
    held = [(key, setting, sent) for marks, sent, *names in lines for key in names for setting in range(16)
            if all(mark in ("-", bit) for mark, bit in zip(marks, f"{setting:04b}"))]
    assert len({row[:2] for row in held}) == len(held) == 16 * len({row[0] for row in held})
    of_xterm = [(key, 4 * decckm + is_8bit, sent[decckm]) for is_8bit in range(2) for key, *sent in xterm_keys.rows(is_8bit) for decckm in range(2)]
    names = {key for key, *_ in of_xterm}
    for key, setting, sent in held:
        sent = sent if sent.startswith("no ") else bytes.fromhex(sent)
        yield 0, setting, key, sent
        if key not in names and key.isascii():
            yield 2, setting, key, sent
    for key, setting, sent in of_xterm:
        yield 2, setting, key, sent
        yield 2, setting, key.lower(), sent


def main():
    place = pathlib.Path(sys.argv[1] if len(sys.argv) > 1 else LISTS.parents[1] / "out/tests/rows")
    place.mkdir(parents=True, exist_ok=True)
    for table in (screens, updates, fields, keys):
        # Suites that run side by side write it, so it is never there in part.
        made = place / f"{table.__name__}.{os.getpid()}"
        made.write_text("".join("\t".join(field.hex() if isinstance(field, bytes) else str(field) for field in row) + "\n" for row in table()))
        made.rename(place / f"{table.__name__}.rows")


if __name__ == "__main__":
    main()
