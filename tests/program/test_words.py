"""The traces of each vector and recording, and the names in them.

The events of a trace, spelled, are those of its input: they have the same trace, screen, reports and repaint. Each name is that of the tables of
docs/SPECIFICATION.md.
"""
import itertools
import re

import pytest
from samples import RAW, TOP
from vectors import vectors

inputs = pytest.mark.parametrize("data", [*(pytest.param(one.input, id=one.name) for one in vectors("dec", "vt220")), *(pytest.param(path.read_bytes(), id=path.name) for path in RAW)])


def rows_of(title):
    """Returns the cells of each row of the table of the specification that begins with this title."""
    lines = (TOP / "docs/SPECIFICATION.md").read_text().partition(f"\n| {title} |\n")[2].splitlines()
    rows = itertools.takewhile(lambda line: line.startswith("|"), lines[1:])
    return [[cell.strip().replace("\\|", "|") for cell in re.split(r"(?<!\\)\|", row)[1:-1]] for row in rows]


def names_of(rows):
    """Returns the name of each function of these rows, and the words of the bytes that ask for it."""
    for spellings, names, *_ in rows:
        names = re.sub(r" \([^)]*\)", "", names).split(", ")
        yield from zip(names, map(str.split, spellings.split(", ")), strict=True)


def functions():
    """Returns what ends each function by its name, and an input for each: controls, escape sequences, control sequences with the values 0 to 99."""
    controls, escapes, sequences, inputs = {}, {}, {}, []
    for name, (first, *words) in names_of(rows_of("Bytes | Name | Effect") + rows_of("Bytes | Name | Report after CSI")):
        if first == "ESC" and words[-1] != "final":
            escapes[name] = "".join(words).replace("SP", " ")
            inputs.append((name, f"\033{escapes[name]}"))
        elif first == "CSI":
            sequences[name] = "".join(word for word in words[:-1] if len(word) == 1 and " " <= word <= "/") + words[-1]
            marker = words[0] if words[0] in ("<", "=", ">", "?") else ""
            inputs.append((name, "".join(f"\033[{marker}{value}{sequences[name]}" for value in range(100))))
        elif first != "ESC":
            controls[name] = int(first, 16)
            inputs.append((name, chr(controls[name])))
    return controls, escapes, sequences, inputs


CONTROLS, ESCAPES, SEQUENCES, INPUTS = functions()
SETS = {name: final.strip("`") for name, final, _ in rows_of("Set | Final byte | Glyphs")}
SLOTS = "()*+"


def bytes_of(column):
    """Reads a byte as text: itself, or \\x and two hexadecimal digits."""
    return re.sub(rb"\\x(..)", lambda it: bytes([int(it[1], 16)]), column.encode())


def spelled(name, column):
    """Returns the bytes of an event by its line of the trace."""
    if name in ("text", "ignored"):
        return bytes_of(column)
    if name in CONTROLS:
        return bytes([CONTROLS[name]])
    if name in ESCAPES:
        return b"\033" + ESCAPES[name].encode()
    if name.startswith("SCS G"):
        return f"\033{SLOTS[int(name[5])]}{SETS[name[7:]]}".encode()
    return b"\033[" + column.encode() + SEQUENCES[name].encode()


def traced(trace):
    """Returns the lines of a trace, without places and reports."""
    lines = [line.split("\t") for line in trace.decode().splitlines()]
    return [(name, column) for _, name, column in lines if name != "report"]


def events_of(lines):
    """Returns the events of a trace's lines. What is no event is left out, and a text goes on behind it."""
    events = []
    for name, column in lines:
        if name == "text" and events and events[-1][0] == "text":
            events[-1] = (name, events[-1][1] + column)
        elif not name.startswith("ignored "):
            events.append((name, column))
    return events


@inputs
def test_events_of_the_trace_spelled(run, data):
    events = events_of(traced(run("trace --quiet", data=data).out))
    again = b"".join(spelled(*event) for event in events)
    assert traced(run("trace", data=again).out) == events
    for word in ("text", "reports"):
        assert run(word, data=again).out == run(word, data=data).out
    repaint = run("repaint", data=data)
    assert repaint.status or run("repaint", data=again).out == repaint.out


SETS_IN_SLOTS = [(f"SCS G{slot} {name}", f"\033{inter}{final}") for slot, inter in enumerate(SLOTS) for name, final in SETS.items()]


@pytest.mark.parametrize("name, text", INPUTS + SETS_IN_SLOTS)
def test_name_of_the_specification(run, name, text):
    named = {name for name, _ in traced(run("trace", data=text.encode("latin-1")).out)}
    assert named - {"ignored"} == {name}
