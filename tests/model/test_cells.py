"""Compares the plain model of an xterm's cells, and the proved xterm, with lib/rows/cells.txt. If the profile differs on purpose, the cells are those of the profile."""
import re
import subprocess

import pytest
from cell_inputs import generated
from cells import cell_rows
from rows import TOP, singly
from terminal import size_of
from xterm_cells import NUMBERS, Cell, CellXterm, Pen, screen_spelled, state_shown

ROWS = list(cell_rows())
COUNT = 4000  # inputs
PROGRAM = TOP / "crates/cells/out/cells"
# The attributes in the order of the program's bits, and the numbers of DECSCUSR by shape and blinking.
BITS = ("bold", "faint", "italic", "underline", "double", "blink", "reverse", "invisible", "crossed")
SHAPES = {"01": "1", "00": "2", "11": "3", "10": "4", "21": "5", "20": "6"}


def played(size, steps):
    """Returns the model after steps. The lines that leave by a change of the size are in its log, too."""
    model = CellXterm(size_of(*size))
    model.left_by_resizes = model.scrolled_off
    model.play(steps)
    return model


def logged(model):
    return "".join(model.scrolled_off)


@pytest.mark.parametrize("is_whole", [True, False], ids=["whole", "singly"])
@pytest.mark.parametrize("row", ROWS, ids=lambda row: row.name)
def test_row(row, is_whole):
    model = played(row.size, row.steps() if is_whole else [part for step in row.steps() for part in (singly(step) if isinstance(step, bytes) else [step])])
    found = state_shown(model) | ({"cells": screen_spelled(model.cells, as_xterm=False)} if "cells" in row.here else {})
    wanted = row.wanted | row.here
    assert {of: found[of] for of in wanted} == wanted
    assert row.log in (None, logged(model))


def test_rules():
    """Each rule of docs/XTERM.md has a row."""
    rules = re.findall(r"^\*\*([^*]+)\.\*\*", (TOP / "docs/XTERM.md").read_text(), re.M)
    assert rules and {*rules} <= {row.name.split(":")[0] for row in ROWS}


def colour_of(number):
    return None if number < 0 else number if number < 256 else tuple((number - 256).to_bytes(3, "big"))


def cell_of(character, mark, other, wide, ink, paper, bits, protected):
    pen = Pen(**{name: bool(bits >> at & 1) for at, name in enumerate(BITS)}, ink=colour_of(ink), paper=colour_of(paper), protected=bool(protected))
    return Cell(chr(character) if character else "", "".join(map(chr, filter(None, (mark, other)))), 2 if wide else bool(character), pen)


def test_attributes():
    assert {*BITS} == {*NUMBERS}


def step_of(size, sent=b""):
    """Returns a step of the program's input."""
    rows, columns = size
    return bytes([columns, rows, *len(sent).to_bytes(2, "little"), *sent])


def xterm(size, steps, as_xterm):
    """Returns what the proved xterm has after bytes and changes of the size, by the names of lib/rows/cells.py, its log and its text. It has no title
    yet."""
    sent = step_of(size)
    for step in steps:
        size, played = (size, step) if isinstance(step, bytes) else (step, b"")
        sent += step_of(size, played)
    printed = subprocess.run([PROGRAM], input=sent, capture_output=True, check=True).stdout
    shown, state, log_len, lines = re.fullmatch(rb"(.*?)^(state .*?)\nlog (\d+)\n(.*)", printed, re.M | re.S).groups()
    log, text = lines[:int(log_len)].decode(), lines[int(log_len):].decode()
    rows, columns = size
    cells = shown.splitlines()
    screen = [[Cell()] * columns for _ in range(rows)]
    for line, column, *cell in (map(int, text.split()) for text in cells):
        screen[line - 1][column - 1] = cell_of(*cell)
    _, line, column, wrap, alternate, hidden, mouse, coding, focus, paste, shape, blinks = state.decode().split()
    return {"cells": screen_spelled(screen, as_xterm), "cursor": f"{line};{column}", "wrap": wrap, "alternate": alternate, "hidden": hidden, "mouse": mouse,
            "coding": coding, "focus": focus, "paste": paste, "shape": SHAPES[shape + blinks]}, log, text


@pytest.mark.parametrize("row", ROWS, ids=lambda row: row.name)
def test_xterm(row):
    (found, log, _), wanted = xterm(row.size, row.steps(), "cells" not in row.here), row.wanted | row.here
    assert found == {of: wanted[of] for of in found}
    assert row.log in (None, log)


def test_inputs(seeds):
    """The model and the proved xterm have the same after generated inputs."""
    for seed in seeds:
        _, size, steps = generated(seed, is_own=True)
        model = played(size, steps)
        (found, log, text), wanted = xterm(size, steps, True), state_shown(model)
        assert found == {of: wanted[of] for of in found}, f"seed {seed}, size {size}, {steps!r}"
        assert log == logged(model), f"seed {seed}, size {size}, {steps!r}"
        assert text == model.text(), f"seed {seed}, size {size}, {steps!r}"
