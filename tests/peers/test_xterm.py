"""Compares real xterm (Debian: xterm, xvfb) with lib/rows/cells.txt, and the model of an xterm's cells with it.

`-n 0 -k test_row --write` writes what xterm has into the rows. `--count N` compares generated inputs, and `--file FILE` recordings, at four places of
each. Of generated inputs about 4 in 1,000 differ, by the rules that docs/XTERM.md lists as differences. Those in the wrap flag on two columns don't
count: whether a wrap is pending is found by writing a character, which shows nothing there.
"""
import pathlib

import pytest
from cell_inputs import generated
from cells import cell_rows, line_of
from conftest import TOP, version
from terminal import size_of as screen_size
from terminals import x_server
from vectors import size_of
from xterm_cells import CellXterm, state_shown
from xterm_screen import RealXterm, Shown

ROWS = TOP / "lib/rows/cells.txt"
PLACES = 4
MOUSE, CODING = (9, 1000, 1002, 1003), (1005, 1006, 1015, 1016)
pytestmark = pytest.mark.skipif(not version("xterm"), reason="xterm isn't installed")


def values(shown):
    """Returns what xterm shows, by the names of lib/rows/cells.py."""
    modes = shown.modes

    def first(numbers):
        return str(next((number for number in numbers if modes[number]), 0))

    return {"cells": shown.cells, "cursor": "{};{}".format(*shown.place), "wrap": str(int(shown.wrap)), "alternate": str(int(modes[47])),
            "title": shown.title, "mouse": first(MOUSE), "coding": first(CODING), "focus": str(int(modes[1004])), "paste": str(int(modes[2004])),
            "hidden": str(int(not modes[25])), "shape": str(shown.shape)}


@pytest.fixture(scope="session")
def shows():
    """Returns what a real xterm shows after steps. It is started again if it has ended, as some bytes end it."""
    with x_server("3600x3600x24") as display:
        xterms = [RealXterm(display)]

        def shows(size, steps):
            try:
                return values(Shown(xterms[-1], size, steps))
            except (EOFError, BrokenPipeError, ConnectionResetError):
                xterms[-1].close()
                xterms.append(RealXterm(display))
                raise

        yield shows
        xterms[-1].close()


@pytest.mark.parametrize("row", cell_rows(), ids=lambda row: row.name)
def test_row(row, shows, is_written):
    found = shows(row.size, row.steps())
    if is_written:
        lines = ROWS.read_text().splitlines(True)
        [at] = [at for at, line in enumerate(lines) if line.startswith(f"{row.name}\t")]
        ROWS.write_text("".join([*lines[:at], line_of(row, found), *lines[at + 1:]]))
    assert is_written or {of: found[of] for of in row.wanted} == row.wanted


def compare(shows, size, steps):
    """Compares the model with xterm."""
    model = CellXterm(screen_size(*size))
    model.play(steps)
    wanted = state_shown(model)
    found = shows(size, steps)
    assert {of: found[of] for of in wanted} == wanted, f"size {size}, steps {steps!r}"


def test_input(seed, shows):
    _, size, steps = generated(seed)
    compare(shows, size, steps)


def test_recording(recording, part, shows, pytestconfig):
    """Compares the beginning of a recording, up to the last sequence or line that begins before a place."""
    data = pathlib.Path(recording).read_bytes()
    end = len(data) * part // PLACES
    begun = data if end == len(data) else data[:max(data.rfind(byte, 0, end) for byte in (b"\x1b", b"\n"))]
    compare(shows, size_of(pytestconfig.getoption("--size")), [begun])


def pytest_generate_tests(metafunc):
    first, count = (metafunc.config.getoption(name) for name in ("seed", "count"))
    if metafunc.function is test_input:
        metafunc.parametrize("seed", range(first, first + count))
    if metafunc.function is test_recording:
        metafunc.parametrize("recording, part", [(file, part) for file in metafunc.config.getoption("file") for part in range(1, PLACES + 1)])
