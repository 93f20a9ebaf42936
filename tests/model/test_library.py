"""Compares the plain model of the terminal with the library, on generated inputs.

Each input is played in pieces. Those with an odd number have a size of their own, and changes of the size between the pieces. Then these
are compared: the reports, the lines that scrolled off, the rows that left the main page at changes of the size, the text, the cursor with
its wrap flag, the kind of the held part, what is pending of UTF-8, the page that is shown, and whether pasted text is wanted in brackets.
Between sequences the repaint is compared, too, which shows the whole state, and under TERM=xterm that of both pages. After every 20th input
the model plays its repaint on a used terminal. In UTF-8 all characters are compared, too: their cells, as vt220.shown returns them.
"""
import pathlib

import inputs
import pytest
import repaint
import utf8
import vt220
from terminal import Terminal, size_of
from utf8 import Utf8Terminal
from xterm import Xterm

COUNT = 20000
# The model, the inputs and the repaint of each kind: the encoding and the terminal.
KINDS = {
    ("dec", "vt220"): (Terminal, inputs.Chance, repaint.repaint),
    ("utf-8", "vt220"): (Utf8Terminal, inputs.Utf8Chance, repaint.repaint),
    ("utf-8", "xterm"): (Xterm, inputs.XtermChance, repaint.session_repaint),
}
# A terminal that was used: what a repaint is played on.
USED = b"other\033[?40h\033[?3h\033[?47hpage\033[5;9r\033[3g\033[?69h\033[5;20s\0337\033[1m\033N\033[?2004h\033]title"


def of_model(model, steps):
    """Returns what a model shows after it has played steps, by name."""
    seen = {"reports": model.play(steps), "left": "".join(model.left_by_resizes), "log": "".join(model.scrolled_off), "text": model.text(), "held": model.held(),
            "cursor": (model.row, model.column, model.wrap_flag()), "pending": getattr(model, "pending", b""),
            "alternate": getattr(model, "is_alternate", False), "paste": getattr(model, "paste", False)}
    if model.sequence is None:
        seen["repaint"] = repaint.repaint(model)
        if isinstance(model, Xterm):
            seen["repaint of both pages"] = repaint.session_repaint(model)
    return seen


def rows_that_leave(library, rows):
    """Returns the rows that leave the main page if the screen gets so many. It goes by its own cursor, also while it isn't shown."""
    if not library.alternate():
        return "".join(library.row_text(row) for row in range(1, library.cursor().row - rows + 1))
    with library.copy() as main:
        main.feed(b"\030\033[?47l")
        return "".join(main.row_text(row) for row in range(1, main.saved().row - rows + 1))


def of_library(library, steps):
    """Returns the same of a terminal of the library."""
    reports, lines, left = b"", "", ""
    for step in steps:
        if isinstance(step, bytes):
            reported, logged = library.feed_log(step)
            reports, lines = reports + reported, lines + logged
        else:
            left += rows_that_leave(library, step[0])
            library.resize(*step)
    is_between = library.is_between()
    seen = {"reports": reports, "left": left, "log": lines, "text": library.text(), "held": "none" if is_between else library.held(),
            "cursor": tuple(library.cursor()), "pending": library.pending(), "alternate": library.alternate(), "paste": library.bracketed_paste()}
    if is_between:
        seen["repaint"] = library.repaint("vt220")
        if library.terminal == "xterm":
            seen["repaint of both pages"] = library.repaint()
    return seen


def compare(kind, size, steps, name):
    """Compares one input. Returns the model after it."""
    model = KINDS[kind][0](size_of(*size))
    wanted = of_model(model, steps)
    with vt220.Terminal(*kind, rows=size[0], columns=size[1]) as library:
        assert of_library(library, steps) == wanted, f"{name}, size {size}, steps {steps!r}"
    return model


def play_repaint(kind, model, name):
    """The repaint of a model leads a used one to its state, and reports nothing."""
    if model.sequence is None:
        other = KINDS[kind][0](model.size)
        other.feed(USED)
        reports = other.feed(KINDS[kind][2](model))
        assert (other.state(), reports) == (model.state() | ({"pending": b""} if kind[0] == "utf-8" else {}), b""), name


@pytest.mark.parametrize("kind", KINDS, ids="-".join)
def test_inputs(kind, seeds):
    for seed in seeds:
        model = compare(kind, *KINDS[kind][1](seed).generated(), f"seed {seed}")
        if seed % 20 == 1:
            play_repaint(kind, model, f"seed {seed}")


@pytest.mark.parametrize("kind", KINDS, ids="-".join)
def test_a_file(kind, pytestconfig):
    """The file of --input, or what a program recorded."""
    path = pathlib.Path(pytestconfig.getoption("--input") or pathlib.Path(__file__).parents[1] / "bench/recordings/mc-panels.raw")
    play_repaint(kind, compare(kind, (24, 80), [path.read_bytes()], path), path)


def test_characters():
    """The cells of each character whose width Python knows."""
    for character in filter(utf8.has_known_width, map(chr, range(0x80, 0x110000))):
        cells = utf8.cells_of(character)
        assert vt220.shown(character) == (utf8.glyph_of(character).ljust(cells) if cells else ""), f"U+{ord(character):04X}"
