"""Reads the xterm's screen as text with SGR sequences, and as a picture, back to cells, and compares them with those of the plain model.

The text is played on another model. The picture is taken apart by the attributes of its elements.
"""
import re
import subprocess
import unicodedata
import xml.etree.ElementTree as tree
from dataclasses import replace
from typing import NamedTuple

import pytest
from cell_inputs import generated
from cells import cell_rows
from rows import TOP
from terminal import size_of
from xterm_cells import Cell, CellXterm, Pen

ROWS = list(cell_rows())
COUNT = 1000  # inputs
PROGRAM = TOP / "crates/rendered/out/rendered"
SVG = "{http://www.w3.org/2000/svg}"
INK, PAPER = "#d0d0d0", "#101010"
# The classes of a text by the attribute that each is.
CLASSES = {"vt220-b": "bold", "vt220-f": "faint", "vt220-i": "italic", "vt220-u": "underline", "vt220-d": "double", "vt220-k": "blink", "vt220-s": "crossed"}
STEPS = (0, 95, 135, 175, 215, 255)


def rendered(size, data, what):
    """Returns what the program prints: `s` the text with SGR sequences, `p` the picture."""
    rows, columns = size
    return subprocess.run([PROGRAM], input=bytes([columns, rows]) + what.encode() + data, capture_output=True, check=True).stdout


def played(size, data):
    model = CellXterm(size_of(*size))
    model.play([data])
    return model


def kept(cell):
    """Returns a cell as it is shown: without protection, and without the foreground of what is otherwise a plain space."""
    cell = replace(cell, pen=replace(cell.pen, protected=False))
    return Cell() if replace(cell, pen=replace(cell.pen, ink=None)) == Cell() else cell


def inputs():
    for row in ROWS:
        first, *then = row.steps()
        yield row.name, row.size, first


class Drawn(NamedTuple):
    """What a picture shows in a column: the character with its marks, the colours of the text and behind it, and the attributes of the text."""

    text: str = ""
    ink: object = None
    paper: object = None
    attributes: frozenset = frozenset()


def colour_of(value):
    """Returns a colour of the model by the way that a picture has it. The first 16 have a class."""
    if isinstance(value, tuple):
        return "#%02x%02x%02x" % value
    if value < 16:
        return f"vt220-{value}"
    if value >= 232:
        return "#%02x%02x%02x" % ((8 + 10 * (value - 232),) * 3)
    return "#%02x%02x%02x" % tuple(STEPS[(value - 16) // of % 6] for of in (36, 6, 1))


def drawn_of(cell, ink, paper):
    """Returns what a picture shows of a cell of the model. A second cell shows what is behind it."""
    pen = cell.pen
    front, behind = (default if colour is None else colour_of(colour) for colour, default in ((pen.ink, ink), (pen.paper, paper)))
    if pen.reverse:
        front, behind = behind, front
    if not cell.character or pen.invisible or kept(cell) == Cell():
        return Drawn(paper=behind)
    text = re.sub("[\ufffe\uffff]", "\ufffd", cell.character + cell.marks)
    return Drawn(text, front, behind, frozenset(name for name in CLASSES.values() if getattr(pen, name)))


class Picture:
    """The parts of a picture, by rows and columns from 0."""

    def __init__(self, document):
        root = tree.fromstring(document)
        self.title, self.alternative, self.style, group = root.findtext(f"{SVG}title"), root.findtext(f"{SVG}desc"), root.findtext(f"{SVG}style"), root[-1]
        under, *elements = group
        self.ink, self.paper, self.cursor, self.cells, self.texts = group.get("fill"), under.get("fill"), None, {}, []
        assert under.attrib == {"fill": self.paper, "x": "-10", "y": "-10", "width": "100%", "height": "100%"}
        for element in elements:
            (self.read_text if element.tag == f"{SVG}text" else self.read_rectangle)(element)

    def at(self, place):
        return self.cells.get(place, Drawn(paper=self.paper))

    def fill(self, element, default):
        """Returns the colour of an element: that of its class or of its attribute."""
        named = [name for name in element.get("class", "").split() if re.fullmatch(r"vt220-\d+", name)]
        assert len(named) + ("fill" in element.attrib) <= 1
        return named[0] if named else element.get("fill", default)

    def read_rectangle(self, element):
        x, y, width, height = (int(element.get(name)) for name in ("x", "y", "width", "height"))
        assert (x % 10, y % 18, width % 10, height) == (0, 0, 0, 18)
        if element.get("fill") == "none":
            assert self.cursor is None
            self.cursor = (y // 18, x // 10, width // 10)
            return
        for column in range(x // 10, (x + width) // 10):
            assert (y // 18, column) not in self.cells
            self.cells[y // 18, column] = Drawn(paper=self.fill(element, self.ink))

    def read_text(self, element):
        x, y, length = (int(element.get(name)) for name in ("x", "y", "textLength"))
        assert (x % 10, (y - 13) % 18, length % 10, element.get("lengthAdjust")) == (0, 0, 0, "spacingAndGlyphs")
        classes = [name for name in element.get("class").split() if not re.fullmatch(r"vt220-\d+", name)]
        assert classes[0] == "vt220-text" and set(classes[1:]) <= set(CLASSES)
        row, first, columns, text = y // 18, x // 10, length // 10, element.text
        # A run has a character in each column, or is one character with its marks.
        parts = [*text] if len(text) == columns and not (columns == 2 and is_one(text)) else [text] + [""] * (columns - 1)
        for column, part in enumerate(parts, first):
            before = self.at((row, column))
            assert not before.text
            if part:
                self.cells[row, column] = Drawn(part, self.fill(element, self.ink), before.paper, frozenset(CLASSES[name] for name in classes[1:]))
        self.texts.append((row, first, columns, text))


def is_one(text):
    return all(unicodedata.category(mark).startswith("M") for mark in text[1:])


def check(name, size, data):
    model = played(size, data)
    # The text, read by another model. The last LF would scroll.
    again = played(size, rendered(size, data, "s")[:-1].replace(b"\n", b"\r\n"))
    wanted, found = ([[kept(cell) for cell in line] for line in terminal.cells] for terminal in (model, again))
    assert found == wanted, name
    # The picture.
    picture, is_reverse = Picture(rendered(size, data, "p")), "DECSCNM" in model.modes
    assert (picture.ink, picture.paper) == ((PAPER, INK) if is_reverse else (INK, PAPER))
    places = {(row, column): cell for row, line in enumerate(model.cells) for column, cell in enumerate(line)}
    assert {place: picture.at(place) for place in places} == {place: drawn_of(cell, picture.ink, picture.paper) for place, cell in places.items()}, name
    assert set(picture.cells) <= set(places)
    assert [line.rstrip(" ") for line in picture.alternative.split("\n")[:-1]] == [re.sub("[\ufffe\uffff]", "\ufffd", line) for line in model.text().split("\n")[:-1]]


@pytest.mark.parametrize("name, size, data", inputs(), ids=[row.name for row in ROWS])
def test_row(name, size, data):
    check(name, size, data)


def test_inputs(seeds):
    for seed in seeds:
        name, size, (data, *_) = generated(seed, is_own=True)
        check(f"{name}: {data!r}", size, data)


# An input at 8x2, and all texts and the first rectangles of its picture.
ELEMENTS = [
    ("a wide character is alone, over two columns", "a日b", ["<text class='vt220-text' x='0' y='13' textLength='10'>a", "<text class='vt220-text' x='10' y='13' textLength='20'>日",
                                                            "<text class='vt220-text' x='30' y='13' textLength='10'>b"]),
    ("a character with marks is alone", "ae\u0301b", ["<text class='vt220-text' x='0' y='13' textLength='10'>a", "<text class='vt220-text' x='10' y='13' textLength='10'>e\u0301",
                                                   "<text class='vt220-text' x='20' y='13' textLength='10'>b"]),
    ("drawing and letters are a run", "é─Жπ→", ["<text class='vt220-text' x='0' y='13' textLength='50'>é─Жπ→"]),
    ("letters of the other direction are alone", "של", ["<text class='vt220-text' x='0' y='13' textLength='10'>ש", "<text class='vt220-text' x='10' y='13' textLength='10'>ל"]),
    ("red, green and blue", "\033[38;2;1;2;255;48;2;171;16;0mx", ["<rect fill='#ab1000' x='0' y='0' width='10' height='18'>",
                                                                 "<text class='vt220-text' fill='#0102ff' x='0' y='13' textLength='10'>x"]),
    ("the first 16 have a class, the others don't", "\033[31;104mx\033[38;5;16;48;5;255my",
     ["<rect class='vt220-12' x='0' y='0' width='10' height='18'>", "<text class='vt220-text vt220-1' x='0' y='13' textLength='10'>x",
      "<rect fill='#eeeeee' x='10' y='0' width='10' height='18'>", "<text class='vt220-text' fill='#000000' x='10' y='13' textLength='10'>y"]),
    ("reverse exchanges the colours", "\033[7;31;44mx", ["<rect class='vt220-1' x='0' y='0' width='10' height='18'>", "<text class='vt220-text vt220-4' x='0' y='13' textLength='10'>x"]),
    ("reverse of a default colour", "\033[7;31mx\033[39;44my", ["<rect class='vt220-1' x='0' y='0' width='10' height='18'>", "<text class='vt220-text' fill='#101010' x='0' y='13' textLength='10'>x",
                                                             "<rect x='10' y='0' width='10' height='18'>", "<text class='vt220-text vt220-4' x='10' y='13' textLength='10'>y"]),
    ("each attribute has a class", "\033[1;2;3;4;5;9;21mx", ["<text class='vt220-text vt220-b vt220-u vt220-k vt220-f vt220-i vt220-d vt220-s' x='0' y='13' textLength='10'>x"]),
    ("the text of an invisible cell is left out", "\033[8;44msecret", ["<rect class='vt220-4' x='0' y='0' width='60' height='18'>"]),
    ("a reverse screen exchanges the default colours alone", "\033[?5h\033[7;31mx\033[m\033[44my",
     ["<rect class='vt220-1' x='0' y='0' width='10' height='18'>", "<text class='vt220-text' fill='#d0d0d0' x='0' y='13' textLength='10'>x",
      "<rect class='vt220-4' x='10' y='0' width='10' height='18'>", "<text class='vt220-text' x='10' y='13' textLength='10'>y"]),
    ("a space with a foreground alone shows nothing", "\033[31m  \033[mx", ["<text class='vt220-text' x='20' y='13' textLength='10'>x"]),
    ("what XML has other uses for, and what it lacks", "<&>'\"\uffff\ufffe", ["<text class='vt220-text' x='0' y='13' textLength='50'>&lt;&amp;&gt;'\"",
                                                                     "<text class='vt220-text' x='50' y='13' textLength='10'>\ufffd", "<text class='vt220-text' x='60' y='13' textLength='10'>\ufffd"]),
]


@pytest.mark.parametrize("sent, wanted", [row[1:] for row in ELEMENTS], ids=[row[0] for row in ELEMENTS])
def test_elements(sent, wanted):
    document = rendered((2, 8), sent.encode() + b"\033[?25l", "p").decode()
    found = re.findall(r"^<(?:rect|text).*", document, re.M)[1:]
    assert [line.replace(" lengthAdjust='spacingAndGlyphs'", "").removesuffix("</text>").replace("/>", ">") for line in found] == wanted


@pytest.mark.parametrize("sent, wanted", [("ab\033[1;2H", (0, 1, 1)), ("日本\033[1;3H", (0, 2, 2)), ("日本\033[1;4H", (0, 2, 2)), ("x\033[?25l", None)])
def test_cursor(sent, wanted):
    assert Picture(rendered((2, 8), sent.encode(), "p")).cursor == wanted


def test_style():
    """The style names the first 16 colours, which a page may give."""
    style = Picture(rendered((2, 8), b"", "p")).style
    named = re.findall(r"^\.vt220-(\d+)\{fill:(#[0-9a-f]{6});fill:var\(--vt220-\1,\2\)\}$", style, re.M)
    assert [int(index) for index, _ in named] == [*range(16)]
