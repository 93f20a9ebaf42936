"""An xterm with cells of its own, by docs/XTERM.md. Syntax, cursor, margins, pages and sizes are those of xterm.py.

A cell has a character with up to two marks, a width, two colours and attributes. Nothing here is shared with the crates.
"""
from dataclasses import dataclass, replace

from terminal import BEL, ESC, Saved, Size
from utf8 import characters_of
from xterm import Xterm

MOST_MARKS = 2
MOST_TITLE_BYTES = 256
SHAPES = ("block", "underline", "bar")
C1_CONTROLS = "0080-009F"
FORMATS = "200B-200F 202A-202E 2060-2064 2066-206F FEFF FFF9-FFFB"
WITHOUT_EFFECT = characters_of(f"{C1_CONTROLS} {FORMATS}")

# A colour is None, the default, or its index in the palette, or its red, green and blue.
Colour = int | tuple | None


@dataclass(frozen=True)
class Pen:
    """What a character is written with. `ink` and `paper` are the colours of the foreground and the background."""

    bold: bool = False
    faint: bool = False
    italic: bool = False
    underline: bool = False
    double: bool = False
    blink: bool = False
    reverse: bool = False
    invisible: bool = False
    crossed: bool = False
    ink: Colour = None
    paper: Colour = None
    protected: bool = False


@dataclass(frozen=True)
class Cell:
    """A character of width 2 is in two cells. The second one has no character, and the width 0."""

    character: str = " "
    marks: str = ""
    width: int = 1
    pen: Pen = Pen()

    def space(self):
        """Returns the space that keeps the look of this cell."""
        return Cell(pen=self.pen)


PLAIN = Pen()
PLAIN_BLANK = Cell()
SET_BY = {1: "bold", 2: "faint", 3: "italic", 4: "underline", 5: "blink", 6: "blink", 7: "reverse", 8: "invisible", 9: "crossed", 21: "double"}
RESET_BY = {22: ("bold", "faint"), 23: ("italic",), 24: ("underline", "double"), 25: ("blink",), 27: ("reverse",), 28: ("invisible",), 29: ("crossed",)}
# SGR's number of each attribute, in the order in which a look is spelled.
NUMBERS = {"bold": 1, "faint": 2, "italic": 3, "underline": 4, "blink": 5, "reverse": 7, "invisible": 8, "crossed": 9, "double": 21}
LONG_COLOURS = {38: "ink", 48: "paper", 58: None}
LONG_FORMS = {2: 3, 5: 1}


# SGR.


def long_colour(values):
    """Returns the colour after 38, 48 or 58, or None for none, and how many parameters belong to it."""
    form, *components = values or [0]
    length = LONG_FORMS.get(form, 0)
    components = (components + [0] * length)[:length]
    if not length or max(components) > 255:
        return None, 1 + length
    return (components[0] if form == 5 else tuple(components)), 1 + length


def short_colour(number):
    """Returns the name and the value that 30 to 49 and 90 to 107 set, or None."""
    for first, name, index in ((30, "ink", 0), (40, "paper", 0), (90, "ink", 8), (100, "paper", 8)):
        if first <= number < first + 8:
            return name, number - first + index
    return {39: ("ink", None), 49: ("paper", None)}.get(number)


def changed_by(pen, number):
    """Returns a pen after one number of SGR that begins no long colour."""
    if number == 0:
        return Pen(protected=pen.protected)
    if number in SET_BY:
        return replace(pen, **{SET_BY[number]: True})
    if number in RESET_BY:
        return replace(pen, **dict.fromkeys(RESET_BY[number], False))
    named = short_colour(number)
    return replace(pen, **dict([named])) if named else pen


def rendered(pen, values):
    """Returns a pen after SGR."""
    at = 0
    while at < len(values):
        number, at = values[at], at + 1
        if number not in LONG_COLOURS:
            pen = changed_by(pen, number)
            continue
        colour, length = long_colour(values[at:])
        at += length
        if colour is not None and LONG_COLOURS[number]:
            pen = replace(pen, **{LONG_COLOURS[number]: colour})
    return pen


# Rows of cells. A character is parted if an edit separates its two cells.


def part(line, at, space):
    """Makes spaces of a wide character that is in the cells before and at an index. `space` returns the space of a cell."""
    if 0 < at < len(line) and line[at].width == 0:
        line[at - 1:at + 1] = [space(line[at - 1])] * 2


class CellXterm(Xterm):
    """The state beside that of xterm.py: the mouse's mode and coding are their numbers or 0, the shape is 'block', 'underline' or 'bar'."""

    blank = PLAIN_BLANK

    def __init__(self, size=Size()):
        self.title, self.string, self.cut_string = b"", None, None
        super().__init__(size)

    def power_up(self, width=None):
        super().power_up(width)
        self.plain_pens()
        self.other_saved = Saved(brush=PLAIN)
        self.mouse = self.coding = 0
        self.focus = self.synchronized = False
        self.plain_cursor()

    def plain_pens(self):
        self.brush, self.saved = PLAIN, Saved(brush=PLAIN)

    def plain_cursor(self):
        self.shape, self.is_blinking = "block", False

    def soft_reset(self):
        super().soft_reset()
        self.plain_pens()
        self.plain_cursor()

    # Blank cells.

    def erased(self, _=None):
        """Returns the cell that comes in: a space with the pen's background, and nothing else of the pen."""
        return Cell(pen=Pen(paper=self.brush.paper))

    # Changes of the size, pages and the width.

    def cut_row(self, line, width):
        """A character that is parted leaves a space with its look."""
        line = list(line)
        part(line, width, Cell.space)
        return super().cut_row(line, width)

    def column_mode(self, width):
        super().column_mode(width)
        self.cells = self.erased_cells()

    def show(self, is_alternate):
        """Shows a page. If the pages are exchanged, a pending wrap is dropped unless the right margin is the last column."""
        if is_alternate != self.is_alternate:
            super().show(is_alternate)
            self.drop_wrap_left_of_edge()

    def show_page(self, _, is_alternate):
        """?47."""
        self.show(is_alternate)

    def restore(self):
        """DECRC. A pending wrap comes back if the right margin is the last column."""
        super().restore()
        self.drop_wrap_left_of_edge()

    def drop_wrap_left_of_edge(self):
        if self.right() < self.width:
            self.wrap = False

    @staticmethod
    def text_of(line):
        """Returns the text of a row, with LF. An invisible character is a space for each of its cells."""
        shown = [" " * cell.width if cell.pen.invisible else cell.character + cell.marks for cell in line]
        return "".join(shown).rstrip(" ") + "\n"

    # Strings: the title.

    def begin(self, byte):
        super().begin(byte)
        if self.held() == "string":
            self.string = b"" if self.sequence["name"] == "OSC" else None

    def take(self, byte):
        before = self.cut_string
        super().take(byte)
        is_intermediate = 0x20 <= byte <= 0x2F
        if before is not None and (self.held() != "escape" or is_intermediate):
            if byte == ord("\\"):
                self.end_string(before)
            self.cut_string = None

    def take_in_string(self, byte, held):
        if byte == ESC:
            self.cut_string = self.string
        elif byte == BEL:
            self.end_string(self.string)
        elif self.string is not None:
            self.string += bytes([byte])
        super().take_in_string(byte, held)

    def take_character(self, character):
        if self.held() == "string" and not character.isascii():
            if self.string is not None:
                self.string += character.encode()
        else:
            if not character.isascii():
                self.cut_string = None
            super().take_character(character)

    def end_string(self, string):
        """Carries out OSC 0 and OSC 2."""
        if string is None:
            return
        number, _, text = string.decode().partition(";")
        if number == "" or number.isdecimal() and int(number) in (0, 2):
            self.title = title_of(text)

    # Modes.

    def change_mode(self, number, is_private, is_set):
        if is_private and number in NUMBER_MODES:
            NUMBER_MODES[number](self, number, is_set)
        else:
            super().change_mode(number, is_private, is_set)

    def want_mouse(self, number, is_wanted):
        self.mouse = number if is_wanted else 0

    def code_mouse(self, number, is_wanted):
        if is_wanted:
            self.coding = number
        elif self.coding == number:
            self.coding = 0

    def want_focus(self, _, is_wanted):
        self.focus = is_wanted

    def synchronize(self, _, is_wanted):
        self.synchronized = is_wanted

    def blink_cursor(self, _, is_wanted):
        self.is_blinking = is_wanted

    def shape_cursor(self, number):
        """DECSCUSR."""
        if number <= 6:
            number = max(number, 1)
            self.shape, self.is_blinking = SHAPES[(number - 1) // 2], number % 2 == 1

    def shape_number(self):
        """Returns the number of DECSCUSR that gives the cursor this shape."""
        return 2 * SHAPES.index(self.shape) + (1 if self.is_blinking else 2)

    # Control sequences.

    def control_sequence(self, marker, values, intermediate, final):
        name = marker + intermediate + final
        if name == "m":
            self.brush = rendered(self.brush, values)
        elif name == "b":
            self.repeat(max(1, values[0]))
        elif name == " q":
            self.shape_cursor(values[0])
        else:
            super().control_sequence(marker, values, intermediate, final)

    def escape(self, intermediate, final):
        super().escape(intermediate, final)
        if intermediate + final == "#8":
            self.cells = [[Cell("E")] * self.width for _ in range(self.size.rows)]

    # Moving the cursor.

    def tab(self):
        """A pending wrap goes to the right margin. It is dropped if the margin parts a character there."""
        super().tab()
        line, right = self.cells[self.row - 1], self.right()
        if right < self.width and line[right].width == 0:
            self.wrap = False

    # Writing.

    def write_character(self, character, cells):
        if cells == 0:
            if character not in WITHOUT_EFFECT:
                self.join(character)
        elif self.write(character, cells):
            self.single_shift = None

    def write(self, character, width=1):
        """Writes a character. Returns whether there was room: a wide one isn't written in the last column without DECAWM."""
        if self.wrap:
            self.index()
            self.column = self.left()
        if width == 2 and self.is_at_end():
            if "DECAWM" not in self.modes:
                return False
            self.next_line()
        if "IRM" in self.modes and self.is_between():
            at, end = self.column - 1, self.right()
            self.move_cells(self.cells[self.row - 1], at, end, min(width, end - at), True)
        self.put(character, width)
        self.column += width
        if self.column > (last := self.end_from(self.column - width)):
            self.column, self.wrap = last, "DECAWM" in self.modes
        return True

    def put(self, character, width):
        line, at = self.cells[self.row - 1], self.column - 1
        part(line, at, self.erased)
        part(line, at + width, self.erased)
        line[at] = Cell(character, "", width, self.brush)
        if width == 2:
            line[at + 1] = Cell("", "", 0, self.brush)

    def end_from(self, column):
        """Returns the last column that writing reaches from a column."""
        return self.right() if column <= self.right() else self.width

    def cell_before(self):
        """Returns the index of the cell that a mark joins: the one before the cursor, or under it in column 1 and if a wrap is pending."""
        at = self.column - 1 if self.wrap or self.column == 1 else self.column - 2
        return at - (self.cells[self.row - 1][at].width == 0)

    def join(self, mark):
        line, at = self.cells[self.row - 1], self.cell_before()
        if len(line[at].marks) < MOST_MARKS:
            line[at] = replace(line[at], marks=line[at].marks + mark)

    def repeat(self, n):
        """REP: without the marks, and not past the end of the row."""
        if self.column == 1 and not self.wrap:
            return
        cell = self.cells[self.row - 1][self.cell_before()]
        room = self.right() - self.left() + 1 if self.wrap else self.last_reached() - self.column + 1
        for _ in range(min(n, room // cell.width)):
            self.write(cell.character, cell.width)

    # Editing.

    def move_cells(self, line, at, end, n, is_insert):
        for border in (at, end - n, end) if is_insert else (at, at + n, end):
            part(line, border, self.erased)
        super().move_cells(line, at, end, n, is_insert)

    def erase_cells(self, line, start, end):
        part(line, start, self.erased)
        part(line, end, self.erased)
        super().erase_cells(line, start, end)

    def erase_cell(self, line, at, is_selective):
        """A protected cell stays in DECSED and DECSEL. Of others they make spaces with their look, of a wide character as a whole."""
        if not is_selective:
            self.erase_cells(line, at, at + 1)
        elif not line[at].pen.protected:
            part(line, at, Cell.space)
            part(line, at + 1, Cell.space)
            line[at] = line[at].space()

    def scroll(self, first, n):
        """A character that a margin parts becomes spaces with its look."""
        for line in self.cells[first - 1:self.bottom]:
            part(line, self.left() - 1, Cell.space)
            part(line, self.right(), Cell.space)
        super().scroll(first, n)


def title_of(text):
    """Returns the bytes of a title: controls are '?', and it ends before the character that would be past the limit."""
    shown = "".join("?" if ord(c) < 0x20 or 0x7F <= ord(c) < 0xA0 else c for c in text)
    return shown.encode()[:MOST_TITLE_BYTES].decode(errors="ignore").encode()


NUMBER_MODES = {
    **dict.fromkeys((9, 1000, 1002, 1003), CellXterm.want_mouse),
    **dict.fromkeys((1005, 1006, 1015, 1016), CellXterm.code_mouse),
    1004: CellXterm.want_focus,
    2026: CellXterm.synchronize,
    12: CellXterm.blink_cursor,
    47: CellXterm.show_page,
}


# Spelling: how the rows of lib/rows/cells.txt show cells.


def colour_spelled(name, colour):
    first = {"ink": 38, "paper": 48}[name]
    if colour is None:
        return []
    return [first, 5, colour] if isinstance(colour, int) else [first, 2, *colour]


def look_of(pen):
    """Returns the one SGR that spells a look, after 0."""
    numbers = [number for name, number in NUMBERS.items() if getattr(pen, name)]
    return [0, *numbers, *colour_spelled("ink", pen.ink), *colour_spelled("paper", pen.paper)]


def row_spelled(line):
    """Returns a row: its characters, with SGR where the look changes and DECSCA where protection does. Plain blanks at its end are left out."""
    line, now, spelled = list(line), PLAIN, ""
    while line and line[-1] == PLAIN_BLANK:
        line.pop()
    for cell in line:
        if look_of(cell.pen) != look_of(now):
            spelled += f"\033[{';'.join(map(str, look_of(cell.pen)))}m"
        if cell.pen.protected != now.protected:
            spelled += f'\033[{int(cell.pen.protected)}"q'
        now = cell.pen
        spelled += cell.character + cell.marks
    return spelled


def as_xterm_has(cell):
    """Returns a cell as real xterm is compared: an invisible character is spaces there, and a blank cell may have any foreground."""
    if cell.pen.invisible:
        cell = Cell(pen=replace(cell.pen, invisible=False))
    is_blank = cell.character == " " and not cell.marks and cell.pen == Pen(ink=cell.pen.ink, paper=cell.pen.paper)
    return replace(cell, pen=replace(cell.pen, ink=None)) if is_blank else cell


def screen_spelled(rows, as_xterm=True):
    """Returns the rows of a screen. `as_xterm` leaves out what real xterm doesn't have."""
    return "\n".join(row_spelled(map(as_xterm_has, line) if as_xterm else line) for line in rows).rstrip("\n")


def state_shown(model):
    """Returns what a row of lib/rows/cells.txt wants, by its names."""
    flags = {"wrap": model.wrap, "alternate": model.is_alternate, "focus": model.focus, "paste": model.paste, "hidden": "DECTCEM" not in model.modes}
    return {of: str(int(flag)) for of, flag in flags.items()} | {
        "cells": screen_spelled(model.cells), "cursor": f"{model.row};{model.column}", "title": model.title, "mouse": str(model.mouse),
        "coding": str(model.coding), "shape": str(model.shape_number())}
