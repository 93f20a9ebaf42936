"""A second VT220, written from docs/SPECIFICATION.md alone, as plainly as it can be. The gate compares it with the library.

It is slow, and nothing of it is proved. It shares no code and no table with the crates. So a rule that both have wrong was read
wrongly twice, or is wrong in the specification.
"""
from dataclasses import dataclass, field, replace

CAN, SUB, ESC, BEL, DEL, CSI, ST = 0x18, 0x1A, 0x1B, 0x07, 0x7F, 0x9B, 0x9C
STRINGS = {0x90: "DCS", 0x98: "SOS", 0x9D: "OSC", 0x9E: "PM", 0x9F: "APC"}
MOST_VALUES, GREATEST_VALUE = 16, 9999
NO_GLYPH = "\u2426"

SPECIAL = dict(zip(range(0x60, 0x7F), (
    "\u25c6\u2592\u2409\u240c\u240d\u240a\u00b0\u00b1\u2424\u240b\u2518\u2510\u250c\u2514\u253c\u23ba"
    "\u23bb\u2500\u23bc\u23bd\u251c\u2524\u2534\u252c\u2502\u2264\u2265\u03c0\u2260\u00a3\u00b7"))) | {0x5F: " "}
GERMAN = dict(zip((0x40, 0x5B, 0x5C, 0x5D, 0x7B, 0x7C, 0x7D, 0x7E), "\u00a7\u00c4\u00d6\u00dc\u00e4\u00f6\u00fc\u00df"))
UNDEFINED = bytes.fromhex("24262C2D2E2F3438 3E505E707E")
SUPPLEMENTAL = {code: chr(code | 0x80) for code in range(0x21, 0x7F)}
SUPPLEMENTAL |= {0x28: "\u00a4", 0x57: "\u0152", 0x5D: "\u0178", 0x77: "\u0153", 0x7D: "\u00ff"}
SUPPLEMENTAL |= dict.fromkeys(UNDEFINED, NO_GLYPH)
ASCII = {code: chr(code) for code in range(0x21, 0x7F)}
SETS = {"B": ASCII, "A": ASCII | {0x23: "\u00a3"}, "K": ASCII | GERMAN, "0": ASCII | SPECIAL, "<": SUPPLEMENTAL}


@dataclass(frozen=True)
class Size:
    """The rows of a screen, and the columns of the narrow and of the wide one."""

    rows: int = 24
    narrow: int = 80
    wide: int = 132


def size_of(rows, columns):
    """Returns the size of a screen. 24 rows of 80 columns are a VT220's, which may be 132 columns wide."""
    return Size() if (rows, columns) == (24, 80) else Size(rows, columns, columns)


@dataclass(frozen=True)
class Brush:
    """What a glyph is written with."""

    bold: bool = False
    underline: bool = False
    blink: bool = False
    reverse: bool = False
    protected: bool = False


PLAIN = Brush()
BLANK = (" ", PLAIN)


@dataclass
class Sets:
    designated: list = field(default_factory=lambda: ["B", "B", "<", "<"])
    left: int = 0
    right: int = 2

    def copy(self):
        return Sets(list(self.designated), self.left, self.right)


@dataclass
class Saved:
    row: int = 1
    column: int = 1
    wrap: bool = False
    brush: Brush = PLAIN
    sets: Sets = field(default_factory=Sets)
    origin: bool = False


ANSI_MODES = {2: "KAM", 4: "IRM", 12: "SRM", 20: "LNM"}
PRIVATE_MODES = {1: "DECCKM", 4: "DECSCLM", 5: "DECSCNM", 6: "DECOM", 7: "DECAWM", 8: "DECARM", 25: "DECTCEM"}
SET_AT_POWER_UP = {"SRM", "DECAWM", "DECARM", "DECTCEM"}
ATTRIBUTES = {1: "bold", 4: "underline", 5: "blink", 7: "reverse"}


class Terminal:
    blank = BLANK
    sides = None  # the left and the right margin, if an xterm has them

    def __init__(self, size=Size()):
        self.size = size
        self.sequence = None
        self.reports = []
        self.scrolled_off, self.left_by_resizes = [], []
        self.power_up()

    def power_up(self, width=None):
        self.set_width(width or self.size.narrow)
        self.row, self.column, self.wrap = 1, 1, False
        self.brush, self.sets, self.single_shift = PLAIN, Sets(), None
        self.top, self.bottom = 1, self.size.rows
        self.stops = self.usual_stops()
        self.modes = set(SET_AT_POWER_UP)
        self.keypad = self.eight_bit = False
        self.saved = Saved()

    def set_width(self, width):
        self.width = width
        self.cells = self.blank_cells(width)

    def blank_cells(self, width):
        return [[self.blank] * width for _ in range(self.size.rows)]

    def erased(self):
        """Returns the cell that comes in when cells are erased or moved."""
        return self.blank

    def erased_cells(self):
        return [[self.erased()] * self.width for _ in range(self.size.rows)]

    def usual_stops(self):
        return set(range(9, self.size.wide + 1, 8))

    # Changes of the size.

    def resize(self, rows, columns):
        """Gives the screen this size. Both of its widths are then the same. Returns the reports: none."""
        size = Size(rows, columns, columns)
        if size == self.size:
            return b""
        self.leave(max(self.row - rows, 0), size)
        if (rows, columns) != (self.size.rows, self.width):
            self.fill_margins(size)
        kept = {stop for stop in self.stops if stop <= columns}
        comes_in = range(self.size.wide + 1, columns + 1)
        self.size, self.width = size, columns
        self.stops = kept | self.usual_stops().intersection(comes_in)
        for place in (self, self.saved):
            bring_inside(place, size)
        return b""

    def fill_margins(self, size):
        self.top, self.bottom = 1, size.rows
        self.set_mode("DECOM", False)

    def leave(self, n, size):
        """Takes n rows off the top, and what is outside of a size off the rest."""
        self.left_by_resizes += [self.line_text(row) for row in range(1, n + 1)]
        self.cells = self.cut(self.cells, n, size)
        self.row -= n
        self.saved.row = max(self.saved.row - n, 1)

    def cut(self, cells, n, size):
        """Returns the cells after the first n rows, cut or filled to a size."""
        rows = [self.cut_row(line, size.wide) for line in cells[n:n + size.rows]]
        return rows + [[self.blank] * size.wide for _ in range(size.rows - len(rows))]

    def cut_row(self, line, width):
        return (line + [self.blank] * width)[:width]

    def play(self, steps):
        """Plays bytes, and changes to pairs of rows and columns. Returns the reports."""
        return b"".join(self.feed(step) if isinstance(step, bytes) else self.resize(*step) for step in steps)

    # Sequence syntax.

    def feed(self, data):
        """Plays bytes. Returns the reports."""
        self.reports = []
        for byte in data:
            self.take(byte)
        return b"".join(self.reports)

    def take(self, byte):
        held = self.sequence
        if held is None:
            self.begin(byte)
        elif held["kind"] == "string":
            self.take_in_string(byte, held)
        elif byte == ESC or byte >= 0x80:
            self.sequence = None
            self.begin(byte)
        elif byte in (CAN, SUB):
            self.sequence = None
            if byte == SUB:
                self.control(SUB)
        elif byte < 0x20 or byte == DEL:
            self.control(byte)
        elif held["kind"] == "escape":
            self.take_in_escape(byte, held)
        else:
            self.take_in_control_sequence(byte, held)

    def begin(self, byte):
        if byte == ESC:
            self.sequence = {"kind": "escape", "intermediates": b""}
        elif byte == CSI:
            self.sequence = {"kind": "control", "bytes": b""}
        elif byte in STRINGS:
            self.sequence = {"kind": "string", "name": STRINGS[byte]}
        elif 0x20 <= byte <= 0x7E or byte >= 0xA0:
            self.graphic(byte)
        else:
            self.control(byte)

    def take_in_string(self, byte, held):
        if byte == ESC:
            self.sequence = None
            self.begin(byte)
        elif byte in (CAN, SUB, ST) or byte == BEL and held["name"] == "OSC":
            self.sequence = None
            if byte == SUB:
                self.control(SUB)

    def take_in_escape(self, byte, held):
        if byte <= 0x2F:
            held["intermediates"] += bytes([byte])
            return
        self.sequence = None
        intermediates = held["intermediates"].decode()
        if intermediates == "" and 0x40 <= byte <= 0x5F:
            if byte + 0x40 == CSI or byte + 0x40 in STRINGS:
                self.begin(byte + 0x40)
            else:
                self.control(byte + 0x40)
        elif len(intermediates) <= 1:
            self.escape(intermediates, chr(byte))

    def take_in_control_sequence(self, byte, held):
        if byte < 0x40:
            held["bytes"] += bytes([byte])
            return
        self.sequence = None
        text = held["bytes"].decode()
        marker = text[:1] if text[:1] in ("<", "=", ">", "?") else ""
        parameters = text[len(marker):].rstrip("".join(map(chr, range(0x20, 0x30))))
        intermediates = text[len(marker) + len(parameters):]
        is_spoilt = any(c not in "0123456789;" for c in parameters) or len(intermediates) > 1
        if not is_spoilt:
            values = [min(int(part or "0"), GREATEST_VALUE) for part in parameters.split(";")][:MOST_VALUES]
            self.control_sequence(marker, values, intermediates, chr(byte))

    # Graphic bytes.

    def glyph_of(self, byte):
        """Returns the glyph of a graphic byte, None if it has none. A pending single shift is used up."""
        if byte in (0xA0, 0xFF):
            return None
        shifted, self.single_shift = self.single_shift, None
        if byte == 0x20:
            return " "
        slot = shifted if shifted is not None else self.sets.left if byte < 0x80 else self.sets.right
        return SETS[self.sets.designated[slot]][byte & 0x7F]

    def graphic(self, byte):
        glyph = self.glyph_of(byte)
        if glyph is not None:
            self.write(glyph)

    def write(self, glyph):
        if self.wrap:
            self.index()
            self.column = self.left()
        line = self.cells[self.row - 1]
        if "IRM" in self.modes and self.is_between():
            line.insert(self.column - 1, BLANK)
            line.pop(self.right())
        line[self.column - 1] = (glyph, self.brush)
        if self.column < self.last_reached():
            self.column += 1
        else:
            self.wrap = "DECAWM" in self.modes

    # Controls and escape sequences.

    def control(self, byte):
        if byte == 0x08:
            self.left_by(1)
        elif byte == 0x09:
            self.tab()
        elif byte in (0x0A, 0x0B, 0x0C):
            self.next_line() if "LNM" in self.modes else self.index()
        elif byte == 0x0D:
            self.carriage_return()
        elif byte in (0x0E, 0x0F):
            self.sets.left = 0x0F - byte
        elif byte == SUB:
            self.write(NO_GLYPH)
        elif byte == 0x84:
            self.index()
        elif byte == 0x85:
            self.next_line()
        elif byte == 0x88:
            self.stops.add(self.column)
        elif byte == 0x8D:
            self.reverse_index()
        elif byte in (0x8E, 0x8F):
            self.single_shift = byte - 0x8C
        elif byte == 0x9A:
            self.report("?62;1;6c")

    def escape(self, intermediate, final):
        if intermediate == "":
            self.plain_escape(final)
        elif intermediate in "()*+" and final in SETS:
            self.sets.designated["()*+".index(intermediate)] = final
        elif intermediate + final in (" F", " G"):
            self.eight_bit = final == "G"
        elif intermediate + final == "#8":
            self.cells = [[("E", PLAIN)] * self.width for _ in range(self.size.rows)]
            self.top, self.bottom = 1, self.size.rows
            self.home()

    def plain_escape(self, final):
        if final == "7":
            origin = "DECOM" in self.modes
            self.saved = Saved(self.row, self.column, self.wrap_flag(), self.brush, self.sets.copy(), origin)
        elif final == "8":
            self.restore()
        elif final in "=>":
            self.keypad = final == "="
        elif final == "c":
            self.power_up()
        elif final in "no":
            self.sets.left = 2 if final == "n" else 3
        elif final in "~}|":
            self.sets.right = 1 + "~}|".index(final)

    def restore(self):
        saved = self.saved
        self.set_mode("DECOM", saved.origin)
        row = min(max(saved.row, self.top), self.bottom) if saved.origin else saved.row
        self.move_to(row, saved.column)
        self.wrap = saved.wrap and "DECAWM" in self.modes
        self.brush, self.sets = saved.brush, saved.sets.copy()

    # Control sequences.

    def control_sequence(self, marker, values, intermediate, final):
        name = marker + intermediate + final
        first = values[0]
        second = values[1] if len(values) > 1 else 0
        n = max(1, first)
        if name in MOVES:
            MOVES[name](self, n)
        elif name in ("H", "f"):
            self.position(n, max(1, second))
        elif name in ("J", "?J", "K", "?K"):
            self.erase(first, final == "J", marker == "?")
        elif name in ("L", "M"):
            self.insert_or_delete_lines(n, final == "L")
        elif name in ("@", "P", "X"):
            self.change_cells(n, final)
        elif name == "g" and first in (0, 3):
            self.stops = self.stops - {self.column} if first == 0 else set()
        elif name in ("h", "l", "?h", "?l"):
            for value in values:
                self.change_mode(value, marker == "?", final == "h")
        elif name == "m":
            for value in values:
                self.rendition(value)
        elif name == "r":
            self.set_margins(n, second if 0 < second < self.size.rows else self.size.rows)
        elif name == '"q' and first in (0, 1, 2):
            self.brush = replace(self.brush, protected=first == 1)
        elif name == '"p' and (first == 61 or first == 62 and second in (0, 1, 2)):
            self.soft_reset()
            self.eight_bit = first == 62 and second != 1
        elif name == "!p":
            self.soft_reset()
        elif (name, first) in ANSWERS:
            self.report(ANSWERS[name, first])
        elif (name, first) == ("n", 6):
            self.report(f"{self.row - self.origin() + 1};{self.column}R")

    def position(self, line, column):
        last = self.bottom if "DECOM" in self.modes else self.size.rows
        self.move_to(min(self.origin() + line - 1, last), min(column, self.width))

    def up(self, n):
        self.move_to(max(self.row - n, self.top if self.row >= self.top else 1), self.column)

    def down(self, n):
        self.move_to(min(self.row + n, self.bottom if self.row <= self.bottom else self.size.rows), self.column)

    def erase(self, which, is_screen, is_selective):
        """Erases from the cursor on, up to it, or all, of the screen or of the cursor's row."""
        if which not in (0, 1, 2):
            return
        here = (self.row, self.column)
        for row in range(1, self.size.rows + 1) if is_screen else [self.row]:
            for column in range(1, self.width + 1):
                if which == 2 or (which == 0 and (row, column) >= here) or (which == 1 and (row, column) <= here):
                    self.erase_cell(self.cells[row - 1], column - 1, is_selective)
        self.wrap = False

    @staticmethod
    def erase_cell(line, at, is_selective):
        _, brush = line[at]
        if not is_selective:
            line[at] = BLANK
        elif not brush.protected:
            line[at] = (" ", brush)

    def insert_or_delete_lines(self, n, is_insert):
        if self.top <= self.row <= self.bottom:
            self.scroll(self.row, -n if is_insert else n)
            self.column = 1
        self.wrap = False

    def change_cells(self, n, final):
        line, at = self.cells[self.row - 1], self.column - 1
        if final == "X":
            self.erase_cells(line, at, min(at + n, self.width))
        elif self.is_between():
            self.move_cells(line, at, self.right(), min(n, self.right() - at), final == "@")
        elif final == "P":
            return
        self.wrap = False

    def erase_cells(self, line, start, end):
        line[start:end] = [self.erased()] * (end - start)

    def move_cells(self, line, at, end, n, is_insert):
        """Moves cells of a row right by n, or left."""
        line[at:end] = ([self.erased()] * n + line[at:end])[: end - at] if is_insert else line[at + n:end] + [self.erased()] * n

    def change_mode(self, number, is_private, is_set):
        if is_private and number == 3:
            self.column_mode(self.size.wide if is_set else self.size.narrow)
            return
        name = (PRIVATE_MODES if is_private else ANSI_MODES).get(number)
        if name is None:
            return
        self.set_mode(name, is_set)
        if name == "DECOM":
            self.home()
        if name == "DECAWM" and not is_set:
            self.wrap = False

    def column_mode(self, width):
        self.set_width(width)
        self.top, self.bottom = 1, self.size.rows
        self.home()
        self.saved.column = min(self.saved.column, width)
        self.saved.wrap = False

    def rendition(self, number):
        if number == 0:
            self.brush = Brush(protected=self.brush.protected)
        elif number in ATTRIBUTES:
            self.brush = replace(self.brush, **{ATTRIBUTES[number]: True})
        elif number in (22, 24, 25, 27):
            off = {22: "bold", 24: "underline", 25: "blink", 27: "reverse"}[number]
            self.brush = replace(self.brush, **{off: False})

    def set_margins(self, top, bottom):
        if top < bottom:
            self.top, self.bottom = top, bottom
            self.home()

    def soft_reset(self):
        self.modes = self.modes - {"KAM", "IRM", "DECCKM", "DECOM", "DECAWM"} | {"DECTCEM"}
        self.keypad = False
        self.top, self.bottom = 1, self.size.rows
        self.brush, self.sets, self.single_shift = PLAIN, Sets(), None
        self.saved = Saved()
        self.wrap = False

    # Left and right margins. Without them, as on a VT220, these are the first and the last column.

    def left(self):
        return self.sides[0] if self.sides else 1

    def right(self):
        return self.sides[1] if self.sides else self.width

    def is_between(self):
        return self.left() <= self.column <= self.right()

    def first_reached(self):
        return self.left() if self.column >= self.left() else 1

    def last_reached(self):
        return self.right() if self.column <= self.right() else self.width

    # What functions share.

    def set_mode(self, name, is_set):
        self.modes = self.modes | {name} if is_set else self.modes - {name}

    def origin(self):
        return self.top if "DECOM" in self.modes else 1

    def wrap_flag(self):
        return self.wrap

    def move_to(self, row, column):
        self.row, self.column, self.wrap = row, column, False

    def home(self):
        self.move_to(self.origin(), self.left() if "DECOM" in self.modes else 1)

    def tab(self):
        self.move_to(self.row, min([stop for stop in self.stops if self.column < stop <= self.width], default=self.width))

    def carriage_return(self):
        self.move_to(self.row, self.left() if "DECOM" in self.modes else self.first_reached())

    def next_line(self):
        self.index()
        self.carriage_return()

    def left_by(self, n):
        self.move_to(self.row, max(self.column - n, self.first_reached()))

    def right_by(self, n):
        self.move_to(self.row, min(self.column + n, self.last_reached()))

    def index(self):
        if self.row != self.bottom:
            self.move_to(min(self.row + 1, self.size.rows), self.column)
        elif self.is_between():
            self.scroll_off(1)
            self.scroll(self.top, 1)
        self.wrap = False

    def reverse_index(self):
        if self.row != self.top:
            self.move_to(max(self.row - 1, 1), self.column)
        elif self.is_between():
            self.scroll(self.top, -1)
        self.wrap = False

    def scroll(self, first, n):
        """Moves the rows from `first` to the bottom margin up by n, or down by -n, in the columns between the margins."""
        rows = self.cells[first - 1:self.bottom]
        gap = [[self.erased()] * self.width for _ in range(min(abs(n), len(rows)))]
        moved = rows[n:] + gap if n > 0 else (gap + rows)[: len(rows)]
        left, right = self.left() - 1, self.right()
        self.cells[first - 1:self.bottom] = [line[:left] + new[left:right] + line[right:] for line, new in zip(rows, moved)]

    def scroll_off(self, n):
        """Logs the rows that a move up by n takes off the screen."""
        if self.top == 1:
            self.scrolled_off += [self.line_text(row) for row in range(1, min(n, self.bottom) + 1)]

    def report(self, words):
        self.reports.append((b"\x9b" if self.eight_bit else b"\x1b[") + words.encode())

    # Output.

    def line_text(self, row):
        return self.text_of(self.cells[row - 1])

    @staticmethod
    def text_of(line):
        """Returns the text of a row, with LF."""
        return "".join([glyph for glyph, _ in line]).rstrip(" ") + "\n"

    def text(self):
        return "".join(self.line_text(row) for row in range(1, self.size.rows + 1))

    def held(self):
        return self.sequence["kind"] if self.sequence else "none"

    def state(self):
        """Returns all that a terminal keeps, without what it has written."""
        return {name: part for name, part in vars(self).items() if name not in ("reports", "scrolled_off", "left_by_resizes")}


def bring_inside(place, size):
    place.row = min(place.row, size.rows)
    if place.wrap and place.column < size.wide:
        place.column, place.wrap = place.column + 1, False
    place.column = min(place.column, size.wide)


MOVES = {
    "A": Terminal.up,
    "B": Terminal.down,
    "C": Terminal.right_by,
    "D": Terminal.left_by,
}
ANSWERS = {("c", 0): "?62;1;6c", (">c", 0): ">1;10;0c", ("n", 5): "0n", ("?n", 15): "?13n", ("?n", 26): "?27;1n"}
