"""A terminal that plays what programs send under TERM=xterm, by docs/SPECIFICATION.md, 'Under TERM=xterm'."""
from terminal import Saved, Size, bring_inside
from utf8 import Utf8Terminal

COLOURS = (38, 48, 58)
COMPONENTS = {5: 1, 2: 3}


class Xterm(Utf8Terminal):
    def __init__(self, size=Size()):
        super().__init__(size)
        self.allows_columns = self.paste = False

    def power_up(self, width=None):
        super().power_up(width)
        self.sides = None
        self.is_alternate = self.paste = False
        self.other_cells, self.other_saved = self.blank_cells(self.size.narrow), Saved()

    # Changes of the size.

    def resize(self, rows, columns):
        super().resize(rows, columns)
        bring_inside(self.other_saved, self.size)
        return b""

    def fill_margins(self, size):
        super().fill_margins(size)
        self.wrap = self.wrap_flag()
        self.fill_sides(size.wide)

    def leave(self, n, size):
        """The main page goes by its own cursor, and its rows are logged. As many rows leave the alternate page while that isn't shown."""
        logged = len(self.left_by_resizes)
        super().leave(n, size)
        if self.is_alternate:
            n = max(self.other_saved.row - size.rows, 0)
            self.left_by_resizes[logged:] = [self.text_of(line) for line in self.other_cells[:n]]
        self.other_cells = self.cut(self.other_cells, n, size)
        self.other_saved.row = max(self.other_saved.row - n, 1)

    # Escape and control sequences. What isn't here has its effect on a VT220.

    def plain_escape(self, final):
        if final == "c":
            self.power_up(self.size.narrow if self.allows_columns else self.width)
        else:
            super().plain_escape(final)

    def escape(self, intermediate, final):
        if intermediate + final == "#8":
            self.fill_sides(self.width)
        super().escape(intermediate, final)

    def control_sequence(self, marker, values, intermediate, final):
        name = marker + intermediate + final
        n = max(1, values[0])
        if name == "s" and self.sides:
            self.set_sides(n, values[1] if len(values) > 1 else 0)
        elif name in FUNCTIONS:
            FUNCTIONS[name](self, n)
        elif name == "T" and len(values) == 1:
            self.scroll_by(-n)
        elif name in ("s", "u") and values == [0]:
            self.plain_escape("7" if name == "s" else "8")
        elif name == "m":
            for value in without_colours(values):
                self.rendition(value)
        else:
            super().control_sequence(marker, values, intermediate, final)

    def soft_reset(self):
        super().soft_reset()
        self.set_mode("DECAWM", True)
        self.sides = None

    # Left and right margins.

    def set_sides(self, left, right):
        """DECSLRM."""
        if not 0 < right < self.width:
            right = self.width
        if left < right:
            self.sides = (left, right)
            self.home()

    def fill_sides(self, width):
        if self.sides:
            self.sides = (1, width)

    def allow_sides(self, is_allowed):
        """DECLRMM."""
        if is_allowed:
            self.sides = self.sides or (1, self.width)
        else:
            self.wrap = self.wrap_flag()
            self.sides = None

    def wrap_flag(self):
        """Returns whether a wrap is pending in the last column, and not at a right margin left of it."""
        return self.wrap and self.column == self.width

    # The cursor.

    def position(self, line, column):
        super().position(line, 1)
        self.to_column(column)

    def to_column(self, n):
        self.move_to(self.row, min(self.left() + n - 1, self.right()) if "DECOM" in self.modes else min(n, self.width))

    def columns_right(self, n):
        self.move_to(self.row, min(self.column + n, self.right() if "DECOM" in self.modes else self.width))

    def to_line(self, n):
        column = self.column
        super().position(n, 1)
        self.column = column

    def lines_down(self, n):
        self.move_to(min(self.row + n, self.bottom if "DECOM" in self.modes else self.size.rows), self.column)

    def next_lines(self, n):
        self.down(n)
        self.carriage_return()

    def previous_lines(self, n):
        self.up(n)
        self.carriage_return()

    def tab(self):
        if not self.wrap:
            super().tab()
        self.column = min(self.column, self.right())

    def tabs(self, n):
        for _ in range(n):
            self.tab()

    def tabs_back(self, n):
        for _ in range(n):
            stop = max([stop for stop in self.stops if stop < self.column], default=1)
            self.move_to(self.row, max(stop, self.left()) if "DECOM" in self.modes else stop)

    def restore(self):
        super().restore()
        if "DECOM" in self.modes and not self.is_between():
            self.move_to(self.row, min(max(self.column, self.left()), self.right()))

    # The cells.

    def insert_or_delete_lines(self, n, is_insert):
        if self.is_between() and self.top <= self.row <= self.bottom:
            super().insert_or_delete_lines(n, is_insert)
            self.column = self.left()

    def scroll_by(self, n):
        """Moves the rows between the margins up by n, or down by -n."""
        self.scroll_off(n)
        self.scroll(self.top, n)

    def scroll_off(self, n):
        if not self.is_alternate and (self.left(), self.right()) == (1, self.width):
            super().scroll_off(n)

    def repeat(self, n):
        """Writes the glyph before the cursor n times, or with the wrap flag the one under it. The end of the row is the end."""
        column = self.column if self.wrap else self.column - 1
        room = self.right() - self.left() + 1 if self.wrap else self.last_reached() - column
        if column:
            glyph, _ = self.cells[self.row - 1][column - 1]
            for _ in range(min(n, room)):
                self.write(glyph)

    # Modes and pages.

    def change_mode(self, number, is_private, is_set):
        if is_private and number in MODES:
            MODES[number](self, is_set)
        elif not is_private or number != 3 or self.allows_columns:
            super().change_mode(number, is_private, is_set)

    def column_mode(self, width):
        self.fill_sides(width)
        super().column_mode(width)

    def show(self, is_alternate):
        """Shows a page. If it has another width than the screen, it first changes as by DECCOLM."""
        if is_alternate == self.is_alternate:
            return
        self.cells, self.other_cells = self.other_cells, self.cells
        self.saved, self.other_saved = self.other_saved, self.saved
        self.is_alternate = is_alternate
        if len(self.cells[0]) != self.width:
            self.cells = self.blank_cells(self.width)
            self.saved.column = min(self.saved.column, self.width)
            self.saved.wrap = False

    def show_and_leave_blank(self, is_alternate):
        """?1047."""
        is_left = self.is_alternate and not is_alternate
        self.show(is_alternate)
        if is_left:
            self.other_cells = self.erased_cells()

    def save_or_restore(self, is_saved):
        """?1048."""
        self.plain_escape("7" if is_saved else "8")

    def show_and_save(self, is_alternate):
        """?1049."""
        if is_alternate:
            self.save_or_restore(True)
            self.show(True)
            self.erase(2, True, False)
        else:
            self.show(False)
            self.save_or_restore(False)

    def allow_columns(self, is_allowed):
        self.allows_columns = is_allowed

    def want_brackets(self, is_wanted):
        self.paste = is_wanted


def without_colours(values):
    """Returns the parameters of SGR that belong to no colour."""
    kept, at = [], 0
    while at < len(values):
        if values[at] in COLOURS:
            at += 2 + (COMPONENTS.get(values[at + 1], 0) if at + 1 < len(values) else 0)
        else:
            kept.append(values[at])
            at += 1
    return kept


FUNCTIONS = {
    "G": Xterm.to_column,
    "`": Xterm.to_column,
    "a": Xterm.columns_right,
    "d": Xterm.to_line,
    "e": Xterm.lines_down,
    "E": Xterm.next_lines,
    "F": Xterm.previous_lines,
    "I": Xterm.tabs,
    "Z": Xterm.tabs_back,
    "b": Xterm.repeat,
    "S": Xterm.scroll_by,
    "^": lambda terminal, n: terminal.scroll_by(-n),
}
MODES = {
    40: Xterm.allow_columns,
    47: Xterm.show,
    69: Xterm.allow_sides,
    1047: Xterm.show_and_leave_blank,
    1048: Xterm.save_or_restore,
    1049: Xterm.show_and_save,
    2004: Xterm.want_brackets,
}
