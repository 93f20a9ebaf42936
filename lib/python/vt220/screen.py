"""Holds a screen as it was at one moment, and the text file that a screen is stored in."""
import functools
import itertools
import operator
import re
from typing import Dict, Iterable, Iterator, List, NamedTuple, Optional, Pattern, Sequence, Tuple, Union

from . import COLUMNS, MOST_COLUMNS, ROWS, Brush, Cell, Cursor, Margins, Modes, Saved, Sets, Terminal, _check_row
from .expected import SUBSTITUTE, NoGlyph, expression_as_shown, expression_of_text, text_as_shown

# The name of each attribute in a stored screen, in the order of Cell's fields after the glyph.
ATTRIBUTES = ("bold", "underline", "blink", "reverse", "protected")
# The name of each mode in a stored screen, in the order of Modes' fields.
MODES = tuple({"keypad_application": "DECKPAM", "reports_8bit": "S8C1T"}.get(name, name.upper()) for name in Modes._fields)
# Stands for a masked cell. No set of the VT220 has this character.
MASK = "\u2588"
# The names of the graphic sets by their final bytes, as docs/SPECIFICATION.md has them.
SETS = {ord("B"): "ASCII", ord("A"): "British", ord("K"): "German", ord("0"): "special graphics", ord("<"): "supplemental"}

# A space without attributes. The terminal doesn't keep whether it was written.
_BLANK = Cell(" ", *[False] * len(ATTRIBUTES))

Mask = Union[str, Tuple[int, int, int]]
Places = Dict[Tuple[int, int], str]


class _Position(NamedTuple):
    row: int
    col: int
    cells: Tuple[Cell, ...]


class Place(_Position):
    """Holds the position of a text on a screen, and its cells. It is false, and has no attribute, if the text isn't there."""

    def __new__(cls, row: int, col: int, cells: Tuple[Cell, ...], missing: str = "it isn't on the screen") -> "Place":
        """Makes a place. `missing` are the words for a text that isn't there."""
        place = super().__new__(cls, row, col, cells)
        place._missing = missing
        return place

    _missing: str

    def __repr__(self) -> str:
        if not self.cells:
            return f"<{self._missing}>"
        names = [name for name, is_set in zip(ATTRIBUTES, map(self._all, Cell._fields[1:])) if is_set]
        return f"<{''.join(cell.glyph for cell in self.cells)!r} at row {self.row}, column {self.col}{''.join(f', {name}' for name in names)}>"

    def __bool__(self) -> bool:
        return bool(self.cells)

    def _all(self, name: str) -> bool:
        return bool(self.cells) and all(getattr(cell, name) for cell in self.cells)

    @property
    def bold(self) -> bool:
        """Returns whether the whole text is bold."""
        return self._all("bold")

    @property
    def underline(self) -> bool:
        """Returns whether the whole text is underlined."""
        return self._all("underline")

    @property
    def blink(self) -> bool:
        """Returns whether the whole text blinks."""
        return self._all("blink")

    @property
    def reverse(self) -> bool:
        """Returns whether the whole text is in reverse."""
        return self._all("reverse")

    @property
    def is_protected(self) -> bool:
        """Returns whether a selective erase leaves the whole text."""
        return self._all("is_protected")


class Screen:
    """Holds the state of a terminal at one moment. Two screens are equal if and only if their sizes and repaints are.

    The encoding is that of the program. The texts that a test looks for are mapped to what a screen in this encoding shows of them. The size
    is the rows and columns, or None for a VT220's, which may be 132 columns wide.
    """

    def __init__(self, repaint: bytes, encoding: str = "dec", size: Optional[Tuple[int, int]] = None) -> None:
        self.repaint, self.encoding, self.size = repaint, encoding, size

    def __eq__(self, other: object) -> bool:
        return isinstance(other, Screen) and (self.repaint, self.size) == (other.repaint, other.size)

    def __hash__(self) -> int:
        return hash(self.repaint)

    def __str__(self) -> str:
        return self.text

    @functools.cached_property
    def _terminal(self) -> Terminal:
        terminal = Terminal()
        if self.size is not None:
            terminal.resize(*self.size)
        terminal.feed(self.repaint)
        return terminal

    @property
    def _height(self) -> int:
        """The number of rows."""
        return ROWS if self.size is None else self.size[0]

    @functools.cached_property
    def text(self) -> str:
        """The lines of all rows, each without the spaces at its end and with a line feed."""
        return self._terminal.text()

    @functools.cached_property
    def rows(self) -> Tuple[str, ...]:
        """The lines of all rows, each without the spaces at its end. The first one is rows[0]."""
        return tuple(self.text.split("\n")[: self._height])

    @functools.cached_property
    def cells(self) -> Tuple[Tuple[Cell, ...], ...]:
        """The cells of all rows, with their attributes. The first one is cells[0][0]."""
        return tuple(tuple(self._terminal.row(row)) for row in range(1, self._height + 1))

    @functools.cached_property
    def cursor(self) -> Cursor:
        """The cursor's row and column, counted from 1, and whether the next glyph begins a new line."""
        return self._terminal.cursor()

    @functools.cached_property
    def modes(self) -> Modes:
        """The modes."""
        return self._terminal.modes()

    @functools.cached_property
    def margins(self) -> Margins:
        """The first and the last row of the scroll region."""
        return self._terminal.margins()

    @functools.cached_property
    def width(self) -> int:
        """The number of columns."""
        return self._terminal.width()

    @functools.cached_property
    def picture(self) -> str:
        """The screen as a picture: an SVG document."""
        return self._terminal.picture()

    @functools.cached_property
    def hidden(self) -> Tuple[str, ...]:
        """What no other property holds, each part by its name if it isn't as at power-up: the lines of a stored screen for these parts.

        The parts are the attributes of the next character, the graphic sets, a pending single shift, the tab stops, and what DECRC restores.
        """
        return tuple(_hidden(self._terminal, COLUMNS if self.size is None else self.size[1]))

    def _padded(self, row: int) -> str:
        """Returns a row with spaces at its end: up to the cursor, and up to the last cell that isn't a space without attributes."""
        last = max((col for col, cell in enumerate(self.cells[row - 1], 1) if cell != _BLANK), default=0)
        if row == self.cursor.row:
            last = max(last, self.cursor.col - 1 + self.cursor.wrap)
        return self.rows[row - 1].ljust(last)

    def _finds(self, expression: Pattern[str], row: Optional[int] = None, col: Optional[int] = None) -> bool:
        """Returns whether an expression is found in one row or in any, from a column or from any.

        It is searched in a row without the spaces at its end, and then in the row with those up to the cursor and up to the last cell that
        isn't a space without attributes. The expression is compared as it is.
        """
        numbers = range(1, self._height + 1) if row is None else [row]
        lines = itertools.chain((self.rows[number - 1] for number in numbers), map(self._padded, numbers))
        return any(expression.search(line) if col is None else expression.match(line, col - 1) for line in lines)

    def at(self, text: str, row: Optional[int] = None, nth: int = 1, *, allow_substitutes: bool = False) -> Place:
        """Returns the place of a text, in one row or in any: the first one, or the `nth` from the top. False if there is none.

        Raises NoGlyph if the text has a character that is shown as U+2426. With allow_substitutes=True it is found by that.
        """
        check_row(row, self._height)
        left, expression = nth, expression_of_text(text, self.encoding, allow_substitutes)
        length = len(text_as_shown(text, self.encoding))
        for number in range(1, self._height + 1) if row is None else [row]:
            line = self._padded(number)
            found = expression.search(line)
            while found:
                left -= 1
                if left == 0:
                    return Place(number, found.start() + 1, self.cells[number - 1][found.start() : found.start() + length])
                found = expression.search(line, found.start() + 1)
        where = "on the screen" if row is None else f"in row {row}"
        return Place(0, 0, (), f"{text!r} isn't {where}" + (f" {nth} times" if nth > 1 else ""))

    def stored(self, masks: Sequence[Mask] = (), *, allow_substitutes: bool = False) -> str:
        """Returns the text file of this screen: 24 lines, and beneath them the cursor, and attributes and modes if there are any.

        Raises NoGlyph if the expression of a mask has a character that is shown as U+2426, unless allow_substitutes is true.
        """
        lines, raws = list(self.rows), [self._terminal._raw(row) for row in range(1, self._height + 1)]
        for row, col, length in self._masked(masks, allow_substitutes):
            line, raw = lines[row - 1].ljust(self.width), raws[row - 1]
            lines[row - 1] = (line[: col - 1] + MASK * length + line[col - 1 + length :]).rstrip(" ")
            raws[row - 1] = raw[: 12 * (col - 1)] + bytes(12 * length) + raw[12 * (col - 1 + length) :]
        lines += self._state()
        lines += [f"{row}: {runs}" for row, runs in enumerate(map(_runs, raws), 1) if runs]
        lines += self.hidden
        return "\n".join(lines) + "\n"

    def _masked(self, masks: Sequence[Mask], allow_substitutes: bool) -> Iterator[Tuple[int, int, int]]:
        """Returns the row, the column and the length of each masked part."""
        for mask in masks:
            if isinstance(mask, str):
                expression = expression_as_shown(mask, self.encoding, allow_substitutes)
                for row, line in enumerate(self.rows, 1):
                    for found in expression.finditer(line):
                        if found.end() > found.start():
                            yield row, found.start() + 1, found.end() - found.start()
            else:
                check_row(mask[0], self._height)
                check_column(mask[1])
                yield mask

    def _state(self) -> Iterator[str]:
        row, col, wrap = self.cursor
        yield f"cursor: {row} {col}" + (" wrap" if wrap else "")
        if self.width != 80:
            yield f"width: {self.width}"
        if self.margins != (1, self._height):
            yield f"margins: {self.margins.top} {self.margins.bottom}"
        modes = zip(MODES, self.modes, _modes_at_power_up())
        changed = [("+" if is_set else "-") + name for name, is_set, at_first in modes if is_set != at_first]
        if changed:
            yield "modes: " + " ".join(changed)


@functools.lru_cache(maxsize=None)
def _modes_at_power_up() -> Modes:
    with Terminal() as terminal:
        return terminal.modes()


@functools.lru_cache(maxsize=4096)
def _runs(raw: bytes) -> str:
    """Returns the attributes of a row as runs of columns. Most rows are those of the screen before, so they are kept."""
    planes = [raw[at::12] for at in range(4, 9)]
    if not any(plane.count(0) < len(plane) for plane in planes):
        return ""
    runs, col = [], 1
    for is_set, cells in itertools.groupby(zip(*planes)):
        first, col = col, col + len(list(cells))
        if any(is_set):
            names = " ".join(name for name, one in zip(ATTRIBUTES, is_set) if one)
            runs.append((f"{first}-{col - 1} " if col - first > 1 else f"{first} ") + names)
    return "; ".join(runs)


def check_row(row: Optional[int], last: int = ROWS) -> None:
    """Raises NoRow if a row is given that a screen of so many rows hasn't, and TypeError if it isn't an integer."""
    if row is not None:
        _check_row(row, last)


def check_column(col: Optional[int]) -> None:
    """Raises ValueError if a column is given that no screen has, and TypeError if it isn't an integer."""
    if col is not None and not 1 <= operator.index(col) <= MOST_COLUMNS:
        raise ValueError(f"columns count from 1 to {MOST_COLUMNS}, so there is no column {col}")


def check_substitutes(name: str, text: str, height: int = ROWS) -> None:
    """Raises NoGlyph if the text of a stored screen has U+2426, since that is shown for most characters that a VT220 lacks."""
    for row, line in enumerate(text.split("\n")[:height], 1):
        if SUBSTITUTE in line:
            raise NoGlyph(f"{name} has {SUBSTITUTE} in row {row}, column {line.index(SUBSTITUTE) + 1}: it is shown for any character without a "
                          "similar glyph. So this test would pass on a wrong text. Mask it, or write allow_substitutes=True")


class _Parts(NamedTuple):
    """Holds the parts of a state that the rows, the cursor, the margins and the modes don't show."""

    brush: Brush
    sets: Sets
    stops: List[int]
    saved: Saved


def _parts(terminal: Terminal) -> _Parts:
    return _Parts(terminal.brush(), terminal.sets(), terminal.stops(), terminal.saved())


@functools.lru_cache(maxsize=None)
def _at_first() -> _Parts:
    """Returns the hidden parts at power-up."""
    return _parts(Terminal())


def _hidden(terminal: Terminal, columns: int = COLUMNS) -> Iterator[str]:
    """Returns a line for each hidden part that isn't as at power-up. The lines of what DECRC restores begin with 'saved'."""
    now, first = _parts(terminal), _at_first()
    yield from _looks("", now.brush, now.sets, first.sets)
    if now.sets.single_shift:
        yield f"single shift: G{now.sets.single_shift}"
    if now.stops != list(range(9, columns + 1, 8)):
        yield "tab stops: " + (" ".join(map(str, now.stops)) or "none")
    saved, wrap, origin = now.saved, " wrap" if now.saved.wrap else "", " origin" if now.saved.origin else ""
    if (saved.row, saved.col, wrap, origin) != (first.saved.row, first.saved.col, "", ""):
        yield f"saved cursor: {saved.row} {saved.col}{wrap}{origin}"
    yield from _looks("saved ", saved, saved, first.saved)


def _looks(kind: str, brush: Union[Brush, Saved], sets: Union[Sets, Saved], first: Union[Sets, Saved]) -> Iterator[str]:
    """Returns the lines for the attributes of the next character, and for graphic sets that aren't those of power-up."""
    attributes = [name for name, field in zip(ATTRIBUTES, Brush._fields) if getattr(brush, field)]
    if attributes:
        yield f"{kind}brush: {' '.join(attributes)}"
    for field in ("g0", "g1", "g2", "g3"):
        if getattr(sets, field) != getattr(first, field):
            yield f"{kind}{field.upper()}: {SETS[getattr(sets, field)]}"
    for field in ("gl", "gr"):
        if getattr(sets, field) != getattr(first, field):
            yield f"{kind}{field.upper()}: G{getattr(sets, field)}"


# Begins the line for the hidden parts in files of version 0.3 and before: a repaint, with \e for ESC.
_OLD = "hidden: "


def renewed(text: str) -> str:
    """Returns the text of a stored screen with the hidden parts by their names, also if an older version has stored them as bytes."""
    lines = text.split("\n")
    for at, line in enumerate(lines):
        if at >= ROWS and line.startswith(_OLD):
            terminal = Terminal()
            terminal.feed(line[len(_OLD) :].replace("\\e", "\033").encode("latin-1", "replace"))
            lines[at : at + 1] = _hidden(terminal)
            break
    return "\n".join(lines)


class Stored:
    """Holds a stored screen as it was read from its file."""

    def __init__(self, text: str, height: int = ROWS) -> None:
        lines = text.split("\n")
        self.rows = lines[:height] + [""] * (height - len(lines[:height]))
        self.rest = [line for line in lines[height:] if line]

    def attributes(self) -> Places:
        """Returns the names of the attributes of each cell that has any."""
        places: Places = {}
        for line in self.rest:
            row, _, runs = line.partition(": ")
            if not row.isdigit():
                continue
            for run in runs.split("; "):
                columns, _, names = run.partition(" ")
                first, _, last = columns.partition("-")
                if first.isdigit() and (last or first).isdigit():
                    for col in range(int(first), min(int(last or first), MOST_COLUMNS) + 1):
                        places[int(row), col] = names
        return places


def differing(expected: Stored, found: Stored) -> List[Tuple[int, int]]:
    """Returns the row and the column of each cell that differs between two stored screens."""
    cells = set()
    for row, (one, other) in enumerate(zip(expected.rows, found.rows), 1):
        length = max(len(one), len(other))
        for col, (left, right) in enumerate(zip(one.ljust(length), other.ljust(length)), 1):
            if left != right:
                cells.add((row, col))
    first, second = expected.attributes(), found.attributes()
    cells.update(place for place in first.keys() | second.keys() if first.get(place) != second.get(place))
    return sorted(cells)


def difference(expected: Stored, found: Stored, colour: bool = False) -> str:
    """Returns the difference by lines: expected lines after -, found lines after +, and ^ beneath the cells that differ."""
    red, green, off = ("\033[31m", "\033[32m", "\033[0m") if colour else ("", "", "")
    by_row: Dict[int, List[int]] = {}
    for row, col in differing(expected, found):
        by_row.setdefault(row, []).append(col)
    lines = []
    for row, cols in by_row.items():
        lines.append(f"row {row}, columns {_ranges(cols)}:")
        lines.append(f"  {red}- {expected.rows[row - 1]}{off}")
        lines.append(f"  {green}+ {found.rows[row - 1]}{off}")
        marks = set(cols)
        lines.append("    " + "".join("^" if col in marks else " " for col in range(1, cols[-1] + 1)))
    lines += [f"  {red}- {line}{off}" for line in expected.rest if line not in found.rest]
    lines += [f"  {green}+ {line}{off}" for line in found.rest if line not in expected.rest]
    return "\n".join(lines)


def _ranges(cols: Iterable[int]) -> str:
    runs: List[List[int]] = []
    for col in cols:
        if runs and runs[-1][1] == col - 1:
            runs[-1][1] = col
        else:
            runs.append([col, col])
    return ", ".join(f"{first}-{last}" if first != last else str(first) for first, last in runs)
