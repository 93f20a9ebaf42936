"""Draws a screen as a picture (SVG), with marks around cells."""
from typing import Iterable, Tuple

from .screen import Screen

# The size of a cell in the library's pictures.
WIDE, HIGH = 10, 18
_END = "</svg>"
# Attributes and no class, so that nothing depends on the names that the library's picture uses.
_MARKS = "<g fill='#f00' fill-opacity='.25' stroke='#f22' stroke-width='2'>\n"


def svg(screen: Screen, marks: Iterable[Tuple[int, int]] = ()) -> str:
    """Returns the library's picture of a screen, with a red frame around each marked cell: its row and its column."""
    drawn, end, rest = screen.picture.rpartition(_END)
    boxes = [f"<rect x='{(col - 1) * WIDE}' y='{(row - 1) * HIGH}' width='{WIDE}' height='{HIGH}'/>\n" for row, col in marks]
    return drawn + (_MARKS + "".join(boxes) + "</g>\n" if boxes else "") + end + rest
