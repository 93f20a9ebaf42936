"""Writes a recording as a picture that moves, to standard output: an SVG document, which needs no script.

The recording is by asciinema, ttyrec, or script with its timing file. The program vt220 reads it. The picture shows it at its pace, and begins
again a second after the last output. All output of a thirtieth of a second is one frame, which has the rows that look different. A row that
comes again isn't drawn again. The picture has room for the largest screen. A reader that wants no motion sees the last screen.
"""
import argparse
import html
import itertools
import pathlib
import re
import shutil
import subprocess
import sys
import zlib
from typing import Dict, Iterator, List, NamedTuple, Optional, Sequence, Tuple

from . import Cell, NoLibrary, Terminal
from .page import is_utf_8

__all__ = ["Animation", "Refused", "Step", "main"]

SECOND = 1000000  # in microseconds, as all times here
FRAMES = 30  # the most frames of a second
WIDE, HIGH, MARGIN = 10, 18, 10  # the size of a cell, and the margin around all cells
LEAST, MOST, MOST_CHANGES = 2, 255, 1000  # the rows and columns of a screen, and the changes of the size that are carried out
LIMIT = 1 << 25  # the bytes of a picture
MOST_READ, BROKEN = 1 << 40, 7  # the bytes of a recording that the program reads, and its status if one breaks its format at its first byte
# The ink and the paper of each theme, and the mark of each cursor: its attributes, and how far it is from the corner of its cell. A mark is inside
# the cell, since a frame covers whole rows.
THEMES = {"dark": ("#d0d0d0", "#101010"), "light": ("#101010", "#ffffff"), "green": ("#41ff6a", "#061207"), "amber": ("#ffb000", "#140c00")}
CURSORS = {"outline": ("fill='none' stroke='#e80' stroke-width='2' width='8' height='16'", 1, 1), "block": ("fill='#e80' fill-opacity='.5' width='10' height='18'", 0, 0),
           "underline": ("fill='#e80' width='10' height='3'", 0, 15), "hidden": ("", 0, 0)}  # fmt: skip
STYLE = """<style>@media (prefers-reduced-motion:no-preference){.vt220-f{animation:vt220-f infinite;
animation-duration:calc(var(--vt220-d)*.001ms);animation-timing-function:linear(0,0 calc(100%*var(--vt220-t)/var(--vt220-d)),
1 calc(100%*var(--vt220-t)/var(--vt220-d)),1)}}
@keyframes vt220-f{from{visibility:hidden}to{visibility:visible}}.vt220-r text{white-space:pre}</style>
"""


class Refused(Exception):
    """Reports why no picture is written."""


class Step(NamedTuple):
    """Output of a recording, or a change of its size."""

    micros: int
    data: bytes = b""
    size: Optional[Tuple[int, int]] = None  # the rows and columns


class Shown(NamedTuple):
    """What a screen shows. The first four are what all of its rows depend on."""

    rows: int
    columns: int
    ink: str
    paper: str
    cells: List[bytes]  # of each row, as the library writes them
    marks: List[str]  # the cursor's mark in each row, or nothing


# --- the recording ---


def program() -> str:
    """Returns the program that reads recordings: that of a wheel, of the repository, or of the system."""
    here = pathlib.Path(__file__).resolve()
    places = [here.with_name("vt220"), *(top / "crates/vt220/out/vt220" for top in here.parents[3:4])]
    found = next((str(place) for place in places if place.is_file()), shutil.which("vt220"))
    if found is None:
        raise Refused("the program vt220, which reads recordings, isn't installed")
    return found


def listed(file: str, timing: Optional[str], until: Optional[str]) -> List[List[bytes]]:
    """Returns what the program lists of a recording: the columns of each line."""
    words = ["--format", "auto"] if timing is None else ["--format", "script", "--timing", timing]
    words += [] if until is None else ["--until", until]
    done = subprocess.run([program(), "events", "--full", "--partial", "--quiet", "--limit", str(MOST_READ), *words, "--", file], stdout=subprocess.PIPE)
    if done.returncode not in (0, BROKEN):
        raise Refused(f"{file}: it can't be read")
    return [line.split(b"\t", 4) for line in done.stdout.split(b"\n")[:-1]]


def unshown(text: bytes) -> bytes:
    """Returns the bytes that the program shows: one that isn't printable, or a backslash, is its two hexadecimal digits after `\\x`."""
    return text.decode("unicode_escape").encode("latin-1")


def size_of(text: str) -> Optional[Tuple[int, int]]:
    """Reads a size as COLUMNSxROWS, or as script writes it. Returns None if no screen has it."""
    found = re.fullmatch(r"(?P<columns>\d{1,9})x(?P<rows>\d{1,9})|ROWS=(?P<lines>\d{1,9}) COLS=(?P<cols>\d{1,9})", text)
    if found is None:
        return None
    rows, columns = int(found["rows"] or found["lines"]), int(found["columns"] or found["cols"])
    return (rows, columns) if LEAST <= rows <= MOST and LEAST <= columns <= MOST else None


def steps_of(table: Sequence[Sequence[bytes]], keeps_size: bool) -> List[Step]:
    """Returns the steps of a recording. A time that is earlier than the one before it is that one."""
    steps, clock, changes = [], 0, 0
    for time, kind, _, _, text in (line for line in table if len(line) > 4):
        if time == b"-":
            raise Refused("the recording has no times, so nothing moves: name the timing file of script with --timing")
        step = Step(int(time.replace(b".", b"")), unshown(text)) if kind == b"output" else None
        if kind == b"size" and not keeps_size:
            changes += 1
            size = size_of(unshown(text).decode("latin-1")) if changes <= MOST_CHANGES else None
            step = Step(int(time.replace(b".", b"")), b"", size) if size else None
        if step is not None:
            clock = max(clock, step.micros)
            steps.append(step._replace(micros=clock))
    if not any(step.data for step in steps):
        raise Refused("the recording has no output")
    return steps


def opened(words: argparse.Namespace, table: Sequence[Sequence[bytes]], content: bytes) -> Terminal:
    """Returns the terminal that plays a recording of such content: the one that is asked for, otherwise the one that it shows.

    Its first line names the terminal. An xterm's host and a recording by asciinema are in UTF-8, and so is any other whose content is UTF-8 with
    a character beyond ASCII.
    """
    told = {line[0]: line[1:] for line in table if len(line) < 4}
    named = "xterm" if told.get(b"terminal") == [b"xterm"] and words.encoding != "dec" else "vt220"
    terminal = named if words.terminal == "auto" else words.terminal
    with open(words.file, "rb") as file:
        is_cast = words.timing is None and re.match(rb'(\xef\xbb\xbf)?\s*\{.*"version"', file.read(1024), re.S) is not None
    is_text = is_utf_8(content) if words.encoding == "auto" else words.encoding == "utf-8"
    encoding = "utf-8" if terminal == "xterm" or is_cast or is_text else "dec"
    rows, columns = words.size or size_of("x".join(number.decode() for number in told.get(b"window", ()))) or (24, 80)
    if (rows, columns) != (24, 132):
        return Terminal(encoding, terminal, rows, columns)
    made = Terminal(encoding, terminal)
    made.feed(b"\x1b[?40h\x1b[?3h\x1b[?40l" if terminal == "xterm" else b"\x1b[?3h")
    return made


# --- the picture ---


def look_of(cell: Cell) -> Tuple[bool, ...]:
    return cell.bold, cell.underline, cell.blink, cell.reverse


def run_of(cells: Sequence[Cell], col: int, paper: str) -> str:
    """Returns the drawing of adjacent cells with the same attributes, starting at a column."""
    look, place, width = cells[0], f"x='{(col - 1) * WIDE}'", len(cells) * WIDE
    classes = " ".join(name for name, has in (("vt220-b", look.bold), ("vt220-u", look.underline), ("vt220-k", look.blink)) if has)
    under = f"<rect {place} width='{width}' height='{HIGH}'/>\n" if look.reverse else ""
    attributes = (f" class='{classes}'" if classes else "") + (f" fill='{paper}'" if look.reverse else "")
    text = html.escape("".join(cell.glyph for cell in cells), quote=False)
    return f"{under}<text{attributes} {place} y='13' textLength='{width}' lengthAdjust='spacingAndGlyphs'>{text}</text>\n"


def runs_of(cells: Sequence[Cell], paper: str) -> str:
    """Returns the drawing of the cells of a row, without the blank ones at its end."""
    shown, col, drawn = list(cells), 1, ""
    while shown and shown[-1].glyph == " " and not any(look_of(shown[-1])):
        shown.pop()
    for _, group in itertools.groupby(shown, look_of):
        run = list(group)
        drawn += run_of(run, col, paper)
        col += len(run)
    return drawn


class Animation:
    """A picture that moves, of steps that a terminal plays. Raises Refused if it has more bytes than `limit`."""

    def __init__(self, terminal: Terminal, steps: Sequence[Step], theme: str = "dark", cursor: str = "outline", title: str = "VT220 screen", limit: int = LIMIT) -> None:
        self.terminal, self.colours, self.cursor, self.limit = terminal, THEMES[theme], CURSORS[cursor], limit
        self.duration = steps[-1].micros + SECOND
        # An HTML page may hold several pictures, so the names of rows have a part that is this one's.
        self.name = f"{zlib.crc32(b''.join(step.data for step in steps), zlib.crc32(repr((self.duration, theme)).encode())):x}"
        self.numbers: Dict[Tuple[bytes, str], int] = {}
        self.parts: List[str] = []
        self.length, self.rows, self.columns = 0, LEAST, LEAST
        self._write(f"<g class='vt220-text vt220-r' style='--vt220-d:{self.duration}' direction='ltr' font-style='normal' font-weight='normal' "
                    "letter-spacing='0' word-spacing='0'>\n")  # fmt: skip
        before = self._shown()
        self._frame(None, None, before)
        for micros, shown in self._played(steps):
            self._frame(micros, before, shown)
            before = shown
        self._write("</g>\n</svg>\n")
        self._write(self._head(title))
        self.parts.insert(0, self.parts.pop())

    def __str__(self) -> str:
        return "".join(self.parts)

    def _write(self, text: str) -> None:
        self.parts.append(text)
        self.length += len(text.encode())
        if self.length > self.limit:
            raise Refused(f"the picture has more than {self.limit} bytes: end it earlier with --until, or allow more with --limit")

    def _played(self, steps: Sequence[Step]) -> Iterator[Tuple[int, Shown]]:
        """Plays the steps, and returns what is shown at the last one of each thirtieth of a second, and its time."""
        for _, group in itertools.groupby(steps, lambda step: step.micros * FRAMES // SECOND):
            for step in group:
                self.terminal.feed(step.data)
                if step.size is not None:
                    self.terminal.resize(*step.size)
            yield step.micros, self._shown()

    def _shown(self) -> Shown:
        rows, modes, cursor = self.terminal.rows(), self.terminal.modes(), self.terminal.cursor()
        ink, paper = reversed(self.colours) if modes.decscnm else self.colours
        marks = [""] * rows
        attributes, left, top = self.cursor
        if modes.dectcem and attributes:
            marks[cursor.row - 1] = f"<rect {attributes} x='{(cursor.col - 1) * WIDE + left}' y='{(cursor.row - 1) * HIGH + top}'/>\n"
        return Shown(rows, self.terminal.width(), ink, paper, [self.terminal._raw(row + 1) for row in range(rows)], marks)

    def _frame(self, micros: Optional[int], before: Optional[Shown], shown: Shown) -> None:
        """Adds what is shown at a time, or at the beginning, and looks different from what was shown before."""
        is_whole = before is None or before[:4] != shown[:4]
        drawn = [f"<rect fill='{shown.paper}' x='-{MARGIN}' y='-{MARGIN}' width='100%' height='100%'/>\n"] if is_whole else []
        for row in range(shown.rows):
            if before is None or is_whole:
                drawn.append((self._row(shown, row) if runs_of(self.terminal.row(row + 1), shown.paper) else "") + shown.marks[row])
            elif (before.cells[row], before.marks[row]) != (shown.cells[row], shown.marks[row]):
                drawn.append(self._row(shown, row) + shown.marks[row])
        self.rows, self.columns = max(self.rows, shown.rows), max(self.columns, shown.columns)
        start = f" class='vt220-f' style='--vt220-t:{micros}'" if micros is not None else ""
        if drawn:
            self._write(f"<g{start} fill='{shown.ink}'>\n{''.join(drawn)}</g>\n")

    def _row(self, shown: Shown, row: int) -> str:
        """Returns the use of a row's drawing, and before it the drawing, if it is the first such one."""
        key, drawing = (shown.cells[row], shown.paper), ""
        if key not in self.numbers:
            self.numbers[key] = len(self.numbers)
            under = f"<rect fill='{shown.paper}' width='{shown.columns * WIDE}' height='{HIGH}'/>\n"
            drawing = f"<defs><g class='vt220-r' id='v{self.name}-{self.numbers[key]}'>\n{under}{runs_of(self.terminal.row(row + 1), shown.paper)}</g></defs>\n"
        return f"{drawing}<use href='#v{self.name}-{self.numbers[key]}' y='{row * HIGH}'/>\n"

    def _head(self, title: str) -> str:
        """Returns the head of the library's picture of the last screen, with its text alternative, for all screens."""
        head = self.terminal.picture().partition("<g")[0]
        box = f"{self.columns * WIDE + 2 * MARGIN}", f"{self.rows * HIGH + 2 * MARGIN}"
        named = html.escape("".join(letter if letter.isprintable() else " " for letter in title), quote=False)
        head = re.sub(r"viewBox='[^']*' width='\d+' height='\d+'", f"viewBox='-{MARGIN} -{MARGIN} {' '.join(box)}' width='{box[0]}' height='{box[1]}'", head, count=1)
        return re.sub(r"<title>.*?</title>", lambda _: f"<title>{named}</title>", head, count=1, flags=re.S) + STYLE


# --- the command line ---


def _size(text: str) -> Tuple[int, int]:
    size = size_of(text)
    if size is None:
        raise argparse.ArgumentTypeError(f"{text} isn't a size as 120x40: {LEAST} to {MOST} columns and {LEAST} to {MOST} rows")
    return size


def _parser() -> argparse.ArgumentParser:
    parser = argparse.ArgumentParser(prog="python3 -m vt220 animate", description=__doc__, formatter_class=argparse.RawDescriptionHelpFormatter, allow_abbrev=False)
    parser.add_argument("file", metavar="FILE", help="the recording")
    parser.add_argument("--timing", metavar="FILE", help="the timing file of script; FILE is then its typescript")
    parser.add_argument("--until", metavar="MOMENT", help="the moment at which it ends, as for vt220: 12.5 or 12:31, 4096b, event:N or marker:N")
    parser.add_argument("--encoding", choices=("auto", "dec", "utf-8"), default="auto", help="how the program's bytes are read; with auto the recording decides (auto)")
    parser.add_argument("--terminal", choices=("auto", "vt220", "xterm"), default="auto", help="what the program wrote for; with auto the recording decides (auto)")
    parser.add_argument("--size", type=_size, metavar="120x40", help="the screen's columns and rows; otherwise the recording decides, and its changes are followed")
    parser.add_argument("--theme", choices=tuple(THEMES), default="dark", help="the colours (dark)")
    parser.add_argument("--cursor", choices=tuple(CURSORS), default="outline", help="the shape of the cursor (outline)")
    parser.add_argument("--title", default="VT220 screen", help="the title (VT220 screen)")
    parser.add_argument("--limit", type=int, default=LIMIT, metavar="BYTES", help=f"the most bytes of the picture ({LIMIT})")
    return parser


def main(arguments: Sequence[str]) -> int:
    """Writes the picture that the arguments ask for. Returns the exit status."""
    parser = _parser()
    words = parser.parse_args(arguments)
    if words.terminal == "xterm" and words.encoding == "dec":
        parser.error("--terminal xterm is in UTF-8, and doesn't go with --encoding dec")
    try:
        table = listed(words.file, words.timing, words.until)
        steps = steps_of(table, words.size is not None)
        picture = Animation(opened(words, table, b"".join(step.data for step in steps)), steps, words.theme, words.cursor, words.title, words.limit)
        sys.stdout.buffer.write(str(picture).encode())
        sys.stdout.buffer.flush()
    except (Refused, NoLibrary, OSError) as fault:
        print(f"vt220: {fault}", file=sys.stderr)
        return 1
    return 0
