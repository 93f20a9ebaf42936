"""Tests terminal programs: runs one on a VT220, sends it keys, waits for what it shows, and compares its screen with a stored one.

    from vt220.rig import ENTER, run

    with run("less", "notes.txt") as less:
        less.wait("notes.txt", row=24)
        less.keys("/", "terminal", ENTER)
        less.wait(lambda screen: screen.at("terminal").reverse)

With pytest the fixture `vt` does the same, and ends each program with its test.
"""
import errno
import functools
import os
import pathlib
import re
import select
import shlex
import time
from typing import Callable, Dict, Iterator, List, NamedTuple, Optional, Pattern, Sequence, Tuple, Union

from . import COLUMNS, ROWS, Bytes, Modes, Terminal, _check_size
from .cast import asciicast
from .expected import NoGlyph, expression_as_shown, expression_of_text, text_as_shown
from .keyboard import Chord, Key, alt, check_text, ctrl, shift, spelled
from .page import NoTemplate, is_utf_8, page, recording, side_by_side
from .picture import svg
from .process import TERMS, Process, environment
from .recordings import terminal_of
from .screen import MASK, Mask, Place, Screen, Stored, check_column, check_row, check_substitutes, difference, differing, renewed

TIMEOUT = 10.0
# How long a program must be silent before --update-screens stores its screen.
SETTLED_MS = 500
# The endings of a failure's files: the picture, the recording as bytes and as an asciicast, the page, and the page with the last good run.
ENDINGS = ("svg", "bytes", "cast", "html", "both.html")

Directory = Union[str, "os.PathLike[str]"]
Condition = Union[str, Pattern[str], Callable[[Screen], object]]
# The keys by name, one line for each: a type checker and an editor read them here.
UP = Key.UP
DOWN = Key.DOWN
RIGHT = Key.RIGHT
LEFT = Key.LEFT
FIND = Key.FIND
HOME = Key.HOME
INSERT_HERE = Key.INSERT_HERE
REMOVE = Key.REMOVE
SELECT = Key.SELECT
END = Key.END
PREV_SCREEN = Key.PREV_SCREEN
NEXT_SCREEN = Key.NEXT_SCREEN
PF1 = Key.PF1
PF2 = Key.PF2
PF3 = Key.PF3
PF4 = Key.PF4
F1 = Key.F1
F2 = Key.F2
F3 = Key.F3
F4 = Key.F4
F5 = Key.F5
F6 = Key.F6
F7 = Key.F7
F8 = Key.F8
F9 = Key.F9
F10 = Key.F10
F11 = Key.F11
F12 = Key.F12
F13 = Key.F13
F14 = Key.F14
F15 = Key.F15
F16 = Key.F16
F17 = Key.F17
F18 = Key.F18
F19 = Key.F19
F20 = Key.F20
HELP = Key.HELP
DO = Key.DO
KP_0 = Key.KP_0
KP_1 = Key.KP_1
KP_2 = Key.KP_2
KP_3 = Key.KP_3
KP_4 = Key.KP_4
KP_5 = Key.KP_5
KP_6 = Key.KP_6
KP_7 = Key.KP_7
KP_8 = Key.KP_8
KP_9 = Key.KP_9
KP_MINUS = Key.KP_MINUS
KP_COMMA = Key.KP_COMMA
KP_PERIOD = Key.KP_PERIOD
KP_ENTER = Key.KP_ENTER
ENTER = Key.ENTER
TAB = Key.TAB
DELETE = Key.DELETE
BACKSPACE = Key.BACKSPACE
ESCAPE = Key.ESCAPE
__all__ = ["Chord", "Failure", "KeyboardLocked", "NoGlyph", "Place", "Reports", "Rig", "Screen", "Key", "MASK", "alt", "ctrl", "run", "shift", "spelled",
           *Key.__members__]


class Failure(AssertionError):
    """Reports that a program didn't do what its test waits for. `rig` is the one that ran it."""

    rig: "Optional[Rig]" = None


class KeyboardLocked(Failure):
    """Reports keys for a terminal whose keyboard the program has locked (KAM)."""


class Event(NamedTuple):
    """Holds something that went over the line: its moment in seconds, who sent it, and the bytes.

    What the test typed is of "test", or of "hidden" if it is secret: then the bytes are only the number of keys, as "(7 keys)".
    """

    at: float
    who: str
    data: bytes


class Reports(NamedTuple):
    """Holds the directory of a failure's files, the beginning of their names, and the file of the program's recording in the last good run."""

    directory: pathlib.Path = pathlib.Path("vt220-failures")
    name: str = ""
    colour: bool = False
    good: Optional[pathlib.Path] = None

    def write(self, name: str, rig: "Rig", marks: Sequence[Tuple[int, int]]) -> str:
        """Writes the picture, the recording and the page, and returns the lines that name them, or why they couldn't be written."""
        picture, recording, cast, playing, both = (f"{self.directory / (self.name or name)}.{ending}" for ending in ENDINGS)
        try:
            self.directory.mkdir(parents=True, exist_ok=True)
            pathlib.Path(recording).write_bytes(rig.recording)
            pathlib.Path(picture).write_text(svg(rig.last, marks), encoding="utf-8")
            pathlib.Path(cast).write_bytes(b"".join(_asciicast(rig)))
            page_line = _write_page(playing, rig) + _write_comparison(both, rig, self.good)
        except OSError as fault:
            return f"no picture and no recording: {fault}"
        words = " ".join(_playing(rig, recording, cast))
        files = f"picture:   {picture}\nrecording: {recording}\nasciicast: {cast}\n{page_line}"
        return f"{files}play it:   python3 -m vt220 {words}   (or: vt220 show {words})"


def _playing(rig: "Rig", recording: str, cast: str) -> List[str]:
    """Returns the arguments with which a recording of a failure is played: those of python3 -m vt220, and of the program vt220.

    An asciicast has characters, so the bytes of a VT220 are played as they are if its screen has a VT220's size.
    """
    if rig.encoding == "dec":
        words, file = (["--format", "raw"], recording) if rig.is_of_a_vt220 else (["--format", "asciicast", "--encoding", "dec"], cast)
    else:
        # The first line names TERM, which the test may have chosen.
        is_named = terminal_of(rig.environment["TERM"]) == rig.terminal.terminal
        words, file = ["--format", "asciicast", *([] if is_named else ["--terminal", rig.terminal.terminal])], cast
    return [*words, shlex.quote(file)]


def _is_vt220(rows: int, columns: int) -> bool:
    """Returns whether a screen that is opened with this size is a VT220's."""
    return rows == ROWS and columns in (80, COLUMNS)


class Rig:
    """Runs a command on a VT220. One thread uses it at a time; any number of them may run side by side.

    The command is in UTF-8, and so are the keys that it gets. With the encoding "dec" it gets the bytes of a VT220, and sends them.
    With the terminal "xterm" it is in UTF-8, TERM is xterm-256color, and its keys are those of xterm.

    The screen has a VT220's size, 24 rows of 80 columns or of 132, or another one of 2 to 255 rows and 2 to 255 columns. resize() changes it.
    """

    def __init__(self, argv: Sequence[str], *, rows: int = ROWS, columns: int = 80, cwd: Optional[Directory] = None, env: Optional[Dict[str, str]] = None,
                 timeout: float = TIMEOUT, term: Optional[str] = None, encoding: str = "utf-8", screens: Optional[Directory] = None,
                 update: bool = False, reports: Optional[Reports] = None, used: Optional[Callable[[pathlib.Path], None]] = None,
                 terminal: str = "vt220") -> None:
        _check_size(rows, columns)
        is_vt220 = _is_vt220(rows, columns)
        self.argv, self.timeout = [os.fspath(word) for word in argv], timeout
        self.screens, self.update = pathlib.Path(screens if screens is not None else "screens"), update
        self.reports, self._used = reports or Reports(), used
        self.terminal = Terminal(encoding, terminal) if is_vt220 else Terminal(encoding, terminal, rows, columns)
        self.recording, self.events = bytearray(), []  # type: ignore[var-annotated]
        self.encoding, self.rows, self.columns = self.terminal.encoding, rows, columns
        # The size at the beginning, and the present one if it isn't a VT220's.
        self.first_size, self._size = (rows, columns), None if is_vt220 else (rows, columns)
        self.environment = environment(term or TERMS[terminal], self.encoding, env)
        self._output, self._is_open, self._started = bytearray(), True, time.monotonic()
        self.process = Process(self.argv, self.environment, cwd, rows, columns, self.encoding)
        if is_vt220 and columns == COLUMNS:
            # The recording begins with it, so that it shows the same when it is played.
            self._play(b"\033[?3h" if terminal == "vt220" else b"\033[?40h\033[?3h\033[?40l")
        self.last = self._look()
        self._poll = select.poll()
        self._poll.register(self.process.ending, select.POLLIN)
        self._poll.register(self.process.line, select.POLLIN)

    def __enter__(self) -> "Rig":
        return self

    def __exit__(self, *_: object) -> None:
        self.close()

    def close(self) -> None:
        """Ends the command, and everything that it started."""
        self._is_open = False
        self.process.close()

    # The line: reading what the program wrote, and writing what is meant for it.

    def _note(self, who: str, data: bytes) -> None:
        self.events.append(Event(time.monotonic() - self._started, who, data))

    def _play(self, data: bytes) -> None:
        """Plays what the program wrote. Each report is sent before the byte after its question is played."""
        self.recording += data
        self._note("program", data)
        at = 0
        while at < len(data):
            played, report = self.terminal.feed_until_report(data[at:] if at else data)
            at += played
            if report:
                self._note("report", report)
                self._output += report
                self._flush()
        if self.terminal.is_between():
            self.last = self._look()

    def _look(self) -> Screen:
        """Returns the screen as it is now. A character whose bytes aren't complete isn't on it."""
        return Screen(self.terminal.repaint("vt220"), self.encoding, self._size)

    @property
    def is_of_a_vt220(self) -> bool:
        """Whether the screen has always had a VT220's size."""
        return self._size is None

    def resize(self, rows: int, columns: int) -> None:
        """Changes the size of the window. The program gets SIGWINCH. What it has written before is played first.

        The screen changes as xterm's does (Terminal.resize). Raises NoSize if no screen has this size.
        """
        while self._read(0):
            pass
        self.terminal.resize(rows, columns)
        self.rows, self.columns, self._size = rows, columns, (rows, columns)
        self._note("size", f"{columns}x{rows}".encode())
        if self._is_open:
            self.process.resize(rows, columns)
        if self.terminal.is_between():
            self.last = self._look()

    def _flush(self) -> None:
        """Writes as much of what waits for the program as the line takes now."""
        while self._output and self._is_open:
            try:
                sent = os.write(self.process.line, self._output)
            except BlockingIOError:
                return
            except OSError as fault:
                if fault.errno != errno.EIO:
                    raise
                self._output.clear()
                return
            del self._output[:sent]

    def _event(self, seconds: float) -> int:
        """Waits for something on the line, and writes what it takes. Returns what poll(2) says of it, 0 if nothing came."""
        if self._is_open:
            self._poll.modify(self.process.line, select.POLLIN | (select.POLLOUT if self._output else 0))
        event = dict(self._poll.poll(max(0.0, seconds) * 1000)).get(self.process.line, 0)
        if event & select.POLLOUT:
            self._flush()
        return event

    def _read(self, seconds: float) -> bool:
        """Waits for bytes of the program and plays one read of them. Returns whether there were any."""
        deadline = time.monotonic() + seconds
        event = self._event(seconds)
        while event == select.POLLOUT:  # the program has read something, and has written nothing
            event = self._event(deadline - time.monotonic())
        # The program may have written, and ended, between the two looks of one poll.
        return (event != 0 or self.process.ended() is not None) and self._take()

    def _take(self) -> bool:
        if not self._is_open:
            return False
        try:
            data = os.read(self.process.line, 65536)
        except BlockingIOError:
            return False
        except OSError as fault:
            if fault.errno != errno.EIO:
                raise
            data = b""
        if not data:
            # All of the program's descriptors of the line are closed.
            self._is_open = False
            self._poll.unregister(self.process.line)
            return False
        self._play(data)
        return True

    def _until(self, met: Callable[[], object], wanted: str, timeout: Optional[float], hint: Callable[[], str] = str) -> None:
        """Reads until `met` holds. It is looked at after each read that doesn't end inside a sequence. A failure ends with the hint."""
        __tracebackhide__ = True
        limit = self.timeout if timeout is None else timeout
        deadline = time.monotonic() + limit
        if self.terminal.is_between() and met():
            return
        while True:
            left = deadline - time.monotonic()
            # What the program wrote before its end is there to be read once it has ended.
            has_ended = self.process.ended() is not None
            if self._read(left):
                if self.terminal.is_between() and met():
                    return
            elif has_ended:
                self._fail(f"the program ended with status {self.process.ended()}, and {wanted} never came{hint()}")
            if left <= 0:
                self._fail(f"{wanted} didn't come in {limit:g} s{hint()}")

    # What a test does.

    def send(self, data: Bytes, *, secret: Optional[bool] = None) -> None:
        """Sends bytes to the program as they are. `secret` is that of keys()."""
        __tracebackhide__ = True
        data = bytes(memoryview(data))
        if secret:
            self._until_echo_is_off()
        self._type(data, _counted(len(data), "byte"), secret)

    def _type(self, data: bytes, count: str, secret: Optional[bool]) -> None:
        """Sends what the test types. Of a secret only the count is stored."""
        is_hidden = not self.process.echoes() if secret is None else secret
        self._note("hidden" if is_hidden else "test", f"({count})".encode() if is_hidden else data)
        self._output += data
        self._flush()

    def _until_echo_is_off(self) -> None:
        """Waits until the line echoes nothing, since what is echoed is a part of the screen. No system call waits for that."""
        __tracebackhide__ = True
        deadline = time.monotonic() + self.timeout
        while self.process.echoes():
            if self.process.ended() is not None or time.monotonic() > deadline:
                self._fail("secret keys were pressed, and the line echoes them: they would be stored with the screen")
            self._read(0.01)

    def _typing(self, secret: Optional[bool]) -> Modes:
        """Returns the modes that a key is sent under, after all that the program has written by now. Fails if the keyboard is locked."""
        __tracebackhide__ = True
        if secret:
            self._until_echo_is_off()
        while self._read(0):
            pass
        modes = self.terminal.modes()
        if modes.kam:
            self._fail("keys were pressed, and the program has locked the keyboard (KAM)", kind=KeyboardLocked)
        return modes

    def keys(self, *keys: Union[str, Key, Chord], secret: Optional[bool] = None) -> None:
        """Presses keys: each character of a text, in the program's encoding, or a Key, as the terminal's modes ask for it now.

        With the terminal "xterm" a key may also be a Chord, such as shift(TAB) or ctrl(LEFT). What the program has written by now is played
        first, since it may change the modes.

        Secret keys are stored nowhere, and a report has only their number. Keys are secret if the line echoes nothing when they are pressed.
        With secret=True this waits until it echoes nothing. With secret=False the keys are stored.

        Raises ValueError if no key sends a character, and if a text is the name of a key, as "ENTER" is.
        """
        __tracebackhide__ = True
        for key in keys:
            if isinstance(key, str):
                check_text(key)
        modes = self._typing(secret)
        typed = b"".join(spelled(key, modes, self.encoding, self.terminal.terminal) for key in keys)
        self._type(typed, _counted(sum(len(key) if isinstance(key, str) else 1 for key in keys), "key"), secret)

    def paste(self, text: str, *, secret: Optional[bool] = None) -> None:
        """Sends a text as it would be typed quickly: each line feed as the Return key. `secret` is that of keys().

        With the terminal "xterm" it is sent between ESC [200~ and ESC [201~ if the program has asked for that (?2004). A VT220 has no such
        mode.
        """
        __tracebackhide__ = True
        modes = self._typing(secret)
        lines = text.replace("\r\n", "\n").split("\n")
        typed = spelled(Key.ENTER, modes).join(spelled(line, modes, self.encoding) for line in lines)
        typed = b"\x1b[200~" + typed + b"\x1b[201~" if self.terminal.bracketed_paste() else typed
        self._type(typed, _counted(len(text), "key"), secret)

    def wait(self, what: Optional[Condition] = None, *, text: Optional[str] = None, row: Optional[int] = None, col: Optional[int] = None,
             cursor: Optional[Tuple[int, int]] = None, timeout: Optional[float] = None, allow_substitutes: bool = False) -> Screen:
        """Waits until the screen meets every condition given, and returns it.

        `what` is a regular expression that is searched in each row, or a function of the Screen; `text` is a text as it is. `row`
        and `col` say the row, and the column of the first character. `cursor` is the cursor's row and column. Spaces at the end of a row
        are found up to the cursor. Characters that have a similar glyph are found as that. Raises NoGlyph for any other that a VT220
        lacks. With allow_substitutes=True it is found as U+2426, as all of these are. Raises ValueError for a line feed, which no row has.
        """
        __tracebackhide__ = True
        for place in ((row, col), cursor or (None, None)):
            check_row(place[0], self.rows)
            check_column(place[1])
        conditions: List[Callable[[Screen], object]] = []
        expressions: List["Pattern[str]"] = []
        if callable(what):
            conditions.append(what)
        elif what is not None:
            expressions.append(expression_as_shown(what, self.encoding, allow_substitutes))
        if text is not None:
            expressions.append(expression_of_text(text, self.encoding, allow_substitutes))
        if not expressions and (row is not None or col is not None):
            raise TypeError("row and col are of a text or an expression, and wait() has neither")
        conditions += [functools.partial(Screen._finds, expression=expression, row=row, col=col) for expression in expressions]
        if cursor is not None:
            conditions.append(lambda screen: screen.cursor[:2] == cursor)
        if not conditions:
            raise TypeError("wait() needs a text, an expression, a function or a cursor")
        wanted = _wanted(what, text, row, col, cursor, self.encoding)
        self._until(lambda: all(condition(self.last) for condition in conditions), wanted, timeout, lambda: _hint(self.last, what, row, col))
        return self.last

    def still(self, ms: float = 200, timeout: Optional[float] = None) -> Screen:
        """Waits until the program has written nothing for `ms` milliseconds, and returns the screen. Prefer wait()."""
        __tracebackhide__ = True
        limit = self.timeout if timeout is None else timeout
        deadline = time.monotonic() + limit
        while self._read(ms / 1000) or not self.terminal.is_between():
            if time.monotonic() > deadline:
                self._fail(f"the program wrote for {limit:g} s without a pause of {ms:g} ms")
            if self.process.ended() is not None and not self._is_open:
                break
        return self.last

    def ended(self, status: int = 0, timeout: Optional[float] = None) -> Screen:
        """Waits until the program ends, plays all that it wrote, and compares its exit status (a signal's number is negative)."""
        __tracebackhide__ = True
        limit = self.timeout if timeout is None else timeout
        deadline = time.monotonic() + limit
        while self.process.ended() is None:
            if time.monotonic() > deadline:
                self._fail(f"the program didn't end in {limit:g} s")
            if not self._read(deadline - time.monotonic()) and not self._is_open:
                select.select([self.process.ending], [], [], max(0.0, deadline - time.monotonic()))
        while self._take():
            pass
        if self.process.ended() != status:
            self._fail(f"the program ended with status {self.process.ended()}, not {status}")
        return self.last

    @property
    def screen(self) -> Screen:
        """The screen after all that the program has written by now. If that ends inside a sequence, it waits for its end."""
        __tracebackhide__ = True
        while self._read(0):
            pass
        if not self.terminal.is_between() and self._is_open:
            self._until(lambda: True, "the end of a sequence", None)
        return self.last

    def matches(self, name: str, *, masks: Sequence[Mask] = (), timeout: Optional[float] = None, allow_substitutes: bool = False) -> None:
        """Waits until the screen is the one that is stored as `name`.txt. Fails with the difference if it never is.

        `masks` are parts that aren't compared: regular expressions, or (row, column, length). Raises NoGlyph if a mask has a character that
        is shown as U+2426, or the stored screen of a program in UTF-8 has U+2426, unless allow_substitutes is true.
        """
        __tracebackhide__ = True
        path = self.screens / f"{name}.txt"
        if self._used is not None:
            self._used(path)
        if self.update:
            self.still(SETTLED_MS)
        elif not path.exists():
            self._fail(f"{path} isn't there; --update-screens makes it")
        found = functools.partial(Screen.stored, masks=masks, allow_substitutes=allow_substitutes)
        stored = found(self.last) if self.update else renewed(path.read_text(encoding="utf-8"))
        if self.encoding != "dec" and not allow_substitutes:
            check_substitutes(str(path), stored, self.rows)
        if self.update:
            path.parent.mkdir(parents=True, exist_ok=True)
            path.write_text(stored, encoding="utf-8")
            return
        try:
            self._until(lambda: found(self.last) == stored, f"the screen {name}", timeout)
        except Failure as fault:
            self._differs(path, str(fault).split("\n")[0], Stored(stored, self.rows), Stored(found(self.last), self.rows))

    # What is said when it fails.

    def _differs(self, path: pathlib.Path, why: str, expected: Stored, found: Stored) -> None:
        __tracebackhide__ = True
        text = difference(expected, found, self.reports.colour)
        why = f"{why}\n{path} (-) and the screen (+) differ; if the file is stale, --update-screens writes it again\n{text}"
        raise self._failure(why, Failure, differing(expected, found)) from None

    def _fail(self, why: str, kind: "type[Failure]" = Failure) -> None:
        __tracebackhide__ = True
        raise self._failure(why, kind, ())

    def _failure(self, why: str, kind: "type[Failure]", marks: Sequence[Tuple[int, int]]) -> Failure:
        failure = kind(f"{why}\n\n{self.report(marks)}")
        failure.rig = self
        return failure

    def report(self, marks: Sequence[Tuple[int, int]] = ()) -> str:
        """Writes the picture, with a frame around each marked cell, and the recording. Returns the words for a failure: these and the screen."""
        lines = [f"the command: {' '.join(self.argv)}", "the screen, the cursor at row %d, column %d:" % self.last.cursor[:2]]
        lines += [f"{row:2}|{line}" for row, line in enumerate(self.last.rows, 1) if line or row == self.last.cursor.row]
        lines.append("the last events:")
        lines += [f"  {event.at:8.3f} s  {event.who:8}{_short(event.data)}" for event in self.events[-8:]]
        if self.encoding == "dec" and is_utf_8(bytes(self.recording)):
            lines.append(_UTF_8)
        if (self.process.ended() or 0) > 0 and self.environment["TERM"] == TERMS["vt220"]:
            lines.append(_ENDED)
        lines.append(self.reports.write(re.sub(r"\W+", "-", pathlib.Path(self.argv[0]).name), self, marks))
        return "\n".join(lines)


# The codes of events in an asciicast. What else isn't the program's is input. Of what is hidden a marker has the number of keys.
_CODES = {"program": "o", "size": "r", "hidden": "m"}


def _asciicast(rig: Rig) -> Iterator[bytes]:
    """Returns the lines of an asciicast of all that went over the line. Its first line has the size, and TERM and LC_ALL as the program had them."""
    kept = {name: rig.environment[name] for name in ("TERM", "LC_ALL")}
    rows, columns = rig.first_size
    head = {"width": columns, "height": rows, "command": shlex.join(rig.argv), "env": kept}
    events = ((event.at, _CODES.get(event.who, "i"), event.data) for event in rig.events)
    return asciicast(head, events, rig.encoding)


def _micros(event: Event) -> int:
    """Returns when an event was, in microseconds."""
    return int(event.at * 1e6)


def _chunks(rig: Rig) -> List[Tuple[int, int]]:
    """Returns when each part of the program's output came, in microseconds, and its number of bytes."""
    return [(_micros(event), len(event.data)) for event in rig.events if event.who == "program"]


def _sizes(rig: Rig) -> Dict[str, object]:
    """Returns the size at which a recording begins, unless it is a VT220's, and the changes of it, as a call of the module page takes them."""
    (rows, columns), place, changes = rig.first_size, 0, []
    for event in rig.events:
        place += len(event.data) if event.who == "program" else 0
        changes += [(_micros(event) / 1e6, event.data.decode(), place)] if event.who == "size" else []
    first = {} if _is_vt220(rows, columns) else {"rows": rows, "columns": columns}
    return {**first, **({"changes": changes} if changes else {})}


def recorded(rig: Rig, written: Callable[..., str] = recording, **options: object) -> str:
    """Returns what the program wrote, as a call of the module page writes it. The markers are what the test sent."""
    markers = [(event.at, _short(event.data)) for event in rig.events if event.who in ("test", "hidden")]
    languages = {"encoding": rig.encoding, "terminal": rig.terminal.terminal}
    return written(bytes(rig.recording), _chunks(rig), " ".join(rig.argv), markers=markers, **languages, **_sizes(rig), **options)


def _write_page(path: str, rig: Rig) -> str:
    """Writes the page that plays what the program wrote, and returns the line that names it. Without a template there is none.

    It first shows the end.
    """
    times = [_micros(event) for event in rig.events if event.who in ("program", "size")]
    try:
        text = recorded(rig, page, poster=times[-1] / 1e6 if times else 0)
    except NoTemplate:
        return ""
    pathlib.Path(path).write_text(text, encoding="utf-8")
    return f"page:      {path}\n"


def _write_comparison(path: str, rig: Rig, good: Optional[pathlib.Path]) -> str:
    """Writes the page of this run and the last good one, and returns the line that names it. Without these, or a template, there is none."""
    try:
        before = good.read_text(encoding="utf-8") if good else None
        text = side_by_side(" ".join(rig.argv), [("This run", recorded(rig)), ("The last run that passed", before)]) if before else None
    except (NoTemplate, FileNotFoundError):
        return ""
    if text is None:
        return ""
    pathlib.Path(path).write_text(text, encoding="utf-8")
    return f"both runs: {path}\n"


_UTF_8 = ("note: the program's output looks like UTF-8. With encoding=\"dec\" the rig's terminal reads each byte as a character of\n"
          "DEC Multinational. Leave the encoding out, or run the program on texts without UTF-8.")


_ENDED = ("note: the program ended with an error under TERM=vt220, which has no colours. If it is one of today that needs a modern terminal, run it\n"
          "with terminal=\"xterm\", or pytest with --vt-terminal xterm.")


def _counted(count: int, what: str) -> str:
    return f"{count} {what}" if count == 1 else f"{count} {what}s"


def _short(data: bytes) -> str:
    """Returns the last bytes of an event as text."""
    shown = ascii(data[-100:].decode("latin-1"))[1:-1].replace("\\x1b", "\\e")
    return shown if len(data) <= 100 else f"({len(data)} bytes) ..{shown}"


def _hint(screen: Screen, what: Optional[Condition], row: Optional[int], col: Optional[int]) -> str:
    """Returns a line for an expression that isn't found if the screen has its text as it is, and otherwise nothing."""
    if what is None or callable(what):
        return ""
    text = re.compile(what).pattern
    if "\n" in text:  # of a verbose expression
        return ""
    if screen._finds(expression_as_shown(what, screen.encoding, True), row, col) or not screen._finds(expression_of_text(text, screen.encoding, True), row, col):
        return ""
    return f"\nthe screen has this text as it is: write text={text!r}"


def _named(sign: str, given: str, shown: str) -> str:
    """Returns a text or an expression between two signs, and what is shown for it if that is something else."""
    return f"{sign}{given}{sign}" + (f" (shown as {sign}{shown}{sign})" if shown != given else "")


def _wanted(what: Optional[Condition], text: Optional[str], row: Optional[int], col: Optional[int], cursor: Optional[Tuple[int, int]],
            encoding: str) -> str:
    """Returns the words for what a test waits for."""
    parts = []
    if callable(what):
        code = getattr(what, "__code__", None)
        parts.append("what %s asks for" % (f"line {code.co_firstlineno} of {pathlib.Path(code.co_filename).name}" if code else what))
    elif what is not None:
        parts.append(_named("/", re.compile(what).pattern, expression_as_shown(what, encoding, True).pattern))
    if text is not None:
        parts.append(_named("'", text, text_as_shown(text, encoding)))
    if row is not None:
        parts.append(f"in row {row}")
    if col is not None:
        parts.append(f"in column {col}")
    if cursor is not None:
        parts.append(f"the cursor at row {cursor[0]}, column {cursor[1]}")
    return " ".join(parts)


def run(*argv: str, **options: object) -> Rig:
    """Runs a command on a VT220, and returns its Rig, which a with statement closes. The options are those of Rig."""
    return Rig(argv, **options)  # type: ignore[arg-type]
