"""Plays what a host sends to a DEC VT220 terminal, and reads the screen. The terminal is proved; this module calls it by ctypes.

    terminal = Terminal()
    reports = terminal.feed(b"Hello\\r\\n\\033[6n")   # the host's bytes go in, the reports to the host come out
    print(terminal.text())

The shared library is the file that VT220_LIBRARY names. If that isn't set, it is the first of these that exists: libvt220.so next to
this module, out/libvt220.so of the repository that this module is in, and the system's. It is loaded by the first call that needs it.
Rows and columns count from 1.

A terminal reads the bytes of a VT220, or UTF-8 with Terminal(encoding="utf-8"). shown() returns how UTF-8 is shown.
Terminal(terminal="xterm") reads what programs send under TERM=xterm-256color.

Any thread may use any terminal at any time. The interpreter's lock is held during each call of the library, so calls don't run in
parallel. feed() and feed_log() let other threads run after each 64 KB.
"""
import ctypes
import ctypes.util
import functools
import importlib.machinery
import importlib.util
import operator
import os
import pathlib
import struct
import sys
import threading
from typing import Any, Callable, Dict, List, NamedTuple, Optional, Tuple, Type, Union

__all__ = [
    "ROWS", "COLUMNS", "MOST_ROWS", "MOST_COLUMNS", "REPORT_LIMIT", "TEXT_LIMIT", "ROW_TEXT_LIMIT", "SHOW_LIMIT", "PICTURE_LIMIT", "PAINT_LIMIT", "XTERM_PAINT_LIMIT", "UPDATE_LIMIT", "DRAW_LIMIT",
    "KEY_LIMIT", "TYPED_LIMIT", "VERSION", "HELD", "ENCODINGS", "TERMINALS", "Error", "Memory", "InUse", "Closed", "Partial", "Room", "Unsupported", "NoRow", "NoKey", "NoCharacter", "OtherLanguage", "OtherSize", "NoSize",
    "NoLibrary", "Brush", "Cell", "Cursor", "Margins", "Modes", "Saved", "Sets", "Terminal", "key", "key_length", "shown", "status_text",
    "version",
]

ROWS = 24
COLUMNS = 132
MOST_ROWS = 255
MOST_COLUMNS = 255
REPORT_LIMIT = 10
TEXT_LIMIT = 9528
ROW_TEXT_LIMIT = 397
SHOW_LIMIT = 51000
PICTURE_LIMIT = 659968
PAINT_LIMIT = 93512
XTERM_PAINT_LIMIT = 187076
UPDATE_LIMIT = 94152
DRAW_LIMIT = 79270
KEY_LIMIT = 7
TYPED_LIMIT = 16
VERSION = 400
HELD = ("nothing", "escape", "control", "string")
# The encodings of what a host sends: the VT220's own bytes, and UTF-8.
ENCODINGS = ("dec", "utf-8")
# The terminals that a host may write for: a VT220, and what TERM=xterm names.
TERMINALS = ("vt220", "xterm")
# The most bytes that one call of the library plays: other threads wait for its end.
_PIECE = 65536
# The statuses after which a call is made again, with other buffers, and what a limit is of.
_ROOM, _SIZE, _OF_LINES = 5, 11, 7
# The highest number of a status. No call returns it.
_NO_STATUS = 2**32 - 1

Bytes = Union[bytes, bytearray, memoryview]


class Error(Exception):
    """Reports a call that changed nothing."""

    words = "the call did nothing"

    def __init__(self, words: str = "") -> None:
        super().__init__(words or self.words)


class Memory(Error):
    """Reports that an allocation failed."""

    words = "memory for the terminal could not be allocated"


class InUse(Error):
    """Reports that a handle is already open."""

    words = "the handle is already open"


class Closed(Error):
    """Reports a call of a closed terminal."""

    words = "the terminal is closed"


class Partial(Error):
    """Reports that a terminal is inside a sequence, so that it has no repaint and no update."""

    words = "the terminal is inside a sequence; feed it the rest of the sequence first"


class Room(Error):
    """Reports that a buffer is too small."""

    words = "the buffer is too small"


class Unsupported(Error):
    """Reports that the processor is older than x86-64-v2."""

    words = "the processor is older than x86-64-v2, which the library needs"


class NoRow(Error, IndexError):
    """Reports that there is no such row."""

    words = "rows count from 1 to the number of rows"


class NoKey(Error, ValueError):
    """Reports that there is no such key."""

    words = "there is no such key"


class NoCharacter(Error, ValueError):
    """Reports that no key sends this character."""

    words = "no key sends this character"


class OtherLanguage(Error, ValueError):
    """Reports that a terminal isn't of TERM=xterm, or is one, where the call needs the other."""

    words = "the terminal has another language"


class OtherSize(Error, ValueError):
    """Reports that two terminals have different sizes."""

    words = "two terminals have different sizes"


class NoSize(Error, ValueError):
    """Reports that there is no such size."""

    words = "there is no such size"


class NoLibrary(Error, ImportError):
    """Reports that libvt220.so isn't found, can't be loaded, or is of another version."""

    words = "libvt220.so isn't found: name it in VT220_LIBRARY, copy it into the package, or build it with make lib"


_STATUSES: Dict[int, Type[Error]] = {
    1: Memory, 2: InUse, 3: Closed, 4: Partial, 5: Room, 6: Unsupported, 7: NoRow, 8: NoKey, 9: NoCharacter, 10: OtherLanguage,
    11: OtherSize, 13: NoSize,
}


class Cell(NamedTuple):
    """Holds one cell of the screen."""

    glyph: str
    bold: bool
    underline: bool
    blink: bool
    reverse: bool
    is_protected: bool


class Cursor(NamedTuple):
    """Holds the cursor's position, and whether the next glyph begins a new line."""

    row: int
    col: int
    wrap: bool


class Margins(NamedTuple):
    """Holds the first and the last row of the scroll region."""

    top: int
    bottom: int


class Modes(NamedTuple):
    """Holds the modes: True if set."""

    kam: bool
    irm: bool
    srm: bool
    lnm: bool
    decckm: bool
    decsclm: bool
    decscnm: bool
    decom: bool
    decawm: bool
    decarm: bool
    dectcem: bool
    keypad_application: bool
    reports_8bit: bool


class Brush(NamedTuple):
    """Holds the attributes with which the next glyph is written."""

    bold: bool
    underline: bool
    blink: bool
    reverse: bool
    is_protected: bool


class Sets(NamedTuple):
    """Holds the graphic sets: the final bytes of those in G0 to G3, the numbers of those in GL and GR, and a pending single shift, or 0."""

    g0: int
    g1: int
    g2: int
    g3: int
    gl: int
    gr: int
    single_shift: int


class Saved(NamedTuple):
    """Holds the state that DECRC restores."""

    row: int
    col: int
    wrap: bool
    origin: bool
    bold: bool
    underline: bool
    blink: bool
    reverse: bool
    is_protected: bool
    g0: int
    g1: int
    g2: int
    g3: int
    gl: int
    gr: int


class _Handle(ctypes.Structure):
    """Holds a terminal, or a scratch buffer, whose handle is shorter."""

    _fields_ = [("inside", ctypes.c_void_p), ("is_open", ctypes.c_bool), ("bells", ctypes.c_uint64)]


class _Language(ctypes.Structure):
    """Holds the language, and what a terminal keeps for it."""

    _fields_ = [
        ("language", ctypes.c_uint32), ("pending", ctypes.c_uint8 * 3), ("pending_len", ctypes.c_uint8), ("alternate", ctypes.c_bool),
        ("bracketed_paste", ctypes.c_bool), ("reserved", ctypes.c_uint8 * 22),
    ]


def _struct(names: Tuple[str, ...], kinds: Dict[str, Any], other: Any, reserved: int) -> Any:
    """Makes a structure of the header: its fields and the bytes that are reserved."""
    fields = [(name, kinds.get(name, other)) for name in names]
    return type("_Struct", (ctypes.Structure,), {"_fields_": fields + [("reserved", ctypes.c_uint8 * reserved)]})


_SIZES = {"row": ctypes.c_size_t, "col": ctypes.c_size_t, "top": ctypes.c_size_t, "bottom": ctypes.c_size_t}
_BYTES = {name: ctypes.c_uint8 for name in Sets._fields}
_Cell = _struct(Cell._fields, {"glyph": ctypes.c_uint32}, ctypes.c_bool, 3)
_Cursor = _struct(Cursor._fields, _SIZES, ctypes.c_bool, 15)
_Margins = _struct(Margins._fields, _SIZES, ctypes.c_bool, 16)
_Modes = _struct(Modes._fields, {}, ctypes.c_bool, 19)
_Brush = _struct(Brush._fields, {}, ctypes.c_bool, 11)
_Sets = _struct(Sets._fields, _BYTES, ctypes.c_uint8, 9)
_Saved = _struct(Saved._fields, {**_SIZES, **_BYTES}, ctypes.c_bool, 19)
# A truth value for each column, of any screen.
_Columns = ctypes.c_bool * MOST_COLUMNS


def _built(name: str) -> Optional[str]:
    """Returns the path of a built file in the package, or in the repository that the package is in, if it is there."""
    package = pathlib.Path(__file__).resolve().parent
    repository = package.parents[2] if len(package.parents) > 2 else package
    places = [package / name]
    # The repository's own file is meant only if this module is in the repository, not in a directory three below any other.
    if (repository / "lib/c/include/vt220.h").exists():
        places.append(repository / "out" / name)
    return next((str(place) for place in places if place.exists()), None)


def _find() -> str:
    """Returns the path of the shared library."""
    named = os.environ.get("VT220_LIBRARY") or _built("libvt220.so") or ctypes.util.find_library("vt220")
    if not named:
        raise NoLibrary()
    return named


def _declare(library: ctypes.PyDLL) -> None:
    """Sets the result and the arguments of each call."""
    handle, size, status = ctypes.POINTER(_Handle), ctypes.c_size_t, ctypes.c_uint32
    buffer, told, boolean = ctypes.c_void_p, ctypes.POINTER(ctypes.c_size_t), ctypes.c_bool
    calls: List[Tuple[str, Any, List[Any]]] = [
        ("open_as", status, [handle, status, size, size]),
        ("resize", status, [handle, size, size]),
        ("language", boolean, [handle, ctypes.POINTER(_Language)]),
        ("close", None, [handle]),
        ("is_open", boolean, [handle]),
        ("scratch_open", status, [handle]),
        ("scratch_fit", status, [handle, handle]),
        ("scratch_close", None, [handle]),
        ("scratch_is_open", boolean, [handle]),
        ("feed", size, [handle, buffer, size, buffer, size, told]),
        ("feed_log", size, [handle, handle, buffer, size, buffer, size, told, buffer, size, told]),
        ("shown", ctypes.c_uint32, [ctypes.c_uint32, told]),
        ("text", status, [handle, handle, buffer, size, told]),
        ("row_text", status, [handle, handle, size, buffer, size, told]),
        ("show", status, [handle, handle, buffer, size, told]),
        ("picture", status, [handle, handle, buffer, size, told]),
        ("repaint", status, [handle, handle, buffer, size, told]),
        ("repaint_as", status, [handle, status, handle, buffer, size, told]),
        ("update", status, [handle, handle, handle, buffer, size, told]),
        ("draw", status, [handle, handle, handle, buffer, size, told]),
        ("changes_of", status, [handle, handle, size, buffer, size]),
        ("copy", status, [handle, handle]),
        ("reset", status, [handle]),
        ("bells", ctypes.c_uint64, [handle]),
        ("status_text", ctypes.c_char_p, [status]),
        ("row", size, [handle, size, buffer, size]),
        ("cursor", boolean, [handle, ctypes.POINTER(_Cursor)]),
        ("rows", size, [handle]),
        ("width", size, [handle]),
        ("limit", size, [handle, status]),
        ("margins", boolean, [handle, ctypes.POINTER(_Margins)]),
        ("modes", boolean, [handle, ctypes.POINTER(_Modes)]),
        ("brush", boolean, [handle, ctypes.POINTER(_Brush)]),
        ("sets", boolean, [handle, ctypes.POINTER(_Sets)]),
        ("stops_of", size, [handle, buffer, size]),
        ("saved", boolean, [handle, ctypes.POINTER(_Saved)]),
        ("is_between", boolean, [handle]),
        ("held_kind", status, [handle]),
        ("same_state", boolean, [handle, handle]),
        ("key", status, [ctypes.c_uint32, ctypes.POINTER(_Modes), ctypes.c_char_p, size, buffer, size, told]),
        ("key_length", size, [ctypes.c_char_p, size]),
    ]
    for name, result, arguments in calls:
        function = getattr(library, "vt220_" + name)
        function.restype, function.argtypes = result, arguments


def _load() -> ctypes.PyDLL:
    """Loads the library, and refuses one of another version: before 1.0 each minor version may change the interface."""
    path = _find()
    try:
        # PyDLL holds the interpreter's lock during a call, so that two threads are never inside the library at once.
        library = ctypes.PyDLL(path)
    except OSError as fault:
        raise NoLibrary(f"the library can't be loaded: {fault}; name a file in VT220_LIBRARY, or run ldconfig if it is installed") from None
    try:
        library.vt220_version.restype, library.vt220_version.argtypes = ctypes.c_uint32, []
    except AttributeError:
        raise NoLibrary(f"{path} isn't a library of this terminal") from None
    found = library.vt220_version()
    if found // 100 != VERSION // 100:
        raise NoLibrary(f"{path} is of version {_spelled(found)}, and this module is for {_spelled(VERSION)}")
    try:
        _declare(library)
    except AttributeError as fault:
        raise NoLibrary(f"{path} is older than this module: {fault}") from None
    return library


def _extension(library: ctypes.PyDLL) -> Any:
    """Returns the extension module over a library. Returns None if there is none for this Python, or VT220_EXTENSION is empty."""
    path = os.environ["VT220_EXTENSION"] if "VT220_EXTENSION" in os.environ else _built("_calls.abi3.so")
    if not path or sys.version_info < (3, 11) or sys.implementation.name != "cpython":
        return None
    try:
        loader = importlib.machinery.ExtensionFileLoader("vt220._calls", path)
        module = importlib.util.module_from_spec(importlib.machinery.ModuleSpec("vt220._calls", loader, origin=path))
        loader.exec_module(module)
    except ImportError as fault:
        raise NoLibrary(f"the extension module can't be loaded: {fault}") from None
    addresses = [ctypes.cast(getattr(library, f"vt220_{name}"), ctypes.c_void_p).value for name in module.CALLS]
    module.bind(_expect, *addresses)
    return module


def _spelled(number: int) -> str:
    return f"{number // 10000}.{number // 100 % 100}.{number % 100}"


class _Library:
    """Holds the shared library, which is loaded when one of its calls is first asked for. So an import needs no library."""

    def __getattr__(self, name: str) -> Any:
        if not name.startswith("vt220_"):
            raise AttributeError(name)
        call = self.__dict__[name] = getattr(self.library(), name)
        return call

    def library(self) -> ctypes.PyDLL:
        # Two threads may both come here: the system loads a library once, and the second one finds the same calls.
        self._loaded = self.__dict__.get("_loaded") or _load()
        return self._loaded

    @functools.cached_property
    def calls(self) -> Any:
        """The calls that programs make most, by the extension module or by ctypes."""
        return _extension(self.library()) or _ByCtypes


_library = _Library()


def version() -> int:
    """Returns the library's version: 10000 * major + 100 * minor + patch."""
    return int(_library.vt220_version())


def status_text(status: int) -> str:
    """Returns a short English text for a status of the library. Raises TypeError if the status isn't an integer."""
    # ctypes would cut a longer number to 32 bits. The library has no status of the highest one.
    number = operator.index(status)
    return str(_library.vt220_status_text(number if 0 <= number < _NO_STATUS else _NO_STATUS).decode())


def _expect(status: int) -> None:
    if status != 0:
        raise _STATUSES.get(status, Error)()


def _check_row(row: int, last: int) -> int:
    """Returns the number of a row. Raises NoRow if the screen has no such row, and TypeError if the number isn't an integer."""
    number = operator.index(row)
    if not 1 <= number <= last:
        raise NoRow(f"rows count from 1 to {last}, so there is no row {number}")
    return number


def _check_size(rows: int, columns: int) -> Tuple[int, int]:
    """Returns a size. Raises NoSize if no screen has it, and TypeError if the numbers aren't integers."""
    size = operator.index(rows), operator.index(columns)
    if not (2 <= size[0] <= MOST_ROWS and 2 <= size[1] <= MOST_COLUMNS):
        raise NoSize(f"a screen has 2 to {MOST_ROWS} rows of 2 to {MOST_COLUMNS} columns, not {size[0]} of {size[1]}")
    return size


def _language(encoding: str, terminal: str) -> int:
    """Returns the number of a language. Raises ValueError if there is no such encoding or terminal."""
    if encoding not in ENCODINGS:
        raise ValueError(f"an encoding is one of {', '.join(ENCODINGS)}, not {encoding!r}")
    if terminal not in TERMINALS:
        raise ValueError(f"a terminal is one of {', '.join(TERMINALS)}, not {terminal!r}")
    return 2 * TERMINALS.index(terminal) or ENCODINGS.index(encoding)


def key(key: Union[str, Bytes], modes: Modes, encoding: str = "dec", terminal: str = "vt220") -> bytes:
    """Returns what a key sends under these modes, which modes() of a Terminal returns.

    The key is one character, a name such as "Up", "Return" or "C-c", or the sequence that a terminal sends for it, as a text or in
    UTF-8. vt220-keys.h lists the names. The encoding and the terminal are those of the Terminal. In UTF-8 each character beyond ASCII but
    a C1 control sends itself. With terminal="xterm" a key sends what it does on an xterm, and names may have modifiers, as "C-Left".
    Raises NoKey or NoCharacter, which are ValueErrors.
    """
    language = _language(encoding, terminal)
    text = key.encode("utf-8", "surrogateescape") if isinstance(key, str) else bytes(memoryview(key))
    sent, written = ctypes.create_string_buffer(KEY_LIMIT), ctypes.c_size_t()
    _expect(_library.vt220_key(language, _Modes(*modes), text, len(text), sent, KEY_LIMIT, written))
    return sent.raw[: written.value]


def key_length(typed: Bytes) -> int:
    """Returns how many bytes the first key has of what was typed on a modern terminal, and 0 if its end is missing."""
    typed = bytes(memoryview(typed))
    return int(_library.vt220_key_length(typed, len(typed)))


@functools.lru_cache(maxsize=4096)
def _shown_character(character: str) -> str:
    """Returns the cells that a character has on the screen: its glyph, and a space if it has two. It is empty if the character has none."""
    cells = ctypes.c_size_t()
    glyph = chr(_library.vt220_shown(ord(character), cells))
    return glyph.ljust(cells.value) if cells.value else ""


def shown(text: str) -> str:
    """Returns how a text in UTF-8 is shown: each character beyond ASCII as its glyph, with a space after it if it has two cells.

    A character that a VT220 lacks has a similar glyph, or U+2426. One that has no cell, such as a combining mark, is left out.
    """
    return text if text.isascii() else "".join(one if one.isascii() else _shown_character(one) for one in text)


def _whole(data: Bytes) -> bytes:
    """Returns data as bytes. Only what may change while it is played is copied. Raises TypeError if it isn't bytes-like."""
    return data if isinstance(data, bytes) else bytes(memoryview(data))


class _Owned:
    """Owns an open handle, and closes it when nothing refers to it any more."""

    def __init__(self, opens: Callable[..., int], closes: Callable[..., None]) -> None:
        self.closes = closes
        self.handle = _Handle()
        _expect(opens(self.handle))

    def __del__(self) -> None:
        if hasattr(self, "handle"):
            self.closes(self.handle)


class _Work(threading.local):
    """Holds the buffers of one thread, each made when it is first used. They are freed when the thread ends, since each owns its memory."""

    @functools.cached_property
    def scratch(self) -> _Owned:
        return _Owned(_library.vt220_scratch_open, _library.vt220_scratch_close)

    @functools.cached_property
    def out(self) -> "ctypes.Array[ctypes.c_char]":
        return ctypes.create_string_buffer(PICTURE_LIMIT)

    def grow(self, size: int) -> None:
        """Makes the buffer for what is written larger, which a screen of another size than a VT220's may need."""
        self.out = ctypes.create_string_buffer(size)

    @functools.cached_property
    def reports(self) -> "ctypes.Array[ctypes.c_char]":
        return ctypes.create_string_buffer(4096)

    @functools.cached_property
    def cells(self) -> "ctypes.Array[ctypes.c_char]":
        return ctypes.create_string_buffer(12 * MOST_COLUMNS)


_work = _Work()


class _Cells(Dict[bytes, Cell]):
    """Keeps the cells that were read before, by their bytes: there are at most some thousands of different ones."""

    def __missing__(self, raw: bytes) -> Cell:
        cell = self[raw] = Cell(chr(int.from_bytes(raw[:4], sys.byteorder)), *(byte != 0 for byte in raw[4:9]))
        return cell


class _Rows(Dict[bytes, Tuple[Cell, ...]]):
    """Keeps rows that were read before, by their bytes: most rows of a screen are those of the screen before."""

    def __missing__(self, raw: bytes) -> Tuple[Cell, ...]:
        row = tuple(map(_cells.__getitem__, struct.unpack(f"{12}s" * (len(raw) // 12), raw)))
        if len(self) >= 4096:
            self.clear()
        self[raw] = row
        return row


assert ctypes.sizeof(_Cell) == 12
_cells, _rows = _Cells(), _Rows()


class _ByCtypes:
    """The calls that programs make most, as the extension module has them. Each returns what the library wrote, and raises the error of its status."""

    @staticmethod
    def feed(handle: _Handle, data: bytes) -> bytes:
        if not _library.vt220_is_open(handle):
            raise Closed()
        start, room = ctypes.cast(ctypes.c_char_p(data), ctypes.c_void_p).value or 0, _work.reports
        reports, written, at = [], ctypes.c_size_t(), 0
        while at < len(data):
            played = _library.vt220_feed(handle, start + at, min(len(data) - at, _PIECE), room, len(room), written)
            if not played:  # another thread has closed the terminal
                raise Closed()
            at += played
            if written.value:
                reports.append(ctypes.string_at(room, written.value))
        return b"".join(reports)

    @staticmethod
    def text(handle: _Handle) -> bytes:
        return _written(_library.vt220_text, handle)

    @staticmethod
    def show(handle: _Handle) -> bytes:
        return _written(_library.vt220_show, handle)

    @staticmethod
    def picture(handle: _Handle) -> bytes:
        return _written(_library.vt220_picture, handle)

    @staticmethod
    def row_text(handle: _Handle, row: int) -> bytes:
        return _written(_library.vt220_row_text, handle, after=(row,))

    @staticmethod
    def repaint_as(handle: _Handle, language: int) -> bytes:
        return _written(_library.vt220_repaint_as, handle, language)

    @staticmethod
    def update(shown: _Handle, to: _Handle) -> bytes:
        return _written(_library.vt220_update, shown, to)

    @staticmethod
    def draw(shown: Optional[_Handle], to: _Handle) -> bytes:
        return _written(_library.vt220_draw, shown, to)


def _written(function: Callable[..., int], *before: object, after: Tuple[int, ...] = ()) -> bytes:
    """Returns what a call writes. Its other arguments come before the scratch buffer, or after it.

    The scratch buffer is made for another size, and the output buffer larger, if the call asks for it.
    """
    written, work = ctypes.c_size_t(), _work
    status = function(*before, work.scratch.handle, *after, work.out, len(work.out), written)
    if status == _SIZE:
        _expect(_library.vt220_scratch_fit(work.scratch.handle, [it for it in before if isinstance(it, _Handle)][-1]))
        status = function(*before, work.scratch.handle, *after, work.out, len(work.out), written)
    if status == _ROOM:
        work.grow(written.value)
        status = function(*before, work.scratch.handle, *after, work.out, len(work.out), written)
    _expect(status)
    return ctypes.string_at(work.out, written.value)


def _open(language: int, rows: int, columns: int, handle: _Handle) -> int:
    return int(_library.vt220_open_as(handle, language, rows, columns))


class Terminal:
    """Opens a terminal in its power-up state. Its host sends the VT220's own bytes ("dec"), or UTF-8 ("utf-8").

    Without a size it has a VT220's: 24 rows of 80 columns, which DECCOLM makes 132. Another one has 2 to 255 rows of 2 to 255 columns, and
    DECCOLM leaves its width. resize() changes the size.

    With terminal="xterm" its host sends what programs send under TERM=xterm-256color. This is always UTF-8. alternate() returns whether
    the alternate page is shown. A copy and repaint() have both pages. All other calls are about the page that is shown.

    It is closed by close(), by the end of a with statement, or when nothing refers to it any more. Raises Memory if an allocation
    fails. Each call of a closed terminal except close() raises Closed.

    In UTF-8 the last bytes of a chunk may begin a character. They are kept next to the terminal until its other bytes come: pending()
    returns them. A checkpoint is repaint() and, after it, pending(): fed to a new Terminal of the same encoding and terminal, the two lead on
    as here.
    """

    def __init__(self, encoding: str = "dec", terminal: str = "vt220", rows: int = ROWS, columns: int = 80) -> None:
        self._language = _language(encoding, terminal)
        self._owned = _Owned(functools.partial(_open, self._language, *_check_size(rows, columns)), _library.vt220_close)
        self._handle = self._owned.handle

    @property
    def encoding(self) -> str:
        """The encoding of what the host sends, one of ENCODINGS."""
        return ENCODINGS[self._language > 0]

    @property
    def terminal(self) -> str:
        """The terminal that the host writes for, one of TERMINALS."""
        return TERMINALS[self._language == 2]

    def rows(self) -> int:
        """Returns the number of rows."""
        return int(_library.vt220_rows(self._opened()))

    def resize(self, rows: int, columns: int) -> None:
        """Changes the size, as xterm does if its window changes. Each has 2 to 255 rows of 2 to 255 columns.

        If the cursor would be below the last row, so many rows leave at the top that it is in the last one: read them before, with
        row_text(). DECCOLM leaves the width then. Raises NoSize if no screen has this size.
        """
        _expect(_library.vt220_resize(self._opened(), *_check_size(rows, columns)))

    def _kept(self) -> _Language:
        """Returns what this terminal keeps for its language."""
        kept = _Language()
        if not _library.vt220_language(self._handle, kept):
            raise Closed()
        return kept

    def alternate(self) -> bool:
        """Returns whether the alternate page is shown. A VT220 has none."""
        return bool(self._kept().alternate)

    def bracketed_paste(self) -> bool:
        """Returns whether the program wants pasted text between ESC [200~ and ESC [201~ (?2004). A VT220 has no such mode."""
        return bool(self._kept().bracketed_paste)

    def pending(self) -> bytes:
        """Returns the bytes at the end of the input that begin a character of UTF-8, at most three. Nothing shows them yet."""
        kept = self._kept()
        return bytes(kept.pending[: kept.pending_len])

    def close(self) -> None:
        """Frees the terminal's memory. A closed terminal stays closed."""
        _library.vt220_close(self._handle)

    def __enter__(self) -> "Terminal":
        return self

    def __exit__(self, *_: object) -> None:
        self.close()

    def _opened(self) -> _Handle:
        if not _library.vt220_is_open(self._handle):
            raise Closed()
        return self._handle

    def feed(self, data: Bytes) -> bytes:
        """Plays all bytes of the host, and returns the reports to it. Raises TypeError if `data` isn't bytes-like."""
        return _library.calls.feed(self._handle, _whole(data))  # type: ignore[no-any-return]

    def feed_log(self, data: Bytes) -> Tuple[bytes, str]:
        """Plays all bytes of the host. Returns the reports to it, and the lines that scroll off the top of the screen.

        Each line is as row_text() returns it. The alternate page has no such lines. Raises TypeError if `data` isn't bytes-like.
        """
        work = _work
        play, data = functools.partial(_library.vt220_feed_log, self._opened(), work.scratch.handle), _whole(data)
        self._fit(work)
        start = ctypes.cast(ctypes.c_char_p(data), ctypes.c_void_p).value or 0
        reports, lines, written, logged, at = [], [], ctypes.c_size_t(), ctypes.c_size_t(), 0
        while at < len(data):
            played = play(start + at, min(len(data) - at, _PIECE), work.reports, len(work.reports), written, work.out, len(work.out), logged)
            if not played:  # another thread has closed the terminal
                raise Closed()
            at += played
            reports.append(ctypes.string_at(work.reports, written.value))
            lines.append(ctypes.string_at(work.out, logged.value))
        return b"".join(reports), b"".join(lines).decode()

    def _fit(self, work: _Work) -> None:
        """Makes the buffers of a log serve this terminal's size."""
        _expect(_library.vt220_scratch_fit(work.scratch.handle, self._handle))
        if len(work.out) < _library.vt220_limit(self._handle, _OF_LINES):
            work.grow(_library.vt220_limit(self._handle, _OF_LINES))

    def feed_until_report(self, data: Bytes) -> Tuple[int, bytes]:
        """Plays bytes of the host up to the first one that asks for a report.

        Returns the number of bytes played, and the report. Without a report all bytes are played, and the report is empty.
        """
        handle, data = self._handle if data else self._opened(), _whole(data)
        room, written, length, at = _work.reports, ctypes.c_size_t(), len(data), 0
        while at < length and not written.value:
            # With capacity for one report alone the call ends after the byte that asked for it.
            piece = data[at : at + _PIECE]
            played = _library.vt220_feed(handle, piece, len(piece), room, REPORT_LIMIT, written)
            if not played:  # the terminal is closed
                raise Closed()
            at += played
        return at, ctypes.string_at(room, written.value) if written.value else b""

    def text(self) -> str:
        """Returns the screen's text: a line for each row, each without the spaces at its end and with a line feed."""
        return _library.calls.text(self._handle).decode()  # type: ignore[no-any-return]

    def row_text(self, row: int) -> str:
        """Returns one line of text(), that of a row from 1 on. Raises as row() does."""
        return _library.calls.row_text(self._handle, _check_row(row, self.rows())).decode()  # type: ignore[no-any-return]

    def show(self) -> str:
        """Returns the screen's text with SGR sequences for the attributes."""
        return _library.calls.show(self._handle).decode()  # type: ignore[no-any-return]

    def picture(self) -> str:
        """Returns the screen as a picture: an SVG document."""
        return _library.calls.picture(self._handle).decode()  # type: ignore[no-any-return]

    def repaint(self, terminal: str = "") -> bytes:
        """Returns bytes that leave any terminal of this one's encoding, terminal and size exactly as this one is. What is pending of UTF-8 is
        left out.

        With terminal="vt220" they are for a VT220, which they leave in this one's state, with the page that is shown. Raises Partial inside a
        sequence, and OtherLanguage if they are for an xterm and this terminal is a VT220.
        """
        return _library.calls.repaint_as(self._handle, _language(self.encoding, terminal or self.terminal))  # type: ignore[no-any-return]

    def update(self, to: "Terminal") -> bytes:
        """Brings this terminal to the state of `to`, and returns bytes that do the same to any terminal in this one's old state.

        This terminal is a VT220, and `to` may be any. Raises Partial if one of the two is inside a sequence, and OtherLanguage if this one is an
        xterm. The update to itself is empty.
        """
        return _library.calls.update(self._handle, to._handle)  # type: ignore[no-any-return]

    def draw(self, shown: Optional["Terminal"] = None) -> bytes:
        """Returns bytes that make a terminal of today, such as xterm, show this screen, given that it shows that of `shown`.

        None stands for anything else. The bytes are characters in UTF-8 and CUP, ED, SGR and DECTCEM, and there are none if both show the same.
        That terminal has at least the rows and the columns of this one. Afterwards it shows this terminal, so keep a copy().
        """
        return _library.calls.draw(None if shown is None else shown._handle, self._handle)  # type: ignore[no-any-return]

    def changed(self, to: "Terminal", row: int) -> List[int]:
        """Returns the columns of a row of `to`, from 1 on, in which this terminal has another cell or none. Raises as row() does.

        If the two differ in width(), redraw the whole screen instead: columns after the width of `to` aren't in the list. Raises OtherSize if
        the two have different sizes.
        """
        marks, number = _Columns(), _check_row(row, to.rows())
        _expect(_library.vt220_changes_of(self._opened(), to._opened(), number, marks, len(marks)))
        return [place + 1 for place, changed in enumerate(marks) if changed]

    def copy_from(self, other: "Terminal") -> None:
        """Brings this terminal into the state of another one, also if the other is inside a sequence. In UTF-8 pending() is copied, too.

        A terminal of TERM=xterm also gets both pages. Raises OtherLanguage if it is one and the other isn't, and OtherSize if the two have
        different sizes.
        """
        _expect(_library.vt220_copy(self._opened(), other._opened()))

    def copy(self) -> "Terminal":
        """Returns a new terminal of this encoding and size in the state of this one, also inside a sequence. Its bells() counts from 0."""
        # A VT220's screen may be 132 columns wide, and one that was resized to 24 by 80 isn't a VT220's.
        copied = Terminal(self.encoding, self.terminal)
        if _library.vt220_copy(copied._handle, self._opened()) == _SIZE:
            copied.resize(self.rows(), self.width())
            copied.copy_from(self)
        return copied

    __copy__ = copy

    def __deepcopy__(self, _memo: object) -> "Terminal":
        return self.copy()

    def reset(self) -> None:
        """Brings this terminal into its power-up state, also inside a sequence. Nothing is pending then."""
        _expect(_library.vt220_reset(self._opened()))

    def bells(self) -> int:
        """Returns how often BEL was carried out since the terminal was opened."""
        return int(_library.vt220_bells(self._opened()))

    def _raw(self, row: int) -> bytes:
        """Returns a row's cells as the library writes them: 12 bytes a cell, the glyph's number and five booleans."""
        number, cells = operator.index(row), _work.cells
        count = _library.vt220_row(self._handle, number if 0 < number <= MOST_ROWS else 0, cells, MOST_COLUMNS)
        if not count:
            _check_row(row, self.rows())
            raise Closed()
        return cells.raw[: 12 * count]

    def row(self, row: int) -> List[Cell]:
        """Returns the cells of a row, from 1 on. Raises NoRow, which is an IndexError, if there is no such row, and TypeError if the
        number isn't an integer."""
        return list(_rows[self._raw(row)])

    def _told(self, function: Callable[..., bool], kind: Any, result: Any) -> Any:
        told = kind()
        if not function(self._handle, told):
            raise Closed()
        return result(*(getattr(told, name) for name in result._fields))

    def cursor(self) -> Cursor:
        """Returns the cursor's position, and whether the next glyph begins a new line."""
        return self._told(_library.vt220_cursor, _Cursor, Cursor)  # type: ignore[no-any-return]

    def margins(self) -> Margins:
        """Returns the first and the last row of the scroll region."""
        return self._told(_library.vt220_margins, _Margins, Margins)  # type: ignore[no-any-return]

    def modes(self) -> Modes:
        """Returns the modes."""
        return self._told(_library.vt220_modes, _Modes, Modes)  # type: ignore[no-any-return]

    def brush(self) -> Brush:
        """Returns the attributes with which the next glyph is written."""
        return self._told(_library.vt220_brush, _Brush, Brush)  # type: ignore[no-any-return]

    def sets(self) -> Sets:
        """Returns the graphic sets."""
        return self._told(_library.vt220_sets, _Sets, Sets)  # type: ignore[no-any-return]

    def saved(self) -> Saved:
        """Returns the state that DECRC restores."""
        return self._told(_library.vt220_saved, _Saved, Saved)  # type: ignore[no-any-return]

    def stops(self) -> List[int]:
        """Returns the columns that have a tab stop: of a VT220 1 to 132, at any width."""
        stops = _Columns()
        if not _library.vt220_stops_of(self._handle, stops, len(stops)):
            raise Closed()
        return [place + 1 for place, stop in enumerate(stops) if stop]

    def width(self) -> int:
        """Returns the number of columns, of a VT220 80 or 132."""
        return int(_library.vt220_width(self._opened()))

    def is_between(self) -> bool:
        """Returns whether the terminal is between sequences."""
        return bool(_library.vt220_is_between(self._opened()))

    def held(self) -> str:
        """Returns the kind of sequence that is unfinished, one of HELD."""
        return HELD[_library.vt220_held_kind(self._opened())]

    def same_state(self, other: "Terminal") -> bool:
        """Returns whether two terminals are in the same state, hidden parts included. What is pending of UTF-8 isn't a part of it."""
        return bool(_library.vt220_same_state(self._opened(), other._opened()))
