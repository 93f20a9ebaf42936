"""How a session is laid out in the store.

A session has a name, which people use, and an incarnation, which its host makes up when it starts. All keys of a session carry
the incarnation, so that a name can be used again without meeting anything of its past.

    fleet:names                  hash: name -> the latest incarnation
    fleet:lease:NAME             the incarnation whose host holds the name; expires when that host is silent
    fleet:all                    sorted set of all incarnations, by the moment that they started
    fleet:live                   set of those that haven't ended

    fleet:INCARNATION:about      hash: name, host, user (machine and number), started, renewed, end (of the bytes), seen, how it ended (closed), and
                                 the encoding, the terminal and the screen; the present size if it was changed (resized)
    fleet:INCARNATION:bytes      stream of what the program wrote. The id of an entry is POSITION-0, the position after its last byte. A
                                 change of the size counts as one byte. The first entry is 0-1; the last one, POSITION-2, carries the exit
                                 status
    fleet:INCARNATION:checkpoint hash: a position and bytes that rebuild the terminal there, with length, checksum and version; and its
                                 size if that was changed
    fleet:INCARNATION:keys       stream of what viewers typed
    fleet:INCARNATION:signals    stream of the signals and the sizes that operators sent
    fleet:INCARNATION:typed:VIEWER  the number of the last thing that a viewer typed; goes when the viewer leaves, or after a day
"""
import functools
import hashlib
import re
import secrets
import time
import unicodedata
from typing import NamedTuple

import vt220

from .config import is_screen

FORMATS = range(2, 8)  # the formats that this program reads; it writes the last one
FORMAT = max(FORMATS)


class Language(NamedTuple):
    """What a session's program writes: the encoding, the terminal that it writes for, and the columns and rows of that one's screen."""

    encoding: str = "dec"
    terminal: str = "vt220"
    screen: str = "80x24"

    def size(self):
        """Returns the rows and the columns, by these names."""
        return dict(zip(("columns", "rows"), map(int, self.screen.split("x"))))

    def opened(self):
        """Returns a terminal of this language."""
        return vt220.Terminal(self.encoding, self.terminal, **self.size())


DEC, UTF8, XTERM = Language(), Language("utf-8"), Language("utf-8", "xterm")
LANGUAGES = DEC, UTF8, XTERM  # at 80x24
ALL, LIVE, NAMES = "fleet:all", "fleet:live", "fleet:names"
NAME_LIMIT = 200
PIECE = 16384  # bytes of an entry at most
SHOWN = 1000  # characters of what the store says that are shown at most
DIGITS = 18  # of a number


class Fault(Exception):
    """A session can't be read. The class's name is the fault's name."""


class Trimmed(Fault):
    """Bytes that are still needed are no longer in a session's stream."""


class Lost(Fault):
    """The store no longer has a key of a session that it acknowledged."""


class Wrong(Fault):
    """An entry of a session is not of the form that hosts write."""


class Version(Fault):
    """An entry or a checkpoint is of no format, or of one that this program doesn't know."""

    def __init__(self, what, said):
        super().__init__(f"{what} of version {text(said)[:40]!r}; this program knows the formats up to {FORMAT}")


class Damaged(Exception):
    """A checkpoint was cut short or changed."""


# These return the names of keys: a part of an incarnation, and the lease on a session's name.
key = "fleet:{}:{}".format
lease = "fleet:lease:{}".format


# All that comes from the store is read by these: anybody who may write there may have written it.


def text(value):
    """Returns what the store says as text, whatever it is: empty if there is nothing, or an error instead."""
    return value if isinstance(value, str) else value.decode("utf-8", "replace") if isinstance(value, bytes) else ""


def shown(value):
    """Returns what the store says, for a terminal or a log: control characters are escaped, and a long text is cut."""
    whole = text(value)
    cut = whole if len(whole) <= SHOWN else whole[:SHOWN] + "..."
    return "".join(c if c.isprintable() else c.encode("unicode_escape").decode() for c in cut)


def number(value, usual=None):
    """Returns a number of the store, 0 if there is none. If it isn't one, returns `usual`, or raises Wrong without it."""
    if value is None or value == b"":
        return 0
    if isinstance(value, bytes) and value.isdigit() and len(value) <= DIGITS:
        return int(value)
    if usual is None:
        raise Wrong(f"a field of the session isn't a number: {shown(value)[:40]}")
    return usual


def new_id():
    return secrets.token_hex(8)


def now():
    """Returns the moment in milliseconds since 1970, as entries carry it."""
    return int(time.time() * 1000)


def language_of(encoding, terminal, screen):
    """Returns a session's language, as `about` has it. Raises Wrong if there is no such one."""
    language = Language(*(text(each) or default for each, default in zip((encoding, terminal, screen), DEC)))
    if language._replace(screen=DEC.screen) not in LANGUAGES:
        wrong = shown(encoding)[:40], shown(terminal)[:40]
        raise Wrong(f"the session has the encoding {wrong[0]!r}" + (f" and the terminal {wrong[1]!r}" if terminal else ""))
    if not is_screen(language.screen):
        raise Wrong(f"the session has the size {shown(screen)[:40]!r}")
    return language


def length(field, data):
    """Returns how many positions an entry takes, by its field: each byte takes one, and a change of the size, too."""
    return len(data) if field == "bytes" else 1


def version():
    """Returns the version of the format and of the library, as entries carry it."""
    return f"{FORMAT}.{vt220.version()}"


@functools.lru_cache(maxsize=64)
def format_of(said):
    """Returns the number of the format in a version that an entry carries, of any library's version. Returns 0 if it is no version."""
    words = re.fullmatch(rb"([1-9][0-9]{0,3})\.[0-9]{1,9}", said)
    return int(words[1]) if words else 0


def checked_name(name):
    """Returns a session's name; ValueError if it cannot be one: 1 to 200 bytes of UTF-8, without control characters."""
    try:
        is_fit = 0 < len(name.encode()) <= NAME_LIMIT
    except UnicodeEncodeError:
        is_fit = False
    if not is_fit or any(unicodedata.category(c) in ("Cc", "Cf", "Cs", "Zl", "Zp") for c in name):
        raise ValueError("a session's name is 1 to 200 bytes of UTF-8 without control characters")
    return name


def position(entry_id):
    """Returns the position in an id, POSITION-NUMBER."""
    return int(entry_id.split(b"-")[0])


def checksum(at, repaint, screen=""):
    return hashlib.sha256(b"%d:%d:" % (at, len(repaint)) + repaint + screen.encode()).hexdigest()


def read_checkpoint(fields):
    """Returns the position of a checkpoint, the bytes that rebuild the terminal, and its size if that was changed. Raises Damaged if it isn't as it was
    stored, and Version if it isn't of a known format."""
    if b"v" in fields and format_of(fields[b"v"]) not in FORMATS:
        raise Version("a checkpoint", fields[b"v"])
    try:
        at, length, repaint, screen = int(fields[b"at"]), int(fields[b"length"]), fields[b"repaint"], text(fields.get(b"screen"))
        is_sound = length == len(repaint) and text(fields[b"sha256"]) == checksum(at, repaint, screen) and b"v" in fields
        is_sound = is_sound and (not screen or is_screen(screen))
    except (KeyError, ValueError):
        is_sound = False
    if not is_sound:
        raise Damaged()
    return at, repaint, screen
