"""Reads recordings by asciinema, ttyrec and script, and the bytes of a program, and plays them.

docs/SPECIFICATION.md of the repository defines the formats, under 'Recordings'. The program vt220 has the proved reader. This one is tested against it.
"""
import functools
import json
import re
import struct
from typing import Any, Dict, Iterator, List, NamedTuple, Optional, Tuple

from . import COLUMNS, MOST_COLUMNS, MOST_ROWS, ROWS, Modes, NoCharacter, Terminal, key
from .page import is_utf_8

__all__ = ["FORMATS", "Event", "Recording", "detect", "host_of", "is_utf_8", "play", "read", "terminal_of"]

# How a recording was made. "auto" is what its first bytes show.
FORMATS = ("auto", "raw", "asciicast", "ttyrec", "script")
# The kinds of events in an asciicast by their codes. Any other code is no event.
KINDS = {"o": "output", "i": "input", "m": "marker", "r": "size", "x": "exit"}
_COMPRESSED = re.compile(rb"\x1f\x8b|\x28\xb5\x2f\xfd|\xfd7zXZ\0|BZh.1AY&SY", re.S)
_VERSION = re.compile(rb'(?:\xef\xbb\xbf)?\s*\{\s*[^\n]*?"version"\s*:\s*[123]')
# The time that begins an event: JSON has more forms of a number.
_TIME = re.compile(r"\[\s*\d{1,9}(\.\d+)?([eE]-\d{1,2})?\s*,", re.A)
_STARTED, _DONE = b"Script started on ", re.compile(rb"\nScript done on [^\n]*(?<!\r)\n(?:\Z|(?=Script started on ))")
_NAMED = re.compile(r'(TERM|COLUMNS|LINES)="([^"]*)"')
_FRAME = struct.Struct("<III")
_SIZE = re.compile(rb"(\d{1,9})x(\d{1,9})")
# What makes a screen 132 columns wide that has a VT220's size, by the terminal.
WIDE = {"vt220": b"\033[?3h", "xterm": b"\033[?40h\033[?3h\033[?40l"}


class Event(NamedTuple):
    """Holds something that was recorded: its time in seconds after the beginning, its kind (one of KINDS), and its bytes."""

    at: float
    kind: str
    data: bytes


class Recording(NamedTuple):
    """Holds a recording: its format, the terminal and the size (rows, columns) that its first line names, its events, and where it breaks its format."""

    format: str
    terminal: Optional[str]
    size: Optional[Tuple[int, int]]
    events: List[Event]
    broken: Optional[str] = None

    @property
    def content(self) -> bytes:
        """What the program wrote."""
        return b"".join(event.data for event in self.events if event.kind == "output")


def detect(data: bytes) -> str:
    """Returns the format that the first bytes of a file show: one of FORMATS but "auto", or "compressed"."""
    if data.startswith(_STARTED):
        return "script"
    if _VERSION.match(data):
        return "asciicast"
    if _COMPRESSED.match(data):
        return "compressed"
    return "ttyrec" if _is_ttyrec(data) else "raw"


def _is_ttyrec(data: bytes) -> bool:
    """Returns whether bytes begin with a frame of a ttyrec, and the header of another one if there are enough."""
    if len(data) < _FRAME.size:
        return False
    seconds, micros, length = _FRAME.unpack_from(data)
    if micros >= 1000000 or not 1 <= length <= 65536:
        return False
    if len(data) < _FRAME.size + length + _FRAME.size:
        return True
    later, more, following = _FRAME.unpack_from(data, _FRAME.size + length)
    return bool(more < 1000000 and following <= 65536 and (later, more) >= (seconds, micros))


def read(data: bytes, format: str = "auto") -> Recording:
    """Reads a recording. What comes before it breaks its format is read. With "auto", one by asciinema of a version that isn't known breaks at once."""
    if format == "auto":
        format = detect(data)
        if format == "raw" and type(version := _object_in(data.partition(b"\n")[0].decode("utf-8", "replace")).get("version")) is int:
            return Recording("asciicast", None, None, [], f"it is of version {version}, which isn't known")
    if format == "asciicast":
        return _asciicast(data)
    if format == "ttyrec":
        return _ttyrec(data)
    if format == "script":
        return _script(data)
    if format == "compressed":
        return Recording(format, None, None, [], "it is compressed: decompress it first")
    return Recording("raw", None, None, [Event(0.0, "output", data)])


def _object_in(text: str) -> Dict[str, Any]:
    """Returns the object in JSON that a text is, or an empty one."""
    try:
        value = json.loads(text)
    except ValueError:
        return {}
    return value if isinstance(value, dict) else {}


def terminal_of(value: object) -> Optional[str]:
    """Returns the terminal that a TERM names: one that begins with vt and a digit is a VT220, and any other an xterm."""
    if not isinstance(value, str) or not value:
        return None
    return "vt220" if re.match(r"vt\d", value, re.A) else "xterm"


def _sized(rows: object, columns: object) -> Optional[Tuple[int, int]]:
    """Returns a size, if both numbers are integers."""
    return (rows, columns) if type(rows) is int and type(columns) is int else None


def _asciicast(data: bytes) -> Recording:
    """Reads a recording by asciinema. Without TERM it is of an xterm: all programs that make such recordings run on one. Its times never fall."""
    text = data.decode("utf-8-sig", "surrogateescape").lstrip()
    first, *lines = text.split("\n")
    head = _object_in(first)
    version = head.get("version")
    if version not in (2, 3) or type(version) is not int:
        return _first_version(_object_in(text))
    about, environment = head.get("term") if version == 3 else head, head.get("env")
    about = about if isinstance(about, dict) else {}
    term = about.get("type") if version == 3 else environment.get("TERM") if isinstance(environment, dict) else None
    size = _sized(about.get("rows"), about.get("cols")) if version == 3 else _sized(head.get("height"), head.get("width"))
    events: List[Event] = []
    broken, at = None, 0.0
    for number, line in enumerate(lines, 2):
        if not line or (version == 3 and line.startswith("#")):
            continue
        event = _event(line)
        if event is None:
            broken = f"line {number} is no event"
            break
        at = at + event.at if version == 3 else max(at, event.at)
        events.append(event._replace(at=at))
    return Recording("asciicast", terminal_of(term) or "xterm", size, [event for event in events if event.kind], broken)


def _event(line: str) -> Optional[Event]:
    """Returns the event of a line, or None. Its kind is empty if it is of another code."""
    try:
        value = json.loads(line) if _TIME.match(line.lstrip()) else None
        at, code, text = value if isinstance(value, list) else (None, None, None)
        return Event(float(at), KINDS.get(code, ""), text.encode()) if isinstance(code, str) and isinstance(text, str) else None
    except ValueError:  # no JSON, another number of members, or half a pair of surrogates
        return None


def _first_version(head: Dict[str, Any]) -> Recording:
    """Reads a recording of version 1, which is one object."""
    frames, environment = head.get("stdout"), head.get("env")
    if type(head.get("version")) is not int or head["version"] != 1 or not isinstance(frames, list):
        return Recording("asciicast", None, None, [], "its first line is no header of version 1, 2 or 3")
    events: List[Event] = []
    broken, at = None, 0.0
    for frame in frames:
        event = _event(json.dumps([frame[0], "o", frame[1]])) if isinstance(frame, list) and len(frame) == 2 else None
        if event is None:
            broken = f"frame {len(events) + 1} has another form"
            break
        at += event.at
        events.append(event._replace(at=at))
    term = environment.get("TERM") if isinstance(environment, dict) else None
    return Recording("asciicast", terminal_of(term) or "xterm", _sized(head.get("height"), head.get("width")), events, broken)


def _ttyrec(data: bytes) -> Recording:
    """Reads a recording by ttyrec. A time is that since the first frame, and never falls."""
    events: List[Event] = []
    at, begun, clock = 0, None, 0.0
    while at + _FRAME.size <= len(data):
        seconds, micros, length = _FRAME.unpack_from(data, at)
        if at + _FRAME.size + length > len(data):
            break
        time = seconds + micros / 1e6
        begun = time if begun is None else begun
        clock = max(clock, time - begun)
        events.append(Event(clock, "output", data[at + _FRAME.size : at + _FRAME.size + length]))
        at += _FRAME.size + length
    return Recording("ttyrec", None, None, events, None if at == len(data) else f"the frame at byte {at} is cut")


def _script(data: bytes) -> Recording:
    """Reads a typescript of script, without its timing file: what is between its first line and its last one."""
    if not data.startswith(_STARTED) or b"\n" not in data:
        return Recording("script", None, None, [], "it has no first line of script")
    first, _, body = data.partition(b"\n")
    end = _DONE.search(body)
    about = dict(_NAMED.findall(first.decode("latin-1"))) if first.endswith(b'"]') else {}
    rows, columns = (int(about[name]) if about.get(name, "").isdecimal() else None for name in ("LINES", "COLUMNS"))
    broken = f"script -a appended a session at byte {len(first) + 1 + end.end()}" if end and end.end() < len(body) else None
    return Recording("script", terminal_of(about.get("TERM")), _sized(rows, columns), [Event(0.0, "output", body[: end.start()] if end else body)], broken)


def _opened(recording: Recording, encoding: str, terminal: str) -> Terminal:
    """Returns a terminal of the size that a recording names, if a screen may have it, and otherwise of a VT220's size."""
    rows, columns = recording.size or (ROWS, 80)
    if not (2 <= rows <= MOST_ROWS and 2 <= columns <= MOST_COLUMNS):
        rows, columns = ROWS, 80
    is_wide = (rows, columns) == (ROWS, COLUMNS)
    opened = Terminal(encoding, terminal, rows, 80 if is_wide else columns)
    if is_wide:
        opened.feed(WIDE[terminal])
    return opened


def host_of(recording: Recording, encoding: Optional[str] = None, terminal: Optional[str] = None) -> Tuple[str, str]:
    """Returns the encoding and the terminal for which a recording is played: those that are asked for, or those that it shows.

    Its first line names the terminal. An xterm's host and a recording by asciinema are in UTF-8, and so is any other whose content is UTF-8 with
    a character beyond ASCII.
    """
    terminal = terminal or ("vt220" if encoding == "dec" else recording.terminal or "vt220")
    if terminal == "xterm":
        return "utf-8", terminal
    is_text = recording.format == "asciicast" or is_utf_8(recording.content)
    return encoding or ("utf-8" if is_text else "dec"), terminal


@functools.lru_cache(maxsize=512)
def _byte_of(character: str) -> bytes:
    """Returns the byte of a character in DEC Multinational, or SUB."""
    try:
        return character.encode() if character.isascii() else key(character, Modes(*[False] * len(Modes._fields)))
    except NoCharacter:
        return b"\x1a"


def _parts(recording: Recording, encoding: str, most: Optional[int]) -> Iterator[Tuple[str, bytes]]:
    """Returns the kind and the bytes of each output and each size, up to a number of bytes of output. An asciicast has characters."""
    left, has_characters = most, recording.format == "asciicast" and encoding == "dec"
    for event in recording.events:
        data = b"".join(map(_byte_of, event.data.decode())) if has_characters else event.data
        if event.kind == "output":
            data = data[:left]
            left = None if left is None else left - len(data)
        if event.kind in ("output", "size"):
            yield event.kind, data
        if left == 0:
            return


def play(recording: Recording, encoding: Optional[str] = None, terminal: Optional[str] = None, most: Optional[int] = None) -> Terminal:
    """Returns a terminal that has played a recording, or its first bytes. The screen has the recording's size, and changes as its window did."""
    encoding, terminal = host_of(recording, encoding, terminal)
    opened = _opened(recording, encoding, terminal)
    for kind, data in _parts(recording, encoding, most):
        size = _SIZE.fullmatch(data) if kind == "size" else None
        if kind == "output":
            opened.feed(data)
        elif size and 2 <= int(size[1]) <= MOST_COLUMNS and 2 <= int(size[2]) <= MOST_ROWS:
            opened.resize(int(size[2]), int(size[1]))
    return opened
