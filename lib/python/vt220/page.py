"""Writes pages that play a recording in a browser. A page needs no server, no network and no other file.

A page is made of a template, which `make js` of the repository builds. It is the file that VT220_PAGE names, and an empty VT220_PAGE means
that there is none. If that isn't set, it is the first of these that exists: page.html next to this module, and out/js/page.html of the
repository that this module is in.
"""
import base64
import gzip
import hashlib
import html
import json
import os
import pathlib
import re
from typing import Any, Dict, Iterable, Mapping, Optional, Sequence, Tuple

__all__ = ["FIELDS", "NoTemplate", "is_size", "is_utf_8", "live", "page", "recording", "side_by_side", "template"]

# The fields that a template leaves open. The script of the page is between the last two.
FIELDS = ("TITLE", "PLAYERS", "REST")
# The characters of base64 of a recording that are before the script, at most. It is a multiple of four.
BEGINNING = 1 << 18
# The size that a template is for, as its style names it, and the limits of others: the fewest and the most columns, and rows.
SIZED = "--columns: {}; --rows: {};"
SIZE, COLUMNS, ROWS = (80, 24), (2, 255), (2, 255)
# How a page plays, if neither its options nor its content say so. Times are in seconds; a marker is a time and a label, and an input a time and a text.
OPTIONS: Mapping[str, object] = {"start": 0, "poster": None, "speed": 1, "pause": 1, "autoplay": False, "loop": False, "stops": False, "controls": True,
                                "encoding": "dec", "terminal": "vt220", "rows": SIZE[1], "columns": SIZE[0], "markers": (), "inputs": (), "keystrokes": False}


class NoTemplate(OSError):
    """Reports that there is no template."""


def template() -> Optional[pathlib.Path]:
    """Returns the path of the template, or None if there is none."""
    named = os.environ.get("VT220_PAGE")
    if named is not None:
        return pathlib.Path(named) if named else None
    here = pathlib.Path(__file__).resolve()
    places = [here.with_name("page.html")]
    if len(here.parents) > 3:
        places.append(here.parents[3] / "out/js/page.html")
    return next((place for place in places if place.exists()), None)


def packed(data: bytes) -> str:
    """Returns bytes as a page carries them."""
    return base64.b64encode(gzip.compress(data, 9, mtime=0)).decode()


def hashed(text: str) -> str:
    """Returns a script or a style as a page's policy names it."""
    return f"'sha256-{base64.b64encode(hashlib.sha256(text.encode()).digest()).decode()}'"


def is_utf_8(content: bytes) -> bool:
    """Returns whether content is UTF-8 with a character beyond ASCII. The last character may be cut."""
    try:
        return not content.decode("utf-8").isascii()
    except UnicodeDecodeError as fault:
        return fault.reason == "unexpected end of data" and not content[: fault.start].isascii()


def is_size(columns: int, rows: int) -> bool:
    """Returns whether a screen may have so many columns and rows."""
    return COLUMNS[0] <= columns <= COLUMNS[1] and ROWS[0] <= rows <= ROWS[1]


def recording(
    content: bytes, chunks: Optional[Iterable[Tuple[int, int]]], title: str, notes: Sequence[str] = (), read: Optional[Mapping[str, object]] = None,
    asked: Mapping[str, object] = {}, changes: Sequence[Tuple[float, str, int]] = (), **options: object,
) -> str:
    """Returns a recording as the element <vt220-player> takes it: JSON with its bytes, and for each chunk its microseconds and its number of bytes.

    Without chunks it is played as over a line of 9600 baud. `notes` are sentences on what can't be shown. The options are those of OPTIONS, as
    apps/page/vt220-page describes them. Without `encoding`, content that is UTF-8 with a character beyond ASCII is read as UTF-8. `read` is what was
    read of the recording, and `asked` what is asked for: lib/js/src/reading.js describes them, and decides by them how it is played. Without `read`,
    `changes` are those of the size: the seconds, "COLUMNSxROWS", and how many bytes come before.
    """
    unknown = options.keys() - OPTIONS.keys()
    if unknown:
        raise TypeError(f"a page has no option {', '.join(sorted(unknown))}")
    listed = None if chunks is None else packed("\n".join(f"{micros} {size}" for micros, size in chunks).encode())
    is_text = is_utf_8(content)
    plays = {**dict(OPTIONS, encoding="utf-8" if is_text else "dec"), **options}
    made = {"title": title, "notes": list(notes), "options": plays, "chunks": listed, "length": len(content)}
    # The bytes come last: what is before them is read while they come.
    how: Dict[str, object] = {"changes": list(changes)} if changes else {}
    if read is not None:
        how = {"read": dict(read, isUtf8=is_text), "asked": asked}
    return json.dumps({**made, **how, "bytes": packed(content)})


def _player(recorded: str, attributes: str = "", name: str = "rest") -> Tuple[str, str]:
    """Returns the element of what recording() returns, and what comes after the script of the page: the rest of a large recording's bytes. So the first
    frame is shown while the rest is parsed. The script of the page hears of that, since it is one with the player's."""
    found = re.fullmatch(r'(\{.*)("bytes": ")([A-Za-z0-9+/=]*)("\})', recorded, re.S)
    rest = found[3][BEGINNING:] if found else ""
    if found and rest:
        recorded = f'{found[1]}"rest": "{name}", {found[2]}{found[3][:BEGINNING]}{found[4]}'
        rest = f'<script type="application/octet-stream" id="{name}">{rest}</script>\n'
    # An end tag of a script can't be in it.
    inside = recorded.replace("<", "\\u003c")
    return f'<vt220-player early{attributes}><script type="application/json">{inside}</script>Loading</vt220-player>', rest


def _size(recorded: str) -> Tuple[int, int]:
    """Returns the columns and the rows at which what recording() returns begins, as lib/js/src/reading.js decides on it."""
    made = json.loads(recorded)
    wanted = made.get("asked", {}).get("size") or made.get("read", {}).get("size") or (made["options"]["columns"], made["options"]["rows"])
    columns, rows = wanted
    return (columns, rows) if is_size(columns, rows) else SIZE


def _for_size(text: str, size: Tuple[int, int]) -> str:
    """Returns a template for a size. Its policy names its style by a hash. So a player is as large before the script runs as afterwards."""
    style = re.search("<style>(.*?)</style>", text, re.S)
    if size == SIZE or style is None:
        return text
    sized = style[1].replace(SIZED.format(*SIZE), SIZED.format(*size))
    return text.replace(hashed(style[1]), hashed(sized)).replace(style[1], sized)


def _filled(title: str, players: str, rest: str = "", size: Tuple[int, int] = SIZE) -> str:
    """Returns the template with a title, players, and what comes after the script, for a size. Raises NoTemplate if there is none."""
    path = template()
    if path is None:
        raise NoTemplate("a page needs the template that `make js` builds; VT220_PAGE can name it")
    values, text = {"TITLE": html.escape(title), "PLAYERS": players, "REST": rest}, _for_size(path.read_text(encoding="utf-8"), size)
    if rest and "@REST@" not in text:
        raise NoTemplate(f"{path} is the template of an earlier version")
    return re.sub(f"@({'|'.join(FIELDS)})@", lambda match: values[match[1]], text)


def page(content: bytes, chunks: Optional[Iterable[Tuple[int, int]]], title: str, notes: Sequence[str] = (), **options: Any) -> str:
    """Returns the page of a recording, whose arguments are those of recording(). Raises NoTemplate if there is no template."""
    made = recording(content, chunks, title, notes, **options)
    return _filled(title, *_player(made, " links"), size=_size(made))


def live(title: str, address: str) -> str:
    """Returns a page that shows a live terminal: one whose bytes come from an address, as the attribute `live` of <vt220-player> describes it.

    The page may connect to its own server, and to no other one. Raises NoTemplate if there is no template.
    """
    text = _filled(title, f'<vt220-player live="{html.escape(address)}">Loading</vt220-player>')
    allowed, count = re.subn(r"default-src 'none';", "default-src 'none'; connect-src 'self';", text, count=1)
    if count != 1:
        raise NoTemplate("the template has no policy that allows nothing")
    return allowed


def side_by_side(title: str, recordings: Sequence[Tuple[str, str]]) -> str:
    """Returns the page of two recordings, each with its heading and what recording() returns, next to each other.

    It first shows the moment at which their screens first differ. Raises NoTemplate if there is no template.
    """
    made = [(heading, *_player(recorded, name=f"rest-{i}")) for i, (heading, recorded) in enumerate(recordings)]
    players = "".join(f"<section><h2>{html.escape(heading)}</h2>{player}</section>" for heading, player, _ in made)
    return _filled(title, players, "".join(rest for _, _, rest in made))
