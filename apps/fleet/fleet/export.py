"""What a session wrote, for other programs: its bytes, or a recording with the moments, as asciicast 2 or a page that plays it."""
import itertools

import vt220.cast
import vt220.page
from vt220.process import TERMS

from .keys import DEC, key, language_of, length, number, text
from .session import events_of, first_screen


def log(store, incarnation, out):
    """Writes the bytes that the store has. Returns how many it has no more."""
    last = missing = 0
    for at, _, code, data in events_of(store, incarnation):
        begin = at - length("bytes" if code == "o" else "screen", data)
        missing, last = missing + begin - last, at
        out.write(data if code == "o" else b"")
    return missing + max(0, number(store.hget(key(incarnation, "about"), "end"), 0) - last)


def language(store, incarnation):
    """Returns what a session's bytes are: their encoding, the terminal that they are for, and its screen at the first of them that is left."""
    *said, resized = store.hmget(key(incarnation, "about"), *DEC._fields, "resized")
    found = language_of(*said)
    return found._replace(screen=first_screen(store, incarnation, found, text(resized)))


def asciicast(store, incarnation, title, out):
    """Writes an asciicast, version 2. A change of the size is an event."""
    written = language(store, incarnation)
    parts = events_of(store, incarnation)
    if not (first := next(parts, None)):
        return
    begin = first[1]
    size = {"width": written.size()["columns"], "height": written.size()["rows"]}
    head = {**size, "timestamp": begin // 1000, "title": title, "env": {"TERM": TERMS[written.terminal]}}
    events = (((moment - begin) / 1000, code, data) for _, moment, code, data in itertools.chain([first], parts))
    out.writelines(vt220.cast.asciicast(head, events, written.encoding))


def page(store, incarnation, title, out):
    """Writes a page that plays the session in a browser."""
    written = language(store, incarnation)
    content, chunks, changes, begin = bytearray(), [], [], None
    for _, moment, code, data in events_of(store, incarnation):
        begin = moment if begin is None else begin
        if code == "r":
            changes.append(((moment - begin) / 1000, text(data), len(content)))
        else:
            chunks.append(((moment - begin) * 1000, len(data)))
            content += data
    options = {"encoding": written.encoding, "terminal": written.terminal, **(written.size() if written.screen != DEC.screen else {})}
    out.write(vt220.page.page(bytes(content), chunks, title, changes=changes, **options).encode())
