"""A session's terminal, and how it is rebuilt from what the store has.

A terminal's state is a function of the bytes. Its repaint, played on any terminal, leave exactly that
state. Bytes may be cut anywhere. So a checkpoint and the bytes after its position are the session, for any process that has both. In UTF-8
a checkpoint's position is before the bytes that begin a character and wait for its other bytes.
"""
import vt220

from .config import is_screen
from .keys import DEC, FORMATS, PIECE, Damaged, Lost, Trimmed, Version, Wrong
from .keys import format_of, key, language_of, number as number_of, position, read_checkpoint, text


class Session:
    """A session's terminal, played up to the position `at`."""

    def __init__(self, incarnation, at=0, repaint=b"", screen="", language=DEC):
        self.incarnation, self.at, self.language = incarnation, at, language
        self.terminal, self.resized = language.opened(), ""  # the size if it was changed
        if screen:
            self.resize(screen)
        self.terminal.feed(repaint)

    def resize(self, screen):
        """Changes the size."""
        self.language, self.resized = self.language._replace(screen=screen), screen
        self.terminal.resize(**self.language.size())

    def viewed(self):
        """Returns a terminal for what viewers get of this session, as it is now."""
        made = vt220.Terminal(**self.language.size())
        if self.resized:
            made.resize(**self.language.size())
        return made

    def data_of(self, entry_id, fields):
        """Returns what of an entry wasn't played yet: of a change of the size one byte. Raises a fault if it isn't a host's, or if bytes before it are
        missing."""
        if format_of(fields.get(b"v", b"")) not in FORMATS:
            raise Version(f"entry {text(entry_id)} is", fields.get(b"v", b""))
        head, _, tail = entry_id.partition(b"-")
        at, number = int(head), int(tail)
        screen = fields.get(b"screen", b"")
        data = screen[:1] or fields.get(b"bytes", b"")
        if not is_formed(at, number, fields):
            raise Wrong(f"entry {entry_id.decode()} is no host's: it has {', '.join(map(repr, sorted(fields)))}, {len(data)} bytes")
        begin = at - len(data)
        if begin > self.at:
            raise Trimmed(f"the bytes from {self.at} to {begin} are gone")
        return data[self.at - begin :] if at > self.at else b""

    def play_entry(self, entry_id, fields):
        """Plays what of an entry wasn't played yet."""
        data = self.data_of(entry_id, fields)
        if data and b"screen" in fields:
            self.at += 1
            self.resize(text(fields[b"screen"]))
        elif data:
            self.terminal.feed(data)
            self.at += len(data)


CANCEL = b"\x18"  # CAN: what is unfinished is given up


def whole(terminal):
    """Returns a terminal without what is unfinished on it."""
    if terminal.is_between():
        return terminal
    made = terminal.copy()
    made.feed(CANCEL)
    return made


def is_formed(at, number, fields):
    """Returns whether an entry is of one of the four forms that hosts write."""
    if b"screen" in fields:
        return number == 0 and at > 0 and is_screen(text(fields[b"screen"])) and b"bytes" not in fields and b"status" not in fields
    if number == 0:
        return 0 < len(fields.get(b"bytes", b"")) <= min(at, PIECE) and b"status" not in fields
    if number == 2:
        status = fields.get(b"status", b"")
        return (status.isdigit() and len(status) <= 3 or status in (b"lost", b"ended")) and b"bytes" not in fields
    return (at, number) == (0, 1) and b"begin" in fields and b"bytes" not in fields


def restored(incarnation, fields, language=DEC):
    """Returns a session as its checkpoint has it; at its start if there is none, or if it was damaged."""
    try:
        return Session(incarnation, *read_checkpoint(fields), language) if fields else Session(incarnation, language=language)
    except Damaged:
        return Session(incarnation, language=language)


def look_up(store, incarnation):
    """Returns a session as its checkpoint has it, and the position where its bytes end. Raises Lost if the store has lost it."""
    about = ("HMGET", key(incarnation, "about"), "end", *DEC._fields)
    fields, about, is_there = answers = store.run_all([("HGETALL", key(incarnation, "checkpoint")), about, ("EXISTS", key(incarnation, "bytes"))])
    for wrong in (each for each in answers if isinstance(each, Exception)):
        raise Wrong(f"a key of the session is wrong: {wrong}")
    end, *said = about
    if end is None or not is_there:
        raise Lost("the store no longer has this session")
    return restored(incarnation, fields, language_of(*said)), number_of(end)


def play_on(store, session, end):
    """Plays all that the store has of a session. Raises Trimmed if what comes next is no longer there."""
    last = f"{session.at}-0"
    while True:
        entries = store.xrange(key(session.incarnation, "bytes"), min=f"({last}", count=64)
        for entry_id, fields in entries:
            session.play_entry(entry_id, fields)
            last = entry_id.decode()
        if not entries:
            break
    if session.at < end:
        raise Trimmed(f"the bytes from {session.at} to {end} are gone")


def as_it_is(store, incarnation):
    """Returns a session as it is in the store now. Its host may store a checkpoint and trim in between, so
    what seems trimmed is read again as long as the checkpoint moves."""
    seen = -1
    while True:
        session, end = look_up(store, incarnation)
        begin = session.at
        try:
            play_on(store, session, end)
            return session
        except Trimmed:
            if begin <= seen:
                raise
            seen = begin


def entries_of(store, incarnation):
    """Yields (id, fields) for all entries that the store still has."""
    last = "-"
    while entries := store.xrange(key(incarnation, "bytes"), min=last, count=64):
        yield from entries
        last = "(" + entries[-1][0].decode()


def events_of(store, incarnation):
    """Yields (position, moment in milliseconds, code, bytes) for all that the store still has: the code "o" and what the program wrote, or "r" and a
    new size. If a host's clock went back, the moments stand still meanwhile."""
    latest = 0
    for entry_id, fields in entries_of(store, incarnation):
        field, code = (b"screen", "r") if b"screen" in fields else (b"bytes", "o")
        if field in fields:
            latest = max(latest, number_of(fields.get(b"t"), 0))
            yield position(entry_id), latest, code, fields[field]


def first_screen(store, incarnation, language, resized):
    """Returns the size of a session at the first of the bytes that the store still has. Each change has the size before it, too."""
    if not resized:
        return language.screen
    changes = (text(fields.get(b"before")) for _, fields in entries_of(store, incarnation) if b"screen" in fields)
    found = next(changes, resized)
    return found if is_screen(found) else language.screen
