"""A session as the host daemon has it: what its program's keeper says goes into the store, and what comes from there to the keeper. The
keeper is a separate process, which outlives the daemon: the next daemon goes on where this one stopped."""
import contextlib
import ctypes
import logging
import os
import queue
import select
import socket
import struct
import threading
import time

from vt220.process import LOCALES

from . import wire
from .config import is_screen
from .host import Behind, Closed, Host, Taken, user_of
from .keys import PIECE, checked_name, language_of, new_id, text

log = logging.getLogger("fleet.host")

HERE = os.path.dirname(os.path.abspath(__file__))
KEEPERS = [os.path.join(HERE, place, "vt220-keep") for place in ("..", "../../../out", "../../../bin")]  # of the repository, or as it is installed
GATHER = 0.003  # seconds that more of the same output is waited for
AGAIN = 1.0  # seconds until a session that another one keeps from its name is registered again
TRIES = 3  # to go on with a session whose store takes nothing. Then it is another one
PART = 256  # bytes that a part takes which waits for the store, besides those that it has
CHOKED = 256  # inputs that a program may not have read; more stay in the store
PR_SET_DUMPABLE = 4


def hide():
    """Keeps this process's environment from programs of its user, which could read it in /proc."""
    ctypes.CDLL(None).prctl(PR_SET_DUMPABLE, 0, 0, 0, 0)


def keeper():
    """Returns the path of the keeper's program: VT220_KEEP's, the one next to this, or else the one on the path."""
    return os.environ.get("VT220_KEEP") or next(filter(os.path.exists, KEEPERS), "/usr/bin/vt220-keep")


def environment():
    """Returns the environment for a program. Nothing of the fleet's is in it, where an address or a password may be."""
    return {name: value for name, value in os.environ.items() if not name.startswith("FLEET_") and "REDIS" not in name}


def become_keeper(name, command, language, chosen, patience):
    """Becomes the keeper of a program, which ends with the program's status."""
    path, program = wire.path_of(chosen), keeper()
    words = [path, int(patience * 1000), int(chosen.input), chosen.every, LOCALES[language.encoding], *language, checked_name(name), *command]
    os.execve(program, [program, "publish", "--", *map(str, words)], environment())


class Link:
    """A connection to a keeper. Nobody waits for a keeper that doesn't read: the bytes wait, and if they are too many, it has to come again."""

    def __init__(self, made, events):
        self.socket, self.events, self.reader, self.out, self.lock = made, events, wire.Reader(), bytearray(), threading.Lock()
        self.is_open, self.is_full, self.watched = True, False, select.EPOLLIN  # is_full: the daemon has more of it than it may hold, and doesn't read on
        self.pid, self.user, _ = struct.unpack("3i", made.getsockopt(socket.SOL_SOCKET, socket.SO_PEERCRED, 12))
        events.register(made, select.EPOLLIN)

    def say(self, frame=b""):
        with self.lock:
            self.out += frame if self.is_open else b""
            try:
                while self.out:
                    del self.out[: self.socket.send(self.out, socket.MSG_DONTWAIT | socket.MSG_NOSIGNAL)]
            except BlockingIOError:
                pass
            except OSError:  # it has ended: what it said last is still read
                self.out.clear()
            if len(self.out) > wire.WAITING:
                self.out.clear()
                with contextlib.suppress(OSError):
                    self.socket.shutdown(socket.SHUT_RDWR)
            self.watch()

    def fill(self, is_full):
        with self.lock:
            self.is_full = is_full
            self.watch()

    def watch(self):
        """Waits for what the keeper says, unless too much of it is here, and for room if something is to be said."""
        wanted = (0 if self.is_full else select.EPOLLIN) | (select.EPOLLOUT if self.out else 0)
        if self.is_open and wanted != self.watched:
            self.watched = wanted
            self.events.modify(self.socket, wanted)

    def close(self):
        with self.lock:
            self.is_open = False
            self.out.clear()
            self.events.unregister(self.socket)
            self.socket.close()

    def hear(self):
        """Yields the frames that came. Raises EOFError if the keeper has ended, or Strange if it is none."""
        try:
            came = self.socket.recv(1 << 17, socket.MSG_DONTWAIT)
        except BlockingIOError:
            return
        except OSError:
            came = b""
        yield from self.reader.feed(came)
        if not came:
            raise EOFError

    def refuse(self, status, why):
        self.say(wire.packed(wire.REFUSED, status, str(why).encode()[:1000]))


class Left(Exception):
    """Another thread goes on with the session."""


class Program(threading.Thread):
    """A session of this machine."""

    def __init__(self, daemon, link, state, before):
        super().__init__(daemon=True)
        self.fleet, self.link, self.state, self.before = daemon, link, state, before
        self.host = Host(daemon.shared, state.name, daemon.chosen, state.language, state.takes_input, state.command, state.incarnation, daemon.me, user_of(link.user))
        self.host.adopt(state.last)
        self.came, self.ahead = queue.SimpleQueue(), []  # what the keeper said for the store: (what, position, ..); and what was put back
        self.waiting = 0  # bytes of it
        self.is_named = self.is_gone = self.is_left = self.is_over = False
        self.taken = self.stored = 0  # inputs that the program has read, and bytes that were stored
        self.unread, self.lock = [], threading.Lock()  # inputs that the program may not have read: (stream, id)
        self.sends_since = None  # since when the same bytes are being sent
        self.read_at = time.monotonic()  # when what comes for the program was last read

    # What the keeper says.

    def hear(self, letter, data):
        """Takes in a frame. Raises Strange if no keeper sends it."""
        if len(data) < wire.NUMBER.size:
            raise wire.Strange("a frame without a number")
        number, data = wire.NUMBER.unpack_from(data)[0], data[wire.NUMBER.size :]
        is_wrong = number >= wire.MOST or letter == wire.BYTES and not 0 < len(data) <= min(number, PIECE)
        is_wrong = is_wrong or letter == wire.ENDED and not (data.isdigit() and len(data) <= 3)
        if is_wrong or letter == wire.RESIZED and not (number and is_screen(text(data))):
            raise wire.Strange("a frame that no keeper sends")
        if letter == wire.TAKEN:
            self.note_taken(number)
        elif letter in (wire.BYTES, wire.RESIZED, wire.ENDED):
            self.put(letter, number, data)
        elif letter in (wire.CHECKPOINT, wire.JUMP):
            screen, _, repaint = data.partition(b"\0")
            if screen and not is_screen(text(screen)):
                raise wire.Strange("a checkpoint that no keeper makes")
            self.put(letter, number, repaint, text(screen))

    def put(self, letter, number, data, *more):
        self.came.put((letter, number, data, *more))
        self.count(len(data))

    def count(self, length):
        """Counts bytes that wait for the store. The keeper is read on if there is room for more, also of many small parts."""
        with self.lock:
            self.waiting += length
            self.link.fill(self.waiting + PART * self.came.qsize() > wire.WAITING)

    def drop_stale(self):
        """Forgets what the keeper sent before it is told to send it again."""
        parts, self.ahead = self.ahead, []
        with contextlib.suppress(queue.Empty):
            while True:
                part = self.came.get_nowait()
                self.count(-len(part[2]) if part and isinstance(part[0], bytes) else 0)
                parts.append(part)
        for part in parts:
            if part is None or part and not isinstance(part[0], bytes):
                self.came.put(part)

    def note_taken(self, number):
        """Removes from the store what the program has."""
        with self.lock:
            was_choked, count = len(self.unread) >= CHOKED, max(0, number - self.taken)
            read, self.unread, self.taken = self.unread[:count], self.unread[count:], self.taken + count
        for stream, entry_id in read:
            self.host.kept[stream] = entry_id
            self.fleet.shared.post("XDEL", self.host.part(stream), entry_id)
        if was_choked and len(self.unread) < CHOKED:
            self.fleet.wake()

    def lose(self):
        """Notes that the keeper is no more."""
        self.is_gone = True
        self.came.put(None)

    def leave(self):
        """Has this thread end, so that another one goes on with the session."""
        self.is_left = True
        self.came.put(None)

    # What goes to the store.

    def run(self):
        try:
            if self.before:
                self.before.join()
                self.before = None
            language_of(*(each.encode() for each in self.host.language))
            self.register()
            self.publish_on()
            self.link.say(wire.framed(wire.DONE))
        except Left:
            pass
        except Exception as error:
            self.give_up(error)
        finally:
            self.fleet.forget(self)

    def register(self):
        """Takes the name. Whoever has it is waited for, if the program runs. One that doesn't run yet waits only for the lease of a keeper of its user that
        died with its daemon. A session that was lost is another one from now on."""
        said, end = "", time.monotonic() + 2 * self.host.chosen.lease
        while True:
            try:
                self.host.register()
                return self.go_on()
            except Taken as taken:
                if not self.runs() and (time.monotonic() > end or not self.fleet.is_dead_here(self.host.name)):
                    raise
                if str(taken) != said:
                    said = str(taken)
                    log.warning("%s: %s", self.host.name, said)
                self.pause()
            except Closed as closed:
                if closed.status == "ended":
                    raise
                self.host.incarnation = new_id()

    def runs(self):
        """Returns whether the program has begun."""
        return self.is_named or bool(self.state.incarnation)

    def pause(self):
        time.sleep(AGAIN)
        self.look_around()
        if self.is_gone:
            raise Left

    def go_on(self):
        """Has the keeper send what the store lacks, and passes on what comes for the program."""
        if self.host.at > self.state.end and self.host.registered == 1:
            raise Closed("the store has more bytes than the program wrote")
        self.drop_stale()
        self.link.say(wire.framed(wire.NAMED, self.host.incarnation.encode()) + wire.packed(wire.FROM, self.host.at))
        self.is_named = True
        self.fleet.wake()

    def publish_on(self):
        """Stores what the keeper says, until its end is there. Whenever the store went back, the keeper goes back, too."""
        failed, stood = 0, -1
        while True:
            part = self.next()
            self.sends_since = time.monotonic()
            try:
                if part is None:
                    return self.host.finish("lost")
                if part and self.publish(*part):
                    return None
            except Behind as behind:
                log.warning("%s: %s; it is registered again", self.host.name, behind)
                failed = failed + 1 if self.host.at == stood else 0
                stood = self.host.at
                if failed > TRIES:
                    self.host.incarnation = new_id()
                if part is not None:
                    self.register()
                else:
                    self.host.register()
                    self.came.put(None)
            self.sends_since = None

    def publish(self, letter, number, data, screen=""):
        """Stores a part that the keeper said, unless it is one that it sent before it went back. Returns whether it is the end."""
        host, before = self.host, self.host.at
        if letter in (wire.CHECKPOINT, wire.JUMP):
            if letter == wire.JUMP or number <= host.at:
                host.check(number, data, screen, letter == wire.JUMP)
        elif letter == wire.ENDED:
            if number != host.at:
                return False
            self.is_over = True
            host.finish(text(data))
            return True
        elif letter == wire.RESIZED and number == host.at + 1:
            host.append(data, "screen")
        elif letter == wire.BYTES and number - len(data) <= host.at < number:
            for at in range(host.at - number + len(data), len(data), PIECE):
                host.append(data[at : at + PIECE])
        self.stored += host.at - before
        self.link.say(wire.packed(wire.KEPT, host.at))
        return False

    def look_around(self):
        if self.is_left:
            raise Left

    def next(self):
        """Returns what the keeper said next: bytes that come within some milliseconds, together. Returns nothing if a renewal found the store behind,
        and None if the keeper is no more."""
        part, end = self.next_part(), time.monotonic() + GATHER
        while part and part[0] == wire.BYTES and len(part[2]) < PIECE and (left := end - time.monotonic()) > 0:
            try:
                more = self.next_part(left)
            except queue.Empty:
                break
            if not more or more[0] != wire.BYTES or more[1] != part[1] + len(more[2]):
                self.ahead.append(more)
                break
            part = more[0], more[1], part[2] + more[2]
        return part

    def next_part(self, patience=None):
        if self.ahead:
            return self.ahead.pop()
        part = self.came.get(timeout=patience)
        self.look_around()
        if part and isinstance(part[0], bytes):
            self.count(-len(part[2]))
        elif part:
            self.heed(*part)
            part = ()
        return part

    def note(self, answer, at):
        """Notes what the store said to a renewal, for this session's thread. It had the bytes up to `at` before."""
        if text(answer[0]) != "ok" or int(answer[1]) < at:
            self.came.put((answer, at))

    def heed(self, answer, at):
        said = text(answer[0])
        if said == "closed":
            raise Closed(answer[1])
        log.warning("%s: the store says %s %s of %d", self.host.name, said, text(answer[1]) if len(answer) > 1 else "", at)
        self.register()

    def give_up(self, error):
        """Refuses a program that didn't begin, ends one whose session an operator ended, and has any other come again."""
        from .cli import message_of, status_of

        log.error("%s: %s: %s", self.host.name, type(error).__name__, error, exc_info=None if status_of(error) else error)
        if self.runs() and isinstance(error, Closed) and error.status == "ended":
            self.link.say(wire.packed(wire.STOP) + wire.framed(wire.DONE))
        else:
            self.link.refuse(status_of(error) or 1, message_of(error))

    # What comes from the store.

    def streams(self):
        """Returns the streams in which something may come for the program: {stream: the last id}."""
        if not self.is_named or self.is_gone or self.is_over:
            return {}
        return self.host.streams(("signals",) if len(self.unread) >= CHOKED else wire.STREAMS)

    def pass_on(self, part, entries):
        """Sends what came for the program to its keeper. Keys stay in the store until the keeper said that the program has them: if this
        daemon dies, the next one removes those that the keeper took. A signal or a size is read at once, also if this daemon dies."""
        for kind, stream, entry_id, what in self.host.read_entries(part, entries):
            if stream == "signals":
                letter, data = (wire.SIGNAL, bytes([what])) if kind == "signal" else (wire.SIZE, what)
                self.host.kept[stream] = entry_id
                self.link.say(wire.framed(letter, wire.entry(stream, entry_id, data)))
                self.fleet.shared.post("XDEL", part, entry_id)
                continue
            with self.lock:
                self.unread.append((stream, entry_id))
            self.link.say(wire.framed(wire.INPUT, wire.entry(stream, entry_id, what)))
