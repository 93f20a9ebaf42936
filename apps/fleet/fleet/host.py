"""A session's only writer in the store: its bytes, changes of its size and checkpoints, its lease and its end. The keeper of its program has the terminal."""
import os
import secrets

from . import keys
from .config import is_screen
from .keys import key

KEYS = 4096  # bytes of one thing that a viewer types
KNOWN_SIGNALS = (b"1", b"2", b"9", b"15")
VIEWERS = 256  # the latest viewers whose numbers are known


def birth(pid):
    """Returns when a process of this machine began, as its kernel counts; empty if there is no such process."""
    try:
        with open(f"/proc/{pid}/stat") as stat:
            return stat.read().rpartition(")")[2].split()[19]
    except (FileNotFoundError, ProcessLookupError):
        return ""


def name_of_host():
    """Returns a name of this process that no other ever has: the store takes a session's bytes from one host alone."""
    return f"{os.uname().nodename}:{os.getpid()}:{secrets.token_hex(2)}-{birth(os.getpid())}"


def is_dead_here(host):
    """Returns whether a host, as the store names it, was one of this machine and is no more."""
    node, _, rest = host.partition(":")
    pid, _, token = rest.partition(":")
    return node == os.uname().nodename and pid.isdigit() and birth(pid) != token.partition("-")[2]


def user_of(number):
    """Returns the name in the store of a user of this machine. It is that of a session's keeper, as the kernel says, and nobody else goes on with it."""
    return f"{os.uname().nodename}:{number}"


class Taken(keys.Fault):
    """Another user has the name or the session, or a session that lives has the name."""


class Closed(keys.Fault):
    """The session was ended by another: an operator, or whoever found its host silent for too long. `status` says so."""

    def __init__(self, status):
        super().__init__(f"the session was ended: {keys.shown(status)}")
        self.status = keys.text(status)


class Behind(keys.Fault):
    """The store doesn't have what this host has sent, or takes nothing from it any more. The session is to be registered again."""


class Host:
    def __init__(self, store, name, chosen, language=keys.DEC, takes_input=False, command="", incarnation=None, me=None, user=None):
        self.store, self.name, self.chosen, self.language = store, keys.checked_name(name), chosen, keys.Language(*language)
        self.incarnation, self.me, self.user = incarnation or keys.new_id(), me or name_of_host(), user or user_of(os.getuid())
        self.takes_input = takes_input
        self.about = {"host": self.me, "input": int(takes_input), "command": command[:500], **self.language._asdict()}
        self.at = 0  # the position up to which the store has all
        self.registered = 0  # how often
        self.last = dict.fromkeys(("keys", "signals"), b"0-0")  # the last entry of each stream that was read
        self.kept = dict(self.last)  # and the last one that the keeper has
        self.numbers = {}  # (stream, viewer) -> the number of the last thing that was read

    def part(self, name):
        return key(self.incarnation, name)

    def milliseconds(self, name):
        """Returns a time of the configuration, as the functions take it."""
        value = getattr(self.chosen, name)
        return -1 if value is None else int(value * 1000)

    def ask(self, name, *words):
        """Calls a function of the store. Raises Behind, Closed or Taken if it refuses."""
        answer = self.store.run(name, *words)
        if answer[0] == "closed":
            raise Closed(answer[1])
        if name == "register" and answer[0] == "taken":
            raise Taken(f"the name {self.name!r} or the session is held by {keys.shown(answer[1]) or 'another'}")
        if answer[0] != "ok":
            raise Behind(f"the store says {answer[0]}")
        return answer

    def register(self):
        """Takes the name, and learns how much the store has."""
        words = [self.milliseconds("lease"), self.milliseconds("linger"), keys.version()]
        words += [ids[stream] for stream in self.last for ids in (self.last, self.kept)]
        words += [word for pair in self.about.items() for word in pair]
        self.at = int(self.ask("register", self.name, self.incarnation, self.user, *words)[1])
        self.registered += 1

    def append(self, data, field="bytes"):
        """Appends bytes, or a change of the size."""
        at = self.at + keys.length(field, data)
        self.ask("append", self.incarnation, self.me, self.at, at, keys.version(), keys.now(), field, data)
        self.at = at

    def check(self, at, repaint, screen="", jumps=False):
        """Stores a checkpoint. If it jumps, the session goes on after it."""
        keep = -1 if self.chosen.keep is None else self.chosen.keep
        words = at, len(repaint), keys.checksum(at, repaint, screen), keys.version(), repaint, screen, keep, int(jumps)
        self.ask("check", self.incarnation, self.me, *words)
        self.at = max(self.at, at)

    def finish(self, status):
        self.ask("finish", self.name, self.incarnation, self.me, self.at, status, keys.version(), self.milliseconds("retain"))

    # What comes for the program.

    def adopt(self, last):
        """Takes in the last inputs that the keeper took, before the session is registered."""
        self.last = {stream: entry_id.encode() for stream, entry_id in last.items()}
        self.kept = dict(self.last)

    def streams(self, names):
        return {self.part(name).encode(): self.last[name] for name in names}

    def read_entries(self, part, entries):
        """Yields what of a stream is for the program, as (kind, stream, id, what). What isn't for it is removed."""
        name = part.decode().rpartition(":")[2]
        for entry_id, fields in entries:
            self.last[name] = entry_id
            found = self.read_entry(name, fields)
            if found and self.is_new((name, fields.get(b"by")), keys.number(fields.get(b"n"), 0)):
                yield found[0], name, entry_id, found[1]
            else:
                self.store.post("XDEL", part, entry_id)

    def read_entry(self, name, fields):
        """Returns the kind of an entry for the program, and what it is, or None if it isn't one."""
        if name == "signals" and is_screen(keys.text(fields.get(b"screen"))):
            return "screen", fields[b"screen"]
        if name == "signals":
            return ("signal", int(fields[b"signal"])) if fields.get(b"signal") in KNOWN_SIGNALS else None
        takes = b"keys" in fields and self.takes_input and len(fields[b"keys"]) <= KEYS
        return ("keys", fields[b"keys"]) if takes else None

    def is_new(self, viewer, number):
        """Returns whether a viewer's thing wasn't read before. A store that went back has forgotten it, and the viewer may send it again."""
        before = self.numbers.pop(viewer, 0)
        self.numbers[viewer] = max(before, number)
        if len(self.numbers) > VIEWERS:
            del self.numbers[next(iter(self.numbers))]
        return number > before or not number
