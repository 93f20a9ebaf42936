"""What an operator asks for: which sessions there are, and to end them."""
import json
import queue
import sys
import threading
import time

from . import keys
from .keys import key
from .store import RedisError, raised

FIELDS = ("name", "host", "end", "seen", "closed", "started", "input", "command", "resized", *keys.DEC._fields)
COLUMNS = ("NAME", "STATE", "HOST", "SIZE", "SCREEN", "LAST OUTPUT")
SIGNALS = {"HUP": 1, "INT": 2, "KILL": 9, "TERM": 15}


def comes(is_so, patience, pause=0.05):
    """Waits until something is so, for at most so many seconds. Returns whether it is."""
    end = time.monotonic() + patience
    while not is_so():
        if time.monotonic() > end:
            return False
        time.sleep(pause)
    return True


class NoSession(Exception):
    """Reports that no session has this name."""


class Refused(Exception):
    """Reports that the store or a host doesn't allow a request."""


def find(store, name):
    """Returns the incarnation that a name stands for: the latest one, or the one given as @INCARNATION."""
    found = name[1:].encode() if name.startswith("@") else store.hget(keys.NAMES, name)
    incarnation = keys.text(found)
    if not found or not store.hexists(key(incarnation, "about"), "name"):
        raise NoSession(f"no such session: {name}")
    return incarnation


def about(store, incarnations):
    """Returns a dictionary for each session: what `list` shows."""
    listed = []
    for at in range(0, len(incarnations), 256):
        some = incarnations[at : at + 256]
        found = dict(zip(some, store.run_all([("HMGET", key(each, "about"), *FIELDS) for each in some])))
        raw = {each: dict(zip(FIELDS, fields)) for each, fields in found.items() if isinstance(fields, list) and fields[0] is not None}
        leases = store.run_all([("GET", keys.lease("").encode() + fields["name"]) for fields in raw.values()])
        listed += [described(each, fields, lease == each.encode()) for (each, fields), lease in zip(raw.items(), leases)]
    return listed


def described(incarnation, fields, has_host):
    """Returns what `list` shows of a session. A field that is wrong is the fault of this session, and harms no other."""
    made = {"incarnation": incarnation} | {name: keys.shown(fields[name]) for name in ("name", "host", "command")}
    made |= {name: keys.shown(fields[name]) or usual for name, usual in keys.DEC._asdict().items()}
    made |= {"fault": "", "status": keys.shown(fields["closed"]), "input": fields["input"] == b"1", "size": 0, "started": 0, "seen": 0}
    try:
        made |= {name: keys.number(fields[of]) for name, of in (("size", "end"), ("started", "started"), ("seen", "seen"))}
        language = keys.language_of(*(fields[name] for name in keys.DEC._fields))
        made["screen"] = keys.language_of(*language[:2], fields["resized"] or language.screen).screen
    except keys.Wrong as wrong:
        made["fault"] = f"Wrong: {wrong}"
    ended = f"ended {made['status']}" if made["status"] else ""
    return made | {"state": "fault" if made["fault"] else ended or ("running" if has_host else "no host")}


def everything(store):
    """Returns a dictionary for each session that the store has."""
    return about(store, [keys.text(each) for each in store.zrange(keys.ALL, 0, -1)])


def living(store):
    """Returns a dictionary for each session that hasn't ended, and how many have."""
    found = about(store, [keys.text(each) for each in store.smembers(keys.LIVE)])
    return sorted(found, key=lambda each: each["started"]), max(0, store.zcard(keys.ALL) - len(found))


def ago(moment):
    if not moment:
        return "-"
    seconds = max(0, keys.now() - moment) / 1000
    for size, unit in ((86400, "d"), (3600, "h"), (60, "min")):
        if seconds >= size:
            return f"{seconds / size:.0f} {unit} ago"
    return f"{seconds:.0f} s ago"


def show_list(store, is_json, is_all):
    """Prints a line for each session, or a line of JSON."""
    listed = everything(store) if is_all else living(store)[0]
    if is_json:
        for each in listed:
            print(json.dumps(each))
        return 0
    rows = [COLUMNS]
    for each in listed:
        rows.append((each["name"], each["state"], each["host"], str(each["size"]), each["screen"], ago(each["seen"])))
    widths = [max(len(row[column]) for row in rows) for column in range(len(COLUMNS))]
    for row in rows:
        print("  ".join(word.ljust(width) for word, width in zip(row, widths)).rstrip())
    for each in listed:
        if each["fault"]:
            print(f"{each['name']}: {each['fault']}", file=sys.stderr)
    return 0


REFUSALS = {
    "refused": "the host of this session allows no input: start it with --input",
    "silent": "the host of this session is silent; fleet end ends a session that has none",
    "closed": "the session has ended",
    "lost": "the session has ended",
}
PIECE = 1024  # bytes of keys that are sent at once


class Typist:
    """Sends keys and signals to a session's host, each thing once and in order."""

    LIMIT = 256  # things that may wait for a host
    PATIENCE = 10.0  # seconds until a program that reads nothing is given up

    def __init__(self, store, incarnation, patience=PATIENCE):
        self.store, self.incarnation, self.patience = store, incarnation, patience
        self.me, self.number, self.wanted, self.lacks = keys.new_id(), 1, 0, False  # how many replicas are to have the last thing, and whether they don't

    def offer(self, field, value):
        """Sends one thing. Returns whether there was room for it, and so many replicas have it as the configuration says. Raises Refused if it can't
        be sent at all."""
        self.wanted = self.store.wanted_replicas()
        call = self.store.call_of("type", self.incarnation, self.me, self.number, self.LIMIT, field, value)
        answers = list(map(raised, self.store.run_all([call, ("WAIT", self.wanted, 1000)] if self.wanted else [call])))
        answer = keys.text(answers[0][0])
        if answer in REFUSALS:
            raise Refused(REFUSALS[answer])
        self.lacks = answer == "ok" and answers[-1] < self.wanted if self.wanted else False
        self.number += (is_there := answer == "ok" and not self.lacks)
        return is_there

    def send(self, field, value):
        if not comes(lambda: self.offer(field, value), self.patience):
            self.number += self.lacks  # what replicas lack is there, so the next thing has another number
            raise self.unread()

    def unread(self):
        """Returns why a thing isn't sent."""
        why = f"fewer than {self.wanted} replicas have" if self.lacks else "the program read none of"
        return Refused(f"{why} what was typed for {self.patience:g} s")

    def type(self, data):
        for at in range(0, len(data), PIECE):
            self.send("keys", data[at : at + PIECE])

    def signal(self, number):
        self.send("signal", number)

    def resize(self, screen):
        self.send("screen", screen)

    def leave(self):
        """Has the store forget this typist, whose last thing arrived."""
        if self.number > 1:
            self.store.delete(key(self.incarnation, f"typed:{self.me}"))


class Sender(threading.Thread):
    """Types in a thread, so that a keyboard is read on whatever the store and the program do. `fault` says why the last thing wasn't typed."""

    def __init__(self, typist, on_fault=lambda error: None):
        super().__init__(daemon=True)
        self.typist, self.on_fault, self.waiting, self.fault = typist, on_fault, queue.SimpleQueue(), ""
        self.start()

    def type(self, data):
        if data:
            self.waiting.put(data)

    def run(self):
        while (data := self.waiting.get()) is not None:
            try:
                self.typist.type(data)
                self.fault = ""
            except (Refused, RedisError) as error:
                self.fault = str(error)
                self.drop()
                self.on_fault(error)
        self.typist.leave()

    def drop(self):
        """Forgets what waits: it was typed after what wasn't sent."""
        while not self.waiting.empty():
            if self.waiting.get() is None:
                self.waiting.put(None)
                return

    def finish(self, patience):
        """Sends what waits, and waits for that, for at most so many seconds."""
        self.waiting.put(None)
        self.join(patience)


def is_over(store, incarnation):
    """Returns whether a session has ended."""
    return bool(store.hexists(key(incarnation, "about"), "closed"))


def kill(store, name, signal, patience):
    """Has the host send a signal to the program, and waits until the session is over."""
    incarnation = find(store, name)
    typist = Typist(store, incarnation, patience)
    typist.signal(SIGNALS[signal])
    typist.leave()
    if not comes(lambda: is_over(store, incarnation), patience):
        raise Refused(f"{name} still runs after {patience:g} s; try --signal KILL")
    return 0


def resize(store, name, screen, patience):
    """Has a program's terminal get another size, as 120x40, and waits until the session has it."""
    incarnation = find(store, name)

    def has_it():
        return any(each["screen"] == screen for each in about(store, [incarnation]))

    typist = Typist(store, incarnation, patience)
    if not has_it():
        typist.resize(screen)
        typist.leave()
    if not comes(lambda: has_it() or is_over(store, incarnation), patience):
        raise Refused(f"{name} hasn't the size {screen} after {patience:g} s")
    if not has_it():
        raise Refused(REFUSALS["closed"])
    return 0


def end(store, name, keep, is_forced):
    """Closes a session that has no host, and has its keys removed after a time."""
    incarnation = find(store, name)
    answer = store.run("end", incarnation, int(is_forced), keys.version(), -1 if keep is None else int(keep * 1000))[0]
    if answer == "alive":
        raise Refused(f"the host of {name} is alive; end its program with fleet kill, or use --force")
    if answer == "lost":
        raise NoSession(f"no such session: {name}")
    return 0
