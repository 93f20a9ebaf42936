"""The pictures of all sessions, for the page: a thread follows them, and each client is told only what changed since it was told
last."""
import base64
import collections
import itertools
import logging
import threading
import time

import vt220

from . import keys
from .operate import about
from .session import as_it_is, whole
from .store import raised
from .view import Viewer

log = logging.getLogger("fleet.web")

MOST = 400  # sessions that the page shows: the latest ones
LISTED = 1.0  # seconds between looks at which sessions there are
AGAIN = 3.0  # seconds until a session with a fault is read again
KEPT = 1 << 16  # bytes of a picture's updates that are kept: who lacks more gets a repaint


class Picture:
    """A session's screen, for clients that have terminals of their own: each one is told bytes that lead its terminal there. Changes are
    numbered, those of all pictures together. So a client that knew an older picture of the session is told all of this one."""

    numbers = itertools.count(1)

    def __init__(self, incarnation):
        self.incarnation, self.number, self.shown = incarnation, 0, -1
        self.terminal, self.size = vt220.Terminal(), ("", "")  # until there is one to show; the size that it has, and the one to which it was changed
        self.modes = self.terminal.modes()
        self.begin, self.updates = 0, collections.deque()  # since which number an update led from each screen to the next: (number, bytes)
        self.kept = 0  # bytes of them
        self.facts, self.facts_changed = {}, 0

    def follow(self, terminal, size, update=None):
        """Takes in where a terminal of a size is now. An update led there from where it was."""
        self.number = self.shown = next(self.numbers)
        self.modes, self.size = terminal.modes(), size
        if update is not None and terminal is self.terminal:
            self.updates.append((self.number, update))
            self.kept += len(update)
            while self.kept > KEPT:
                self.begin, gone = self.updates.popleft()
                self.kept -= len(gone)
        else:
            self.terminal, self.begin, self.kept = terminal, self.number, 0
            self.updates.clear()

    def learn(self, facts):
        if facts != self.facts:
            self.number = self.facts_changed = next(self.numbers)
            self.facts = facts

    def since(self, number):
        """Returns what changed after a number; None if nothing did."""
        if self.number == number:
            return None
        made = {"session": self.incarnation}
        made |= {"bytes": base64.b64encode(self.way_from(number)).decode()} if self.shown > number else {}
        made |= dict(zip(("screen", "resized"), self.size)) if self.shown > number and number < self.begin else {}
        return made | ({"facts": self.facts} if self.facts_changed > number else {})

    def way_from(self, number):
        """Returns bytes that lead here: from the screen of a number if updates did, or else from any screen."""
        if number < self.begin:
            return whole(self.terminal).repaint("vt220")
        return b"".join(update for made, update in self.updates if made > number)


class Followed(Viewer):
    """A viewer whose terminal becomes a picture."""

    def __init__(self, store, incarnation):
        super().__init__(store, incarnation)
        self.picture, self.failed = Picture(incarnation), 0.0  # when it couldn't be read

    def begin_again(self):
        """Reads the session anew, and ends its fault. Raises what is wrong still."""
        self.session = as_it_is(self.store, self.incarnation)
        self.last, self.fault = f"{self.session.at}-0", ""
        self.show()

    def show(self):
        update = super().show()
        size = self.language.screen, self.resized
        if update is None or update or self.picture.shown < 0:
            self.picture.follow(self.terminal, size, update)
        return update

    def is_final(self):
        """Returns whether all of an ended session is shown."""
        return self.is_over and self.session is not None and self.session.at >= self.size

    def learn(self, facts):
        super().learn(facts)
        self.size = facts["size"]
        self.picture.learn({name: facts[name] for name in ("name", "state", "host", "fault", "size", "input", "screen")} | {"fault": self.fault})


class Gallery:
    """Follows the sessions while somebody looks."""

    def __init__(self, store, on_change):
        self.store, self.on_change = store, on_change
        self.followed, self.order = {}, []
        self.lock = threading.Lock()
        self.listed = 0.0
        self.clients = 0

    def run(self):
        while True:
            try:
                if self.clients:
                    self.look()
                else:
                    time.sleep(0.1)
            except Exception:
                log.exception("the gallery")
                time.sleep(1)

    def look(self):
        if time.monotonic() - self.listed > LISTED:
            self.listed = time.monotonic()
            self.list()
            self.on_change()
        watched = {}
        for each in self.followed.values():
            if not each.fault and not each.is_final():
                with self.lock:
                    self.guarded(each, lambda: watched.update(dict.fromkeys(each.streams(), each)))
        if not watched:
            time.sleep(0.2)
            return
        came, wrong = self.store.read_each(Viewer.COUNT, {stream: each.last.encode() for stream, each in watched.items()}, 0.25)
        for stream, error in wrong.items():
            self.guarded(watched[stream], raised, error)
        for stream, entries in came:
            each = watched[stream]
            with self.lock:
                self.guarded(each, each.take, entries)
        if came:
            self.on_change()
            time.sleep(0.03)  # what comes meanwhile is one change

    def list(self):
        """Learns which sessions there are, and asks for the frames of all that are shown."""
        newest = [keys.text(each) for each in self.store.zrevrange(keys.ALL, 0, MOST - 1)]
        listed = sorted(about(self.store, newest), key=lambda each: (each["state"].startswith("ended"), each["name"]))
        order = [each["incarnation"] for each in listed]
        with self.lock:
            self.order, self.followed = order, {i: self.followed.get(i) or Followed(self.store, i) for i in order}
            for each in listed:  # so no client is told of a session without its facts
                followed = self.followed[each["incarnation"]]
                if followed.fault and time.monotonic() - followed.failed > AGAIN:
                    self.guarded(followed, followed.begin_again)
                followed.learn(each)

    def guarded(self, each, call, *arguments):
        """Calls something for a session. Whatever is wrong with that one harms no other: `list` has its fault."""
        try:
            call(*arguments)
        except Exception as fault:
            said = f"{type(fault).__name__}: {fault}"
            if said != each.fault:
                log.warning("%s can't be shown: %s", keys.shown(each.incarnation), keys.shown(said))
            each.fault, each.failed = said, time.monotonic()

    def since(self, told):
        """Returns what a client is to be told, and brings `told` (numbers by session) up to that."""
        with self.lock:
            news = []
            for incarnation, each in self.followed.items():
                made = each.picture.since(told.get(incarnation, -1))
                if made:
                    news.append(made)
                    told[incarnation] = each.picture.number
            for gone in told.keys() - self.followed.keys():
                del told[gone]
            return {"order": self.order, "news": news}
