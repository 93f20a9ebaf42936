"""The host daemon: one process for all sessions of a machine, and the only one there that knows the store and its password. A session's
program and its keeper run under the session's own user, so they reach neither this process nor another session.

It has two connections to the store: one over which all sessions say what they have to say, and one that waits for what comes for their programs.
"""
import contextlib
import logging
import os
import queue
import resource
import select
import socket
import threading
import time
from concurrent.futures import Future

from . import wire
from .host import is_dead_here, name_of_host
from .keys import key, lease, new_id, text, version
from .program import Link, Program
from .store import is_of_session, raised

log = logging.getLogger("fleet.host")

TOGETHER = 256  # calls that are sent with one message, at most
RENEWED = 100  # leases that are renewed with one call, so that the store has time for others between two of them
LAST = 64  # reads that take in all that a connection holds
OF_USER = 64  # connections of another user than the daemon's, at most
TAKEN = 5  # the exit status of a keeper whose name another session has
BEAT = 10 / 3  # seconds between two looks at the store, at most
COUNT = 256  # entries of a stream that are read at once
AUDITED = 16  # sessions that are looked after with each beat


class Shared:
    """The store, for many threads: what they ask at the same time goes with one message, over one connection."""

    def __init__(self, store):
        self.store, self.asked = store, queue.SimpleQueue()
        threading.Thread(target=self.ask_on, daemon=True).start()

    def __getattr__(self, name):
        return getattr(self.store, name)

    def ask_on(self):
        while True:
            some = [self.asked.get()]
            with contextlib.suppress(queue.Empty):
                while len(some) < TOGETHER:
                    some.append(self.asked.get_nowait())
            try:
                answers = self.store.run_all([words for words, _ in some], are_one=False)
            except Exception as error:
                answers = [error] * len(some)
            for (_, asked), answer in zip(some, answers):
                asked.set_result(answer)

    def ask(self, *words):
        """Returns the answer to a command, or raises the error that it is."""
        return raised(self.post(*words).result())

    def run(self, name, *arguments):
        return self.store.checked(self.ask(*self.store.call_of(name, *arguments)))

    def post(self, *words):
        """Asks for something, and waits for no answer. Returns what will have it."""
        asked = Future()
        self.asked.put((words, asked))
        return asked


def listening(path):
    """Returns a socket at a path, to which each user may connect who may enter its directory. Raises OSError if there is a daemon."""
    os.makedirs(os.path.dirname(path), exist_ok=True)
    made = socket.socket(socket.AF_UNIX)
    with contextlib.suppress(FileNotFoundError, ConnectionRefusedError):
        made.connect(path)
        raise OSError(98, "there is a host daemon", path)
    with contextlib.suppress(FileNotFoundError):
        os.unlink(path)  # of one that was killed
    made = socket.socket(socket.AF_UNIX)
    made.bind(path)
    os.chmod(path, 0o666)
    made.listen(socket.SOMAXCONN)  # all keepers of a machine may come at once
    return made


class Daemon:
    def __init__(self, store, chosen, path):
        store.run("renew", 0, "")  # the store has the functions, or this user has no right to them
        self.store, self.shared, self.chosen, self.me = store, Shared(store), chosen, name_of_host()
        self.sessions = {}  # (user, name) -> Program: the store decides between users
        self.links = {}  # file -> (Link, its Program, or None until its state has come)
        self.keepers = {}  # the file of a keeper's process -> (the process, its Program)
        self.lock, self.over = threading.RLock(), 0  # the bytes that sessions have stored which are over
        self.complained = {}  # user -> when that was logged
        self.cursor = "0"  # of the audit
        self.wakes = key(new_id(), "signals").encode()  # a stream of this daemon alone
        self.events, self.listener = select.epoll(), listening(path)
        self.events.register(self.listener, select.EPOLLIN)

    def serve(self):
        for call in (self.read_on, self.renew_on):
            threading.Thread(target=call, daemon=True).start()
        most = resource.getrlimit(resource.RLIMIT_NOFILE)[1]
        resource.setrlimit(resource.RLIMIT_NOFILE, (most, most))  # a session has two files
        while True:
            for file, event in self.events.poll():
                try:
                    self.attend(file, event)
                except Exception:
                    log.exception("a keeper")
                    time.sleep(0.1)

    # The keepers.

    def attend(self, file, event):
        """Does what is due at a file: the listener, a keeper's process that has ended, or a connection."""
        if file == self.listener.fileno():
            self.meet()
        elif file in self.keepers:
            self.lose(file)
        elif file in self.links:
            link = self.links[file][0]
            if event & select.EPOLLOUT:
                link.say()
            if event & ~select.EPOLLOUT:
                self.hear(link)

    def meet(self):
        link = Link(self.listener.accept()[0], self.events)
        self.links[link.socket.fileno()] = link, None
        if link.user != os.getuid() and sum(each.user == link.user for each, _ in self.links.values()) > OF_USER:
            link.refuse(TAKEN, f"the user has {OF_USER} sessions on this machine")
            self.drop(link)

    def hear(self, link):
        """Takes in what a keeper says. One that says anything else than a keeper does is left."""
        try:
            for letter, data in link.hear():
                program = self.links[link.socket.fileno()][1]
                if program:
                    program.hear(letter, data)
                elif letter == wire.STATE:
                    self.begin(link, wire.State(data))
                else:
                    raise wire.Strange("no state")
        except EOFError:
            self.drop(link)
        except Exception as error:
            self.complain(link.user, error)
            link.refuse(1, error)
            self.drop(link)

    def complain(self, user, error):
        """Logs what is strange, of each user once a minute: another user could fill the journal."""
        now = time.monotonic()
        if now - self.complained.get(user, -60) >= 60:
            self.complained[user] = now
            log.error("a keeper of the user %d: %s", user, error)

    def begin(self, link, state):
        """Begins a session, or goes on with it if its keeper comes again."""
        name = link.user, state.name
        before, mine = self.sessions.get(name), next((program for pid, program in self.keepers.values() if pid == link.pid), None)
        if mine and mine.is_alive() and mine is not before:
            raise wire.Strange("a process keeps one session")
        for file in [file for file, (_, program) in self.keepers.items() if program is before]:
            self.lose(file)  # if it has just ended
        is_same = before and state.incarnation and state.incarnation == before.host.incarnation
        if before and not (is_same or before.is_over or before.is_gone):
            link.refuse(TAKEN, f"the name {state.name!r} is held by a session of this machine")
            return
        program = Program(self, link, state, before)
        if is_same:
            before.leave()
        with self.lock:
            self.sessions[name] = program
        self.links[link.socket.fileno()] = link, program
        self.know(link.pid, program)
        program.start()

    def know(self, pid, program):
        """Has the end of a keeper's process noticed."""
        file = next((file for file, (known, _) in self.keepers.items() if known == pid), None)
        if file is None:
            with contextlib.suppress(OSError):  # it is in another container, or has just ended
                file = os.pidfd_open(pid)
                self.events.register(file, select.EPOLLIN)
        if file is not None:
            self.keepers[file] = pid, program

    def lose(self, file):
        """Notes that a keeper's process has ended, if it has. What it said last is taken in first."""
        ended = select.poll()
        ended.register(file, select.POLLIN)
        if not ended.poll(0):
            return
        _, program = self.keepers.pop(file)
        self.events.unregister(file)
        os.close(file)
        for _ in range(LAST):
            if program.link.is_open:
                self.hear(program.link)
        program.lose()

    def drop(self, link):
        """Closes a connection. If nobody knows the keeper's process, it counts as ended."""
        if link.is_open:
            _, program = self.links.pop(link.socket.fileno())
            link.close()
            if program and all(each is not program for _, each in self.keepers.values()):
                program.lose()

    def forget(self, program):
        """The thread of a session has ended."""
        with self.lock:
            self.over += program.stored
            self.sessions = {name: each for name, each in self.sessions.items() if each is not program}

    def all(self):
        with self.lock:
            return list(self.sessions.values())

    def stored(self):
        """Returns how many bytes all sessions gave to the store, those that are over included."""
        with self.lock:
            return self.over + sum(each.stored for each in self.sessions.values())

    # The store.

    def wake(self):
        """Has the reader look at which streams it waits for."""
        self.shared.post("XADD", self.wakes, "*", "wake", 1)

    def read_on(self):
        while True:
            try:
                self.read()
            except Exception:
                log.exception("what came for the programs")
                time.sleep(1)

    def read(self):
        """Waits for what comes for the programs, and passes it on. A stream that isn't one is removed, and harms no other session."""
        programs = {stream: (program, last) for program in self.all() for stream, last in program.streams().items()}
        streams = {self.wakes: b"0-0"} | {stream: last for stream, (_, last) in programs.items()}
        came, wrong = self.store.read_each(COUNT, streams, min(BEAT, self.chosen.lease / 3))
        for stream, error in wrong.items():
            if is_of_session(error):
                self.shared.ask("DEL", stream)
        for program in {program for stream, (program, _) in programs.items() if stream not in wrong}:
            program.read_at = time.monotonic()
        for stream, entries in came:
            try:
                if stream == self.wakes:
                    self.shared.ask("DEL", stream)  # what woke is there before this reader looks again
                else:
                    programs[stream][0].pass_on(stream, entries)
            except Exception:
                log.exception("what came in %s", stream)

    def renew_on(self):
        while True:
            time.sleep(min(BEAT, self.chosen.lease / 3))
            some = [program for program in self.all() if program.is_named and not program.is_over]
            for at in range(0, len(some), RENEWED):
                try:
                    self.renew(some[at : at + RENEWED])
                except Exception:
                    log.exception("the leases")
            try:
                self.audit()
            except Exception:
                log.exception("the audit")

    def audit(self):
        """Looks after some sessions of the whole fleet: all daemons do."""
        retain = -1 if self.chosen.retain is None else int(self.chosen.retain * 1000)
        self.cursor = self.shared.run("audit", self.cursor, AUDITED, retain, version())[0]

    def is_dead_here(self, name):
        """Returns whether the host that has a name was one of this machine and is no more."""
        incarnation = self.shared.ask("GET", lease(name))
        host = text(self.shared.ask("HGET", key(text(incarnation), "about"), "host")) if incarnation else ""
        return not incarnation or is_dead_here(host)

    def renew(self, programs):
        """Renews the leases of sessions with one call."""
        stored = [program.host.at for program in programs]
        names = [word for program in programs for word in (program.host.name, program.host.incarnation)]
        answers = self.shared.run("renew", int(self.chosen.lease * 1000), self.me, *names)[1:]
        for program, answer, at in zip(programs, answers, stored):
            program.note(answer, at)
