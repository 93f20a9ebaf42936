"""50 sessions of cat with 4 clients each, which attach, type a line, and read what comes. Some detach and attach again, until the time is over. Each keeper
must end with as many files as it began with, and with little more memory. Memory is measured after a first such round and after the last
one, each time when all clients have gone."""
import random
import selectors

import pytest
from sessions import *

SESSIONS, CLIENTS = 50, 4


def open_files(pids):
    return [len(os.listdir(f"/proc/{pid}/fd")) for pid in pids]


def memory_of(pids):
    """How many KB of memory are each keeper's own, once it sleeps."""
    wait(lambda: all(sleeps(pid) for pid in pids), "all keepers sleep")
    return [int(re.search(r"Private_Dirty:\s+(\d+)", pathlib.Path(f"/proc/{pid}/smaps_rollup").read_text())[1]) for pid in pids]


class Crowd:
    """The clients of all sessions."""

    def __init__(self, names, rng):
        self.selector, self.rng, self.names = selectors.DefaultSelector(), rng, names
        self.clients, self.typed = [], 0
        for name in names * CLIENTS:
            self.come(name)

    def come(self, name):
        it = Raw(name, b"a")
        it.name = name
        it.socket.setblocking(False)
        self.selector.register(it.socket, selectors.EVENT_READ, it)
        self.clients.append(it)

    def go(self, it):
        self.selector.unregister(it.socket)
        self.clients.remove(it)
        it.close()

    def type(self, it):
        """Types a line, unless its keeper hasn't taken the ones before it."""
        with contextlib.suppress(BlockingIOError):
            it.socket.send(frame(b"K", b"%d of a soak\n" % self.typed))
            self.typed += 1

    def turn(self):
        for it in self.rng.sample(self.clients, 20):
            self.type(it)
        for key, _ in self.selector.select(0.02):
            with contextlib.suppress(BlockingIOError):
                key.fileobj.recv(1 << 18)
        if self.rng.randrange(3) == 0:
            it = self.rng.choice(self.clients)
            self.go(it)
            self.come(it.name)

    def leave(self):
        for it in list(self.clients):
            self.go(it)


def play(names, rng, seconds):
    crowd = Crowd(names, rng)
    for it in crowd.clients:
        crowd.type(it)
    end = time.monotonic() + seconds
    while time.monotonic() < end:
        crowd.turn()
    for name in names:
        wait(lambda: " of a soak" in text(name), f"{name} shows what was typed")
    crowd.leave()
    wait(lambda: all(it["attached"] == "0" for it in rows().values()), "all clients are gone")


@pytest.mark.parametrize("room", ["gcc"], indirect=True)
def test_many(seconds):
    names, rng = [f"soak-{n}" for n in range(SESSIONS)], random.Random(1)
    for name in names:
        new(name, "cat")
    told = rows()
    pids = [parent(told[name]["pid"]) for name in names]
    wait(lambda: all(sleeps(pid) for pid in pids), "all keepers sleep before")
    files = open_files(pids)
    play(names, rng, seconds / 6)
    wait(lambda: open_files(pids) == files, "each keeper has as many files open as before")
    memory = memory_of(pids)
    play(names, rng, seconds * 5 / 6)
    wait(lambda: open_files(pids) == files, "and at the end")
    # Each keeper has a log, whose buffer is at most twice as long.
    logs = [2 * len(keep("log", name).stdout.encode()) // 1024 for name in names]
    worst = max(after - before - log for before, after, log in zip(memory, memory_of(pids), logs))
    assert worst <= 64, f"no keeper's memory has grown by more than 64 KB beyond its log: {worst} KB"
