"""All faults of a store: sessions of real programs go on through each, while daemons are stopped and killed, and keepers upgraded. Each fault lasts until the
programs have gone on through it: nothing waits for a time."""
import os
import pathlib
import random
import signal
import subprocess
import time

import pytest

from harness import KEEPER, Proxy, Told, configured, cut_back, end_all, end_of, fill_disk, key, made_up, recordings, seen, shimmed, stores, wait_for
from fleet.view import Viewer

EVERY = 2  # steps of each session in a round
BEGINS, ENDS = [b"\033", b"\033[", b"\033[1;", b"\033[?", b"\033(", b"\x9b", b"\033P1"], [b"", b"\030", b"x"]
KINDS = (
    made_up,
    made_up,
    lambda chance, _: b"".join(chance.choice(BEGINS) + chance.choice(ENDS) for _ in range(1500)),
    lambda chance, pieces: made_up(chance, pieces)[:2000] + b"\033P" + b"q" * 6000,  # a control string without an end
    lambda chance, _: chance.randbytes(4000),
)


class Weather:
    """The faults: each begins one, and returns what ends it."""

    def __init__(self, machine, proxy, move, chance):
        self.machine, self.proxy, self.move, self.chance, self.store = machine, proxy, move, chance, stores.connect(machine.url)

    def kill_the_store(self):
        self.machine.kill()
        return self.machine.start

    def go_back(self):
        cut_back(self.machine, lambda gone: gone.count(b"bytes\r\n") > 40)

    def make_holes(self):
        self.proxy.signal(signal.SIGUSR1)

    def fill_the_memory(self):
        self.store.config_set("maxmemory", "1mb")
        return lambda: self.store.config_set("maxmemory", "0")

    def fill_the_disk(self):
        fill_disk(self.machine)
        assert "AOF write error" in pathlib.Path(self.machine.folder, "log").read_text(), "the store's log says why"
        return self.machine.start

    def cut_the_link(self):
        self.proxy.signal(signal.SIGUSR2)
        return lambda: self.proxy.signal(signal.SIGUSR2)

    def jump(self, *choices):
        seconds = self.chance.choice(choices or [-3600, 3600, 7200])
        self.move(seconds)
        wait_for(lambda: abs(self.store.time()[0] - time.time() - seconds) < 60)  # the clock jumped

    def begin_anew(self):
        """The store is empty, and its clock is behind: an id of a new stream is that of the clock."""
        self.jump(-7200)
        self.store.flushall()

    def stop_the_daemon(self):
        self.machine.daemon.send_signal(signal.SIGSTOP)
        return lambda: self.machine.daemon.send_signal(signal.SIGCONT)

    FAULTS = kill_the_store, go_back, make_holes, fill_the_memory, fill_the_disk, cut_the_link, jump, begin_anew, stop_the_daemon
    FORGETFUL = go_back, begin_anew  # what the store has lost before a daemon read it is lost


@pytest.mark.parametrize("is_long", [False, pytest.param(True, marks=pytest.mark.storm)])
def test_a_storm(machine, pytestconfig, seed, is_long):
    """A short one has each fault once. In a long one the link is bad all the time."""
    chance, pieces = random.Random(seed), recordings()
    rounds, count = (pytestconfig.getoption("--rounds"), pytestconfig.getoption("--sessions")) if is_long else (len(Weather.FAULTS), 3)
    move, proxy = shimmed(machine), Proxy(machine, 0.01 if is_long else 0.0)
    with configured(machine, "[store]", "timeout = 2", "[host]", "lease = 3", "every = 512"):
        machine.start_daemon(url=proxy.url)
        sessions = [Told(machine, f"storm-{number}", KINDS[number % len(KINDS)](chance, pieces), steps=rounds * EVERY, waits=False) for number in range(count)]
        for each in sessions:
            each.begin()
        weather, viewer = Weather(machine, proxy, move, chance), Viewer(stores.connect(machine.url), sessions[0].incarnation)
        for number in range(rounds):
            fault = Weather.FAULTS[number % len(Weather.FAULTS)]
            for each in sessions:
                each.type(b"%d;" % number)
            if fault in Weather.FORGETFUL:
                arrive(sessions)
            ends = fault(weather)
            go_on(machine, chance.choice(sessions), sessions, fault.__name__)
            if ends:
                ends()
            if number % 2:
                machine.kill_daemon()
                machine.start_daemon(url=proxy.url)
            arrive(sessions)
            assert seen(viewer) is not None and not viewer.fault, f"{fault.__name__}: a viewer sees it: {viewer.fault}"
        end_all(sessions, False)
        lost = [each.name for each in sessions if end_of(each.store, each.incarnation) != len(each.read("sent"))]
        assert not lost, "the store has all in the end"
        print(f"{count} sessions, {rounds} rounds:", *(f"{sum(len(each.read(what)) for each in sessions)} bytes of {what};" for what in ("sent", "reports", "keys")))


def arrive(sessions):
    """Waits until all keys have arrived, and the store has each session: one that went back has it again."""
    for each in sessions:
        wait_for(lambda: each.read("keys") == each.typed and each.store.hexists(key(each.incarnation, "about"), "name"))


def go_on(machine, upgraded, sessions, when):
    """All programs go on while the fault lasts, and meanwhile a keeper's program is replaced."""
    for each in sessions:
        each.aim(EVERY)
    done = subprocess.run([KEEPER, "upgrade", upgraded.name], env=os.environ | {"KEEP_DIR": os.path.join(machine.folder, "keep")}, capture_output=True, text=True)
    assert done.returncode == 0 or "control sequence" in done.stderr, f"{upgraded.name} is upgraded: {done.stderr}"
    for each in sessions:
        assert each.arrives() and each.host.poll() is None, f"{when}: {each.name} goes on"
