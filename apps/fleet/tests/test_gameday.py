"""A game day. For each alert the fault is made, the alert fires on what the fleet's own metrics say, and the runbook's cure ends it. promtool
evaluates alerts.yml, and its time is that of the samples: each phase is twenty minutes of what the metrics said once."""
import json
import os
import pathlib
import re
import subprocess
import time
import urllib.error

from prometheus_client import CollectorRegistry, generate_latest

from harness import (
    ANSWERS, HERE, PATIENCE, PATIENT, Clock, Proxy, Source, Told, another_daemon, asked, begun, conf, configured, end_all, end_of, ending, fill_disk, fleet, free_port, keys, launched, local,
    metrics_at, started, state, stores, text_of, type_once, wait_for, written,
)
from fleet import metrics
from fleet.metrics import WholeFleet
from fleet.operate import Typist

ALERTS = os.path.join(HERE, "..", "alerts.yml")
SAMPLES = 80  # of each phase, 15 seconds apart: no alert looks back further, or waits longer


def of_port(port):
    """Returns what reads the metrics of a process; None if it doesn't reply."""

    def read():
        try:
            return asked(port, "metrics")[1]
        except (urllib.error.URLError, OSError):
            return None

    return read


class Day:
    """What the targets said in each phase: the metrics of the whole fleet, by a store that gives up at once, and more that a case adds."""

    def __init__(self, machine):
        self.whole, self.phases, registry = WholeFleet(stores.connect(machine.url)), [], CollectorRegistry()
        self.whole.store.patience = 0.1
        registry.register(self.whole)
        self.targets = {"all": lambda: generate_latest(registry).decode()}

    def read(self):
        """Returns what each target says, as Prometheus names it."""
        phase, self.whole.read = {}, -1e9
        for target, read in self.targets.items():
            said = read()
            labels = f'instance="{target}",job="fleet"'
            phase[f"up{{{labels}}}"] = str(int(said is not None))
            for line in (said or "").splitlines():
                if not line.startswith("#"):
                    name, more, value = re.fullmatch(r"(\w+)(?:\{(.*)\})? (\S+)", line).groups()
                    phase[f"{name}{{{more + ',' if more else ''}{labels}}}"] = value
        return phase

    def values(self, series):
        return " ".join(phase.get(series, "_") for phase in self.phases for _ in range(SAMPLES))

    def expect(self, alert, labels):
        """Returns what promtool is to find: the alert isn't there, then it fires, and then it isn't there any more. Others may be there: a machine
        may be too slow for them."""

        def at(phase, which, has_fired):
            expr = f"max(max_over_time(ALERTS{{alertstate='firing'{which}}}[{'20m' if phase < 2 else '1m'}]))"
            moment = f"{(phase + 1) * SAMPLES * 15 - 15}s"
            return {"expr": expr, "eval_time": moment, "exp_samples": [{"labels": "{}", "value": 1}] if has_fired else []}

        named = f",alertname='{alert}'" + "".join(f",{name}='{value}'" for name, value in labels.items())
        return [at(0, named, False), at(1, named, True), at(2, named, False)]

    def judge(self, machine, alert, labels):
        series = sorted(set().union(*self.phases))
        made = {"interval": "15s", "input_series": [{"series": each, "values": self.values(each)} for each in series]}
        made["promql_expr_test"] = self.expect(alert, labels)
        rules = {"rule_files": [os.path.realpath(ALERTS)], "evaluation_interval": "15s", "tests": [made]}
        path = conf(machine, "rules.json", json.dumps(rules))  # JSON is YAML
        done = subprocess.run(["promtool", "test", "rules", path], capture_output=True, text=True)
        assert done.returncode == 0, f"{alert}: it isn't there, fires, and ends: {done.stdout[-3000:]}{done.stderr}"


def day_of(alert, **labels):
    """Makes a case of a generator, which stops three times, each time for a look: before the fault, while it is there, and once it is cured."""

    def decorate(case):
        def judged(machine):
            day = Day(machine)
            for _ in case(machine, day):
                day.phases.append(day.read())
            day.judge(machine, alert, labels)

        judged.__name__ = case.__name__
        return judged

    return decorate


@day_of("FleetConnections")
def test_connections_run_out(machine, day):
    store = stores.connect(machine.url)
    yield
    others = [stores.connect(machine.url) for _ in range(8)]
    assert all(each.ping() for each in others), "others come"
    most = store.info("clients")["connected_clients"] + 2
    store.config_set("maxclients", most)
    status, _, said = fleet(machine.url, "check-store")
    assert status == 69 and f"of {most} connections" in said, f"check-store says so: {status} {said}"
    yield
    run_of("FleetConnections", machine)
    status, _, said = fleet(machine.url, "check-store")
    assert status == 0, f"then the store is fit: {said}"
    yield


def run_of(section, machine):
    """Runs the runbook's commands of a section on a test's store. The test is its systemd: if the store ends by itself, it is started again at once."""
    text = re.search(rf"^## {section}\n(.*?)(?=^## |\Z)", text_of("RUNBOOK.md"), re.MULTILINE | re.DOTALL)[1]
    commands, serves = [line[4:] for line in text.splitlines() if line.startswith("    ")], local.is_listening(machine.socket)
    for command in commands:
        if command == "systemctl stop redis-server":
            machine.server.terminate()
            machine.server.wait()
            serves = False
        if command == "systemctl start redis-server":
            machine.start()
            serves = True
        if command.startswith("systemctl"):
            continue
        command = command.replace("redis-cli", f"redis-cli -s {machine.socket}").replace("/var/lib/redis", machine.folder)
        done = subprocess.run(["sh", "-c", command], capture_output=True, text=True)
        assert done.returncode == 0, f"{section}: its commands run: {done.stdout} {done.stderr}"
        if serves and not local.is_listening(machine.socket):
            machine.server.wait()
            machine.start()
    assert commands, f"{section} has commands"


def prepared(machine, content):
    """Returns sessions, and makes the files of the store those of the user of Redis."""
    with configured(machine, "[host]", "lease = 3"):
        sessions = [Told(machine, f"day-{number}", content[number * 100 :]) for number in range(3)]
    place, user = pathlib.Path(machine.folder, "appendonlydir"), 10**6 if os.getuid() == 0 else os.getuid()
    for file in [place, *place.iterdir()]:
        os.chown(file, user, -1)
    return sessions, place, user


def stored(sessions):
    """Waits until the store has all that sessions have written, and they all that was typed: what a store loses before a daemon read it is lost."""
    return wait_for(lambda: all(end_of(each.store, each.incarnation) == len(each.read("sent")) and each.read("keys") == each.typed for each in sessions))


def test_a_backup_is_restored(machine, data):
    """Programs live on. The daemon is restarted between the backup and the restore, and one session begins then: the backup has neither."""
    sessions, place, user = prepared(machine, data)
    for each in sessions:
        each.go_on(4)
    run_of("Backup of the store", machine)
    with configured(machine, "[host]", "lease = 3"):
        another_daemon(machine)
        sessions.append(Told(machine, "begun-later", data))
    for each in sessions:
        each.type(b"after;")
        each.go_on(4)
    stored(sessions)
    store = stores.connect(machine.url)
    store.set("after-the-backup", 1)
    run_of("Restore of the store", machine)
    assert {file.stat().st_uid for file in [place, *place.iterdir()]} == {user}, "the files are those of the user of Redis"
    assert not store.exists("after-the-backup"), "the store is the copy"
    assert stored(sessions), "what it lacks is sent again"
    end_all(sessions)


def test_a_store_is_upgraded(machine, data):
    """Debian has one version of Redis, which is also the oldest that has functions. So it writes the file in the form that all versions read, and
    is started again over this file alone."""
    sessions, place, _ = prepared(machine, data)
    for each in sessions:
        each.go_on(4)
    run_of("Upgrade of the store", machine)
    files = [file for file in os.listdir(place) if ".base." in file]
    text = pathlib.Path(place, files[0]).read_bytes()
    assert len(files) == 1 and text.startswith(b"*") and b"FUNCTION" in text, f"the file has plain commands, and the functions: {files} {text[:20]}"
    machine.start()
    assert fleet(machine.url, "check-store")[0] == 0, "the store is fit"
    end_all(sessions)


@day_of("FleetTargetDown", instance="one")
def test_a_target_is_down(machine, day):
    """`fleet metrics` ends, and that of another fleet doesn't."""
    port = free_port()
    day.targets["one"] = of_port(port)
    for is_killed in (True, False):
        serves = ending(launched(machine, "metrics", f"127.0.0.1:{port}"))
        wait_for(of_port(port))  # it serves
        yield
        if is_killed:
            serves.kill()
            serves.wait()
            yield


@day_of("FleetStoreAway")
def test_the_store_is_away(machine, _):
    """Its disk is full."""
    yield
    fill_disk(machine)
    yield
    run_of("FleetStoreAway", machine)
    yield


@day_of("FleetStoreSlow")
def test_the_store_is_slow(machine, day):
    """Each ping takes longer than it should, by the clock of the metrics."""
    clock, store = Clock(), day.whole.store
    ping, metrics.time = store.ping, clock
    started.callback(setattr, metrics, "time", time)
    yield
    store.ping = lambda: setattr(clock, "now", clock.now + 0.7)
    yield
    store.ping = ping
    yield


@day_of("FleetHostsSilent")
def test_hosts_are_silent(machine, _):
    """A host daemon is killed, and the next one goes on with its programs."""
    with configured(machine, "[host]", "lease = 3"):
        host, store, incarnation = begun(machine, "silent", ["sh", "-c", "echo on; read x; exit 3"], "--input")
        yield
        machine.kill_daemon()
        wait_for(lambda: state(store, "silent")["state"] == "no host")
        yield
        machine.start_daemon()
    wait_for(lambda: state(store, "silent")["state"] == "running")  # it has a host again
    yield
    type_once(Typist(store, incarnation), b"\r")
    assert host.wait(PATIENCE) == 3, f"and its program lives: {host.returncode}"


@day_of("FleetFaults", fault="Wrong")
def test_sessions_have_faults(machine, _):
    """Another program writes into the store. An operator ends the session."""
    yield
    made = Source(machine.url, "wrong")
    made.store.hset(made.part("about"), "end", "x")
    yield
    assert fleet(machine.url, "end", "--force", "--keep", "0", "wrong")[0] == 0, "it is removed"
    yield


def of_daemon(machine, day, *lines, url=None, port=None):
    """Starts the machine's daemon with metrics, as the target `one`. Returns its port."""
    port = port or free_port()
    with configured(machine, *PATIENT, "[host]", *(lines or ["lease = 3600"]), f"metrics = 127.0.0.1:{port}"):
        machine.start_daemon(url=url)
    day.targets["one"] = of_port(port)
    wait_for(of_port(port))
    return port


@day_of("FleetCutOff", instance="one")
def test_a_daemon_is_cut_off(machine, day):
    """Its link ends, and is back. Its program goes on meanwhile."""
    proxy = Proxy(machine)
    port = of_daemon(machine, day, url=proxy.url)
    host, store, incarnation = begun(machine, "cut off", ["sh", "-c", ANSWERS], "--input")

    def is_away():
        return metrics_at(port)["fleet_store_is_away"]

    yield
    proxy.process.kill()
    wait_for(is_away)
    yield
    os.unlink(proxy.socket)
    proxy.start()
    wait_for(lambda: not is_away())  # it reaches the store again
    yield
    Typist(store, incarnation).type(b"x\r")
    assert wait_for(lambda: b"got x" in written(store, "cut off")) and host.poll() is None, "and so does its session"


@day_of("FleetHostBehind", instance="one")
def test_a_host_is_behind(machine, day):
    """The store is full, and takes nothing."""
    port = of_daemon(machine, day)
    host, store, incarnation = begun(machine, "behind", ["sh", "-c", "echo on; read x; head -c 300000 /dev/zero; exit 3"], "--input")
    yield
    Typist(store, incarnation).type(b"\r")
    store.config_set("maxmemory", "1mb")
    wait_for(lambda: metrics_at(port)["fleet_host_lag_seconds"] > 0)
    real = day.targets["one"]
    day.targets["one"] = lambda: re.sub(r"^fleet_host_lag_seconds .*$", "fleet_host_lag_seconds 60.0", real(), flags=re.MULTILINE)
    yield
    day.targets["one"] = real
    store.config_set("maxmemory", "0")
    assert host.wait(PATIENCE) == 3, f"it goes on: {host.returncode}"
    yield


@day_of("FleetRefused", instance="one")
def test_a_session_is_refused(machine, day):
    """While its daemon was away for longer than `lease` and `linger`, another machine took its name. Its program goes on."""
    short = "lease = 1", "linger = 0"
    port = of_daemon(machine, day, *short)
    host, store, incarnation = begun(machine, "taken", ["sh", "-c", ANSWERS], "--input")
    yield
    machine.kill_daemon()
    wait_for(lambda: not store.exists(keys.lease("taken")))
    other = Source(machine.url, "taken")
    of_daemon(machine, day, *short, port=port)
    wait_for(lambda: metrics_at(port)["fleet_host_refused"] == 1)
    yield
    assert host.poll() is None, "its program goes on"
    other.end(0)
    wait_for(lambda: metrics_at(port)["fleet_host_refused"] == 0)  # the name is free
    yield
    wait_for(lambda: fleet(machine.url, "text", "taken")[1].startswith("on\n"))


@day_of("FleetHostDeaf", instance="one")
def test_a_daemon_is_deaf(machine, day):
    """Its user of the store may not read the streams any more. What programs write is stored all the same, and what was typed arrives afterwards."""
    port = of_daemon(machine, day)
    host, store, incarnation = begun(machine, "deaf", ["sh", "-c", ANSWERS], "--input")
    yield
    store.execute_command("ACL", "SETUSER", "default", "-xread")
    typist = Typist(store, incarnation, PATIENCE)
    typist.type(b"typed\r")
    before = metrics_at(port)["fleet_host_unread_seconds"]
    wait_for(lambda: metrics_at(port)["fleet_host_unread_seconds"] > before + 5)  # it notices
    real = day.targets["one"]
    day.targets["one"] = lambda: re.sub(r"^fleet_host_unread_seconds .*$", "fleet_host_unread_seconds 60.0", real(), flags=re.MULTILINE)
    yield
    day.targets["one"] = real
    store.execute_command("ACL", "SETUSER", "default", "+xread")
    wait_for(lambda: b"got typed" in written(store, "deaf"))  # the key arrives, once
    assert wait_for(lambda: metrics_at(port)["fleet_host_unread_seconds"] < 5) and written(store, "deaf").count(b"got typed") == 1
    yield
