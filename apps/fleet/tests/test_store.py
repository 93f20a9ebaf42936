"""What a store lacks that went back, was emptied, lost keys or was failed over is sent again; and stores that are refused."""
import os
import signal
import subprocess

import pytest

from harness import (
    ANSWERS, Source, Told, begun, conf, configured, cut_back, end_all, end_of, ending, fleet, free_port, incarnation_of, key, keys, session, stores, vt220, wait_for,
    written,
)
from fleet.operate import Refused, Typist


def told(machine, data, count=3, **options):
    return [Told(machine, f"told-{number}", data[number * 300 :], **options) for number in range(count)]


def test_a_store_that_went_back_gets_what_it_lacks(machine, data):
    """The end of its file is gone: bytes and checkpoints that it had acknowledged."""
    with configured(machine, "[host]", "every = 300", "keep = 600", "lease = 3600"):
        sessions = told(machine, data)
    for _ in range(3):
        for each in sessions:
            each.go_on(4)
        wait_for(lambda: all(end_of(each.store, each.incarnation) == len(each.read("sent")) for each in sessions))
        before = sum(end_of(each.store, each.incarnation) for each in sessions)
        cut_back(machine, lambda gone: gone.count(b"bytes\r\n") > 10)
        wait_for(lambda: sum(end_of(each.store, each.incarnation) for each in sessions) >= before)  # what is gone is sent again
    end_all(sessions, False)  # the bytes before a checkpoint are trimmed


def test_an_empty_store_gets_all_that_is_held(machine, data):
    """A FLUSHALL, and a store that was started on another directory. If more is gone than is held, a checkpoint takes its place."""
    sessions = told(machine, data)
    host, store, incarnation = begun(machine, "long", ["sh", "-c", "head -c 5000000 /dev/zero | tr '\\0' x; echo; echo end; " + ANSWERS], "--input", says=b"end")
    store.flushall()
    for each in sessions:
        each.go_on(3)
        wait_for(lambda: each.store.hget(keys.NAMES, each.name))
    store.flushall()
    wait_for(lambda: store.hget(keys.NAMES, "long") and session.as_it_is(store, incarnation_of(store, "long")).terminal.text().rstrip().endswith("end\non"))
    status, log, said = fleet(machine.url, "log", "long")
    assert status == 0 and "no longer in the store" in said, f"and what its log lacks is said: {said}"
    assert fleet(machine.url, "type", "--enter", "long", "more")[0] == 0, "it is typed into"
    wait_for(lambda: b"got more" in written(store, "long"))  # and goes on
    assert host.poll() is None, "no program was ended"
    wait_for(lambda: all(each.store.hget(keys.NAMES, each.name) for each in sessions))
    end_all(sessions)


def test_a_store_without_persistence_is_refused(machine):
    """One that comes back without its file counts as away."""
    host, store, _ = begun(machine, "file", ["sh", "-c", ANSWERS], "--input")
    machine.kill()
    machine.start("--appendonly", "no")
    other = stores.connect(machine.url)
    pytest.raises(stores.Unfit, other.examine)
    machine.kill()
    machine.start()
    assert fleet(machine.url, "type", "--enter", "file", "x")[0] == 0, "it is back with its file"
    wait_for(lambda: b"got x" in written(store, "file"))  # and the session goes on


def test_keys_that_are_gone_are_made_again(machine, data):
    """Each of them alone, by whatever. A daemon that renews its leases finds it."""
    store = stores.connect(machine.url)
    store.config_set("maxmemory-policy", "allkeys-lru")
    pytest.raises(stores.Unfit, store.examine)
    store.config_set("maxmemory-policy", "noeviction")
    with configured(machine, "[host]", "lease = 1", "every = 300"):
        [one] = told(machine, data, 1)
        gone = [key(one.incarnation, part) for part in ("bytes", "about", "checkpoint")] + [keys.NAMES, keys.ALL, keys.LIVE, keys.lease(one.name)]
        for number, each in enumerate(gone):
            one.go_on(2)
            store.delete(each)
            wait_for(lambda: store.exists(each) or each.endswith("checkpoint"))
        for part in ("bytes", "about", "keys", "signals"):
            store.delete(key(one.incarnation, part))
            store.set(key(one.incarnation, part), "x")
            one.go_on(1)
            wait_for(lambda: store.type(key(one.incarnation, part)) != b"string")
        end_all([one])


def test_a_failover_to_a_replica_that_is_behind(machine, data):
    """The store's address is that of a sentinel. The master is killed after its replica was cut off and the daemon was restarted: the replica has neither
    this daemon nor the last bytes. No program is ended. A viewer is told that no replica has its key, and types it again."""
    ports = [free_port() for _ in range(3)]
    machine.kill()
    machine.start("--port", str(ports[0]), "--repl-diskless-sync-delay", "0", "--repl-timeout", "3600")
    replica, times = os.path.join(machine.folder, "replica"), "sentinel down-after-milliseconds fleet 3000\nsentinel failover-timeout fleet 10000"
    os.mkdir(replica)
    sentinel = conf(machine, "sentinel.conf", f"port {ports[2]}", f"sentinel monitor fleet 127.0.0.1 {ports[0]} 1", times)
    words = ["--port", str(ports[1]), "--dir", replica, "--replicaof", "127.0.0.1", str(ports[0])]
    copy = ending(subprocess.Popen(["redis-server", *words, "--appendonly", "yes", "--appendfsync", "always"], stdout=subprocess.DEVNULL))
    ending(subprocess.Popen(["redis-server", sentinel, "--sentinel"], stdout=subprocess.DEVNULL))
    url = f"sentinel://127.0.0.1:{ports[2]}/fleet"
    asked, second = stores.connect(f"redis://127.0.0.1:{ports[2]}"), stores.connect(f"redis://127.0.0.1:{ports[1]}")
    pytest.raises(stores.Unfit, asked.examine)
    pytest.raises(ValueError, stores.connect, "sentinel://127.0.0.1/fleet")
    wait_for(lambda: asked.execute_command("SENTINEL", "REPLICAS", "fleet"))
    with configured(machine, "[host]", "lease = 3"):
        machine.start_daemon(url=url)
        sessions = told(machine, data)
        for each in sessions:
            each.go_on(5)
        wait_for(lambda: second.info("replication").get("master_link_status") == "up")
        stores.connect(machine.url).execute_command("WAIT", 1, 0)
        copy.send_signal(signal.SIGSTOP)
        machine.kill_daemon()
        machine.start_daemon(url=url)
        for each in sessions:
            each.go_on(5)
            wait_for(lambda: end_of(each.store, each.incarnation) == len(each.read("sent")))
    careful, hasty = (Typist(stores.connect(machine.url), each.incarnation, 0) for each in sessions[:2])
    careful.store.replicas, hasty.store.replicas = None, 1  # all that are there, as without a configuration, and one
    assert not careful.offer("keys", b"once;"), "no replica has it"
    with pytest.raises(Refused, match="fewer than 1 replicas"):
        hasty.type(b"unsure;")
    sessions[0].typed += b"once;"
    sessions[1].typed += b"unsure;"
    wait_for(lambda: all(each.read("keys") == each.typed for each in sessions))
    machine.kill()
    copy.send_signal(signal.SIGCONT)
    wait_for(lambda: second.info("replication")["role"] == "master")  # the replica takes its place
    for each in sessions:
        each.store = second
        each.typist.store = second
        wait_for(lambda: end_of(second, each.incarnation) == len(each.read("sent")))
    careful.store, second.replicas = second, None  # there is none
    wait_for(lambda: second.exists(keys.lease(sessions[0].name)) and careful.offer("keys", b"once;"))
    end_all(sessions)


def test_a_cluster_is_refused(machine):
    machine.kill()
    for path, _, names in os.walk(machine.folder):
        for each in names:
            if each.endswith((".aof", ".rdb", ".manifest")):
                os.remove(os.path.join(path, each))
    machine.start("--cluster-enabled", "yes", "--cluster-port", str(free_port()))
    pytest.raises(stores.Unfit, stores.connect(machine.url).examine)


def test_damaged_checkpoints_are_noticed(machine, data):
    """One that was cut or changed isn't used. If the bytes before it are gone, this is a fault that is named."""
    source = Source(machine.url, "damaged").send(data)
    terminal = vt220.Terminal()
    terminal.feed(data)
    source.host.check(len(data), b"\033[1;1H" + terminal.repaint())
    source.store.hset(source.part("checkpoint"), "repaint", "x")
    assert session.as_it_is(source.store, source.incarnation).terminal.same_state(terminal), "the bytes before it are played"
    source.store.xtrim(source.part("bytes"), maxlen=1, approximate=False)
    assert fleet(machine.url, "text", "damaged")[0] == 4, "without them it is a fault: 4"
    for name, fields, fault in (("wrong", {"v": keys.version(), "text": "x"}, "Wrong"), ("version", {"v": "999.1", "bytes": "abc"}, "Version")):
        other = Source(machine.url, name)
        other.store.xadd(other.part("bytes"), fields, id="3-0")
        status, _, said = fleet(machine.url, "text", name)
        assert status == 4 and f"fleet: {fault}: " in said, f"{name}: {status} {said}"
