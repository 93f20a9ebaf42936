"""Sessions of real programs: their reports, keys, sizes, statuses and names, over daemons and keepers that are killed and replaced; and what readers and viewers
see of them."""
import io
import json
import os
import pathlib
import random
import signal
import subprocess

import pytest

from harness import (
    ANSWERS, KEEPER, PATIENCE, PROGRAM, QUERIES, Source, Told, another_daemon, begun, commands, configured, end_all, fleet, fleet_bytes, incarnation_of, key, keys, made_up,
    played, program, proportional, recordings, seen, session, stores, wait_for, written,
)
from fleet import export
from fleet.host import Behind, Host
from fleet.operate import Refused, Typist
from fleet.view import Viewer

WIDE = "Größe 漢字 e\u0301 \u00e9\r\n".encode()


def of_languages(seed):
    """Yields a name, the options of `host`, those of a terminal, and bytes of each kind of session."""
    chance, pieces = random.Random(seed), recordings()
    yield "dec", [], {}, made_up(chance, pieces)
    yield "utf-8", ["--encoding", "utf-8"], {"encoding": "utf-8"}, b"".join(each + WIDE for each in QUERIES) + b"\xff\xc3" + WIDE * 30
    yield "xterm", ["--terminal", "xterm"], {"terminal": "xterm", "encoding": "utf-8"}, b"\033[?1049h" + WIDE * 20 + b"\033[2;3Hx\033[?1049l\033[?2004h" + WIDE
    yield "large", ["--size", "120x40"], {"columns": 120, "rows": 40}, b"\033[40;118Hend\033[6n" + made_up(chance, pieces)
    yield "small", ["--size", "2x2", "--terminal", "xterm"], {"columns": 2, "rows": 2, "terminal": "xterm", "encoding": "utf-8"}, b"abc\r\n\033[9;9Hx" + WIDE
    yield "deccolm", [], {}, b"\033[?3h\033[1;130Hwide\033[c" + made_up(chance, pieces) + b"\033[?3l" + b"\033P" + b"q" * 9000


def test_each_language_is_told_whole(machine, seed):
    """Bytes that are cut anywhere, with checkpoints between them, while daemons are killed."""
    with configured(machine, "[host]", "every = 300", "lease = 3600"):
        machine.start_daemon()
        all_of_them = [(Told(machine, name, data, *words), terminal) for name, words, terminal, data in of_languages(seed)]
        for number in range(4):
            for told, _ in all_of_them:
                told.type(b"%d;" % number)
                told.go_on(5)
            another_daemon(machine)
        for told, terminal in all_of_them:
            told.type(b"q")
            assert told.hold(**terminal), f"{told.name}: the log"
            at = int(told.store.hget(key(told.incarnation, "checkpoint"), "at") or 0)
            assert at > 0 or len(told.read("sent")) < 900, f"{told.name}: with a checkpoint"


def test_statuses_are_those_of_a_shell(machine):
    for command, status in ((["true"], 0), (["sh", "-c", "exit 3"], 3), (["sh", "-c", "kill -9 $$"], 137), (["nosuchcommand"], 127), (["/etc/passwd"], 126), (["sh", "-c", "exit 4", "caf\udce9"], 4)):
        name = f"status-{status}"
        assert program(machine, name, command).wait(PATIENCE) == status, f"{command}: {status}"
        store = stores.connect(machine.url)
        assert store.hget(key(incarnation_of(store, name), "about"), "closed") == b"%d" % status, "as in the store"
    assert "nosuchcommand: No such file" in fleet(machine.url, "text", "status-127")[1], "why it doesn't run is on its screen"


def test_names_are_used_once(machine):
    host, store, first = begun(machine, "name", ["sh", "-c", ANSWERS], "--input")
    assert program(machine, "name", ["true"]).wait(PATIENCE) == 5, "a second host of the name: 5"
    os.kill(host.pid, signal.SIGKILL)
    wait_for(lambda: store.hget(key(first, "about"), "closed") == b"lost")  # if the keeper is killed, the session is lost
    assert program(machine, "name", ["true"]).wait(PATIENCE) == 0, "and the name is free"
    assert incarnation_of(store, "name") != first, "for another session"
    assert fleet(machine.url, "text", f"@{first}")[1].startswith("on\n"), "the first one is still there"
    status, _, said = fleet(machine.url, "host", "x", "true", FLEET_DAEMON="/nonexistent", KEEP_DIR=os.path.join(machine.folder, "keep"))
    assert status == 69 and "no host daemon" in said, f"no daemon: {status} {said}"


def test_a_daemon_that_died_with_a_keeper_is_followed(machine):
    """Nobody renews the lease. The next session of the name waits for its end."""
    with configured(machine, "[store]", "timeout = 60", "[host]", "lease = 1"):
        host, store, first = begun(machine, "both", ["sh", "-c", ANSWERS])
        machine.kill_daemon()
        os.kill(host.pid, signal.SIGKILL)
        machine.start_daemon()
        assert program(machine, "both", ["true"]).wait(PATIENCE) == 0, "it begins"
    assert store.hget(key(first, "about"), "closed") == b"lost", "and the one before is lost"


def test_a_session_outlives_its_daemon_and_its_keeper_s_program(machine):
    """Keys that are typed meanwhile arrive once. `vt220-keep upgrade` replaces the keeper's program."""
    host, store, incarnation = begun(machine, "lives", ["sh", "-c", ANSWERS], "--input")
    typist, wanted_lines = Typist(store, incarnation, PATIENCE), b"on"
    for number in range(6):
        typist.type(b"a%d\r" % number)
        if number % 2:
            another_daemon(machine)
        else:
            done = subprocess.run([KEEPER, "upgrade", "lives"], env=os.environ | {"KEEP_DIR": os.path.join(machine.folder, "keep")}, capture_output=True)
            assert done.returncode == 0, f"it is upgraded: {done.stderr}"
        typist.type(b"b%d\r" % number)
        wanted_lines += b"\r\ngot a%d\r\ngot b%d" % (number, number)
        wait_for(lambda: written(store, "lives").strip() == wanted_lines)
    wait_for(lambda: store.xlen(key(incarnation, "keys")) == 0)  # what the program has isn't in the store
    typist.type(b"\x04")
    assert host.wait(PATIENCE) == 9, "it ends"


def test_on_this_machine_it_is_a_keeper_s(machine):
    """Also while the store is away: text, keys and reports. What was written meanwhile is published afterwards."""
    asks = r"""stty -echo raw; printf 'a\033[6n'; dd bs=1 count=6 2>/dev/null >/dev/null; stty sane -echo; echo nswered; while read x; do echo got $x; done; exit 9"""
    host, store, incarnation = begun(machine, "here & there", ["sh", "-c", asks], says=b"nswered")
    keep = {"env": os.environ | {"KEEP_DIR": os.path.join(machine.folder, "keep")}, "capture_output": True, "text": True}

    def text():
        return subprocess.run([KEEPER, "text", "here___there"], **keep).stdout

    assert text().startswith("answered\n"), f"its text: {text()}"
    machine.kill()
    subprocess.run([KEEPER, "send", "here___there", "local", "Enter"], **keep)
    wait_for(lambda: "got local" in text())  # it goes on without a store
    machine.start()
    wait_for(lambda: b"got local" in written(store, "here & there"))  # and is published
    assert fleet(machine.url, "type", "here & there", "x")[0] == 6, "viewers type only with --input: 6"
    subprocess.run([KEEPER, "kill", "here___there"], **keep)
    assert host.wait(PATIENCE) == 129, "it is ended here"
    wait_for(lambda: store.hget(key(incarnation, "about"), "closed") == b"129")  # and there


def test_a_program_is_resized(machine):
    """From 2x2 on. The program's terminal has the size, and so have readers and recordings."""
    host, store, incarnation = begun(machine, "sized", ["sh", "-c", "echo on; while read x; do stty size; done"], "--input")
    typist, sizes = Typist(store, incarnation, PATIENCE), ["40x10", "255x255", "2x2", "80x24", "120x40"]
    for screen in sizes:
        assert fleet(machine.url, "resize", "--patience", str(PATIENCE), "sized", screen)[0] == 0, f"{screen}"
        typist.type(b"\r")
        columns, rows = screen.split("x")
        wait_for(lambda: written(store, "sized").rstrip().endswith(f"{rows} {columns}".encode()))
        now = session.as_it_is(store, incarnation)
        assert now.language.screen == screen and now.terminal.rows() == int(rows), "a reader's"
    for wrong in ("1x24", "256x24", "80", "80x24x2"):
        assert fleet(machine.url, "resize", "sized", wrong)[0] == 2, f"{wrong} is refused at once"
    pytest.raises(Refused, Typist(store, Source(machine.url, "none").end().incarnation).resize, "90x30")
    out = io.BytesIO()
    export.asciicast(store, incarnation, "sized", out)
    head, *events = map(json.loads, out.getvalue().splitlines())
    assert [event[2] for event in events if event[1] == "r"] == sizes and (head["width"], head["height"]) == (80, 24), f"a recording's: {head}"
    text = subprocess.run([PROGRAM, "text", "--format", "asciicast"], input=out.getvalue(), capture_output=True).stdout.decode()
    assert text == session.as_it_is(store, incarnation).terminal.text(), "and the program plays it so"
    host.terminate()
    assert host.wait(PATIENCE) == 129, "SIGTERM hangs up"


def test_viewers_see_what_there_is(machine, data):
    """From the beginning, in the midst, through a flood and over a change of the size."""
    source = Source(machine.url, "seen").send(data[:3000])
    first = Viewer(source.store, source.incarnation)
    assert seen(first) == played(source.sent)[0].text(), "from the beginning"
    source.send(data[3000:] + b"\033[")
    late = Viewer(source.store, source.incarnation)
    for each in (first, late):
        assert seen(each) == played(source.sent + b"\030")[0].text(), "inside a sequence"
    source.send(b"1;1Hend")
    source.resize("90x30").send(b"\033[30;90H*")
    whole, _ = played(source.sent[:-9])
    whole.resize(rows=30, columns=90)
    whole.feed(b"\033[30;90H*")
    for each in (first, late, Viewer(source.store, source.incarnation)):
        assert seen(each) == whole.text(), "in another size"
    host, store, incarnation = begun(machine, "flood", ["sh", "-c", "seq 1 400000; echo end; read x"], "--input", says=b"1")
    viewer = Viewer(store, incarnation)
    wait_for(lambda: "\nend\n" in seen(viewer))  # through a flood
    Typist(store, incarnation).type(b"\r")
    assert host.wait(PATIENCE) == 1 or host.returncode == 0, "which ends"
    log = fleet_bytes(machine.url, "log", "flood")[1]
    assert log == b"".join(b"%d\r\n" % number for number in range(1, 400001)) + b"end\r\n\r\n", f"its log is whole: {len(log)}"


def test_a_signal_reaches_a_program_that_reads_nothing(machine):
    host, store, incarnation = begun(machine, "deaf", ["sh", "-c", "stty raw; echo on; exec sleep infinity"], "--input")
    typist = Typist(store, incarnation, 2)
    pytest.raises(Refused, typist.type, b"x" * 1_000_000)
    assert fleet(machine.url, "kill", "--signal", "TERM", "--patience", str(PATIENCE), "deaf")[0] == 0, "a signal"
    assert host.wait(PATIENCE) == 143, f"arrives: {host.returncode}"


def test_a_large_screen_writes_no_more_than_its_bytes(machine):
    """A checkpoint of 255x255 with attributes has a megabyte and a half. It comes after as many bytes."""
    picture = b"".join(b"\033[0;%dm%c" % ((1, 4, 5, 7)[cell % 4], 65 + cell % 26) for cell in range(65025))
    path = pathlib.Path(machine.folder, "picture")
    path.write_bytes(picture * 6)
    store = stores.connect(machine.url)
    before = store.info("persistence")["aof_current_size"]
    host = program(machine, "cells", ["sh", "-c", f"stty -opost; cat {path}"], "--size", "255x255")
    assert host.wait(PATIENCE) == 0, "it is written"
    wrote = store.info("persistence")["aof_current_size"] - before
    found = store.hgetall(key(incarnation_of(store, "cells"), "checkpoint"))
    assert int(found[b"length"]) > 100_000, f"with a checkpoint of {found[b'length']} bytes"
    assert wrote <= 3 * len(picture) * 6, f"bytes of the store for each of the program: {wrote / len(picture) / 6:.2f}"


def test_only_so_much_waits_for_the_store(machine, data):
    """A store is full, and evicts nothing. A flood waits beside a quiet session, and then goes on to its end."""
    machine.kill()
    machine.start("--maxmemory", "6mb", "--maxmemory-policy", "noeviction")
    quiet = Told(machine, "quiet", data)
    host = program(machine, "flood", ["sh", "-c", "head -c 9000000 /dev/zero | tr '\\0' x; exit 5"])
    store = stores.connect(machine.url)
    wait_for(lambda: int(store.info("errorstats").get("errorstat_OOM", "count=0").removeprefix("count=")) > 5)
    assert quiet.go_on(3) and host.poll() is None, "programs go on, and the flood waits"
    store.config_set("maxmemory", "200mb")
    assert host.wait(PATIENCE) == 5, "it goes on to its end"
    wait_for(lambda: written(store, "flood").count(b"x") == 9000000)  # and all is there
    end_all([quiet])


def test_bytes_before_a_checkpoint_go(machine):
    with configured(machine, "[host]", "every = 500", "keep = 1000", "retain = 1h"):
        host, store, incarnation = begun(machine, "kept", ["sh", "-c", "seq 1 5000; echo on"])
        assert host.wait(PATIENCE) == 0, "it ends"
    first, at = store.xrange(key(incarnation, "bytes"), count=1)[0][0], int(store.hget(key(incarnation, "checkpoint"), "at"))
    assert at - 1000 <= int(first.split(b"-")[0]) <= at - 1000 + 16384, f"the first entry that is kept ends at {first}, and the checkpoint is at {at}"
    status, _, said = fleet_bytes(machine.url, "log", "kept")
    assert status == 0 and b"no longer in the store" in said, f"the log says so: {said}"
    assert fleet(machine.url, "text", "kept")[1].rstrip().endswith("on"), "the screen is there"
    assert 0 < store.ttl(key(incarnation, "bytes")) <= 3600, "its keys stay for an hour"


def test_many_sessions_cost_little(machine):
    """Their leases are renewed with one call, and each keeper is small."""
    sessions = 20
    hosts = [program(machine, f"idle-{number}", ["sleep", "infinity"]) for number in range(sessions)]
    store = stores.connect(machine.url)
    wait_for(lambda: store.scard(keys.LIVE) == sessions)  # all begin
    store.config_resetstat()
    wait_for(lambda: commands(store).get("cmdstat_set", 0) >= 2 * sessions)  # leases are renewed
    calls = commands(store)
    assert calls["cmdstat_fcall"] <= 2 * (calls["cmdstat_set"] // sessions + 1), f"with one call for {sessions} sessions, and one that looks after some: {calls}"
    most = max(proportional(each.pid) for each in hosts)
    assert most < 1_000_000, f"a keeper takes less than a megabyte: {most}"
    assert store.memory_usage(key(incarnation_of(store, "idle-0"), "about")) < 4000, "and little in the store"


def test_an_old_host_writes_nothing_once_there_is_a_new_one(machine):
    """A daemon that was stopped comes to itself when another one has its session: what it sends arrives late."""
    source = Source(machine.url, "two").send(b"first")
    new = Host(source.store, "two", source.host.chosen, incarnation=source.incarnation)
    new.register()
    for late in (lambda: source.send(b"late"), lambda: source.resize("90x30"), lambda: source.host.check(5, b"late"), lambda: source.end(1)):
        pytest.raises(Behind, late)
    assert new.at == 5, "the new one goes on where the old one stopped"
    new.append(b", second")
    assert written(source.store, "two") == b"first, second", "and nothing else is there"
