"""Who may do what: the socket, passwords, TLS, users, the program's environment, and frames that no keeper sends."""
import contextlib
import os
import random
import select
import signal
import socket
import stat
import subprocess
import sys
import types

import pytest

from harness import (
    ANSWERS, KEEPER, PATIENCE, PATIENT, OnTerminal, Source, Told, begun, conf, configured, ending, fleet, free_port, incarnation_of, key, launched, local, played, program,
    seen, stores, text_of, wait_for, written,
)
from fleet import config, wire
from fleet.operate import Typist
from fleet.program import Link, Program
from fleet.view import Viewer

def test_the_store_of_run_is_this_users_alone(machine):
    assert stat.S_IMODE(os.stat(machine.folder).st_mode) == 0o700, "its directory is this user's alone"
    assert stat.S_IMODE(os.stat(machine.socket).st_mode) == 0o700, "and so is the socket"
    assert stores.connect(machine.url).config_get("port")["port"] == "0", "no port is open"


def test_the_program_learns_no_address(machine):
    name, store = "environment", stores.connect(machine.url)
    machine.start_daemon()
    reads = "env; cat /proc/$PPID/cmdline /proc/$PPID/environ | tr '\\0' '\\n'"
    status = program(machine, name, ["sh", "-c", reads]).wait(PATIENCE)
    said = written(store, name).decode()
    assert status == 0 and "TERM=vt220" in said, "the program ran"
    assert "FLEET" not in said and "redis" not in said.lower(), "no variable and no argument has the address"
    assert "vt220-keep" in said, "neither of its own nor of its keeper's"


def test_a_password_is_needed_and_read_from_a_file(machine):
    password = conf(machine, "password", "secret")
    stores.connect(machine.url).config_set("requirepass", "secret")
    config = conf(machine, "conf", *PATIENT, f"password-file = {password}")
    status, _, said = fleet(machine.url, "list")
    assert status == 77 and "Authentication" in said, f"without it: {status} {said}"
    assert fleet(machine.url, "list", config=config)[0] == 0, "with it"
    status, _, said = fleet(machine.url, "list", config=conf(machine, "wrong", *PATIENT, f"password-file = {config}"))
    assert status == 77, f"with another: {status} {said}"
    status, _, said = fleet(machine.url, "list", config=conf(machine, "none", "[store]", "give-up = 0.1", "password-file = /nowhere"))
    assert status == 69 and said.splitlines()[-1].startswith("fleet: /nowhere: "), f"with one that can't be read: {status} {said}"


USERS = ("host", "viewer", "typist", "operator")
# What is typed before its line is sane again would stay there as it is, and make no line.
PROGRAM_THAT_ASKS = r"""stty -echo raw; printf 'a\033[6n'; dd bs=1 count=6 2>/dev/null >/dev/null; stty sane; echo nswered
while read x; do echo got $x; done"""


def test_users_have_the_rights_that_they_need(machine):
    """users.acl, as it is: host, viewer, typist and operator do their work, and no other's."""
    acl = conf(machine, "users.acl", text_of("users.acl"))
    machine.kill()
    urls = {user: f"unix://{user}:{user.upper()}-PASSWORD@{machine.socket}" for user in USERS}
    machine.url = urls["operator"]
    machine.start("--aclfile", acl)
    assert fleet(urls["viewer"], "prepare-store")[0] == 69, "only an operator loads the functions"
    assert fleet(urls["operator"], "prepare-store")[0] == 0, "an operator loads them"
    with configured(machine, *PATIENT, "[host]", "lease = 3600", "retain = 1h"):
        machine.start_daemon(url=urls["host"])
    host = program(machine, "roles", ["sh", "-c", PROGRAM_THAT_ASKS], "--input")
    wait_for(lambda: fleet(urls["viewer"], "text", "roles")[1].startswith("answered"))  # host and viewer
    rights_of_commands(urls)
    machine.kill_daemon()
    machine.start_daemon(url=urls["viewer"])
    assert program(machine, "other", ["true"]).wait(PATIENCE) == 77, "a viewer is no host"
    machine.kill_daemon()
    with configured(machine, *PATIENT, "[host]", "lease = 3600", "retain = 1h"):
        machine.start_daemon(url=urls["host"])
    rights_of_calls(urls)
    store = stores.connect(urls["operator"])
    incarnation = incarnation_of(store, "roles")
    viewer = Viewer(stores.connect(urls["viewer"]), incarnation)
    wait_for(lambda: "got hello" in seen(viewer))  # a viewer follows
    assert fleet(urls["operator"], "kill", "--patience", str(PATIENCE), "roles")[0] == 0, "an operator kills"
    assert host.wait(PATIENCE) == 129, f"and the host ends with it: {host.returncode}"
    assert 0 < store.ttl(key(incarnation, "bytes")) <= 3600, "whose keys stay for an hour"


def rights_of_commands(urls):
    assert fleet(urls["viewer"], "type", "--enter", "roles", "hello")[0] == 77, "a viewer cannot type"
    types = OnTerminal(urls["viewer"], "view", "--type", "roles")
    wait_for(lambda: types.has(b"answered"))
    os.write(types.master, b"x")
    wait_for(lambda: types.has(b"not typed: "))  # and is told so on the terminal
    os.write(types.master, b"\x1d")
    assert types.status() == 0, "and goes on looking"
    assert fleet(urls["typist"], "type", "--enter", "roles", "hello")[0] == 0, "a typist can"
    wait_for(lambda: "got hello" in fleet(urls["viewer"], "text", "roles")[1])  # and the program reads it
    assert fleet(urls["typist"], "kill", "roles")[0] == 77, "but sends no signal"
    assert fleet(urls["typist"], "resize", "roles", "90x30")[0] == 77, "and no size"
    assert fleet(urls["operator"], "resize", "--patience", str(PATIENCE), "roles", "90x30")[0] == 0, "an operator does"
    assert fleet(urls["viewer"], "end", "--force", "roles")[0] == 77, "a viewer ends nothing"


def rights_of_calls(urls):
    spoilt = [("SET", f"fleet:{'a' * 16}:keys", "x"), ("SET", "fleet:lease:x:keys", "x"), ("XADD", "fleet:lease:0123456789:keys", "*", "a", "b")]
    denied = {
        "host": [("FLUSHALL",), ("SET", "other", "x"), ("SET", "fleet:live", "x"), ("DEL", "fleet:all")],
        "viewer": [("SET", "fleet:x:about", "x"), ("XADD", "fleet:x:keys", "*", "a", "b")],
        "typist": [("XADD", "fleet:x:bytes", "*", "a", "b"), ("SET", "fleet:x:about", "x"), *spoilt],
        "operator": [("FLUSHALL",), ("CONFIG", "GET", "*")],
    }
    endless = ("while true do end", "#!lua name=fleet_x\nredis.register_function('x', function() while true do end end)")
    for user in USERS[:-1]:
        denied[user] += [("EVAL", endless[0], 0), ("SCRIPT LOAD", endless[0]), ("FUNCTION LOAD", endless[1]), ("FUNCTION FLUSH",)]
    for user, calls in denied.items():
        for words in calls:
            call = stores.connect(urls[user]).execute_command
            pytest.raises(stores.NoPermissionError, call, *words)
    viewer, calls = stores.connect(urls["viewer"]), [("SET", "fleet:live", "x"), ("GET", "fleet:lease:x")]
    pytest.raises(stores.NoPermissionError, viewer.run_all, calls)
    refused, answer = viewer.run_all(calls, are_one=False)
    assert isinstance(refused, stores.NoPermissionError) and answer is None, "what one session of a daemon may not do is no matter of others"


def state_of(name="other", incarnation="", version=wire.VERSION, encoding="dec", terminal="vt220", screen="80x24", base="0", end="0", last="0"):
    """Returns the state of a keeper. `last` is the id of the last input of each stream, as its two numbers."""
    words = (version, name, incarnation, "1", encoding, terminal, screen, base, end, *[last] * 4, "true")
    return wire.framed(wire.STATE, "".join(f"{word}\0" for word in words).encode("utf-8", "surrogateescape"))


def sent_by_another(machine, *frames, user=65534):
    """Sends frames to the daemon as another user, and returns the process, which has the connection until it is killed."""
    code = "import socket, sys; s = socket.socket(socket.AF_UNIX); s.connect(sys.argv[1]); s.sendall(sys.stdin.buffer.read()); print(s.recv(9)[:1].decode(), flush=True); s.recv(1)"
    as_user = ["setpriv", f"--reuid={user}", "--clear-groups"] if os.getuid() == 0 else []
    made = ending(subprocess.Popen([*as_user, sys.executable, "-c", code, machine.where()["FLEET_DAEMON"]], stdin=subprocess.PIPE, stdout=subprocess.PIPE))
    with contextlib.suppress(BrokenPipeError):
        made.stdin.write(b"".join(frames))
        made.stdin.close()
    return made


EXTREME = (0, 1, (1 << 31) - 1, 1 << 32, (1 << 53) + 1, (1 << 63) - 1, 1 << 63, (1 << 64) - 1)


def well_formed(chance, names):
    """Returns the frames of a keeper with extreme numbers, and names and incarnations of others among them."""
    numbers = [chance.choice(EXTREME) for _ in range(3)]
    incarnation = chance.choice(["", "0" * 16, "f" * 16, "ZZ", *names.values()])
    state = state_of(chance.choice([*names, "new", "x" * 200]), incarnation, base=numbers[0], end=chance.choice([numbers[0], *EXTREME]), last=numbers[1])
    letters = (wire.BYTES, wire.RESIZED, wire.CHECKPOINT, wire.JUMP, wire.TAKEN, wire.ENDED, b"?")
    data = (b"", b"x", b"80x24", b"1x1", b"0", b"255", b"9" * 30, b"\0\033c", b"90x30\0\033c")
    return [state, *(wire.packed(chance.choice(letters), chance.choice(EXTREME), chance.choice(data)) for _ in range(3))]


def test_another_user_harms_no_session(machine):
    """Well-formed frames with extreme numbers, names and incarnations of others, by another user, beside sessions that go on, and over restarts of the daemon."""
    place, chance = machine.where()["FLEET_DAEMON"], random.Random(1)
    with configured(machine, *PATIENT, "[host]", "lease = 3600"):
        sessions = [Told(machine, f"victim-{number}", b"0123456789\r\n" * 40) for number in range(3)]
        os.chmod(machine.folder, 0o711)
        names = {each.name: each.incarnation for each in sessions}
        for number in range(5):
            others = [sent_by_another(machine, *well_formed(chance, names)) for _ in range(12)]
            for each in sessions:
                each.type(b"%d;" % number)
                assert each.go_on(3), f"{number}: {each.name} goes on"
                wait_for(lambda: each.read("keys") == each.typed)
            machine.kill_daemon()
            others += [sent_by_another(machine, state_of(each.name)) for each in sessions if local.is_listening(place)]
            machine.start_daemon()
            others += [sent_by_another(machine, state_of(each.name, chance.choice(["", each.incarnation])), wire.packed(wire.BYTES, 1, b"!")) for each in sessions]
            for each in others:
                each.kill()
        for each in sessions:
            assert incarnation_of(each.store, each.name) == names[each.name], "each is still itself"
            each.go_on(each.steps)
            each.type(b"q")
        for each in sessions:
            assert each.hold(), f"{each.name}: its log is whole"


def test_what_is_no_keeper_harms_no_session(machine):
    """It is refused or left, and the daemon goes on."""
    host, store, incarnation = begun(machine, "good", ["sh", "-c", ANSWERS], "--input")

    def connected():
        made = socket.socket(socket.AF_UNIX)
        made.settimeout(PATIENCE)
        made.connect(machine.where()["FLEET_DAEMON"])
        return made

    machine.daemon.send_signal(signal.SIGSTOP)
    silent = [connected() for _ in range(300)]  # all keepers of a machine may come at once
    machine.daemon.send_signal(signal.SIGCONT)
    strange = [b"x" * 100, wire.HEAD.pack(wire.STATE, wire.LONGEST + 1), wire.framed(wire.STATE), wire.packed(wire.BYTES, 1, b"x"), state_of(version="6")]
    strange += [state_of(each) for each in ("a\nb", "\udcff", "x" * 300, "good")] + [state_of(encoding="utf-7"), state_of(incarnation="ZZ")]
    strange += [state_of(screen=each) for each in ("1x24", "80x256", "x", "-80x24")]
    strange += [state_of(f"wrong{at}", **each) for at, each in enumerate(({"base": 1 << 63}, {"base": -1}, {"base": 2, "end": 1}, {"last": 1 << 64}, {"last": "9" * 300}, {"last": "x"}))]
    strange += [state_of(f"frame{at}") + each for at, each in enumerate((wire.packed(wire.RESIZED, 1, b"1x24"), wire.packed(wire.RESIZED, 0, b"90x30"), wire.packed(wire.BYTES, 5),
                wire.packed(wire.BYTES, 1, b"xx"), wire.packed(wire.BYTES, 1 << 63, b"x"), wire.framed(wire.TAKEN), wire.packed(wire.ENDED, 0, b"x"), wire.packed(wire.JUMP, 1, b"1x1\0")))]
    for number, data in enumerate(strange):
        with connected() as made:
            made.sendall(data)
            answer = b""  # in one part or more: what was taken before is told apart
            while wire.REFUSED not in answer and (part := made.recv(4096)):
                answer += part
            assert wire.REFUSED in answer, f"{number} is refused: {data[:40]}"
    Typist(store, incarnation).type(b"hello\r")
    wait_for(lambda: b"got hello" in written(store, "good"))  # the session goes on
    assert machine.daemon.poll() is None and host.poll() is None, "and so does the daemon"
    for each in silent:
        each.close()


def test_what_waits_of_a_keeper_has_a_bound(machine):
    """It sends many small frames while the store takes nothing, and reads nothing."""
    mine, other = socket.socketpair()
    events, state = select.epoll(), state_of()[wire.HEAD.size :]
    daemon = types.SimpleNamespace(shared=stores.connect(machine.url), chosen=config.Host(), me="me", wake=lambda: None)
    link = Link(mine, events)
    flooded, frame = Program(daemon, link, wire.State(state), None), wire.packed(wire.CHECKPOINT) * 1000
    other.setblocking(False)
    with contextlib.suppress(BlockingIOError):
        while other.send(frame):
            while events.poll(0):
                for letter, data in link.hear():
                    flooded.hear(letter, data)
    most = flooded.came.qsize()
    assert 1000 < most < wire.WAITING // 100, f"it isn't read on: {most} frames wait"
    while not events.poll(0):
        flooded.next_part()
    assert flooded.came.qsize() > most / 2, "until some of it is stored"
    for _ in range(2 * wire.WAITING // 1000):
        link.say(b"x" * 1000)
    assert not link.out, "what it doesn't read is dropped"
    other.setblocking(True)
    while other.recv(1 << 20):  # with the connection
        pass


def false_frames(chance):
    """Returns what no daemon says, but for what ends a program."""
    ids = [each for each in EXTREME if each < 1 << 63]
    head = wire.ENTRY.pack(chance.choice((0, 1, 2, 255)), chance.choice(ids), chance.choice(ids))
    frames = [wire.packed(chance.choice((wire.FROM, wire.KEPT, b"?")), chance.choice(EXTREME), b"x" * chance.randrange(3)) for _ in range(4)]
    frames += [wire.framed(wire.SIGNAL, head + b"\0"), wire.framed(wire.SIZE, head + chance.choice((b"", b"1x1", b"90x30", b"999x999", b"2x2"))), wire.framed(wire.NAMED, b"0" * 16), wire.framed(chance.choice((wire.FROM, wire.KEPT)), b"short")]
    return chance.sample(frames, len(frames)) + [chance.choice((b"", b"A", wire.HEAD.pack(b"I", 1 << 30), chance.randbytes(40)))]


def connections_until_full(path):
    """Yields connections that wait to be accepted, until there is no room for another one."""
    with contextlib.suppress(BlockingIOError):
        while True:
            made = socket.socket(socket.AF_UNIX)
            made.setblocking(False)
            made.connect(path)
            yield made


def test_what_is_no_daemon_harms_no_program(machine):
    """The keeper waits while it has no room, leaves it, and comes again, also before it was named. The next daemon publishes the session."""
    path, chance = machine.where()["FLEET_DAEMON"], random.Random(2)
    with socket.socket(socket.AF_UNIX) as listener:
        listener.bind(path)
        listener.listen(0)
        listener.settimeout(PATIENCE)
        others = list(connections_until_full(path))
        host = launched(machine, "host", "--input", "bold", "--", "sh", "-c", ANSWERS, stderr=subprocess.PIPE, text=True)
        assert "no room yet" in host.stderr.readline(), "it finds no room, and waits"
        for each in others:
            listener.accept()[0].close()
            each.close()
        for number in range(40):
            with listener.accept()[0] as link:
                assert link.recv(1 << 16).startswith(wire.STATE), "it says its state"
                with contextlib.suppress(ConnectionError):
                    link.sendall(b"" if number == 0 else wire.framed(wire.NAMED, b"0" * 16) + wire.packed(wire.FROM) + b"".join(false_frames(chance)))
                    link.shutdown(socket.SHUT_WR)
                    while link.recv(1 << 16):
                        pass
    os.unlink(path)
    machine.start_daemon()
    assert wait_for(lambda: fleet(machine.url, "text", "bold")[1].startswith("on")) and host.poll() is None, "it goes on, and is published"
    host.terminate()
    assert host.wait(PATIENCE) == 129, f"and ends: {host.returncode}"


ATTACK = r"""cat %s /proc/*/environ; KEEP_DIR=$(mktemp -d) %s publish -- %s 0 1 4096 C dec vt220 80x24 victim true; echo "status $?"; read x; kill -9 -1; echo survived"""


def test_a_session_reaches_no_other_and_no_password(machine):
    """A program under a user of its own, as the units give it one, reads what it may, takes another session's name, and kills all that it may."""
    if os.getuid() != 0:
        print("not tried: it needs root, for sessions of several users")
        return
    first, place, password = 10**6 + 100 * random.randrange(10**6), os.path.join(machine.folder, "of-daemon"), conf(machine, "password", "secret")
    daemon, victim, attacker = range(first, first + 3)
    where = os.environ | machine.where() | {"FLEET_DAEMON": f"{place}/socket"}
    store = stores.connect(machine.url, password)
    stores.connect(machine.url).config_set("requirepass", "secret")
    os.mkdir(place)
    for path, mode, owner in ((machine.folder, 0o711, 0), (machine.socket, 0o777, 0), (os.environ["FLEET_CONFIG"], 0o644, 0), (place, 0o755, daemon), (password, 0o400, daemon)):
        os.chmod(path, mode)
        os.chown(path, owner, owner)

    def runs(user, *words, **more):
        as_user = ["setpriv", f"--reuid={user}", f"--regid={user}", "--clear-groups", local.PYTHON, local.COMMAND, *words]
        return ending(subprocess.Popen(as_user, env=where | more, stdout=subprocess.DEVNULL, stderr=subprocess.DEVNULL))

    serves = runs(daemon, "daemon", FLEET_PASSWORD_FILE=password)
    wait_for(lambda: local.is_listening(f"{place}/socket"))
    lives = runs(victim, "host", "--input", "victim", "sh", "-c", ANSWERS)
    wait_for(lambda: b"on" in written(store, "victim"))
    attacks = runs(attacker, "host", "--input", "attacker", "sh", "-c", ATTACK % (password, os.path.realpath(KEEPER), f"{place}/socket"))
    wait_for(lambda: b"status 5" in written(store, "attacker"))  # another user's name
    session = incarnation_of(store, "attacker")
    Typist(store, session).type(b"\r")
    assert attacks.wait(PATIENCE) == -9, "its keeper ends with it"
    wait_for(lambda: store.hget(key(session, "about"), "closed") == b"lost")
    said = written(store, "attacker")
    assert b"secret" not in said and b"denied" in said and b"survived" not in said, f"it reads no password: {said}"
    Typist(store, incarnation_of(store, "victim")).type(b"hello\r")
    wait_for(lambda: b"got hello" in written(store, "victim"))
    assert serves.poll() is None and lives.poll() is None, "the daemon and the other session live"


def certify(at):
    """Makes a key, and a certificate that nobody else vouches for."""
    words = "openssl req -x509 -newkey rsa:2048 -nodes -days 2 -subj /CN=127.0.0.1 -addext subjectAltName=IP:127.0.0.1"
    subprocess.run([*words.split(), "-keyout", f"{at}/key", "-out", f"{at}/cert"], check=True, capture_output=True)


def test_tls_is_spoken(machine, data):
    name, port, at = "TLS", free_port(), machine.folder
    certify(at)
    machine.kill()
    words = f"--tls-port {port} --bind 127.0.0.1 --tls-cert-file {at}/cert --tls-key-file {at}/key --tls-ca-cert-file {at}/cert"
    machine.start(*words.split(), "--tls-auth-clients", "no")
    stores.connect(machine.url).config_set("requirepass", "pw")
    url = f"rediss://:pw@127.0.0.1:{port}?ssl_ca_certs={at}/cert"
    source = Source(url, name).send(data).end(0)
    assert fleet(url, "text", name)[1] == played(source.sent)[0].text(), "the command"
    quick = conf(machine, "quick", "[store]", "timeout = 60", "give-up = 1")
    status, _, said = fleet(f"rediss://:pw@127.0.0.1:{port}", "check-store", config=quick)
    assert status == 69 and "certificate" in said.lower(), f"a certificate that nobody vouches for is refused: {said[:200]}"
