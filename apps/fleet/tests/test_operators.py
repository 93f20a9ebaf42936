"""What an operator does: list, kill, end, type, look, export; exit statuses, configuration, metrics."""
import base64
import glob
import gzip
import json
import os
import re
import socket
import subprocess
import tempfile
import threading
import types

from harness import (
    HERE, PATIENCE, PATIENT, OnTerminal, Proxy, Source, another_daemon, asked, begun, commands, conf, configured, fleet, fleet_bytes, free_port, key,
    keys, local, metrics_at, program, state, stores, text_of, wait_for, wanted, written,
)
from fleet import metrics
from fleet.cli import impatient
from fleet.config import Settings
from fleet.metrics import DaemonMetrics, WholeFleet, server
from fleet.operate import Typist

UNITS = os.path.join(HERE, "..", "systemd")


def is_there(pid):
    """Returns whether a process runs."""
    try:
        with open(f"/proc/{pid}/stat") as stat:
            return stat.read().rpartition(")")[2].split()[0] not in "ZX"
    except FileNotFoundError:
        return False


def test_run_leaves_nothing_when_it_is_killed(machine):
    """By a signal that it can't handle."""
    words = [local.PYTHON, local.COMMAND, "run"]
    runs = subprocess.Popen(words, env=os.environ | {"TMPDIR": machine.folder}, stderr=subprocess.PIPE, text=True)
    url = next(found[1] for found in map(re.compile(r"export FLEET_REDIS=(\S+)").match, runs.stderr) if found)
    assert stores.connect(url).ping(), "its store lives"
    with open(f"/proc/{runs.pid}/task/{runs.pid}/children") as children:
        started = [int(each) for each in children.read().split()]
    assert len(started) == 2 and all(map(is_there, started)), f"a store and a host daemon: {started}"
    runs.kill()
    runs.wait()
    wait_for(lambda: not any(map(is_there, started)))  # they end with it


def test_a_list_asks_little_of_sessions_that_ended(machine):
    """A store may have thousands of them."""
    store = stores.connect(machine.url)
    for number in range(60):
        Source(machine.url, f"job-{number}").end(0)
    for name in ("lives", "bad"):
        Source(machine.url, name)
    before = commands(store)["cmdstat_hmget"]
    status, out, _ = fleet(machine.url, "list")
    shown = sorted(line.split()[0] for line in out.splitlines())  # two that begin in one millisecond are in any order
    assert status == 0 and shown == ["NAME", "bad", "lives"], f"they aren't listed: {out}"
    asked = commands(store)["cmdstat_hmget"] - before
    assert asked == 2, f"nor read: {asked}"
    assert len(fleet(machine.url, "list", "--all")[1].splitlines()) == 63, "but with --all"
    facts = WholeFleet(stores.connect(machine.url)).look()
    assert (facts["ended"], len(facts["listed"])) == (60, 2), "the metrics count them"


def test_list_and_metrics_tell_how_sessions_are(machine, data):
    url, strange = machine.url, "bad\u00e4 <b>&"
    store = stores.connect(url)
    Source(url, "runs").send(b"abc")
    Source(url, "gone").send(b"x")
    store.delete(keys.lease("gone"))
    Source(url, "over").end(3)
    bad = Source(url, strange)
    store.hset(bad.part("about"), "seen", "\033[31m")
    states = {"runs": "running", "gone": "no host", "over": "ended 3", strange: "fault"}
    assert {name: state(store, name)["state"] for name in states} == states and state(store, "runs")["size"] == 3
    status, out, said = fleet(url, "list", "--all")
    lines = out.splitlines()
    assert status == 0 and lines[0].split() == "NAME STATE HOST SIZE SCREEN LAST OUTPUT".split(), "a table"
    assert len(lines) == 5 and "Wrong: " in said and "\033" not in out + said, f"a line for each, and the fault: {len(lines)} {said}"
    assert "over" not in fleet(url, "list")[1], "ended ones only with --all"
    listed = [json.loads(line) for line in fleet(url, "list", "--all", "--json")[1].splitlines()]
    assert {each["name"] for each in listed} == set(states), "JSON"
    whole, metrics.SILENT = WholeFleet(stores.connect(url, socket_timeout=2)), 0.2
    served = server(whole, "127.0.0.1:0")
    metrics.SILENT = 10.0
    threading.Thread(target=served.serve_forever, daemon=True).start()
    port = served.server_address[1]
    with socket.create_connection(("127.0.0.1", port), PATIENCE) as silent:
        assert silent.recv(1) == b"", "a connection that asks nothing is closed"
    assert asked(port, "healthz") == (200, "ok\n"), "it is well"
    found = metrics_at(port)
    wanted = {f'fleet_states{{state="{each}"}}': 1 for each in ("running", "no host", "fault", "ended")}
    wanted |= {'fleet_session_faults{fault="Wrong"}': 1, "fleet_store_up": 1}
    assert wanted.items() <= found.items() and found["fleet_store_round_trip_seconds"] > 0, str(found)
    machine.kill()
    whole.read, whole.store.patience = -1e9, 0.1
    assert asked(port, "healthz")[0] == 503 and "fleet_store_up 0.0" in asked(port, "metrics")[1], "without a store"
    assert impatient(Settings(conf(machine, "ever", "[store]", "give-up = never"))).patience <= 2, "Prometheus waits no longer"
    machine.start()
    served.shutdown()


def test_kill_end_and_their_statuses(machine, data):
    url = machine.url
    host, store, _ = begun(machine, "runs", ["sh", "-c", "echo on; while read x; do echo got $x; done; exit 9"])
    assert fleet(url, "end", "runs")[0] == 6, "a session whose host lives isn't ended: 6"
    patiently = ("--patience", str(PATIENCE))
    assert fleet(url, "kill", *patiently, "runs")[0] == 0 and host.wait(PATIENCE) == 129, f"kill hangs up: {host.returncode}"
    wait_for(lambda: state(store, "runs")["state"] == "ended 129")  # the session has the program's status
    host, *_ = begun(machine, "stubborn", ["sh", "-c", "trap '' HUP TERM; echo on; while :; do sleep 0.1; done"])
    assert fleet(url, "kill", "--signal", "TERM", "--patience", "1", "stubborn")[0] == 6, "one that minds no signal: 6"
    assert fleet(url, "kill", "--signal", "KILL", *patiently, "stubborn")[0] == 0, "but KILL"
    assert host.wait(PATIENCE) == 137, f"which its host's status shows: {host.returncode}"
    machine.kill_daemon()
    with configured(machine, *PATIENT, "[host]", "lease = 1"):
        machine.start_daemon()
        program(machine, "lost", ["sleep", "infinity"])
    wait_for(lambda: state(store, "lost"))
    machine.kill_daemon()
    wait_for(lambda: state(store, "lost")["state"] == "no host", 0.2)  # a daemon that was killed
    assert fleet(url, "kill", "lost")[0] == 6, "nobody is there to pass a signal on: 6"
    incarnation = state(store, "lost")["incarnation"]
    assert fleet(url, "end", "--keep", "2h", "lost")[0] == 0, "it is ended"
    assert state(store, "lost")["state"] == "ended ended", "as ended by an operator"
    assert all(0 < store.ttl(key(incarnation, part)) <= 7200 for part in ("about", "bytes")), "its keys stay two hours"
    assert fleet(url, "end", "--keep", "0", "lost")[0] == 0, "or go at once"
    assert store.keys(f"fleet:{incarnation}:*") == [key(incarnation, "about").encode()], "but for a note that it was ended"
    assert fleet(url, "text", "lost")[0] == 3 and fleet(url, "view", "nosuch")[0] == 3, "no such session: 3"
    machine.start_daemon()
    wait_for(lambda: not machine.keepers())  # its program is hung up on by the next daemon
    store.xtrim(Source(url, "cut").send(b"a").send(b"b").part("bytes"), maxlen=0)
    assert fleet(url, "text", "cut")[0] == 4, "text of one that has lost its bytes: 4"


def test_a_host_ends_also_without_a_store(machine):
    with configured(machine, "[store]", "timeout = 60", "give-up = 1"):
        host, *_ = begun(machine, "no store", ["sh", "-c", "echo on; exec sleep infinity"], stderr=subprocess.PIPE, text=True)
    machine.kill()
    host.terminate()
    said = host.communicate(timeout=PATIENCE)[1]
    assert host.returncode == 69, f"it gives up: {host.returncode}"
    assert "Traceback" not in said and said.splitlines()[-1].startswith("fleet: "), f"and says why in a line: {said}"
    machine.start()


def test_viewers_type_in_order_and_once(machine):
    """Through a link that swallows answers: what is typed is there once, in order."""
    name, proxy = "type", Proxy(machine, 0.05)
    _, store, incarnation = begun(machine, name, ["sh", "-c", 'stty -echo; echo on; while read x; do echo "$x"; done'], "--input")
    typists = [Typist(stores.connect(proxy.url), incarnation) for _ in range(2)]
    for number in range(60):
        typists[number % 2].type(b"line %d\r" % number)

    def lines():
        return written(store, name).replace(b"\r", b"").split(b"\n")[1:-1]

    wait_for(lambda: len(lines()) >= 60)
    assert lines() == [b"line %d" % number for number in range(60)], "once, and in order"
    wait_for(lambda: store.xlen(key(incarnation, "keys")) == 0)  # and doesn't stay in the store
    assert fleet(machine.url, "type", "--enter", name, "\u00e4 by the command")[0] == 0, "the command types"
    wait_for(lambda: b"\xe4 by the command" in lines())  # with the byte of the Supplemental set
    begun(machine, "read-only", ["cat"], says=b"")
    assert fleet(machine.url, "type", "read-only", "x")[0] == 6, "a host without --input takes none: 6"


def test_keys_have_the_form_that_the_program_asked_for(machine):
    """By the command and in a viewer, under LNM, DECCKM, DECKPAM and S8C1T. The bytes are those of the VT220's manual, chapter 3."""
    name, url = "modes", machine.url
    source = Source(url, name, takes_input=True).send(b"\033[20h\033[?1h\033=\033 Gready")
    wanted = b""
    for words, sent in (
        (["--enter", name, "œÿŒ¤é"], b"\xf7\xfd\xd7\xa8\xe9\r\n"),
        ([name, "ls\r\x7f"], b"ls\r\n\x7f"),
        ([name, "\033[A\033OP\033Ou\033[3~\033[29~"], b"\x8fA\x8fP\x8fu\x9b3~\x9b29~"),
    ):
        assert fleet(url, "type", *words)[0] == 0, f"type {words}"
        wanted += sent
        wait_for(lambda: source.keys() == wanted)
    status, _, said = fleet(url, "type", name, "3÷4")
    assert status == 2 and "no key of a VT220 sends '÷'" in said, f"a character without a key: {status}, {said}"
    types = OnTerminal(url, "view", "--type", name)
    wait_for(lambda: types.has(b"ready"))  # a viewer
    for typed, sent in (("œÿé\r".encode(), b"\xf7\xfd\xe9\r\n"), (b"\033[A\033[H\033[3~\x7f", b"\x8fA\x9b1~\x9b3~\x7f"), ("3÷".encode(), b"3")):
        os.write(types.master, typed)
        wanted += sent
        wait_for(lambda: source.keys() == wanted)
    wait_for(lambda: types.has(b"\a"))  # a character without a key rings
    os.write(types.master, b"\x1d")
    assert types.status() == 0 and source.keys() == wanted, "and nothing else was sent"


def test_a_viewer_follows_and_types_on_a_terminal(machine):
    name = "view"
    command = ["sh", "-c", "printf '\\033[1mhello\\033[m'; while read x; do echo \"got $x\"; done; exit 3"]
    host, *_ = begun(machine, name, command, "--input", says=b"hello")
    assert fleet(machine.url, "view", "--type", name)[0] == 2, "keys are read from a terminal: 2"
    types, looks = OnTerminal(machine.url, "view", "--type", name), OnTerminal(machine.url, "view", name)
    wait_for(lambda: types.has(b"\033[0;1mhello"))  # it draws the session
    os.write(types.master, b"by \xc3\xa4 viewer\r")
    wait_for(lambda: "got by ä viewer" in looks.text())  # what one viewer types, the other sees
    another_daemon(machine)
    os.write(types.master, b"after a kill\r")
    wait_for(lambda: "got after a kill" in looks.text())  # over the death of a daemon, too
    os.write(types.master, b"\x1d")
    assert types.status() == 0, "Ctrl-] leaves"
    typed = fleet(machine.url, "type", name, "\x04")
    assert typed[0] == 0 and host.wait(PATIENCE) == 3, "an end of file ends the program"
    assert looks.status() == 0, "and the viewer, at the session's end"


BEGUN = 1_700_000_000_000  # a moment, in milliseconds


def send_at_their_moments(source, *parts):
    """Sends parts by a clock that goes on by 150 ms from one to the next."""
    before = keys.now
    for number, part in enumerate(parts):
        keys.now = lambda: BEGUN + 150 * number
        source.send(part)
    keys.now = before


def test_sessions_are_looked_at_and_exported(machine, data):
    name, url = "export", machine.url
    source = Source(url, name)
    send_at_their_moments(source, data[:2000], b"\x84\x9b7mC1\xe4", data[2000:])
    for when in ("live", "ended"):
        if when == "ended":
            source.end(0)
        sent = source.sent
        for word in ("text", "repaint"):
            assert fleet_bytes(url, word, name)[1] == wanted(word, sent)[1], f"{word}, {when}"
        assert fleet_bytes(url, "log", name)[1] == sent, f"log, {when}"
    head, *events = map(json.loads, fleet(url, "export", name)[1].splitlines())
    assert (head["version"], head["width"], head["height"], head["timestamp"]) == (2, 80, 24, BEGUN / 1000), "an asciicast's head"
    assert "".join(event[2] for event in events).encode("latin-1") == sent, "all bytes"
    times = [event[0] for event in events]
    assert times == sorted(times) and set(times) == {0, 0.15, 0.3}, "at their pace"
    with open("/dev/full", "w") as full:
        done = subprocess.run([local.COMMAND, "text", name], env=os.environ | {"FLEET_REDIS": url}, stdout=full, stderr=subprocess.PIPE, text=True)
    assert (done.returncode, done.stderr) == (1, "fleet: No space left on device\n"), f"what can't be written is said: {done}"
    check_page(name, url, source.sent)


def check_page(name, url, sent):
    """The parts of a page, by a template that has nothing else."""
    with tempfile.NamedTemporaryFile("w") as template:
        template.write("@TITLE@|@PLAYERS@")
        template.flush()
        made = fleet(url, "export", "--page", name, VT220_PAGE=template.name)[1]
    status, out, said = fleet(url, "export", "--page", name, VT220_PAGE="")
    title, players = made.split("|", 1)
    recording = json.loads(re.search(r'<script type="application/json">(.*?)</script>', players, re.S)[1])
    data, chunks = (gzip.decompress(base64.b64decode(recording[part])) for part in ("bytes", "chunks"))
    lines = [tuple(map(int, line.split())) for line in chunks.splitlines()]
    assert title == name and data == sent and sum(size for _, size in lines) == len(sent), "a page has the title and all bytes"
    assert {micros for micros, _ in lines} == {0, 150000, 300000}, "and its pace"
    assert status == 1 and "make js" in said and out == "", "without a template there is no page"


def test_a_daemon_has_metrics(machine):
    """Of a program that writes, then waits for a store that is away, and ends without one."""
    port, steps = free_port(), [os.path.join(machine.folder, each) for each in ("first", "second")]
    waits = ["while [ ! -e %s ]; do sleep 0.05; done" % step for step in steps]
    script = f"printf begins; {waits[0]}; printf ' and on'; {waits[1]}; exit 3"
    with configured(machine, *PATIENT, "[host]", "lease = 3600", f"metrics = 127.0.0.1:{port}"):
        machine.start_daemon()
    host = begun(machine, "host metrics", ["sh", "-c", script], says=b"begins")[0]

    def come(running, ended, is_away, **others):
        """Waits until the metrics are these, and /healthz says the same."""
        wanted = {"fleet_host_refused": 0, 'fleet_host_programs{state="slowed"}': 0, "fleet_store_is_away": is_away}
        wanted |= {'fleet_host_programs{state="running"}': running, 'fleet_host_programs{state="ended"}': ended} | others
        wait_for(lambda: wanted.items() <= metrics_at(port).items())
        assert asked(port, "healthz") == ((503, "the store is away\n") if is_away else (200, "ok\n"))

    come(1, 0, 0, fleet_host_bytes_total=6, fleet_host_lag_bytes=0, fleet_store_outages_total=0)
    machine.kill()
    open(steps[0], "w").close()
    come(1, 0, 1, fleet_host_bytes_total=6)
    wait_for(lambda: metrics_at(port)["fleet_host_lag_seconds"] > 0)  # it begins to send a moment after it has something
    machine.start()
    come(1, 0, 0, fleet_host_bytes_total=13, fleet_host_lag_bytes=0, fleet_host_lag_seconds=0)
    assert metrics_at(port)["fleet_store_outages_total"] > 0, "over a new connection"
    machine.kill()
    open(steps[1], "w").close()
    come(0, 1, 1)
    machine.start()
    assert host.wait(PATIENCE) == 3, f"and so does its keeper: {host.returncode}"
    come(0, 0, 0, fleet_host_bytes_total=13)
    machine.kill_daemon()
    with configured(machine, "[host]", "metrics = 127.0.0.1:99999"):
        machine.start_daemon()
    assert machine.daemon.wait(PATIENCE) == 2, "if there is no such address, the daemon ends"


def test_the_install_of_the_readme_works(machine):
    """The block that installs from the repository: its packages, what it builds, and the command."""
    block = re.search(r"From the repository, on Debian.*\n\n((?:    .*\n)+)", text_of("README.md"))[1]
    lines = [line.split("#")[0].strip() for line in block.splitlines()]
    assert [line.split()[0] for line in lines] == ["apt-get", "make", "ln"], f"three commands: {lines}"
    known = text_of("../../tests/packages.txt").split()
    assert all(each in known for each in lines[0].split()[2:]), "the tests need these packages, too"
    root = os.path.join(HERE, "../../..")
    assert subprocess.run(["make", "-n", *lines[1].split()[1:]], cwd=root, capture_output=True).returncode == 0, "what it builds can be built"
    subprocess.run(["sh", "-c", lines[2].replace("/usr/local/bin", machine.folder)], cwd=root, check=True)
    done = subprocess.run([os.path.join(machine.folder, "fleet"), "--version"], capture_output=True, text=True)
    assert done.stdout.startswith("vt220-fleet "), f"and the command runs: {done}"


def test_alerts_and_documents_name_the_metrics_that_there_are(machine):
    store = stores.connect(machine.url)
    Source(machine.url, "one")
    of_daemon = DaemonMetrics(types.SimpleNamespace(store=store, all=list, stored=lambda: 0))
    families = [*of_daemon.collect(), *WholeFleet(store).collect()]
    known = {name for family in families for name in [*(sample.name for sample in family.samples), family.name]}
    texts = {file: text_of(file) for file in ("alerts.yml", "RUNBOOK.md", "tests/test_gameday.py")}
    used = set(re.findall(r"\bfleet_\w+", texts["alerts.yml"]))
    assert len(used) > 8 and used <= known, f"the alerts are of metrics that there are: {used - known}"
    alerts = re.findall(r"- alert: (\w+)", texts["alerts.yml"])
    assert len(alerts) == len(set(alerts)) == texts["alerts.yml"].count("summary:"), f"each alert has a summary: {alerts}"
    pages = set(re.findall(r"^## (\w+)", texts["RUNBOOK.md"], re.MULTILINE))
    faults = {each.__name__ for each in keys.Fault.__subclasses__() if each.__module__ == keys.__name__} | set(alerts)
    judged = set(re.findall(r'^@day_of\("(\w+)"', texts["tests/test_gameday.py"], re.MULTILINE))
    assert judged == set(alerts), f"the game day has each alert: {judged ^ set(alerts)}"
    assert faults <= pages, f"the runbook has a page for each fault and each alert: {faults - pages}"


def test_the_configuration_is_read_and_checked(machine):
    example = os.path.join(HERE, "..", "fleet.conf.example")
    url = machine.url
    Settings(example)
    wrong = {
        "[stroe]\n": "section",
        "[store]\nurn = x\n": "urn",
        "[host]\nlease = soon\n": "lease",
        "x\n": "",
        "[host]\ninput = maybe\n": "input",
        "[host]\nlease = 0\n": "lease",
        "[host]\nevery = 0\n": "every",
        "[host]\nkeep = -5\n": "keep",
        "[host]\nlinger = never\n": "linger",
        "[host]\nevery = all\n": "every",
        "[web]\nport = 99999\n": "port",
    }
    for number, (text, word) in enumerate(wrong.items()):
        status, _, said = fleet(url, "list", config=conf(machine, f"wrong-{number}", text))
        assert status == 78 and word in said, f"{text!r}: {status} {said}"
    assert fleet(url, "list", config="/nonexistent")[0] == 78, "a file that isn't there"
    quick = conf(machine, "quick", "[store]", "give-up = 1")
    assert fleet(f"unix://{machine.folder}/none", "list", config=quick)[0] == 69, "no store: 69"
    for words in ("web --port 99999", "end --keep -1 x", "kill --patience x y"):
        status, _, said = fleet(url, *words.split())
        assert status == 2 and words.split()[1] in said, f"a number that cannot be: {words}: {status} {said}"
    assert fleet(url, "nosuch")[0] == 2 and fleet(url, "host", "x")[0] == 78, "a wrong command line"
    for bad in ("", "a\nb", "x" * 201, "a\x1b[31m"):
        assert fleet(url, "host", bad, "true")[0] == 2, f"a name that cannot be: {bad!r}"
    for path in glob.glob(os.path.join(UNITS, "*.service")):
        is_session = "-host@" in path
        parts = (path, "systemd/vt220-fleet-.service.d/all.conf", *(() if is_session else ("systemd/store.conf",)))
        text = "".join(map(text_of, parts))
        words = ("ExecStart", "StartLimitIntervalSec", "Restart", "SystemCallFilter", "UMask", "NoNewPrivileges", "ProtectSystem")
        assert all(f"\n{word}=" in text for word in words), f"{path} is started again for ever, and is hardened"
        assert ("\nMemoryMax=" not in text) == is_session, f"{path} has a bound of memory, but no session"
        assert ("\nDynamicUser=yes\nUser=fleet-%i\n" in text) == is_session and ("LoadCredential=" not in text) == is_session, f"{path} has a user of its own"
        assert ("\nOOMPolicy=continue\n" in text) == is_session, f"{path} outlives a program that the kernel ends"
