"""What the tests share: a store, programs that are sessions, and sessions that a test writes into the store itself."""
import contextlib
import os
import pathlib
import pty
import random
import re
import resource
import select
import socket
import subprocess
import sys
import termios
import urllib.error
import urllib.request

sys.dont_write_bytecode = True
HERE = os.path.dirname(os.path.abspath(__file__))
sys.path.insert(0, os.path.join(HERE, ".."))

from fleet import config, keys, local, program as programs, session, store as stores
from fleet.host import Host
from fleet.keys import key
from fleet.operate import Refused, Typist, comes, everything
import vt220

ROOT = os.path.join(HERE, "..", "..", "..")
PROGRAM = os.path.join(ROOT, "crates", "vt220", "out", "vt220")
QUERIES = [b"\033[c", b"\033[5n", b"\033[6n", b"\033[>c", b"\033[?15n", b"\033[?26n"]

# No test depends on how fast the machine is: whatever is waited for comes, or hangs. So every limit of the fleet is a long one, unless
# a test is about its end, and then it sets a short one.
PATIENCE = float(os.environ.get("FLEET_PATIENCE", 300))  # seconds until what is waited for counts as hanging
PATIENT = ["[store]", "timeout = 60", f"give-up = {PATIENCE}"]
stores.TIMEOUT = 60.0
local.LocalStore.under = ("env", "--ignore-signal=XFSZ")  # a file that may grow no more is an error then
KEEPER = programs.keeper()
TELLER = os.path.join(HERE, "teller.py")

ANSWERS = "stty -echo; echo on; while read x; do echo got $x; done; exit 9"  # a program

started = contextlib.ExitStack()  # what a test has started, which ends with it
ports = []  # sockets that hold ports as long as this process lives


def incarnation_of(store, name):
    """Returns the incarnation of a name, once it has one."""
    wait_for(lambda: store.hexists(keys.NAMES, name))
    return store.hget(keys.NAMES, name).decode()


def end_of(store, incarnation):
    """Returns how many bytes of a session the store has taken."""
    return int(store.hget(key(incarnation, "about"), "end") or 0)


def recordings():
    return [path.read_bytes() for path in sorted(pathlib.Path(ROOT, "tests/bench/recordings").glob("*.raw"))]


def text_of(file):
    """Returns the text of a file of the fleet."""
    return pathlib.Path(HERE, "..", file).read_text()


def played(data):
    terminal = vt220.Terminal()
    return terminal, terminal.feed(data)


def wait_for(is_so, pause=0.02):
    """Waits until something is so, and fails if it never is."""
    assert comes(is_so, PATIENCE, pause), "what is waited for doesn't come"
    return True


def commands(store):
    """Returns how often each command was called, also inside functions, without the call that asks."""
    return {name: each["calls"] for name, each in store.info("commandstats").items() if name != "cmdstat_info"}


class Clock:
    """Stands for the module `time`: its time passes when the test says so."""

    now = 1000.0

    def monotonic(self):
        return self.now


class Source:
    """A session that a test writes into the store itself, without a program."""

    def __init__(self, url, name, takes_input=False, lease=3600.0, **language):
        self.store, self.name, self.sent = stores.connect(url), name, b""
        self.host = Host(self.store, name, config.Host(lease=lease), keys.Language(**language), takes_input)
        self.host.register()
        self.incarnation = self.host.incarnation

    def send(self, data, piece=700):
        self.sent += data
        for at in range(0, len(data), piece):
            self.host.append(data[at : at + piece])
        return self

    def resize(self, screen):
        self.host.append(screen.encode(), "screen")
        return self

    def end(self, status=0):
        self.host.finish(status)
        return self

    def keys(self):
        """Returns what was typed: no daemon takes it."""
        return b"".join(fields[b"keys"] for _, fields in self.store.xrange(self.part("keys")))

    def part(self, name):
        return key(self.incarnation, name)


def type_once(typist, word):
    """Types, once the session has a host: its lease may have ended in an outage."""

    def is_typed():
        try:
            typist.type(word)
        except Refused as refused:
            assert "silent" in str(refused), str(refused)
            return False
        return True

    wait_for(is_typed)


class Told:
    """A program that writes bytes, asks for reports and reads keys, as a session. It notes all in files: what it wrote, what reports and what keys it read."""

    def __init__(self, machine, name, data, *words, steps=20, waits=True, **options):
        self.machine, self.name, self.place = machine, name, os.path.join(machine.folder, f"told-{name}")
        os.mkdir(self.place)
        pathlib.Path(self.place, "data").write_bytes(data)
        os.mkfifo(os.path.join(self.place, "goal"))
        self.goals = os.open(os.path.join(self.place, "goal"), os.O_RDWR)  # it holds what the program hasn't read
        started.callback(os.close, self.goals)
        self.store, self.steps, self.goal, self.typed = stores.connect(machine.url), steps, 0, b""
        self.host = program(machine, name, [local.PYTHON, TELLER, self.place, str(steps)], "--input", *words, **options)
        if waits:
            self.begin()

    def begin(self):
        self.incarnation = incarnation_of(self.store, self.name)
        wait_for(lambda: os.path.exists(os.path.join(self.place, "ready")))
        self.typist = Typist(self.store, self.incarnation, PATIENCE)

    def read(self, what):
        path = pathlib.Path(self.place, what)
        return path.read_bytes() if path.exists() else b""

    def type(self, word):
        self.typed += word
        type_once(self.typist, word)

    def aim(self, steps):
        """Has it do so many steps more."""
        self.goal = min(self.steps, self.goal + steps)
        os.write(self.goals, b"%d\n" % self.goal)

    def arrives(self):
        """Waits until it has done its steps."""
        return wait_for(lambda: self.read("steps").count(b".") >= self.goal or self.host.poll() is not None)

    def go_on(self, steps):
        self.aim(steps)
        return self.arrives()

    def hold(self, **language):
        """Holds an ended session against what the program noted: its bytes, its screen, its reports, its keys and its status."""
        sent, store = self.read("sent"), self.store
        self.incarnation = incarnation_of(store, self.name)
        assert self.host.wait(PATIENCE) == 7, f"{self.name}: its status: {self.host.returncode}"
        assert store.hget(key(self.incarnation, "about"), "closed") == b"7", f"{self.name}: in the store: {store.hgetall(key(self.incarnation, 'about'))}"
        terminal = vt220.Terminal(**language)
        assert self.read("reports") == terminal.feed(sent), f"{self.name}: each report once"
        assert self.read("keys") == self.typed, f"{self.name}: each key once, in order: {len(self.read('keys'))} of {len(self.typed)} bytes"
        now = session.as_it_is(store, self.incarnation)
        assert now.terminal.same_state(terminal) and now.at == len(sent), f"{self.name}: the screen, and the place {now.at} of {len(sent)}"
        return b"".join(data for _, _, code, data in session.events_of(store, self.incarnation) if code == "o") == sent


def made_up(chance, pieces):
    """Some recordings cut at random, with questions between."""
    parts = []
    for _ in range(chance.randint(2, 5)):
        whole = chance.choice(pieces)
        begin, end = sorted(chance.randrange(len(whole) + 1) for _ in range(2))
        parts += [whole[begin:end], chance.choice(QUERIES), b"\030" * chance.randint(0, 1)]
    return b"".join(parts)


def wanted(word, data):
    """Returns the program's exit status for bytes, and what it writes."""
    done = subprocess.run([PROGRAM, word], input=data, stdout=subprocess.PIPE, stderr=subprocess.DEVNULL)
    return done.returncode, done.stdout


def ending(process):
    """Has a process end with the case. Returns it."""
    started.callback(process.wait)
    started.callback(process.kill)
    return process


def launched(machine, *words, **options):
    """Starts a command of the fleet on a machine's store."""
    words, where = [local.PYTHON, local.COMMAND, *words], machine.where() | {"KEEP_DIR": os.path.join(machine.folder, "keep")}
    return subprocess.Popen(words, env=os.environ | where, **{"stdout": subprocess.DEVNULL, "stderr": subprocess.DEVNULL} | options)


def fleet(url, *words, config=None, **where):
    """Runs the command. Returns its exit status, and what it wrote as text."""
    status, out, said = fleet_bytes(url, *words, **({"FLEET_CONFIG": config} if config else {}), **where)
    return status, out.decode(), said.decode()


def fleet_bytes(url, *words, **where):
    """Runs the command, with more variables in its environment. Returns its exit status, and the bytes that it wrote."""
    words, where = [local.PYTHON, local.COMMAND, *words], os.environ | {"FLEET_REDIS": url} | where
    done = subprocess.run(words, env=where, stdin=subprocess.DEVNULL, capture_output=True, timeout=PATIENCE)
    return done.returncode, done.stdout, done.stderr


def free_port():
    """Returns a port of this process alone. A socket that doesn't listen holds it, so the kernel gives it to nobody else. Whoever is told
    its number can listen there, as all servers here allow addresses to be used again."""
    one = socket.socket()
    one.setsockopt(socket.SOL_SOCKET, socket.SO_REUSEADDR, 1)
    one.bind(("127.0.0.1", 0))
    ports.append(one)
    return one.getsockname()[1]


def program(machine, name, command, *words, **options):
    """Starts a program as a session of the machine's daemon, which is started if there is none. The process becomes the keeper."""
    if not machine.daemon:
        machine.start_daemon()
    return launched(machine, "host", *words, name, *command, **options)


def begun(machine, name, command, *words, says=b"on", **options):
    """Starts a program as a session, and waits until it has written something. Returns its keeper, the store, and its incarnation."""
    host, store = program(machine, name, command, *words, **options), stores.connect(machine.url)
    wait_for(lambda: says in written(store, name))
    return host, store, incarnation_of(store, name)


def another_daemon(machine):
    """Kills the machine's daemon, and starts another one."""
    machine.kill_daemon()
    machine.start_daemon()


def written(store, name):
    """Returns what a session's program has written so far."""
    incarnation = store.hget(keys.NAMES, name)
    entries = store.xrange(key(incarnation.decode(), "bytes")) if incarnation else []
    return b"".join(fields.get(b"bytes", b"") for _, fields in entries)


def seen(viewer):
    """Returns the text that a viewer shows, once it has played what there is."""
    viewer.ask()
    while viewer.follow(0):
        pass
    return viewer.terminal.text()


def conf(machine, name, *lines):
    """Returns the path of a file of a machine, which is this user's alone and has these lines."""
    path = os.path.join(machine.folder, name)
    with open(path, "w", opener=lambda path, flags: os.open(path, flags, 0o600)) as file:
        print(*lines, sep="\n", file=file)
    return path


@contextlib.contextmanager
def configured(machine, *lines):
    """Has the fleet's processes that start meanwhile read these lines. They may do so later: the file stays as long as the machine."""
    before = os.environ.get("FLEET_CONFIG")
    os.environ["FLEET_CONFIG"] = conf(machine, f"conf-{keys.new_id()}", *lines)
    try:
        yield
    finally:
        os.environ.pop("FLEET_CONFIG") if before is None else os.environ.update(FLEET_CONFIG=before)


def state(store, name):
    return next((each for each in everything(store) if each["name"] == name), None)


class OnTerminal:
    """The command on a terminal of its own, and what it drew there."""

    def __init__(self, url, *words, window=(0, 0)):
        self.window, self.drawn = window, b""
        self.child, self.master = pty.fork()
        if self.child == 0:
            termios.tcsetwinsize(0, window)  # its rows and columns
            os.execve(local.COMMAND, [local.COMMAND, *words], os.environ | {"FLEET_REDIS": url, "TERM": "xterm"})

    def resize(self, rows, columns):
        """Changes the window's size. What was drawn before is forgotten: all is drawn again."""
        self.has(b"")
        self.window, self.drawn = (rows, columns), b""
        termios.tcsetwinsize(self.master, self.window)

    def has(self, wanted):
        while select.select([self.master], [], [], 0.02)[0]:
            try:
                self.drawn += os.read(self.master, 65536)
            except OSError:
                break
        return wanted in self.drawn

    def text(self):
        """Returns what an xterm shows after what was drawn, which has no spaces where spaces were."""
        self.has(b"")
        screen = vt220.Terminal(terminal="xterm", rows=self.window[0] or 24, columns=self.window[1] or 80)
        screen.feed(self.drawn)
        return screen.text()

    def status(self):
        wait_for(lambda: self.has(b"\033[?1049l"))
        return os.waitstatus_to_exitcode(os.waitpid(self.child, 0)[1])


def asked(port, what):
    """Returns the status and the text of a page."""
    try:
        with urllib.request.urlopen(f"http://127.0.0.1:{port}/{what}", timeout=PATIENCE) as answer:
            return answer.status, answer.read().decode()
    except urllib.error.HTTPError as refused:
        return refused.code, refused.read().decode()


def metrics_at(port):
    """Returns the metrics of a process, by their names with labels."""
    lines = (line.rsplit(" ", 1) for line in asked(port, "metrics")[1].splitlines() if not line.startswith("#"))
    return {name: float(value) for name, value in lines}


def file_of(machine):
    """Returns the path of the file to which a machine's store appends."""
    return next(pathlib.Path(machine.folder, "appendonlydir").glob("*.incr.aof"))


def cut_back(machine, is_enough):
    """Kills the store, drops changes at the end of its file until something is no longer there, and starts it again."""
    machine.kill()
    whole = file_of(machine).read_bytes()
    commands = [m.start() for m in re.finditer(rb"\*1\r\n\$5\r\nMULTI\r\n", whole)]
    file_of(machine).write_bytes(whole[: next((at for at in reversed(commands) if is_enough(whole[at:])), commands[0])])
    machine.start()


def end_all(sessions, is_whole=True):
    """Has sessions go on to their ends, and holds them against what they noted."""
    for each in sessions:
        each.go_on(each.steps)
        each.type(b"q")
    for each in sessions:
        assert each.hold() or not is_whole, f"{each.name}: its log is whole"


def fill_disk(machine):
    """Has the file of a machine's store grow no more, as on a full disk. The store ends at the next write, also when it is started again without room."""
    most, store, under = file_of(machine).stat().st_size + 100, stores.connect(machine.url), machine.under
    store.patience = 0
    resource.prlimit(machine.server.pid, resource.RLIMIT_FSIZE, (most, resource.RLIM_INFINITY))
    for is_last in (False, True):
        while machine.server.poll() is None:
            with contextlib.suppress(stores.RedisError):
                store.append("filler", "x" * 100)
        if not is_last:
            machine.under = ("prlimit", f"--fsize={most}", *under)
            machine.launch()
    machine.under = under


def shimmed(machine):
    """Starts the machine's store with a clock that a file moves."""
    library, file = os.path.join(machine.folder, "clock.so"), os.path.join(machine.folder, "clock")
    subprocess.run(["gcc", "-O2", "-shared", "-fPIC", "-o", library, os.path.join(HERE, "clock.c")], check=True)
    machine.kill()
    machine.under = ("env", f"LD_PRELOAD={library}", f"CLOCK_FILE={file}", *machine.under)
    machine.start()

    def move(seconds):
        with open(file + ".new", "w") as moved:
            moved.write(str(seconds))
        os.replace(file + ".new", file)

    return move


def proportional(pid):
    """Returns the memory of a process in bytes: of what it shares its part."""
    with open(f"/proc/{pid}/smaps_rollup") as said:
        return next(int(line.split()[1]) * 1024 for line in said if line.startswith("Pss:"))


class Proxy:
    """A link to a machine's store that a test can harm."""

    def __init__(self, machine, share=0.0):
        self.socket = os.path.join(machine.folder, f"proxy-{random.randrange(10**9)}.sock")
        self.url = f"unix://{self.socket}"
        self.words = [local.PYTHON, os.path.join(HERE, "proxy.py"), self.socket, machine.socket, str(share)]
        self.start()

    def start(self):
        self.process = ending(subprocess.Popen(self.words, stdout=subprocess.PIPE))
        wait_for(lambda: os.path.exists(self.socket))

    def signal(self, number):
        """Sends a signal, and waits until it is taken: two of one number that come at once would be one."""
        self.process.send_signal(number)
        self.process.stdout.readline()
