"""What the tests of the session keeper share: sessions, windows of tmux, and clients that speak the protocol themselves."""
import contextlib
import fcntl
import os
import pathlib
import pty
import re
import shutil
import signal
import socket
import struct
import subprocess
import tempfile
import termios
import time

PATIENCE = 300  # seconds until what is waited for counts as hanging; no test depends on less
TOP = pathlib.Path(__file__).resolve().parents[3]
PROGRAM = str(TOP / "crates/vt220/out/vt220")
VERSION = re.search(r'^#define KEEP_VERSION "(.*?)"', (TOP / "apps/keep/keep.h").read_text(), re.M)[1]
# The directory of the test that runs. It has two copies of the keeper that is tested.
ROOM = pathlib.Path(tempfile.gettempdir()) / f"keeper-{os.getpid()}"
KEEP, NEWER = str(ROOM / "vt220-keep"), str(ROOM / "newer")
FOLDER = ROOM / "folder"
BOOT = pathlib.Path("/proc/sys/kernel/random/boot_id").read_text().strip()
SOCKETS = FOLDER / BOOT
# A keeper's working directory. If a shell is passed to it as its new program, it finds this script there.
SCRIPT = SOCKETS / "resume"
FOUND = ROOM / "found"
ENVIRONMENT = {name: value for name, value in os.environ.items() if name not in ("TMUX", "TMUX_PANE", "KEEP_KEY", "KEEP_SESSION", "KEEP_LINGER", "KEEP_PATIENCE")}
ENVIRONMENT |= {"KEEP_DIR": str(FOLDER), "LC_ALL": "C", "SHELL": "/bin/sh", "HOME": str(ROOM), "PS1": "$ "}
# Keepers and clients wait for each other as long as a test does. Where their own limit is tested, the test gives them a short one.
ENVIRONMENT |= {"KEEP_LINGER": "86400", "KEEP_PATIENCE": str(PATIENCE)}
SHORT = {"KEEP_PATIENCE": "1"}
# The sanitizers write what they find to files. They don't look for leaks: a client that is ended while it does stays for ever. They keep no
# freed memory, since tests measure the memory of keepers.
ENVIRONMENT |= {"ASAN_OPTIONS": f"exitcode=99:detect_leaks=0:quarantine_size_mb=0:thread_local_quarantine_size_kb=0:log_path={FOUND}/asan",
                "UBSAN_OPTIONS": f"exitcode=99:log_path={FOUND}/ubsan"}
opened, hasty = [], set()  # what a test has open, and the sessions that have little patience


def begin(program):
    """Makes the directory of a test of this keeper."""
    ROOM.mkdir()
    FOUND.mkdir()
    for place, mode in ((ROOM, 0o755), (FOUND, 0o777)):  # other users run the keeper, too
        place.chmod(mode)
    for copy in (KEEP, NEWER):
        shutil.copy(program, copy)


def finish():
    """Ends all that a test left, also sessions that the list leaves out, since their end was shown. Each session that is listed must end when it is
    told to, no keeper may stay, and the sanitizers must have found nothing."""
    for it in reversed([*opened]):
        it.close()
    for pid in running():
        with contextlib.suppress(ProcessLookupError):
            os.kill(pid, signal.SIGCONT)
    refused = [name for name in rows() if name not in hasty and keep("kill", name).returncode != 0]
    for each in SOCKETS.glob("*"):
        keep("kill", each.name, env=ENVIRONMENT | SHORT)
    tmux("kill-server")
    is_clean, listed = until(lambda: not [*running()]), keep("list").stdout
    found = "".join(file.read_text(errors="replace") for file in FOUND.iterdir())
    for pid in running():
        with contextlib.suppress(ProcessLookupError):
            os.kill(pid, signal.SIGKILL)
    hasty.clear()
    shutil.rmtree(ROOM)
    assert not found, f"the sanitizers found something:\n{found}"
    assert (refused, listed) == ([], "") and is_clean, "each session ends, and no keeper is left"


def running():
    """The processes whose program is in the directory of the test."""
    for link in pathlib.Path("/proc").glob("[0-9]*/exe"):
        with contextlib.suppress(OSError):
            if os.readlink(link).startswith(f"{ROOM}/"):
                yield int(link.parent.name)


def until(condition):
    end = time.monotonic() + PATIENCE
    while not condition():
        if time.monotonic() > end:
            return False
        time.sleep(0.02)
    return True


def wait(condition, what):
    assert until(condition), what


def keep(*words, **more):
    given = {"env": ENVIRONMENT, "capture_output": True, "text": True, "timeout": PATIENCE} | more
    if given["text"]:
        given["errors"] = "backslashreplace"  # a session's names may be any bytes, and so may what a false keeper replies
    return subprocess.run([KEEP, *words], **given)


def text(name):
    return keep("text", name).stdout


def lines(name):
    return text(name).splitlines()


def repaint(name):
    return keep("repaint", name, text=False).stdout


def rows():
    """What `list --tsv` tells of the sessions, by their names."""
    titles = ("name", "state", "rows", "columns", "attached", "pid", "began", "ended", "status", "words", "encoding", "terminal")
    found = (dict(zip(titles, line.split("\t"))) for line in keep("list", "--tsv").stdout.splitlines())
    return {it["name"]: it for it in found}


def row(name):
    """What `list --tsv` tells of a session, or None."""
    return rows().get(name)


def listed(name):
    """The width of a session, how many are attached, the pid of its command, and its words; None if it has ended."""
    it = row(name)
    return (int(it["columns"]), int(it["attached"]), int(it["pid"]), it["words"]) if it and it["state"] == "running" else None


def attached(name):
    line = listed(name)
    return line and line[1]


def has_ended(name):
    return row(name)["state"] == "ended"


def parent(pid):
    return int(field(pid, 4))


@contextlib.contextmanager
def still(name):
    """Stops a session's command meanwhile, so that its screen stands still."""
    pid = listed(name)[2]
    os.kill(pid, signal.SIGSTOP)
    wait(lambda: field(pid, 3) == "T", f"{name} stands still")
    yield
    os.kill(pid, signal.SIGCONT)


def keeper(name):
    """The pid of a session's keeper."""
    return parent(listed(name)[2])


def program_of(pid):
    return os.readlink(f"/proc/{pid}/exe")


def field(pid, number):
    """A field of /proc/PID/stat, counted as proc(5) does."""
    return pathlib.Path(f"/proc/{pid}/stat").read_text().rpartition(")")[2].split()[number - 3]


def switches(pid):
    """How often a process gave up the processor, or lost it."""
    return re.findall(r"ctxt_switches:\s(\d+)", pathlib.Path(f"/proc/{pid}/status").read_text())


def sleeps(pid, seconds=0.0):
    """Whether a process sleeps at each of many looks, and isn't woken in between for so long."""
    before = switches(pid)
    time.sleep(seconds)
    return all(field(pid, 3) == "S" for _ in range(100)) and switches(pid) == before


def resident(pid):
    return int(pathlib.Path(f"/proc/{pid}/statm").read_text().split()[1]) * os.sysconf("SC_PAGESIZE")


def new(*words, size=None, **settings):
    """Begins a session, of this size if one is given: as 120x40, columns and rows."""
    options = [f"--size={size}"] if size else []
    done = keep("new", *options, *words, env=ENVIRONMENT | settings)
    assert done.returncode == 0, f"new {words}: {done.stderr}"
    if int((ENVIRONMENT | settings)["KEEP_PATIENCE"]) < PATIENCE:
        hasty.add(words[0])


def shell(name, script, *options, **more):
    new(*options, name, "sh", "-c", script, **more)


def reads(name, writes, *options, **more):
    """Begins a program that writes this, as printf has it, and then stores what it reads. Returns the file."""
    got = ROOM / f"got-{name}"
    got.touch()
    shell(name, f"stty raw -echo; printf '{writes}ready'; exec cat >{got}", *options, **more)
    wait(lambda: "ready" in text(name), f"{name} reads")
    return got


def end(name):
    assert keep("kill", name).returncode == 0 and row(name) is None, f"{name} ends"


def replace(name, program=NEWER, **more):
    return subprocess.run([program, "upgrade", name], **{"env": ENVIRONMENT, "capture_output": True, "text": True, "timeout": PATIENCE} | more)


def replaced(name, program=NEWER):
    """The keeper becomes this program, and is still the same process."""
    pid = keeper(name)
    done = replace(name, program)
    assert (done.returncode, done.stdout + done.stderr) == (0, ""), f"{name} becomes another program"
    assert program_of(pid) == program and keeper(name) == pid, f"{name} is that program"


def passed(name, program="/bin/sh"):
    """What a keeper replies to whoever passes it this file as its new program."""
    client = Raw(name, b"u", version=3)
    client.upgrade(program)
    return client.frame()


def form_of(name):
    """The form of the state that a keeper hands over to a new program."""
    form = ROOM / "form"
    SCRIPT.write_text(f"od -An -tu4 -j12 -N4 /proc/self/fd/$1 >{form}; exec {NEWER} resume \"$@\"\n")
    assert passed(name) == (b"A", b""), f"{name} is handed over"
    SCRIPT.unlink()
    return int(form.read_text())


def plays(played, *options):
    """The text that the proved program shows of these bytes."""
    return subprocess.run([PROGRAM, "text", *options], input=played, capture_output=True).stdout.decode()


class Opened:
    """What is closed at the end of a test, if the test doesn't."""

    def __init__(self):
        opened.append(self)

    def close(self):
        if self in opened:
            opened.remove(self)
            self.shut()


class Outer(Opened):
    """A window of tmux in which a shell attaches to a session, and then says the status."""

    count = 0

    def __init__(self, name, columns=80, rows=24, settings="", words="attach", patience=None):
        """A client with little patience begins again if the keeper doesn't answer in time."""
        super().__init__()
        Outer.count += 1
        attaching = f"{settings} {KEEP} {words} {name}"
        if patience is not None:
            attaching = f"until KEEP_PATIENCE={patience} {attaching}; do :; done"
        self.before, self.after = ROOM / f"before-{Outer.count}", ROOM / f"after-{Outer.count}"
        script = f"stty -g >{self.before}; echo BEFORE; {attaching}; echo \"status $?\"; stty -g >{self.after}; exec sleep infinity"
        if not (ROOM / "tmux").exists():
            (ROOM / "tmux.conf").write_text("set -g status off\nset -g default-size 80x24\nset -sg escape-time 0\n")
            tmux("new-session", "-d", "-x", "80", "-y", "24", "sleep infinity")
        self.target = tmux("new-window", "-d", "-P", "-F", "#{pane_id}", "sh", "-c", script).strip()
        self.resize(columns, rows)

    def resize(self, columns, rows):
        tmux("resize-window", "-t", self.target, "-x", str(columns), "-y", str(rows))

    def shown(self):
        return [line.rstrip() for line in tmux("capture-pane", "-p", "-t", self.target).splitlines()]

    def styled(self):
        return tmux("capture-pane", "-e", "-p", "-t", self.target)

    def keys(self, *keys):
        tmux("send-keys", "-t", self.target, *keys)

    def tells(self, what):
        return tmux("display-message", "-p", "-t", self.target, f"#{{{what}}}").strip()

    def client(self):
        """The pid of keep attach, once it runs."""
        shell, found = self.tells("pane_pid"), []

        def is_there():
            found[:] = pathlib.Path(f"/proc/{shell}/task/{shell}/children").read_text().split()
            with contextlib.suppress(FileNotFoundError):
                return found and program_of(found[0]) == KEEP

        wait(is_there, "a client runs")
        return int(found[0])

    def part(self, rows, across, shown, height):
        """Which row and column of a session of this height is the first one shown, and where the hint is that says so: its row and column. It ends
        at the last column that is shown."""
        for at in (0, min(rows, height) - 1):
            found = re.search(rf"\[(\d+)-(\d+)/{height} (\d+)-(\d+)/(\d+)\]$", shown[at].ljust(across))
            if found:
                return int(found[1]) - 1, int(found[3]) - 1, at, found.start()
        return 0, 0, None, None

    def shows(self, name):
        """Whether the window shows the session's screen, or the part of it that its hint names, and nothing else."""
        rows, columns = int(self.tells("pane_height")), int(self.tells("pane_width"))
        shown = self.shown() + [""] * rows
        height, width = int(row(name)["rows"]), int(row(name)["columns"])
        top, left, hint, start = self.part(rows, min(columns, width), shown, height)
        wanted = [line[left : left + columns].rstrip() for line in lines(name)[top : top + rows]]
        wanted += [""] * (rows - len(wanted))
        if hint is not None:
            wanted[hint] = wanted[hint][:start].rstrip()
            shown[hint] = shown[hint][:start].rstrip()
        elif rows < height or columns < width:
            return self.tells("alternate_on") == "1" and (rows < 2 or columns < 20)
        return self.tells("alternate_on") == "1" and shown[:rows] == wanted

    def follows(self, name, what):
        assert until(lambda: self.shows(name)), f"{what}: the outer terminal shows the screen: {self.shown()}, {lines(name)}"

    def detach(self):
        self.keys("C-\\")
        wait(lambda: self.tells("alternate_on") == "0", "it detaches")
        self.close()

    def is_left(self, what, *said):
        """Whether the outer terminal is as it was, with these lines on it."""
        self.is_back(lambda: self.shown()[: 1 + len(said)] == ["BEFORE", *said], what, said)

    def is_ended(self, what, *said):
        """Whether the outer terminal is as it was, with the command's last screen and then these lines on it."""
        self.is_back(lambda: [row for row in self.shown() if row][-len(said) :] == list(said), what, said)

    def is_back(self, shows, what, said):
        assert until(shows), f"{what}: it says {said}: {self.shown()}, {keep('list').stdout}"
        assert self.tells("alternate_on") == "0" and self.tells("cursor_flag") == "1", f"{what}: the screen and the cursor are back"
        wait(lambda: self.after.exists() and self.after.read_text() == self.before.read_text(), f"{what}: the line is as it was")
        self.close()

    def shut(self):
        tmux("kill-window", "-t", self.target)


def tmux(*words):
    command = ["tmux", "-u", "-S", str(ROOM / "tmux"), "-f", str(ROOM / "tmux.conf"), *words]
    done = subprocess.run(command, env=ENVIRONMENT | {"LC_ALL": "C.UTF-8"}, capture_output=True, encoding="utf-8", timeout=PATIENCE)
    return done.stdout


def frame(letter, content=b""):
    return letter + struct.pack("=I", len(content)) + content


def waiting(file):
    """How many bytes wait in a pipe or a socket."""
    return struct.unpack("i", fcntl.ioctl(file, termios.FIONREAD, bytes(4)))[0]


def exactly(peer, count):
    """Reads so many bytes, or fewer if the socket ends. (MSG_WAITALL has no effect on a socket with a limit of time.)"""
    got = b""
    while len(got) < count and (more := peer.recv(count - len(got))):
        got += more
    return got


class Raw(Opened):
    """A client that speaks to the socket itself. It asks with a letter, or sends `first` as it is."""

    def __init__(self, name, letter, flags=0, first=None, version=1):
        super().__init__()
        self.socket = socket.socket(socket.AF_UNIX)
        self.socket.settimeout(PATIENCE)
        self.hello = None
        until(lambda: self.socket.connect_ex(str(SOCKETS / name)) == 0)
        with contextlib.suppress(BrokenPipeError):
            self.socket.send(b"keep\1" + bytes([version]) + letter + bytes([flags]) if first is None else first)
        if first is None:
            self.hello = self.frame()

    def frame(self):
        with contextlib.suppress(ConnectionResetError):
            head = exactly(self.socket, 5)
            if len(head) == 5:
                return head[:1], exactly(self.socket, struct.unpack("=I", head[1:])[0])
        return b"", b""

    def send(self, letter, content=b""):
        self.socket.sendall(frame(letter, content))

    def keys(self, keys):
        for at in range(0, len(keys), 4096):
            self.send(b"K", keys[at : at + 4096])

    def upgrade(self, program):
        """Passes a program for the keeper."""
        file = os.open(program, os.O_RDONLY)
        with contextlib.suppress(OSError):  # a keeper with little patience may have dropped this client
            socket.send_fds(self.socket, [frame(b"U")], [file])
        os.close(file)

    def window(self, columns, rows):
        """Tells its window, which has a client attached that knows sizes."""
        self.send(b"W", struct.pack("=HH", rows, columns))

    def seen(self):
        with contextlib.suppress(OSError):
            self.send(b"S")

    def size(self):
        """How many bytes wait in the socket."""
        return waiting(self.socket)

    def shut(self):
        self.socket.close()


class Terminal(Opened):
    """An outer terminal of its own, whose bytes can be looked at: a command runs on it."""

    def __init__(self, *words, rows=24, columns=80, script=None, shows=b"", **environment):
        super().__init__()
        self.master, line = pty.openpty()
        self.resize(columns, rows)
        os.set_blocking(self.master, False)
        self.got = b""

        def own_line():
            os.setsid()
            fcntl.ioctl(0, termios.TIOCSCTTY, 0)

        command = [KEEP, *words] if script is None else ["sh", "-c", script]
        self.process = subprocess.Popen(command, stdin=line, stdout=line, stderr=line, preexec_fn=own_line, env=ENVIRONMENT | environment)
        os.close(line)
        assert self.shows(shows), f"a terminal shows {shows}: {self.got}"

    def read(self):
        with contextlib.suppress(BlockingIOError, OSError):
            while more := os.read(self.master, 65536):
                self.got += more
        return self.got

    def shows(self, what):
        return until(lambda: what in self.read())

    def resize(self, columns, rows):
        fcntl.ioctl(self.master, termios.TIOCSWINSZ, struct.pack("HHHH", rows, columns, 0, 0))

    def type(self, keys):
        os.write(self.master, keys)

    def status(self):
        """The exit status of the command, once it has ended."""
        until(lambda: self.read() is None or self.process.poll() is not None)
        return self.process.returncode

    def shut(self):
        self.process.kill()
        self.process.wait()
        os.close(self.master)


# --- keepers that a test plays ---


@contextlib.contextmanager
def listening(name="peer"):
    """A socket of this name, as that of a keeper."""
    keep("list")  # makes the directory
    (SOCKETS / name).unlink(missing_ok=True)
    with socket.socket(socket.AF_UNIX) as peer:
        peer.bind(str(SOCKETS / name))
        peer.listen(64)
        yield peer
    (SOCKETS / name).unlink(missing_ok=True)


def answered(word, hello, frames=b"", is_gone=False):
    """The status of a command about a session whose keeper sends a hello and these frames, and what it says. The keeper may end then."""
    return replied([word, "peer"], frame(b"H", hello) + frames, is_gone=is_gone)


def accepted(listener, asking):
    """The next connection to a socket, or None if the command that is to connect has ended."""
    listener.settimeout(0.1)
    while asking.poll() is None:
        with contextlib.suppress(TimeoutError):
            return listener.accept()[0]
    return None


def replied(words, *replies, is_gone=False, **settings):
    """The status of a command about a session whose keeper replies with these bytes, to a connection each, and what the command says. After
    the last reply the keeper may end."""
    others = []
    with listening() as peer:
        asking = subprocess.Popen([KEEP, *words], env=ENVIRONMENT | settings, stdin=subprocess.DEVNULL, stdout=subprocess.PIPE, stderr=subprocess.STDOUT, text=True)
        for number, reply in enumerate(replies, 1):
            while (other := accepted(peer, asking)) and not other.recv(8):  # it only looks whether somebody listens
                other.close()
            if not other:
                break
            others.append(other)
            if is_gone and number == len(replies):
                (SOCKETS / "peer").unlink()
                peer.close()
            with contextlib.suppress(BrokenPipeError):  # a command with little patience may have given up
                other.sendall(reply)
        if is_gone:
            others[-1].close()
        said = asking.communicate(timeout=PATIENCE)[0]
    for it in others:
        it.close()
    return asking.returncode, said
