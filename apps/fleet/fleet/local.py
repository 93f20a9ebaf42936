"""A store and a host daemon on this machine, for `fleet run`, the tests and the measurements: a Redis that is reached through a Unix
socket in a directory of mode 0700, so by this user alone, and that writes each change to disk before it answers."""
import contextlib
import ctypes
import os
import shutil
import signal
import socket
import subprocess
import sys
import tempfile
import time

from .store import connect

HERE = os.path.dirname(os.path.abspath(__file__))
COMMAND = os.path.join(HERE, "..", "fleet-cli")
PYTHON = "/usr/bin/python3"  # the one that Debian's python3-redis is for
PR_SET_PDEATHSIG = 1


def tied():
    """Returns what a child calls before its program starts, to be killed when the thread that started it ends, by whatever."""
    parent, prctl = os.getpid(), ctypes.CDLL(None).prctl

    def tie():
        prctl(PR_SET_PDEATHSIG, signal.SIGKILL, 0, 0, 0)
        if os.getppid() != parent:  # it has ended meanwhile
            os._exit(1)

    return tie


def is_listening(path):
    with socket.socket(socket.AF_UNIX) as made:
        return made.connect_ex(path) == 0


class LocalStore:
    before = None  # what each child calls before its program starts
    under = ()  # a program and its options, under which the store runs
    daemon = None  # the process of the host daemon, if it was started

    def __init__(self, *options):
        self.folder = tempfile.mkdtemp(prefix="fleet-")  # of mode 0700
        self.socket = os.path.join(self.folder, "redis.sock")
        self.url = f"unix://{self.socket}"
        self.options = options
        self.start()

    def start(self, *more):
        self.launch(*more)
        connect(self.url).ping()

    def launch(self, *more):
        words = ["--port", "0", "--unixsocket", self.socket, "--unixsocketperm", "700", "--dir", self.folder, "--save", ""]
        words += ["--appendonly", "yes", "--appendfsync", "always", *self.options, *more]
        with open(os.path.join(self.folder, "log"), "ab") as log:
            self.server = subprocess.Popen([*self.under, "redis-server", *words], stdout=log, stderr=log, preexec_fn=self.before)

    def kill(self):
        self.server.kill()
        self.server.wait()

    def where(self):
        """Returns the environment of the commands that use this store and its daemon."""
        return {"FLEET_REDIS": self.url, "FLEET_DAEMON": os.path.join(self.folder, "daemon")}

    def start_daemon(self, *words, url=None):
        """Starts the host daemon, and waits until it listens. Programs go on with the next one."""
        with open(os.path.join(self.folder, "daemon-log"), "ab") as said:
            words = [PYTHON, COMMAND, "daemon", *words]
            self.daemon = subprocess.Popen(words, stdout=said, stderr=said, env=os.environ | self.where() | ({"FLEET_REDIS": url} if url else {}), preexec_fn=self.before)
        while self.daemon.poll() is None and not is_listening(self.where()["FLEET_DAEMON"]):
            time.sleep(0.02)

    def keepers(self):
        """Returns the processes of the keepers whose daemon is here."""
        found, path = [], os.fsencode(self.where()["FLEET_DAEMON"])
        for pid in filter(str.isdigit, os.listdir("/proc")):
            with contextlib.suppress(OSError), open(f"/proc/{pid}/cmdline", "rb") as words:
                name, *rest = words.read().split(b"\0")
                found += [int(pid)] if name.endswith(b"vt220-keep") and path in rest else []
        return found

    def kill_daemon(self):
        self.daemon.kill()
        self.daemon.wait()

    def stop(self):
        """Ends the programs, the daemon and the store."""
        for pid in self.keepers():
            with contextlib.suppress(ProcessLookupError):
                os.kill(pid, signal.SIGTERM)
        if self.daemon:
            self.kill_daemon()
        self.kill()
        shutil.rmtree(self.folder, ignore_errors=True)


def run(command):
    """Starts a store and a host daemon, until Ctrl-C or as long as a command runs. If this process is killed, they are, too. Programs go on."""
    LocalStore.before = staticmethod(tied())
    for ends in (signal.SIGHUP, signal.SIGTERM):
        signal.signal(ends, lambda *_: sys.exit(1))
    store = LocalStore()
    store.start_daemon()
    where = store.where()
    print("export", *(f"{name}={value}" for name, value in where.items()), file=sys.stderr, flush=True)
    try:
        if command:
            return subprocess.call(command, env=os.environ | where)
        while True:
            time.sleep(1)
            if store.daemon.poll() is not None:
                store.start_daemon()
    except KeyboardInterrupt:
        return 0
    finally:
        store.stop()
