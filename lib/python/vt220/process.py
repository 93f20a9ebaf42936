"""Starts a command on a new pseudo-terminal, and ends it with everything that it started.

posix_spawn starts the command, so that other threads can't disturb it and the cost is that of fork and exec. The command leads
a new session. Each process that it starts has VT220_RIG in its environment, by which it is found when the command ends. There is a
watchdog for each Python process. It does the same if the Python process is killed.
"""
import ctypes
import errno
import fcntl
import os
import select
import shutil
import struct
import subprocess
import sys
import termios
import threading
from typing import Dict, List, Optional, Sequence, Union

from . import watchdog

# What a command gets of this process's environment; everything else comes from the test, so that a test runs alike everywhere.
KEPT = ("PATH", "HOME", "USER", "LOGNAME", "TMPDIR")
# The locale of a command by the encoding of its terminal. It isn't that of whoever runs the test, so that a test runs alike everywhere.
LOCALES = {"dec": "C", "utf-8": "C.UTF-8"}
# TERM by the terminal that a command writes for.
TERMS = {"vt220": "vt220", "xterm": "xterm-256color"}
# The flag of the line by which it erases whole characters of UTF-8 (termios(3)). Python's module has no name for it.
_IUTF8 = 0o40000
_SETSIGDEF, _SETSIGMASK, _SETSID = 4, 8, 0x80
_libc = ctypes.CDLL(None, use_errno=True)


class _Watchdog:
    """Ends what is left of this process's commands when this process is gone, however it went."""

    def __init__(self) -> None:
        self.lock = threading.Lock()
        self.pid, self.token, self.count = 0, "", 0
        self.process: Optional["subprocess.Popen[bytes]"] = None
        # The descriptor that the watchdog is told by, or -1.
        self.line = -1

    def mark(self) -> str:
        """Returns the mark of a new command. Starts the watchdog if this process has none."""
        with self.lock:
            if self.pid != os.getpid():
                self._start()
            self.count += 1
            return f"{self.token}.{self.count}."

    def _start(self) -> None:
        """Starts a watchdog. It waits for the end of its input, which only this process holds open."""
        if self.line >= 0:
            os.close(self.line)  # that of the process which this one was forked from
        self.token = os.urandom(16).hex()
        words = [sys.executable, "-I", "-S", watchdog.__file__, f"{self.token}."]
        # A descriptor and no file, which Python would warn of when it ends: it stays open until then.
        input_, self.line = os.pipe()
        try:
            self.process = subprocess.Popen(words, stdin=input_, stdout=subprocess.DEVNULL, stderr=subprocess.DEVNULL,
                                            start_new_session=True, cwd="/", env={"PATH": os.defpath})
        finally:
            os.close(input_)
        # Python would wait for it at its end, but it ends after Python.
        self.process.returncode = 0
        self.pid = os.getpid()

    def tell(self, session: int) -> None:
        """Tells the watchdog of a session that has begun, or with a minus sign of one that has been ended."""
        try:
            os.write(self.line, b"%d\n" % session)
        except OSError:
            pass  # somebody has killed it


_watchdog = _Watchdog()


def environment(term: str, encoding: str, given: Optional[Dict[str, str]]) -> Dict[str, str]:
    """Returns the environment of a command: PATH and the home of this process, TERM, LC_ALL by the encoding, and what the test gives."""
    kept = {name: os.environ[name] for name in KEPT if name in os.environ}
    return {**kept, "TERM": term, "LC_ALL": LOCALES[encoding], **(given or {})}


def _pointers(words: Sequence[str]) -> "ctypes.Array[ctypes.c_char_p]":
    return (ctypes.c_char_p * (len(words) + 1))(*[os.fsencode(word) for word in words], None)


def _refusal(fault: int, words: str, argv: Sequence[str], cwd: Optional[str]) -> OSError:
    """Returns the error of a command that couldn't be started. It names the directory if that is what is wrong."""
    if cwd is not None and not os.access(os.path.join(cwd, "."), os.X_OK):
        return OSError(fault, f"the program can't start in this directory: {words}", cwd)
    apart = argv[0].split()
    if fault == errno.ENOENT and len(apart) > 1:
        words += f"; write each word by itself, as run({', '.join(map(repr, [*apart, *argv[1:]]))})"
    return OSError(fault, words, argv[0])


def _spawn(path: str, argv: Sequence[str], env: Dict[str, str], cwd: Optional[str], terminal: str) -> int:
    """Starts a program in a new session, whose controlling terminal is `terminal`. Returns its process id."""
    actions, attributes, signals = (ctypes.create_string_buffer(1024) for _ in range(3))
    _libc.posix_spawn_file_actions_init(actions)
    _libc.posix_spawnattr_init(attributes)
    try:
        if cwd is not None:
            _libc.posix_spawn_file_actions_addchdir_np(actions, os.fsencode(cwd))
        # The first terminal that the leader of a session opens becomes its controlling terminal.
        _libc.posix_spawn_file_actions_addopen(actions, 0, os.fsencode(terminal), os.O_RDWR, 0)
        _libc.posix_spawn_file_actions_adddup2(actions, 0, 1)
        _libc.posix_spawn_file_actions_adddup2(actions, 0, 2)
        # Python ignores SIGPIPE, and nohup SIGHUP; a command starts with neither ignored and nothing blocked.
        _libc.sigemptyset(signals)
        _libc.posix_spawnattr_setsigmask(attributes, signals)
        _libc.sigfillset(signals)
        _libc.posix_spawnattr_setsigdefault(attributes, signals)
        _libc.posix_spawnattr_setflags(attributes, ctypes.c_short(_SETSIGDEF | _SETSIGMASK | _SETSID))
        pid = ctypes.c_int()
        words = _pointers([f"{name}={value}" for name, value in env.items()])
        fault = _libc.posix_spawn(ctypes.byref(pid), os.fsencode(path), actions, attributes, _pointers(argv), words)
    finally:
        _libc.posix_spawn_file_actions_destroy(actions)
        _libc.posix_spawnattr_destroy(attributes)
    if fault:
        raise _refusal(fault, os.strerror(fault), argv, cwd)
    return pid.value


def _set_size(line: int, rows: int, columns: int) -> None:
    fcntl.ioctl(line, termios.TIOCSWINSZ, struct.pack("4H", rows, columns, 0, 0))


def _set_line(line: int, rows: int, columns: int, encoding: str) -> None:
    """Gives a pseudo-terminal its size, and tells it whether characters are of UTF-8."""
    _set_size(line, rows, columns)
    if encoding == "utf-8":
        modes = termios.tcgetattr(line)
        modes[0] |= _IUTF8
        termios.tcsetattr(line, termios.TCSANOW, modes)


class Process:
    """Starts a command on a pseudo-terminal. `line` is the descriptor of the pseudo-terminal's other side."""

    def __init__(self, argv: Sequence[str], env: Dict[str, str], cwd: Optional[Union[str, "os.PathLike[str]"]], rows: int, columns: int,
                 encoding: str) -> None:
        path = argv[0] if "/" in argv[0] else shutil.which(argv[0], path=env.get("PATH", os.defpath))
        directory = None if cwd is None else os.fspath(cwd)
        if path is None:
            raise _refusal(errno.ENOENT, "the command isn't found", argv, directory)
        self.mark = _watchdog.mark()
        self.status: Optional[int] = None
        self.line, self.pid, self.ending = -1, -1, -1
        line, slave = os.openpty()
        try:
            _set_line(line, rows, columns, encoding)
            os.set_blocking(line, False)
            self.pid = _spawn(path, argv, {**env, watchdog.MARK: self.mark}, directory, os.ttyname(slave))
        except BaseException:
            os.close(line)
            raise
        finally:
            os.close(slave)
        self.line, self.ending = line, os.pidfd_open(self.pid)
        _watchdog.tell(self.pid)

    def resize(self, rows: int, columns: int) -> None:
        """Changes the size of the pseudo-terminal. The system sends SIGWINCH to the programs in its foreground."""
        _set_size(self.line, rows, columns)

    def echoes(self) -> bool:
        """Returns whether the line echoes what is typed (ECHO of termios(3)). A prompt for a password turns that off, and so do full-screen programs."""
        return self.line >= 0 and bool(termios.tcgetattr(self.line)[3] & termios.ECHO)

    def ended(self) -> Optional[int]:
        """Returns the command's exit status, the negative number of the signal that ended it, or None while it runs."""
        if self.status is None:
            # The command stays a zombie until close(), so that its number can't be another process's.
            seen = os.waitid(os.P_PID, self.pid, os.WEXITED | os.WNOHANG | os.WNOWAIT)
            if seen is not None:
                self.status = seen.si_status if seen.si_code == os.CLD_EXITED else -seen.si_status
        return self.status

    def members(self) -> List[int]:
        """Returns the processes that the command left or has: those of its session, with its mark, or started by these."""
        return watchdog.left(self.mark, (self.pid,))

    def close(self) -> None:
        """Hangs up, gives the command a moment to end by itself, and then kills it and everything that it started."""
        if self.line < 0:
            return
        line, self.line = self.line, -1
        try:
            os.close(line)  # the system sends SIGHUP to the session
        finally:
            self._end()

    def _end(self) -> None:
        """Waits a moment for the command's end, and kills what is left of it."""
        try:
            if self.ended() is None:
                select.select([self.ending], [], [], 0.3)
            watchdog.end(self.mark, (self.pid,))
            self.ended()
        finally:
            _watchdog.tell(-self.pid)
            os.close(self.ending)
            os.waitpid(self.pid, 0)
