"""What goes wrong around a keeper."""
import pytest
from sessions import *


def test_silent():
    """A keeper that is stopped, with its queue full, and one that is stopped with room in it."""
    new("healthy", "cat")
    new("stopped", "cat")
    pid = keeper("stopped")
    os.kill(pid, signal.SIGSTOP)
    full = []
    with contextlib.suppress(BlockingIOError):
        while len(full) < 1000:
            full.append(socket.socket(socket.AF_UNIX))
            full[-1].setblocking(False)
            full[-1].connect(str(SOCKETS / "stopped"))
    shown = lambda: keep("list", env=ENVIRONMENT | SHORT).stdout
    wait(lambda: re.search("^healthy +80x24.*\n(?s:.*)^stopped +doesn't answer", shown(), re.M), "list goes on past a stopped keeper")
    for it in full:
        it.close()
    os.kill(pid, signal.SIGCONT)


@pytest.mark.parametrize("limit", [33, 14])
def test_few_files(limit):
    """With few files a keeper serves as many clients as it can, and never turns in circles."""
    done = subprocess.run(["sh", "-c", f"ulimit -n {limit}; exec {KEEP} new few cat"], env=ENVIRONMENT)
    assert done.returncode == 0, "new with few files"
    pid = keeper("few")
    crowd = [socket.socket(socket.AF_UNIX) for _ in range(40)]
    for it in crowd:
        it.connect(str(SOCKETS / "few"))
    wait(lambda: sleeps(pid), "a keeper sleeps while a crowd waits for it")
    for it in crowd:
        it.close()
    wait(lambda: keep("text", "few").returncode == 0, "it answers")


def test_closed_streams():
    """Standard streams that are closed, and files that the starter has open."""
    done = subprocess.run(["sh", "-c", f"exec {KEEP} new closed sh -c 'echo here; exec cat' <&- >&- 2>&-"], env=ENVIRONMENT)
    assert done.returncode == 0, "new without standard streams"
    wait(lambda: lines("closed")[:1] == ["here"], "the session lives")
    reader, writer = os.pipe()
    done = subprocess.run([KEEP, "new", "open", "sh", "-c", "ls /proc/$$/fd; exec cat"], pass_fds=[writer], env=ENVIRONMENT)
    os.close(writer)
    os.set_blocking(reader, False)
    assert done.returncode == 0 and os.read(reader, 1) == b"", "nobody keeps the starter's files open"
    wait(lambda: " ".join(lines("open")).split() == ["0", "1", "2"], "the command has its three files alone")


def test_signals():
    """Signals to a keeper, and commands that don't want to end."""
    new("signals", "cat")
    for number in (signal.SIGPIPE, signal.SIGALRM, signal.SIGUSR1, signal.SIGUSR2):
        os.kill(keeper("signals"), number)
        assert listed("signals") is not None, f"{number.name} ends no session"
    for number in (signal.SIGINT, signal.SIGHUP, signal.SIGTERM, signal.SIGQUIT):
        keep("new", "told", "cat")
        os.kill(keeper("told"), number)
        wait(lambda: not (SOCKETS / "told").exists(), f"{number.name} ends it, and its socket goes")
    shell("stubborn", "trap '' HUP TERM INT; echo on; while :; do sleep 1; done")
    wait(lambda: lines("stubborn")[:1] == ["on"], "a stubborn command")
    assert keep("kill", "stubborn").returncode == 0 and row("stubborn") is None, "kill ends it"


def test_idle():
    """A keeper sleeps while nothing happens, also if the command closed its line."""
    new("idle", "cat")
    shell("away", "exec 0<&- 1>&- 2>&-; sleep infinity")
    for name in ("idle", "away"):
        wait(lambda: sleeps(keeper(name), 1.0), f"{name} sleeps for a second")


def test_ended_meanwhile():
    """A session that ends while it is asked is no longer there. That is what a kill wants."""
    keep("list")  # makes the directory
    hello = b"\5\1\5\0" + b"0.3.0"
    assert answered("kill", hello, is_gone=True) == (0, ""), "it is killed"
    for word in ("text", "log", "detach", "upgrade"):
        assert answered(word, hello, is_gone=True) == (1, "vt220-keep: no such session: peer\n"), f"{word} of it"
    cut = frame(b"Z", bytes(8))[:-1]
    assert answered("log", hello, cut, is_gone=True) == (1, "vt220-keep: no such session: peer\n"), "a log whose end is cut off"
    shell("job", "exit 3", KEEP_LINGER="86400")
    wait(lambda: has_ended("job"), "a session has ended")
    client = Raw("job", b"n")
    assert keep("kill", "job").returncode == 0 and row("job") is None, "it is given up"
    client.send(b"N", b"other")
    assert client.frame() == (b"R", b"the session has ended"), "and isn't renamed"
