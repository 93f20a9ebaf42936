"""Random frames over the protocol, which a keeper and clients must survive, until the time is over. They are whole frames with changed letters, lengths
and contents, halves of them, nothing, and an end at any point."""
import random

import pytest
from sessions import *

pytestmark = pytest.mark.parametrize("room", ["clang-sane"], indirect=True)
ASKS = b"adlgtrsnu?"
LETTERS = b"HPBARDEFKQNSGTLUCXVWYZz\0\xff"
# The versions of the protocol, and the versions since which a keeper tells a client that types of the encoding and of the terminal.
PROTOCOL = (TOP / "apps/keep/protocol.h").read_text()
HIGHEST, ENCODING, TERMINAL = (int(re.search(rf"PROTOCOL_{name} = (\d+)", PROTOCOL)[1]) for name in ("HIGHEST", "ENCODING", "TERMINAL"))
VERSIONS = range(1, HIGHEST + 1)
MANY = 200  # clients of the keeper, at least
COMMANDS = (["attach", "false"], ["attach", "false"], ["attach", "false"], ["attach", "-r", "false"], ["text", "false"], ["log", "false"], ["list"], ["list", "--tsv"],
            ["send", "false", "Up", "é"], ["rename", "false", "other"], ["upgrade", "false"], ["kill", "false"], ["new", "-A", "false", "true"])


@pytest.fixture
def rng(pytestconfig):
    seed = pytestconfig.getoption("--seed") or random.randrange(1 << 30)
    print(f"--seed {seed}")
    return random.Random(seed)


def mangled(rng, frames):
    """Bytes that are nearly frames."""
    out = bytearray()
    for letter, content in frames:
        length = len(content)
        kind = rng.randrange(12)
        if kind == 0:
            letter = bytes([rng.choice(LETTERS)])
        elif kind == 1:
            length = rng.choice((0, 1, 2**31, 2**32 - 1, 4096, 4097, 94152, 94153, 1954260, 1954261, length + 1, max(0, length - 1)))
        elif kind == 2:
            content = rng.randbytes(rng.choice((0, 1, 20, 5000)))
            length = len(content)
        out += letter + struct.pack("=I", length) + content
    for _ in range(rng.choice((0, 0, 1, 5))):
        if out:
            out[rng.randrange(len(out))] = rng.randrange(256)
    return bytes(out[: rng.randrange(len(out) + 1)] if rng.randrange(4) == 0 else out)


def send(peer, rng, data):
    """In any pieces."""
    while data:
        n = rng.choice((1, 3, 100, len(data)))
        peer.sendall(data[:n])
        data = data[n:]


def window(rng):
    """A window, or the size of a session: usual ones, and any numbers."""
    return struct.pack("=HH", rng.choice((24, 24, 2, 40, 255, 0, rng.randrange(1 << 16))), rng.choice((80, 80, 132, 255, 0, rng.randrange(1 << 16))))


def sequences(rng):
    """What a terminal plays: text, controls and sequences, and any bytes."""
    parts = (b"text", b"\r\n", b"\033[H\033[J", b"\033[%d;%dH" % (rng.randrange(30), rng.randrange(150)), b"\033[?3h", b"\033[?3l", b"\033[7m", b"\a",
             b"\033P", b"\033\\", b"\033[6n", b"\033c", b"\033(0", b"\033[?1h\033=", b"\033 G", rng.randbytes(20))
    return b"".join(rng.choice(parts) for _ in range(rng.randrange(40)))


def target():
    """The name of the keeper, which its clients may change."""
    return next(iter(os.listdir(SOCKETS)), "target")


def runs(pid):
    """Whether a process runs. One that has ended has no program, even if nobody has waited for it."""
    with contextlib.suppress(OSError):
        return program_of(pid) != ""
    return False


def connected(pid):
    """A connection to the keeper. Its name may be long, and change at the same moment."""
    peer = socket.socket(socket.AF_UNIX)
    peer.settimeout(PATIENCE)
    folder = os.open(SOCKETS, os.O_RDONLY)
    connects = lambda: peer.connect_ex(f"/proc/self/fd/{folder}/{target()}") == 0
    is_connected = until(lambda: not runs(pid) or connects()) and runs(pid)
    os.close(folder)
    if not is_connected:
        raise ConnectionRefusedError("no keeper listens" if runs(pid) else "its process has ended")
    peer.settimeout(1)  # what the keeper doesn't take in this time is left out
    return peer


def to_keeper(rng, pid):
    """A client of a keeper, which may say anything."""
    peer = connected(pid)
    ask = rng.choice(ASKS)
    hello = bytearray(b"keep\1" + bytes([rng.choice(VERSIONS), ask, rng.randrange(4)]))
    if rng.randrange(8) == 0:
        hello[rng.randrange(8)] = rng.randrange(256)
    if hello[6] == ord("x"):
        hello[6] = ord("t")
    frames = [(b"K", sequences(rng)[:4096].replace(b"\3", b"").replace(b"\4", b"").replace(b"\x1c", b"")) for _ in range(rng.randrange(5))]
    frames += [(rng.choice((b"Q", b"S", b"N", b"K", b"G", b"U", b"W")), rng.choice((b"", b"target", b"../x", b"other")))]
    if rng.randrange(8):
        frames = [(b"W", window(rng)), *frames, (b"W", window(rng))]
    if ask == ord("n"):
        frames = [(b"N", rng.choice((b"", b"target", b"../x", b"a" * 65, b"\0")))]
    with contextlib.suppress(OSError):
        send(peer, rng, bytes(hello) + mangled(rng, frames))
        if rng.randrange(2):
            peer.settimeout(0.01)
            peer.recv(rng.choice((1, 100, 100000)))
    return peer


def from_keeper(rng, peer):
    """A keeper that says anything to its client."""
    peer.settimeout(0.5)
    with contextlib.suppress(OSError):
        peer.recv(8)
        hello = bytes([rng.choice(VERSIONS), 1, HIGHEST, rng.choice((0, 0, 0, 1))]) + b"0.3.0"
        frames = [(b"H", hello)] if rng.randrange(8) else []
        frames += [(letter, rng.choice((b"\0", b"\1"))) for letter, since in ((b"C", ENCODING), (b"X", TERMINAL)) if hello[0] >= since]
        frames += [(rng.choice((b"P", b"P", b"P", b"B", b"A", b"R", b"T", b"L", b"L", b"Z", b"V")), sequences(rng)) for _ in range(rng.randrange(6))]
        at = rng.randrange(len(frames) + 1)
        frames[at:at] = [(b"Y", window(rng))] * rng.randrange(3)
        frames += [rng.choice(((b"E", bytes(16)), (b"E", rng.randbytes(16)), (b"D", b""), (b"F", b""), (b"A", b"running\t24\t80\tx"), (b"P", rng.randbytes(90000))))]
        send(peer, rng, mangled(rng, frames))
    peer.close()


def test_to_keeper(rng, seconds):
    """At most 40 clients at a time, and now and then one that is honest."""
    count, peers, end = 0, [], time.monotonic() + seconds
    shell("target", "stty raw -echo; while :; do dd bs=200 count=1 2>/dev/null; done")
    pid = keeper("target")
    while time.monotonic() < end or count < MANY:
        peers.append(to_keeper(rng, pid))
        count += 1
        if len(peers) > 40 or rng.randrange(3) == 0:
            peers.pop(rng.randrange(len(peers))).close()
        if count % 200 == 0:
            # A client may have changed its name just then.
            wait(lambda: keep("text", target()).returncode == 0, f"the keeper answers after {count} clients")
    for peer in peers:
        peer.close()
    wait(lambda: listed(target()), "the keeper is there")
    assert keeper(target()) == pid, "it is the same process"
    wait(lambda: len(os.listdir(f"/proc/{pid}/fd")) <= 8, "it has closed what it opened")


def test_to_clients(rng, seconds):
    """Starts one client after another, each on a new terminal on which somebody types."""
    end = time.monotonic() + seconds
    with listening("false") as listener:
        listener.settimeout(0.02)
        while time.monotonic() < end:
            client = Terminal(*rng.choice(COMMANDS), rows=rng.choice((1, 5, 24, 50)), columns=rng.choice((1, 30, 80, 140)))
            deadline = time.monotonic() + PATIENCE
            while client.process.poll() is None and time.monotonic() < deadline:
                with contextlib.suppress(OSError):
                    from_keeper(rng, listener.accept()[0])
                client.read()
                with contextlib.suppress(OSError):
                    client.type(rng.choice((b"x", b"\033[A", b"\033[5;2~", b"\033[5~", "é".encode(), b"\x1c", rng.randbytes(9))))
            status = client.process.poll()
            fine = status is not None and status != 99 and (status >= 0 or -status in (signal.SIGINT, signal.SIGQUIT))  # ^C before it reads keys
            assert fine, f"{client.process.args} ended with {status}: {client.read()[-2000:]}"
            client.close()
