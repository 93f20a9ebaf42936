"""What browsers get of a session: a page, and the events that it plays."""
import base64
import stat
import sys
import urllib.error
import urllib.request

from sessions import *

SERVE = TOP / "apps/keep/serve"
GIVEN = ENVIRONMENT | {"VT220_PAGE": str(TOP / "apps/keep/tests/template.html")}


@contextlib.contextmanager
def serving(*options):
    """The server of the session `web`, and its address."""
    with subprocess.Popen([SERVE, *options, "web"], env=GIVEN, stdout=subprocess.PIPE, text=True) as server:
        try:
            yield server, server.stdout.readline().strip()
        finally:
            server.kill()


def lines_of(place):
    """The lines of the events at a socket."""
    with socket.socket(socket.AF_UNIX) as client:
        client.connect(str(place))
        client.sendall(b"GET /events HTTP/1.1\r\nHost: localhost\r\n\r\n")
        events = client.makefile("rb")
    while events.readline().strip():
        pass
    return events


def event(events):
    """Returns the bytes of the next event, or none at the end."""
    line = events.readline()
    events.readline()
    return base64.b64decode(line.removeprefix(b"data: "))


def refusal(address):
    """Returns the status with which an address is refused, or None."""
    try:
        urllib.request.urlopen(address)
    except urllib.error.HTTPError as refused:
        return refused.code


def test_page():
    shell("web", "echo hello; exec cat")
    wait(lambda: lines("web")[0] == "hello", "the program has written")
    with serving() as (server, address):
        page = urllib.request.urlopen(address).read().decode()
        assert '<vt220-player live="events">' in page and "default-src 'none'; connect-src 'self';" in page, "the page"
        events = urllib.request.urlopen(address + "events")
        assert b"hello" in event(events), "the first event is a repaint"
        wait(lambda: row("web")["attached"] == "2", "a page is a client, and so is what serves it")
        assert keep("send", "web", "typed").returncode == 0 and b"typed" in event(events), "then updates follow"
        for other in (address.rsplit("/", 2)[0] + "/", address.rsplit("/", 2)[0] + "/other/", address + "other"):
            assert refusal(other) == 404, f"{other} is refused"
        for _ in range(40):
            with urllib.request.urlopen(address + "events") as again:
                assert b"hello" in event(again), "the page is loaded again"
        wait(lambda: row("web")["attached"] == "2", "readers that are gone are noticed, though the program writes nothing")
        watching = [Raw("web", b"a", flags=1) for _ in range(30)]
        assert all(each.frame()[0] == b"P" for each in watching), "many only look"
        owner = Outer("web")
        owner.follows("web", "and the owner attaches beside them")
        owner.close()
        for each in watching:
            each.close()
        end("web")
        assert event(events) == b"", "the events end with the session"
        assert server.wait(PATIENCE) == 0, "and so does the server"
    assert subprocess.run([SERVE, "web"], env=GIVEN, capture_output=True).returncode == 1, "no session is served"
    alone = subprocess.run([sys.executable, "-IS", shutil.copy(SERVE, ROOM), "web"], env=GIVEN, capture_output=True, text=True)
    assert (alone.returncode, alone.stderr) == (1, "vt220-keep: serve: there is no page; it is installed with vt220-page\n"), "without the page"


def test_socket():
    shell("web", "echo again; exec cat")
    wait(lambda: lines("web")[0] == "again", "the program has written")
    place = ROOM / "web"
    with serving("--socket", place) as (server, address):
        assert address == str(place) and stat.S_IMODE(place.stat().st_mode) == 0o600, "only the user may connect to the socket"
        assert b"again" in event(lines_of(place)), "its events"
        server.send_signal(signal.SIGINT)
        assert server.wait(PATIENCE) == 0 and not place.exists(), "the socket goes with the server"
    for _ in range(2):
        with serving("--socket", place) as (server, address):
            assert address == str(place), "also after one that was killed"


def test_size():
    """A page is told the session's size, and each change. It doesn't count."""
    new("web", "cat", size="120x40")
    place = ROOM / "web"
    with serving("--socket", place) as (server, _):
        page = lines_of(place)
        assert [page.readline() for _ in range(3)] == [b"event: size\n", b"data: 120x40\n", b"\n"], "the size comes first"
        assert page.readline().startswith(b"data: ") and page.readline() == b"\n", "and then a repaint"
        end("web")
        assert server.wait(PATIENCE) == 0, "the server ends with the session"
    new("web", "cat")
    with serving("--socket", place):
        events = lines_of(place)
        assert events.readline().startswith(b"data: ") and events.readline() == b"\n", "that of a VT220 isn't told"
        Outer("web", 100, 30)
        wait(lambda: row("web")["columns"] == "100" and row("web")["rows"] == "30", "a client's window counts")
        assert [events.readline() for _ in range(3)] == [b"event: size\n", b"data: 100x30\n", b"\n"], "a change is told"
        assert events.readline().startswith(b"data: "), "and a repaint follows"
