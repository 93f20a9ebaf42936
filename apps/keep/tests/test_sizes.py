"""Sessions of any size, and those that follow the windows of their clients. Sizes are columns and rows, as in 120x40."""
import pytest
from sessions import *

# A command that writes the size of its window when it begins and whenever that changes.
TELLS = f"exec {TOP / 'tests/tell-size'}"


def size(name):
    """The size of a session, as its list has it."""
    it = row(name)
    return f"{it['columns']}x{it['rows']}"


def told(name):
    """The last size that the command was told."""
    found = re.findall(r"^(\d+) (\d+)$", text(name), re.M)
    return f"{found[-1][1]}x{found[-1][0]}" if found else None


def has_size(name, wanted, what):
    assert until(lambda: size(name) == wanted), f"{what}: the session has {wanted}, and not {size(name)}"


def writes(name):
    """Begins a command that writes each line that it is sent, as printf has it."""
    shell(name, "stty -echo; printf ready; while read -r x; do printf \"$x\"; done")
    wait(lambda: lines(name)[:1] == ["ready"], f"{name} is ready")


def attach(name, columns, rows, flags=0, version=7):
    """A client that speaks the protocol itself, once it is attached. Returns it and the frames that came up to the first screen."""
    client, frames = Raw(name, b"a", flags=flags, version=version), []
    if version >= 7:
        client.window(columns, rows)
    while not frames or frames[-1][0] not in (b"P", b""):
        frames.append(client.frame())
    return client, frames


def played(frames, wanted):
    """The text of a client's terminal of a size, by what was sent to it since it has that size."""
    content = b""
    for letter, bytes_of in frames:
        content = b"" if letter == b"Y" else content + bytes_of if letter == b"P" else content
    return plays(content, "--quiet", "--size", wanted)


@pytest.mark.parametrize("wanted", ["120x40", "80x2", "255x255", "132x24", "80x24", "100x5", "40x12", "5x2"])
def test_given(wanted):
    """A size that is given: the command has it, and so have the list and the text."""
    columns, rows = wanted.split("x")
    shell("given", "stty size; exec cat", size=wanted)
    wait(lambda: lines("given")[:1] == [f"{rows} {columns}"], "the command has it")
    assert size("given") == wanted, "the list for scripts has it"
    assert re.match(rf"given +{wanted} +0 attached ", keep("list").stdout), "the list for the eye has it"
    assert len(text("given").splitlines()) == int(rows), "the text has its lines"


def test_no_size():
    new("given", "cat")
    assert size("given") == "80x24", "without a size it is that of a VT220"
    end("given")
    for wrong in ("1x24", "256x24", "80x1", "80x256", "0x0", "80", "x", "", "80x", "x24", "80x24x", "-80x24", "+80x24", " 80x24", "80 x24", "80X24", "80,24", "1000x24", "80x1000", "65616x65560"):
        done = keep("new", f"--size={wrong}", "given", "true")
        said = f"vt220-keep: new: --size is columns and rows, as 120x40: 2 to 255 columns and 2 to 255 rows, not '{wrong}'\n"
        assert done.returncode == 2 and done.stderr == said, f"{wrong!r} is refused with its limits: {done.stderr}"
    assert keep("list").stdout == "", "nothing is left of these"


def test_fixed():
    """A size that is given stays, whatever the windows have."""
    shell("fixed", TELLS, size="100x30")
    wait(lambda: told("fixed") == "100x30", "the command is told its size")
    small, large = Outer("fixed", 60, 20), Outer("fixed", 140, 50)
    small.follows("fixed", "a smaller window shows a part")
    wait(lambda: re.search(r"\[1-20/30 1-60/100\]$", small.shown()[19]) or re.search(r"\[1-20/30 1-60/100\]$", small.shown()[0]), "and says which")
    large.follows("fixed", "a larger window shows it at its top left")
    large.resize(90, 25)
    large.follows("fixed", "after its window has changed")
    assert size("fixed") == "100x30" and text("fixed").count("30 100\n") == 1, "the command was told nothing more"


def test_follows():
    """The size is that of the smallest window, its rows and its columns each. Who only looks doesn't count."""
    shell("work", TELLS)
    wait(lambda: told("work") == "80x24", "it begins with a VT220's size")
    first = Outer("work", 100, 30)
    has_size("work", "100x30", "one client")
    wait(lambda: told("work") == "100x30", "the command is told")
    first.follows("work", "one client")
    second = Outer("work", 90, 40)
    has_size("work", "90x30", "two clients")
    wait(lambda: told("work") == "90x30", "the command is told of both")
    for outer in (first, second):
        outer.follows("work", "two clients")
    reader = Outer("work", 81, 10, words="attach -r")
    reader.follows("work", "who only looks")
    first.resize(200, 60)
    has_size("work", "90x40", "a window that grows")
    second.resize(60, 20)
    has_size("work", "60x20", "a window of fewer columns than a VT220 has")
    wait(lambda: told("work") == "60x20", "the command is told of it")
    for outer in (first, second, reader):
        outer.follows("work", "a narrow one")
    second.detach()
    has_size("work", "200x60", "one has left")
    first.follows("work", "the one that is left")
    reader.follows("work", "and who only looks")
    first.resize(300, 260)
    has_size("work", "255x255", "a window that is larger than a session may be")
    wait(lambda: told("work") == "255x255", "the command is told the most")
    first.follows("work", "a large one")
    first.detach()
    has_size("work", "255x255", "the size stays when nobody is there")
    reader.detach()
    assert size("work") == "255x255", "also without who only looks"
    last = Outer("work", 80, 24)
    has_size("work", "80x24", "one attaches again")
    last.follows("work", "attached again")


def test_at_once():
    """A command that is begun and attached to at once has the client's size from the beginning."""
    outer = Terminal("new", "-A", "once", "sh", "-c", "stty size; stty -echo; exec cat", rows=50, columns=110)
    wait(lambda: "50 110" in (keep("text", "once").stdout or ""), "the first size is that of the window")
    assert size("once") == "110x50", f"and so is the session's: {size('once')}"
    outer.close()
    wait(lambda: attached("once") == 0, "the client is gone")
    narrow = Terminal("new", "-A", "once", "cat", rows=12, columns=30)
    has_size("once", "30x12", "a session that is there follows the window")
    narrow.close()
    end("once")
    outer = Terminal("new", "-A", "--size=90x20", "once", "sh", "-c", "stty size; exec cat", rows=50, columns=110)
    wait(lambda: "20 90" in text("once"), "a size that is given counts")


def test_programs():
    """vim, which draws its screen at each size, and whose last screen a client prints."""
    (ROOM / "poem").write_text("".join(f"line {n} of a poem\n" for n in range(1, 201)))
    new("vi", "vim", "-u", "NONE", "-i", "NONE", "-N", "-n", str(ROOM / "poem"))
    outer = Outer("vi", 120, 45)
    wait(lambda: lines("vi")[43:44] == ["line 44 of a poem"], "vim fills the larger screen")
    outer.follows("vi", "vim in a larger window")
    for columns, rows in ((90, 10), (132, 24), (80, 50), (80, 24), (250, 100)):
        outer.resize(columns, rows)
        has_size("vi", f"{columns}x{rows}", "vim")
        wait(lambda: lines("vi")[rows - 2 : rows - 1] == [f"line {rows - 1} of a poem"], f"vim fills {columns}x{rows}")
        outer.follows("vi", f"vim at {columns}x{rows}")
    outer.keys(":q!", "Enter")
    outer.is_ended("vim ends", "vt220-keep: vi ended with status 0", "status 0")
    shell("tall", "stty -echo; read x; seq 1 60; read x; exit 3")
    outer = Outer("tall", 80, 61)
    has_size("tall", "80x61", "a tall window")
    keep("send", "tall", "Enter")
    wait(lambda: lines("tall")[59:60] == ["60"] or lines("tall")[60:61] == ["60"], "60 lines")
    outer.detach()
    keep("send", "tall", "Enter")
    wait(lambda: has_ended("tall"), "a command ends")
    outer = Terminal("attach", "tall", rows=10)
    assert outer.status() == 3 and outer.read().split()[:60] == [b"%d" % n for n in range(1, 61)], f"its last screen is printed whole: {outer.read()}"
    assert size("tall") == "80x61", "and keeps its size"


def test_logged():
    """The rows that leave a screen that gets smaller are in the log, once. Those of the alternate page are nowhere."""
    shell("log", "seq 1 20; read x; seq 21 40; read x")
    wait(lambda: lines("log")[19:21] == ["20", ""], "20 lines and the cursor in row 21")
    client, _ = attach("log", 80, 10)
    assert text("log").split() == [str(n) for n in range(12, 21)], f"of 21 rows the last 10 stay: {text('log').split()}"
    assert keep("log", "log").stdout.splitlines() == [*map(str, range(1, 21)), ""], "the others are in the log"
    client.window(80, 30)
    has_size("log", "80x30", "a larger screen")
    assert keep("log", "log").stdout.splitlines() == [*map(str, range(1, 21))] + [""] * 21, "nothing comes back, and nothing is lost"
    keep("send", "log", "Enter")
    wait(lambda: "40" in text("log").split(), "the command goes on")
    assert [line for line in keep("log", "log").stdout.split()] == [str(n) for n in range(1, 41)], "each line is there once"
    client.close()
    end("log")
    shell("log", "seq 1 20; printf '\\033[?1049h\\033[1;1Halt 1\\033[24;1Halt 24'; read x; printf '\\033[?1049l'; read x", "--terminal=xterm")
    wait(lambda: lines("log")[23:24] == ["alt 24"], "the alternate page is shown, with the cursor in row 24")
    client, frames = attach("log", 80, 14)
    assert keep("log", "log").stdout.splitlines()[:7] == [str(n) for n in range(1, 8)], "7 rows leave the main page, which isn't shown: its cursor was in row 21"
    assert "alt 1\n" not in keep("log", "log").stdout and lines("log")[13] == "alt 24", "those of the alternate page aren't in the log"
    keep("send", "log", "Enter")
    wait(lambda: lines("log")[:1] == ["8"], "the main page has the others")
    client.close()
    end("log")
    shell("log", "seq 1 20; printf '\\033[?1049h\\033[Htop'; read x; printf '\\033[?1049lprompt'; read x", "--terminal=xterm")
    wait(lambda: lines("log")[:1] == ["top"], "a full-screen program is shown, with the cursor in row 1")
    looks, _ = attach("log", 80, 5)
    has_size("log", "80x5", "a look from a window of five rows")
    looks.window(80, 24)
    has_size("log", "80x24", "the window is as before")
    keep("send", "log", "Enter")
    wait(lambda: "prompt" in text("log"), "the program ends")
    assert keep("log", "log").stdout.split() == [*map(str, range(1, 21)), "prompt"], "no line is lost by the look"


def asked_for_log(client):
    """The log that an attached client asks for: its lines, and after them the screen."""
    client.send(b"G")
    came = {b"T": b"", b"L": b""}
    while (it := client.frame())[0] not in (b"Z", b""):
        came[it[0]] = came.get(it[0], b"") + it[1]
    return came[b"L"] + came[b"T"] if it[0] == b"Z" else b""


def test_low():
    """A log that is larger than any frame about a screen of two rows: `log` prints all of it, and an attached client is sent all of it."""
    script = "stty -echo; seq -f %019.0f 1 11999; printf ready; exec cat"
    wanted = "".join(f"{n:019}\n" for n in range(1999, 12000)) + "ready\n"
    shell("low", script, size="80x2")
    wait(lambda: lines("low") == [f"{11999:019}", "ready"], "a session of two rows has written its lines")
    assert keep("log", "low").stdout == wanted, "log prints the last 10,000 that scrolled off, and the screen"
    client, _ = attach("low", 80, 2)
    assert asked_for_log(client).decode() == wanted, "an attached client is sent them"
    replaced("low")
    assert asked_for_log(client).decode() == wanted, "and again by a keeper that was replaced"
    assert keep("log", "low").stdout == wanted, "which prints them, too"
    client.close()
    outer = Terminal("attach", "low", rows=2, shows=b"ready")
    outer.type(b"\033[5;2~")
    assert outer.shows(b"/10002]"), "PageUp with Shift shows them in a window of two rows"
    outer.close()
    end("low")
    shell("low", script)
    wait(lambda: lines("low")[23:] == ["ready"], "a session of 24 rows has written them")
    first, _ = attach("low", 80, 2)
    second, _ = attach("low", 80, 2)
    has_size("low", "80x2", "its window gets smaller")
    for client in (first, second):
        assert asked_for_log(client).decode() == wanted, "a client is sent the log"
        client.close()
    assert keep("log", "low").stdout == wanted, "log prints it"


def test_columns():
    """DECCOLM makes a VT220's screen wide. On any other one, and on one that was resized, it leaves the width."""
    writes("wide")
    keep("send", "-l", "wide", "\\033[?3h\n")
    has_size("wide", "132x24", "DECCOLM")
    client, frames = attach("wide", 80, 24)
    assert size("wide") == "132x24" and [letter for letter, _ in frames] == [b"C", b"X", b"P"], "a window of a VT220's size leaves it"
    keep("send", "-l", "wide", "\\033[?3l\n")
    has_size("wide", "80x24", "DECCOLM back")
    keep("send", "-l", "wide", "\\033[?3h\n")
    has_size("wide", "132x24", "and again")
    client.window(132, 24)
    wait(lambda: client.frame() == (b"Y", struct.pack("=HH", 24, 132)), "another window resizes the session")
    client.window(80, 24)
    has_size("wide", "80x24", "which follows it back")
    keep("send", "-l", "wide", "\\033[?3hdone\n")
    wait(lambda: "done" in text("wide"), "the command selects 132 columns")
    assert size("wide") == "80x24", "and has no effect now"
    client.close()
    end("wide")
    shell("wide", "printf '\\033[?3h'; stty size; exec cat", size="120x24")
    wait(lambda: lines("wide")[0] == "24 120", "nor at a size that is given")


def test_sent():
    """What a client gets: the size, and a repaint at each change. It leads to the screen, also at the largest size."""
    writes("sent")
    client, frames = attach("sent", 80, 24)
    assert [letter for letter, _ in frames] == [b"C", b"X", b"P"], "nothing about a VT220's size"
    client.window(255, 255)
    frames += [client.frame(), client.frame()]
    assert frames[-2] == (b"Y", struct.pack("=HH", 255, 255)) and frames[-1][0] == b"P", "then the size and a repaint"
    keep("send", "-l", "sent", "\\033[1;7mfirst\\033[255;250Hlast\\033[128;1H\n")
    wait(lambda: frames.append(client.frame()) or "last" in played(frames, "255x255"), "an update follows")
    assert played(frames, "255x255") == text("sent"), "the client has the screen"
    brushes = "for (i = 0; i < 255 * 254; i++) printf \"%c[%d;%d%dm%c\", 27, i % 2, 4 + i % 2, i % 3 ? 7 : 0, 33 + i % 90"
    shell("full", f"awk 'BEGIN {{ {brushes} }}'; read x; exec cat", size="255x255")
    wait(lambda: len(lines("full")[253:254] or [""]) and lines("full")[253].strip() != "", "a screen that is full of attributes")
    other, others = attach("full", 80, 24)
    assert len(others[-1][1]) > 94152 and played(others, "255x255") == text("full"), f"a repaint of {len(others[-1][1])} bytes"
    keep("send", "full", "Enter", "typed", "Enter")
    wait(lambda: others.append(other.frame()) or played(others, "255x255").count("typed") == 2, "and updates")
    assert played(others, "255x255") == text("full"), "the screen is that of the session"
    assert plays(repaint("full"), "--quiet", "--size", "255x255") == text("full"), "and so is the repaint that is printed"


def test_keys():
    """Keys have the form that the command has asked for, at any size."""
    got = reads("keys", "\\033[20h\\033[?1h\\033=\\033[39;100H", size="120x40")
    assert keep("send", "keys", "Enter", "Up", "KP5").returncode == 0, "send"
    wait(lambda: got.read_bytes() == b"\r\n\033OA\033Ou", f"they arrive: {got.read_bytes()}")
    outer = Terminal("attach", "keys", rows=40, columns=120, shows=b"ready")
    outer.type(b"\033[A\r")
    wait(lambda: got.read_bytes() == b"\r\n\033OA\033Ou\033OA\r\n", "and so do those that are typed")


def test_older():
    """Clients and keepers that know no sizes."""
    shell("old", TELLS)
    old, frames = attach("old", 0, 0, version=6)
    assert [letter for letter, _ in frames] == [b"C", b"X", b"P"], "a client of version 6 attaches to a VT220"
    outer = Outer("old", 100, 30)
    outer.follows("old", "one that knows sizes")
    assert size("old") == "80x24", "the size stays while an older client is there"
    keep("send", "old", "Enter")
    old.close()
    has_size("old", "100x30", "then it follows")
    wait(lambda: told("old") == "100x30", "and the command is told")
    refused = Raw("old", b"a", version=6)
    assert refused.hello[1][:4] == b"\0\7\7\0" and refused.frame() == (b"", b""), f"an older client can't attach then: {refused.hello}"
    asking = Raw("old", b"t", version=6)
    assert asking.hello[1][:1] == b"\6" and asking.frame() == (b"A", text("old").encode()), "it gets the text"
    listing = Raw("old", b"l", version=1)
    assert b"\t30\t100\t" in listing.frame()[1], "and the list"
    outer.resize(255, 255)
    has_size("old", "255x255", "the largest size")
    for ask in b"tgr":
        client = Raw("old", bytes([ask]), version=6)
        assert client.hello[1][:4] == b"\0\7\7\0", f"what may be more than it can take is refused: {client.hello}"
        client.close()
    for it in (refused, asking, listing):
        it.close()
    outer.close()
    end("old")
    other, outer = kept_elsewhere(6)
    assert outer.shows(b"hello"), "it shows a session of an older keeper"
    outer.type(b"k")
    assert exactly(other, 6) == frame(b"K", b"k"), "and sends keys, and no window"


def kept_elsewhere(version, first=b"", before=None):
    """A terminal of 100x30 that attaches to a session whose keeper is this test and speaks a version. The client sends first bytes, and `before` is
    called before it gets its screen."""
    with listening() as peer:
        outer = Terminal("attach", "peer", rows=30, columns=100)
        other = peer.accept()[0]
    other.settimeout(PATIENCE)
    assert exactly(other, 8)[4:6] == b"\1\7", "this client speaks the versions 1 to 7"
    other.sendall(frame(b"H", bytes([version, 1, version, 0]) + b"0.4.0") + frame(b"C", b"\1") + frame(b"X", b"\0"))
    assert exactly(other, len(first)) == first, "it sends what it has to"
    if before is not None:
        before(outer)
    other.sendall(frame(b"P", b"hello"))
    return other, outer


def test_early():
    """A window that changes before the client has shown anything: the keeper is told, as of each later change."""
    tells = lambda columns, rows: frame(b"W", struct.pack("=HH", rows, columns))
    other, outer = kept_elsewhere(7, tells(100, 30), lambda outer: outer.resize(90, 40))
    assert outer.shows(b"hello"), "it shows the session"
    outer.type(b"k")
    assert exactly(other, 9) == tells(90, 40), "the window is told that changed while the client waited"
    assert exactly(other, 6) == frame(b"K", b"k"), "then keys are sent, and it isn't told again"
    outer.resize(91, 41)
    assert exactly(other, 9) == tells(91, 41), "a later change is told"


@pytest.mark.parametrize("options", [[], ["--terminal=xterm"], ["--encoding=utf-8"]])
def test_upgraded(options):
    """A keeper that is replaced keeps the size, whether it is fixed, and the windows of its clients."""
    shell("long", TELLS, *options)
    wait(lambda: told("long") == "80x24", "the command begins")
    first, second = Outer("long", 100, 30), Outer("long", 120, 25)
    has_size("long", "100x25", "two windows")
    for outer in (first, second):
        outer.follows("long", "before")
    wait(lambda: told("long") == "100x25", "the command is told")
    before = repaint("long")
    for program in (NEWER, KEEP):
        replaced("long", program)
        assert size("long") == "100x25" and repaint("long") == before, "the size and the screen stay"
    second.resize(130, 40)
    has_size("long", "100x30", "a window that changes after that")
    wait(lambda: told("long") == "100x30", "the command is told that")
    for outer in (first, second):
        outer.follows("long", "after")
    first.detach()
    has_size("long", "130x40", "one leaves after that")
    second.follows("long", "the other")


def test_fixed_upgraded():
    shell("long", TELLS, size="90x20")
    replaced("long")
    outer = Outer("long", 100, 30)
    outer.follows("long", "a size that was given")
    assert size("long") == "90x20", "stays fixed"


def test_forms():
    """What an older program can go on with: a session of a VT220's size that isn't fixed, with windows of this size."""
    new("plain", "cat")
    new("given", "cat", size="80x24")
    new("other", "cat", size="100x30")
    assert [form_of(name) for name in ("plain", "given", "other")] == [2, 4, 4], "the forms"
    usual, _ = attach("plain", 80, 24)
    assert form_of("plain") == 2, "also with a client"
    attach("plain", 100, 30)
    assert form_of("plain") == 4, "a larger window is handed over"
    usual.close()
    has_size("plain", "100x30", "which then counts")


def test_many():
    """A window that changes all the time: the session follows to the last one, and no memory is lost."""
    shell("many", "stty -echo; yes 'a line of a flood' | head -n 100000; echo done; exec cat")
    client, _ = attach("many", 80, 24)
    client.socket.setblocking(True)
    drains = lambda: [client.frame() for _ in range(1) if client.size() > 0]
    for n in range(40):
        client.window(80 + n % 7 * 10, 24 + n % 5 * 10)
        while client.size() > 0:
            client.frame()
    wait(lambda: drains() is not None and "done" in text("many"), "a flood meanwhile")
    client.window(100, 30)
    wait(lambda: drains() is not None and size("many") == "100x30", "the last window counts")
    pid = keeper("many")
    before = resident(pid)
    for n in range(200):
        client.window(80 + n % 7 * 10, 24 + n % 5 * 10)
        while client.size() > 0:
            client.frame()
    client.window(100, 30)
    wait(lambda: drains() is not None and size("many") == "100x30", "and again")
    assert resident(pid) - before < 4 << 20, f"no memory is lost: {resident(pid) - before}"
