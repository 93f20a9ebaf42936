"""Tests vt220-play on terminals of the rig, and on others whose bytes are looked at. `make -f tests/Makefile player` builds the players, by both compilers
with their sanitizers. The proved program says what the screen is at a moment. A test waits for what is on the screen, never for a time:
what is to come by itself comes within milliseconds of the recording, and what isn't comes after hours."""
import gzip
import json
import os
import pathlib
import pty
import signal
import struct
import subprocess
import sys
import tempfile
import termios

import pytest

TOP = pathlib.Path(__file__).resolve().parents[3]
sys.path.insert(0, str(TOP / "lib/python"))
from vt220.rig import END, ENTER, ESCAPE, HOME, LEFT, RIGHT, run

PROGRAM = str(TOP / "crates/vt220/out/vt220")
PATIENCE = 300  # seconds until what is waited for counts as hanging; no test depends on less
KEPT = tempfile.TemporaryDirectory(prefix="play-")
ROOM, FOUND = pathlib.Path(KEPT.name), pathlib.Path(KEPT.name) / "found"
PLAY = str(ROOM / "vt220-play")  # the player that is tested
os.environ |= {"ASAN_OPTIONS": f"exitcode=99:detect_leaks=0:log_path={FOUND}/asan", "UBSAN_OPTIONS": f"exitcode=99:log_path={FOUND}/ubsan"}
opened = []  # terminals
FAULTS = (signal.SIGSEGV, signal.SIGBUS, signal.SIGFPE, signal.SIGILL, signal.SIGABRT, signal.SIGTRAP, signal.SIGSYS)
ENDINGS = (signal.SIGTERM, signal.SIGHUP, signal.SIGINT, signal.SIGQUIT, signal.SIGUSR1, signal.SIGALRM, signal.SIGPIPE)


@pytest.fixture(autouse=True, params=["gcc", "clang"])
def player(request):
    FOUND.mkdir(exist_ok=True)
    pathlib.Path(PLAY).unlink(missing_ok=True)
    os.symlink(TOP / f"out/tests/play.{request.param}-sane", PLAY)
    yield
    while opened:
        opened.pop().close()
    found = "".join(file.read_text(errors="replace") for file in FOUND.iterdir())
    assert not found, f"the sanitizers found something:\n{found}"


# --- recordings ---


def cast(name, *events, width=80, height=24, **header):
    """Writes a recording by asciinema of version 2."""
    lines = [{"version": 2, "width": width, "height": height, **header}, *([event[0], "o", event[1]] if len(event) == 2 else event for event in events)]
    path = ROOM / name
    path.write_text("".join(json.dumps(line) + "\n" for line in lines))
    return str(path)


# Its chunks are so far apart that none but the first comes by itself.
SLOW = cast("slow.cast", (0, "one\r\n"), (10000, "two\r\n"), (15000, "m", "half"), (20000, "three\r\n"), (30000, "four"))


def text_at(file, *words):
    """Returns the rows of a recording's screen by the proved program."""
    return subprocess.run([PROGRAM, "text", "--format", "auto", "--quiet", *words, file], stdout=subprocess.PIPE, check=True).stdout.decode().split("\n")[:-1]


def play(*words, rows=25, columns=80, before=""):
    """Plays on a terminal of the rig, an xterm, on which something is already. It has a row for the line below the screen."""
    return run("sh", "-c", f"printf %s '{before}'; exec \"$@\"", "sh", PLAY, *words, terminal="xterm", rows=rows, columns=columns, timeout=PATIENCE)


def draws(rig):
    """Waits until the player has taken the terminal, and so reads keys."""
    rig.wait(lambda screen: rig.terminal.alternate())


def wait(rig, is_shown, what):
    try:
        rig.wait(is_shown)
    except AssertionError as fault:
        raise AssertionError(f"{what}: {fault}") from None


def shows(rig, rows, what):
    """Waits until the screen has these rows, below which may be a line."""
    rows = [*rows, *[""] * (24 - len(rows))]
    wait(rig, lambda screen: list(screen.rows[:24]) == rows, what)


def shows_all(rig, rows, length, what):
    """Waits until a terminal with more rows shows these, the line with the length below them, and nothing else. Without a length it is at the end."""
    said = f" / {length}, speed " if length else "at the end: "
    wait(rig, lambda screen: list(screen.rows[: len(rows)]) == rows and said in screen.rows[len(rows)] and not any(screen.rows[len(rows) + 1 :]), what)


class Outer:
    """A terminal of the rig whose bytes are looked at."""

    def __init__(self, *words, rows=30, columns=80):
        self.rig, self.seen = run(PLAY, *words, terminal="xterm", rows=rows, columns=columns, timeout=PATIENCE), 0
        opened.append(self.rig)

    def shows(self, wanted, what):
        """Waits for bytes. Returns what came up to them, after those that were waited for before."""
        wait(self.rig, lambda screen: wanted in self.rig.recording[self.seen :], what)
        before = self.rig.recording[self.seen :].partition(wanted)[0]
        self.seen += len(before) + len(wanted)
        return bytes(before)


def refused(words, status, *said, rows=24, columns=80):
    """Checks that the player refuses, in one line that has these words, and draws nothing."""
    with run(PLAY, *words, terminal="xterm", rows=rows, columns=columns, timeout=PATIENCE) as rig:
        rig.ended(status)
    assert rig.recording.count(b"\n") == 1 and b"\x1b" not in rig.recording and all(word in rig.recording.decode() for word in said), f"{words}: {rig.recording!r}"


def test_keys():
    """The keys that move."""
    with play(SLOW) as rig:
        shows(rig, ["one"], "it begins at the beginning")
        for key, rows, what in (
            (".", ["one", "two"], "a step"), (".", ["one", "two", "three"], "the next step"), (",", ["one", "two"], "a step back"), (",", ["one"], "to the first"),
            (END, ["one", "two", "three", "four"], "the end"), (HOME, ["one"], "the beginning"), ("5", ["one", "two"], "the middle"),
            ("9", ["one", "two", "three"], "nine tenths"), ("[", ["one", "two"], "the marker before"), ("[", ["one"], "no marker before: the beginning"),
            ("]", ["one", "two"], "the next marker"), ("]", ["one", "two", "three", "four"], "no next marker: the end"), ("0", ["one"], "no tenth"),
        ):
            rig.keys(key)
            shows(rig, rows, what)
        assert rig.last.cursor[:2] == (2, 1), "the cursor is where that of the recording is"
        rig.keys("q")
        rig.ended(0)
    near = cast("near.cast", (0, "a"), (8, "b"), (30000, "c"))
    with play(near) as rig:
        rig.wait("a")
        rig.keys(" ", HOME)
        shows(rig, ["a"], "it has stopped at the beginning")
        rig.keys(RIGHT, RIGHT)
        shows(rig, ["ab"], "twice 5 seconds forward")
        rig.keys(LEFT)
        shows(rig, ["a"], "5 seconds back")
        rig.send(b"\x1bOC")
        shows(rig, ["ab"], "the arrow as another terminal sends it")
        rig.keys("\x03")
        rig.ended(0)


def test_pieces_of_keys():
    """A key whose bytes come apart."""
    with play(SLOW) as rig:
        rig.wait("one")
        rig.send(b"\x1b[4")
        rig.send(b"~")
        shows(rig, ["one", "two", "three", "four"], "the key End in two parts")


def test_by_itself():
    """What comes without a key: at its speed, and up to the end."""
    quick = cast("quick.cast", *((i / 1000, f"{i}\r\n") for i in range(60)))
    with play(quick) as rig:
        shows(rig, [*map(str, range(37, 60))], "it plays up to the end, and stays")
        rig.keys(" ")
        shows(rig, [*map(str, range(37, 60))], "and plays again")
    with play("--exit", quick, before="before\r\n") as rig:
        rig.ended(0)
        assert list(rig.last.rows[:2]) == ["before", ""], "--exit ends it, and the screen is that of before"


@pytest.mark.parametrize("option", ["--speed=1000000", "--pause=0", "--pause=0.01"])
def test_waits(option):
    with play(option, cast("hours.cast", (0, "one\r\n"), (36000, "two"))) as rig:
        shows(rig, ["one", "two"], "it doesn't wait for hours")


@pytest.mark.parametrize("moment", ["10000", "2:46:40", "19999.5", "0", "10b", "7b", "event:2", "event:3", "marker:1", "20000", "99999"])
def test_until(moment):
    """Where it ends, as the proved program has it."""
    with play(f"--until={moment}", SLOW) as rig:
        draws(rig)
        rig.keys(END)
        shows(rig, text_at(SLOW, "--until", moment), "the end")


@pytest.mark.parametrize("moment, count", [("10000", 2), ("15000.25", 2), ("event:4", 3), ("marker:1", 2), ("6b", 2), ("99999", 4)])
def test_from(moment, count):
    with play(f"--from={moment}", SLOW) as rig:
        shows(rig, ["one", "two", "three", "four"][:count], "where it begins")


def test_searches():
    with play(SLOW) as rig:
        rig.wait("one")
        rig.keys("/thr")
        rig.wait("/thr", row=25, col=1)
        rig.keys("x", "\x7f", ENTER)
        shows(rig, ["one", "two", "three"], "a search")
        rig.keys("n")
        shows(rig, ["one", "two", "three"], "the next hit is the only one")
        rig.keys("/o", ENTER)
        shows(rig, ["one"], "after the last hit comes the first")
        rig.keys("/four", ESCAPE)
        shows(rig, ["one"], "a search that isn't ended")
        rig.keys("/nothing", ENTER)
        rig.wait("not found: nothing", row=25)
        rig.keys(".")
        shows(rig, ["one", "two"], "a key removes the message")
        rig.wait("stopped", row=25)
    # Lines that came at once, of which most are on no screen, and all are found at their moment, before and after a checkpoint is there.
    log = cast("past.cast", (0, "$ "), (10000, "".join(f"line {n}\r\n" for n in range(10000))), (20000, "end"), (30000, "\x1b[2J"))
    last = [f"line {n}" for n in range(9977, 10000)]
    with play(log) as rig:
        rig.wait("$")
        for keys, rows, said in (
            ("/line 4242\r", last, "scrolled past: line 4242"), ("n", last, "scrolled past: line 4242"), ("/line 9999\r", last, "stopped 2:46:40"), ("/line 1\r", last, "scrolled past: line 1"),
            ("/\u0301\r", last, "not found"), (END, [""] * 24, "at the end"), ("/line 1\r", last, "scrolled past: line 1"), (END, [""] * 24, "at the end"), ("N", last, "scrolled past: line 1"),
        ):
            rig.keys(keys)
            rig.wait(text=said, row=25)
            shows(rig, rows, f"{keys!r}: {said}")
    # A text that comes, goes and comes again: the hits are where it comes.
    twice = cast("twice.cast", (0, "a\x1b[24;1Hlast row\x1b[1;2H"), (10000, "XY"), (20000, "\x1b[H\x1b[K"), (30000, "aXY"), (40000, "Z"))
    last = [*[""] * 22, "last row"]
    with play(twice, rows=24) as rig:
        rig.wait("last row", row=24)
        for keys, first in (("/XY\r", "aXY"), ("n", "aXY"), ("/Z\r", "aXYZ"), ("N", "aXYZ")):
            rig.keys(keys)
            shows(rig, [first, *last], f"{keys!r}: and row 24 is as it was")
    glyphs = cast("glyphs.cast", (0, "x"), (10000, " caf\u00e9 \u201cq\u201d \u65e5\u672c"), (20000, "\x1b[2J"))
    for wanted in ("f\u00e9", "\u201cq", "\u65e5\u672c"):
        with play(glyphs) as rig:
            rig.wait("x")
            rig.keys("/" + wanted, ENTER)
            rig.wait("caf\u00e9")
            assert True, f"a character is found by what is shown for it: {wanted}"


def finds(words, *lines, status=None, error=""):
    """Checks what --find prints. Without a status it is that of grep."""
    done = subprocess.run([PLAY, *words], capture_output=True, text=True)
    printed = "".join(line.replace(" ", "\t", 3) + "\n" for line in lines)
    wanted = (status if status is not None else 0 if lines else 1, printed)
    assert (done.returncode, done.stdout) == wanted and error in done.stderr and bool(error) == bool(done.stderr), f"{words}: {done}"


def test_places():
    """The list of the times at which a text was on the screen, and of the lines with it that scrolled off."""
    finds(["--find=o", SLOW], "0.000000 - 1 1")
    finds(["--find", "four", SLOW], "30000.000000 - 4 1")
    twice = cast("spans.cast", (0, "a\x1b[24;1Hlast row\x1b[1;2H"), (10000.5, "XY"), (20000, "\x1b[H\x1b[K"), (30000, "aXY"), (40000, "Z"))
    finds(["--find=XY", twice], "10000.500000 20000.000000 1 2", "30000.000000 - 1 2")
    finds(["--find=XY", "--until=15000", twice], "10000.500000 - 1 2")
    finds(["--find=XY", "--from=15000", twice], "30000.000000 - 1 2")
    finds(["--find=row", "--from=40000", twice], "40000.000000 - 24 6")
    # 100 lines at once: rows 1 to 23 then have lines 77 to 99, and the 77 lines before them have scrolled off.
    log = cast("log.cast", (0.25, "$ \r\x1b[K"), (1.5, "".join(f"line {n}\r\n" for n in range(100))), (2, "\n"))
    finds(["--find=line 42", log], "log 1.500000 43 1")
    finds(["--find=ne 99", log], "1.500000 - 23 3")
    finds(["--find=line 77", log], "1.500000 2.000000 1 1", "log 2.000000 78 1")
    finds(["--find=line 7", log], "1.500000 - 1 1", *(f"log 1.500000 {n} 1" for n in (8, *range(71, 78))), "log 2.000000 78 1")
    finds(["--find=line 7", "--from=2", log], "2.000000 - 1 1", "log 2.000000 78 1")
    # A row that is full goes on in the next one, but not when it has scrolled off.
    full = cast("full.cast", (1, "-" * 78 + "DONE"), (2, "\n" * 24))
    finds(["--find=DONE", full], "1.000000 2.000000 1 79")
    finds(["--find=--DO", full], "1.000000 2.000000 1 77", "log 2.000000 1 77")
    glyphs = cast("shown.cast", (0, "x"), (10, " caf\u00e9 \u201cq\u201d \u65e5\u672c"), (20, "\x1b[2J"))
    for wanted, column in (("f\u00e9", 5), ("\u201cq", 8), ("\u65e5\u672c", 12)):
        finds([f"--find={wanted}", glyphs], f"10.000000 20.000000 1 {column}")
    wide = cast("rows.cast", (1, "\u65e5\u672c" + "\r\n" * 24))
    finds(["--find=\u672c", wide], "log 1.000000 1 1")
    # Two rows of the main page leave when the window becomes smaller, also while the alternate page is shown, and none of that.
    hidden = cast("hidden.cast", (0, "one\r\ntwo\r\nthree\r\n\x1b[?1049hfull"), (10, "r", "80x2"), env={"TERM": "xterm"})
    finds(["--find=two", hidden], "log 10.000000 2 1")
    for before, lines in (("", ["log 10.000000 2 1"]), ("\x1b[?1049h", [])):
        smaller = cast("smaller.cast", (0, before + "\x1b[Hone\r\ntwo\r\nthree\r\n"), (10, "r", "80x2"), (20, "four"), env={"TERM": "xterm"})
        finds(["--find=two", smaller], "0.000000 10.000000 2 1", *lines)
    (ROOM / "bytes").write_bytes(b"one")
    finds(["--find=ne", f"{ROOM}/bytes"], "0.050000 - 1 2", error="it has no times")
    finds(["--find=nothing", SLOW])
    finds(["--find=", SLOW])
    finds(["--find=one", str(ROOM / "none")], status=2, error="No such file")
    finds(["--find=one", "--until=x", SLOW], status=2, error="--until x")
    finds(["--find=" + "x" * 2047, SLOW])
    finds(["--find=" + "x" * 2048, SLOW], status=2, error="at most 2047 bytes")
    with open("/dev/full", "w") as full_disk:
        done = subprocess.run([PLAY, "--find=one", SLOW], stdout=full_disk, stderr=subprocess.PIPE, text=True)
    assert done.returncode == 2 and done.stderr.startswith("vt220-play: write failed: "), f"a full disk: {done}"


def test_languages():
    """What the first line names decides, or an option."""
    paging = ((0, "main"), (0.01, "\x1b[?1049h\x1b[2J\x1b[5;5Hother"), (36000, "\x1b[?1049l"))
    for env, words in (({"TERM": "xterm-256color"}, []), ({}, []), ({"TERM": "vt220"}, ["--terminal=xterm"])):
        file = cast("paging.cast", *paging, env=env)
        with play(*words, file) as rig:
            shows(rig, [*[""] * 4, "    other"], f"an xterm, by {words or env}")
            rig.keys(END)
            shows(rig, ["main"], "and its main page")
    file = cast("vt220.cast", *paging, env={"TERM": "vt220"})
    with play(file) as rig:
        rig.keys(END)
        shows(rig, [*[""] * 4, "    other"], "a VT220 ignores the alternate page")
    wide = cast("wide.cast", (0, "\x1b[1;100Hfar"), width=132)
    with play(wide, columns=132) as rig:
        shows(rig, [" " * 99 + "far"], "132 columns")
    refused([wide], 1, "132 columns are needed")


def test_contents():
    """The content decides on UTF-8 if nothing else does: of bytes, of a ttyrec, and of script."""
    parts = b"caf\xc3\xa9 \xe2\x94", b"\x82 end"
    data = b"".join(parts)
    frames = b"".join(struct.pack("<III", 100 + 36000 * at, 0, len(part)) + part for at, part in enumerate(parts))
    script = b"Script started on 2026-11-24 10:00:00+00:00%s\n%s\nScript done on 2026-11-24 10:00:01+00:00\n"
    (ROOM / "timing").write_text("".join(f"36000 {len(part)}\n" for part in parts))
    named = script % (b' [TERM="vt220" TTY="/dev/pts/1" COLUMNS="80" LINES="24"]', data)
    for name, recorded, words in (("raw", data, []), ("a.ttyrec", frames, []), ("a.script", script % (b"", data), []), ("b.script", named, []), ("c.script", named, [f"--timing={ROOM}/timing"])):
        (ROOM / name).write_bytes(recorded)
        for option, row in (([], "caf\u00e9 \u2502 end"), (["--encoding=auto"], "caf\u00e9 \u2502 end"), (["--encoding=dec"], "caf\u00c3\u00a9 \u00e2 end")):
            with play(*option, *words, str(ROOM / name)) as rig:
                draws(rig)
                rig.keys(END)
                shows(rig, [row], f"{name} {words} {option}")
    # In a VT220's bytes C3 is a letter. In UTF-8 the last character may be cut (RFC 3629).
    for data, is_utf8 in (
        (b"\xc3\xa9", True), (b"\xc3\xa9\xe2\x94", True), (b"\xc3\xa9\xf0\x9f\x98\x80", True), (b"\xc3\xa9\xed\x9f\xbf\xf4\x8f\xbf\xbf", True), (b"caf\xc3", False), (b"\xc3\xa9\xe9 ", False),
        (b"\xc3\xa9\xc0\xaf", False), (b"\xc3\xa9\xe0\x80", False), (b"\xc3\xa9\xf0\x8f\xbf\xbf", False), (b"\xc3\xa9\xed\xa0\x80", False), (b"\xc3\xa9\xf4\x90\x80\x80", False), (b"\xc3\xa9\xa9", False),
    ):
        (ROOM / "encoded").write_bytes(data)
        done = subprocess.run([PLAY, "--find=\u00c3", str(ROOM / "encoded")], stdout=subprocess.DEVNULL, stderr=subprocess.DEVNULL)
        assert done.returncode == int(is_utf8), f"{data} is UTF-8: {done.returncode}"


@pytest.mark.parametrize("path", sorted((TOP / "tests/bench/recordings").rglob("*.raw")), ids=lambda path: path.stem)
def test_recordings(path):
    """Real recordings, against the proved program."""
    encoding = "utf-8" if path.parent.name == "utf-8" else "dec"
    with play(f"--encoding={encoding}", str(path), columns=132) as rig:
        draws(rig)
        rig.keys(END)
        shows(rig, text_at(str(path), "--encoding", encoding), path.name)


def test_version_1():
    one = ROOM / "one.cast"
    one.write_text(json.dumps({"version": 1, "width": 80, "height": 24, "stdout": [[0, "one\r\n"], [10000, "two"]]}, indent=1))
    with play(str(one)) as rig:
        shows(rig, ["one"], "an asciicast of version 1")
        rig.keys(END)
        shows(rig, ["one", "two"], "the end of an asciicast of version 1")


def sized(name, **header):
    """Writes a recording in a window of 120x40, which changes. At 10000 seconds it does so before the output, and 300x300 is no size of a screen."""
    return cast(name, (0, "one\r\n\x1b[?1049h\x1b[40;118Hend"), (10000, "r", "90x10"), (10000, "two\x1b["), (20000, "r", "300x300"), (20000, "1;1Hthree"), (25000, "r", "255x50"),
                (25000, "m", "large"), (30000, "\x1b[50;250Hfour"), (40000, "r", "80x24"), (41000, "r", "wide"), width=120, height=40, **header)


SIZED_MOMENTS = ("0", "9999.5", "10000", "20000", "40000", "24b", "25b", "26b", "30b", "39b", "40b", "52b", *(f"event:{n}" for n in range(1, 11)), "marker:1")


@pytest.mark.parametrize("env", [{}, {"env": {"TERM": "xterm"}}])
def test_sizes(env):
    """A recording in a window that changes: as the proved program has it at each moment, whichever way a seek comes."""
    file = sized("sized.cast", **env)
    with play(file, rows=51, columns=255) as rig:
        for key, moment in ((".", "10000"), (".", "20000"), (".", "25000"), (".", "30000"), (".", "40000"), (",", "30000"), (",", "25000"), (",", "20000"), (HOME, "0"),
                            (END, "40000"), ("3", "12000"), ("0", "0"), ("8", "32000"), ("[", "25000"), ("/three\r", "20000"), ("/four\r", "30000"), ("/end\r", "0")):
            rig.keys(key)
            shows_all(rig, text_at(file, "--until", moment), "11:06:40", f"{key!r} goes to {moment}")
        rig.keys("q")
        rig.ended(0)


@pytest.mark.parametrize("env", [{}, {"env": {"TERM": "xterm"}}])
@pytest.mark.parametrize("moment", SIZED_MOMENTS)
def test_sizes_until(env, moment):
    file = sized("sized.cast", **env)
    with play(f"--until={moment}", file, rows=51, columns=255) as rig:
        draws(rig)
        rig.keys(END)
        shows_all(rig, text_at(file, "--until", moment), "", "the end")


def test_changes():
    file = sized("sized.cast")
    for option in ("80x24", "132x24", "100x30", "255x50"):
        with play(f"--size={option}", file, rows=51, columns=255) as rig:
            rig.keys(END)
            shows_all(rig, text_at(file, "--size", option), "8:20:00", f"--size={option} follows no change")
    many = cast("many.cast", (0, "one"), *((n, "r", f"{80 + n % 10}x{10 + n % 7}") for n in range(1, 1003)), (20000, "two"))
    with play(many, rows=30, columns=120) as rig:
        rig.keys(END)
        shows_all(rig, text_at(many), "5:33:20", "the first 1000 changes are carried out")
    outer = Outer(many, rows=30, columns=120)
    assert b": 2 changes of its size aren't carried out\r\n" in outer.shows(b"one", "it plays"), "and a note tells of the others"
    grows = cast("grows.cast", (0, "one"), (10000, "r", "100x30"), (20000, "two"))
    large = cast("large.cast", (0, "one"), width=120, height=40)
    refused([large], 1, "this terminal has 24 rows and 80 columns, and 40 rows and 120 columns are needed")
    outer = Outer(grows, rows=24, columns=80)
    outer.shows(b"one", "a recording that fits at its beginning")
    outer.rig.send(b".")
    outer.shows(b"30 rows and 100 columns are needed", "and not after a change")
    outer.rig.resize(30, 100)
    outer.shows(b"one", "a terminal that becomes large enough")
    outer.rig.send(b",")
    outer.shows(b"one", "and back")


def test_scripts():
    """A typescript with its times."""
    (ROOM / "typescript").write_bytes(b"Script started on 2026-11-24 10:00:00+00:00\nA\r\nB\r\n\nScript done on 2026-11-24 10:00:01+00:00\n")
    (ROOM / "timing").write_bytes(b"0.01 3\n9000 3\n")
    with play(f"--timing={ROOM}/timing", f"{ROOM}/typescript") as rig:
        shows(rig, ["A"], "script with a timing file")
        rig.keys(END)
        shows(rig, ["A", "B"], "and its end")
    with play(f"{ROOM}/typescript") as rig:
        shows(rig, ["A", "B"], "script without one")
    (ROOM / "resized").write_bytes(b"H 0.000000 COLUMNS 80\nH 0.000000 LINES 24\nO 0.01 3\nS 1.0 SIGWINCH ROWS=10 COLS=90\nO 9000 3\n")
    with play(f"--timing={ROOM}/resized", f"{ROOM}/typescript", rows=30, columns=90) as rig:
        rig.keys(END)
        shows_all(rig, ["A", "B", *[""] * 8], "2:30:01", "a window that changes")


def test_below():
    """What a terminal with more rows shows below the screen, which is drawn in differences."""
    outer = Outer(SLOW)
    outer.shows(b"plays 0:00 / 8:20:00, speed 1", "the line below")
    outer.rig.send(b" ")
    outer.shows(b"stopped 0:00 / 8:20:00, speed 1", "it has stopped")
    outer.rig.send(b">>")
    outer.shows(b"speed 4", "it would play faster")
    outer.rig.send(b"<<<<<<<")
    outer.shows(b"speed 0.25", "and not more slowly than that")
    outer.rig.send(b".")
    drawn = outer.shows(b"stopped 2:46:40 / 8:20:00, speed 0.25", "a step")
    assert b"two" in drawn and b"one" not in drawn, f"only what changed is drawn: {drawn!r}"
    outer.rig.send(b"\x0c")
    assert b"one" in outer.shows(b"stopped 2:46:40", "Ctrl-L"), "Ctrl-L draws everything"
    outer.rig.resize(20, 80)
    outer.shows(b"24 rows and 80 columns are needed", "a terminal that becomes too small")
    outer.rig.resize(24, 80)
    outer.shows(b"two", "and large enough")
    outer.rig.send(b"q")
    outer.rig.ended(0)


def test_bells():
    rings = cast("rings.cast", (0, "one"), (0.01, "\a"), (0.02, "\a"), (0.03, "two"), (36000, "\a"))
    with play(rings) as rig:
        shows(rig, ["onetwo"], "a recording with bells")
        assert rig.terminal.bells() > 0, "they ring"
        rung = rig.terminal.bells()
        rig.keys(END, HOME, "/two", ENTER)
        shows(rig, ["onetwo"], "and are passed over")
        assert rig.terminal.bells() == rung, "which rings none"


def test_covered():
    """On a terminal of as many rows as the recording, the line covers the last row for a while: after a key and at the end. Then the row is back."""
    file = cast("covered.cast", (0, "one\x1b[24;1Hlast-row\x1b[H"), (10000, "two\x1b[24;1Hnew-row "), (20000, "\x1b[24;1Hend-row"))
    outer = Outer(file, rows=24)
    outer.shows(b"last-row", "it plays")
    for keys, said, row in ((b">", b"speed 2", b"last-row"), (b"<<", b"speed 0.5", b"last-row"), (b".", b"stopped 2:46:40", b"new-row"), (b".", b"at the end: 5:33:20 / 5:33:20", b"end-row")):
        outer.rig.send(keys)
        outer.shows(said, f"the line after {keys}")
        outer.shows(row, f"and the row {row} is back")
    outer.rig.send(b"?")
    outer.shows(b"q ends", "the keys")
    outer.rig.send(b"q")
    outer.rig.ended(0)
    outer = Outer(cast("soon.cast", (0, "one\x1b[24;1Hlast-row"), (0.01, "\x1b[H")), rows=24)
    for said in (b"last-row", b"; ? shows the keys, q ends it", b"last-row"):
        outer.shows(said, "the line at the end, which comes and goes by itself")
    with play(file, rows=24) as rig:
        rig.keys(".", END)
        shows(rig, ["two", *[""] * 22, "end-row"], "the screen is whole")


@pytest.mark.parametrize("number", [0, *ENDINGS, *FAULTS], ids=lambda number: number and number.name)
def test_restored(number):
    """However it ends, by a key or by a signal, the screen, the cursor and the line are as they were."""
    with play(cast("hidden.cast", (0, "\x1b[?25lone")), before="before") as rig:
        rig.wait("one")
        raw = termios.tcgetattr(rig.process.line)
        assert not raw[3] & (termios.ICANON | termios.ECHO | termios.ISIG) and not rig.last.modes.dectcem, "raw meanwhile, and the cursor hidden"
        os.kill(rig.process.pid, number) if number else rig.keys("q")
        rig.ended(-number)
        assert list(rig.last.rows[:2]) == ["before", ""] and rig.last.modes.dectcem, "the screen and the cursor are back"
        now = termios.tcgetattr(rig.process.line)
        assert now[3] & termios.ICANON and now[3] & termios.ECHO and now[3] & termios.ISIG and now[1] & termios.OPOST, "the line is back"


def test_closed():
    pid, line = pty.fork()
    if pid == 0:
        os.execvp("sh", ["sh", "-c", f"stty rows 24 cols 80; exec {PLAY} {SLOW}"])
    got = b""
    while b"one" not in got:
        got += os.read(line, 65536)
    os.close(line)
    status = os.waitstatus_to_exitcode(os.waitpid(pid, 0)[1])
    assert status in (-signal.SIGHUP, 1), f"a terminal that closes ends it: {status}"


def test_stopped():
    """Ctrl-Z stops it as other programs are stopped, and fg continues."""
    script = f"set -m; echo before; {PLAY} {SLOW}; echo stopped; fg >/dev/null; echo status $?"
    with run("bash", "-c", script, terminal="xterm", timeout=PATIENCE) as rig:
        rig.wait("one", row=1)
        rig.keys(".")
        rig.wait("two")
        rig.keys("\x1a")
        # The shell continues it at once; the screen is drawn again, and keys arrive.
        rig.wait("two")
        rig.keys(END)
        shows(rig, ["one", "two", "three", "four"], "it goes on")
        rig.keys("q")
        rig.ended(0)
        shows(rig, ["before", *rig.last.rows[1:]], "the screen is back")
        assert "stopped" in rig.last.rows and "status 0" in rig.last.rows, f"it was stopped: {rig.last.rows[:8]}"


def test_refusals():
    """What can't be played, in one line."""
    for name, data, said in (
        ("a.gz", gzip.compress(b"x" * 100), "compressed"), ("empty", b"", "no output"),
        ("nine.cast", b'{"version": 9}\n[0, "o", "x"]\n', "versions 1 to 3"),
    ):
        (ROOM / name).write_bytes(data)
        refused([str(ROOM / name)], 1, name, said)
    refused([str(ROOM / "none")], 1, "none", "No such file")
    refused([str(ROOM)], 1, "Is a directory")
    refused([f"--timing={ROOM}/none", SLOW], 1, "none", "No such file")
    refused([SLOW], 1, "20 rows and 80 columns", rows=20)
    refused([SLOW], 1, "24 rows and 79 columns", columns=79)
    for words, said in (
        ([], "FILE is missing"), ([SLOW, "x"], "'x'"), (["--wrong", SLOW], "--wrong"), (["--speed=0", SLOW], "--speed"), (["--speed=x", SLOW], "--speed"),
        (["--until=1x", SLOW], "1x"), (["--until=12:61", SLOW], "12:61"), (["--from=event:0", SLOW], "event:0"), (["--pause=-1", SLOW], "--pause"),
        (["--encoding=x", SLOW], "--encoding"), (["--size=1x24", SLOW], "--size is columns and rows, as 120x40: 2 to 255 columns and 2 to 255 rows, or auto, not '1x24'"), (["--terminal=xterm", "--encoding=dec", SLOW], "UTF-8"),
    ):
        refused(words, 2, said)
    for moment in ("event:9", "marker:2"):
        refused([f"--until={moment}", SLOW], 1, moment)
    done = subprocess.run([PLAY, SLOW], stdin=subprocess.DEVNULL, capture_output=True, text=True)
    assert done.returncode == 2 and done.stderr == "vt220-play: it needs a terminal\n", f"no terminal: {done}"
    for words, said in ((["--help"], "usage: vt220-play"), (["--version"], "vt220-play 0.")):
        done = subprocess.run([PLAY, *words], capture_output=True, text=True)
        assert done.returncode == 0 and done.stdout.startswith(said), f"{words}: {done}"


def test_notes():
    """What is played in another way than it was recorded, in one line before it."""
    broken = ROOM / "broken.cast"
    broken.write_text('{"version": 2, "width": 120, "height": 40}\n[0, "o", "one"]\n[1, "o"\n')
    (ROOM / "plain").write_bytes(b"one")
    large = cast("large.cast", (0, "one"), width=300, height=60)
    for options, file, *said in (
        (["--size=80x24"], broken, "recorded at 120x40, played on 80x24", "breaks its format at byte"), ([], pathlib.Path(large), "recorded at 300x60, played on 80x24"),
        ([], ROOM / "plain", "no times"),
    ):
        outer = Outer(*options, str(file))
        before = outer.shows(b"one", f"{file.name} plays").decode()
        assert before.startswith(f"vt220-play: {file}: ") and before.count("\n") == 1 and all(word in before for word in said), f"its note: {before!r}"
    