"""The log, and scrolling in it."""
import sys

from sessions import *


def test_logged():
    """The log: the last 10,000 lines that scrolled off, and the screen."""
    shell("log", "seq 1 100; printf 'last\\033[1;5r\\033[5H\\n\\n'; read x; seq 1 30000; printf ready; read x")
    wait(lambda: "last" in lines("log") and lines("log")[3:5] == ["", ""], "the program has written")
    done = keep("log", "log").stdout.splitlines()
    # Of 100 lines and the last one 77 scroll off. Two line feeds at the end of the region 1 to 5 take the next two.
    assert done[:79] == [str(n) for n in range(1, 80)], "the lines that scrolled off"
    assert done[79:] == lines("log") == ["80", "81", "82", "", "", *map(str, range(83, 101)), "last"], "and the screen"
    keep("send", "log", "Enter")
    wait(lambda: "ready" in lines("log"), "it has written much")
    done = keep("log", "log").stdout.splitlines()
    assert done[:10000] == [str(n) for n in range(19997, 29997)] and done[10000:] == lines("log"), "the last 10,000 lines, and the screen"
    old = Raw("log", b"g")
    assert old.hello[1][:1] == b"\1" and old.frame()[0] == b"R", "a client of version 1 gets no log"
    slow = [Raw("log", b"g", version=2) for _ in range(3)]
    assert all(it.hello[1][:1] == b"\2" for it in slow) and lines("log")[3] == "30000", "clients that read nothing block nobody"
    letter, screen = slow[0].frame()
    assert letter == b"T" and screen.decode() == text("log"), "the screen comes first"
    got = b""
    while letter in (b"T", b"L"):
        letter, more = slow[0].frame()
        got += more
    assert letter == b"Z" and got.decode().splitlines() == done[:10000], "then the lines, and the end"
    wait(lambda: slow[1].size() > 0, "others are served, too")
    paged(done)
    end("log")
    status, said = answered("log", b"\5\1\5\0" + b"0.3.0", frame(b"T", b"ab\n") + frame(b"Z", struct.pack("=Q", 77)))
    assert status == 1 and said == "ab\nvt220-keep: peer wrote faster than its log could be read: 77 bytes of it are missing\n", f"what is missing is told: {said}"
    assert "kept by an older vt220-keep, which keeps no log" in answered("log", b"\1\1\1\0" + b"0.2.0")[1], "an older keeper has no log"


def paged(wanted):
    """A pager reads nothing while it shows its first page: `log` has read the whole log by then."""
    reader, writer = os.pipe()
    fcntl.fcntl(writer, fcntl.F_SETPIPE_SZ, 4096)  # less than the log
    asking = subprocess.Popen([KEEP, "log", "log"], env=ENVIRONMENT, stdout=writer, stderr=subprocess.PIPE)
    os.close(writer)
    sockets = pathlib.Path(f"/proc/{asking.pid}/fd")
    wait(lambda: waiting(reader) == 4096, "the pager has its first page")
    wait(lambda: not any(os.readlink(file).startswith("socket:") for file in sockets.iterdir() if file.is_symlink()), "it needs the keeper no more")
    with os.fdopen(reader) as pager:
        assert pager.read().splitlines() == wanted, "then a pager reads all of it"
    assert asking.wait() == 0 and asking.stderr.read() == b"", "and nothing is wrong"


def test_scrolled():
    """Scrolling back while attached: the log is shown in place of the screen, and keys move in it."""

    def shows(outer, first, last, count=101):
        wanted = [str(n) for n in range(first, last + 1)]
        shown = outer.shown()[: len(wanted)]
        return bool(shown) and shown[0].split() == [str(first), f"[{first}-{last}/{count}]"] and shown[1:] == wanted[1:]

    shell("back", "seq 1 100; stty -echo; cat", size="80x24")
    wait(lambda: lines("back")[22:] == ["100", ""], "the program has written")
    outer = Outer("back")
    outer.follows("back", "before it scrolls")
    outer.keys("S-PPage")
    wait(lambda: shows(outer, 54, 77), "Shift-PageUp shows the page above the screen")
    assert outer.tells("cursor_flag") == "0", "the cursor is hidden"
    for key, first in (("PPage", 31), ("Up", 30), ("Down", 31), ("NPage", 54), ("S-PPage", 31), ("Home", 1), ("PPage", 1), ("Down", 2)):
        outer.keys(key)
        wait(lambda: shows(outer, first, first + 23), f"{key}: from line {first} on")
    keep("send", "back", "new line", "Enter")
    wait(lambda: "new line" in lines("back"), "the program goes on")
    assert shows(outer, 2, 25), "which isn't shown"
    outer.resize(80, 10)
    wait(lambda: shows(outer, 2, 11), "on a smaller screen")
    outer.keys("End")
    wait(lambda: outer.shown()[0].split() == ["92", "[92-101/101]"], "the end of the log is the screen as it was")
    outer.resize(80, 24)
    outer.keys("q")
    outer.follows("back", "after it has scrolled")
    outer.keys("C-PPage")
    wait(lambda: outer.shown()[0].endswith("/102]"), "the log is asked for again")
    outer.keys("Escape")
    outer.follows("back", "after ESC")
    outer.keys("z", "Enter")
    wait(lambda: "z" in lines("back"), "keys are sent again")
    assert "q" not in "".join(lines("back")), "the key that returned wasn't"
    pasting = Terminal("attach", "back", shows=b"100")
    pasting.type(b"\033[5;2~")
    assert pasting.shows(b"/103]"), "another client scrolls"
    pasting.type(b"qABCDEFGHIJ\r")
    wait(lambda: "ABCDEFGHIJ" in "".join(lines("back")), "what is typed at once after the key that returns is sent")
    assert "q" not in "".join(lines("back")), "without that key"
    paged = ROOM / "paged"
    pasting.close()
    paging = Terminal("attach", "back", PAGER=f"kill -TSTP $$; cat >{paged}; kill -INT $PPID", shows=b"100")
    paging.type(b"\033[5;2~")
    assert paging.shows(b"/104]"), "one more client scrolls"
    paging.got = b""
    paging.type(b"/")
    wait(lambda: paged.exists() and paged.read_text().split()[:100] == [str(n) for n in range(1, 101)], "/ gives the log to the pager")
    assert "ABCDEFGHIJ" in paged.read_text(), "with the screen"
    assert paging.shows(b"/104]"), "after the pager the log is shown again"
    paging.type(b"qpaged\r")
    wait(lambda: "paged" in "".join(lines("back")), "and then keys are sent")
    paging.close()
    outer.keys("M-PPage")
    wait(lambda: outer.shown()[0].endswith("/105]"), "with Alt")
    outer.keys("C-\\")
    outer.is_left("while it scrolls", "vt220-keep: detached from back", "status 0")
    reader = Outer("back", words="attach -r")
    reader.follows("back", "a client that only shows")
    reader.keys("S-PPage")
    wait(lambda: reader.shown()[0].endswith("/105]"), "it scrolls, too")
    end("back")
    wait(lambda: reader.tells("alternate_on") == "0", "the end of the command ends this, too")


# Lines of 402 bytes and then of 501: the ring grows to its limit while its lines cross the new ring's end. (A ring has 4,194,304 bytes
# before, and at most 10,000 lines of 766.) A line is a number and line drawing, of three bytes each.
SHORT_LINES, LONG_LINES = 17000, 9000
PRINTS = r"""
printf '\033(0'
awk 'BEGIN { for (i = 0; i < 132; i++) s = s "q"
  for (l = s; i < 165; i++) l = l "q"
  for (i = 0; i < 17000; i++) printf "%05d%s\n", i, s
  for (; i < 26000; i++) printf "%05d%s\n", i, l
  printf "ready" }'
read x
awk 'BEGIN { for (i = 26000; i < 60000; i++) printf "%05d\n", i; printf "again" }'
read x
"""


def line_of(number):
    return f"{number:05}" + "\u2500" * (132 if number < SHORT_LINES else 165 if number < SHORT_LINES + LONG_LINES else 0)


def test_wide_log():
    """A ring that grows to its limit, and a client that reads it slowly."""
    shell("wide", PRINTS, size="255x24")
    # In Special Graphics letters are other characters, so `ready` shows as these.
    last = SHORT_LINES + LONG_LINES - 23  # lines that scrolled off
    wait(lambda: len(lines("wide")) == 24 and lines("wide")[22] == line_of(last + 22) and lines("wide")[23] != "", "the program has written")
    done = keep("log", "wide").stdout.splitlines()
    assert done[:10000] == [line_of(number) for number in range(last - 10000, last)], "the last 10,000 lines of a ring at its limit"
    assert done[10000:] == lines("wide"), "and the screen"
    slow = Raw("wide", b"g", version=2)
    letter, _ = slow.frame()
    assert letter == b"T", "the screen comes first"
    letter, more = slow.frame()
    assert letter == b"L" and len(more) > 0, "then lines"
    got = b""
    keep("send", "wide", "x", "Enter")
    wait(lambda: len(lines("wide")) == 24 and lines("wide")[22] == "59999", "meanwhile 34,000 more lines come")
    while letter == b"L":
        got += more
        letter, more = slow.frame()
    assert letter == b"Z", "the log ends"
    kept = sum(len(line_of(number).encode()) + 1 for number in range(last - 10000, last))
    assert len(more) == 8 and 0 < int.from_bytes(more, sys.byteorder) == kept - len(got), f"and says how many bytes of it are missing: {more}"
    numbers = [int(line[:5]) for line in got.decode().splitlines()]
    assert got.decode().splitlines() == [line_of(number) for number in numbers], "each is a whole line"
    assert numbers == sorted(set(numbers)), "they are in order, and none comes twice"
    assert last - 10000 <= numbers[0] and numbers[-1] < last and len(numbers) < 10000, "none is of those that came later, and those that went are left out"


def test_scroll_keys():
    """PageUp with each of Shift, Alt and Ctrl, and with several of them."""
    shell("pages", "seq 1 100; stty -echo; cat")
    wait(lambda: lines("pages")[22:] == ["100", ""], "the program has written")
    for modifier in range(2, 9):
        outer = Terminal("attach", "pages", shows=b"100")
        outer.type(b"\033[5;%d~" % modifier)
        assert outer.shows(b"/101]"), f"PageUp with modifier {modifier} shows the log"
        outer.close()
    for number, key in enumerate((b"\033[5;1~", b"\033[5;9~", b"\033[6;5~")):
        outer = Terminal("attach", "pages", shows=b"100")
        outer.type(key + b"after %d\r" % number)
        wait(lambda: f"after {number}" in text("pages"), f"{key!r} is sent, and what comes after it")
        assert not re.search(rb"\[\d+-\d+/\d+\]", outer.read()), f"{key!r} doesn't scroll"
        keep("send", "pages", "Enter")
        outer.close()
