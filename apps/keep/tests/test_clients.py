"""What a client shows, and how it leaves its terminal."""
from sessions import *


def test_bells():
    steps = ["\\a", "\\033]0;title\\a", "\\033P\\a\\033\\\\", "\\033[\\a5n", "end"]
    shell("bells", " ".join(f"read x; printf '{step}step{n}';" for n, step in enumerate(steps)) + " exec cat")
    outer = Terminal("attach", "bells", shows=b"\033[?25h")
    for number, rings in ((0, True), (1, False), (2, False), (3, True)):
        before = outer.read().count(b"\a")
        outer.type(b"\r")
        outer.shows(b"step%d" % number)
        if rings:
            wait(lambda: outer.read().count(b"\a") == before + 1, f"the bell of step {number}")
        else:
            marks = outer.read().count(b"#")
            outer.type(b"#")
            wait(lambda: outer.read().count(b"#") > marks, f"what is typed after step {number} is shown")
            assert outer.read().count(b"\a") == before, f"no bell of step {number}, in a control string"


def test_kept_end():
    """What a command that ended while nobody looked has left."""
    shell("job", "seq 1 100; echo what went wrong; exit 3")
    wait(lambda: has_ended("job"), "a command ends")
    log = keep("log", "job").stdout
    assert re.match(r"job +ended with status 3, \d{4}-\d\d-\d\d \d\d:\d\d ", keep("list").stdout), "the list has how it ended"
    assert "what went wrong" in lines("job") and row("job")["status"] == "3", "its text is kept"
    assert keep("send", "job", "x").returncode == 1, "it takes no keys"
    for time_of in ("first", "second"):
        outer = Terminal("attach", "job")
        assert outer.status() == 3 and b"what went wrong\r\nvt220-keep: ended on " in outer.read(), f"attach shows the last screen and the status, the {time_of} time"
        assert b"\033[?1049h" not in outer.read(), "on the screen itself"
        outer.close()
    old = Raw("job", b"a")
    got = [old.frame()[0] for _ in range(2)]
    old.seen()
    assert [*got, old.frame()[0]] == [b"P", b"E", b""], "an older client gets the screen and the end, and is let go"
    old.close()
    assert log.splitlines()[:101] == [*map(str, range(1, 101)), "what went wrong"] and keep("log", "job").stdout == log, "the log stays, whoever looked"
    assert keep("kill", "job").returncode == 0 and row("job") is None, "kill removes it"
    shell("job", "echo left; exit 4")
    wait(lambda: has_ended("job"), "another one ends")
    outer = Terminal("new", "-A", "job", "cat")
    assert outer.status() == 4 and b"left\r\nvt220-keep: ended on " in outer.read() and row("job") is None, "new -A shows the last screen and removes it"
    outer.close()
    with listening() as peer:
        outer = Terminal("attach", "peer")
        older = peer.accept()[0]
    hello = older.recv(8)
    older.sendall(frame(b"H", b"\1\1\1\1" + b"0.2.0") + frame(b"P") + frame(b"E", bytes(16)))
    assert (hello[6:], older.recv(1)) == (b"a\0", b"") and outer.status() == 0, "attach confirms nothing, so that an older keeper keeps the log, too"
    older.close()
    outer = Terminal("new", "-A", "seen", "sh", "-c", "printf ready; read x; echo last words; exit 3", shows=b"ready")
    outer.type(b"\r")
    assert outer.status() == 3, "a command ends while somebody is attached"
    left = outer.read().rpartition(b"\033[?1049l")[2]
    assert b"ready\r\nlast words\r\nvt220-keep: seen ended with status 3" in left, "its last screen is printed after the alternate one"
    outer.close()
    outer = Terminal("new", "-A", "seen", "sh", "-c", "stty -echo; seq 300; printf end; read x; exit 3", shows=b"end")
    outer.type(b"\r")
    assert outer.status() == 3 and row("seen") is None, "it ends, and the list leaves it out"
    assert keep("log", "seen").stdout.split()[:300] == [*map(str, range(1, 301))], "its log stays"
    assert keep("upgrade", "seen").returncode == 0 and lines("seen")[22] == "300" and row("seen") is None, "and its screen, also over an upgrade"
    outer.close()
    outer = Terminal("new", "-A", "seen", "sh", "-c", "stty -echo; echo another; read x; exit 5", shows=b"another")
    outer.type(b"\r")
    assert outer.status() == 5 and b"another" in outer.read(), "new -A begins anew, and shows no screen of the other one"
    assert keep("kill", "seen").returncode == 0 and keep("log", "seen").returncode == 1, "kill removes it"
    outer.close()
    shell("job", "exit 4")
    wait(lambda: has_ended("job"), "it ends again")
    assert keep("new", "job", "cat").returncode == 0 and listed("job"), "its name can be used again"
    end("job")
    keep("new", "job", "true", env=ENVIRONMENT | {"KEEP_LINGER": "1"})
    wait(lambda: row("job") is None, "it is kept for its time")
    keep("new", "job", "true", env=ENVIRONMENT | {"KEEP_LINGER": "0"})
    wait(lambda: row("job") is None, "or not at all")
    for wrong in ("x", "-1", "1 day"):
        assert keep("new", "job", "true", env=ENVIRONMENT | {"KEEP_LINGER": wrong}).returncode == 2, f"KEEP_LINGER={wrong!r} is refused"


def test_attach_or_new():
    outer = Terminal("new", "-A", "both", "sh", "-c", "echo made; exec cat")
    assert outer.shows(b"made"), "new -A makes a session and attaches"
    other = Terminal("new", "-A", "both", "false")
    assert other.shows(b"made"), "and attaches to one that is there"
    watcher = Terminal("attach", "-r", "both", shows=b"made")
    watcher.type(b"never\r")
    other.type(b"typed\r")
    assert watcher.shows(b"typed"), "attach -r follows"
    assert "never" not in text("both"), "and sends no keys"
    raw = Raw("both", b"a", flags=1)
    raw.keys(b"never\r")
    outer.type(b"again\r")
    wait(lambda: "again" in text("both"), "keys of others go on")
    assert "never" not in text("both"), "the keeper takes none of a client that only reads"
    watcher.type(b"\x1c")
    assert watcher.status() == 0, "it detaches by the same key"


def test_leaves():
    """Signals to a client leave the outer terminal in order."""
    new("leaves", "cat")
    for number in (signal.SIGALRM, signal.SIGUSR1, signal.SIGUSR2, signal.SIGQUIT):
        outer = Outer("leaves")
        outer.follows("leaves", "before a signal")
        os.kill(outer.client(), number)
        outer.is_left(number.name, "status 0")
    outer = Terminal(script=f"set -m; {KEEP} attach leaves; read x; fg; exec sleep infinity", shows=b"\033[?1049h")
    children = pathlib.Path(f"/proc/{outer.process.pid}/task/{outer.process.pid}/children")
    pid = int(children.read_text().split()[0])
    os.kill(pid, signal.SIGTSTP)
    stopped = lambda: pathlib.Path(f"/proc/{pid}/stat").read_text().rpartition(")")[2].split()[0] == "T"
    wait(stopped, "SIGTSTP stops a client")
    assert outer.shows(b"\033[?1049l"), "with the outer screen as it was"
    assert termios.tcgetattr(outer.master)[3] & termios.ICANON, "and the line"
    at = len(outer.read())
    outer.type(b"\n")
    wait(lambda: b"\033[?1049h" in outer.read()[at:], "it goes on")
    keep("send", "leaves", "goes-on", "Enter")
    wait(lambda: b"goes-on" in outer.read()[at:], "and shows the screen")
    outer.type(b"\x1c")
    wait(lambda: b"detached" in outer.read()[at:], "and takes keys")


def test_small():
    """A terminal that is smaller than the session shows the part that has the cursor, and says which."""
    shell("small", "for i in $(seq 1 23); do echo line $i; done; printf 'the prompt '; exec cat", size="80x24")
    outer = Outer("small", 40, 10)
    wait(lambda: outer.shown()[9:10] == ["the prompt"], "the row of the cursor is shown")
    wait(lambda: outer.shown()[0] == "line 15               [15-24/24 1-40/80]", "the corner says which part it is")
    wait(lambda: (outer.tells("cursor_x"), outer.tells("cursor_y")) == ("11", "9"), "the cursor is in its place")
    tmux("send-keys", "-t", outer.target, "-l", "x" * 50)
    wait(lambda: "/80]" in outer.shown()[0] and "1-40" not in outer.shown()[0], "it follows the cursor to the side")
    outer.follows("small", "a part to the side")
    outer.resize(80, 24)
    wait(lambda: outer.shown()[0] == "line 1" and outer.shown()[23].endswith("x" * 50), "all of it without a hint, if it fits")


def test_drawn():
    """What is written to an outer terminal, also to one of 3 rows by 30 columns: all of the screen, and then what changed. The bytes are by
    hand, by the rules of vt220_draw in vt220.h: a place's CUP, its SGR and its character, and the cursor's place at the end."""

    def whole(first, second, plain):
        """The bytes of a screen of which all places change, with the first row of either look."""
        rows = {1: first + " " * 70, 2: "second" + " " * 74, 5: "   *" + " " * 76}
        return "".join(f"\033[{row};1H{plain if row == 1 else ''}{rows.get(row, ' ' * 80)}" for row in range(1, 25)) + second

    start = "\033[0m\033[1;1H\033[J\033[?25h\033[0;1mbold\033[1;6H\033[0mplain"
    blank = " " * 30
    steps = [
        ("\033[1mbold\033[m plain\r\nsecond", f"{start}\033[2;1Hsecond", f"{start}\033[1;15H\033[0;7m[1-3/24 1-30/80]\033[2;1H\033[0msecond"),
        ("\033[5;4H*", "\033[5;4H*", "\033[1;1H    \033[1;6H     \033[1;16H\033[0;7m3\033[1;18H5\033[2;1H\033[0m      \033[3;4H*"),
        ("\033[?5h", whole("bold\033[0;7m plain", "\033[5;5H\033[0m", "\033[0;1;7m"),
         f"\033[1;1H\033[0;7m{' ' * 14}\033[2;1H{blank}\033[3;1H   *{' ' * 26}\033[3;5H\033[0m"),
        ("\033[?5l\033[?25l", whole("bold\033[0m plain", "\033[5;5H\033[?25l", "\033[0;1m"),
         f"\033[1;1H{' ' * 14}\033[2;1H{blank}\033[3;1H   *{' ' * 26}\033[3;5H\033[?25l"),
        ("\033[?25h\033[5;60H>", "\033[5;60H>\033[?25h", "\033[1;14H\033[0;7m[3-5/24 47\033[1;25H76\033[3;4H\033[0m \033[3;14H>\033[?25h"),
        ("\007\033=", "\007\033=", "\007\033="),
    ]
    script = "; read x; ".join("printf '{}'".format(said.replace("\033", "\\033").replace("\007", "\\007").replace("\r\n", "\\r\\n")) for said, *_ in steps)
    shell("drawn", f"stty -echo; {script}; exec cat", size="80x24")
    wait(lambda: lines("drawn")[1] == "second", "the first screen")
    outers = [(Terminal("attach", "drawn"), 1), (Terminal("attach", "drawn", rows=3, columns=30), 2)]
    for count in range(1, len(steps) + 1):
        for outer, size in outers:
            wanted = "\033[?1049h\033[0m\033[?25h" + "".join(step[size] for step in steps[:count])
            assert until(lambda: outer.read() == wanted.encode()), f"step {count} of size {size} is drawn: {outer.got}"
        keep("send", "drawn", "Enter")


def test_huge():
    """A terminal of any size costs neither memory nor bytes for what is blank."""
    shell("huge", "echo shown; exec cat", size="80x24")
    usual = Terminal("attach", "huge")
    large = Terminal("attach", "huge", rows=10000, columns=10000)
    assert usual.shows(b"shown") and large.shows(b"shown"), "both show the screen"
    large.type(b"typed\r")
    assert usual.shows(b"typed") and large.shows(b"typed"), "and go on"
    assert resident(large.process.pid) - resident(usual.process.pid) < 32 << 20, "the large one takes little memory"
    assert len(large.read()) < 4096, f"and few bytes: {len(large.read())}"
