"""Real programs, with tmux as the outer terminal."""
from sessions import *


def test_vi():
    (ROOM / "poem").write_text("".join(f"line {n} of a poem\n" for n in range(1, 101)))
    new("vi", "vim", "-u", "NONE", "-i", "NONE", "-N", "-n", str(ROOM / "poem"))
    wait(lambda: lines("vi")[:1] == ["line 1 of a poem"], "vi shows its file with nobody there")
    outer = Outer("vi")
    outer.follows("vi", "vi")
    outer.keys("Oa new first line", "Escape", "5j", "dd", "G")
    wait(lambda: "line 100 of a poem" in lines("vi"), "vi takes keys")
    outer.follows("vi", "vi at work")
    outer.keys("gg")
    wait(lambda: lines("vi")[:1] == ["a new first line"], "vi is back at the top")
    outer.follows("vi", "vi at the top")
    wait(lambda: (outer.tells("cursor_x"), outer.tells("cursor_y")) == ("0", "0"), "the cursor is in its place")
    assert attached("vi") == 1, "one is attached"
    outer.keys("C-\\")
    outer.is_left("Ctrl-\\", "vt220-keep: detached from vi", "status 0")
    wait(lambda: attached("vi") == 0, "nobody is attached")
    assert plays(repaint("vi")) == text("vi"), "the repaint, played by the program, shows the same text"
    first, second = Outer("vi"), Outer("vi")
    first.follows("vi", "attached again")
    second.follows("vi", "attached twice")
    second.keys("ihere", "Escape")
    wait(lambda: lines("vi")[:1] == ["herea new first line"], "the second one's keys go there")
    first.follows("vi", "the first of two")
    second.follows("vi", "the second of two")
    os.kill(first.client(), signal.SIGKILL)
    wait(lambda: attached("vi") == 1, "one was killed, and the other is attached")
    first.close()
    second.keys("u")
    wait(lambda: lines("vi")[:1] == ["a new first line"], "vi goes on")
    second.follows("vi", "the one that is left")
    second.keys(":q!", "Enter")
    second.is_ended("vi ends", "vt220-keep: vi ended with status 0", "status 0")
    assert listed("vi") is None, "the session ends with its command"


def test_top():
    new("top", "top", "-d", "0.3")
    first, second = Outer("top"), Outer("top")
    for outer in (first, second):
        wait(lambda: re.search("\033\\[7m +PID USER", outer.styled()), "the head of top is in reverse")
    with still("top"):
        first.follows("top", "top")
        second.follows("top", "top, the other")
    clock = first.shown()[0]
    wait(lambda: first.shown()[0] not in (clock, "BEFORE") and second.shown()[0] != clock, "both follow top")
    os.kill(second.client(), signal.SIGTERM)
    second.is_left("SIGTERM", "status 0")
    tmux("kill-window", "-t", first.target)
    wait(lambda: attached("top") == 0, "a window that is closed detaches")
    first, second = Outer("top"), Outer("top")
    wait(lambda: attached("top") == 2, "two are attached")
    assert keep("detach", "top").returncode == 0, "detach"
    first.is_left("keep detach", "vt220-keep: detached from top", "status 0")
    second.is_left("keep detach, the other", "vt220-keep: detached from top", "status 0")
    outer = Outer("top")
    with still("top"):
        outer.follows("top", "top again")
    outer.keys("q")
    outer.is_ended("top ends", "vt220-keep: top ended with status 0", "status 0")


def test_less():
    (ROOM / "poem").write_text("".join(f"line {n} of a poem\n" for n in range(1, 101)))
    new("less", "less", str(ROOM / "poem"))
    outer = Outer("less")
    wait(lambda: lines("less")[22:23] == ["line 23 of a poem"], "less shows its file")
    outer.follows("less", "less")
    outer.keys("/line 55", "Enter")
    wait(lambda: lines("less")[:1] == ["line 55 of a poem"], "less finds a line")
    outer.follows("less", "less at a place")
    wait(lambda: "\033[7mline 55" in outer.styled(), "what less found is in reverse")
    for columns, rows in ((60, 20), (30, 5), (110, 40), (1, 1), (80, 24), (132, 24), (80, 30)):
        outer.resize(columns, rows)
        wait(lambda: outer.tells("pane_width") == str(columns), f"a window of {columns} by {rows}")
        outer.follows("less", f"{rows} by {columns}")
    outer.keys("G")
    wait(lambda: "line 100 of a poem" in lines("less"), "less goes to the end")
    outer.follows("less", "less at the end")
    outer.keys("q")
    outer.is_ended("less ends", "vt220-keep: less ended with status 0", "status 0")


def test_flood():
    new("flood", "yes", "a flood of lines")
    outer, other = Outer("flood"), Outer("flood")
    wait(lambda: outer.shown()[:22] == ["a flood of lines"] * 22, "a flood is shown")
    pid = keeper("flood")
    before = resident(pid)
    stalled = outer.client()
    os.kill(stalled, signal.SIGSTOP)
    silent = Raw("flood", b"a")
    for _ in range(3):
        assert lines("flood")[:22] == ["a flood of lines"] * 22, "the text in a flood"
    again = Outer("flood")
    wait(lambda: again.shown()[:22] == ["a flood of lines"] * 22, "one attaches in a flood, while two others are stalled")
    again.keys("C-\\")
    again.is_left("Ctrl-\\ in a flood", "vt220-keep: detached from flood", "status 0")
    wait(lambda: attached("flood") == 3, "those who are stalled stay attached")
    assert resident(pid) - before < 4 << 20, "no queue grows"  # the log may grow by some hundred KB meanwhile, and a sanitizer by more
    other.keys("C-c")
    wait(lambda: listed("flood") is None, "Ctrl-C ends the flood, and nobody waits for those who are stalled")
    other.is_ended("Ctrl-C", "vt220-keep: flood was ended by signal 2 (Interrupt)", "status 130")
    os.kill(stalled, signal.SIGCONT)
    wait(lambda: "vt220-keep: flood" in "".join(outer.shown()), "who was stalled learns of it")


def test_stalled():
    """Screens that all differ, faster than they can be sent. Who takes nothing gets the newest one, and no queue grows."""
    brushes = 'for (;;) for (i = 0; i < 12; i++) { n++; printf "%c[%d;%dm%09d ", 27, i % 2, 4 + i % 4, n }'
    shell("screens", f"trap : INT; awk 'BEGIN {{ {brushes} }}'; printf '\\033[m\\033[H\\033[Jthe last screen'; exec cat")
    outer, stopped, silent = Outer("screens"), Outer("screens"), Raw("screens", b"a")
    newest = lambda: int((re.findall("[0-9]{9}", text("screens")) or ["0"])[-1])
    seen = lambda: int((re.findall("[0-9]{9}", " ".join(outer.shown())) or ["0"])[-1])
    wait(lambda: attached("screens") == 3 and seen() > 0, "screens")
    pid, before = stopped.client(), resident(keeper("screens"))
    os.kill(pid, signal.SIGSTOP)
    sizes = [0] * 20
    wait(lambda: sizes.append(silent.size()) or sizes[-1] == sizes[-20] > 50000, "the socket of who takes nothing fills up")
    first = newest()
    wait(lambda: newest() > first and seen() > first, "the session and another client go on")
    again = Outer("screens")
    wait(lambda: re.search("[0-9]{9}", "".join(again.shown())), "one more attaches")
    again.keys("C-\\")
    again.is_left("detached from the flood", "vt220-keep: detached from screens", "status 0")
    assert resident(keeper("screens")) - before < 4 << 20, "no queue grows"
    outer.keys("C-c")
    wait(lambda: lines("screens")[:1] == ["the last screen"], "Ctrl-C ends the flood")
    outer.follows("screens", "behind the flood")
    os.kill(pid, signal.SIGCONT)
    stopped.follows("screens", "who was stopped")
    played = bytearray()

    def leads():
        while silent.size() > 0:
            letter, content = silent.frame()
            played.extend(content if letter == b"P" else b"\032")
        return plays(played) == text("screens")

    wait(leads, "what came to who took nothing leads to the last screen")
    room = int(pathlib.Path("/proc/sys/net/core/wmem_default").read_text())
    assert len(played) < room + 2 * 94152, "and was no more than the socket holds, the update that waited, and the newest"
    silent.close()
    outer.keys("C-d")
    outer.is_ended("the end", "vt220-keep: screens ended with status 0", "status 0")
    stopped.is_ended("the end, the other", "vt220-keep: screens ended with status 0", "status 0")


def test_stuck():
    """An outer terminal that takes nothing: its client can be told to go, and shows the newest screen when it takes again."""
    shell("stuck", "trap : INT; awk 'BEGIN { for (;;) printf \"%09d \", n++ }'; printf '\\033[H\\033[Jthe last screen'; exec cat")
    first, second = Outer("stuck", patience=1), Outer("stuck")
    # A client that is told to go while it is still greeted would begin again.
    wait(lambda: all(re.search("[0-9]{9}", outer.shown()[0]) for outer in (first, second)), "numbers")
    server, pids = int(first.tells("pid")), [first.client(), second.client()]
    written = lambda: [re.search(r"wchar: (\d+)", pathlib.Path(f"/proc/{pid}/io").read_text())[1] for pid in pids]
    os.kill(server, signal.SIGSTOP)
    try:
        counts = [[]] * 20
        wait(lambda: counts.append(written()) or counts[-1] == counts[-20], "the outer terminals take no more")
        os.kill(pids[0], signal.SIGTERM)
        wait(lambda: attached("stuck") == 1, "who is told to go goes")
        keys = Raw("stuck", b"a")
        keys.keys(b"\3")
        wait(lambda: lines("stuck")[:1] == ["the last screen"], "the session goes on")
        keys.close()
    finally:
        os.kill(server, signal.SIGCONT)
    second.follows("stuck", "it takes again")
    second.keys("C-\\")
    second.is_left("detached", "vt220-keep: detached from stuck", "status 0")


def test_ends():
    shell("seven", "read x; exit 7")
    outer = Outer("seven")
    outer.follows("seven", "before the end")
    outer.keys("Enter")
    outer.is_ended("an end with 7", "vt220-keep: seven ended with status 7", "status 7")
    new("killed", "cat")
    outer = Outer("killed")
    outer.follows("killed", "before the kill")
    os.kill(listed("killed")[2], signal.SIGKILL)
    outer.is_ended("a kill", "vt220-keep: killed was ended by signal 9 (Killed)", "status 137")
    shell("last", "read x; printf 'last words'")
    client = Raw("last", b"a")
    frames = [client.frame()]
    client.keys(b"\n")
    while frames[-1][0] not in (b"E", b""):
        frames.append(client.frame())
    played = b"".join(content for letter, content in frames if letter == b"P")
    assert "last words" in plays(played) and frames[-1][0] == b"E" and frames[-1][1][:4] == bytes(4), "the last words come before the end"
    assert has_ended("last"), "an end that nobody confirmed is kept"
    client.seen()
    wait(lambda: row("last") is None, "one that was seen isn't")
    shell("behind", "trap '' HUP; sleep infinity & echo $!; read x")
    wait(lambda: lines("behind")[:1] != [""], "a command with another behind it")
    left = int(lines("behind")[0])
    hasty = Raw("behind", b"a")
    hasty.keys(b"\n")
    hasty.close()
    wait(lambda: listed("behind") is None, "the session ends with its command, also if others have its line open")
    end("behind")
    with contextlib.suppress(ProcessLookupError):
        os.kill(left, signal.SIGKILL)
    closed, opens = ROOM / "line-closed", ROOM / "line-opens"
    pause = f": >{closed}; while [ ! -e {opens} ]; do sleep 0.05; done"
    shell("away", f"exec 0<&- 1>&- 2>&-; {pause}; exec 0<>/dev/tty 1>&0; echo back; read x; exec 0<&- 1>&-; exit 3")
    wait(closed.exists, "a command closes its line")
    assert listed("away") is not None, "the session goes on"  # and its keeper has seen that the line is closed
    opens.touch()
    wait(lambda: lines("away")[:1] == ["back"], "a command that closes its line and opens it again")
    outer = Outer("away")
    outer.follows("away", "back")
    outer.keys("Enter")
    outer.is_ended("away ends", "vt220-keep: away ended with status 3", "status 3")
    assert subprocess.run(["sh", "-c", f"trap '' INT HUP; {KEEP} new free cat"], env=ENVIRONMENT).returncode == 0, "new free"
    client = Raw("free", b"a")
    client.keys(b"\3")
    wait(lambda: listed("free") is None, "Ctrl-C ends a command whose starter ignored it")
    client.close()
    end("free")
    new("told", "cat")
    os.kill(keeper("told"), signal.SIGTERM)
    wait(lambda: listed("told") is None, "SIGTERM hangs the command up")


def test_reports():
    """What a program asks is answered once, whoever is attached."""
    shown = "od -An -c | tr -d ' \\n'"

    def turn(number):  # what came besides the ten bytes of the two reports is in the line that Enter ends
        asks = "stty raw -echo; printf '\\033[3;5H\\033[6n\\033[5n'; "
        return asks + f"x=$(dd bs=1 count=10 2>/dev/null | {shown}); stty sane -echo; echo \"got {number} $x\"; read y; echo \"more {number}: $(printf %s \"$y\" | {shown}).\"; "

    shell("asks", turn(1) + turn(2) + "exec cat")
    wanted = "033[3;5R033[0n"
    wait(lambda: lines("asks")[2:4] == [f"    got 1 {wanted}", ""], "reports with nobody there")
    outer, other = Outer("asks"), Outer("asks")
    outer.follows("asks", "reports")
    other.follows("asks", "reports, the other")
    outer.keys("Enter")
    wait(lambda: lines("asks")[2:4] == [f"    got 2 {wanted}", "more 1: ."], "reports with two there")
    for window in (outer, other):
        window.keys("Enter")
    wait(lambda: lines("asks")[3:4] == ["more 2: ."], "once")
    outer.follows("asks", "reports behind")


def test_looks():
    """Attributes, reverse video, the cursor, graphic sets, another width, and an unfinished sequence."""
    steps = [
        "\\033[1mbold\\033[m \\033[4munder\\033[m \\033[5mblink\\033[m \\033[7mreverse\\033[m \\033[1;4;5;7mall\\033[m",
        "\\033[2;1H\\033(0lqqk\\r\\nx\\140\\140x\\r\\nmqqj\\033(B \\351\\344\\374\\337",
        "\\033[?5h",
        "\\033[?5l\\033[?25l",
        "\\033[?25h\\033[24;80H*",
        "\\033[?3h\\033[1;125Hfar away\\033[2;1H$(stty size)",
        "\\033[?3lnear\\033[1;3",
        "Hdone",
    ]
    shell("looks", " ".join(f"printf \"{step}\"; read x;" for step in steps) + " exec cat", size="80x24")
    outer = Outer("looks")
    for wanted in ("\033[1mbold", "\033[4munder", "\033[5mblink", "\033[7mreverse", "\033[1m\033[4m\033[5m\033[7mall"):
        short = wanted.replace("m\033[", ";")
        wait(lambda: wanted in outer.styled() or short in outer.styled(), f"{wanted!r} is drawn")
    outer.follows("looks", "attributes")
    outer.keys("Enter")
    wait(lambda: lines("looks")[1:4] == ["┌──┐", "│◆◆│", "└──┘ éäüß"], "graphic sets")
    outer.follows("looks", "graphic sets")
    outer.keys("Enter")
    wait(lambda: re.search("\033\\[0?;?7m +(\033|\n|$)", outer.styled()), "reverse video")
    outer.keys("Enter")
    wait(lambda: "\033[7m " not in outer.styled() and outer.tells("cursor_flag") == "0", "reverse video ends, and the cursor is hidden")
    outer.keys("Enter")
    wait(lambda: outer.tells("cursor_flag") == "1", "the cursor is shown")
    wait(lambda: lines("looks")[23:] == [" " * 79 + "*"], "the last place of the screen")
    outer.follows("looks", "the last place of the screen")
    outer.keys("Enter")
    wait(lambda: listed("looks")[0] == 132 and lines("looks")[0].endswith("far away"), "132 columns")
    wait(lambda: lines("looks")[1:2] == ["24 80"] or lines("looks")[1:2] == ["24 132"], "the program asks for its size")
    outer.follows("looks", "132 columns in 80")
    outer.resize(140, 30)
    outer.follows("looks", "132 columns in 140")
    again = Outer("looks", 132, 24)
    again.follows("looks", "132 columns, attached")
    outer.keys("Enter")
    wait(lambda: listed("looks")[0] == 80 and lines("looks")[0] == "near", "80 columns again")
    again.follows("looks", "80 columns, inside a sequence")
    late = Outer("looks")
    late.follows("looks", "attached inside a sequence")
    outer.keys("Enter")
    wait(lambda: lines("looks")[0] == "nedone", "the sequence goes on")
    for window in (outer, again, late):
        window.follows("looks", "behind the sequence")
        window.close()


def test_deaf():
    """A program that asks without end and never reads: the session lives on."""
    shell("deaf", "stty raw -echo; while :; do printf '\\033[6n\\033[c.'; done")
    for _ in range(3):
        wait(lambda: "...." in text("deaf"), "who asks and never reads is shown")
    outer = Outer("deaf")
    wait(lambda: "...." in "".join(outer.shown()), "and can be watched")
    assert keep("detach", "deaf").returncode == 0, "detach from it"
    outer.is_left("detached from it", "vt220-keep: detached from deaf", "status 0")


def test_inside():
    shell("inside", f"{KEEP} attach inside; exec cat")
    wait(lambda: "vt220-keep: cannot attach to inside from inside session inside" in text("inside"), "a session doesn't show itself")
    outer = Outer("inside")
    outer.follows("inside", "inside")
    tmux("send-keys", "-t", outer.target, "-l", "typed")
    wait(lambda: "typed" in text("inside"), "keys")
    outer.close()
    outer = Outer("inside", settings="KEEP_KEY=a")
    outer.follows("inside", "another key")
    outer.keys("C-a")
    outer.is_left("the key of KEEP_KEY", "vt220-keep: detached from inside", "status 0")
    done = keep("attach", "inside", stdin=subprocess.DEVNULL)
    assert done.returncode == 2 and done.stderr == "vt220-keep: attach needs a terminal\n", "attach needs a terminal"
    done = keep("new", "-A", "unseen", "cat", stdin=subprocess.DEVNULL)
    assert done.returncode == 2 and keep("text", "unseen").returncode != 0, "new -A without a terminal begins no session"
