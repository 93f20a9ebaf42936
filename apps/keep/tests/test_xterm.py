"""Sessions whose commands have TERM=xterm-256color. The proved program plays the same bytes with --terminal xterm."""
import random
import sys

import pytest
from sessions import *

sys.path[:0] = [str(TOP / folder) for folder in ("lib/rows", "lib/python")]
import vt220
import xterm_keys

XTERM = ["--terminal=xterm"]
MAIN, ALTERNATE = b"\033[?47l", b"\033[?47h"


def playing(name, data):
    """Begins a session that writes some bytes as they are, and then a file for each line that it reads."""
    first = ROOM / f"{name}-0"
    first.write_bytes(data)
    script = f"stty raw -echo; cat {first}; : >{first}.done; i=0; while :; do i=$((i+1)); dd bs=1 count=1 2>/dev/null | grep -q . || exit; cat {ROOM}/{name}-$i; : >{ROOM}/{name}-$i.done; done"
    shell(name, script, *XTERM)
    written(name, 0)


def written(name, number):
    wait((ROOM / f"{name}-{number}.done").exists, f"{name} has written part {number}")
    wait(lambda: sleeps(keeper(name)), f"the keeper of {name} has played it")


def play_on(name, number, data):
    (ROOM / f"{name}-{number}").write_bytes(data)
    keep("send", "-l", name, "x")
    written(name, number)


def shown_text(data):
    return plays(data, "--quiet", *XTERM)


def shown_by(data):
    """Returns the repaint of the screen that a session shows, for a VT220."""
    with vt220.Terminal(terminal="xterm") as terminal:
        terminal.feed(data)
        return terminal.repaint("vt220")


@pytest.mark.parametrize("options, locale, wanted", [
    ([], {"LC_ALL": "C"}, "C"), ([], {"LC_ALL": "C.UTF-8"}, "C.UTF-8"), (["--locale=C.UTF-8"], {"LC_ALL": "C"}, "C.UTF-8"), (["--encoding=utf-8"], {"LC_ALL": "C"}, "C")])
def test_chosen(options, locale, wanted):
    """The option sets TERM and the encoding, in any locale. The list for scripts has it."""
    plain = {name: value for name, value in ENVIRONMENT.items() if name not in ("LC_ALL", "LC_CTYPE", "LANG")}
    script = "echo $TERM $KEEP_ENCODING $LC_ALL; case $(stty -a) in *-iutf8*) echo iutf8-off ;; *) echo iutf8-on ;; esac; exec cat"
    assert keep("new", *XTERM, *options, "chosen", "sh", "-c", script, env=plain | locale).returncode == 0, "new"
    assert until(lambda: lines("chosen")[:2] == [f"xterm-256color utf-8 {wanted}", "iutf8-on"]), lines("chosen")[:2]
    assert (row("chosen")["encoding"], row("chosen")["terminal"]) == ("utf-8", "xterm"), "the list for scripts has it"


def test_not_chosen():
    shell("chosen", "echo $TERM; exec cat", "--terminal", "vt220")
    wait(lambda: lines("chosen")[:1] == ["vt220"], "which is the default")
    for options, said in ((["--terminal=xterm-256color"], "--terminal is vt220 or xterm, not 'xterm-256color'"), (["--terminal="], "--terminal is vt220 or xterm, not ''"),
                          ([*XTERM, "--encoding=dec"], "--terminal=xterm is in UTF-8, and doesn't go with --encoding=dec")):
        done = keep("new", *options, "chosen", "true")
        assert done.returncode == 2 and done.stderr == f"vt220-keep: new: {said}\n", f"{options} is refused: {done.stderr}"


def test_shown():
    """A client sees the page that is shown, also if it attaches in between. `text` has its characters."""
    playing("shown", "main Gr\u00f6\u00dfe\r\n".encode() + b"\033[?1049h\033[5;5Halt\033[3X")
    outer = Outer("shown")
    outer.follows("shown", "the alternate page")
    assert lines("shown")[0] == "" and "    alt" in lines("shown"), "the main page isn't shown"
    play_on("shown", 1, b"\033[?1049l\033[4`x\033[3b")
    outer.follows("shown", "the main page")
    assert lines("shown")[:2] == ["main Gr\u00f6\u00dfe", "   xxxx"], f"the main page is back: {lines('shown')[:2]}"


def test_logged():
    """The log has the lines that scrolled off the main page, and the screen."""
    count = lambda first, last: b"".join(b"line %d\r\n" % n for n in range(first, last + 1))
    data = count(1, 40) + b"\033[?1049h" + count(101, 140) + b"\033[?1049l" + count(41, 60) + b"\033[38;5;1mred\033[m \xe2\x80\x9cx\xe2\x80\x9d"
    playing("logged", data)
    replaced("logged")
    log = keep("log", "logged").stdout.splitlines()
    assert log[:61] == [f"line {n}" for n in range(1, 61)] + ['red "x"'], f"the log: {log[:3]} {log[58:62]}"


def test_full_screen():
    """A real program: less leaves no trace."""
    (ROOM / "long").write_text("".join(f"row {n}\n" for n in range(1, 101)))
    shell("full", f"unset LESS LESSOPEN; printf 'before\\n'; less {ROOM / 'long'}; printf 'after\\n'; exec cat", *XTERM)
    wait(lambda: "row 1" in lines("full"), "less shows a file")
    assert "before" not in lines("full"), "on the alternate page"
    keep("send", "full", "End", "G")
    wait(lambda: "row 100" in lines("full"), "it goes to the end")
    keep("send", "full", "q")
    wait(lambda: lines("full")[:2] == ["before", "after"], f"it leaves no trace: {lines('full')[:3]}")


KEYS = ((b"\033[H", b"\033[H", b"\033OH"), (b"\033OF", b"\033[F", b"\033OF"), (b"\033[1~", b"\033[H", b"\033OH"), (b"\033[4~", b"\033[F", b"\033OF"), (b"\033[A", b"\033[A", b"\033OA"),
        (b"\033OP", b"\033OP", b"\033OP"), (b"\033[25~", b"\033[1;2P", b"\033[1;2P"), (b"\033[1;2P", b"\033[1;2P", b"\033[1;2P"), (b"\033[34~", b"\033[19;2~", b"\033[19;2~"),
        (b"\033[15~", b"\033[15~", b"\033[15~"), (b"\033[3~", b"\033[3~", b"\033[3~"), ("\u00e9\u20ac".encode(), "\u00e9\u20ac".encode(), "\u00e9\u20ac".encode()))
NAMES = (*xterm_keys.rows(), ("c-s-up", *2 * [b"\033[1;6A"]), ("Up", b"\033[A", b"\033OA"), ("C-c", b"\3", b"\3"), ("Delete", b"\x7f", b"\x7f"), ("F11", b"\033[23~", b"\033[23~"))


@pytest.mark.parametrize("number, mode", enumerate("lh"))
def test_typed(number, mode):
    """Keys arrive as xterm sends them: those of terminfo's entry xterm-256color, which has them under DECCKM."""
    got = reads("typed", f"\\033[?1{mode}", *XTERM)
    outer, wanted = Terminal("attach", "typed", shows=b"ready"), b""
    for key, *sent in KEYS:
        outer.type(key)
        wanted += sent[number]
        wait(lambda: got.read_bytes() == wanted, f"{key} is sent as {sent[number]}: {got.read_bytes()[-12:]}")
    for at in range(0, len(NAMES), 10):
        names = NAMES[at : at + 10]
        assert keep("send", "typed", *(key for key, *_ in names)).returncode == 0, f"send {names}"
        wanted += b"".join(sent[number] for _, *sent in names)
        wait(lambda: got.read_bytes() == wanted, f"{names} are sent: {got.read_bytes()[-80:]}")
    for key in ("F21", "S-F99"):
        done = keep("send", "typed", key)
        assert done.returncode == 2 and f"an xterm has no key {key}" in done.stderr, f"a key that isn't there: {done.stderr}"
    old = Raw("typed", b"a", version=4)
    assert old.frame() == (b"C", b"\1") and old.frame()[0] == b"P", "a client of version 4 learns the encoding alone"
    now = Raw("typed", b"a", version=5)
    assert now.frame() == (b"C", b"\1") and now.frame() == (b"X", b"\1") and now.frame()[0] == b"P", "one of version 5 learns the terminal as well"


def test_typed_on_a_vt220():
    new("plain", "cat")
    for key in ("C-Left", "S-Tab", "a-s-f7"):
        done = keep("send", "plain", key)
        assert done.returncode == 2 and f"a VT220 has no key {key}; with -l it is sent as text" in done.stderr, f"a key of an xterm alone: {done.stderr}"
    now = Raw("plain", b"a", version=5)
    assert now.frame() == (b"C", b"\0") and now.frame() == (b"X", b"\0"), "which is a VT220 without the option"


def test_pasted():
    """The client's terminal sends pasted text in brackets while the program wants it, and the client leaves it as it was."""
    playing("pasted", b"one\033[?2004h")
    client, older = Raw("pasted", b"a", version=6), Raw("pasted", b"a", version=5)
    assert [client.frame()[0] for _ in range(3)] == [b"C", b"X", b"P"] and client.frame() == (b"V", b"\1"), "a client of version 6 learns it when it attaches"
    outer = Terminal("attach", "pasted")
    assert outer.shows(b"one") and outer.shows(b"\033[?2004h"), "and tells its terminal"
    play_on("pasted", 1, b"\033[?2004ltwo")
    assert {client.frame(), client.frame()} >= {(b"V", b"\0")}, "it learns each change"
    assert outer.shows(b"two") and outer.shows(b"\033[?2004l"), "and so does its terminal"
    assert [older.frame()[0] for _ in range(4)] == [b"C", b"X", b"P", b"P"], "a client of version 5 isn't told"
    play_on("pasted", 2, b"\033[?2004hthree")
    wait(lambda: outer.read().count(b"\033[?2004h") == 2, "it is on again")
    replaced("pasted")
    assert keep("detach", "pasted").returncode == 0 and outer.status() == 0, "the client detaches"
    assert outer.got.rpartition(b"\033[?2004h")[2].count(b"\033[?2004l") == 1, "and leaves its terminal without brackets"
    for each in (client, older, outer):
        each.close()
    end("pasted")
    if shutil.which("bash"):
        assert keep("new", *XTERM, "shell", "env", "PS1=$ ", "INPUTRC=/dev/null", "bash", "--norc", "--noprofile").returncode == 0, "new shell"
        outer = Terminal("attach", "shell")
        assert outer.shows(b"\033[?2004h"), "bash asks for brackets"
        outer.type(b"\033[200~echo one\recho two\033[201~")
        wait(lambda: text("shell").startswith("$ echo one\necho two\n"), "bash inserts the lines")
        outer.type(b"\r")
        wait(lambda: text("shell").startswith("$ echo one\necho two\none\ntwo\n"), "and runs them together")
        outer.close()
        end("shell")


# What is written before the keeper is replaced, and after it.
HALVES = ((b"main\033[?1049halt", b"x"), (b"main\033[?1049halt", b"\033[?1049lx"), (b"main\033[?47halt\033[?47l", b"x\033[?47hy"), (b"main\033[?47h\033[3;4H\0337\033[?47l", b"\033[?47h\0338x"),
          (b"\033[7;9H\0337\033[?1049h\033[2;2H\0337\033[H", b"\033[?1049lx"), (b"\033[?40h\033[?3hwide\033[?47h\033[?3lnarrow", b"\033[?3h\033[?47lx"), (b"\033[?40h\033[?3h\033[?3lx", b"\033[?3hx"),
          (b"\033[?3hx", b"\033[?3hx"), (b"\033[?40h\033[?3h\033[?47hwide\033[1;132Hz\0337\033[?47l\033[?3l", b"\033[?3h\033[?47h\0338x"), (b"a\033[?1049", b"hx"), (b"a\033[?1049hb\033]0;\xc2", b"\xa9\033\\\033[?1049lx"),
          (b"a\033[?1049hb\xe2\x82", b"\xac\033[?1049lx"), (b"a\033[?47h\033[1;4m\033[?7l\033[2;5r\033[?6h\033(0q", b"q\033[?47lq"), (b"\033[?1049h\033[1m\033[?5hx\033N", b"a\033[?1049lx"),
          (b"main\033[?1049halt\033P" + b"x" * 3000, b"y\033\\\033[?1049lz"))


SHOW_BOTH = (MAIN, ALTERNATE, b"\033[?40h\033[?3h" + MAIN, ALTERNATE, b"\033[?3l" + MAIN, ALTERNATE)

def compare(name, number, data):
    """Compares a session with what the program writes of the same bytes, also when each page is shown in each width."""
    data, number = data + b"\030", number + 1
    play_on(name, number, b"\030")
    for way in (b"", *SHOW_BOTH):
        if way:
            data, number = data + way, number + 1
            play_on(name, number, way)
        wait(lambda: text(name) == shown_text(data) and repaint(name) == shown_by(data), f"the same as the program, {way}")


@pytest.mark.parametrize("first, second", HALVES)
def test_upgraded(first, second):
    """A keeper is replaced and the terminal goes on: both pages, their saved cursors, the modes, and what isn't complete."""
    playing("halves", first)
    replaced("halves")
    replaced("halves", KEEP)
    assert text("halves") == shown_text(first), "the screen stays"
    play_on("halves", 1, second)
    compare("halves", 1, first + second)


PIECES = (MAIN, ALTERNATE, b"\033[?1049h", b"\033[?1049l", b"\033[?1047h", b"\033[?1047l", b"\033[?1048h", b"\033[?1048l", b"\033[?40h", b"\033[?40l", b"\033[?3h", b"\033[?3l", b"\0337", b"\0338", b"\033c",
          b"\033[!p", b"\033[?7l", b"\033[1;132H\xc3\xa4", b"\033[5;9H\033H", b"\033[3g", b"\033[1;7m", b"\033[1\"q", b"\033(0", b"\016", b"\033[4;9r", b"\033[?6h", b"text \xe2\x80\x9c\xe4\xb8\x96", b"\xe2\x94", b"\033[2;79Hab", b"\n\n",
          b"\033[9;9Hxyz", b"\033[?5h", b"\033N", b"\033[?25l", b"\033=", b"\033[J", b"\033[3S", b"\033[4b")


@pytest.mark.parametrize("seed", range(12))
def test_at_random(seed):
    """Bytes that are cut at random, and a keeper that is replaced there."""
    chance = random.Random(seed)
    parts = [b"".join(chance.choice(PIECES) for _ in range(chance.randint(5, 60))) for _ in range(3)]
    parts = [part[: len(part) - chance.randint(0, 2)] for part in parts]
    playing("random", parts[0])
    for number, part in enumerate(parts[1:]):
        replaced("random", (NEWER, KEEP)[number])
        play_on("random", number + 1, part)
    compare("random", len(parts) - 1, b"".join(parts))


def test_forms():
    """A session with a VT220 has a state that an older program knows. One with an xterm has a newer form."""
    new("plain", "cat")
    shell("other", "exec cat", *XTERM)
    assert (form_of("plain"), form_of("other")) == (2, 3), "the forms"
