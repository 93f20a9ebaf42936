"""What is typed and sent."""
import pytest
from sessions import *


@pytest.mark.parametrize("number, step", enumerate(["", "\\033[?1h\\033=", "\\033 G", "\\033 G\\033[?1h"]))
def test_keyboard(number, step):
    """What is typed arrives as the keys of a VT220, in the form that the program asked for."""
    got = reads("keys", step)
    cases = (
        (b"\033[A\033OB", b"\033[A\033[B", b"\033OA\033OB", b"\x9bA\x9bB", b"\x8fA\x8fB"),
        (b"\033[H\033[F\033[3~", b"\033[1~\033[4~\033[3~", b"\033[1~\033[4~\033[3~", b"\x9b1~\x9b4~\x9b3~", b"\x9b1~\x9b4~\x9b3~"),
        (b"\033OP\033Op", b"\033OP0", b"\033OP\033Op", b"\x8fP0", b"\x8fP0"),
        ("éüßÿŒ¤".encode(), *[b"\xe9\xfc\xdf\xfd\xd7\xa8"] * 4),
        (b"x\033", *[b"x\033"] * 4),
    )
    outer = Terminal("attach", "keys", shows=b"ready")
    assert (b"\033=" in outer.read()) == (number == 1), "the keypad's mode is passed on"
    wanted = b""
    for case in cases:
        outer.type(case[0])
        wanted += case[1 + number]
        assert until(lambda: got.read_bytes() == wanted), f"keys {case[0]!r}: {got.read_bytes()}, {wanted}"

    def is_joined():
        """Whether the two parts arrive as one. If the second one comes too late, both arrive as they are, and more is tried."""
        nonlocal wanted
        before, wanted = wanted, wanted + b"\xe9"
        outer.type(b"\xc3")
        outer.type(b"\xa9")
        until(lambda: len(got.read_bytes()) > len(before) and got.read_bytes() != before + b"\xc3")
        if got.read_bytes() == wanted:
            return True
        wanted = got.read_bytes()
        return False

    wait(is_joined, "a character in two parts")
    outer.type("Привет".encode())
    assert outer.shows(b"\a"), "a character that a VT220 doesn't have rings the bell"
    outer.type(b"\x1c\x1c.")
    wait(lambda: got.read_bytes() == wanted + b"\x1c.", "and isn't sent; the key that detaches is, if pressed twice")
    outer.type(b"\x1c")
    assert outer.status() == 0 and b"detached from keys" in outer.read(), "pressed once it detaches"
    assert (b"\033>" in outer.read()) == (number == 1), "the keypad is left as it was"


@pytest.mark.parametrize("given, typed", [("^A", b"\1"), ("^a", b"\1"), ("]", b"\x1d"), ("^_", b"\x1f"), ("", b"\x1c")])
def test_detach_key(given, typed):
    new("key", "cat")
    outer = Terminal("attach", "key", KEEP_KEY=given, shows=b"\033[?25h")
    outer.type(typed)
    assert outer.status() == 0 and b"detached" in outer.read(), "KEEP_KEY"


def test_no_detach_key():
    new("key", "cat")
    for given, said in (("M", b"Enter"), ("^M", b"Enter"), ("j", b"Enter"), ("[", b"ESC"), ("^[", b"ESC"), ("^I", b"Tab"), ("F12", b"use ^"), ("1", b"use ^")):
        outer = Terminal("attach", "key", KEEP_KEY=given)
        assert outer.status() == 2 and said in outer.read(), f"KEEP_KEY={given!r} is refused"
        outer.close()


def test_pasted():
    """A program that doesn't read: its client can detach, its keys wait, and its requests are answered."""
    got = ROOM / "got"
    got.touch()
    shell("busy", f"stty raw -echo; printf ready; while [ ! -e {ROOM}/go ]; do sleep 0.05; done; printf '\\033[c'; exec cat >{got}")
    wait(lambda: "ready" in text("busy"), "a busy program")
    outer = Terminal("attach", "busy", shows=b"ready")
    os.set_blocking(outer.master, True)
    for _ in range(100):
        outer.type(b"0123456789" * 300)
    os.set_blocking(outer.master, False)
    outer.type(b"\x1c")
    assert outer.status() == 0, "one detaches behind a paste that waits"
    outer.close()
    filler = Raw("busy", b"a")
    filler.socket.sendall(frame(b"K", b"y") * 9000)  # no byte more of keys is taken
    assert attached("busy") == 1, "its keeper answers, and so has heard all of that"
    (ROOM / "go").touch()
    wait(lambda: b"\033[?62;" in got.read_bytes() if got.exists() else False, "what the program asks behind a paste is answered")


def test_sent():
    got = reads("sent", "\\033[?1h")
    for words, wanted in ((["ls", "Enter"], b"ls\r"), (["Up", "PF1", "F6", "Do"], b"\033OA\033OP\033[17~\033[29~"), (["^C", "C-d"], b"\3\4"),
                          (["-l", "Enter"], b"Enter"), (["é"], b"\xe9"), (["Space", "Tab", "Escape", "Backspace"], b" \t\033\177")):
        got.write_bytes(b"")
        options = [word for word in words if word == "-l"]
        assert keep("send", *options, "sent", *words[len(options) :]).returncode == 0, f"send {words}"
        wait(lambda: got.read_bytes().lstrip(b"\0") == wanted, f"{words} arrive")
    got.write_bytes(b"")
    for word, said in (("Entr", "is it Enter?"), ("Entter", "is it Enter?"), ("Hlep", "Hlep"), ("F5", "no key F5;"), ("F99", "no key F99;"), ("^1", "no key ^1;")):
        done = keep("send", "sent", "text", word)
        refused = done.returncode == 2 and said in done.stderr
        assert refused != (word == "Hlep"), f"send {word}: {done.returncode} {done.stderr}"
    wait(lambda: got.read_bytes().lstrip(b"\0") == b"textHlep", f"of those that are refused nothing is sent: {got.read_bytes()}")
    done = keep("send", "sent", "3÷4")
    assert done.returncode == 1 and done.stderr == "vt220-keep: no key of a VT220 sends some of these characters; the others are sent\n", "send tells of others"
    wait(lambda: got.read_bytes().lstrip(b"\0") == b"textHlep34", "and sends the rest")
    before = got.stat().st_size
    assert keep("send", "sent", input="é\n" * 20000).returncode == 0, "send of standard input"
    wait(lambda: got.stat().st_size == before + 40000, "all of it arrives")
