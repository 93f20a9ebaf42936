"""Sessions in UTF-8, and which sessions are. A character that a VT220 has is shown as itself, and U+201C as its similar character ". U+4E16 has two
columns: U+2426 and a space."""
import pytest
from sessions import *

UTF8 = {"LC_ALL": "C.UTF-8"}


DEC, UNICODE = ("dec", "caf\u00c3\u00a9", "iutf8-off"), ("utf-8", "caf\u00e9", "iutf8-on")
CHOSEN = (([], {"LC_ALL": "C"}, DEC), ([], {}, DEC), ([], {"LC_ALL": "C.UTF-8"}, UNICODE), ([], {"LANG": "C.UTF-8"}, UNICODE), ([], {"LANG": "xx_XX.UTF-8"}, UNICODE),
          ([], {"LANG": "xx_XX.utf8"}, UNICODE), ([], {"LANG": "xx_XX"}, DEC), ([], {"LANG": "C.UTF-8", "LC_CTYPE": "C"}, DEC), ([], {"LANG": "C.UTF-8", "LC_ALL": ""}, UNICODE),
          (["--locale=C"], {"LC_ALL": "C.UTF-8"}, DEC), (["--locale=C.UTF-8"], {"LC_ALL": "C"}, UNICODE), (["--locale="], {"LC_ALL": "C.UTF-8"}, UNICODE),
          (["--encoding=dec"], {"LC_ALL": "C.UTF-8"}, DEC), (["--encoding", "utf-8"], {"LC_ALL": "C"}, UNICODE))


@pytest.mark.parametrize("options, locale, wanted", CHOSEN)
def test_chosen(options, locale, wanted):
    """The encoding is the option's, or that of the locale: of one that isn't installed by its name."""
    plain = {name: value for name, value in ENVIRONMENT.items() if name not in ("LC_ALL", "LC_CTYPE", "LANG")}
    encoding, shown, iutf8 = wanted
    script = "printf 'caf\\303\\251\\n'; case $(stty -a) in *-iutf8*) echo iutf8-off ;; *) echo iutf8-on ;; esac; echo $KEEP_ENCODING; exec cat"
    assert keep("new", *options, "chosen", "sh", "-c", script, env=plain | locale).returncode == 0, "new"
    assert until(lambda: lines("chosen")[:3] == [shown, iutf8, encoding]), lines("chosen")[:3]
    assert (row("chosen")["encoding"], row("chosen")["terminal"]) == (encoding, "vt220"), "the list for scripts has it"


def test_unknown():
    done = keep("new", "--encoding=latin1", "chosen", "true")
    assert done.returncode == 2 and done.stderr == "vt220-keep: new: --encoding is dec or utf-8, not 'latin1'\n", "an encoding that isn't known"


def test_listed_words():
    """The list has the command's characters, and no control characters."""
    for given, wanted in (("Gr\u00f6\u00dfe \u20ac \U0001f600", None), ("a\u009b31mb", "a??31mb"), ("a\033[31m\177", "a?[31m?"), (b"a\xe9\xff\xc3", "a???"), ("x\u20ac" * 100, None)):
        assert keep("new", "words", "sh", "-c", "exec cat", given, env=ENVIRONMENT | UTF8).returncode == 0, "new words"
        words = listed("words")[3]
        full = "sh -c exec cat " + (wanted if wanted is not None else given)
        assert words == full or (len(given) >= 200 and full.startswith(words.rstrip("?")) and len(words.encode()) > 200), f"{given!r} is listed as {words!r}"
        end("words")


def test_shown():
    """What a program writes is shown, kept in the log, and drawn, also if it comes in parts."""
    first, go = "Gr\u00f6\u00dfe \u201cx\u201d \u4e16|", ROOM / "go"
    octal = lambda text: "".join(f"\\{byte:03o}" for byte in text.encode())
    # The title has U+00DC, whose second byte is the control ST on a VT220.
    script = f"i=0; while [ $i -lt 60 ]; do i=$((i+1)); printf '{octal(first)} %d\\n' $i; done; printf '\\033]0;{octal(chr(0xDC))}\\033\\\\'; printf '\\303'; while [ ! -e {go} ]; do sleep 0.02; done; printf '\\234 end'; exec cat"
    shell("shown", script, **UTF8)
    wanted = [f"Gr\u00f6\u00dfe \"x\" \u2426 | {n}" for n in range(1, 61)]
    wait(lambda: lines("shown")[22:] == [wanted[-1], ""], "a program writes UTF-8")
    outer = Outer("shown")
    outer.follows("shown", "a client")
    assert keep("log", "shown").stdout.splitlines()[:60] == wanted, "the log"
    replaced("shown", NEWER)
    replaced("shown", KEEP)
    go.touch()
    wait(lambda: lines("shown")[23:] == ["\u00dc end"], "a character whose second byte came after the keeper was replaced")
    outer.follows("shown", "that client")
    assert listed("shown") is not None and attached("shown") == 1, "it is still attached"
    outer.close()
    end("shown")
    shell("cut", f"printf 'x\\342\\200'; read x; printf 'y'; exec cat", **UTF8)
    wait(lambda: lines("cut")[:1] == ["x"], "a part of a character isn't shown")
    assert plays(repaint("cut")) == text("cut"), "its repaint is that of the screen"
    keep("send", "cut", "Enter")
    wait(lambda: len(lines("cut")[0]) > 1 and lines("cut")[0][0] == "x", "what breaks a character is shown as such")


def test_typed():
    """Keys arrive as they are typed, and keys with a name as those of a VT220."""
    got = reads("typed", "\\033[?1h", **UTF8)
    outer = Terminal("attach", "typed", shows=b"ready")
    wanted = b""
    for keys, sent in (("\u00e9\u20ac\U0001f600", None), ("a\u0301\u0416", None), ("\033[A", b"\033OA"), ("\033OP\033[3~", None)):
        outer.type(keys.encode())
        wanted += keys.encode() if sent is None else sent
        wait(lambda: got.read_bytes() == wanted, f"{keys!r} is sent: {got.read_bytes()}")
    assert b"\a" not in outer.read(), "no bell rings"
    for words, sent in (([("\u201c\u20ac")], None), (["-l", "Up\u00e9"], b"Up\xc3\xa9"), (["\u00e9", "Up", "Enter"], b"\xc3\xa9\033OA\r")):
        options = [word for word in words if word == "-l"]
        assert keep("send", *options, "typed", *words[len(options) :]).returncode == 0, f"send {words}"
        wanted += "".join(words).encode() if sent is None else sent
        wait(lambda: got.read_bytes() == wanted, f"{words} arrive: {got.read_bytes()[-20:]}")
    old = Raw("typed", b"a", version=3)
    assert old.frame()[0] == b"P", "a client of version 3 is served"
    old.close()
    outer.close()
    end("typed")
    shell("erased", "cat", **UTF8)
    keep("send", "erased", "a\u00e9", "Delete", "b", "Enter")
    wait(lambda: lines("erased")[1:2] == ["ab"], "the line erases a whole character")


def test_inside():
    """A session in UTF-8 shows other sessions, but not itself."""
    shell("inner", "printf 'caf\\303\\251'; exec cat", **UTF8)
    shell("outer", f"{KEEP} attach outer; {KEEP} attach inner; exec cat", **UTF8)
    wait(lambda: "caf\u00e9" in text("outer"), "one session shows another")
    keep("send", "outer", "typed \u00e9\u20ac")
    wait(lambda: "typed \u00e9" in text("inner") and "typed \u00e9" in text("outer"), "and sends it keys")
    keep("send", "-l", "outer", "\x1c")
    wait(lambda: attached("inner") == 0, "and detaches")
    wait(lambda: "detached from inner" in text("outer"), "which it says")
    end("outer")
    shell("itself", f"{KEEP} attach itself; exec cat", **UTF8)
    wait(lambda: "cannot attach to itself from inside itself" in text("itself"), "not itself")
    end("itself")
    shell("dec", f"{KEEP} attach inner; exec cat")
    wait(lambda: "cannot attach to inner from inside session dec" in text("dec"), "a session that isn't in UTF-8 shows none")
