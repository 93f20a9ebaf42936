"""Tests the rig with programs written for it."""
import base64
import gzip
import json
import os
import pathlib
import random
import re
import select
import signal
import subprocess
import sys
import threading
import time
import xml.etree.ElementTree

import pytest

import vt220
from vt220 import rig as rig_module
from vt220.cast import asciicast
from vt220.page import NoTemplate, page, recording, side_by_side
from vt220.picture import svg
from vt220.pytest_plugin import file_name
from vt220.rig import ENTER, F6, UP, Failure, Key, KeyboardLocked, Reports, Screen, ctrl
from vt220.screen import MASK, Place, Stored, difference, differing, renewed
from vt220.watchdog import MARK

from rigs import LONG, SHOWS, in_a_directory, run, shell  # noqa: F401
from vectors import vectors

# Writes the size of its window when it begins and whenever that changes.
TELL_SIZE = str(pathlib.Path(__file__).resolve().parents[3] / "tests/tell-size")


@pytest.fixture(autouse=True)
def without_a_template(monkeypatch):
    """Whether there is a template of pages doesn't depend on what was built."""
    monkeypatch.setenv("VT220_PAGE", "")


def marked(text):
    """Returns the processes with a text in their environment."""
    found = []
    for name in filter(str.isdigit, os.listdir("/proc")):
        try:
            with open(f"/proc/{name}/environ", "rb") as file:
                if text in file.read():
                    found.append(int(name))
        except OSError:
            pass
    return found


def is_alive(pid):
    """Returns whether a process is there, and not only its exit status, which nobody may have asked for."""
    try:
        with open(f"/proc/{pid}/stat", "rb") as file:
            return file.read().rpartition(b")")[2].split()[0] != b"Z"
    except OSError:
        return False


def until(met):
    """Waits for something that no program shows."""
    end = time.monotonic() + LONG
    while not met():
        assert time.monotonic() < end
        time.sleep(0.01)


# What a program gets.

def test_a_program_has_the_line_of_a_vt220():
    with shell("stty size; tty; echo $TERM $LC_ALL $LINES$COLUMNS; ps -o pid= -o sid= -o tpgid= -p $$") as rig:
        rows = rig.ended().rows
    assert rows[0] == "24 80" and rows[1].startswith("/dev/pts/") and rows[2] == "vt220 C.UTF-8"
    assert len(set(rows[3].split())) == 1  # it leads its session, and its group is in the foreground


def test_132_columns_directory_and_environment(tmp_path):
    with shell("stty size; pwd; echo $GIVEN; printf %0132d 7", columns=132, cwd=tmp_path, env={"GIVEN": "by the test"}) as rig:
        screen = rig.ended()
    assert screen.rows[:3] == ("24 132", str(tmp_path), "by the test") and screen.width == 132 and len(screen.rows[3]) == 132
    assert "width: 132" in screen.stored()
    # The recording shows the same when it is played.
    terminal = vt220.Terminal()
    terminal.feed(rig.recording)
    assert terminal.text() == screen.text


def test_another_size_and_a_window_that_changes():
    with run(TELL_SIZE, rows=40, columns=120) as rig:
        rig.wait("40 120")
        rig.keys("\\033[40;1Hlow\r")
        rig.wait("low", row=40)
        screen = rig.last
        assert (screen.width, len(screen.rows), screen.rows[0], screen.rows[39], rig.rows, rig.columns) == (120, 40, "40 120", "low", 40, 120)
        assert screen.hidden == () and "width: 120" in screen.stored() and len(screen.stored().split("\n")) > 41
        rig.resize(30, 100)
        assert (rig.last.width, len(rig.last.rows), rig.last.rows[29]) == (100, 30, "low") and rig.last != screen
        rig.wait("30 100")
        rig.resize(24, 80)
        rig.wait("24 80")
        assert (rig.last.width, len(rig.last.rows), rig.last.hidden) == (80, 24, ())
        for size in ((1, 80), (24, 1), (256, 80), (24, 256)):
            with pytest.raises(vt220.NoSize):
                rig.resize(*size)
        assert [event.data for event in rig.events if event.who == "size"] == [b"100x30", b"80x24"]
    with pytest.raises(vt220.NoSize):
        run("true", columns=300)


def test_a_command_that_is_not_there():
    run("true").close()  # the watchdog starts with the first one
    before = len(os.listdir("/proc/self/fd"))
    for name in ("no-such-command", "./no-such-command"):
        with pytest.raises(FileNotFoundError, match="no-such-command"):
            run(name)
    assert len(os.listdir("/proc/self/fd")) == before


@pytest.mark.parametrize("words", [["less notes.txt"], ["/usr/bin/less notes.txt"], ["less -S", "notes.txt"]])
def test_words_that_are_one_word_have_a_hint(words):
    with pytest.raises(FileNotFoundError) as caught:
        run(*words)
    apart = ", ".join(repr(word) for word in " ".join(words).split())
    assert f"run({apart})" in str(caught.value) and caught.value.filename == words[0]


def test_a_directory_that_is_not_there_is_named(tmp_path):
    (tmp_path / "file").write_text("")
    for directory, kind in ((tmp_path / "nowhere", FileNotFoundError), (tmp_path / "file", NotADirectoryError)):
        with pytest.raises(kind) as caught:
            run("true", cwd=directory)
        assert caught.value.filename == str(directory)


def test_signals_are_as_at_first():
    """Python ignores SIGPIPE; a program doesn't inherit that."""
    with shell("grep SigIgn /proc/self/status; grep SigBlk /proc/self/status") as rig:
        ignored, blocked = (int(line.split()[1], 16) for line in rig.ended().rows[:2])
    # Signals 32 and 33 are the C library's own.
    assert (ignored & ~(3 << 31), blocked) == (0, 0)


@pytest.mark.parametrize("modes, key, shown", [
    ("", UP, "1b 5b 41"), ("\\033[?1h", UP, "1b 4f 41"), ("\\033[?1h\\033 G", UP, "8f 41"), ("\\033 G", F6, "9b 31 37 7e"),
    ("", Key.KP_5, "35"), ("\\033=", Key.KP_5, "1b 4f 75"), ("", ENTER, "0d"), ("\\033[20h", ENTER, "0d 0a"),
])
def test_keys_go_as_the_modes_ask(modes, key, shown):
    with shell(SHOWS, modes + "ready") as rig:
        rig.wait("ready")
        rig.keys(key)
        rig.wait(text=shown)


@pytest.mark.parametrize("text, cure", [("ENTER", "keys(ENTER)"), ("TAB", "keys(TAB)"), ("F6", "keys(F6)"), ("KP_5", "keys(KP_5)"), ("RETURN", "keys(ENTER)"),
                                        ("PAGE_UP", "keys(PREV_SCREEN)"), ("F99", "only F1 to F20"), ("F0", "only F1 to F20")])
def test_the_name_of_a_key_is_refused_as_a_text(text, cure):
    with shell(SHOWS, "ready") as rig:
        rig.wait("ready")
        with pytest.raises(ValueError) as caught:
            rig.keys("x", text, ENTER)
        assert cure in str(caught.value) and f"keys(*{text!r})" in str(caught.value) and len(rig.events) == 1
        rig.keys(*text)
        rig.wait(text=" ".join(f"{ord(letter):02x}" for letter in text))
        rig.paste(text)


@pytest.mark.parametrize("text", ["enter", "ENTER ", "F", "F1x", "OK", "HELP\r", "", "\u00c4"])
def test_another_text_is_typed(text):
    with shell(SHOWS, "ready") as rig:
        rig.wait("ready")
        rig.keys(text, "!")
        rig.wait(text=" ".join(f"{byte:02x}" for byte in (text + "!").encode()))


def test_a_locked_keyboard_is_a_failure_and_send_is_not():
    with shell(SHOWS, "\\033[2hready") as rig:
        rig.wait("ready")
        with pytest.raises(KeyboardLocked, match="KAM"):
            rig.keys("x")
        with pytest.raises(KeyboardLocked, match="KAM"):
            rig.paste("x")
        rig.send(b"\x00\xff")
        rig.wait(text="00 ff")
        with pytest.raises(TypeError):
            rig.send(5)


def test_paste_sends_returns():
    with shell(SHOWS, "ready") as rig:
        rig.wait("ready")
        rig.paste("ab\r\nc\nd")
        rig.wait(text="61 62 0d 63 0d 64")
    with shell(SHOWS, "\\033[20hready") as rig:
        rig.wait("ready")
        rig.paste("a\nb")
        rig.wait(text="61 0d 0a 62")


def test_a_long_text_reaches_a_program_that_reads_late(tmp_path):
    os.mkfifo(tmp_path / "go")
    with shell("stty raw -echo; printf ready; read word <go; head -c 300000 | wc -c") as rig:
        rig.wait("ready")
        rig.send(b"x" * 300000)
        assert rig._output  # the line takes some thousands of bytes
        (tmp_path / "go").write_text("go\n")
        rig.wait("300000")


def test_the_last_words_of_a_program_that_ends_between_two_looks_are_seen(tmp_path, monkeypatch):
    os.mkfifo(tmp_path / "go")
    with shell("printf ready; read word <go; printf ' and over'") as rig:
        rig.wait("ready")
        read, looks = rig._read, []

        def read_before_the_end(seconds):
            if looks:
                return read(seconds)
            looks.append(seconds)
            (tmp_path / "go").write_text("go\n")
            select.select([rig.process.ending], [], [])
            return False

        monkeypatch.setattr(rig, "_read", read_before_the_end)
        rig.wait("and over")
        assert looks


# Secrets.

def stored(rig, directory):
    """Returns the words of a report, and after them all that its files and the recording of a good run have."""
    words = rig.report()
    files = {path.name: path.read_text() for path in directory.iterdir()}
    played = [*inside(files["x.html"]), json.loads(rig_module.recorded(rig))]
    return words, [*files.values(), *(unpacked(each["bytes"]).decode() for each in played), *(json.dumps(each["options"]) for each in played), repr(rig.events)]


TYPES = {"keys": lambda rig, **options: rig.keys("s3cret", ENTER, **options), "send": lambda rig, **options: rig.send(b"s3cret\r", **options),
         "paste": lambda rig, **options: rig.paste("s3cret\n", **options)}


@pytest.mark.parametrize("way", TYPES)
@pytest.mark.parametrize("line", ["stty -echo", "stty raw -echo"])
def test_what_is_typed_without_echo_is_stored_nowhere(tmp_path, template, line, way):
    script = f"{line}; printf 'Password: '; head -c 7 >/dev/null; stty sane; printf '\\r\\nName: '; read name; sleep 1000"
    with shell(script, reports=Reports(tmp_path / "r", "x")) as rig:
        rig.wait("Password:")
        TYPES[way](rig)
        rig.wait("Name:")
        rig.keys("Eve")
        rig.wait("Name: Eve")
        words, files = stored(rig, tmp_path / "r")
    counted = "(7 bytes)" if way == "send" else "(7 keys)"
    assert f" s  hidden  {counted}\n" in words and " s  test    Eve\n" in words
    assert not any("s3cret" in text for text in (words, *files)) and sum(counted in text for text in files) == 5
    events = [json.loads(line)[1:] for line in (tmp_path / "r" / "x.cast").read_text().splitlines()[1:]]
    assert [each for each in events if each[0] not in "o"] == [["m", counted], ["i", "Eve"]]


@pytest.mark.parametrize("way", TYPES)
def test_secret_keys_wait_until_the_line_echoes_nothing(tmp_path, template, monkeypatch, way):
    """A program may show its prompt before it turns the echo off."""
    os.mkfifo(tmp_path / "go")
    with shell("printf 'Password: '; read word <go; stty -echo; read -r word; printf 'it has %s' ${#word}; sleep 1000", reports=Reports(tmp_path / "r", "x")) as rig:
        rig.wait("Password:")
        read, looks = rig._read, []

        def read_and_let_it_go_on(seconds):
            if not looks:
                (tmp_path / "go").write_text("go\n")
            looks.append(seconds)
            return read(seconds)

        monkeypatch.setattr(rig, "_read", read_and_let_it_go_on)
        TYPES[way](rig, secret=True)
        rig.wait("it has 6")
        words, files = stored(rig, tmp_path / "r")
    assert not any("s3cret" in text for text in (words, *files)) and " s  hidden  (7 " in words


def test_a_secret_is_not_typed_where_it_is_echoed():
    with shell("printf ready; read word; sleep 1000", timeout=0.2) as rig:
        rig.wait("ready", timeout=LONG)
        for way in TYPES.values():
            with pytest.raises(Failure, match="the line echoes them"):
                way(rig, secret=True)
        assert [event.who for event in rig.events] == ["program"]
    with shell("printf ready", timeout=LONG) as rig:
        rig.ended()
        with pytest.raises(Failure, match="the line echoes them"):
            rig.keys("s3cret", secret=True)


def test_keys_that_are_no_secret_are_stored():
    with shell(SHOWS, "ready") as rig:
        rig.wait("ready")
        for way in TYPES.values():
            way(rig, secret=False)
        rig.keys("x")
        assert [tuple(event)[1:] for event in rig.events if event.who != "program"] == [("test", b"s3cret\r")] * 3 + [("hidden", b"(1 key)")]


# Reports.

def test_each_report_is_of_the_place_where_it_was_asked_for():
    script = "stty raw -echo; printf '\\033[6nab\\033[6n\\r\\n\\033[6n\\033[c'; head -c 28 | od -An -c -w40 | tr -d ' '"
    with shell(script) as rig:
        rig.wait(text="033[1;1R033[1;3R033[2;1R033[?62;1;6c")


def test_an_answer_is_sent_while_the_rest_of_a_flood_waits():
    flood = "stty raw -echo; printf '\\033[5n'; head -c 4 >/dev/null; printf 'answered '; head -c 2000000 /dev/zero | tr '\\0' x; printf '\\033[5nend'; head -c 4 | od -An -c"
    with shell(flood) as rig:
        rig.wait("end")
        rig.wait(r"\[   0   n")


# Waiting.

def test_wait_for_each_kind_of_condition():
    with shell("printf '\\033[5;10Hone.two\\033[7m three\\033[m\\033[20;3H'; sleep 100") as rig:
        assert rig.wait("o.e", row=5, col=10).at("three").reverse
        rig.wait(text="one.two")
        rig.wait(re.compile("THREE", re.I))
        rig.wait(cursor=(20, 3))
        rig.wait("one", cursor=(20, 3))
        rig.wait(lambda screen: screen.at("one").col == 10 and not screen.at("one").reverse and not screen.at("four").reverse)
        for options in ({"what": "one", "row": 6}, {"what": "one", "col": 9}, {"text": "o.e"}, {"cursor": (1, 1)}, {"what": lambda screen: False}):
            with pytest.raises(Failure):
                rig.wait(timeout=0.1, **options)
        for options in ({}, {"row": 5}, {"cursor": (20, 3), "row": 5}, {"what": lambda screen: True, "col": 9}):
            with pytest.raises(TypeError):
                rig.wait(**options)
        with pytest.raises(Failure):
            rig.wait(lambda screen: True, text="never", timeout=0.1)


@pytest.mark.parametrize("options", [{"what": "x", "row": 1.5}, {"what": "x", "row": "1"}, {"text": "x", "col": 2.0}, {"cursor": (1.0, 1)}, {"cursor": (1, 1.5)}])
def test_a_place_that_is_no_integer_is_refused_at_once(options):
    with shell("sleep 1000") as rig:
        with pytest.raises(TypeError):
            rig.wait(timeout=0.1, **options)
        with pytest.raises(TypeError):
            rig.screen.at("x", row=1.5)


@pytest.mark.parametrize("mask, fault", [((0, 1, 1), vt220.NoRow), ((25, 1, 1), vt220.NoRow), ((1, 0, 1), ValueError), ((1, 256, 1), ValueError), ((1.5, 1, 1), TypeError)])
def test_a_mask_that_no_screen_has_is_refused(mask, fault):
    with pytest.raises(fault):
        screen_of(b"x").stored([mask])


@pytest.mark.parametrize("options, fault", [
    ({"what": "x", "row": 0}, vt220.NoRow), ({"what": "x", "row": 25}, vt220.NoRow), ({"text": "x", "row": -1}, vt220.NoRow),
    ({"cursor": (25, 1)}, vt220.NoRow), ({"what": "x", "col": 0}, ValueError), ({"what": "x", "col": 256}, ValueError),
    ({"cursor": (1, 256)}, ValueError),
])
def test_a_place_that_no_screen_has_is_refused_at_once(options, fault):
    with shell("sleep 1000") as rig:
        with pytest.raises(fault):
            rig.wait(timeout=0.1, **options)
        with pytest.raises(vt220.NoRow):
            rig.screen.at("x", row=25)


@pytest.mark.parametrize("prompt, spaces", [(">>> ", 1), ("$ ", 1), ("Name:   ", 3)])
def test_a_text_that_ends_in_spaces_is_found_up_to_the_cursor(prompt, spaces):
    plain = prompt.rstrip()
    with shell(f"printf '%s' '{prompt}'; sleep 1000") as rig:
        screen = rig.wait(text=prompt)
        for what in (f"^{re.escape(prompt)}", f"^{re.escape(prompt)}$", f"^{re.escape(plain)}$", re.compile(f"{re.escape(plain)} {{{spaces}}}$")):
            assert rig.wait(what) == rig.wait(what, row=1, col=1) == screen
        assert rig.wait(text=" ", row=1, col=len(plain) + 1) == screen
        place = screen.at(prompt)
        assert (place.row, place.col, len(place.cells)) == (1, 1, len(prompt))
        # There is one more blank cell, which is after the cursor.
        for options in ({"text": prompt + " "}, {"what": f"^{re.escape(prompt)} "}, {"text": " ", "row": 2}):
            with pytest.raises(Failure):
                rig.wait(timeout=0.1, **options)
        assert not screen.at(prompt + " ")
        # The readers have no spaces at the ends of lines.
        assert (screen.rows[0], screen.text.split("\n")[0]) == (plain, plain) and screen.stored().startswith(f"{plain}\n")


def test_a_row_has_its_spaces_up_to_the_last_cell_that_isnt_blank():
    """SGR 7 is reverse, SGR 4 underlined, and DECSCA 1 protects from a selective erase (EK-VT220-RM, chapter 4)."""
    screen = screen_of(b"one\033[7m   \033[m\r\ntwo  \r\n\033[4m    \033[m\r\nfour \033[1\"q \033[0\"q\r\n" + b"x" * 78 + b"  ")
    assert [screen.at(" ", row=row, nth=nth).col for row, nth in ((1, 1), (1, 3), (3, 4), (4, 2), (5, 2))] == [4, 6, 4, 6, 80]
    assert not screen.at(" ", row=1, nth=4) and not screen.at(" ", row=2) and not screen.at(" ", row=3, nth=5) and not screen.at(" ", row=4, nth=3)
    assert screen.cursor == (5, 80, True) and screen._finds(re.compile("x  $"), 5) and screen._finds(re.compile("x$"), 5) and not screen._finds(re.compile("x $"), 5)
    assert screen.rows[:5] == ("one", "two", "", "four", "x" * 78)


def test_an_expression_that_the_screen_has_as_text_has_a_hint():
    with shell("printf '%s' 'cost: $5 (total)'; sleep 1000") as rig:
        rig.wait("cost")
        for options in ({}, {"row": 1}, {"row": 1, "col": 7}):
            for what in ("$5 (total)", re.compile("$5 (total)")):
                with pytest.raises(Failure) as caught:
                    rig.wait(what, timeout=0.1, **options)
                assert "\nthe screen has this text as it is: write text='$5 (total)'\n" in str(caught.value)
        assert rig.wait(text="$5 (total)", row=1, col=7)
        # Text that isn't there, or isn't at this place, and an expression that was found, have no hint.
        for options in ({"what": "$6 (total)"}, {"what": "$5 (total)", "row": 2}, {"what": "$5 (total)", "col": 1}, {"what": "cost", "cursor": (9, 9)}, {"text": "$6"}):
            with pytest.raises(Failure) as caught:
                rig.wait(timeout=0.1, **options)
            assert "write text=" not in str(caught.value), options


def test_an_expression_that_never_came_has_the_hint_too():
    with run("printf", "%s", "name?") as rig:
        with pytest.raises(Failure, match=r"ended with status 0, and /\^name\?\$/ never came\n\n"):
            rig.wait("^name?$")
    with run("printf", "%s", "[ok]") as rig:
        with pytest.raises(Failure, match=r"never came\nthe screen has this text as it is: write text='\[ok\]'\n"):
            rig.wait("[ok]", row=1, col=1)


def test_a_text_of_two_rows_is_refused_with_the_cure():
    with shell("printf 'one\\r\\ntwo'; sleep 1000") as rig:
        screen = rig.wait("two")
        for call in (lambda: rig.wait("one\ntwo"), lambda: rig.wait(text="one\ntwo"), lambda: rig.wait(re.compile("one$\n")), lambda: rig.wait(r"one\r\ntwo", row=1),
                     lambda: rig.wait(r"one\x0Atwo"), lambda: rig.wait(r"one\012two"), lambda: rig.wait("\u201cone\n"), lambda: screen.at("one\ntwo"), lambda: screen.stored(["one\ntwo"])):
            with pytest.raises(ValueError, match=r"has a line feed, .*wait\(lambda screen: .*screen.text\)+$"):
                call()
        with pytest.raises(ValueError) as caught:
            rig.wait(text="one\ntwo")
        # What the error says works.
        assert rig.wait(eval(re.search(r"wait\((.*)\)$", str(caught.value))[1])) == screen
        with pytest.raises(ValueError) as caught:
            rig.wait("o.e\n")
        assert rig.wait(eval(re.search(r"wait\((.*)\)$", str(caught.value))[1])) == screen
        for what in (r"one[^\n]*", "[\n]?one", r"one\\?n?", re.compile("one  # the first\n $", re.X)):
            assert rig.wait(what) == screen
        with pytest.raises(Failure):
            rig.wait(re.compile("three  # the last\n", re.X), timeout=0)


def test_no_state_is_looked_at_inside_a_sequence():
    seen = []

    def look(screen):
        assert rig.terminal.is_between()
        seen.append(screen.text)
        return screen.at("end")

    pieces = ("a\\033", "[2", ";5", "Hb\\033P1$", "q\\033", "\\\\c\\233", "10;1", "Hend")
    with shell("stty -echo; printf .; " + "".join(f"read line; printf '{piece}'; " for piece in pieces) + "read line", encoding="dec") as rig:
        rig.wait("^.$", row=1)

        def let_it_go_on():
            """Lets the program write each piece when the rig has read the piece before."""
            for number in range(len(pieces)):
                os.write(rig.process.line, b"\n")
                whole = len("." + "".join(pieces[: number + 1]).encode().decode("unicode_escape"))
                until(lambda: len(rig.recording) >= whole)

        teller = threading.Thread(target=let_it_go_on)
        teller.start()
        rig.wait(look)
        teller.join()
    # Each piece ends inside a sequence, so there is no state between the first and the last.
    assert set(seen[:-1]) <= {"." + "\n" * 24} and seen[-1] == ".a\n    bc" + "\n" * 8 + "end" + "\n" * 15


def test_screen_waits_for_the_end_of_a_sequence():
    with shell("printf 'x\\033['; read line; printf '3;3Hy'; read line") as rig:
        rig.wait("")
        while not rig.recording.endswith(b"["):
            rig._read(1)
        rig.send(b"\n")
        assert rig.screen.at("y", row=3)


def test_a_time_out_says_what_was_waited_for_and_what_there_was(tmp_path):
    with shell("printf 'Name? '; read name", reports=Reports(tmp_path / "r", "stable-1")) as rig:
        rig.wait("Name")
        rig.keys("Eve")
        rig.wait("Eve")
        with pytest.raises(Failure) as caught:
            rig.wait("Hello", row=3, timeout=0.2)
    words = str(caught.value)
    assert "/Hello/ in row 3 didn't come in 0.2 s" in words and " 1|Name? Eve" in words and "test    Eve" in words
    assert "python3 -m vt220" in words and sorted(path.name for path in (tmp_path / "r").iterdir()) == ["stable-1.bytes", "stable-1.cast", "stable-1.svg"]
    played = subprocess.run([sys.executable, "-m", "vt220", str(tmp_path / "r" / "stable-1.bytes")], capture_output=True, text=True,
                            env={**os.environ, "PYTHONPATH": str(pathlib.Path(vt220.__file__).parents[1])})
    assert played.stdout.startswith("Name? Eve\n")


ASCIICAST = [
    ({}, "vt220", 80, "C.UTF-8"), ({"columns": 132}, "vt220", 132, "C.UTF-8"), ({"terminal": "xterm"}, "xterm-256color", 80, "C.UTF-8"), ({"term": "vt100"}, "vt100", 80, "C.UTF-8"),
    ({"env": {"TERM": "xterm"}, "terminal": "xterm", "columns": 132}, "xterm", 132, "C.UTF-8"), ({"encoding": "dec"}, "vt220", 80, "C"),
]


@pytest.mark.parametrize("options, term, width, locale", ASCIICAST)
def test_the_asciicast_of_a_failure_names_term_and_the_size(tmp_path, options, term, width, locale):
    """The format is that of asciinema's documentation, 'asciicast v2'."""
    with shell("echo $TERM; stty size; read answer; echo $answer; read more", reports=Reports(tmp_path / "r", "stable-1"), **options) as rig:
        rig.wait(f"^24 {width}$", row=2)
        rig.keys("yes", ENTER)
        rig.wait("^yes$", row=4)
        words = rig.report()
    path = tmp_path / "r" / "stable-1.cast"
    assert f"\nasciicast: {path}\n" in words
    head, *events = [json.loads(line) for line in path.read_text(encoding="utf-8").splitlines()]
    assert (head["version"], head["width"], head["height"], head["env"]) == (2, width, 24, {"TERM": term, "LC_ALL": locale})
    assert head["command"].startswith("/bin/sh -c 'echo $TERM; stty size")
    # The program had the TERM that the header names.
    assert rig.last.rows[:2] == (term, f"24 {width}")
    assert "".join(data for _, code, data in events if code == "o").encode() == bytes(rig.recording)
    assert "".join(data for _, code, data in events if code == "i") == "yes\r" and [at for at, *_ in events] == sorted(at for at, *_ in events)


def test_an_asciicast_has_whole_characters():
    """RFC 3629 has the bytes. U+FFFD is for what is ill-formed, also at the end."""
    parts = [(0.5, "o", b"a\xe2"), (1.25, "i", b"\xe2\x82\xac"), (1.5, "o", b"\x82"), (2, "o", b"\xac\xff"), (3, "o", b"\xe2\x82")]
    head, *events = [json.loads(line) for line in asciicast({"width": 80}, parts, "utf-8")]
    assert head == {"version": 2, "width": 80}
    assert events == [[0.5, "o", "a"], [1.25, "i", "\u20ac"], [2, "o", "\u20ac\ufffd"], [3, "o", "\ufffd"]]
    assert [json.loads(line)[2] for line in [*asciicast({}, [(0, "o", b"a\xe9\x9b")], "dec")][1:]] == ["a\xe9\x9b"]


def unpacked(text):
    return gzip.decompress(base64.b64decode(text))


def inside(text):
    """Returns the recordings in the players of a page."""
    return [json.loads(each) for each in re.findall(r'<script type="application/json">([^<]*)</script>', text)]


@pytest.fixture
def template(tmp_path, monkeypatch):
    (tmp_path / "template").write_text("@TITLE@|@PLAYERS@")
    monkeypatch.setenv("VT220_PAGE", str(tmp_path / "template"))


def test_a_page_plays_a_failure(tmp_path, template):
    with shell("printf '1 < 2? '; read answer; echo thanks; read more", reports=Reports(tmp_path / "r", "stable-1")) as rig:
        rig.wait("2")
        rig.keys("<no>")
        rig.send(b"\n")
        rig.wait("thanks")
        words = rig.report()
    path = tmp_path / "r" / "stable-1.html"
    assert f"\npage:      {path}\n" in words and "both runs" not in words
    title, players = path.read_text().split("|")
    (played,) = inside(players)
    assert "1 &lt; 2?" in title and played["notes"] == [] and "1 < 2?" in played["title"]
    lines = [tuple(map(int, line.split())) for line in unpacked(played["chunks"]).decode().split("\n")]
    assert unpacked(played["bytes"]) == rig.recording and sum(size for _, size in lines) == len(rig.recording) and lines == sorted(lines, key=lambda line: line[0])
    begun = played["options"]
    assert [label for _, label in begun["markers"]] == ["<no>", "\\n"] and begun["poster"] == lines[-1][0] / 1e6 and begun["start"] == 0


def test_a_page_has_the_size_of_the_screen_and_its_changes(tmp_path, template):
    with shell("printf one; read answer", rows=40, columns=120, reports=Reports(tmp_path / "r", "sized-1")) as rig:
        rig.wait("one")
        rig.resize(30, 100)
        rig.report()
    (played,) = inside((tmp_path / "r" / "sized-1.html").read_text().split("|")[1])
    begun, ((time, size, place),) = played["options"], played["changes"]
    assert (begun["rows"], begun["columns"], size, place, begun["poster"]) == (40, 120, "100x30", 3, time)


def test_a_page_has_no_other_options(template, monkeypatch):
    (played,) = inside(page(b"", [], "", ["1 < 2"], loop=True))
    assert played["notes"] == ["1 < 2"] and played["options"]["loop"] is True
    with pytest.raises(TypeError, match="size"):
        page(b"", [], "", size=1)
    # A template without a place for the rest of a large recording.
    with pytest.raises(NoTemplate, match="earlier version"):
        page(random.Random(8).randbytes(1 << 18), None, "")
    monkeypatch.setenv("VT220_PAGE", "")
    with pytest.raises(NoTemplate, match="make js"):
        page(b"", [], "")


@pytest.mark.parametrize("content, options, encoding", [(b"caf\xc3\xa9", {}, "utf-8"), (b"caf\xe9 ", {}, "dec"), (b"cafe", {}, "dec"), (b"caf\xc3\xa9", {"encoding": "dec"}, "dec")])
def test_the_content_of_a_page_decides_on_its_encoding(content, options, encoding):
    assert json.loads(recording(content, None, "a title", **options))["options"]["encoding"] == encoding


def test_the_rest_of_a_large_recording_is_after_the_script(tmp_path, monkeypatch):
    (tmp_path / "template").write_text("@TITLE@|@PLAYERS@|@REST@")
    monkeypatch.setenv("VT220_PAGE", str(tmp_path / "template"))
    large, small = random.Random(9).randbytes(1 << 18), b"small"
    text = side_by_side("", [("a", recording(large, None, "a")), ("b", recording(small, None, "b")), ("c", recording(large, None, "c"))])
    rests = dict(re.findall(r'<script type="application/octet-stream" id="([^"]*)">([^<]*)</script>', text.split("|")[2]))
    played = inside(text.split("|")[1])
    assert [each.get("rest") for each in played] == ["rest-0", None, "rest-2"] and all(len(each["bytes"]) <= 1 << 18 for each in played)
    assert [unpacked(each["bytes"] + rests.get(each.get("rest"), "")) for each in played] == [large, small, large]


def test_a_program_that_ends_is_not_waited_for():
    with shell("echo bye; exit 3", timeout=1e6) as rig:
        with pytest.raises(Failure, match="ended with status 3, and /never/"):
            rig.wait("never")
        rig.ended(3)
        with pytest.raises(Failure, match="status 3, not 0"):
            rig.ended()


# It needs colours, as most programs of today that use curses.
COLOURS = "import curses; curses.wrapper(lambda screen: (curses.use_default_colors(), screen.addstr('menu'), screen.getch()))"


def test_a_program_that_needs_another_terminal_has_a_hint():
    with run(sys.executable, "-c", COLOURS) as rig:
        with pytest.raises(Failure) as caught:
            rig.wait("menu")
    assert "use_default_colors" in str(caught.value) and "note: the program ended with an error under TERM=vt220" in str(caught.value)
    assert 'terminal="xterm"' in str(caught.value) and "--vt-terminal xterm" in str(caught.value)
    with run(sys.executable, "-c", COLOURS, terminal="xterm") as rig:
        rig.wait("menu")


@pytest.mark.parametrize("script, options", [("exit 0", {}), ("kill $$", {}), ("exit 1", {"terminal": "xterm"}), ("exit 1", {"env": {"TERM": "xterm"}})])
def test_another_end_has_no_hint(script, options):
    with shell(script, **options) as rig:
        with pytest.raises(Failure) as caught:
            rig.wait("menu")
    assert "note:" not in str(caught.value)


@pytest.mark.parametrize("output, is_told", [("caf\\303\\251", True), ("caf\\351", False), ("cafe", False),
                                             ("\\303\\251 \\351", False)])
def test_a_failure_says_that_the_output_looks_like_utf_8(output, is_told):
    with shell(f"printf '{output} end'; sleep 1000", encoding="dec") as rig:
        rig.wait("end")
        with pytest.raises(Failure) as caught:
            rig.wait("caf\u00e9s", timeout=0.1)
    words = str(caught.value)
    assert ("UTF-8" in words and 'encoding="dec"' in words and "DEC Multinational" in words.replace("\n", " ")) == is_told


def test_a_character_of_utf_8_that_is_cut_is_one_too():
    with shell("printf 'caf\\303\\251 \\342\\224'; sleep 1000", encoding="dec") as rig:
        rig.wait("\u00e2$")
        with pytest.raises(Failure, match="looks like UTF-8"):
            rig.wait("never", timeout=0.1)


def test_ended_knows_signals_and_plays_the_last_bytes():
    with shell("head -c 100000 /dev/zero | tr '\\0' x; echo; echo last; kill -TERM $$") as rig:
        assert rig.ended(-signal.SIGTERM).at("last")
    with shell("sleep 100") as rig:
        with pytest.raises(Failure, match="didn't end"):
            rig.ended(timeout=0.1)


def test_ended_waits_for_the_program_and_not_for_what_it_left():
    with shell("sleep 100000 & echo started") as rig:
        assert rig.ended().at("started")


def test_still_waits_for_a_pause(monkeypatch):
    with shell("printf ready; sleep 1000") as rig:
        rig.wait("ready")
        asked, reads = [], iter([True, True, False])
        monkeypatch.setattr(rig, "_read", lambda seconds: asked.append(seconds) or next(reads))
        assert rig.still(300).rows[0] == "ready" and asked == [0.3] * 3
        monkeypatch.setattr(rig, "_read", lambda seconds: True)
        with pytest.raises(Failure, match="without a pause of 500 ms"):
            rig.still(500, timeout=0)


def test_a_program_that_reads_is_still():
    """Each time that it reads, the line takes more of what waits for it. Its pause goes on."""
    with shell("stty raw -echo; printf ready; cat >/dev/null") as rig:
        rig.wait("ready")
        rig.send(b"x" * 10**6)
        begun = time.monotonic()
        rig.still(300)
        assert time.monotonic() - begun >= 0.3


# Screens.

# Changes of parts that a screen doesn't show, each from one control function or two.
HIDDEN = [b"", b"\033H", b"\033[1m", b"\0337\033[4;4H\0337", b"\033N", b"\033)0", b"\033[5;9r", b"\033[?1h", b"\033[1\"q", b"\033[1\"qx",
          b"\033[3g", b"\033[9C\033H", b"\016", b"\033|", b"\033~", b"\033o", b"\033O", b"\033(K", b"\033*A\033+B", b"\033[?6h\0337\033[?6l",
          b"\033[80Cx\0337\r", b"\033[4;5m\0337\033[m"]


def test_stored_screens_are_equal_exactly_where_repaints_are():
    by_file, by_repaint = {}, {}
    states = [(one.name, one.input, more) for one in vectors("dec", "vt220") if one.repaint is not None for more in HIDDEN[:5]]
    for name, data, more in states + [("hidden", first, second) for first in HIDDEN for second in HIDDEN]:
        screen = screen_of(data + more)
        stored = screen.stored()
        assert by_file.setdefault(stored, screen.repaint) == screen.repaint, name
        assert by_repaint.setdefault(screen.repaint, stored) == stored, name
    assert len(by_file) > 500


def test_screens_have_the_texts_and_repaints_of_the_vectors():
    for one in vectors("dec", "vt220"):
        if one.repaint is not None:
            assert (screen_of(one.input).text, screen_of(one.input).repaint) == (one.text(), one.repaint), one.name


def test_the_file_of_a_screen_can_be_read():
    terminal = vt220.Terminal()
    terminal.feed(b"plain \033[1;7mbold\033[m\r\n\033[4mx\033[m\033(0q\033(B\033[2;20r\033[?1h\033[?7l\033[3;7H")
    lines = Screen(terminal.repaint()).stored().split("\n")
    assert lines[:3] == ["plain bold", "x\u2500", ""] and len(lines[:24]) == 24
    assert lines[24:] == ["cursor: 3 7", "margins: 2 20", "modes: +DECCKM -DECAWM", "1: 7-10 bold reverse", "2: 1 underline", ""]


def test_hidden_parts_are_lines_by_name():
    """The graphic sets are named as EK-VT220-RM, chapter 2, names them; DECSC saves what chapter 4 lists."""
    screen = screen_of(b"\033[3;7H\033(A\033)0\033*K\016\033|\033[1m\033[1\"q\0337\033[0\"q\033[0;4m\033*<\033}\033O\033[3g\033H\033[10C\033H")
    assert screen.stored().split("\n")[24:] == [
        "cursor: 3 17", "brush: underline", "G0: British", "G1: special graphics", "GL: G1", "single shift: G3", "tab stops: 7 17",
        "saved cursor: 3 7", "saved brush: bold protected", "saved G0: British", "saved G1: special graphics", "saved G2: German",
        "saved GL: G1", "saved GR: G3", ""]
    assert screen_of(b"\033[3g").hidden == ("tab stops: none",) and screen_of(b"").hidden == screen_of(b"\033[?3h").hidden == ()
    assert screen_of(b"\033[?6h\033[80CX\0337\033[?6l").hidden == ("saved cursor: 1 80 wrap origin",)


def test_hidden_parts_of_older_files_are_read(tmp_path):
    """The line is that which version 0.3.0 stored for a program that sends ncurses' enacs."""
    text = screen_of(b"menu\033)0\r\n").stored()
    older = text.replace("G1: special graphics", "hidden: \\ec\\e[1;1H\\e[0m\\e[0\"q\\e(B\\e)0\\e*<\\e+<\x0f\\e}")
    assert older != text and renewed(older) == renewed(text) == text
    (tmp_path / "screens").mkdir()
    (tmp_path / "screens" / "menu.txt").write_text(older)
    with shell("printf 'menu\\033)0\\r\\n'; sleep 1000") as rig:
        rig.matches("menu")


def test_a_place_says_what_it_is():
    screen = screen_of(b"plain \033[1;7mbold\033[m plain")
    assert repr(screen.at("bye")) == "<'bye' isn't on the screen>" and not screen.at("bye")
    assert repr(screen.at("bold", row=3)) == "<'bold' isn't in row 3>"
    assert repr(screen.at("plain", nth=3)) == "<'plain' isn't on the screen 3 times>"
    assert repr(screen.at("bold")) == "<'bold' at row 1, column 7, bold, reverse>"
    row, col, cells = screen.at("plain", nth=2)
    assert (row, col, len(cells)) == (1, 12, 5) and isinstance(screen.at("plain"), Place)


def test_masks():
    first, second = (screen_of(b"12:34:56 load\r\npid \033[7m%d\033[m end\r\n" % pid) for pid in (1234, 9876))
    assert first.stored() != second.stored()
    masks = [r"\d\d:\d\d:\d\d", (2, 5, 4)]
    assert first.stored(masks) == second.stored(masks)
    assert first.stored(masks).startswith(f"{MASK * 8} load\npid {MASK * 4} end\n")


def screen_of(data):
    terminal = vt220.Terminal()
    terminal.feed(data)
    return Screen(terminal.repaint())


def test_the_difference_names_rows_cells_and_attributes():
    one, other = Stored(screen_of(b"abc\r\nsame\r\n\033[7mr\033[m").stored()), Stored(screen_of(b"axc\r\nsame\r\nr").stored())
    assert differing(one, other) == [(1, 2), (3, 1)]
    text = difference(one, other)
    assert "row 1, columns 2:\n  - abc\n  + axc\n     ^" in text and "- 3: 1 reverse" in text and "same" not in text
    assert "\033[31m- abc" in difference(one, other, colour=True)
    assert differing(one, one) == [] and difference(one, one) == ""


def marked_cells(picture):
    """Returns the positions of the red frames of a picture."""
    return [(box.get("x"), box.get("y")) for group in xml.etree.ElementTree.fromstring(picture) if group.get("stroke") == "#f22" for box in group]


def test_the_picture_is_the_library_s_with_marks():
    """A column is 10 units wide and a row 18 high, as docs/SPECIFICATION.md has it."""
    terminal = vt220.Terminal()
    terminal.feed(b"<&>\033[7mrev\033[0;1;4;5mx\033[m\r\n\033(0lqk\033[?5h")
    screen = Screen(terminal.repaint())
    assert svg(screen) == screen.picture == terminal.picture() and marked_cells(svg(screen)) == []
    marked = svg(screen, [(1, 2), (3, 80)])
    assert marked_cells(marked) == [("10", "0"), ("790", "36")]
    # Nothing of the library's picture is changed, and the marks depend on none of its names.
    start, group, end = re.split(r"(<g fill='#f00'.*</g>\n)", marked, flags=re.S)
    assert start + end == terminal.picture() and not re.search("class|id=", group)


def test_matches_writes_compares_and_marks(tmp_path):
    script = "printf 'A menu \\033[7m%s\\033[m' \"$1\"; sleep 100"
    with shell(script, "Open", update=True) as rig:
        rig.wait("Open")
        rig.matches("menu")
    assert (tmp_path / "screens" / "menu.txt").read_text().startswith("A menu Open\n")
    with shell(script, "Open") as rig:
        rig.matches("menu")
        with pytest.raises(Failure, match="--update-screens makes it"):
            rig.matches("other")
    with shell(script, "Oxen", reports=Reports(tmp_path / "r", "menu-1")) as rig:
        rig.wait("Oxen")
        with pytest.raises(Failure) as caught:
            rig.matches("menu", timeout=0.3)
    assert "menu.txt" in str(caught.value) and "  - A menu Open\n  + A menu Oxen\n            ^\n" in str(caught.value)
    assert marked_cells((tmp_path / "r" / "menu-1.svg").read_text()) == [("80", "0")]


def test_a_failure_without_its_files_is_still_a_failure(tmp_path):
    (tmp_path / "file").write_text("")
    with shell("printf ready; sleep 1000", reports=Reports(tmp_path / "file" / "r", "x")) as rig:
        rig.wait("ready")
        with pytest.raises(Failure, match="no picture and no recording: .*Not a directory"):
            rig.wait("never", timeout=0.1)


PROGRAM = pathlib.Path(__file__).resolve().parents[3] / "crates/vt220/out/vt220"
PLAYED = {
    "80 columns": ({}, None), "132 columns": ({"columns": 132}, None), "40x120": ({"rows": 40, "columns": 120}, None), "a change": ({}, (30, 100)),
    "two sizes": ({"rows": 40, "columns": 120}, (20, 60)), "132 columns and a change": ({"columns": 132}, (30, 100)), "another TERM": ({"term": "ansi"}, None),
}


@pytest.mark.parametrize("kind", [{}, {"terminal": "xterm"}, {"encoding": "dec"}], ids=["UTF-8", "xterm", "dec"])
@pytest.mark.parametrize("name", PLAYED)
def test_the_line_play_it_plays(tmp_path, name, kind):
    """Both commands are run as they are printed, and show the screen of the failure."""
    options, change = PLAYED[name]
    with run(TELL_SIZE, reports=Reports(tmp_path / "a b", "x[1]"), **options, **kind) as rig:
        rig.wait(f"{rig.rows} {rig.columns}")
        # A character beyond ASCII, and a column by CHA, which a VT220 lacks.
        rig.keys("\\033[%d;%dH%slow\\r\\033[3Gfirst\r" % (rig.rows, rig.columns - 6, "\\351" if "encoding" in kind else "\\342\\224\\202"))
        rig.wait("^  first.*low" if "terminal" in kind else "^first.*low", row=rig.rows)
        if change:
            rig.resize(*change)
            rig.wait(f"{change[0]} {change[1]}")
        with pytest.raises(Failure) as caught:
            rig.wait("never", timeout=0)
        text, show = rig.terminal.text(), rig.terminal.show()
    commands = re.search(r"^play it:   (python3 -m vt220 .*)   \(or: (vt220 show .*)\)$", str(caught.value), re.M)
    environment = {**inner_environment(), "PATH": f"{PROGRAM.parent}:{os.environ['PATH']}"}
    for command, shown in zip(commands.groups(), (text, show)):
        done = subprocess.run(["sh", "-c", command], cwd=tmp_path, env=environment, capture_output=True, text=True)
        assert (done.returncode, done.stdout, done.stderr) == (0, shown, ""), command
    assert ("--terminal" in commands[1]) == (name == "another TERM" and kind == {})


def test_python_ends_without_a_warning():
    code = "from vt220.rig import run\nwith run('true') as rig: rig.ended(timeout=300)"
    done = subprocess.run([sys.executable, "-B", "-X", "dev", "-W", "error", "-c", code], env=inner_environment(), capture_output=True, text=True)
    assert (done.returncode, done.stderr) == (0, "")


# What is left, and how quick it is.

STUBBORN = "trap '' HUP TERM INT; (trap '' HUP TERM INT; setsid sleep 1000) & setsid sh -c 'trap \"\" HUP; sleep 1001 & sleep 1002' & printf ready; while :; do sleep 1; done"


def test_nothing_is_left():
    rig = shell(STUBBORN)
    rig.wait("ready")
    mark = f"{MARK}={rig.process.mark}".encode() + b"\0"
    until(lambda: len(marked(mark)) >= 5)
    descriptors = len(os.listdir("/proc/self/fd"))
    rig.close()
    assert marked(mark) == []
    assert len(os.listdir("/proc/self/fd")) == descriptors - 2
    rig.close()


def test_nothing_is_left_when_the_line_was_closed_behind_the_rig():
    rig = shell(STUBBORN)
    rig.wait("ready")
    mark = f"{MARK}={rig.process.mark}".encode() + b"\0"
    until(lambda: len(marked(mark)) >= 5)
    os.close(rig.process.line)
    with pytest.raises(OSError):
        rig.close()
    assert marked(mark) == []


def test_nothing_is_left_by_a_program_that_clears_its_environment():
    with shell("trap '' HUP; env -i /bin/sleep 1003 & printf ready; wait; sleep 100") as rig:
        rig.wait("ready")
        until(lambda: len(rig.process.members()) == 2)
        members = rig.process.members()
    assert not any(is_alive(pid) for pid in members)


INTERRUPTED = """
def test_it(vt):
    rig = vt.run("sh", "-c", {script!r}, env={{"TOKEN": {token!r}}})
    rig.wait("ready")
    rig.wait("never", timeout=100000)
"""


@pytest.mark.parametrize("number", [signal.SIGKILL, signal.SIGTERM, signal.SIGINT, signal.SIGHUP])
@pytest.mark.parametrize("options", [[], ["-n", "1"]], ids=["alone", "xdist"])
def test_nothing_is_left_when_pytest_is_interrupted(tmp_path, number, options):
    token = os.urandom(8).hex()
    (tmp_path / "test_it.py").write_text(INTERRUPTED.format(script=STUBBORN, token=token))
    # A shell starts what is in its background with SIGINT ignored, and this test may run there.
    command = ["env", "--default-signal", *inner(tmp_path, *options)]
    with subprocess.Popen(command, cwd=tmp_path, env=inner_environment(), stdout=subprocess.DEVNULL, start_new_session=True) as pytest_process:
        until(lambda: len(marked(token.encode())) >= 5)
        pytest_process.send_signal(number)
        pytest_process.wait(LONG)
        until(lambda: not marked(token.encode()))


def test_nothing_is_left_when_the_terminal_interrupts_pytest(tmp_path):
    """Ctrl-C on pytest's own terminal: its whole group gets SIGINT, and pytest ends as it does without the rig."""
    token = os.urandom(8).hex()
    (tmp_path / "test_it.py").write_text(INTERRUPTED.format(script=STUBBORN, token=token))
    with run(*inner(tmp_path), cwd=tmp_path, env=inner_environment()) as rig:
        until(lambda: rig.screen and len(marked(token.encode())) >= 5)
        rig.keys(ctrl("c"))
        rig.ended(2)
        until(lambda: not marked(token.encode()))


def test_nothing_is_left_of_the_session_when_pytest_is_killed(tmp_path):
    """A process of the session that clears its environment and ignores SIGHUP has no mark."""
    (tmp_path / "test_it.py").write_text(INTERRUPTED.format(script="trap '' HUP; env -i /bin/sleep 1004 & echo $! >pid; printf ready; wait", token=""))
    with subprocess.Popen(inner(tmp_path), cwd=tmp_path, env=inner_environment(), stdout=subprocess.DEVNULL, start_new_session=True) as pytest_process:
        pid = tmp_path / "pid"
        until(lambda: pid.exists() and pid.read_text().endswith("\n") and not marked_one(int(pid.read_text())))
        pytest_process.kill()
    until(lambda: not is_alive(int(pid.read_text())))


def marked_one(pid):
    """Returns whether one process has anything in its environment."""
    with open(f"/proc/{pid}/environ", "rb") as file:
        return file.read() != b""


ENDS = {
    "an assertion": "assert False",
    "an exception": "raise OSError('no')",
    "a time-out": "rig.wait('never', timeout=0.1)",
    "pytest.fail": "pytest.fail('no')",
    "pytest.exit": "pytest.exit('no')",
    "sys.exit": "sys.exit(3)",
    "the end of Python": "os._exit(3)",
    "a crash of Python": "os.abort()",
    "a closed line": "os.close(rig.process.line)",
}


@pytest.mark.parametrize("end", ENDS)
def test_nothing_is_left_however_a_test_ends(tmp_path, end):
    token = os.urandom(8).hex()
    (tmp_path / "test_it.py").write_text(
        f"import os, sys, pytest\n\ndef test_it(vt):\n    rig = vt.run('sh', '-c', {STUBBORN!r}, env={{'TOKEN': '{token}'}})\n"
        f"    rig.wait('ready')\n    {ENDS[end]}\n")
    done = subprocess.run(inner(tmp_path), cwd=tmp_path, env=inner_environment(), capture_output=True, start_new_session=True)
    assert done.returncode != 0 or end == "a closed line"
    until(lambda: not marked(token.encode()))


def test_nothing_is_left_when_another_fixture_fails(tmp_path):
    token = os.urandom(8).hex()
    (tmp_path / "test_it.py").write_text(
        "import pytest\n\n@pytest.fixture\ndef broken(vt):\n"
        f"    vt.run('sh', '-c', {STUBBORN!r}, env={{'TOKEN': '{token}'}}).wait('ready')\n    vt.run('sh', '-c', {STUBBORN!r}).wait('ready')\n"
        "    yield\n    raise OSError('no')\n\ndef test_it(broken):\n    raise OSError('no')\n")
    assert subprocess.run(inner(tmp_path), cwd=tmp_path, env=inner_environment(), capture_output=True).returncode == 1
    assert not marked(token.encode())


def inner(directory, *options, keeps=False):
    """Returns the command of pytest, perhaps with the cache, which keeps the recordings of good runs."""
    return [sys.executable, "-B", "-m", "pytest", "-p", "vt220.pytest_plugin", *([] if keeps else ["-p", "no:cacheprovider"]), "-q", "--vt-timeout", str(LONG), *options,
            str(directory)]


def inner_environment():
    """Returns an environment in which pytest prints the same wherever it runs. With CI or BUILD_NUMBER it prints each message a second time."""
    kept = {name: value for name, value in os.environ.items() if not name.startswith("PYTEST") and name not in ("CI", "BUILD_NUMBER")}
    return {**kept, "PYTHONPATH": str(pathlib.Path(vt220.__file__).parents[1])}


def test_the_plugin_stores_compares_and_names_stale_screens(tmp_path):
    (tmp_path / "test_it.py").write_text(
        "import pytest\n\n@pytest.fixture\ndef echo(vt):\n    def echo(text):\n        rig = vt.run('echo', text)\n        rig.ended()\n"
        "        return rig\n    return echo\n\n"
        "def test_it(echo):\n    echo('hello').matches('hello')\n\ndef test_two(echo):\n    echo('two').matches('two')\n")

    def go(*options):
        return subprocess.run(inner(tmp_path, *options), cwd=tmp_path, env=inner_environment(), capture_output=True, text=True)

    assert "isn't there; --update-screens makes it" in go().stdout
    assert go("--update-screens").returncode == 0
    assert (tmp_path / "screens" / "hello.txt").read_text().startswith("hello\n")
    (tmp_path / "screens" / "old.txt").write_text("old\n")
    for options in ([], ["-n", "2"]):
        done = go(*options)
        assert done.returncode == 0 and f"no test asked for the stored screen {tmp_path}/screens/old.txt" in done.stdout, done.stdout
    assert "old.txt" not in go("-k", "two").stdout
    (tmp_path / "screens" / "two.txt").write_text("three\n")
    done = go("--color", "yes")
    assert done.returncode == 1 and "\033[31m- three" in done.stdout
    assert sorted(path.name for path in (tmp_path / "vt220-failures").iterdir()) == [f"test_it.py-test_two-1.{kind}" for kind in ("bytes", "cast", "svg")]
    go("--update-screens")
    assert go().returncode == 0 and not list((tmp_path / "vt220-failures").iterdir())


TERMS = """
def test_it(vt):
    rigs = [vt.run("sh", "-c", "echo $TERM $LC_ALL", **options) for options in ({}, {"terminal": "vt220"}, {"terminal": "xterm"}, {"encoding": "dec"})]
    assert [rig.ended().rows[0] for rig in rigs] == open("wanted").read().splitlines()
"""
USUAL = ["vt220 C.UTF-8", "vt220 C.UTF-8", "xterm-256color C.UTF-8", "vt220 C"]


@pytest.mark.parametrize("options, settings, wanted", [
    ([], "", USUAL), (["--vt-terminal", "xterm"], "", [USUAL[2], *USUAL[1:]]), ([], "vt_terminal = xterm", [USUAL[2], *USUAL[1:]]),
    (["--vt-terminal", "vt220"], "vt_terminal = xterm", USUAL), ([], "vt_encoding = dec", [USUAL[3]] * 2 + USUAL[2:]), (["--vt-encoding", "utf-8"], "vt_encoding = dec", USUAL),
])
def test_the_plugin_has_a_terminal_and_an_encoding(tmp_path, options, settings, wanted):
    (tmp_path / "test_it.py").write_text(TERMS)
    (tmp_path / "wanted").write_text("\n".join(wanted))
    (tmp_path / "pytest.ini").write_text(f"[pytest]\n{settings}\n")
    done = subprocess.run(inner(tmp_path, *options), cwd=tmp_path, env=inner_environment(), capture_output=True, text=True)
    assert done.returncode == 0, done.stdout


@pytest.mark.parametrize("options, settings, words", [
    ([], "vt_terminal = vt100", "vt_terminal is vt220 or xterm, not 'vt100'"), ([], "vt_encoding = latin-1", "vt_encoding is dec or utf-8, not 'latin-1'"),
    (["--vt-encoding", "dec"], "vt_terminal = xterm", "an xterm's programs are in UTF-8"), (["--vt-terminal", "vt100"], "", "invalid choice: 'vt100'"),
])
def test_a_terminal_that_there_is_not_is_refused_at_once(tmp_path, options, settings, words):
    (tmp_path / "pytest.ini").write_text(f"[pytest]\n{settings}\n")
    done = subprocess.run(inner(tmp_path, *options), cwd=tmp_path, env=inner_environment(), capture_output=True, text=True)
    assert done.returncode == 4 and words in done.stderr, done.stderr


def test_a_failure_is_next_to_the_last_good_run(tmp_path, template):
    def go(word, keeps=True):
        (tmp_path / "test_it.py").write_text(f"def test_it(vt):\n    vt.run('echo', '{word}').wait('good')\n")
        return subprocess.run(inner(tmp_path, keeps=keeps), cwd=tmp_path, env=inner_environment(), capture_output=True, text=True)

    def pages():
        return [*(tmp_path / "vt220-failures").glob("*.both.html")]

    assert go("bad").returncode == 1 and not pages()
    assert go("good").returncode == 0 and not pages()
    for _ in range(2):  # a failure leaves the recording of the good run
        done = go("bad")
        assert done.returncode == 1 and f"both runs: {pages()[0]}" in done.stdout, done.stdout
        assert [unpacked(played["bytes"]) for played in inside(pages()[0].read_text())] == [b"bad\r\n", b"good\r\n"]
    assert go("bad", keeps=False).returncode == 1 and not pages()


def test_many_rigs_in_many_threads():
    faults = []

    def work(number):
        try:
            for turn in range(5):
                with shell("stty -echo; read a; printf '\\033[6n'; read b; echo got $a; exit 7") as rig:
                    rig.keys(f"{number}-{turn}", ENTER)
                    rig.keys(ENTER)
                    rig.wait(f"got {number}-{turn}")
                    rig.ended(7)
        except BaseException as fault:
            faults.append(fault)

    threads = [threading.Thread(target=work, args=[number]) for number in range(8)]
    for thread in threads:
        thread.start()
    for thread in threads:
        thread.join()
    assert not faults


def test_many_rigs_under_xdist(tmp_path):
    (tmp_path / "test_it.py").write_text(
        "import pytest\nfrom vt220.rig import ENTER\n\n@pytest.mark.parametrize('number', range(40))\ndef test_it(vt, number):\n"
        "    rigs = [vt.run('sh', '-c', 'stty -echo; printf ready; read a; echo got $a') for _ in range(3)]\n"
        "    for rig in rigs:\n        rig.wait('ready')\n        rig.keys(str(number), ENTER)\n"
        "    for rig in rigs:\n        rig.ended()\n        assert rig.screen.at(f'got {number}')\n"
        "    assert number != 17\n    rigs[1].matches('two')\n")
    (tmp_path / "screens").mkdir()
    (tmp_path / "screens" / "two.txt").write_text("other\n")
    command = inner(tmp_path, "-n", "4", "-k", "5 or 17")
    done = subprocess.run(command, cwd=tmp_path, env=inner_environment(), capture_output=True, text=True)
    assert "5 failed" in done.stdout, done.stdout
    reports = sorted(path.name for path in (tmp_path / "vt220-failures").iterdir())
    assert reports == sorted(f"test_it.py-test_it-{number}-{rig}.{kind}" for number in (5, 15, 17, 25, 35) for rig in (1, 2, 3) for kind in ("bytes", "cast", "svg"))


PLAIN = """
import pytest

@pytest.fixture
def ready(vt):
    rig = vt.run("echo", "hello")
    rig.ended()
    return rig

@pytest.fixture
def broken(ready):
    assert ready.screen.at("in the setup")

@pytest.fixture
def breaks(ready):
    yield
    assert ready.screen.at("in the teardown")

def test_plain(vt, ready):
    vt.run("echo", "other").ended()
    assert ready.screen.at("bye")

def test_setup(broken):
    pass

def test_teardown(breaks):
    pass

def test_caught(vt, ready):
    with pytest.raises(AssertionError):
        ready.wait("never")
    raise OSError("no")

def test_failure(ready):
    ready.wait("never")

def test_passes(ready):
    assert ready.screen.at("hello")

@pytest.mark.xfail
def test_expected(ready):
    assert ready.screen.at("bye")
"""


@pytest.mark.parametrize("options", [[], ["-n", "1"]], ids=["alone", "xdist"])
def test_a_plain_assert_leaves_screen_picture_and_recording(tmp_path, options):
    (tmp_path / "test_it.py").write_text(PLAIN)
    done = subprocess.run(inner(tmp_path, *options), cwd=tmp_path, env=inner_environment(), capture_output=True, text=True)
    assert done.returncode == 1 and "3 failed, 2 passed, 1 xfailed, 2 errors" in done.stdout, done.stdout
    for words in ("<'bye' isn't on the screen>", "<'in the setup' isn't on the screen>", "<'in the teardown' isn't on the screen>", " 1|hello", " 1|other"):
        assert words in done.stdout, done.stdout
    counts = {"plain": 2, "setup": 1, "teardown": 1, "caught": 1, "failure": 1}
    # Each program is shown once, also that whose failure shows it itself.
    assert done.stdout.count("the command: ") == sum(counts.values()), done.stdout
    found = sorted(path.name for path in (tmp_path / "vt220-failures").iterdir())
    assert found == sorted(f"test_it.py-test_{name}-{number}.{kind}" for name, count in counts.items() for number in range(1, count + 1) for kind in ("bytes", "cast", "svg"))
    assert all(f"vt220-failures/{name}" in done.stdout for name in found)
    assert (tmp_path / "vt220-failures" / "test_it.py-test_plain-2.bytes").read_bytes() == b"other\r\n"


def test_the_files_of_tests_are_their_own(tmp_path):
    words = ["a b", "a/b", "a-b", "80", "80-24", "80-24-1", "x" * 300, "x" * 299 + "y"]
    (tmp_path / "test_it.py").write_text(
        f"import pytest\n\n@pytest.mark.parametrize('word', {words})\ndef test_x(vt, word):\n    vt.run('echo', word).ended()\n    assert False\n")
    (tmp_path / "vt220-failures").mkdir()
    (tmp_path / "vt220-failures" / "test_it.py-test_x-80-2.svg").write_text("of a run before, whose test had two programs")
    for options in ([], ["-n", "2"]):
        done = subprocess.run(inner(tmp_path, *options), cwd=tmp_path, env=inner_environment(), capture_output=True, text=True)
        assert f"{len(words)} failed" in done.stdout, done.stdout
        files = list((tmp_path / "vt220-failures").iterdir())
        assert sorted(path.read_bytes().decode().replace("\r\n", "") for path in files if path.suffix == ".bytes") == sorted(words)
        assert len(files) == 3 * len(words) and all(str(path) in done.stdout for path in files)


def test_names_of_files_are_readable_and_different():
    assert file_name("tests/test_it.py::TestAll::test_x[80]") == "tests-test_it.py-TestAll-test_x-80"
    ids = ["a/b.py::t", "a-b.py::t", "a/b.py::t[x]", "a/b.py::t[x-y]", "a/b.py::t[x y]", "a/b.py::t[x/y]", "a/b.py::t[\u00e9]", "a/b.py::t[\u00e8]", "a/b.py::t[]"]
    names = [file_name(one) for one in ids]
    assert len(set(names)) == len(ids) and all(re.fullmatch(r"[\w.-]{3,200}", name, re.ASCII) for name in names)


def calls_of(monkeypatch, work):
    """Returns the names of the library's calls that are made while `work` runs."""
    made, calls = [], vars(vt220._library)
    with monkeypatch.context() as patch:
        for name, call in [(name, call) for name, call in calls.items() if name.startswith("vt220_")]:
            patch.setitem(calls, name, lambda *words, name=name, call=call: made.append(name) or call(*words))
        work()
    return made


def test_a_look_at_a_stored_screen_makes_few_calls(monkeypatch):
    """A wait compares after each read, so a comparison plays one repaint, and reads each row and each other part once. Calls by ctypes
    can be seen."""
    monkeypatch.setattr(vt220._library, "calls", vt220._ByCtypes)
    terminal = vt220.Terminal()
    terminal.feed(b"\033[7mtext\033[m\033)0\033[5;9r")
    stored = screen_of(terminal.repaint()).stored()
    assert screen_of(b"other").stored() != stored  # each call is loaded
    repaint = terminal.repaint()
    made = calls_of(monkeypatch, lambda: Screen(repaint).stored() == stored)
    assert made.count("vt220_feed") == made.count("vt220_open_as") == made.count("vt220_text") == 1 and made.count("vt220_row") == vt220.ROWS
    assert len(made) <= 60 and "vt220_repaint_as" not in made


def test_a_start_does_little_and_never_sleeps(monkeypatch):
    """The cost of a start is that of posix_spawn: Python does a little before and after it, and waits for nothing."""
    run("true").close()  # the watchdog starts with the first one
    called = []
    sys.setprofile(lambda frame, event, what: called.append(what.__name__ if event == "c_call" else frame.f_code.co_name))
    try:
        rig = run("true")
    finally:
        sys.setprofile(None)
    rig.close()
    assert len(called) < 1000 and not {"sleep", "select", "fork", "fork_exec", "waitpid", "waitid"} & set(called), called
