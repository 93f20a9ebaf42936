"""Tests the rig with programs that have TERM=xterm-256color."""
import functools

import pytest

import vt220
from vt220.keyboard import Key, alt, ctrl, shift, spelled, typed
from vt220.page import template
from vt220.rig import END, F5, HOME, LEFT, TAB, UP, Failure, Reports

import rigs
import xterm_keys
from rigs import SHOWS, in_a_directory, terminfo  # noqa: F401

POWER_UP = vt220.Modes(False, False, True, False, False, False, False, False, True, True, True, False, False)
run = functools.partial(rigs.run, terminal="xterm")


@pytest.mark.parametrize("options, wanted", [({}, "xterm-256color C.UTF-8"), ({"term": "xterm"}, "xterm C.UTF-8"), ({"terminal": "vt220"}, "vt220 C.UTF-8")])
def test_a_program_has_the_name_of_the_terminal(options, wanted):
    with run("/bin/sh", "-c", "echo $TERM $LC_ALL", **options) as rig:
        assert rig.ended().rows[0] == wanted


def test_there_are_two_terminals():
    for name in ("xterm-256color", "", None):
        with pytest.raises(ValueError, match="a terminal is one of vt220, xterm"):
            run("true", terminal=name)


def test_less_has_the_alternate_page(tmp_path):
    (tmp_path / "notes.txt").write_text("".join(f"line {number}\n" for number in range(1, 61)))
    with run("/bin/sh", "-c", "printf 'before\\r\\n'; less notes.txt; printf 'after\\r\\n'; read end", env={"LESSHISTFILE": "-", "LESS": ""}) as rig:
        rig.wait("notes.txt", row=24)
        rig.wait("^line 1$", row=1)
        assert rig.terminal.alternate()
        rig.keys(END)
        rig.wait("^line 60$", row=23)
        rig.keys(HOME)
        rig.wait("^line 1$", row=1)
        rig.keys("q")
        rig.wait("^after$", row=2)
        assert not rig.terminal.alternate() and rig.last.rows[0] == "before"
        rig.keys("\r")
        rig.ended()


def test_132_columns_stay():
    """A reset by terminfo's strings doesn't change the width: ?40 isn't set."""
    with run("/bin/sh", "-c", "printf '\\033[132Gx\\033[?3l'; read end", columns=132) as rig:
        rig.wait("x$", row=1, col=132)
        assert rig.last.width == 132
        rig.keys("\r")
        rig.ended()


def test_a_failure_names_the_terminal(tmp_path):
    with run("/bin/sh", "-c", "printf 'main\\033[?1049hother'; exit 3", reports=Reports(tmp_path, "failed")) as rig:
        with pytest.raises(Failure) as failure:
            rig.ended()
    words = str(failure.value)
    assert (tmp_path / "failed.svg").exists() and ("page:" in words) == (template() is not None)
    if template() is not None:
        assert '"terminal": "xterm"' in (tmp_path / "failed.html").read_text(encoding="utf-8")
    assert f"play it:   python3 -m vt220 --format asciicast {tmp_path}/failed.cast   (or: vt220 show --format asciicast {tmp_path}/failed.cast)" in words


def test_keys_are_those_of_terminfo():
    """The entry xterm-256color has the keys under DECCKM and DECKPAM. Each of them that is a key here sends the same."""
    names = {"kf%d" % number: "F%d" % number for number in range(1, 21)}
    names.update(khome="HOME", kend="END", kich1="INSERT_HERE", kdch1="REMOVE", kpp="PREV_SCREEN", knp="NEXT_SCREEN", kcuu1="UP", kcud1="DOWN",
                 kcuf1="RIGHT", kcub1="LEFT", kent="KP_ENTER")
    modes, entry = POWER_UP._replace(decckm=True, keypad_application=True), terminfo("xterm-256color")
    for name, key in names.items():
        assert spelled(Key[key], modes, "utf-8", "xterm") == entry[name], name


def test_the_keys_with_modifiers_are_those_of_terminfo():
    """terminfo(5) and user_caps(5) have the names: kLFT is Shift with the cursor key, and kLFT3 to kLFT7 have the number of xterm."""
    held = {"": "S-", "3": "A-", "4": "S-A-", "5": "C-", "6": "S-C-", "7": "A-C-"}
    kinds = {"kUP": "Up", "kDN": "Down", "kRIT": "Right", "kLFT": "Left", "kHOM": "Home", "kEND": "End", "kIC": "Insert", "kDC": "Remove", "kPRV": "PageUp", "kNXT": "PageDown"}
    names = {f"{kind}{number}": prefix + key for kind, key in kinds.items() for number, prefix in held.items()}
    names.update(kri="S-Up", kind="S-Down", kcbt="S-Tab", kf5="F5")
    names.update((f"kf{first + number}", f"{prefix}F{number}") for first, prefix in ((12, "S-"), (24, "C-"), (36, "S-C-"), (48, "A-"), (60, "S-A-")) for number in range(1, 13))
    rows, entry = {name: sent for name, _, sent in xterm_keys.rows()}, terminfo("-x", "xterm-256color")
    named = [name for name in names if name in entry]
    for name in named:
        assert rows[names[name]] == entry[name] == vt220.key(names[name], POWER_UP._replace(decckm=True), terminal="xterm"), name
    # The entry has kf1 to kf63, and no names beyond.
    assert len(named) == len(names) - 9


def test_a_program_gets_keys_with_modifiers():
    for keys, sent in (((F5,), "1b 5b 31 35 7e"), ((shift(TAB),), "1b 5b 5a"), ((ctrl(LEFT), alt(UP)), "1b 5b 31 3b 35 44 1b 5b 31 3b 33 41"), ((ctrl(shift(HOME)), "x"), "1b 5b 31 3b 36 48 78")):
        with rigs.shell(SHOWS, "ready", terminal="xterm") as rig:
            rig.wait("ready")
            rig.keys(*keys)
            rig.wait(text=sent)
    with rigs.shell(SHOWS, "ready") as rig:
        for key in (F5, shift(TAB)):
            with pytest.raises(vt220.NoKey, match="a VT220 has no key"):
                rig.keys(key)
    for key in (shift(Key.KP_5), ctrl(Key.ENTER), alt(TAB), shift(Key.DELETE)):
        with pytest.raises(vt220.NoKey, match="an xterm has no key"):
            spelled(key, POWER_UP, "utf-8", "xterm")


@pytest.mark.parametrize("options, blinks", [({}, False), ({"terminal": "vt220"}, True), ({"terminal": "vt220", "encoding": "dec"}, True)])
def test_a_colour_is_read_under_xterm_alone(options, blinks):
    """A VT220 takes 38, 5 and 208 for three attributes, of which it has 5. In xterm's control sequences they are one colour."""
    with run("printf", "\\033[38;5;208mbat", **options) as rig:
        assert rig.ended().at("bat").blink == blinks


def test_keys_that_were_typed_on_another_terminal():
    """A sequence of a VT220 is the key, and that of xterm passes as it came."""
    wanted = b"\033OH\033OH\033OF\033[1;2P\033[19;2~\033[1;2P\033[15~\033OA\303\251"
    assert typed(b"\033[1~\033[H\033[F\033[25~\033[34~\033[1;2P\033[15~\033[A\303\251", POWER_UP._replace(decckm=True), "utf-8", "xterm").sent == wanted
    assert typed(b"\033[1~\033[25~", POWER_UP, "utf-8").sent == b"\033[1~\033[25~"


@pytest.mark.parametrize("terminal, wanted", [("xterm", ["$ echo one", "echo two", "one", "two"]), ("vt220", ["$ echo one", "one", "$ echo two", "two"])])
def test_bash_runs_pasted_lines_at_return_if_they_are_in_brackets(terminal, wanted):
    """bash asks for brackets under TERM=xterm: then it inserts the lines, and runs them together."""
    with run("bash", "--norc", "--noprofile", terminal=terminal, env={"PS1": "$ ", "INPUTRC": "/dev/null"}) as rig:
        rig.wait(text="$ ")
        rig.paste("echo one\necho two")
        rig.wait("echo two")
        rig.keys(Key.ENTER)
        screen = rig.wait("^two$")
        assert screen.text.splitlines()[:4] == wanted
