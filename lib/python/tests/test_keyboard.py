"""Holds the keyboard against lib/rows/keys.txt, which has the tables of the VT220 Programmer Reference Manual."""
import pytest

import vt220
from vt220 import Terminal
from vt220.keyboard import Key, alt, ctrl, shift, spelled, typed

from flat import keys
from rigs import terminfo

POWER_UP = Terminal().modes()
MODES = ("lnm", "decckm", "keypad_application", "reports_8bit")
SETTINGS = [POWER_UP._replace(**dict(zip(MODES, (bool(setting & bit) for bit in (8, 4, 2, 1))))) for setting in range(16)]
ERRORS = {"no key": vt220.NoKey, "no character": vt220.NoCharacter}


def test_every_key_under_every_mode():
    for language, setting, name, wanted in keys():
        more = {"terminal": "xterm"} if language == 2 else {}
        if wanted in ERRORS:
            with pytest.raises(ERRORS[wanted]):
                vt220.key(name, SETTINGS[setting], **more)
        else:
            assert vt220.key(name, SETTINGS[setting], **more) == wanted, (name, setting)


def test_each_key_of_the_enumeration_is_a_row_of_its_name():
    sent = {(name.lower(), setting): wanted for language, setting, name, wanted in keys() if language == 0}
    for name, key in Key.__members__.items():
        for setting, modes in enumerate(SETTINGS):
            row = sent.get((name.replace("_", "").lower(), setting)) or sent[(key.value.lower(), setting)]
            if row in ERRORS:
                assert key is Key.F5
                with pytest.raises(ERRORS[row], match="a VT220 has no key F5"):
                    spelled(key, modes)
            else:
                assert spelled(key, modes) == row, name


def test_texts():
    assert spelled("a\u00e4\u00ff\u0153\u00a4", POWER_UP) == b"a\xe4\xfd\xf7\xa8"
    for text in ("\u20ac", "x\u00f7", "\u00dd", "\u00ac"):
        with pytest.raises(ValueError, match="no key of a VT220 sends"):
            spelled(text, POWER_UP)
    with pytest.raises(TypeError):
        spelled(5, POWER_UP)
    assert spelled("a\r", POWER_UP._replace(lnm=True)) == b"a\r\n"
    assert [ctrl(letter) for letter in "c@[\\]^_?"] == ["\x03", "\x00", "\x1b", "\x1c", "\x1d", "\x1e", "\x1f", "\x1f"]
    for letter in ("1", "ab", ""):
        with pytest.raises(ValueError):
            ctrl(letter)


def test_what_is_typed_on_a_modern_terminal():
    modes = POWER_UP._replace(decckm=True, reports_8bit=True)
    assert typed("\033[A\u0153\033[3~\xe9x".encode(), modes) == (b"\x8fA\xf7\x9b3~\xe9x", b"", "")
    assert typed(b"\033[15~\xe9x\033[", modes) == (b"\033[15~\xe9x", b"\033[", "")
    assert typed("a\u00f7\u20acb".encode(), modes) == (b"ab", b"", "\u00f7\u20ac")
    assert vt220.key_length(b"\033O") == 0 and vt220.key_length(b"\033OAB") == 3


def test_texts_in_utf_8():
    assert spelled("a\u00e4\u0153\u201c\u4e16\U0001f600", POWER_UP, "utf-8") == "a\u00e4\u0153\u201c\u4e16\U0001f600".encode()
    assert spelled("a\r\t", POWER_UP._replace(lnm=True), "utf-8") == b"a\r\n\t" and spelled(Key.UP, POWER_UP._replace(reports_8bit=True), "utf-8") == b"\x9bA"
    for text in ("x\u009b", "\u0085", "\ud800"):
        with pytest.raises(ValueError, match="no key of a VT220 sends"):
            spelled(text, POWER_UP, "utf-8")


def test_what_is_typed_on_a_modern_terminal_for_one_in_utf_8():
    modes = POWER_UP._replace(decckm=True)
    assert typed("\033[A\u0153\u201cx\u4e16".encode() + b"\xe2\x80", modes, "utf-8") == (b"\033OA" + "\u0153\u201cx\u4e16".encode(), b"\xe2\x80", "")


def test_function_keys_are_those_of_terminfo():
    """The entry vt220 of terminfo was written by others: each of its function keys is ours."""
    names = {"kf%d" % number: "F%d" % number for number in range(1, 21) if number != 5}
    names.update(kfnd="FIND", kich1="INSERT_HERE", kdch1="REMOVE", kslt="SELECT", kpp="PREV_SCREEN", knp="NEXT_SCREEN", khlp="HELP", krdo="DO",
                 kcuu1="UP", kcud1="DOWN", kcuf1="RIGHT", kcub1="LEFT")
    found = {name: code for name, code in terminfo("vt220").items() if name in names}
    assert len(found) >= 25 and found == {name: spelled(Key[names[name]], POWER_UP) for name in found}


@pytest.mark.parametrize("one, name", [(Key.F5, "F5"), (shift(Key.UP), "S-Up"), (ctrl(alt(Key.F6)), "C-A-F6")])
def test_a_key_of_an_xterm_alone_names_the_cure(one, name):
    with pytest.raises(vt220.NoKey, match=f"^a VT220 has no key {name}, and an xterm has: .*terminal=\"xterm\", or pytest with --vt-terminal xterm$"):
        spelled(one, POWER_UP)
    with pytest.raises(vt220.NoKey, match="^a VT220 has no key S-KP0$"):
        spelled(shift(Key.KP_0), POWER_UP)
