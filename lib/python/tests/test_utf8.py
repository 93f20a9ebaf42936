"""Tests the rig in UTF-8: what programs get and show, and how a test finds it.

What a screen shows follows from the tables of docs/SPECIFICATION.md, 'UTF-8'.
"""
import re

import pytest

import vt220
from vt220.expected import expression_as_shown, expression_of_text
from vt220.rig import DELETE, DOWN, ENTER, ESCAPE, Failure, NoGlyph, Reports, Screen

from rigs import SHOWS, in_a_directory, run, shell  # noqa: F401


def screen_of(text):
    """Returns the screen of a program that writes a text in UTF-8."""
    with vt220.Terminal("utf-8") as terminal:
        terminal.feed(text.encode())
        return Screen(terminal.repaint(), "utf-8")


# What a program gets.

@pytest.mark.parametrize("options, charmap, flag", [({}, "UTF-8", "iutf8"), ({"encoding": "dec"}, "ANSI_X3.4-1968", "-iutf8")])
def test_a_program_has_a_locale_and_a_line_of_its_encoding(options, charmap, flag):
    """locale(1) prints the codeset, and stty(1) the flags of the line."""
    with shell("locale charmap; stty -a", **options) as rig:
        screen = rig.ended()
    assert screen.rows[0] == charmap and flag in screen.text.split()


def test_a_test_chooses_the_locale():
    with shell("echo $LC_ALL", env={"LC_ALL": "POSIX"}) as rig:
        assert rig.ended().rows[0] == "POSIX"


@pytest.mark.parametrize("options, sent", [({}, "61 c3 a4 e2 80 9c f0 9f 98 80"), ({"encoding": "dec"}, "61 e4")])
def test_keys_are_sent_in_the_encoding(options, sent):
    text = bytes.fromhex(sent).decode("latin-1" if options else "utf-8")
    for press in ("keys", "paste"):
        with shell(SHOWS, "ready", **options) as rig:
            rig.wait("ready")
            getattr(rig, press)(text)
            rig.wait(text=sent)


def test_a_character_that_no_key_sends_is_refused():
    with shell(SHOWS, "ready") as rig, shell(SHOWS, "ready", encoding="dec") as other:
        for one, text in ((rig, "\u009b"), (other, "\u201c")):
            one.wait("ready")
            with pytest.raises(ValueError, match="no key of a VT220 sends"):
                one.keys(text)


def test_the_line_erases_whole_characters():
    """termios(3): IUTF8 allows character-erase to be correctly performed in cooked mode."""
    with shell("printf ready; head -n 1 | od -An -tx1") as rig:
        rig.wait("ready")
        rig.keys("a\u201cb", DELETE, DELETE, "c", ENTER)
        rig.wait("^ 61 63 0a$")


def test_another_encoding_is_refused():
    with pytest.raises(ValueError, match="dec, utf-8, not 'latin-1'"):
        run("true", encoding="latin-1")


# What a test finds.

@pytest.mark.parametrize("text, shown, row", [
    ("\u201cWelt\u201d \u2026", '"Welt" .', '"Welt" .'), ("\u250f\u2501\u2513", "\u250c\u2500\u2510", "\u250c\u2500\u2510"), ("\u4e16x", "\u2426 x", "\u2426 x"),
    ("x\u4e16", "x\u2426 ", "x\u2426"), ("e\u0301a", "ea", "ea"), ("\u00e9\u2500", "\u00e9\u2500", "\u00e9\u2500"),
])
def test_a_text_is_found_by_what_is_shown_for_it(text, shown, row):
    with shell(f"printf 'before {text}'; sleep 1000") as rig:
        options = {"allow_substitutes": "\u2426" in shown}
        screen = rig.wait(text, row=1, col=8, **options)
        assert rig.wait(text=text, col=8, **options) == rig.wait(text=shown.rstrip()) == rig.wait(lambda screen: screen.at(text, **options)) == screen
        assert screen.rows[0] == f"before {row}" and vt220.shown(text) == shown
        place = screen.at(text, **options)
        assert (place.row, place.col, "".join(cell.glyph for cell in place.cells)) == (1, 8, shown)


# A pattern, and rows of a screen that it finds and doesn't find.
PATTERNS = [
    ("\u201cW", ['"W'], ["W", "xW"]), ("[\u201c\u00ab]W", ['"W', "\u00abW"], ["xW"]), ("[^\u201c]W", ["xW"], ['"W', "W"]), ("(?<!\u201c)W", ["xW", "W"], ['"W']),
    ("^\u2026$", ["."], ["x", ".."]), ("[\u2026]", ["."], ["x"]), ("\u2191", ["a^"], ["a", ""]), ("\u2713+$", ["x++"], ["x"]), ("a\u2016b", ["a|b"], ["a", "b"]),
    (r"^\u2026$", ["."], ["x"]), (r"^\xd7$", ["x"], ["a"]), (r"^\327$", ["x"], ["a"]), (r"^\U00002026$", ["."], ["x"]), (r"^\N{BULLET} x", ["\u00b7 x"], ["x x"]),
    ("\\\u201c", ['"'], ["x"]), ("^[\u2500-\u257f]+$", ["\u250c\u2500\u2510", "\u253c"], ["x", "-"]), ("^[a-\u00ff]+$", ["az\u00e9\u00ff"], ["A"]), ("[]\u2026-]", ["]", ".", "-"], ["["]),
    ("[^]\u2026]", ["x"], ["]", "."]), ("^\u4e16+x", ["\u2426 \u2426 x"], ["\u2426x"]), ("^\u4e16$", ["\u2426"], ["\u2426x"]), ("^(?:a\u4e16){2}$", ["a\u2426 a\u2426"], ["a\u2426a\u2426"]),
    ("(?x) ^ \u201c \\ \u4e16 ", ['" \u2426'], ['"\u2426']), ("^e\u0301*x", ["ex"], ["e"]), ("[\u0301]", [], ["e", ""]), ("(?i)\u00c4\u201d", ['\u00e4"'], ["\u00e4"]),
    (r"^\w\d[^\W\d]\\$", ["a1b\\"], ["a12\\"]), ("(?<!\u4e16)x", ["x", "\u2426x"], ["\u2426 x"]), ("(?<=\u201c)\u4e16$", ['"\u2426'], ["\u2426", '"\u2426x']),
]


@pytest.mark.parametrize("pattern, found, missed", PATTERNS)
def test_an_expression_finds_what_is_shown(pattern, found, missed):
    for expression in (pattern, re.compile(pattern)):
        mapped = expression_as_shown(expression, "utf-8", allow_substitutes=True)
        assert [row for row in found + missed if mapped.search(row)] == found, mapped.pattern
    assert expression_as_shown(pattern, "dec").pattern == pattern


# What a program prints, and a text of another meaning. A VT220 has a glyph for none of these characters.
WRONG = [("\u5931\u6557 (failed)", "\u6210\u529f"), ("\u043d\u0435\u0442", "\u0434\u043e\u043c"), ("\U0001f4a5 broken", "\U0001f389"), ("\u03b1\u03b2\u03b3", "\u03c9\u03c8\u03c6")]


@pytest.mark.parametrize("printed, expected", WRONG)
def test_a_text_that_the_screen_cannot_tell_from_others_is_refused(tmp_path, printed, expected):
    (tmp_path / "screens").mkdir()
    (tmp_path / "screens" / "it.txt").write_text(screen_of("ok").stored(), encoding="utf-8")
    with run("printf", "%s", printed) as rig:
        screen = rig.ended()
        for refused in (lambda: rig.wait(expected), lambda: rig.wait(re.compile(expected)), lambda: rig.wait(text=expected), lambda: rig.wait(lambda now: now.at(expected)),
                        lambda: screen.at(expected), lambda: screen.stored([expected]), lambda: rig.matches("it", masks=[expected])):
            with pytest.raises(NoGlyph) as caught:
                refused()
            assert f"{expected[0]!r} (U+{ord(expected[0]):04X}): it is shown as \u2426" in str(caught.value) and "allow_substitutes=True" in str(caught.value)
        # A test that means it says so, and finds what it found before.
        assert rig.wait(expected[0], allow_substitutes=True) == rig.wait(text=expected[0], allow_substitutes=True) == screen
        assert screen.at(expected[0], allow_substitutes=True).col == 1 and screen.at("\u2426").col == 1


@pytest.mark.parametrize("pattern, named", [
    ("[a\u6210]", "U+6210"), ("[^\u6210]", "U+6210"), (r"\u6210", "U+6210"), (r"[\u6210]", "U+6210"), (r"\N{SNOWMAN}", "U+2603"), ("[\u4e00-\u9fff]", "U+4E00"), ("\ufffd", "U+FFFD"),
    ("x|\u0436", "U+0436"),
])
def test_an_expression_names_the_character_that_is_refused(pattern, named):
    with pytest.raises(NoGlyph, match=re.escape(named)):
        expression_as_shown(pattern, "utf-8")
    # The bytes of a VT220 have no such character, so nothing is mapped, and nothing is found wrongly.
    assert expression_as_shown(pattern, "dec").pattern == pattern


@pytest.mark.parametrize("pattern", ["\u2426", "[\u2426x]", "\u201c\u2026\u2714\u20ac", "e\u0301", r"[^\x00-\x7f]", r"\W."])
def test_what_is_shown_and_what_is_similar_are_not_refused(pattern):
    expression_as_shown(pattern, "utf-8")


def test_a_stored_screen_that_cannot_be_told_from_others_is_refused(tmp_path):
    """What is shown for a character without a glyph is the same for all of them. So the stored screen of one is that of another."""
    for printed in ("done: \u6210\u529f", "done: \u5931\u6557"):
        with run("printf", "%s", printed, update=True) as rig:
            rig.ended()
            with pytest.raises(NoGlyph, match="screens/done.txt has \u2426 in row 1, column 7"):
                rig.matches("done")
            assert not (tmp_path / "screens" / "done.txt").exists()
    with run("printf", "%s", "done: \u6210\u529f", update=True) as rig:
        rig.ended()
        rig.matches("meant", allow_substitutes=True)
        rig.matches("masked", masks=[(1, 7, 4)])
        rig.matches("ascii", masks=["\u6210\u529f"], allow_substitutes=True)
    with run("printf", "%s", "done: \u5931\u6557") as rig:
        rig.ended()
        with pytest.raises(NoGlyph, match="screens/meant.txt has \u2426 in row 1, column 7"):
            rig.matches("meant")
        rig.matches("meant", allow_substitutes=True)
        rig.matches("masked", masks=[(1, 7, 4)])
        rig.matches("ascii", masks=["\u6210\u529f"], allow_substitutes=True)
    # A byte without a character is shown so on a VT220. Its screen has all that the byte does.
    with run("printf", "%b", "\\032x", encoding="dec", update=True) as rig:
        rig.ended()
        rig.matches("dec")
    assert (tmp_path / "screens" / "dec.txt").read_text(encoding="utf-8").startswith("\u2426x\n")


def test_an_expression_keeps_its_flags_and_its_errors():
    assert expression_as_shown(re.compile("\u201cw", re.I), "utf-8").search('"W')
    with pytest.raises(re.error):
        expression_as_shown("(\u201c", "utf-8")


def test_the_204_glyphs_and_ascii_are_found_as_they_are():
    glyphs = {cell.glyph for data in (bytes(range(0x20, 0x7F)), bytes(range(0xA0, 0x100)), b"\033(0" + bytes(range(0x5F, 0x7F)))
              for row in (1, 2) for cell in terminal_of(data).row(row)}
    assert len(glyphs) == 204
    for glyph in glyphs:
        assert vt220.shown(glyph) == glyph and expression_of_text(glyph, "utf-8") == re.compile(re.escape(glyph))


def terminal_of(data):
    terminal = vt220.Terminal()
    terminal.feed(data)
    return terminal


def test_masks_and_places_of_a_screen():
    screen = screen_of("load \u201c12\u201d \u4e16 end \u4e16")
    assert screen.stored(["\u201c\\d+\u201d", "\u4e16"], allow_substitutes=True).startswith("load \u2588\u2588\u2588\u2588 \u2588\u2588 end \u2588\n")
    first, second = (screen.at("\u4e16", nth=nth, allow_substitutes=True) for nth in (1, 2))
    assert (first.col, second.col, len(second.cells)) == (11, 18, 2)
    assert repr(screen.at("\u201d")) == "<'\"' at row 1, column 6>" and repr(screen.at("\u201dx")) == "<'\u201dx' isn't on the screen>"
    assert not Screen(screen.repaint).at("\u201d") and Screen(screen.repaint) == screen


def test_a_failure_names_what_is_shown(tmp_path):
    with shell("printf '\\342\\200\\234Welt'; sleep 1000", reports=Reports(tmp_path / "r", "x")) as rig:
        rig.wait("\u201cWelt")
        with pytest.raises(Failure) as caught:
            rig.wait("\u201cWelt\u201d", text="\u2026", timeout=0.1)
    words = str(caught.value)
    assert "/\u201cWelt\u201d/ (shown as /\"Welt\"/) '\u2026' (shown as '.') didn't come" in words and "note:" not in words
    assert f"play it:   python3 -m vt220 --format asciicast {tmp_path}/r/x.cast " in words and rig.recording == b"\xe2\x80\x9cWelt"


def test_a_character_that_is_cut_waits_for_its_end():
    with shell("stty -icanon -echo; printf 'ready \\342\\200'; read line; printf '\\235\\033[6n'; head -c 6 | od -An -c") as rig:
        rig.wait("^ready")
        while rig.terminal.pending() != b"\xe2\x80":
            rig._read(1)
        assert rig.screen.rows[0] == "ready"
        rig.keys(ENTER)
        # The report comes from the place after the character.
        rig.wait(r"033   \[   1   ;   8   R")
        assert rig.screen.at("\u201d", row=1).col == 7


# Programs.

def test_python_prints_what_it_is_given(tmp_path):
    text = "\u201cStra\u00dfe\u201d \u2026 \u251c\u2500\u2500 \u2714 \u20ac 5 \u4e16\u754c \u03a9."
    (tmp_path / "it.py").write_text(f"print({text!r})\nprint(ascii(input({text!r})))\n")
    with run("python3", "it.py") as rig:
        rig.wait(text=text, row=2, col=1, allow_substitutes=True)
        # The table: quotes, the ellipsis, the check mark and the Euro sign have similar glyphs; the rest is U+2426 in as many cells.
        assert rig.screen.rows[0] == '"Stra\u00dfe" . \u251c\u2500\u2500 + \u00a4 5 \u2426 \u2426  \u2426.'
        rig.keys("\u201c\u4e16", ENTER)
        rig.wait(text=r"'\u201c\u4e16'", row=3)
        rig.ended()


def test_ls_and_less_show_names_and_texts(tmp_path):
    (tmp_path / "\u00dcbersicht.txt").write_text("\u201eGr\u00fc\u00dfe\u201c \u2013 1 \u00d7 2\n" + "more\n" * 40)
    with run("ls") as rig:
        assert rig.ended().rows[0] == "\u00dcbersicht.txt"
    with run("less", "\u00dcbersicht.txt", env={"LESSHISTFILE": "-"}) as rig:
        rig.wait("\u00dcbersicht.txt", row=24)
        rig.wait("\u201eGr\u00fc\u00dfe\u201c \u2013 1 \u00d7 2$", row=1)
        rig.keys("/\u2013", ENTER)
        rig.wait(lambda screen: screen.at("\u2013").reverse)
        rig.keys("q")
        rig.ended()


def test_vim_writes_what_is_typed(tmp_path):
    with run("vim", "-u", "NONE", "-i", "NONE", "-N", "-n", "brief") as rig:
        rig.wait("brief.*New", row=24)
        rig.keys("i", "\u201eStra\u00dfe\u201c 1 \u2013 \u4e16 end", ENTER, "x\u00e9\u4e16", DELETE, DELETE, "y", ESCAPE)
        rig.wait("^\u201eStra\u00dfe\u201c 1 \u2013 \u4e16 end$", row=1, allow_substitutes=True)
        rig.wait("^xy$", row=2)
        rig.wait(lambda screen: not screen.at("INSERT"))
        # vim's help has 'ga': it prints the number of the character under the cursor.
        rig.keys("ggga")
        rig.wait("Hex 201e", row=24)
        rig.keys(":wq", ENTER)
        rig.ended()
    assert (tmp_path / "brief").read_text(encoding="utf-8") == "\u201eStra\u00dfe\u201c 1 \u2013 \u4e16 end\nxy\n"


def test_dialog_keeps_its_frame_around_wide_characters(tmp_path):
    command = "exec dialog --output-fd 3 --menu 'Gr\u00f6\u00dfe \u2026' 12 40 4 1 '\u201ckurz\u201d' 2 '\u4e16\u754c x' 3 'S\u00e3o' 3>chosen"
    with run("sh", "-c", command, cwd=tmp_path) as rig:
        rig.wait("S\u00e3o")
        wide, chosen = "\u4e16\u754c x", lambda screen: screen.at("\u4e16\u754c x", allow_substitutes=True)
        screen = rig.wait(lambda screen: chosen(screen) and all(screen.at(text) for text in ("Gr\u00f6\u00dfe \u2026", "\u201ckurz\u201d", "S\u00e3o", "\u2518")))
        # The lines left and right of the entries are in the same columns, whatever is between them.
        entries = [screen.at(text, allow_substitutes=True) for text in ("\u201ckurz\u201d", wide, "S\u00e3o")]
        sides = [[found.start() for found in re.finditer("\u2502", screen.rows[place.row - 1])] for place in entries]
        assert len(sides[0]) >= 4 and sides[0] == sides[1] == sides[2]
        rig.keys(DOWN)
        rig.wait(lambda screen: chosen(screen).reverse)
        rig.keys(ENTER)
        rig.ended()
    assert (tmp_path / "chosen").read_text() == "2"
