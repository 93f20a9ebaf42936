"""The rows of lib/rows/ and the calls through Python."""
import collections

import pytest
import vt220
from flat import fields
from vectors import repaints, sizes, vectors

named = {"ids": lambda value: getattr(value, "name", "")}


def test_lists():
    """The lists are there."""
    counts = collections.Counter((one.encoding, one.terminal) for one in vectors())
    assert len(counts) == 3 and min(counts.values()) > 50 and len([*fields()]) >= 50 and len([*sizes()]) > 30


@pytest.mark.parametrize("of", vectors("dec", "vt220"), **named)
def test_written(of):
    """The text of a vector of a VT220's bytes, its repaint, and an update. Inside a sequence there is neither."""
    with vt220.Terminal() as terminal, vt220.Terminal() as shown:
        terminal.feed(of.input)
        assert terminal.text() == of.text()
        if of.repaint is None:
            for call in (terminal.repaint, lambda: shown.update(terminal)):
                with pytest.raises(vt220.Partial):
                    call()
            assert not terminal.is_between() and terminal.held() != "nothing"
        else:
            assert (terminal.repaint(), terminal.held()) == (of.repaint, "nothing")
            assert shown.update(terminal) is not None and shown.same_state(terminal)


def test_itself():
    with vt220.Terminal() as terminal:
        assert terminal.same_state(terminal) and terminal.update(terminal) == b""
    assert vt220.version() == vt220.VERSION


def test_reports_one_by_one():
    with vt220.Terminal() as terminal:
        parts = [b"ab\033[c", b"\033[2;3H\033[6n", b"cd\033["]
        told = [terminal.feed_until_report(b"".join(parts[at:])) for at in range(3)]
        assert told == [(len(part), report) for part, report in zip(parts, [b"\033[?62;1;6c", b"\033[2;3R", b""])]
        assert terminal.held() == "control", "the rest is played"


CALLS = [("feed", [b"x"]), ("feed_until_report", [b"x"]), ("feed_log", [b"x"]), ("row", [1]), ("row_text", [1]), ("changed", [vt220.Terminal(), 1]),
         *((name, [vt220.Terminal()]) for name in ("update", "copy_from", "same_state")),
         *((name, []) for name in ("text", "repaint", "cursor", "show", "picture", "reset", "bells", "pending", "alternate", "brush", "sets", "stops", "saved", "margins", "modes", "width", "is_between", "held"))]


@pytest.mark.parametrize("kind", [("dec", "vt220"), ("utf-8", "vt220"), ("utf-8", "xterm")], ids="-".join)
@pytest.mark.parametrize("name, arguments", CALLS, ids=lambda value: value if isinstance(value, str) else "")
def test_closed(name, arguments, kind):
    terminal = vt220.Terminal(*kind)
    terminal.close()
    with pytest.raises(vt220.Closed):
        getattr(terminal, name)(*arguments)


def test_parts():
    with vt220.Terminal() as terminal, vt220.Terminal() as copy, vt220.Terminal() as fresh:
        terminal.feed(b"\033[3;7H\033(A\033)0\016\033[1m\0337\033[m\033[4m\033O\a")
        assert terminal.bells() == 1 and copy.bells() == 0
        copy.copy_from(terminal)
        assert copy.same_state(terminal)
        terminal.feed(b"\033[3;9HB\033(B\017z")
        assert copy.changed(terminal, 3) == [9, 10] and copy.changed(terminal, 4) == []
        assert terminal.row_text(3) == terminal.text().split("\n")[2] + "\n"
        assert terminal.show().count("\033[0;4m") == 1 and terminal.picture().startswith("<svg ")
        terminal.reset()
        assert terminal.same_state(fresh)
        terminal.feed(b"\033[1mab")
        assert terminal.draw(fresh) == b"\033[0;1mab\033[0m" and terminal.draw(terminal) == b""
        assert terminal.draw() == b"\033[0m\033[1;1H\033[J\033[?25h\033[0;1mab\033[0m", "a drawing for any terminal"
    assert vt220.status_text(4) == "a terminal is inside a sequence"


def fields_of(terminal):
    """Returns what each reader returns, by the names of lib/rows/fields.txt."""
    held = ("nothing", "escape", "control", "string").index(terminal.held())
    found = {"width": terminal.width(), "bells": terminal.bells(), "held": held}
    readers = {"cursor": terminal.cursor(), "margins": terminal.margins(), "modes": terminal.modes(), "cell": terminal.row(1)[0],
               "brush": terminal.brush(), "sets": terminal.sets(), "saved": terminal.saved()}
    for of, parts in readers.items():
        found.update((f"{of}.{name}", ord(value) if name == "glyph" else int(value)) for name, value in parts._asdict().items())
    stops = terminal.stops()
    found.update((f"stop.{column}", int(column in stops)) for column in range(1, vt220.COLUMNS + 1))
    return " ".join(f"{name}={found[name]}" for name in sorted(found))


@pytest.mark.parametrize("name, data, wanted", fields(), ids=lambda value: value if isinstance(value, str) and "=" not in value else "")
def test_fields(name, data, wanted):
    """One field at a time."""
    with vt220.Terminal() as terminal:
        terminal.feed(data)
        assert fields_of(terminal) == wanted


def fed(of, size, feed):
    """Returns what a new terminal that is fed the input of a vector in chunks of a size has and returned, by the names of lib/rows/vectors.txt."""
    with vt220.Terminal(of.encoding, of.terminal) as terminal:
        return found_in(terminal, [feed(terminal, of.input[at : at + size]) for at in range(0, len(of.input), size)])


def found_in(terminal, told):
    """Returns what a terminal has, and what it has returned: pairs of reports and lines."""
    cursor, brush = terminal.cursor(), terminal.brush()
    return {"text": terminal.show().rstrip("\n"), "cursor": f"{cursor.row};{cursor.col}", "wrap": str(int(cursor.wrap)), "bells": str(terminal.bells()),
            "brush": " ".join(name for name in ("bold", "underline", "blink", "reverse") if getattr(brush, name)),
            "alternate": str(int(terminal.alternate())), "paste": str(int(terminal.bracketed_paste())), "pending": terminal.pending(),
            "reports": b"".join(reports for reports, _ in told), "lines": "".join(lines for _, lines in told)}


def both_pages(terminal):
    """Returns the text of the page that is shown and of the other one, which it leaves shown."""
    shown = terminal.text()
    terminal.feed(b"\030\033[?47l" if terminal.alternate() else b"\030\033[?47h")
    return shown, terminal.text()


@pytest.mark.parametrize("size", [1000, 1])
@pytest.mark.parametrize("one", sizes(), **named)
def test_sizes(one, size):
    """A row of lib/rows/sizes.txt, whole and byte by byte. A copy of the terminal goes on after a change of the size, too."""
    parts = [[data[at : at + size] for at in range(0, len(data), size)] for data in (one.input, one.more)]
    with vt220.Terminal(one.encoding, one.terminal, *one.first) as terminal:
        told = [terminal.feed_log(part) for part in parts[0]]
        if one.second:
            terminal.resize(*one.second)
        with terminal.copy() as copied:
            for part in parts[1]:
                told.append(terminal.feed_log(part))
                assert copied.feed_log(part) == told[-1], "what a copy returns"
            assert found_in(terminal, told) == one.wanted and terminal.rows() == (one.second or one.first)[0]
            assert both_pages(copied) == both_pages(terminal)


@pytest.mark.parametrize("name, kind, size, data, wanted", repaints(), ids=lambda value: value if isinstance(value, str) else "")
def test_repaints(name, kind, size, data, wanted):
    with vt220.Terminal(*kind, *size) as terminal:
        terminal.feed(data)
        assert wanted in (None, terminal.repaint())


@pytest.mark.parametrize("one", vectors(), ids=lambda one: f"{one.terminal}-{one.name}")
def test_vectors(one):
    """A vector, whole, byte by byte and in chunks of five."""
    for size in (len(one.input) or 1, 1, 5):
        assert fed(one, size, vt220.Terminal.feed_log) == one.wanted
        assert fed(one, size, lambda terminal, piece: (terminal.feed(piece), "")) == {**one.wanted, "lines": ""}, "without the log"


def test_languages():
    with vt220.Terminal(terminal="xterm") as terminal, vt220.Terminal("utf-8") as other, vt220.Terminal() as dec:
        assert (terminal.terminal, terminal.encoding, other.terminal, other.encoding, dec.encoding) == ("xterm", "utf-8", "vt220", "utf-8", "dec")
        assert terminal.feed_until_report(b"main\033[?1049h\033[6n\xe2") == (16, b"\033[1;5R") and terminal.alternate()
        assert other.feed_until_report(b"caf\xc3\xa9\033[6n\xe2\x80") == (9, b"\033[1;5R") and other.pending() == b""
        for call in (lambda: terminal.copy_from(other), lambda: other.repaint("xterm")):
            with pytest.raises(vt220.OtherLanguage):
                call()
        terminal.feed(b"\xe2\x80")
        copied = terminal.copy()
        assert (copied.terminal, copied.alternate(), copied.pending()) == ("xterm", True, b"\xe2\x80")
        assert copied.feed_log(b"\x9c\033[?1049l\033[S") == (b"", "main\n") and terminal.alternate()
        other.copy_from(terminal)
        dec.copy_from(terminal)
        assert other.same_state(terminal) and (other.pending(), dec.pending()) == (b"\xe2\x80", b""), "what is pending is next to the state"
        terminal.reset()
        assert not terminal.alternate() and terminal.pending() == b"" and terminal.text() == "\n" * 24


@pytest.mark.parametrize("words", [["utf-8", "xterm-256color"], ["utf-8", ""], ["utf-8", None], ["utf8"], ["latin-1"], [""], [None]])
def test_unknown(words):
    with pytest.raises(ValueError):
        vt220.Terminal(*words)


# By the tables of docs/SPECIFICATION.md, 'UTF-8'.
SHOWN = {"Welt": "Welt", "\u201cWelt\u201d": '"Welt"', "\u2501\u251b": "\u2500\u2518", "\u4e16x": "\u2426 x", "e\u0301": "e", "\u00ad": "-",
         "\uff21": "A ", "a\n\t\x7f": "a\n\t\x7f", "\u0085": "", "": ""}


@pytest.mark.parametrize("text", SHOWN, ids=ascii)
def test_shown(text):
    assert vt220.shown(text) == SHOWN[text]
