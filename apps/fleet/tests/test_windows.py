"""Windows of viewers that are smaller than a session: which part of it they show, and how it is drawn."""
import io
import random
import re

from harness import OnTerminal, Source, keys, vt220, wait_for
from fleet import view


def numbered(rows, columns):
    """Returns bytes that write a screen whose places all differ from their neighbours."""
    lines = ["".join(chr(ord("!") + (7 * row + column) % 90) for column in range(columns)) for row in range(rows)]
    return "".join(f"\033[{row + 1};1H{line}" for row, line in enumerate(lines)).encode(), lines


def parts(lines, top, bottom, left, right):
    """Returns a part of a screen: rows and columns, counted from 1."""
    return [line[left - 1 : right] for line in lines[top - 1 : bottom]]


def test_a_window_of_any_size(machine):
    """A window that is smaller than the session shows the part with the cursor."""
    source, (content, lines) = Source(machine.url, "parts", screen="120x40"), numbered(40, 120)
    source.send(content + b"\033[1;1H")
    look = OnTerminal(machine.url, "view", "parts", window=(11, 60))

    def shows(*wanted):
        wait_for(lambda: [line.rstrip() for line in look.text().rstrip().split("\n")] == [line.rstrip() for line in wanted])

    shows(*parts(lines, 1, 11, 1, 60))
    source.send(b"\033[20;100H")
    shows(*parts(lines, 10, 20, 61, 120))
    source.send(b"\033[15;80H")
    shows(*parts(lines, 10, 20, 61, 120))  # it stays while the cursor is in it
    for columns, rows, shown in (
        (60, 45, parts(lines, 1, 40, 61, 120)), (120, 40, lines), (130, 5, lines[10:15]), (150, 50, lines), (20, 2, parts(lines, 14, 15, 71, 90)),
    ):
        look.resize(rows, columns)
        shows(*shown)
    look.resize(11, 60)
    source.send(b"\033[?5h\033[40;120H\033[K")
    shows(*parts(lines, 30, 39, 61, 120), lines[39][60:119])  # a reverse screen
    for size in ("80x24", "90x25"):  # the session's
        source.send(b"\033[?5l\033[1;1H").resize(size).send(b"\033[3;1H" + size.encode() + b"\033[1;1H")
        shows(*parts(lines, 1, 2, 1, 60), size + lines[2][len(size) : 60], *parts(lines, 4, 11, 1, 60))
    source.store.delete(keys.lease("parts"))
    wait_for(lambda: look.has(b"silent"))  # in the window's title


def is_shown(outer, terminal, drawing, window):
    """Returns whether a window shows the part of a terminal with the cursor, and nothing else."""
    (rows, columns), top, left = window, drawing.top, drawing.left
    wanted = [terminal.row_text(row + 1).ljust(terminal.width())[left : left + columns].rstrip() for row in range(top, min(top + rows, terminal.rows()))]
    cursor, place = terminal.cursor(), outer.cursor()
    is_there = (place.row, place.col) == (cursor.row - top, cursor.col - left)
    return is_there and outer.text().split("\n")[: len(wanted)] == wanted and not "".join(outer.text().split("\n")[len(wanted) :])


def test_parts_are_drawn_alike(monkeypatch, seed):
    """Random screens and windows: what is drawn leaves the window with the part, and nothing is drawn if nothing has changed."""
    chance, size = random.Random(seed), (24, 80)
    monkeypatch.setattr(view, "window_of", lambda out: size)
    for number in range(60):
        session_size = chance.choice([(24, 80), (40, 120), (30, 255), (60, 90)])
        terminal = vt220.Terminal(rows=session_size[0], columns=session_size[1])
        size = chance.randint(2, 45), chance.randint(80, 160)
        out, outer = io.StringIO(), vt220.Terminal(terminal="xterm", rows=size[0], columns=size[1])
        drawing, at = view.Drawing(out), 0
        for step in range(12):
            terminal.feed(b"".join(chance.choice([
                b"\033[%d;%dH" % (chance.randint(1, 60), chance.randint(1, 255)), b"some text", b"\033[7mreverse\033[m", b"\r\n", b"\033[J", b"\033[?5h", b"\033[?5l", b"\033[4m x \033[m",
                b"\033[?25l", b"\033[?25h", b"\033[?3h", b"\033[5;9r", b"\033[r", b"\033[?6h", b"\033[?6l", b"\033[4h", b"\033(0qqq\033(B", b"x" * 300,
            ]) for _ in range(chance.randint(1, 8))))
            if chance.random() < 0.15:
                size = chance.randint(2, 45), chance.randint(80, 160)
                outer.resize(*size)
                drawing.fit()
            drawing.draw(terminal)
            outer.feed(out.getvalue()[at:].encode())
            at = len(out.getvalue())
            assert is_shown(outer, terminal, drawing, size), f"{number}, {step}: {session_size} in {size}\n{outer.text()}"
            drawing.draw(terminal)
            assert len(out.getvalue()) == at, f"{number}, {step}: nothing has changed: {out.getvalue()[at:]!r}"


def test_only_what_changed_is_drawn(machine):
    """In a part, too."""
    source, (content, lines) = Source(machine.url, "differences", screen="120x40"), numbered(40, 120)
    source.send(content + b"\033[5;5H")
    look = OnTerminal(machine.url, "view", "differences", window=(11, 60))
    wait_for(lambda: look.has(lines[10][:60].encode()))
    for text in (b"one", b"two"):
        before = len(look.drawn)
        source.send(b"\033[5;5H" + text + b"\033[5;5H")
        wait_for(lambda: look.has(text))
        drawn = look.drawn[before:]
        assert not re.search(rb"\033\[[0-9;]*[JK]", drawn) and len(drawn) < 60, f"nothing else is drawn: {drawn}"
    source.end(0)
    assert look.status() == 0, "it ends"
