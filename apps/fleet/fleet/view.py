"""Looks at a session from any machine that reaches the store, and types into it if its host allows that."""
import os
import select
import sys
import termios
import time
import tty

import vt220
from vt220.keyboard import typed

from . import keys
from .keys import key
from .operate import Sender, Typist, about
from .session import as_it_is, look_up, whole

FRAME = 0.05
UNKNOWN = 1000  # rows and columns of a window whose size isn't known
LEAVE = b"\x1d"  # Ctrl-], as telnet has it


class Drawing:
    """Draws a terminal on today's terminals. Only what changed is drawn. A window that is smaller shows the part with the cursor."""

    def __init__(self, out):
        self.out, self.terminal, self.shown = out, None, None  # the terminal that is drawn, and what is on the screen: None for anything else
        self.window = window_of(out)
        self.top = self.left = 0  # how many rows and columns are above and left of the part

    def draw(self, terminal):
        self.terminal, part = terminal, self.part_of(terminal)
        self.say(self.way_to(part).decode())
        self.shown = part if part is not terminal else terminal.copy()

    def note(self, line):
        """Says something in the window's title."""
        self.say(("\a" if line else "") + f"\033]2;{line}\033\\")

    def fit(self):
        """Draws all again if the window has another size than before."""
        window = window_of(self.out)
        if window != self.window:
            self.window, self.shown = window, None
            if self.terminal:
                self.draw(self.terminal)

    def part_of(self, terminal):
        """Returns a terminal that has the part alone, in its upper left corner. It has moved no further than needed to have the cursor in it. All after the
        part are spaces that look blank, and vt220_draw writes nothing where a screen is blank: on a reverse screen they have the attribute."""
        (rows, columns), cursor, modes, width = self.window, terminal.cursor(), terminal.modes(), terminal.width()
        self.top = panned(self.top, rows, terminal.rows(), cursor.row, 0)
        self.left = panned(self.left, columns, width, cursor.col, columns // 2)
        if terminal.rows() <= rows and width <= columns:
            return terminal
        part = terminal.copy()
        change = f"\030\033[!p\033[{7 if modes.decscnm else 0}m" + (f"\033[1;1H\033[{self.top}M" if self.top else "")
        for row in range(1, terminal.rows() + 1):
            kept = columns if row <= rows else 0
            change += f"\033[{row};1H\033[{self.left}P" if self.left else ""
            change += f"\033[{row};{kept + 1}H{' ' * (width - kept)}" if kept < width else ""
        change += f"\033[{cursor.row - self.top};{cursor.col - self.left}H\033[?25{'h' if modes.dectcem else 'l'}"
        part.feed(change.encode())
        return part

    def way_to(self, part):
        """Returns bytes that lead from what is shown to a part."""
        is_other = self.shown is None or (self.shown.rows(), self.shown.width()) != (part.rows(), part.width())
        try:
            return part.draw(None if is_other else self.shown)
        except vt220.OtherSize:  # one that was resized to a VT220's size
            return part.draw()

    def say(self, words):
        self.out.write(words)
        self.out.flush()


def window_of(out):
    """Returns the rows and the columns of a window. One whose size isn't known has enough of both."""
    try:
        columns, rows = os.get_terminal_size(out.fileno())
    except (OSError, ValueError):
        columns = rows = 0
    return rows or UNKNOWN, columns or UNKNOWN


def panned(first, shown, most, cursor, step):
    """Returns how much is before the part of so much that is shown: as much as before, if the cursor is in it. Otherwise it moves by `step` more."""
    if shown >= most:
        return 0
    if cursor <= first:
        first = max(0, cursor - 1 - step)
    if cursor > first + shown:
        first = cursor - shown + step
    return min(first, most - shown)


class Viewer:
    """A session as somebody sees it: its terminal, which plays the checkpoint and the bytes of the store, and a VT220 that shows it."""

    COUNT = 64  # entries that are read at once
    FAR = 1 << 16  # bytes that a checkpoint is ahead if it is taken instead of what comes before it

    def __init__(self, store, incarnation):
        self.store, self.incarnation = store, incarnation
        self.session, self.last = None, "0-0"
        self.language, self.terminal = keys.DEC, vt220.Terminal()  # what is shown: without what is unfinished
        self.resized = ""  # the size that is shown if it was changed
        self.has_host = self.is_over = self.takes_input = False
        self.fault = ""

    def ask(self):
        """Learns how the session is. Call it each second."""
        found = about(self.store, [self.incarnation])
        if not found:
            self.is_over, self.fault = True, "Lost: the store no longer has this session"
        else:
            self.learn(found[0])

    def learn(self, facts):
        self.has_host, self.is_over, self.takes_input = facts["state"] == "running", bool(facts["status"]), facts["input"]
        self.fault = self.fault or facts["fault"]
        if self.session and facts["size"] < self.session.at:  # the store went back
            self.session = None

    def begin(self):
        """Begins at the checkpoint."""
        self.session, _ = look_up(self.store, self.incarnation)
        self.last = f"{self.session.at}-0"

    def follow(self, patience=FRAME):
        """Plays what came, or waits a little. Returns whether something did."""
        came = self.store.read_streams(self.COUNT, self.streams(), patience)
        return any([self.take(entries) for _, entries in came])

    def streams(self):
        if self.session is None:
            self.begin()
            self.show()
        return {key(self.incarnation, "bytes").encode(): self.last.encode()}

    def take(self, entries):
        """Plays entries. If there are more of them than are read at once, a checkpoint may be far ahead."""
        if len(entries) == self.COUNT:
            ahead = keys.number(self.store.hget(key(self.incarnation, "checkpoint"), "at"), 0)
            if ahead > self.session.at + self.FAR:
                self.begin()
                entries = []
        for entry_id, fields in entries:
            try:
                self.session.play_entry(entry_id, fields)
            except keys.Trimmed:  # there is a newer checkpoint then
                before = self.session.at
                self.begin()
                if self.session.at <= before:
                    raise
                break
            self.last = keys.text(entry_id)
        self.show()
        return True

    def show(self):
        """Brings what is shown where the session is. Returns the update that led there, or None if it is another terminal."""
        now, there = self.session, whole(self.session.terminal)
        if self.resized == now.resized and self.language == now.language:
            return self.terminal.update(there)
        self.language, self.resized, self.terminal = now.language, now.resized, now.viewed()
        self.terminal.feed(there.repaint("vt220"))
        return None


class Keyboard:
    """This terminal's keys, raw while they go to the session. Ctrl-] ends it."""

    def __init__(self, typist, drawing):
        self.sender, self.drawing, self.saved = Sender(typist), drawing, termios.tcgetattr(0)
        self.held = b""  # the beginning of a key whose end hasn't come
        tty.setraw(0)

    def pass_on(self, modes, language):
        """Sends what was typed, as the session's terminal sends it under these modes. Returns whether to go on."""
        if not select.select([0], [], [], 0.02)[0]:
            self.sender.type(self.held)
            self.held = b""
            return True
        data = os.read(0, 1024)
        if not data or LEAVE in data:
            return False
        read = typed(self.held + data, modes, language.encoding, language.terminal)
        self.held = read.held
        self.sender.type(read.sent)
        if read.refused:
            self.drawing.say("\a")
        return True

    def leave(self):
        termios.tcsetattr(0, termios.TCSADRAIN, self.saved)
        self.sender.finish(1.0)


def state_line(viewer, keyboard):
    if viewer.fault:
        return f"fault: {viewer.fault}"
    if keyboard and keyboard.sender.fault:
        return f"not typed: {keyboard.sender.fault}"
    return "" if viewer.has_host else "the host of this session is silent"


def follow(store, incarnation, types=False):
    """Shows a session on this terminal until it is over. Returns the exit status: 0, or 4 for a fault."""
    viewer, drawing = Viewer(store, incarnation), Drawing(sys.stdout)
    keyboard = Keyboard(Typist(store, incarnation), drawing) if types else None
    drawing.say("\033[?1049h\033[2J")
    try:
        look(viewer, drawing, keyboard)
        if viewer.is_over and not viewer.fault:
            drawing.draw(as_it_is(store, incarnation).terminal)
    except KeyboardInterrupt:
        pass
    finally:
        drawing.say("\033[?25h\033[?1049l")
        if keyboard:
            keyboard.leave()
    if viewer.fault:
        print(f"fleet: fault: {viewer.fault}", file=sys.stderr)
    return 4 if viewer.fault else 0


def look(viewer, drawing, keyboard):
    asked = noted = None
    while not viewer.is_over and not viewer.fault:
        if asked is None or time.monotonic() - asked > 1:
            asked = time.monotonic()
            viewer.ask()
            if state_line(viewer, keyboard) != noted:
                noted = state_line(viewer, keyboard)
                drawing.note(noted)
        if viewer.follow(0 if keyboard else FRAME):  # a store's shortest wait is longer than a key should take
            drawing.draw(viewer.terminal)
        drawing.fit()
        if keyboard and not keyboard.pass_on(viewer.terminal.modes(), viewer.language):
            return
