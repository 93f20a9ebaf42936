"""A real xterm on an X server without a screen (Xvfb), and what each of its cells has.

xterm is started with -S, so that it plays what comes from a socket. Its cells are read in three ways: the characters by media copy, the looks by
XTREPORTSGR for each cell, and protection by a selective erase at the end. Nothing waits for a time: each answer is waited for.
"""
import os
import re
import select
import shutil
import socket
import subprocess
import sys
import tempfile
import unicodedata

PATIENCE = 30  # seconds after which xterm hangs
RESOURCES = ["allowWindowOps: true", "allowTitleOps: true", "printAttributes: 0", "saveLines: 0", "precompose: false", "boldColors: false", "scrollBar: false",
             "visualBell: false", "title: xterm"]
# Leads any state to that of power-up. RIS leaves the alternate page and the title.
RESET = (b"\x18\x1b\\\x1b F\x1bc\x1b[?1049l\x1bc\x1b[?47h\x1b[2J\x1b7\x1b[?47l\x1bc\x1b[0\"q\x1b[?12l\x1b[?40l"
         b"\x1b[?9;1000;1002;1003;1004;1005;1006;1015;1016;2004l\x1b[2 q\x1b7\x1b]2;\x1b\\")
SECOND_HALF, LONE_FIRST = "\uffff", "\ufffe"
SGR, LOOK_QUERY = re.compile(rb"\x1b\[([0-9;:]*)m"), b"\x1b[%d;%d;%d;%d#|"
ERASED_BY = b"7;77;7"  # a background that no input has
PLACE = re.compile(rb"\x1b\[(\d+);(\d+)R")
MODES = [9, 12, 25, 47, 1000, 1002, 1003, 1004, 1005, 1006, 1015, 1016, 2004]
ORDER = [1, 2, 3, 4, 5, 7, 8, 9, 21]


class RealXterm:
    def __init__(self, display, rows=24, columns=80):
        self.rows, self.columns, self.received = rows, columns, b""
        self.work = tempfile.mkdtemp()
        os.mkfifo(f"{self.work}/page")
        self.page = os.open(f"{self.work}/page", os.O_RDWR)
        self.socket, theirs = socket.socketpair()
        resources = [word for line in [*RESOURCES, f"printerCommand: cat >{self.work}/page"] for word in ("-xrm", "*" + line)]
        words = ["xterm", f"-Sab{theirs.fileno()}", "-u8", "-geometry", f"{columns}x{rows}", *resources]
        environment = os.environ | {"DISPLAY": display, "LC_ALL": "C.UTF-8"}
        self.process = subprocess.Popen(words, pass_fds=[theirs.fileno()], env=environment, stderr=subprocess.DEVNULL)
        theirs.close()
        self.answer(re.compile(rb"[0-9a-f]+\n"))

    def close(self):
        self.process.terminate()
        self.process.wait()
        os.close(self.page)
        self.socket.close()
        shutil.rmtree(self.work)

    # Bytes to and from xterm.

    def receive(self):
        if not select.select([self.socket], [], [], PATIENCE)[0]:
            sys.exit(f"xterm hangs after {self.received!r}")
        more = self.socket.recv(65536)
        if not more:
            raise EOFError("xterm has ended")
        self.received += more

    def answer(self, pattern):
        """Returns the match of the next answer. Reports before it are dropped."""
        while not (found := pattern.search(self.received)):
            self.receive()
        self.received = self.received[found.end():]
        return found

    def send(self, data):
        left = memoryview(data)
        while left:
            readable, writable, _ = select.select([self.socket], [self.socket], [], PATIENCE)
            if readable:
                self.receive()
            if writable:
                left = left[self.socket.send(left[:4096]):]

    def ask(self, question, pattern):
        self.send(question)
        return self.answer(re.compile(pattern))

    def play(self, data):
        """Plays bytes, and returns when they have been played."""
        self.send(data)
        self.is_set(6)

    def resize(self, rows, columns):
        if (rows, columns) != (self.rows, self.columns):
            self.send(b"\x1b[8;%d;%dt" % (rows, columns))
            while self.ask(b"\x1b[18t", rb"\x1b\[8;(\d+);(\d+)t").groups() != (b"%d" % rows, b"%d" % columns):
                pass
            self.rows, self.columns = rows, columns

    # State.

    def is_set(self, mode):
        return self.ask(b"\x1b[?%d$p" % mode, rb"\x1b\[\?%d;(\d)\$y" % mode)[1] == b"1"

    def place(self):
        """Returns the cursor's row and column, as DSR reports them."""
        return tuple(map(int, self.ask(b"\x1b[6n", PLACE.pattern).groups()))

    def title(self):
        """Returns the title, which is nothing if it is that of the resource."""
        found = self.ask(b"\x1b[21t", rb"(?s)\x1b\]l(.*?)\x1b\\")[1]
        return b"" if found == b"xterm" else found

    def cursor_shape(self):
        return int(self.ask(b"\x1bP$q q\x1b\\", rb"\x1bP1\$r(\d+) q\x1b\\")[1])

    def wraps(self):
        """Returns whether a wrap is pending. It writes a character, so this comes last."""
        if not self.is_set(7):
            return False
        before = self.place()
        self.send(b"\x1b[4lZ")
        return self.place()[1] < before[1]

    # Cells.

    def for_each_cell(self, question, pattern):
        places = [(row, column) for row in range(1, self.rows + 1) for column in range(1, self.columns + 1)]
        self.send(b"".join(question % (row, column, row, column) for row, column in places))
        found = [self.answer(pattern)[1] for _ in places]
        return [found[at:at + self.columns] for at in range(0, len(found), self.columns)]

    def characters(self):
        """Returns the page as media copy prints it: a list of strings for each row, a character with its marks."""
        self.send(b"\x1b[?19h\x1b[i")
        page = b""
        while page.count(b"\n") < self.rows:
            if not select.select([self.page], [], [], PATIENCE)[0]:
                sys.exit("xterm prints nothing")
            page += os.read(self.page, 65536)
        rows = [in_cells(line) for line in page.decode(errors="replace").split("\n")[:self.rows]]
        return [(row + [" "] * self.columns)[:self.columns] for row in rows]

    def protected(self):
        """Returns which cells are protected: those that DECSED doesn't give another background. It erases all others."""
        self.send(b"\x1b[0\"q\x1b[0;48;2;%sm\x1b[?2J" % ERASED_BY)
        return [[not look.endswith(ERASED_BY.replace(b";", b":")) for look in row] for row in self.for_each_cell(LOOK_QUERY, SGR)]


class Shown:
    """What a real xterm shows of steps that it plays from power-up: bytes, and changes to pairs of rows and columns."""

    def __init__(self, xterm, size, steps):
        play_steps(xterm, size, steps)
        self.place, self.modes = xterm.place(), {mode: xterm.is_set(mode) for mode in MODES}
        self.title, self.shape = xterm.title(), xterm.cursor_shape()
        characters, looks = xterm.characters(), xterm.for_each_cell(LOOK_QUERY, SGR)
        self.wrap = xterm.wraps()
        flags = [[False] * xterm.columns] * xterm.rows
        if any(isinstance(step, bytes) and b'"q' in step for step in steps):
            play_steps(xterm, size, steps)
            flags = xterm.protected()
        self.cells = "\n".join(map(row_spelled, characters, looks, flags)).rstrip("\n")


def play_steps(xterm, size, steps):
    xterm.play(RESET)
    xterm.resize(*size)
    xterm.play(RESET)
    for step in steps:
        if isinstance(step, bytes):
            xterm.play(step)
        else:
            xterm.resize(*step)


def in_cells(line):
    """Returns the cells of a printed row. xterm prints U+FFFF for the second cell of a wide character, and a mark after it."""
    cells = []
    for character in line.rstrip("\r\f"):
        if cells and is_mark(character):
            at = -2 if cells[-1] == SECOND_HALF and len(cells) > 1 else -1
            cells[at] += character
        else:
            cells.append(character)
    return cells


def is_mark(character):
    """Marks are what has no width: what Unicode says of it, and the vowels and finals of Hangul."""
    return unicodedata.category(character) in ("Mn", "Me", "Cf") and character != "\u00ad" or "\u1160" <= character <= "\u11ff"


def look_spelled(answer):
    """Returns the look of an answer of XTREPORTSGR: the attributes in order, then the colours as indices or as red, green and blue."""
    attributes, colours = set(), {}
    for part in answer.decode().split(";"):
        number, *long = [int(digits or 0) for digits in part.split(":")]
        for first, name, index in ((30, 38, 0), (40, 48, 0), (90, 38, 8), (100, 48, 8)):
            if first <= number < first + 8:
                colours[name] = [5, number - first + index]
        if number in (38, 48):
            colours[number] = long if long[0] == 5 else [2, *long[-3:]]
        elif number in ORDER:
            attributes.add(number)
    numbers = [number for number in ORDER if number in attributes]
    return [0, *numbers, *(value for name in sorted(colours) for value in [name, *colours[name]])]


def without_ink(look):
    """Returns the look of a blank without the colour of the foreground, which xterm keeps in cells that come in and which nothing shows."""
    if look[1:2] == [38]:
        return [0, *look[3 if look[2] == 5 else 6:][1 if look[2] == 5 else 0:]]
    return look


def row_spelled(characters, looks, flags):
    cells = []
    for at, (text, answer, is_protected) in enumerate(zip(characters, looks, flags)):
        look = look_spelled(answer)
        if text == " " and not is_protected:
            look = without_ink(look)
        cells.append((text + lone(characters, at), look, is_protected))
    while cells and cells[-1] == (" ", [0], False):
        cells.pop()
    spelled, before = "", ("", [0], False)
    for text, look, is_protected in cells:
        if look != before[1]:
            spelled += f"\033[{';'.join(map(str, look))}m"
        if is_protected != before[2]:
            spelled += f'\033[{int(is_protected)}"q'
        spelled += text
        before = text, look, is_protected
    return whole(spelled)


def lone(characters, at):
    """Returns a sign after the first half of a wide character whose second half is gone."""
    is_wide = characters[at] != SECOND_HALF and unicodedata.east_asian_width(characters[at][0]) in "FW"
    return LONE_FIRST if is_wide and characters[at + 1:at + 2] != [SECOND_HALF] else ""


def whole(spelled):
    """Returns a row without the second halves that follow their first ones."""
    shown = ""
    for character in spelled:
        last = re.sub("\033\\[[^mq]*[mq]", "", shown).rstrip("".join(c for c in shown if is_mark(c)))[-1:]
        if not (character == SECOND_HALF and last and unicodedata.east_asian_width(last) in "FW"):
            shown += character
    return shown
