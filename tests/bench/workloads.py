"""The benchmark's inputs: eleven workloads, seven in UTF-8, two recordings by asciinema, and three screens, the same bytes on every machine.

Four workloads are what frequent programs write on a terminal line: `seq`, `find`, make with gcc, and `git log --color`. The programs' words
are fixed, and all others are made from the seed.
"""

import json

LETTERS = b"      eeeeettttaaaaooooiiinnnssshhrrddllccuummwwffggyyppbbvkxjqz.,0123456789"
NAMES = (b"account", b"build", b"cache", b"device", b"event", b"format", b"graph", b"header", b"index", b"layout", b"memory", b"network",
         b"object", b"parser", b"queue", b"reader", b"screen", b"table", b"update", b"window")
WARNINGS = (b"format=", b"sign-compare", b"unused-parameter", b"unused-variable")


class Source:
    """Numbers from a seed (a 64-bit linear congruential generator, its upper half), and the number of the part that is made."""

    def __init__(self, seed):
        self.state = seed
        self.part = 0

    def below(self, n):
        self.state = (self.state * 6364136223846793005 + 1442695040888963407) % 2**64
        return (self.state >> 33) % n

    def among(self, choices):
        return choices[self.below(len(choices))]

    def text(self, n):
        return bytes(self.among(LETTERS) for _ in range(n))


def plain(source):
    """A line of up to 100 characters."""
    return source.text(source.below(101)) + b"\r\n"


def addressing(source):
    """A place, attributes, and a word."""
    values = source.among((b"", b"0", b"1", b"4", b"5", b"7", b"0;1", b"0;7", b"1;4;7", b"22", b"24;27"))
    place = b"\x1b[%d;%dH" % (1 + source.below(24), 1 + source.below(80))
    return place + b"\x1b[%sm" % values + source.text(source.below(6))


def region(source):
    """Margins now and then, lines in and out, text, and a scroll."""
    out = b""
    if source.below(20) == 0:
        top = 1 + source.below(20)
        out = b"\x1b[%d;%dr" % (top, top + 1 + source.below(24 - top))
    out += b"\x1b[%d;1H\x1b[%d%s" % (1 + source.below(24), 1 + source.below(3), source.among((b"L", b"M")))
    return out + source.text(source.below(40)) + source.among((b"\r\n", b"\x1bM", b"\x1bD", b""))


def supplemental(source):
    """A line in which every other letter is of the right half."""
    line = (0xC0 + source.below(61) if source.below(2) else source.among(LETTERS) for _ in range(source.below(80)))
    return bytes(line) + b"\r\n"


def random_bytes(source):
    return bytes(source.below(256) for _ in range(64))


def scrolling(source):
    """A scroll region with the cursor in it: lines of text, scrolls at its margins, and lines inserted and deleted there."""
    top = 1 + source.below(18)
    bottom = top + 2 + source.below(23 - top)
    out = b"\x1b[%d;%dr" % (top, bottom)
    for _ in range(2):
        row = top + source.below(bottom - top + 1)
        out += b"\x1b[%d;%dH" % (row, 1 + source.below(40)) + source.text(8 + source.below(8))
        out += source.text(8 + source.below(8)).join((b"\x1b[%d%s" % (1 + source.below(4), source.among((b"L", b"M"))), b""))
        edge = source.among((b"\x1bD", b"\x1bM"))
        out += b"\x1b[%dH" % (bottom if edge == b"\x1bD" else top) + edge + source.among((edge, b"\r\n"))
    return out


def bells(source):
    """A plain line, and a bell after one in sixteen."""
    return plain(source) + (b"\a" if source.below(16) == 0 else b"")


def seq(source):
    """A line of `seq`."""
    return b"%d\r\n" % source.part


def named(source):
    """Two words, as the name of a file or of a function."""
    return b"%s_%s" % (source.among(NAMES), source.among(NAMES))


def find(source):
    """A directory and the files in it, as `find` lists them."""
    directory = b"/".join((b".", *(source.among(NAMES) for _ in range(1 + source.below(6)))))
    files = (b"/%s.%s" % (named(source), source.among((b"c", b"h", b"o", b"txt"))) for _ in range(source.below(20)))
    return b"".join(b"%s%s\r\n" % (directory, file) for file in (b"", *files))


def warning(source, path):
    """A warning in colours, as gcc writes it."""
    option, row, name = source.among(WARNINGS), 1 + source.below(2000), source.among(NAMES)
    before, after = b"    " + source.text(source.below(20)), source.text(source.below(30))
    url = b"\x1b]8;;https://gcc.gnu.org/onlinedocs/gcc/Warning-Options.html#index-W%s\a-W%s\x1b]8;;\a" % (option, option)
    lines = (b"\x1b[01m\x1b[K%s:\x1b[m\x1b[K In function '\x1b[01m\x1b[K%s\x1b[m\x1b[K':" % (path, named(source)),
             b"\x1b[01m\x1b[K%s:%d:%d:\x1b[m\x1b[K \x1b[01;35m\x1b[Kwarning: \x1b[m\x1b[K%s '\x1b[01m\x1b[K%s\x1b[m\x1b[K' "
             b"[\x1b[01;35m\x1b[K%s\x1b[m\x1b[K]" % (path, row, len(before) + 1, source.text(10 + source.below(40)), name, url),
             b"%5d | %s\x1b[01;35m\x1b[K%s\x1b[m\x1b[K%s" % (row, before, name, after),
             b"      | %s\x1b[01;35m\x1b[K^%s\x1b[m\x1b[K" % (b" " * len(before), b"~" * (len(name) - 1)))
    return b"".join(line + b"\r\n" for line in lines)


def compilation(source):
    """A command of make that compiles a file. One in four has a warning."""
    path = b"src/%s/%s" % (source.among(NAMES), named(source))
    command = b"gcc -O2 -Wall -Wextra -Iinclude -c -o out/%s.o %s.c\r\n" % (path, path)
    return command + (warning(source, path + b".c") if source.below(4) == 0 else b"")


def git_log(source):
    """A commit with its message, as `git log --color` writes it. One in sixteen has a tag."""
    name = b"".join(b"%08x" % source.below(2**31) for _ in range(5))
    tag = b""
    if source.below(16) == 0:
        tag = b"\x1b[33m (\x1b[m\x1b[1;33mtag: v%d.%d\x1b[m\x1b[33m)\x1b[m" % (source.below(10), source.below(10))
    day, time = source.among((b"Mon", b"Wed", b"Fri")), tuple(source.below(60) for _ in range(2))
    message = (b"    " + source.text(20 + source.below(53)) for _ in range(1 + source.below(6)))
    lines = (b"\x1b[33mcommit %s\x1b[m%s" % (name, tag), b"Author: A. Writer <writer@example.org>",
             b"Date:   %s Nov %d 12:%02d:%02d 2026 +0000" % (day, 1 + source.below(30), *time), b"", *message, b"")
    return b"".join(line + b"\r\n" for line in lines)


def german(source):
    """A line of letters in UTF-8, one in eight of them beyond ASCII."""
    line = (source.among("äöüßÄÖÜ") if source.below(8) == 0 else chr(source.among(LETTERS)) for _ in range(source.below(101)))
    return "".join(line).encode() + b"\r\n"


def boxes(source):
    """A row of a table and a line under it, in UTF-8."""
    cells = [source.text(source.below(16)).decode() for _ in range(1 + source.below(5))]
    rule = "┼".join("─" * len(cell) for cell in cells)
    return f"│{'│'.join(cells)}│\r\n├{rule}┤\r\n".encode()


def lettered(source, letters):
    """A line of up to 40 characters, among these letters and spaces."""
    return "".join(source.among(letters) if source.below(6) else " " for _ in range(source.below(41))).encode() + b"\r\n"


def japanese(source):
    """A line of hiragana, each of two cells."""
    return lettered(source, [chr(0x3042 + letter) for letter in range(64)])


def blocks(source):
    """A line of block elements."""
    return lettered(source, "█▓▒░▀▄▌▐▁▂▃▅▆▇")


def braille(source):
    """A line of braille patterns, as a plot has them."""
    return lettered(source, [chr(0x2800 + dots) for dots in range(256)])


WORKLOADS = {"plain lines": plain, "addressing, SGR": addressing, "region, IL, DL": region,
             "supplemental": supplemental, "random bytes": random_bytes, "scroll region": scrolling, "bells": bells,
             "seq": seq, "find": find, "compile": compilation, "git log --color": git_log}
UTF_8 = {"plain lines": plain, "German": german, "boxes": boxes, "Japanese": japanese, "blocks": blocks, "braille": braille,
         "ill-formed": supplemental}


def make(name, size, among=WORKLOADS):
    """The first `size` bytes of a workload."""
    source = Source(1 + list(among).index(name))
    parts, length = [], 0
    while length < size:
        source.part += 1
        parts.append(among[name](source))
        length += len(parts[-1])
    return b"".join(parts)[:size]


def cast(name):
    """A recording by asciinema of 10,000 events of 100 bytes, each up to a second after the one before it, and its content."""
    source, micros, ending = Source(21), 0, CASTS[name]
    lines, texts = [json.dumps({"version": 2, "width": 80, "height": 24})], []
    for _ in range(10_000):
        micros += source.below(1_000_000)
        texts.append(source.text(100 - len(ending)).decode() + ending)
        lines.append(json.dumps([micros / 1_000_000, "o", texts[-1]]))
    return "".join(f"{line}\n" for line in lines).encode(), "".join(texts).encode()


CASTS = {"lines": "\r\n", "words": ""}


def fields():
    """Every cell shows a letter; the attributes change after some thirty of them, as on a form."""
    source = Source(11)
    out, left = b"", 0
    for row in range(1, 25):
        out += b"\x1b[%d;1H" % row
        for _ in range(80):
            if left == 0:
                left = 10 + source.below(40)
                out += b"\x1b[%sm" % source.among((b"0", b"0;1", b"0;4", b"0;7", b"0;1;7"))
            out += bytes((source.among(LETTERS) if source.below(16) else 0xC0 + source.below(15),))
            left -= 1
    return out


def words():
    """The screen after 64 KB of addressing: most cells are shown, and the attributes change after every second or third."""
    return make("addressing, SGR", 65536) + b"\x18\x1b[m"


def dense():
    """Every cell has another brush than the one to its left, and a glyph spelled in three bytes."""
    return b"\x1b[H" + b"".join(b"\x1b[0;1;4;5;7m\x1b[%d\"q\xe4" % (i % 2) for i in range(24 * 80))


SCREENS = {"fields": fields, "words": words, "every cell another brush": dense}
