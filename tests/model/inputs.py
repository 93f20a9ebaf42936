"""Inputs that test_library.py generates: what hosts send, and what they never should. Some parts are scenes: rules that random bytes seldom meet."""
import random

from utf8 import has_known_width

EDGES = [0, 0, 1, 1, 2, 3, 5, 8, 9, 10, 22, 23, 24, 25, 79, 80, 81, 131, 132, 133, 9999, 10000, 70000]
NUMBERS = {
    "g": [0, 3, 1],
    "J": [0, 1, 2, 3],
    "K": [0, 1, 2, 3],
    "h": [2, 4, 12, 20, 1, 3, 5, 6, 7, 8, 25, 9],
    "m": [0, 1, 4, 5, 7, 22, 24, 25, 27, 2, 31],
    "c": [0, 1],
    "n": [5, 6, 15, 26, 0],
    "q": [0, 1, 2, 3],
    "p": [61, 62, 63],
}
NUMBERS["l"] = NUMBERS["h"]
CONTROLS = [bytes([byte]) for byte in b"\b\t\n\v\f\r\016\017\032\030\177\007\0\x84\x85\x88\x8d\x8e\x8f\x9a\x9c\x80\x83"]
ESCAPES = [b"7", b"8", b"8", b"=", b">", b"n", b"o", b"~", b"}", b"|", b" F", b" G", b"D", b"E", b"H", b"M", b"N", b"O", b"Z", b"#8", b"\\", b"#3", b" !F", b"#(0", b"()A", b"\177E"]
SCENES = [
    b"\033[1;4;5;7mA\033[22mB\033[24mC\033[25mD\033[27mE",
    b"\033[1;4;5;7mA\033[27mB\033[25mC\033[24mD\033[22mE",
    b'\033[62;2"p\033[6n',
    b'\033[62"p\033[6n\033[62;1"p\033[6n\033[61;2"p\033[c',
    b'\033[4;7m\033[1"qP\033[0"qQ\033[?1KR\033[?2J',
    b'\033[1"qABC\033[0"q\033[3D\033[2X',
    b"\033[5;10r\033[?6h\033[4;4H\0337\033[?6l\033[12;20r\0338X",
    b"\033[24;5H\0337\033[5;10r\0338Y\033[?6h\0337\033[r\0338",
    b"\033[?3h\033[3;100H\0337\033[?3l\0338X",
    b"\033[3;80H#\033[?7lX\033[?7hY",
    b"\033[3;80H#\0337\033[?7l\0338X\033[?7h\0338Y",
    b"\033[20h\033[!p\nX\033[20l",
    b"\033[20h\033[3;9HA\fB\033[20l",
    b"\033N\240\377\030\177\032#\033O\0337\0338q",
    b"\033[4h\033[3;79HABC\033[4l",
    b"\033[1;1H\033M\033M\033[24;80H\n\n",
    b"\033[24;80H#\v\033[23;80H#\f",
    b"\033[5\1777;3\177H#\033\177(\1770q\033(B",
]
# The cursor at an edge, and what is sent there.
TOUCHED = [b"\033[5;10r\033[%(row)d;3H", b"\033[?6h\033[5;10r\033[%(row)d;1H", b"\033[%(row)d;%(last)dH#", b"\033[?3h\033[%(row)d;132H#"]
TOUCHING = [b"\033[A", b"\033[B", b"\033[C", b"\t", b"\b", b"\033[L", b"\033[M", b"\033D", b"\033M", b"\033E", b"\n", b"\v", b"\033[@", b"\033[K", b"\0337", b"\0338"]


class Chance(random.Random):
    """Makes inputs for a VT220."""

    finals = "ABCDHfJKLM@PXghlmrqpcn"
    introducers = [b"\033["] * 6 + [b"\233", b"\033\0[", b"\033[\b"]
    numbers = NUMBERS
    controls = CONTROLS
    scenes = SCENES
    touched_by = TOUCHING
    rows, columns = 24, 80

    def __init__(self, seed):
        super().__init__(seed)
        self.number = seed

    def letters(self):
        return bytes(self.choices(b"abcxyzEN#~@[]{|}_` \241\244\327\335\375\377\240\250", k=self.length()))

    def length(self):
        return self.choice([1, 1, 2, 5, 30])

    def charted(self):
        """All codes of a set, through one of the halves."""
        designation = b"\033" + self.choice([b"(", b")", b"*", b"+"]) + self.choice([b"B", b"A", b"K", b"0", b"<", b"R"])
        shift = self.choice([b"\016", b"\017", b"\033n", b"\033o", b"\033~", b"\033}", b"\033|", b""])
        begin = self.choice([0x20, 0x60, 0xA0, 0xE0])
        return designation + shift + bytes(range(begin, begin + 0x20))

    def filled(self):
        """A row up to its end, or a screen up to its last row."""
        columns, rows = self.columns, self.rows
        return self.choice([b"x" * self.choice([columns - 1, columns, columns + 1, 131, 132, 133]), b"row\r\n" * self.choice([1, rows - 2, rows - 1, rows, rows + 6])])

    def sequence(self):
        final = self.choice(self.finals)
        numbers = self.numbers.get(final) or EDGES + [edge + more for edge in (self.rows, self.columns) for more in (-1, 0, 1)]
        count = self.choice([0, 1, 1, 1, 2, 2, 3, 17])
        values = b";".join(self.choice([b"", b"%d" % self.choice(numbers), b"%d" % self.choice(numbers)]) for _ in range(count))
        marker = self.choice([b"?"] if final in "hl" and self.random() < 0.6 else [b""] * 8 + [b"?", b">", b"=", b"<"])
        intermediate = self.choice([b'"'] * 6 + [b"!", b""]) if final in "pq" else self.choice([b""] * 12 + [b"!", b'"', b" ", b'!"'])
        return self.choice(self.introducers) + marker + values + intermediate + final.encode()

    def touched(self):
        """The cursor at an edge: of the margins, of the screen, or behind a written last column."""
        place = self.choice(TOUCHED) % {b"row": self.choice([1, 4, 5, 6, 9, 10, 11, self.rows - 1, self.rows]), b"last": self.columns}
        return place + self.choice(self.touched_by) + self.choice([b"", b"X", b"\033[6n"])

    def string(self):
        opened = self.choice([b"\033]", b"\033P", b"\033X", b"\033^", b"\033_", b"\220", b"\235", b"\233:"])
        return opened + self.letters() + self.choice([b"\033\\", b"\234", b"\007", b"\030", b"\032", b"", b"\n"])

    def part(self):
        kinds = [self.letters] * 4 + [self.sequence] * 8 + [self.touched] * 3 + [lambda: self.choice(self.scenes)] * 3 + [self.filled, self.charted, self.string]
        kinds += [lambda: self.choice(self.controls)] * 3 + [lambda: b"\033" + self.choice(ESCAPES)] * 3
        kinds += [lambda: bytes(self.choices(range(256), k=5))]
        return self.choice(kinds)()

    def input(self):
        return b"".join(self.part() for _ in range(self.randrange(1, 24)))

    def pieces(self, data):
        cuts = sorted(self.randrange(len(data) + 1) for _ in range(self.randrange(4)))
        return [data[begin:end] for begin, end in zip([0, *cuts], [*cuts, len(data)])]

    def size(self):
        """Returns rows and columns."""
        return self.choice([2, 3, 5, 10, 23, 24, 25, self.randint(2, 60)]), self.choice([2, 3, 9, 20, 40, 79, 80, 81, 132, self.randint(2, 140)])

    def generated(self):
        """Returns a size, and what is played at it: pieces of an input, and between them changes of the size, which are pairs of rows and columns.
        After an even seed there are none, and the size is a VT220's. Otherwise the edges are those of the size."""
        if self.number % 2:
            self.rows, self.columns = self.size()
        made = self.pieces(self.input())
        for _ in range(self.choice([0, 0, 1, 1, 2, 3]) if self.number % 2 else 0):
            made.insert(self.randrange(len(made) + 1), self.size())
        return (self.rows, self.columns), made


# Characters by their blocks: what programs send, and what has no cell, two cells or no glyph.
BLOCKS = [(0x80, 0x9F), (0xA0, 0xFF), (0x100, 0x17F), (0x300, 0x36F), (0x391, 0x3C9), (0x410, 0x44F), (0x2010, 0x203F), (0x2190, 0x21FF), (0x2200, 0x22FF),
          (0x2500, 0x257F), (0x2580, 0x259F), (0x25A0, 0x25FF), (0x2700, 0x27BF), (0x3000, 0x30FF), (0x4E00, 0x4FFF), (0xAC00, 0xACFF), (0xFE00, 0xFE0F), (0xFF01, 0xFF5E), (0x1F600, 0x1F64F)]
ILL_FORMED = [b"\x80", b"\xbf\x80", b"\xc0\xaf", b"\xc3", b"\xe0\x80", b"\xe2\x94", b"\xed\xa0\x80", b"\xf0\x9f", b"\xf0\x9f\x98", b"\xf4\x90\x80\x80", b"\xf5", b"\xff", b"\xe2\x28\xa1"]


class Utf8Chance(Chance):
    """Makes inputs in UTF-8."""

    introducers = [b"\033["] * 9 + [b"\033\0[", b"\033[\b", b"\302\233", b"\233"]
    controls = [byte for byte in CONTROLS if byte < b"\x80"] + [chr(byte[0]).encode() for byte in CONTROLS if byte >= b"\x80"]
    scenes = SCENES + [
        "\033[3;80H日\033[3;79H日本\033[24;80H日".encode(),
        "\033[3;80H#日\033[24;80H#日".encode(),
        "\033[?7l\033[3;80H日\033[3;79H日本\033[?7h".encode(),
        "\033[4h\033[3;5Hab\033[3;5H日é\033[3;80H日\033[4l".encode(),
        "\033N\u0301日q\033Oéq\033N═A".encode(),
        "\033[?7l\033[3;80H\033O日q\033[?7h".encode(),
        "\033*K\033+A\016ÄÖ£é─[\017\033N[\033*<\033+<".encode(),
        "\033(0q─éA\033(B\033[5é;3H\033(\u0301é\033[3\u2028C".encode(),
        "\033]0;é\u009c東\007x\033P\u0090é\033\\y\033_é\030z".encode(),
        "\033[1;4m\033[1\"qé日\033[m\033[0\"q\033[?2K".encode(),
    ]

    def letters(self):
        first, last = self.choice(BLOCKS)
        return "".join(chr(self.randint(first, last)) if self.random() < 0.8 else self.choice("ab#~ q") for _ in range(self.length())).encode()

    def ill_formed(self):
        return self.choice(ILL_FORMED) + self.choice([b"", b"a", b"\n", "é".encode(), b"\033[C"])

    def part(self):
        return self.choice([self.letters, self.ill_formed, super().part, super().part, super().part, super().part])()

    def input(self):
        return self.with_known_widths(super().input())

    def with_known_widths(self, data):
        """Each character whose width Python doesn't know becomes an `a`. Ill-formed bytes stay."""
        text = data.decode("utf-8", "surrogateescape")
        known = (one if has_known_width(one) or "\udc80" <= one <= "\udcff" else "a" for one in text)
        return "".join(known).encode("utf-8", "surrogateescape")


XTERM_SCENES = [
    b"main\033[?1049h\033[3;3Halt\0337\033[?1049l",
    b"\033[?47h\033[9;9Hx\0337\033[?47l\033[?1047l\033[?47h\0338#",
    b"\033[?1047h\033[3;3H\0337x\033[?1047l\033[?47h\033[H\0338y",
    b"\033[?40h\033[?3h\033[9;120H\0337#\033[?47h\033[?3l\033[?47l\0338X",
    b"\033[?40h\033[?3h\033[5;132H#\0337\033[?1049h\033[?3l\033[?1049lX",
    b"\033[?40h\033[?3hwide\033[?47h\033[?3lnarrow\033[?3h\033[?47l",
    b"\033[?40h\033[?3h\033[?40l\033[5;120Ha\033c\033[132Gx",
    b"\033[?40h\033c\033[?3h\033[132G#\033[?3l\033[?40l\033[?3h",
    b"\033[?1049;2004h\033[3;80H#\033[?1048l\033[?47l",
    b"\033[3;80H#\033[S\033[T\033[^\033[?47h\033[?47lX",
    b"\033[3;80H#\033[200bX\033[24;80H#\033[3bX\033[3;9H\033[200b",
    b"\033[3;80H\033[?7l#\033[5b\033[?7h\033[5;1H\033[3b\033[Hab\033[4h\033[1;2H\033[3b\033[4l",
    b"\033N\033[2b#\0337\033[Sq\033O\033[?47hq\033[?47l",
    b"\033[1;3r\033[2;2Ha\033[9S\033[r\033[3S\033[2;5r\033[9S\033[2T\033[5;1T\033[r",
    b"\033[5;10r\033[7;7H\033[9F\033[9E\033[9e\033[?6h\033[9e\033[3d\033[20d\033[?6l\033[r",
    b"\033[5;10r\033[3;7H\033[9F\033[12;7H\033[9E\033[12;7H\033[e\033[r",
    b"\033[3g\033[5Z\033[1;9H\033H\033[1;20H\033H\033[2Z\033[I\033[9I\033[Z",
    b"\033[3;4H\033[s\033[H\033[u\033[1s\033[H\033[;u\033[0u",
    b"\033[1;38;5;7;4mA\033[48;2;1;4;5;7mB\033[58;1;4mC\033[38mD\033[38;5mE\033[0;31;92;104mF",
    b'\033[?7l\033[!p\033[3;80HAB\033[?7l\033[62;1"p\033[3;80HAB',
    b"\033[2;80H#\033[3d\033[2;80H#\033[80G\033[2;80H#\033[a\033[2;80H#\033[e",
]
# Left and right margins, and a cursor in them, left of them, right of them, or in the column of one.
SIDES = [b"\033[?69h\033[5;20s", b"\033[?69h\033[10;40s\033[5;10r", b"\033[5;10r\033[?69h\033[?6h\033[3;30s", b"\033[?69h\033[2;79s", b"\033[?69h\033[41;80s"]
SIDED = [b"\033[%d;3H", b"\033[%d;5H", b"\033[%d;12H", b"\033[%d;19Hab", b"\033[%d;20H#", b"\033[%d;30H", b"\033[%d;79Hab", b"\033[%d;80H#"]


class XtermChance(Utf8Chance):
    """Makes inputs for TERM=xterm."""

    finals = Chance.finals + "G`adeEFIZbST^su" + "hlbSTs"
    numbers = {of: values for of, values in NUMBERS.items() if of not in "hlm"} | {
        "h": NUMBERS["h"] + [3, 40, 40, 47, 47, 69, 69, 69, 1047, 1047, 1048, 1049, 1049, 2004],
        "m": NUMBERS["m"] + [38, 48, 58, 39, 91, 107],
        "s": [0, 0, 1, 5, 10, 20, 40, 79, 80],
        "u": [0, 0, 1],
    }
    numbers["l"] = numbers["h"]
    scenes = Utf8Chance.scenes + XTERM_SCENES * 2
    touched_by = TOUCHING + [b"\033[" + rest for rest in (b"G", b"9`", b"a", b"3d", b"9e", b"9E", b"9F", b"I", b"Z", b"2b", b"99b", b"2S", b"T", b"2^", b"s", b"u", b"?47h", b"?1049h", b"?1049l", b"!p")]

    def sided(self):
        """A few characters and functions between left and right margins."""
        places = [self.choice(SIDED) % self.choice([1, 5, 7, 10, 24]) + self.choice([self.choice(self.touched_by), self.letters(), b"\r", b"\033[2b", "日".encode()]) for _ in range(self.length())]
        return self.choice(SIDES) + b"".join(places[:5])

    def part(self):
        return self.sided() if self.random() < 0.1 else super().part()
