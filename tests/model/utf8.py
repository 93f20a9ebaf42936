"""A VT220 that reads UTF-8, by docs/SPECIFICATION.md, 'UTF-8'. The decoder, the letters and the widths are Python's."""
import codecs
import re
import unicodedata

from terminal import NO_GLYPH, SETS, Size, Terminal

GLYPHS = {" ", NO_GLYPH}.union(*(chart.values() for chart in SETS.values()))

# Box Drawing by its arms: up, down, left and right.
LINES = {"ud": "│", "lr": "─", "dr": "┌", "dl": "┐", "ur": "└", "ul": "┘", "udr": "├", "udl": "┤", "dlr": "┬", "ulr": "┴", "udlr": "┼"}
ARMS = {"UP": "u", "DOWN": "d", "LEFT": "l", "RIGHT": "r", "VERTICAL": "ud", "HORIZONTAL": "lr"}
DIAGONALS = {"╱": "/", "╲": "\\", "╳": "X"}
BLOCKS = {"█": "#", "░": ":", "▓": "▒", "▁": "⎽", "▂": "⎽", "▃": "⎼", "▔": "⎺", "▎": "│", "▏": "│", "▕": "│"}
LETTERS = {"Ð": "D", "ð": "d", "ı": "i", "ŉ": "n", "Ŋ": "N", "ŋ": "n", "ſ": "s"} | dict.fromkeys("ÞþĲĳĸ", NO_GLYPH)
# What shows other characters, by their Unicode numbers.
SIMILAR = {
    " ": "00A0 1680 2000-200A 202F 205F 2800 3000",
    '"': "00A8 201C-201F 2033",
    "%": "2030",
    "'": "00B4 02BC 2018-2019 201B 2032",
    "*": "2217 2731 2736 273B",
    "+": "2020-2021 2611 2713-2714",
    ",": "00B8 201A",
    "-": "00AD 00AF 2010-2015 2043 2212 2E3A",
    ".": "2025-2026",
    "/": "00F7 2044 2215",
    ":": "205D 2236 22EE 2801-28FF",
    "<": "2039 2190 21D0 21E6 25C0-25C2 25C4 276E 2770 27F5",
    "=": "2261 2263",
    ">": "203A 2192 21AA 21B3 21D2 21E8 25B6-25B8 25BA 276F 2794 279C 279E 27A4 27F6",
    "R": "00AE",
    "^": "2191 21D1 21E7 2303 25B2-25B4",
    "o": "25A1 25CB-25CC 25EF 25FB 2610",
    "v": "2193 21D3 21E9 2304 25BC-25BE",
    "x": "00D7 2612 2715-2718 2A2F",
    "|": "00A6 2016 23D0 2758",
    "~": "02DC 223C 2248",
    "\u00a4": "20AC",
    "\u00b5": "03BC",
    "\u00b7": "2022-2023 2027 2219 22C5 25AA-25AB 25E6 2981 2E31 30FB",
    "\u2502": "23B8-23B9",
    "\u25c6": "23FA 25A0 25C7 25C9 25CE-25CF 25FC 2605-2606 2666 2B22 2B24",
}
# Characters whose width Python doesn't know: its Unicode is older than that of unicode_width, or unicode_width makes an exception.
UNKNOWN = ("0600-0604 06DD 0D4E 17A4 17D8 2630-2637 268A-268F 2D7F 3164 4DC0-4DFF A8FA FFA0 FFF9-FFFB 110BD 110CD 111C2-111C3 1171E 1193F 11941 "
           "11A84-11A89 11D46 13430-13438 1D300-1D356 1D360-1D376")
HANGUL_VOWELS_AND_FINALS = "1160-11FF D7B0-D7C6 D7CB-D7FB"


# Python waits for the third byte of a surrogate, which is ill-formed at its second.
SURROGATE = re.compile(rb"\xed[\xa0-\xbf]")


def characters_of(ranges):
    """Returns the characters of ranges of Unicode numbers."""
    ends = [[int(end, 16) for end in part.split("-")] for part in ranges.split()]
    return {chr(number) for first, *last in ends for number in range(first, (last or [first])[0] + 1)}


GLYPH_OF = {character: glyph for glyph, ranges in SIMILAR.items() for character in characters_of(ranges)}
UNKNOWN_CHARACTERS, JOINED = characters_of(UNKNOWN), characters_of(HANGUL_VOWELS_AND_FINALS)


def line_of(character):
    """Returns the line with the arms of a character of Box Drawing. Half a line is a line."""
    arms = "".join(sorted("".join(ARMS.get(word, "") for word in unicodedata.name(character).split()), key="udlr".index))
    return LINES.get(arms) or LINES["ud" if arms in "ud" else "lr"]


def letter_of(character):
    """Returns the letter of a Latin letter with a mark, a dot, a stroke or a hook."""
    letter = re.fullmatch(r"LATIN (CAPITAL|SMALL) LETTER ([A-Z]) WITH .*", unicodedata.name(character))
    return letter[2] if letter[1] == "CAPITAL" else letter[2].lower()


def glyph_of(character):
    """Returns the glyph of a character that has a cell."""
    if character in GLYPHS:
        return character
    if "\u2500" <= character <= "\u257f":
        return DIAGONALS.get(character) or line_of(character)
    if "\u2580" <= character <= "\u259f":
        return BLOCKS.get(character, "▒")
    if "\u00c0" <= character <= "\u017f" and character not in "×÷":
        return LETTERS.get(character) or letter_of(character)
    if "\uff01" <= character <= "\uff5e":
        return chr(ord(character) - 0xFEE0)
    return GLYPH_OF.get(character, NO_GLYPH)


def cells_of(character):
    """Returns how many cells a character beyond ASCII has."""
    if character == "\u00ad":
        return 1
    if character in JOINED or unicodedata.category(character) in ("Cc", "Cf", "Me", "Mn"):
        return 0
    return 2 if unicodedata.east_asian_width(character) in "FW" else 1


def has_known_width(character):
    return character not in UNKNOWN_CHARACTERS and unicodedata.category(character) not in ("Cn", "Mc", "Cs")


class Utf8Terminal(Terminal):
    def __init__(self, size=Size()):
        super().__init__(size)
        self.pending = b""

    def feed(self, data):
        """Plays bytes of UTF-8. Returns the reports."""
        self.reports = []
        data = self.pending + data
        characters, read = codecs.utf_8_decode(data, "replace", False)
        self.pending = data[read:]
        if SURROGATE.match(self.pending):
            characters, self.pending = characters + 2 * "\ufffd", b""
        for character in characters:
            self.take_character(character)
        return b"".join(self.reports)

    def take_character(self, character):
        if character.isascii():
            self.take(ord(character))
        elif self.held() != "string":
            self.sequence = None
            self.write_character(character, cells_of(character))

    def is_at_end(self):
        return self.column == self.last_reached()

    def write_character(self, character, cells):
        """Writes a character in its cells. One of two doesn't begin in the last column."""
        if cells == 2 and self.is_at_end() and not self.wrap:
            if "DECAWM" not in self.modes:
                return
            self.next_line()
        if cells:
            self.single_shift = None
            self.write(glyph_of(character))
        if cells == 2:
            self.write(" ")
