"""Traces of the plain terminals, by docs/TRACE.md alone: a line for each event, and for each item without a function."""
import re

from terminal import ANSI_MODES, BEL, CAN, CSI, DEL, ESC, PRIVATE_MODES, ST, STRINGS, SUB, Terminal
from utf8 import Utf8Terminal
from xterm import MODES, Xterm, without_colours
from xterm_cells import NUMBER_MODES, PLAIN, CellXterm, rendered

CONTROLS = {0x08: "BS", 0x09: "HT", 0x0A: "LF", 0x0B: "VT", 0x0C: "FF", 0x0D: "CR", 0x0E: "SO", 0x0F: "SI", SUB: "SUB",
            0x84: "IND", 0x85: "NEL", 0x88: "HTS", 0x8D: "RI", 0x8E: "SS2", 0x8F: "SS3", 0x9A: "DECID"}
ESCAPES = {slot + name[0]: f"SCS G{number} {name[2:]}" for number, slot in enumerate("()*+") for name in ("B ASCII", "A British", "K German", "0 Special Graphics", "< Supplemental")}
ESCAPES |= {"7": "DECSC", "8": "DECRC", "=": "DECKPAM", ">": "DECKPNM", "c": "RIS", "n": "LS2", "o": "LS3", "~": "LS1R", "}": "LS2R", "|": "LS3R",
            " F": "S7C1T", " G": "S8C1T", "#8": "DECALN"}
SEQUENCES = {"@": "ICH", "A": "CUU", "B": "CUD", "C": "CUF", "D": "CUB", "H": "CUP", "f": "HVP", "J": "ED", "?J": "DECSED", "K": "EL", "?K": "DECSEL",
             "L": "IL", "M": "DL", "P": "DCH", "X": "ECH", "g": "TBC", "h": "SM", "?h": "SM", "l": "RM", "?l": "RM", "m": "SGR", "r": "DECSTBM",
             '"q': "DECSCA", '"p': "DECSCL", "!p": "DECSTR", "c": "DA", ">c": "DA", "n": "DSR", "?n": "DSR"}
OF_XTERM = {"E": "CNL", "F": "CPL", "G": "CHA", "`": "HPA", "a": "HPR", "d": "VPA", "e": "VPR", "I": "CHT", "Z": "CBT", "b": "REP", "S": "SU", "^": "SD",
            "T": "SD", "s": "SCP", "s;": "DECSLRM", "u": "RCP"}
# The first values with which a function isn't ignored, and the values of which it needs one.
FIRST_VALUES = dict.fromkeys(["J", "K", "?J", "?K", '"q'], (0, 1, 2)) | {"g": (0, 3), "c": (0,), ">c": (0,), "n": (5, 6), "?n": (15, 26), '"p': (61, 62), "u": (0,)}
NEEDED = {"m": {0, 1, 4, 5, 7, 22, 24, 25, 27}, "h": set(ANSI_MODES), "l": set(ANSI_MODES), "?h": {3, *PRIVATE_MODES}, "?l": {3, *PRIVATE_MODES}}
NEEDED_OF_XTERM = NEEDED | {key: NEEDED[key] | set(MODES) for key in ("?h", "?l")}
NEEDED_OF_CELLS = {key: NEEDED_OF_XTERM[key] | (set(NUMBER_MODES) if key[0] == "?" else set()) for key in ("h", "l", "?h", "?l")}
# A pen of which each part is another one than that of a plain pen.
FULL = rendered(PLAIN, [1, 2, 3, 4, 5, 7, 8, 9, 21, 31, 41])


def shown(data):
    """Returns bytes as text."""
    return "".join(chr(byte) if 0x20 <= byte <= 0x7E and byte != 0x5C else f"\\x{byte:02X}" for byte in data)


class Traced:
    """The trace of a terminal. It comes before the terminal among the bases of a class."""

    needed, names, renditions, first_values = NEEDED, SEQUENCES, list, FIRST_VALUES

    def __init__(self, *size):
        self.last = None
        self.lines, self.place, self.text_place, self.open_text = [], 0, 0, b""
        self.item, self.item_place, self.opened = b"", 0, None
        super().__init__(*size)

    def line(self, place, name, column=""):
        self.end_text()
        self.lines.append(f"{place}\t{name}\t{column}\n")

    def end_text(self):
        if self.open_text:
            self.lines.append(f"{self.text_place}\ttext\t{shown(self.open_text)}\n")
        self.open_text = b""

    def add_text(self, byte):
        self.text_place, self.open_text = self.text_place if self.open_text else self.place, self.open_text + bytes([byte])

    def end_item(self, kind=None):
        """Ends an item, with a line if it has no function. Returns its place."""
        if self.item and kind:
            self.line(self.item_place, self.name_of_item(kind), shown(self.item[:32]) + (".." if len(self.item) > 32 else ""))
        self.item, self.opened = b"", None
        return self.item_place

    def name_of_item(self, kind):
        return "ignored " + kind

    def cut_item(self):
        self.end_item(f"{self.opened} string" if self.opened else "cut sequence")

    def trace(self, steps):
        """Plays bytes, and changes to pairs of rows and columns. Returns the trace."""
        for step in steps:
            if isinstance(step, bytes):
                for byte in step:
                    self.read(byte)
                    self.feed(bytes([byte]))
                    self.place += 1
            else:
                self.resize(*step)
                self.line(self.place, "size", f"{step[1]}x{step[0]}")
        self.last = None
        self.cut_item()
        self.end_text()
        return "".join(self.lines)

    def read(self, byte):
        """Reads a byte before the terminal does: it begins an item, goes on with one, or ends one without a function."""
        self.last = byte
        if self.item and (byte == ESC or byte >= 0x80 and not self.opened):
            self.cut_item()
        if self.item and byte != SUB:
            self.item += bytes([byte])
        elif byte in (ESC, CSI) or byte in STRINGS:
            self.item, self.item_place, self.opened = bytes([byte]), self.place, STRINGS.get(byte)
        elif not self.item and byte in (CAN, DEL):
            self.line(self.place, "ignored", shown([byte]))
        if byte in (CAN, SUB) or self.opened and len(self.item) > 1 and (byte == ST or byte == BEL and self.opened == "OSC"):
            self.cut_item()

    # The terminal's own functions. Each event is carried out, and has a line. A report has another one.

    def event(self, place, name, column, spelled, carry_out, *words):
        self.line(place, name or "ignored", column if name else shown(spelled))
        count = len(self.reports)
        carry_out(*words)
        for report in self.reports[count:]:
            self.line(place, "report", shown(report))

    def begin(self, byte):
        """A C1 control in its 7-bit form may open a string: the item goes on."""
        self.opened = STRINGS.get(byte)
        super().begin(byte)

    def graphic(self, byte):
        self.line(self.place, "ignored", shown([byte])) if byte in (0xA0, 0xFF) else self.add_text(byte)
        super().graphic(byte)

    def control(self, byte):
        place = self.end_item() if self.item and byte >= 0x80 else self.place
        if byte not in (CAN, DEL):
            self.event(place, CONTROLS.get(byte), "", [byte], super().control, byte)

    def escape(self, intermediate, final):
        self.event(self.end_item(), ESCAPES.get(intermediate + final), "", f"\033{intermediate}{final}".encode(), super().escape, intermediate, final)

    def take(self, byte):
        super().take(byte)
        if self.sequence is None:
            self.end_item("spoilt sequence")

    def control_sequence(self, marker, values, intermediate, final):
        key, column = marker + intermediate + final, marker + ";".join(map(str, values))
        name = None if self.is_ignored(key, values) else self.names.get("s;" if key == "s" and values != [0] else key)
        spelled = f"\033[{column}{intermediate}{final}".encode()
        self.event(self.end_item(), name, column, spelled, super().control_sequence, marker, values, intermediate, final)

    def is_ignored(self, key, values):
        """Returns whether a control sequence is ignored because of its values."""
        first, second = values[0], values[1] if len(values) > 1 else 0
        if key == "r":
            return max(first, 1) >= (second if 0 < second < self.size.rows else self.size.rows)
        is_of_others = key in ("T", "u") and len(values) > 1 or key == '"p' and first == 62 and second > 2
        is_needed = key not in self.needed or self.needed[key].intersection(self.renditions(values) if key == "m" else values)
        return is_of_others or not is_needed or first not in self.first_values.get(key, (first,))


class TracedTerminal(Traced, Terminal):
    pass


class TracedUtf8(Traced, Utf8Terminal):
    """A byte beyond ASCII is text, or content of a string."""

    def read(self, byte):
        if byte < 0x80:
            super().read(byte)
        elif self.opened:
            self.item += bytes([byte])
        else:
            self.cut_item()
            self.add_text(byte)


class TracedXterm(TracedUtf8, Xterm):
    needed, names, renditions = NEEDED_OF_XTERM, SEQUENCES | OF_XTERM, staticmethod(without_colours)


class TracedCells(TracedUtf8, CellXterm):
    """An xterm with cells of its own. OSC 0 and OSC 2 have names, unless CAN, SUB or the end of the input ends them."""

    needed, names, first_values = NEEDED_OF_CELLS, SEQUENCES | OF_XTERM | {" q": "DECSCUSR"}, FIRST_VALUES | {" q": range(7)}

    def is_ignored(self, key, values):
        if key == "m":
            return all(rendered(pen, values) == pen for pen in (PLAIN, FULL))
        return super().is_ignored(key, values)

    def name_of_item(self, kind):
        content = self.item.partition(b"]")[2].removesuffix(b"\a")
        numbered = kind == "OSC string" and self.last not in (CAN, SUB, None) and re.fullmatch(rb"([0-9]*)(?:;.*)?", content, re.DOTALL)
        number = int(numbered[1] or b"0") if numbered else None
        return f"OSC {number}" if number in (0, 2) else super().name_of_item(kind)
