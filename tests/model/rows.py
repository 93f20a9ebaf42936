"""The rows by hand: the lists of lib/rows/. A row is bytes that are played on a new terminal, and what is wanted then."""
import dataclasses
import pathlib
import sys

TOP = pathlib.Path(__file__).resolve().parents[2]
sys.path.append(str(TOP / "lib/rows"))

from terminal import ATTRIBUTES
from utf8 import has_known_width
from vectors import repaints, sizes, vectors

VT220, UTF8, XTERM = ("dec", "vt220"), ("utf-8", "vt220"), ("utf-8", "xterm")


@dataclasses.dataclass
class Row:
    """The encoding and the terminal are its kind. A size is a pair of rows and columns. `more` is played after a change to the second one."""

    name: str
    kind: tuple
    data: bytes
    wanted: dict
    first: tuple = (24, 80)
    second: tuple | None = None
    more: bytes = b""

    def steps(self):
        """Returns what is played: bytes, each by itself, and the change of the size."""
        change = [self.second] if self.second else []
        return [*singly(self.data), *change, *singly(self.more)]


def singly(data):
    return [data[at:at + 1] for at in range(len(data))]


def all_rows():
    return [*rows_of_fields(), *rows_of_vectors(), *rows_of_repaints(), *rows_of_sizes()]


def rows_of_fields():
    """Returns the rows of lib/rows/fields.txt. Such a row has what isn't as at power-up, which the first row has."""
    at_power_up = {f"stop.{column}": 0 for column in range(1, 133)}
    for line in (TOP / "lib/rows/fields.txt").read_text().splitlines():
        if not line.startswith("#"):
            title, data, *fields = line.split("\t")
            wanted = at_power_up | {of: int(value) for of, value in (field.split("=", 1) for field in fields) if of != "bells"}
            if title == "power-up":
                at_power_up = wanted
            yield Row(title, VT220, bytes.fromhex(data), wanted)


def rows_of_vectors():
    """Returns the vectors, without those that have a character whose width the model can't know. The model counts no bells."""
    for vector in vectors():
        kind = vector.encoding, vector.terminal
        characters = "" if kind == VT220 else vector.input.decode(errors="replace").replace("\N{REPLACEMENT CHARACTER}", "")
        if all(character.isascii() or has_known_width(character) for character in characters):
            wanted = {of: value for of, value in vector.wanted.items() if of != "bells"}
            yield Row(vector.name, kind, vector.input, wanted | ({"repaint": vector.repaint} if kind == VT220 else {}))


def rows_of_sizes():
    """Returns the rows of lib/rows/sizes.txt."""
    for sized in sizes():
        wanted = {of: value for of, value in sized.wanted.items() if of != "bells"} | ({} if sized.left is None else {"left": sized.left})
        yield Row(sized.name, (sized.encoding, sized.terminal), sized.input, wanted, sized.first, sized.second, sized.more)


def rows_of_repaints():
    """Returns the rows of lib/rows/repaints.txt that have a repaint."""
    return (Row(name, kind, data, {"session" if kind == XTERM else "repaint": wanted}, size) for name, kind, size, data, wanted in repaints() if wanted)


def shown(wanted, model, reports, repaint):
    """Returns what a model shows of the fields that a row wants. The repaints are those of a module."""
    found = {"reports": reports}
    if "repaint" in wanted:
        found["repaint"] = None if model.sequence else repaint.repaint(model)
    if "session" in wanted:
        found["session"] = repaint.session_repaint(model)
    if "pending" in wanted:
        found |= screen(model)
    if "width" in wanted:
        found |= parts(model)
    return {of: found.get(of) for of in wanted}


def attributes(brush):
    return [name for name in ATTRIBUTES.values() if getattr(brush, name)]


def screen(model):
    """Returns what a vector wants, by the names of lib/rows/vectors.py."""
    flags = {"wrap": model.wrap_flag(), "alternate": getattr(model, "is_alternate", False), "paste": getattr(model, "paste", False)}
    return {of: str(int(flag)) for of, flag in flags.items()} | {
        "text": "\n".join(map(with_attributes, model.cells)).rstrip("\n"), "cursor": f"{model.row};{model.column}",
        "brush": " ".join(attributes(model.brush)), "pending": getattr(model, "pending", b""), "lines": "".join(model.scrolled_off), "left": "".join(model.left_by_resizes)}


def with_attributes(cells):
    """Returns a line with SGR where the attributes change, without the plain spaces at its end."""
    line, now = "", []
    for glyph, brush in cells:
        if attributes(brush) != now:
            now = attributes(brush)
            line += f"\033[{';'.join(['0', *(str(number) for number, name in ATTRIBUTES.items() if name in now)])}m"
        line += glyph
    return line + "\033[0m" if now else line.rstrip(" ")


def parts(model):
    """Returns the parts of a VT220, by the names of lib/rows/fields.txt."""
    (glyph, brush), saved = model.cells[0][0], model.saved
    found = {"width": model.width, "cell.glyph": ord(glyph), "margins.top": model.top, "margins.bottom": model.bottom, "saved.origin": saved.origin}
    found |= {f"modes.{name.lower()}": name in model.modes for name in MODES}
    found |= {"modes.keypad_application": model.keypad, "modes.reports_8bit": model.eight_bit, "sets.single_shift": model.single_shift or 0}
    found |= {f"stop.{column}": column in model.stops for column in range(1, 133)}
    found["held"] = ["none", "escape", "control", "string"].index(model.held())
    for of, place in (("cursor", model), ("saved", saved)):
        found |= {f"{of}.row": place.row, f"{of}.col": place.column, f"{of}.wrap": place.wrap}
    for of, part in (("brush", model.brush), ("cell", brush), ("saved", saved.brush)):
        found |= {f"{of}.{name}": getattr(part, name) for name in ATTRIBUTES.values()} | {f"{of}.is_protected": part.protected}
    for of, sets in (("sets", model.sets), ("saved", saved.sets)):
        found |= {f"{of}.g{slot}": ord(final) for slot, final in enumerate(sets.designated)} | {f"{of}.gl": sets.left, f"{of}.gr": sets.right}
    return found


MODES = ("KAM", "IRM", "SRM", "LNM", "DECCKM", "DECSCLM", "DECSCNM", "DECOM", "DECAWM", "DECARM", "DECTCEM")
