"""The keys of an xterm, as lib/rows/xterm-keys.txt has them."""
import pathlib
import re

FILE = pathlib.Path(__file__).resolve().with_name("xterm-keys.txt")


def sequence(text, is_8bit=False):
    """Returns the bytes of a sequence that is written with CSI or SS3."""
    controls = {"CSI": "\x9b", "SS3": "\x8f"} if is_8bit else {"CSI": "\033[", "SS3": "\033O"}
    return re.sub("CSI|SS3", lambda found: controls[found[0]], text.replace(" ", "")).encode("latin-1")


def rows(is_8bit=False):
    """Returns what each key sends: its name, and its bytes if DECCKM is reset and if it is set."""
    modifiers, found = {}, []
    for line in FILE.read_text().splitlines():
        name, *fields = line.split("\t")
        if name == "modifiers":
            modifiers[fields[0]] = fields[1]
        elif name and name[0] != "#":
            found.append((name, *(sequence(field, is_8bit) for field in fields[:2])))
            if fields[2] != "-":
                found += [(held + name, *2 * [sequence(fields[2].replace("m", number), is_8bit)]) for number, held in modifiers.items()]
    return found
