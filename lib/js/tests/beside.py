"""Inputs beside the library for C: hashes(inputs) is what hashes.test.mjs makes of them in JavaScript.

    beside.py COUNT     prints so many inputs with their hashes, as JSON
"""
import base64
import glob
import json
import os
import sys
import zlib

TOP = os.path.abspath(os.path.join(os.path.dirname(__file__), "../../.."))
sys.dont_write_bytecode = True
sys.path[:0] = [os.path.join(TOP, "lib/python"), os.path.join(TOP, "tests/bench")]
sys.path.append(os.path.join(TOP, "tests/model"))
os.environ.setdefault("VT220_LIBRARY", os.path.join(TOP, "out/libvt220.so"))
import vt220  # noqa: E402

# How many of the random inputs are long: a long chunk is played by other code than a short one.
LONG = 60


def charts():
    """Returns an input for each byte that may name a graphic set: all characters of the set in G0 to G3, on the left and on the right."""
    left, right = bytes(range(0x20, 0x80)), bytes(range(0xA0, 0x100))
    shifts = [(b"(", b"\x0f", left), (b")", b"\x0e", left), (b"*", b"\x1bn", left), (b"+", b"\x1bo", left), (b")", b"\x1b~", right), (b"*", b"\x1b}", right), (b"+", b"\x1b|", right)]
    return [b"".join(b"\x1b" + set_ + bytes([name]) + shift + shown + b"\r\n" for set_, shift, shown in shifts) for name in range(0x30, 0x7F)]


def functions():
    """Returns an input for each final byte of a control sequence and each intermediate of an escape sequence; one of controls, and two of modes."""
    text, end = b"one two\r\n\tthree\x1b[7mfour\x1b[m\x1b[4;9H", b"\x1b\\"
    control = [(marker, numbers, between) for marker in (b"", b"?", b">") for numbers in (b"", b"2", b"3;7", b"0;1;4;5") for between in (b"", b" ", b"!", b'"', b"$")]
    made = [b"".join(text + b"\x1b[" + marker + numbers + between + bytes([final]) for marker, numbers, between in control) for final in range(0x40, 0x7F)]
    made += [b"".join(text + b"\x1b" + between + bytes([final]) + end for final in range(0x30, 0x7F)) for between in (b"", b" ", b"#", b"%", b"(")]
    made += [b"".join(text + bytes([byte]) + end for byte in (*range(0x20), *range(0x7F, 0xA0)))]
    modes = [marker + b"%d" % number for marker in (b"", b"?") for number in (*range(45), 66, 67, 80)]
    return made + [b"".join(text + b"\x1b[" + mode + final + b"x" * 90 for mode in modes) for final in (b"h", b"l")]


def cut():
    """Returns inputs that end inside of a sequence, for each byte of some."""
    whole = [b"\x1b(B", b"\x1b#$8", b"\x1b[?25;7h", b"\x1b[>1 q", b"\x1b[1;22;333!\"p", b"\x1b[;;;5$x", b"\x1b[1\n;2\x1a", b"\x1bP1;2|x\x1b\\", b"\x1b]0;t\x07", b"\x1b_x\x9c", b"\x9b5\x18",
             b"\x1b[" + b"12;" * 20 + b"m", b"\x1b[" + b"9" * 20 + b"A", b"\x1b[?1;\x80", b"\x1bP" + b"s" * 20]
    return [b"text" + each[: end + 1] for each in whole for end in range(len(each))]


def characters():
    """Returns inputs with each character of the first two planes of Unicode, in UTF-8, and with some of the other ones."""
    starts = [*range(0x80, 0xD800, 0x400), *range(0xE000, 0x20000, 0x400), 0x2FF00, 0x30000, 0x3FF00, 0xDFF00, 0xE0000, 0xEFF00, 0x10FC00]
    return ["".join(map(chr, range(start, min(start + 0x400, 0xD800 if start < 0xD800 else 0x110000)))).encode() for start in starts]


def inputs(count):
    """Returns inputs: the recordings of bench, its workloads, all characters of all sets and of UTF-8, all functions, and those of tests/model."""
    import workloads
    from inputs import Chance, XtermChance

    large = [open(path, "rb").read() for path in sorted(glob.glob(os.path.join(TOP, "tests/bench/recordings/*.raw")))]
    large += [prefix + workloads.make(name, 30000) for prefix in (b"", b"\x1b[?3h") for name in workloads.WORKLOADS]
    large += charts() + functions() + cut() + characters()
    generated = [(Chance, XtermChance)[seed % 2](seed).input() for seed in range(max(count, 100 * LONG))]
    large += [b"".join(generated[at::LONG]) for at in range(LONG)]
    return large + generated[: count - len(large)]


def hash_of(parts):
    joined = b"\xff".join(parts)
    return f"{zlib.crc32(joined)}.{zlib.adler32(joined)}"


def number(value):
    return ord(value) if isinstance(value, str) else int(value)


def described(terminal, last):
    """Returns everything that is read of a terminal, as text. `last` is an earlier one."""
    parts = [terminal.cursor(), terminal.margins(), terminal.modes(), terminal.brush(), terminal.sets(), terminal.saved()]
    parts = [list(map(int, each)) for each in parts] + [terminal.stops(), [terminal.bells(), terminal.width()]]
    flat = " ".join(",".join(map(str, each)) for each in parts)
    changed = [row for row in range(1, 25) if terminal.width() != last.width() or last.changed(terminal, row)]
    marks = []
    for row in (1, 12, 24):
        columns = set(last.changed(terminal, row))
        marks.append("".join(str(int(column in columns)) for column in range(1, terminal.width() + 1)))
    cells = " ".join(".".join(str(number(value)) for value in cell) for cell in terminal.row(3))
    return "\n".join([terminal.text(), terminal.show(), terminal.picture(), flat, terminal.held(), ",".join(map(str, changed)), *marks, cells])


def made_of(data, options):
    """Returns what a terminal makes of an input, the second half on a copy: replies, lines, all that is read, and what is written, of both pages."""
    terminal, half = vt220.Terminal(**options), len(data) >> 1
    replies, copied = terminal.feed(data[:half]), terminal.copy()
    more, lines = copied.feed_log(data[half:])
    parts = [replies, more, lines[:-1].encode(), described(copied, terminal).encode(), copied.pending(), bytes([copied.same_state(terminal)])]
    for each in (terminal, copied):
        each.feed(b"\x18")
    parts += [copied.repaint(), copied.repaint("vt220"), copied.draw(), copied.draw(terminal)]
    if copied.terminal == "vt220":
        return [*parts, terminal.update(copied)]
    copied.feed(b"\x1b[?47l" if copied.alternate() else b"\x1b[?47h")
    return [*parts, copied.text().encode()]


def typed(data, modes):
    """Returns what is read of an input as keys: the lengths of the first key in its first bytes, and what its first characters send."""
    sent = []
    for character in data[:12].decode("utf-8", "replace"):
        try:
            sent.append(",".join(map(str, vt220.key(character, modes))))
        except (vt220.NoKey, vt220.NoCharacter) as fault:
            sent.append("NO_KEY" if isinstance(fault, vt220.NoKey) else "NO_CHARACTER")
    return " ".join([*(str(vt220.key_length(data[:length])) for length in range(12)), *sent]).encode()


def hashes(data):
    made = []
    for each in data:
        parts = [part for options in ({}, {"encoding": "utf-8"}, {"terminal": "xterm"}) for part in made_of(each, options)]
        modes = vt220.Modes(*(bool(len(each) >> bit & 1) for bit in range(13)))
        made.append(hash_of([*parts, vt220.shown(each.decode("utf-8", "replace")).encode(), typed(each, modes)]))
    return made


def hashed(count):
    """Returns inputs, and the hashes of what the library for C makes of them, as JSON."""
    made = inputs(count)
    return json.dumps([[base64.b64encode(data).decode(), each] for data, each in zip(made, hashes(made))])


if __name__ == "__main__":
    print(hashed(int(sys.argv[1])))
