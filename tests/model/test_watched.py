"""Compares the plain model with what observers of the proved xterm have: the trace, the title and the number of bells."""
import subprocess

import pytest
from cell_inputs import generated
from cells import cell_rows
from inputs import ILL_FORMED, XtermChance
from rows import TOP, singly
from terminal import Size
from traces import TracedCells

COUNT = 2000  # inputs
PROGRAM = TOP / "crates/watched/out/watched"
TITLED = [row for row in cell_rows() if "title" in row.wanted | row.here]
MODES = [9, 12, 1000, 1001, 1002, 1003, 1004, 1005, 1006, 1015, 1016, 2026]
COLOURS = [2, 3, 9, 21, 23, 26, 30, 37, 38, 38, 40, 48, 48, 49, 58, 97, 98, 107, 108, 255, 256]
NUMBERS = ["0", "2", "", "02", "1", "4", "52", "20", "2a", "-0", "00000000000000000000000000000000000002"]


class WatchedChance(XtermChance):
    """Makes inputs with titles, bells, and modes and colours of an xterm."""

    numbers = XtermChance.numbers | {"h": XtermChance.numbers["h"] + MODES, "l": XtermChance.numbers["l"] + MODES, "m": XtermChance.numbers["m"] + COLOURS,
                                     "q": [0, 1, 2, 3, 6, 7]}

    def titled(self):
        """A string that may set a title, and what ends it or doesn't."""
        text = b"".join(self.choice([self.letters(), b"x" * self.choice([1, 120, 252, 254, 256]), self.choice(ILL_FORMED), b"\t\177", b";"]) for _ in range(self.randrange(4)))
        opened = self.choice([b"\033]"] * 9 + [b"\033\0]", b"\033#]", b"\033P"])
        end = self.choice([b"\a"] * 4 + [b"\033\\"] * 4 + [b"\030", b"\032", b"\033c", b"\033\033\\", b"\033\0\\", b"\033#\\", b"\033\177\\", "\033é\\".encode(), b"\033", b""])
        return opened + self.choice(NUMBERS).encode() + self.choice([b";"] * 9 + [b""]) + text + end

    def part(self):
        chance = self.random()
        return self.titled() if chance < 0.15 else self.choice([b"\a", b"\033[\am", b"\033[4:3m", b"\033[1 q", b"\033[3\030"]) if chance < 0.2 else super().part()


def steps_sent(size, steps):
    """Returns the program's input: the size of the screen, bytes, and changes to pairs of rows and columns."""
    sent = b""
    for step in [b"", *steps]:
        size, played = (size, step) if isinstance(step, bytes) else (step, b"")
        sent += bytes([size[1], size[0], *len(played).to_bytes(2, "little"), *played])
    return sent


def changing(size, steps):
    """Yields steps without changes to the size that the screen has."""
    for step in steps:
        if isinstance(step, bytes) or step != size:
            yield step
        size = size if isinstance(step, bytes) else step


def watched(size, steps):
    """Returns the trace, the title and the number of bells."""
    printed = subprocess.run([PROGRAM], input=steps_sent(size, steps), capture_output=True, check=True).stdout
    *lines, title, bells, _ = printed.split(b"\n")
    return "".join(line.decode() + "\n" for line in lines), title, int(bells)


def modelled(size, steps):
    """Returns the same of the plain model. Each bell has a line."""
    model = TracedCells(Size(*size, size[1]))
    trace = model.trace(steps)
    return trace, model.title, trace.count("\tignored\t\\x07\n")


@pytest.mark.parametrize("row", TITLED, ids=lambda row: row.name)
def test_title(row):
    wanted = (row.wanted | row.here)["title"]
    for steps in (row.steps(), [part for step in row.steps() for part in (singly(step) if isinstance(step, bytes) else [step])]):
        assert watched(row.size, steps)[1] == wanted


def test_cells(seeds):
    for seed in seeds:
        _, size, steps = generated(seed, is_own=True)
        steps = [*changing(size, steps)]
        assert watched(size, steps) == modelled(size, steps), f"seed {seed}, size {size}, {steps!r}"


def test_inputs(seeds):
    for seed in seeds:
        size, steps = WatchedChance(seed).generated()
        steps = [*changing(size, steps)]
        assert watched(size, steps) == modelled(size, steps), f"seed {seed}, size {size}, {steps!r}"
