"""Plays the updates of the proved xterm on the plain model of its cells: they lead to the wanted state, and are short if little differs."""
import copy
import random
import subprocess

import pytest
from cell_inputs import CellChance
from rows import TOP
from terminal import size_of
from xterm_cells import CellXterm

COUNT = 2000  # inputs
PROGRAM = TOP / "crates/updates/out/updates"
# What isn't part of the state: what left the model, and the title, which an xterm of the crates doesn't have yet.
NO_STATE = {"reports", "scrolled_off", "left_by_resizes", "title", "string", "cut_string"}


def state_of(model):
    return {name: value for name, value in vars(model).items() if name not in NO_STATE}


def update(size, both, more):
    """Returns the update between the states after some bytes and after more of them, and the number of bytes of the repaint."""
    rows, columns = size
    sent = bytes([columns, rows, *len(both).to_bytes(2, "little"), *both, *more])
    length, _, update = subprocess.run([PROGRAM], input=sent, capture_output=True, check=True).stdout.partition(b"\n")
    return update, int(length)


def played(size, *parts):
    model = CellXterm(size_of(*size))
    for part in parts:
        model.play([part])
    return model


def check(size, both, more, name):
    """Plays an update, whole and byte by byte. Returns the number of its bytes, and that of the repaint's."""
    sent, length = update(size, both, more)
    shown, wanted = played(size, both), state_of(played(size, both, more))
    is_same = state_of(shown) == wanted
    assert (sent == b"") == is_same, name
    model = copy.deepcopy(shown)
    model.play([sent])
    assert state_of(model) == wanted, f"{name}: {sent!r}"
    assert model.reports == shown.reports, name
    return len(sent), length


def test_inputs(seeds):
    for seed in seeds:
        chance = CellChance(seed, True)
        both, more = chance.input(), chance.input()
        check(chance.size, both, more, f"seed {seed}, size {chance.size}, {both!r}, {more!r}")


WORDS = ["\033[31mred", "\033[1;34mblue", "\033[0mplain text", "\033[42mpaper\033[m", "\033[38;5;200mpink", "日本", "\033[7mreverse\033[27m", "x = y + 1;"]


def text(seed):
    """Returns 24 rows of words with colours."""
    chance = random.Random(seed)
    return "\033[m\033[H" + "\r\n".join(" ".join(chance.choice(WORDS) for _ in range(8)) for _ in range(24))


SMALL = [
    ("a character", b"\033[12;40Hx", 40),
    ("the cursor moved", b"\033[5;7H", 20),
    ("a line scrolled in", b"\033[24;1H\r\n\033[mnew line", 30),
    ("a word in colours", b"\033[3;5H\033[31mword", 40),
    ("the cursor's shape", b"\033[4 q", 10),
    ("bracketed paste", b"\033[?2004h", 10),
    ("the end of a row erased", b"\033[m\033[8;20H\033[K", 40),
]


@pytest.mark.parametrize("name, more, most", SMALL, ids=[name for name, _, _ in SMALL])
def test_small(name, more, most):
    length, repaint = check((24, 80), text(0).encode(), more, name)
    assert length < most, (length, repaint)


def test_new_text():
    """A text with colours, drawn over another one, takes at most half of the bytes of a repaint."""
    for seed in range(1, 4):
        length, repaint = check((24, 80), text(0).encode(), text(seed).encode(), f"text {seed}")
        assert 2 * length <= repaint, (length, repaint)
