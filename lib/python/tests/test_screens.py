"""Tests what two screens have in common, what is hidden, and where a text is, each at its edge."""
import itertools

import pytest
import vt220
from vt220.screen import Screen

# The parts of a state, each changed alone: the first two are the only ones that the text shows.
CHANGED = [
    b"A", b"\033[?3h", b"\033[7mA\033[m", b"\033[1\"qA\033[0\"q", b"\033[2;3H", b"\033[3;9r", b"\033[1m", b"\033(A", b"\016", b"\033|", b"\033N",
    b"\033[1;5H\033H\033[H", b"\033[2;3H\0337\033[H", b"\033[?6h\0337\033[?6l",
]
MODES = [b"\033[2h", b"\033[4h", b"\033[12l", b"\033[20h", b"\033[?1h", b"\033[?4h", b"\033[?5h", b"\033[?6h", b"\033[?7l", b"\033[?8l", b"\033[?25l", b"\033=", b"\033 G"]


def screen_of(data):
    with vt220.Terminal() as terminal:
        terminal.feed(data)
        return Screen(terminal.repaint())


def test_screens_are_equal_if_all_of_their_state_is():
    screens = [screen_of(data) for data in [b"", *CHANGED, *MODES]]
    for one, other in itertools.combinations(screens, 2):
        assert one != other and one.repaint != other.repaint, (one.repaint, other.repaint)
    assert len(set(screens)) == len(screens)
    for data in [b"", *CHANGED, *MODES]:
        one, other = screen_of(data), screen_of(b"\033c" + data)
        assert one == other and hash(one) == hash(other), data
    assert screens[0] != screens[0].repaint


@pytest.mark.parametrize("data", MODES)
def test_a_mode_hides_nothing(data):
    assert screen_of(data).hidden == ()


def test_texts_that_overlap_are_found_one_by_one():
    screen = screen_of(b"aaa\r\naa")
    found = [(place.row, place.col) for nth in (1, 2, 3) for place in [screen.at("aa", nth=nth)]]
    assert found == [(1, 1), (1, 2), (2, 1)]
    assert not screen.at("aa", nth=4) and not screen.at("aa", row=1, nth=3)
