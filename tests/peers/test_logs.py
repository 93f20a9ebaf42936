"""Compares the log of recordings with the lines before the screen that another terminal keeps.

Both others also keep a line that DL or SU takes off row 1. tmux also keeps a screen that ED clears, and the top line of a scroll region that
begins below row 1. Such lines aren't in a log. But each line of the log must be there, in the same order.
"""
import ctypes
import shlex
import subprocess
import time

import pytest
from conftest import TOP
from terminals import Asked, Cell, libvterm, tmux

PLAYED = "the file is played"
RAW = sorted((TOP / "tests/bench/recordings").glob("*.raw"))
# tmux prints line drawing as the letters that it was sent as
LETTERS = str.maketrans("┌─┐│└┘├┤┬┴┼", "lqkxmjtuwvn")
ROWS, COLUMNS = 24, 80
PUSH = ctypes.CFUNCTYPE(ctypes.c_int, ctypes.c_int, ctypes.POINTER(Cell), ctypes.c_void_p)


class Callbacks(ctypes.Structure):
    """libvterm's VTermScreenCallbacks."""

    _fields_ = [("others", ctypes.c_void_p * 6), ("push", PUSH), ("pop", ctypes.c_void_p)]


def lines_of(text):
    return [line.rstrip().translate(LETTERS) for line in text.split("\n")[:-1]]


def kept_by_tmux(path):
    with tmux() as (run, _):
        # The title comes after the file, also if that ends inside a sequence: then tmux has played all of it.
        command = f"stty raw -echo; cat {shlex.quote(str(path))}; printf '\\030\\033]2;{PLAYED}\\033\\\\'; exec sleep infinity"
        run("new-session", "-d", "-s", "log", "-x", str(COLUMNS), "-y", str(ROWS), command)
        while run("display-message", "-p", "-t", "log", "#{pane_title}").strip() != PLAYED:
            time.sleep(0.05)
        return lines_of(run("capture-pane", "-p", "-t", "log", "-S", "-", "-E", "-"))[:-ROWS]


def kept_by_libvterm(path):
    lines = []

    def push(columns, cells, _):
        lines.append("".join(cell.text() or " " for cell in cells[:columns]) + "\n")
        return 1

    vterm, terminal, screen = libvterm(Asked())
    callbacks, data = Callbacks(push=PUSH(push)), path.read_bytes()
    vterm.vterm_screen_set_callbacks(screen, ctypes.byref(callbacks), None)
    vterm.vterm_screen_reset(screen, 1)
    vterm.vterm_input_write(terminal, data, ctypes.c_size_t(len(data)))
    vterm.vterm_free(terminal)
    return lines_of("".join(lines))


KEPT_BY = {"tmux": kept_by_tmux, "libvterm": kept_by_libvterm}


@pytest.mark.parametrize("path", RAW, ids=lambda path: path.stem)
def test_log(name, path, pytestconfig):
    log = subprocess.run([pytestconfig.getoption("--program"), "log", path], check=True, capture_output=True).stdout.decode()
    kept = KEPT_BY[name](path)
    left = iter(kept)
    missing = [line for line in lines_of(log)[:-ROWS] if line not in left]
    assert not missing, f"{name} keeps {kept}"


test_log.names = tuple(KEPT_BY)
