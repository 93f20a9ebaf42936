#!/usr/bin/python3
"""Prints the text of a screen that a terminal shows of standard input: terminals.py NAME [OPTION ..]

  vt220       this repository's library (make lib)      libvterm    libvterm by ctypes (Debian: libvterm0)
  xterm       xterm on a new X server (xterm, xvfb)     pyte        pyte, which reads Latin 1 in place of 8-bit sets (python3-pyte)
  tmux        tmux, which always reads UTF-8 (tmux)     screen      GNU screen in tmux, which always reads UTF-8 (screen, tmux)
  vt100, alacritty    the crates vt100 and alacritty_terminal, which always read UTF-8 (cargo, librust-vt100-dev, librust-alacritty-terminal-dev)
"""
import argparse
import contextlib
import ctypes
import fcntl
import os
import pathlib
import re
import shlex
import subprocess
import sys
import tempfile
import time
from typing import NamedTuple

HERE = pathlib.Path(__file__).resolve().parent
TOP = HERE.parents[1]
# The line drawing characters by their codes of Special Graphics.
GRAPHICS = dict(zip("_`abcdefghijklmnopqrstuvwxyz{|}~", " ◆▒␉␌␍␊°±␤␋┘┐┌└┼⎺⎻─⎼⎽├┤┴┬│≤≥π≠£·"))
# The terminals, their Debian packages, and whether they always read UTF-8. Such a terminal disregards the encoding and the terminal that are asked for.
PACKAGES = {"xterm": ("xterm", False), "libvterm": ("libvterm0", False), "pyte": ("python3-pyte", False), "tmux": ("tmux", True),
            "screen": ("screen", True), "vt100": ("librust-vt100-dev", True), "alacritty": ("librust-alacritty-terminal-dev", True)}
CRATES = {"vt100": 'vt100 = "0.15"', "alacritty": 'alacritty_terminal = "0.17"'}
SECOND_CELL = 0xFFFFFFFF  # of a character of two cells, in libvterm


class Asked(NamedTuple):
    """What a terminal is started as."""

    encoding: str = "dec"
    terminal: str = "vt220"
    columns: int = 80
    rows: int = 24

    def options(self):
        return ["--encoding", self.encoding, "--terminal", self.terminal, "--size", f"{self.columns}x{self.rows}"]


def text_of(lines):
    return "".join(line.rstrip(" ") + "\n" for line in lines)


def drawn(captured, rows):
    """Returns the first lines without attributes and sizes of lines. A line drawing character is its code of Special Graphics, between SO and SI."""
    plain = re.sub(r"\x1b(\[[-0-9;:]*m|#[3-6])|\r|\uffff", "", captured)
    text = re.sub("\x0e([^\x0f]*)\x0f?", lambda codes: "".join(GRAPHICS.get(code, code) for code in codes[1]), plain)
    return text_of(text.replace("\x0f", "").split("\n")[:rows])


def shown_by_vt220(data, asked):
    sys.path.insert(0, str(TOP / "lib/python"))
    from vt220 import Terminal

    terminal = Terminal(asked.encoding, asked.terminal, rows=asked.rows, columns=asked.columns)
    terminal.feed(data)
    return terminal.text()


def shown_by_pyte(data, asked):
    import pyte

    screen = pyte.Screen(asked.columns, asked.rows)
    stream = pyte.ByteStream(screen)
    stream.select_other_charset("G" if asked.encoding == "utf-8" else "@")
    stream.feed(data)
    return text_of(screen.display)


class Cell(ctypes.Structure):
    """libvterm's VTermScreenCell."""

    _fields_ = [("chars", ctypes.c_uint32 * 6), ("width", ctypes.c_char), ("attributes", ctypes.c_uint32), ("colours", ctypes.c_uint32 * 2)]

    def text(self):
        code = self.chars[0]
        return "" if code == SECOND_CELL else chr(code) if 0 < code < 0x110000 else " "


class Pos(ctypes.Structure):
    """libvterm's VTermPos, which is passed by value."""

    _fields_ = [("row", ctypes.c_int), ("col", ctypes.c_int)]


def libvterm(asked):
    """Returns libvterm, a terminal of it, and its screen, which isn't reset."""
    vterm = ctypes.CDLL("libvterm.so.0")
    vterm.vterm_new.restype = vterm.vterm_obtain_screen.restype = ctypes.c_void_p
    terminal = ctypes.c_void_p(vterm.vterm_new(asked.rows, asked.columns))
    vterm.vterm_set_utf8(terminal, asked.encoding == "utf-8")
    screen = ctypes.c_void_p(vterm.vterm_obtain_screen(terminal))
    vterm.vterm_screen_enable_altscreen(screen, asked.terminal == "xterm")
    return vterm, terminal, screen


def shown_by_libvterm(data, asked):
    vterm, terminal, screen = libvterm(asked)
    vterm.vterm_screen_reset(screen, 1)
    vterm.vterm_input_write(terminal, data, ctypes.c_size_t(len(data)))

    def text(row, column, cell):
        vterm.vterm_screen_get_cell(screen, Pos(row, column), ctypes.byref(cell))
        return cell.text()

    return text_of("".join(text(row, column, Cell()) for column in range(asked.columns)) for row in range(asked.rows))


def built(name):
    """Builds NAME.rs over its crate, of Debian's registry, if it isn't built. Returns the program."""
    source, folder = HERE / f"{name}.rs", TOP / "out/peers" / name
    program = folder / "target/release/screen"
    for part in ("src", ".cargo"):
        (folder / part).mkdir(parents=True, exist_ok=True)
    with open(folder / "lock", "w") as lock:
        fcntl.flock(lock, fcntl.LOCK_EX)  # one call builds, and the others wait for it
        if not program.exists() or source.stat().st_mtime > program.stat().st_mtime:
            (folder / "src/main.rs").write_text(source.read_text())
            (folder / "Cargo.toml").write_text('[package]\nname = "screen"\nversion = "0.1.0"\nedition = "2021"\n[workspace]\n[profile.release]\nlto = true\n'
                                               f"codegen-units = 1\n[dependencies]\n{CRATES[name]}\n")
            (folder / ".cargo/config.toml").write_text('[source.crates-io]\nreplace-with = "debian"\n[source.debian]\ndirectory = "/usr/share/cargo/registry"\n')
            subprocess.run(["cargo", "build", "--release", "--offline", "--quiet"], cwd=folder, stdout=sys.stderr, check=True)
    return program


def shown_by_rust(name):
    return lambda data, asked: subprocess.run([built(name), f"{asked.columns}x{asked.rows}"], input=data, stdout=subprocess.PIPE, check=True).stdout.decode()


@contextlib.contextmanager
def tmux():
    """Starts a server of tmux without settings, in a directory. Gives a call of its commands, and the directory."""
    with tempfile.TemporaryDirectory() as work:
        environment = {name: value for name, value in os.environ.items() if name != "TMUX"} | {"LC_ALL": "C.UTF-8"}

        def run(*words):
            return subprocess.run(["tmux", "-f", "/dev/null", "-S", f"{work}/socket", *words], env=environment, check=True, capture_output=True, text=True).stdout

        # A session that keeps the server while options are set.
        run("new-session", "-d", "-s", "first", "exec sleep infinity", ";", "set", "-g", "status", "off", ";", "set", "-g", "history-limit", "100000")
        try:
            yield run, pathlib.Path(work)
        finally:
            run("kill-server")


def shown_by_tmux(data, asked, words=""):
    """Returns the screen when the input is played, and the screen hasn't changed for 20 looks at it, which take longer on a busy machine."""
    with tmux() as (run, work):
        (work / "input").write_bytes(data)
        # A pane whose program ends may lose the program's last bytes, so this one keeps running.
        command = f"stty raw -echo; cat {work}/input; : >{work}/done; exec sleep infinity"
        run("new-session", "-d", "-s", "hold", "-x", str(asked.columns), "-y", str(asked.rows), f"{words} sh -c {shlex.quote(command)}")
        shown, looks = None, 0
        while looks < 20:
            time.sleep(0.02)
            now = run("capture-pane", "-p", "-e", "-t", "hold")
            shown, looks = now, looks + 1 if now == shown and (work / "done").exists() else 0
    return drawn(shown, asked.rows)


def shown_by_screen(data, asked):
    """GNU screen is shown in tmux, since its hardcopy has one byte for each cell. Its outer terminal is named a VT100, so that it moves only whole lines."""
    with tempfile.TemporaryDirectory() as sockets:
        pathlib.Path(sockets, "rc").write_text("startup_message off\nvbell off\n")
        words = f"env TERM=vt100 SCREENDIR={sockets} screen -U -c {sockets}/rc -S hold"
        try:
            return shown_by_tmux(data, asked, words)
        finally:
            subprocess.run(["screen", "-S", "hold", "-X", "quit"], env={**os.environ, "SCREENDIR": sockets, "LC_ALL": "C.UTF-8"}, stdout=subprocess.DEVNULL)


@contextlib.contextmanager
def x_server(size="2400x1400x8"):
    """Starts an X server without a screen, and gives the name of its display."""
    reading, writing = os.pipe()
    words = ["Xvfb", "-displayfd", str(writing), "-screen", "0", size, "-nolisten", "tcp"]
    started = subprocess.Popen(words, pass_fds=[writing], stderr=subprocess.DEVNULL)
    os.close(writing)
    try:
        with os.fdopen(reading) as told:
            yield ":" + told.readline().strip()
    finally:
        started.terminate()
        started.wait()


def run_in_xterm(command, asked, display, folder, **resources):
    """Runs a command in xterm in a folder, until it has ended. As a VT220 xterm may change its columns."""
    resources |= {"c132": "true"} if asked.terminal == "vt220" else {}
    words = ["xterm", *(["-ti", "vt220"] if asked.terminal == "vt220" else []), "-u8" if asked.encoding == "utf-8" else "+u8", "+sb", "-fn", "fixed",
             "-geometry", f"{asked.columns}x{asked.rows}", *(word for name, value in resources.items() for word in ("-xrm", f"XTerm*{name}: {value}")), "-e"]
    environment = {**os.environ, "DISPLAY": display, "LC_ALL": "C" if asked.encoding == "dec" else "C.UTF-8"}
    subprocess.run([*words, *command], cwd=folder, env=environment, check=True, timeout=300)


def shown_by_xterm(data, asked):
    """Without UTF-8 its national sets are on (DECNRCM). Its screen is what it prints (DECPEX, MC). CAN ends a sequence that the input doesn't end."""
    script = (r"stty raw -echo; cat input; printf '\030\033[?19h\033[i'; "
              'while [ ! -e page ] || [ "$(wc -l <page)" -lt "$1" ]; do sleep 0.01; done')
    with x_server() as display, tempfile.TemporaryDirectory() as work:
        pathlib.Path(work, "input").write_bytes((b"\033[?42h" if asked.encoding == "dec" else b"") + data)
        run_in_xterm(["sh", "-c", script, "sh", str(asked.rows)], asked, display, work, printerCommand="cat >page", printerAutoClose="true", printAttributes="1")
        return drawn(pathlib.Path(work, "page").read_bytes().decode(errors="replace"), asked.rows)


TERMINALS = {"vt220": shown_by_vt220, "xterm": shown_by_xterm, "libvterm": shown_by_libvterm, "pyte": shown_by_pyte, "tmux": shown_by_tmux,
             "screen": shown_by_screen, "vt100": shown_by_rust("vt100"), "alacritty": shown_by_rust("alacritty")}


def main():
    parser = argparse.ArgumentParser(description=__doc__, formatter_class=argparse.RawDescriptionHelpFormatter)
    parser.add_argument("name", choices=TERMINALS)
    parser.add_argument("--encoding", choices=("dec", "utf-8"), default="dec")
    parser.add_argument("--terminal", choices=("vt220", "xterm"), default="vt220")
    parser.add_argument("--size", default="80x24", metavar="COLUMNSxROWS")
    words = parser.parse_args()
    asked = Asked(words.encoding, words.terminal, *map(int, words.size.split("x")))
    sys.stdout.buffer.write(TERMINALS[words.name](sys.stdin.buffer.read(), asked).encode())


if __name__ == "__main__":
    main()
