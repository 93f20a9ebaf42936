"""The rows of lib/rows that are of the program: what it prints, and how it ends. The head of lib/rows/words.txt describes a row."""
import json
import os
import subprocess
import time

import pytest
from vectors import lines_of, spelled

LISTS = ("words.txt", "command-line.txt", "recordings.txt", "traces.txt", "logs.txt", "views.txt", "windows.txt")
FIELDS = {"out", "err", "out begins", "err begins", "names", "scrolled", "status"}


def rows_of(name):
    """Yields the rows of a list: the words, the input, the values of its fields by their names, and the bytes of each file."""
    parts = {}
    for title, *fields in lines_of(name):
        if title.startswith("\\{"):
            parts[title[2:-1]] = spelled(fields[0], parts)
            continue
        words, sent, *fields = fields
        sent = spelled(sent, parts)
        named = {of: spelled(value, parts | {"input": sent}) for of, value in (field.split("=", 1) for field in fields)}
        files = {of.removeprefix("file "): named.pop(of) for of in list(named) if of.startswith("file ")}
        assert named.keys() <= FIELDS, f"{name}: {title}: no such field"
        yield pytest.param(words.split(), sent, named, files, id=f"{name}: {title}")


ROWS = [row for name in LISTS for row in rows_of(name)]


def names_in(trace):
    """Returns the names of the events of a trace, as a row has them."""
    names = [line.split(b"\t")[1] for line in trace.splitlines()]
    return b", ".join(name for name in names if name != b"report")


def test_no_two_rows_have_the_same_name():
    assert len({row.id for row in ROWS}) == len(ROWS)


@pytest.mark.parametrize("words, sent, wanted, files", ROWS)
def test_row(run, tmp_path, words, sent, wanted, files):
    for name, content in files.items():
        (tmp_path / name).write_bytes(content)
    is_whole = not sent or any(word.startswith("--piece") for word in words)
    for pieces in ([],) if is_whole else ([], ["--piece", "1"], ["--piece", "7"]):
        done = run("", *words[:1], *pieces, *words[1:], data=sent, cwd=tmp_path)
        assert done.status == int(wanted.get("status", b"0"))
        for name, found in (("out", done.out), ("err", done.err)):
            if f"{name} begins" in wanted:
                assert found.startswith(wanted[f"{name} begins"])
            elif name == "out" and "names" in wanted:
                assert names_in(found) == wanted["names"]
            elif name == "out" and "scrolled" in wanted:
                assert found == wanted["scrolled"] + run("text", *pieces, *words[1:], data=sent, cwd=tmp_path).out
            else:
                assert found == wanted.get(name, b"")


# tmux cuts the main page by the program's cursor under ?47 (docs/SPECIFICATION.md, 'A change of the size').
CUT_BY_TMUX = "windows.txt: window: ?47 with DECSC, lower to the end"
WINDOWS = [pytest.param(row.values[1], id=row.id) for row in ROWS if row.id.startswith("windows.txt") and row.id != CUT_BY_TMUX]


def kept(lines, cursor, column):
    """Returns the lines up to the cursor's, its column, and the lines below it without blank ones at the end."""
    lines = [line.rstrip() for line in lines]
    return lines[:cursor], column, "\n".join(lines[cursor:]).rstrip("\n")


def kept_by_tmux(place, header, events):
    """Returns what tmux keeps when it plays a recording and its window changes at the same places."""
    env = {name: value for name, value in os.environ.items() if name != "TMUX"} | {"LC_ALL": "C.UTF-8"}

    def run(*words):
        return subprocess.run(["tmux", "-f", place / "conf", "-S", place / "socket", *map(str, words)], env=env, check=True, capture_output=True, text=True).stdout

    (place / "conf").write_text("set -g status off\nset -g history-limit 1000\n")
    os.mkfifo(place / "host")
    run("new-session", "-d", "-x", header["width"], "-y", header["height"], f"stty raw -echo; cat {place}/host; exec sleep infinity")
    try:
        with open(place / "host", "wb", buffering=0) as host:
            for number, (_, kind, text) in enumerate(events):
                if kind == "r":
                    columns, rows = text.split("x")
                    run("resize-window", "-x", columns, "-y", rows)
                    continue
                # The title comes after the text, so tmux has then played it.
                host.write(f"{text}\033]2;{number}\033\\".encode())
                while run("display-message", "-p", "#{pane_title}").strip() != str(number):
                    time.sleep(0.01)
            history, row, column = map(int, run("display-message", "-p", "#{history_size} #{cursor_y} #{cursor_x}").split())
            return kept(run("capture-pane", "-p", "-S", "-", "-E", "-").split("\n")[:-1], history + row + 1, column + 1)
    finally:
        run("kill-server")


@pytest.mark.parametrize("sent", WINDOWS)
def test_window_next_to_tmux(told, tmp_path, sent):
    """A shell whose window changes while a program is shown: its lines, its cursor and what is below that are as in tmux."""
    header, *events = map(json.loads, sent.decode().splitlines())
    rows = [int(text.split("x")[1]) for _, kind, text in events if kind == "r"][-1]
    lines = told("log --format asciicast", data=sent).decode().split("\n")[:-1]
    row, column = map(int, told("status --format asciicast", data=sent).split(b"\n")[0].split()[1:])
    assert kept(lines, len(lines) - rows + row, column) == kept_by_tmux(tmp_path, header, events)
