"""The recordings of tests: those that other programs wrote, and recordings of chunks. A chunk is a time in microseconds and bytes."""
import json
import pathlib
import struct

HERE = pathlib.Path(__file__).resolve().parent
RECORDINGS = HERE / "recordings"
XTERM = {"terminal": "xterm"}
# The window of most recordings that are made here, as columns and rows, and a terminal of that size.
WINDOW = (100, 30)
SIZED = {"columns": WINDOW[0], "rows": WINDOW[1]}
NARROW = (80, 24)
# What is played first of a recording that names 132 columns.
WIDENING = (0, b"\x1b[?3h")


def cast(made, version, window=WINDOW):
    """Returns a recording by asciinema of chunks, each of whole characters in UTF-8."""
    columns, rows = window
    size = {"width": columns, "height": rows, "env": {"TERM": "xterm-256color"}} if version == 2 else {"term": {"cols": columns, "rows": rows, "type": "xterm-256color"}}
    lines, last = [json.dumps({"version": version, **size})], 0
    for micros, data in made:
        lines.append(json.dumps([(micros - last if version == 3 else micros) / 1e6, "o", data.decode()]))
        last = micros
    return "\n".join(lines).encode() + b"\n"


def waits(made):
    """Returns the chunks with the time since the one before, in seconds."""
    return [(micros - last, data) for (micros, data), (last, _) in zip(made, [(0, b""), *made])]


def scripted(made, window=WINDOW):
    """Returns a recording by script of chunks."""
    return b'Script started on 2026-01-01 00:00:00+00:00 [TERM="xterm" TTY="/dev/pts/0" COLUMNS="%d" LINES="%d"]\n' % window + b"".join(data for _, data in made) + b"\nScript done on 2026-01-01 00:00:09+00:00\n"


def by_asciinema(name):
    """Reads a recording of version 2."""
    events = [json.loads(line) for line in (RECORDINGS / name).read_text().split("\n")[1:] if line]
    return [(round(1e6 * time), text.encode()) for time, code, text in events if code == "o"]


def by_ttyrec(name):
    data, at, made, begin = (RECORDINGS / name).read_bytes(), 0, [], None
    while at < len(data):
        seconds, micros, size = struct.unpack_from("<III", data, at)
        begin = (seconds * 10**6 + micros) if begin is None else begin
        made.append((seconds * 10**6 + micros - begin, data[at + 12 : at + 12 + size]))
        at += 12 + size
    return made


def by_script(name):
    """Reads a recording in either form of the timing file: a letter, seconds and bytes, or only these two."""
    data, now, made = (RECORDINGS / f"{name}.typescript").read_bytes().split(b"\n", 1)[1], 0, []
    for words in (line.split() for line in (RECORDINGS / f"{name}.timing").read_text().split("\n")):
        if len(words) == 2 or words[:1] in (["O"], ["I"]):
            now, size = now + round(1e6 * float(words[-2])), int(words[-1])
            made += [] if words[0] == "I" else [(now, data[:size])]
            data = data[size:]
    return made


def version_1(made):
    """Returns chunks as a recording by asciinema of version 1: one value, in which each time counts from the one before."""
    about = {"version": 1, "width": 80, "height": 24, "duration": made[-1][0] / 1e6, "command": "sh", "title": "of 1", "env": {"TERM": "xterm-256color"}}
    return json.dumps({**about, "stdout": [[wait / 1e6, data.decode()] for wait, data in waits(made)]}, indent=1).encode()


def recordings():
    """Returns the recordings by other programs: the name, the words of the tool, the bytes, the chunks, and the terminal's options."""
    first, wide = by_asciinema("asciinema.cast"), {"script": [], "script-both": [WIDENING]}
    rows = [("asciinema", "asciinema.cast", [], first, XTERM), ("asciinema-wide", "asciinema-wide.cast", [], by_asciinema("asciinema-wide.cast"), {**XTERM, **SIZED}),
            ("ttyrec", "ttyrec.ttyrec", [], by_ttyrec("ttyrec.ttyrec"), {}),
            *((name, f"{name}.typescript", ["--timing", RECORDINGS / f"{name}.timing"], wide[name] + by_script(name), {}) for name in wide)]
    made = [(name, words, (RECORDINGS / file).read_bytes(), chunks, options) for name, file, words, chunks, options in rows]
    return made + [("asciinema", [], version_1(first), first, XTERM), ("asciinema", [], cast(first, 3, NARROW), first, XTERM)]
