"""Compares the plain reader of recordings and the plain traces with the program, on generated recordings.

Some recordings break their format. Each is played by a command, whole or up to a moment, or is listed between two moments. The moments are those of
its events, or next to them. The replays, the log and the trace carry out the changes of the size.
"""
import json
import struct
import subprocess

import inputs
import recordings
import traces
from terminal import size_of

COUNT = 1000
COMMANDS = ["events"] * 3 + ["content"] * 2 + ["trace"] * 3 + ["text", "status", "log", "log", "reports"]
TERMS = ["xterm", "vt220", "xterm-256color", "vt100", "vt", "", None, 7]
# Parts of lines of asciinema, of which few are events together, and lines that it and a timing file seldom or never have.
FRONTS = ['[0.25, "o", "'] * 3 + ['["1", "o", "', '[-1, "o", "', '[15e-1,"o", "', '[1E1, "o", "', '[01, "o", "', '[1., "o", "', '[1234567890, "o", "', '[1e-100, "o", "', '[1, o, "', '["o", "', '[1, "o", ["', ""]
TEXTS = ["b", "\\ud83d", "\\ud83d\\ude00", "\\u00e9", "\t", "\\u001b[5G", '\\"', '"', "\\x", "\x1f"]
ENDS = ['"]'] * 6 + ['"],', '" ]\r', '", 1]', '"', "]", '"]"]']
ODD_LINES = ["", "\r", "# note"]
ODD_TIMES = ["", "x", "0.1", "0.1 ", "-0.1 1", "Q 0.1 1", "O 0.1 1 ", "O 0.1 1\r", "0.1 1\r", "S 0.2 SIGWINCH ROWS=5 COLS=", "H 0.1 OUTPUT_LOG a", "S 0.1", "0.1  1", "I 0.1 99999999", "O 1. 1", "O 1e-1 1"]


class RecordingChance(inputs.XtermChance):
    """Makes recordings."""

    now, numbers = 0, inputs.XtermChance.numbers | {"r": [0, 1, 2, 3, 5, 10, 20, 23, 24, 25, 30]}

    def piece(self):
        return self.with_known_widths(b"".join(self.part() for _ in range(self.choice([0, 1, 1, 2, 4]))))

    def seconds(self, is_interval):
        """Returns a number of seconds. A time seldom falls."""
        past = 0 if is_interval else self.now
        self.now = max(past + self.choice([0, 1, 500000, self.randrange(3000000), *([] if is_interval else [-700000, -1])]), 0)
        number = f"{self.now // 10**6}.{self.now % 10**6:06}"
        return self.choice([number, number + "9", number.rstrip("0").rstrip(".")])

    def window(self):
        return self.choice([self.randint(2, 90)] * 9 + [80, 1, 255, 256]), self.choice([self.randint(2, 30)] * 9 + [24, 2, 1])

    def event(self, is_interval):
        """Returns a line of an event, or sometimes another line."""
        if self.random() < 0.08:
            return self.choice([*ODD_LINES, *[self.choice(FRONTS) + self.choice(TEXTS) + self.choice(ENDS)] * 9])
        code, size = self.choice("oooooimmrrrrxzO"), "%dx%d" % self.window()
        texts = {"o": [self.piece().decode(errors="replace")], "r": [size] * 12 + ["x", f"{size}x", f"+{size}"]}.get(code, ["", "0", "a\tb\x7f", "é"])
        return f"[{self.seconds(is_interval)}, {json.dumps(code)}, {json.dumps(self.choice(texts), ensure_ascii=self.random() < 0.5)}]"

    def asciicast(self):
        version, (columns, rows), term, count = self.choice([1, 2, 2, 3, 3]), self.window(), self.choice(TERMS), self.randrange(12)
        heading = {"version": version, "width": columns, "height": rows, "env": {"TERM": term}}
        if version == 3:
            heading = {"version": 3, "term": {"cols": columns, "rows": rows, "type": term}}
        if version > 1:
            return "\n".join([json.dumps(heading, indent=self.choice([None] * 20 + [1])), *(self.event(version == 3) for _ in range(count)), ""]).encode()[:self.choice([None, None, -1])]
        frames = [[float(self.seconds(True)), self.piece().decode(errors="replace")] for _ in range(count)] + self.choice([[]] * 9 + [[["1", "x"]]])
        return json.dumps(heading | {"stdout": frames}, indent=self.choice([None, 1])).encode()

    def ttyrec(self):
        frames = b""
        for piece in [self.piece() for _ in range(self.randrange(6))]:
            self.seconds(False)
            frames += struct.pack("<III", self.now // 10**6, self.now % 10**6, len(piece)) + piece
        return frames

    def script(self):
        """Returns a recording by script(1), and its timing file."""
        end, is_typed, terminal = b"\nScript done on y\n", self.random() < 0.6, 'TERM="%s" TTY="/dev/pts/0" COLUMNS="%d" LINES="%d"]\n' % (self.choice(TERMS), *self.window())
        begin = b"Script started on x" + self.choice(["\n", f" [{terminal}", f' [COMMAND="TERM="vt220" a" {terminal}']).encode()
        pieces = [self.piece() + self.choice([b"", b"", b"\n", end, b"\r\nScript done on y\r\n"]) for _ in range(self.randrange(6))]
        times = [f"H 0 OUTPUT_LOG a\nH 0 INPUT_LOG {self.choice('ab')}"] if is_typed and self.random() < 0.3 else []
        for piece in pieces:
            times.append(f"{self.choice('OOOI') + ' ' if is_typed else ''}{self.seconds(True)} {len(piece)}")
            note = self.choice(["S {} SIGWINCH ROWS=%d COLS=%d" % self.window()[::-1], "H {} EXIT_CODE 0", "H {} NAME a b"]).format(self.seconds(True))
            times += [note] * (is_typed and self.random() < 0.5) + [self.choice(ODD_TIMES)] * (self.random() < 0.12)
        ends = [end, end, b"", b"\n", b"\nScript done on y", end + begin + b"b" + end]
        return begin + b"".join(pieces) + self.choice(ends), "\n".join([*times, ""]).encode()

    def recording(self):
        """Returns a format, the bytes of a recording, and its timing file or None."""
        form, timing = self.choice(["asciicast"] * 3 + ["ttyrec", "script", "script", "script", "raw"]), None
        data = self.piece() if form == "raw" else getattr(self, form)()
        if form == "script":
            data, timing = data[0], self.choice([None, data[1], data[1]])
        at = self.randrange(len(data) + 1)
        return form, self.choice([data] * 20 + [data[:at], data[:at] + data[at + 1:], data[:at] + bytes([self.randrange(256)]) + data[at:]]), timing

    def moment(self, recording):
        """Returns a moment, and how it is written."""
        kind = self.choice(["event", "marker", "bytes"] + ["time"] * recording.has_times)
        event = self.choice(recording.events or [recordings.Event(0, "output", 0, b"")])
        number = self.randint(1, 1 + sum(kind in ("event", one.kind) for one in recording.events))
        if kind == "time":
            number = max(event.time + self.choice([-1, 0, 0, 1]), 0)
            return (kind, number), self.choice([f"{number // 60000000}:{number // 10**6 % 60}", f"{number // 10**6}"]) + f".{number % 10**6:06}"
        if kind == "bytes":
            number = max(event.place + self.choice([-1, 0, 0, 1, 2, len(event.bytes)]), 0)
        return (kind, number), f"{number}b" if kind == "bytes" else f"{kind}:{number}"


def table(recording, events, is_full):
    """Returns the lines that `events` writes."""
    lines = [f"terminal\t{recording.terminal}\n"] if is_full and recording.terminal else []
    lines += ["window\t%d\t%d\n" % recording.window] if is_full and recording.window else []
    for event in events:
        time = f"{event.time // 10**6}.{event.time % 10**6:06}" if recording.has_times else "-"
        text = "\t" + traces.shown(event.bytes) if is_full or event.kind != "output" else ""
        lines.append(f"{time}\t{event.kind}\t{event.place}\t{len(event.bytes)}{text}\n")
    return "".join(lines + (["broken\t%s\t%d\n" % recording.broken] if is_full and recording.broken else []))


def played(recording, form, words, steps):
    """Returns what a command writes of what it plays."""
    is_utf8 = form == "asciicast" or "--encoding" in words or form != "raw" and recordings.shows_utf8(recordings.content(recording, None, None))
    name = "xterm" if recording.terminal == "xterm" or "--terminal" in words else "utf-8" if is_utf8 else "dec"
    size = recording.window[::-1] if recording.window and all(2 <= number <= 255 for number in recording.window) else (24, 80)
    model = {"dec": traces.TracedTerminal, "utf-8": traces.TracedUtf8, "xterm": traces.TracedXterm}[name](size_of(*size))
    if words[0] == "trace":
        return model.trace(steps)
    model.left_by_resizes = model.scrolled_off
    reports = model.play(steps)
    status = f"cursor {model.row} {model.column}\nwrap {'yes' if model.wrap_flag() else 'no'}\nmargins {model.top} {model.bottom}\nheld {model.held()}\nreports {len(reports)}\n"
    return {"reports": reports, "text": model.text(), "status": status, "log": "".join(model.scrolled_off) + model.text()}[words[0]]


def wanted(chance, form, recording):
    """Chooses a command. Returns its words, and what it writes."""
    command, begin, end = chance.choice(COMMANDS), None, None
    words = [command]
    if chance.random() < 0.7:
        end, spelled = chance.moment(recording)
        words += ["--until", spelled]
    if command not in ("events", "content"):
        words += chance.choice([[], [], ["--encoding", "utf-8"], ["--terminal", "xterm"]])
        return words, played(recording, form, words, recordings.steps(recording, end))
    if chance.random() < 0.6:
        begin, spelled = chance.moment(recording)
        words += ["--from", spelled]
    if command == "content":
        return words, recordings.content(recording, begin, end)
    words += chance.choice([[], ["--full"]])
    return words, table(recording, recordings.events(recording, begin, end), "--full" in words)


def test_recordings(program, seeds, tmp_path):
    """The program writes what the model does, and says of a break what it does."""
    for seed in seeds:
        chance = RecordingChance(seed)
        form, data, timing = chance.recording()
        recording = recordings.FORMATS[form](data, *([] if timing is None else [timing]))
        words, out = wanted(chance, form, recording)
        part, place = recording.broken or (None, 0)
        fault = f"vt220: the {part.replace('timing', 'timing file')} is broken at byte {place}" if part else ""
        (tmp_path / "timing").write_bytes(timing or b"")
        more = ["--format", form, "--quiet", *(["--timing", tmp_path / "timing"] if timing is not None else [])]
        done = subprocess.run([program, *words, *more], input=data, capture_output=True)
        found = done.stdout, done.stderr.decode().partition("\n")[0]
        assert found == (out if isinstance(out, bytes) else out.encode(), fault), f"seed {seed}: {' '.join(words)}\n{data}\ntiming {timing}"
