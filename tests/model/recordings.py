"""A second reader of recordings, by docs/SPECIFICATION.md alone: 'Recordings', and the moments of 'The program'. JSON is read by Python."""
import codecs
import collections
import json
import re

CAST_KINDS = {"o": "output", "i": "input", "m": "marker", "r": "size", "x": "exit"}
NOTE_KINDS = {(b"S", b"SIGWINCH"): "size", (b"H", b"EXIT_CODE"): "exit"}
TIMED = re.compile(rb"(?:([OI]) )?(\d{1,9}(?:\.\d+)?) (\d{1,9})")
NOTE = re.compile(rb"([SH]) (\d{1,9}(?:\.\d+)?) (.*)", re.DOTALL)
SECONDS = re.compile(r"(\d{1,9})(?:\.(\d+))?(?:[eE]-(\d{1,2}))?")
FIRST, LAST = b"Script started on ", rb"\nScript done on [^\n]*(?<!\r)\n"
WINDOW = re.compile(rb"(\d{1,9})x(\d{1,9})|ROWS=(\d{1,9}) COLS=(\d{1,9})")
# An event has its time in microseconds, what it is, how many bytes of output come before it, and its bytes.
Event = collections.namedtuple("Event", "time kind place bytes")
# A number of JSON is as it is written.
Number = type("Number", (str,), {})


class Recording:
    """The events of a recording, the terminal and the window that its first line names, and the part and the place at which it breaks its format."""

    def __init__(self, has_times=True):
        self.has_times, self.events, self.broken, self.terminal, self.window = has_times, [], None, None, None
        self.clock = self.written = 0

    def add(self, time, kind, text):
        """Adds an event, or none if it has no kind. The clock never falls."""
        self.clock = max(self.clock, time)
        if kind:
            self.events.append(Event(self.clock, kind, self.written, text))
            self.written += len(text) if kind == "output" else 0

    def name(self, term, *sizes):
        """Keeps what the first line names: a TERM or None, and two numbers as it has them."""
        self.terminal = term and ("vt220" if re.match("vt[0-9]", term) else "xterm")
        if all(isinstance(number, str) and re.fullmatch("[0-9]{1,9}", number) for number in sizes):
            self.window = tuple(map(int, sizes))


def json_of(data):
    """Returns what JSON in UTF-8 has, with its numbers as they are written. Raises ValueError if it has another form."""
    value = json.loads(data.decode(), parse_int=Number, parse_float=Number, parse_constant=int)
    json.dumps(value, ensure_ascii=False).encode()
    return value


def object_of(data):
    """Returns an object of JSON that has a number as its version, or an empty one if these bytes are none."""
    try:
        value = json_of(data)
    except ValueError:
        return {}
    return value if isinstance(value, dict) and isinstance(value.get("version"), Number) else {}


def event_of(values, named=True):
    """Returns the microseconds, the kind and the bytes of an event of JSON. Raises ValueError or TypeError if it has another form."""
    seconds, code, text = values if named else (values[0], "o", *values[1:])
    match = SECONDS.fullmatch(seconds if isinstance(seconds, Number) else "")
    if not isinstance(values, list) or not match or not type(code) is type(text) is str:
        raise ValueError(values)
    whole, decimals, places = (part or "" for part in match.groups())
    return int(whole + decimals) * 10**6 // 10 ** (len(decimals) + int(places or 0)), CAST_KINDS.get(code), text.encode()


def asciicast(data):
    found, front = Recording(), re.match(rb"(?:\xef\xbb\xbf)?[ \t\r\n]*", data).end()
    line, _, lines = data[front:].partition(b"\n")
    heading = object_of(line)
    if heading.get("version") not in ("2", "3"):
        heading = object_of(data[front:])
        if heading.get("version") != "1" or not isinstance(heading.get("stdout"), list):
            found.broken = ("recording", 0)
            return found
    version = heading["version"]
    env, names = (heading.get("term"), ("type", "cols", "rows")) if version == "3" else (heading.get("env"), ("TERM", "width", "height"))
    env = env if isinstance(env, dict) else {}
    term, sizes = env.get(names[0]), map((env if version == "3" else heading).get, names[1:])
    found.name(term if type(term) is str and term else "xterm", *(size if isinstance(size, Number) else None for size in sizes))
    clock, at = 0, 0 if version == "1" else front + len(line) + 1
    for one in heading["stdout"] if version == "1" else lines.split(b"\n"):
        if version == "1" or one and not (version == "3" and one.startswith(b"#")):
            try:
                micros, kind, text = event_of(one, named=False) if version == "1" else event_of(json_of(one))
            except (ValueError, TypeError, LookupError):
                found.broken = ("recording", at)
                break
            clock = micros if version == "2" else clock + micros
            found.add(clock, kind, text)
        at += 0 if version == "1" else len(one) + 1
    return found


def ttyrec(data):
    found, at = Recording(), 0
    while at < len(data):
        seconds, micros, length = (int.from_bytes(data[at + part:at + part + 4], "little") for part in (0, 4, 8))
        if at + 12 + length > len(data):
            found.broken = ("recording", at)
            break
        time = seconds * 10**6 + micros
        first = time if at == 0 else first
        found.add(time - first, "output", data[at + 12:at + 12 + length])
        at += 12 + length
    return found


def script(data, timing=None):
    found, begin = Recording(timing is not None), data.find(b"\n") + 1
    if not data.startswith(FIRST) or not begin:
        found.add(0, None if found.has_times else "output", b"")
        found.broken = ("recording", 0)
        return found
    line = data[:begin - 1].decode(errors="replace")
    if line.endswith('"]'):
        term, *sizes = (line.rpartition(f'{name}="')[2].partition('"')[0] if f'{name}="' in line else None for name in ("TERM", "COLUMNS", "LINES"))
        found.name(term or None, *sizes)
    appended = re.search(LAST + FIRST, data[begin:])
    last = appended or re.search(LAST + rb"\Z", data[begin:])
    end = begin + last.start() if last else len(data)
    if timing is not None:
        play_timing(found, data[begin:end], end, timing)
        return found
    found.add(0, "output", data[begin:end])
    found.broken = ("recording", end) if appended else None
    return found


def play_timing(found, session, end, timing):
    clock = at = place = 0
    logs = [re.search(rb"^H [\d.]+ " + name + b"_LOG ([^\n]*)", timing, re.M) for name in (b"OUTPUT", b"INPUT")]
    is_apart = all(logs) and logs[0][1] != logs[1][1]
    for line in timing.split(b"\n"):
        timed, note = TIMED.fullmatch(line), NOTE.fullmatch(line)
        if timed or note:
            seconds, _, decimals = (timed or note)[2].partition(b".")
            clock += int(seconds) * 10**6 + int(decimals[:6].ljust(6, b"0"))
        elif line:
            found.broken = ("timing", at)
            break
        if note:
            name, _, text = note[3].partition(b" ")
            found.add(clock, NOTE_KINDS.get((note[1], name)), text)
        if timed:
            count = 0 if timed[1] == b"I" and is_apart else int(timed[3])
            if place + count > len(session):
                found.broken = ("recording", end)
                break
            found.add(clock, "input" if timed[1] == b"I" else "output", session[place:place + count])
            place += count
        at += len(line) + 1


def raw(data):
    found = Recording(has_times=False)
    found.add(0, "output", data)
    return found


FORMATS = {"asciicast": asciicast, "ttyrec": ttyrec, "script": script, "raw": raw}


def number_at(recording, kind, number):
    """Returns at which event a moment is, from 0: the first one that isn't before it. One that the recording doesn't reach is its end."""
    if kind in ("event", "marker"):
        reached = [at for at, event in enumerate(recording.events) if kind in ("event", event.kind)][number - 1:]
    else:
        reached = [at for at, event in enumerate(recording.events) if (event.time if kind == "time" else event.place) >= number]
    return min(reached, default=len(recording.events))


def events(recording, begin, end):
    """Returns the events between two moments. A moment is None, or 'time', 'bytes', 'event' or 'marker' with its number."""
    last = number_at(recording, end[0], end[1] + (end[0] == "time")) + (end[0] in ("event", "marker")) if end else None
    return recording.events[number_at(recording, *begin) if begin else 0:last]


def shows_utf8(content):
    """Returns whether content is UTF-8 with a character beyond ASCII. The last character may be cut."""
    try:
        return not codecs.getincrementaldecoder("utf-8")().decode(content).isascii()
    except UnicodeDecodeError:
        return False


def content(recording, begin, end):
    """Returns the host's bytes between two moments."""
    places = [event.place for event in recording.events] + [recording.written] * 2
    first = begin[1] if begin and begin[0] == "bytes" else places[number_at(recording, *begin)] if begin else 0
    last = end[1] if end and end[0] == "bytes" else places[len(events(recording, None, end))]
    return b"".join(event.bytes for event in recording.events if event.kind == "output")[first:last]


def steps(recording, end):
    """Returns what a command plays up to a moment: bytes, and between them changes of the size, as pairs of rows and columns."""
    left, played = len(content(recording, None, end)), []
    for event in events(recording, None, end):
        if event.kind == "output":
            played.append(event.bytes[:left])
            left -= len(played[-1])
        elif event.kind == "size" and (window := WINDOW.fullmatch(event.bytes)):
            size = int(window[2] or window[3]), int(window[1] or window[4])
            played += [size] if all(2 <= number <= 255 for number in size) else []
    return played
