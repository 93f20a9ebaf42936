"""Tests the element <vt220-player> of the package in pages of others."""
import base64
import hashlib
import json
import random
import struct
import subprocess

import pytest
import vt220
from browsers import Chromium, Firefox
from recorded import NARROW, RECORDINGS, cast, recordings, scripted, waits
from server import HELD, PACKAGE, PAGE, ROOT
from vt220.page import page as page_of, recording, side_by_side

SHOWN = "[...root.querySelectorAll('#screen > div')].map((row) => row.textContent.trimEnd() + '\\n').join('')"
# How much of a file the element reads before the first frame.
BEGINNING = 1 << 18


def shown(data, **options):
    terminal = vt220.Terminal(**options)
    terminal.feed(data)
    return terminal


def spoken(*texts):
    """Returns a recording of texts, each a second after the one before: its bytes and its chunks."""
    return b"".join(texts), [(i * 10**6, len(text)) for i, text in enumerate(texts)]


def given(page, source, told="ready"):
    """Gives the player `a` a recording, and waits until it tells of it."""
    page.evaluate(f"events.length = 0, see('a'), (host.src = {source}, true)")
    page.wait(f"events.some(([where, what]) => where === 'a' && what === '{told}') && see('a')")


def test_several(page, server):
    """Ten players have one module, which is fetched and compiled once."""
    texts = [f"recording {i}".encode() for i in range(10)]
    for i, text in enumerate(texts):
        server.data(f"{i}.json", *spoken(text, b"\r\nlater"))
    server.asked.clear()
    before = "<script>window.compiled = 0; const { compile } = WebAssembly; WebAssembly.compile = (...words) => (compiled += 1, compile(...words));</script>"
    page.go(server.page("several.html", "".join(f'<vt220-player id="p{i}" src="{i}.json"></vt220-player>' for i in range(10)), before))
    page.wait(f"ready({', '.join(repr(f'p{i}') for i in range(10))})")
    for i, text in enumerate(texts):
        assert page.evaluate(f"see('p{i}') && {SHOWN}") == shown(text).text(), f"the first screen of player {i}"
    assert page.evaluate("compiled") == 1 and server.asked["/vt220/vt220.wasm"] == 1, f"one module: {server.asked}"
    assert max(server.asked.values()) == 1, f"each file is fetched once: {server.asked}"
    page.evaluate("see('p3') && host.seek(1)")
    assert page.evaluate(SHOWN) == shown(texts[3] + b"\r\nlater").text() and page.evaluate(f"see('p4') && {SHOWN}") == shown(texts[4]).text(), "one of them moves"


def test_calls(page, server):
    """Properties, attributes, methods and events have asciinema-player's names."""
    server.data("calls.json", *spoken(b"one", b"two", b"three", b"four"), markers=[[1, "first"], [2, "second"]], speed=2, start=1, poster=3)
    page.go(server.page("calls.html", '<vt220-player id="a" src="calls.json"></vt220-player><vt220-player id="b" src="calls.json" start="2" poster="npt:0:01" speed="0.5" idle-limit="7" '
                                      'loop="3" pause-on-markers markers=\'[0.5, [1.5, "x"]]\'></vt220-player>'))
    page.wait("ready('a', 'b')")
    kept = "[view.player.speed, view.player.from, view.player.now, view.player.longestPause, view.player.loops, view.player.stops, view.player.markers]"
    assert page.evaluate(f"see('a') && {kept}") == [2, 1, 3, 1, 0, False, [1, 2]], f"the recording's options: {page.evaluate(kept)}"
    assert page.evaluate(f"see('b') && {kept}") == [0.5, 2, 1, 7, 3, True, [0.5, 1.5]], f"the attributes: {page.evaluate(kept)}"
    properties = "[host.startAt, host.poster, host.speed, host.idleTimeLimit, host.loop, host.pauseOnMarkers, host.markers, host.autoPlay, host.src]"
    assert page.evaluate(properties) == [2, 1, 0.5, 7, 3, True, [[0.5, ""], [1.5, "x"]], None, "calls.json"], f"the properties: {page.evaluate(properties)}"
    page.evaluate("host.speed = 3, host.loop = true, host.autoPlay = false, host.pauseOnMarkers = false")
    attributes = "['speed', 'loop', 'autoplay', 'pause-on-markers'].map((name) => host.getAttribute(name))"
    assert page.evaluate(attributes) == ["3", "", None, None] and page.evaluate("view.player.speed") == 3, f"properties that are set: {page.evaluate(attributes)}"
    asks = [("seek(2.5)", 2.5), ("seek('0:01')", 1), ("seek('50%')", 1.5), ("seek({ marker: 'next' })", 2), ("seek({ marker: 'prev' })", 1), ("seek({ marker: 1 })", 2), ("seek(99)", 3)]
    page.evaluate("see('a')")
    for asked, time in asks:
        page.evaluate(f"host.{asked}")
        assert page.evaluate("host.getCurrentTime()") == time, f"{asked}: {page.evaluate('host.getCurrentTime()')}"
    assert page.evaluate("host.getDuration()") == 3, "the duration"
    page.evaluate("events.length = 0, host.seek(0.5).then(() => host.play())")
    page.evaluate("view.player.advance(0.3)")
    page.evaluate("host.pause()")
    page.evaluate("view.player.play(), view.player.advance(9)")
    told = page.evaluate("events.map(([, event, time]) => [event, time])")
    assert [event for event, _ in told] == ["seeked", "play", "marker", "pause", "play", "marker", "ended"] and told[2][1] == 1, f"events: {told}"
    assert [span["time"] for span in page.evaluate("host.search('three')")] == [2], "a search"


def test_sources(page, server):
    """A recording comes from a file, from bytes, from inside of the element, or with its times; and says if it is none."""
    text = recording(*spoken(b"made of a file"), "of a file")
    inside = f"""<vt220-player id="inside"><script type="application/json">{text}</script></vt220-player>"""
    page.go(server.page("sources.html", inside + '<vt220-player id="a"></vt220-player><vt220-player id="none" src="none.json"></vt220-player><vt220-player id="odd" src="odd.json"></vt220-player>'))
    page.wait("ready('inside') && ['none', 'odd'].every((id) => events.some(([where, what]) => where === id && what === 'error'))")
    assert page.evaluate(f"see('inside') && {SHOWN}").startswith("made of a file\n"), "a recording inside of the element"
    assert page.evaluate("see('none') && root.getElementById('said').textContent").startswith("The recording can't be fetched."), "an address that leads nowhere"
    for made in (f"new Blob([{json.dumps(text)}])", f"new TextEncoder().encode({json.dumps(text)})", f"new TextEncoder().encode({json.dumps(text)}).buffer",
                 "{ bytes: new TextEncoder().encode('made of a file'), times: [0], ends: [14] }"):
        given(page, made)
        assert page.evaluate(SHOWN).startswith("made of a file\n"), f"a recording that is {made[:30]}"
    page.evaluate("host.remove()")
    assert page.evaluate("host.view") is None, "an element that is removed"


SAID = "root.getElementById('said').textContent"


def test_wrong(page, server):
    """A wrong attribute is named, and so are an empty address, a page in place of a recording, and a search of a live player."""
    server.data("right.json", *spoken(b"one", b"two"))
    (server.place / "other.html").write_text("<!doctype html><title>no recording</title>")
    attribute, size = "An attribute is wrong. ({0} isn't {1})", "An attribute is wrong. (a screen has 2 to 255 rows of 2 to 255 columns, not {})"
    is_wrong = {
        'speed="x"': "a number above 0", 'speed="0"': "a number above 0", 'start="abc"': "a time, as 12.5 or 1:30", 'poster="1:x"': "a time, as 12.5 or 1:30", 'loop="x"': "empty or a number of times",
        'rows="x"': "a whole number of 0 or more", 'cols="-5"': "a whole number of 0 or more", 'markers="[5"': 'a list in JSON, as [5, [25, "label"]]', 'markers="[null]"': 'a list in JSON, as [5, [25, "label"]]',
        'terminal="vt100"': "one of vt220, xterm", 'encoding="latin1"': "one of dec, utf-8", 'fit="all"': "one of width, height, both", 'idle-limit="-1"': "a number of seconds",
    }  # fmt: skip
    rows = [(f'src="right.json" {each}', attribute.format(each, what)) for each, what in is_wrong.items()]
    rows += [('src="right.json" rows="1"', size.format("1 of 80")), ('src="right.json" cols="256"', size.format("24 of 256")), ('src=""', 'An attribute is wrong. (src="" names no recording)'),
             ('src="other.html"', "The recording can't be fetched. (other.html is a page in HTML, and no recording)")]
    page.go(server.page("wrong.html", "".join(f'<vt220-player id="w{i}" {words}></vt220-player>' for i, (words, _) in enumerate(rows)) + '<vt220-player id="live" live></vt220-player>'))
    page.wait(f"ready('live') && events.filter(([, event]) => event === 'error').length === {len(rows)}")
    for i, (words, wanted) in enumerate(rows):
        said = page.evaluate(f"see('w{i}') && {SAID}")
        assert said == wanted, f"{words}: {said}"
    page.evaluate("see('w0') && (events.length = 0, host.speed = 2)")
    page.wait("ready('w0') && see('w0')")
    said = page.evaluate(f"(host.setAttribute('speed', 'y'), [{SAID}, view.player.speed])")
    assert said == ['speed="y" isn\'t a number above 0', 2], f"an attribute that becomes wrong: {said}"
    said = page.evaluate("document.getElementById('live').search('x').then(() => '', String)")
    assert said == "TypeError: a live player shows only the present, and searches nothing", f"a search of a live player: {said}"


STATE = "[host.getCurrentTime(), view.player.isPlaying]"


def test_changes(page, server):
    """Attributes that change are carried out. A recording that is read again, and an element that is moved, goes on at its moment."""
    server.data("changes.json", *spoken(b"one", b"two", b"three", b"four"))
    page.go(server.page("changes.html", '<vt220-player id="a" src="changes.json"></vt220-player><div id="other"></div>'))
    page.wait("ready('a') && see('a')")
    assert page.evaluate("events.map(([, event]) => event)") == ["ready"], f"ready is the first event: {page.evaluate('events')}"
    assert page.evaluate("(host.poster = 3, host.getCurrentTime())") == 3, "a poster, before it plays"
    page.evaluate("host.seek(2)")
    page.evaluate("(host.poster = 0, host.loop = 2, host.markers = [0.5, [1.5, 'x']], host.idleTimeLimit = 7, host.pauseOnMarkers = true)")
    state = page.evaluate("[host.getCurrentTime(), view.player.loops, view.player.markers, view.player.longestPause, view.player.stops, [...root.querySelectorAll('#markers button')].map((each) => each.textContent)]")
    assert state == [2, 2, [0.5, 1.5], 7, True, ["0:00.5", "0:01.5 x"]], f"properties that are set later: {state}"
    assert page.evaluate("(host.markers = null, host.pauseOnMarkers = null, view.player.markers)") == [], "and taken back"
    page.evaluate("(events.length = 0, host.rows = 30, true)")
    page.wait("ready('a') && see('a')")
    assert page.evaluate(f"[{SIZE}, {STATE}]") == [[30, 80], [2, False]], f"another size: {page.evaluate(SIZE)}, {page.evaluate(STATE)}"
    for is_playing in (False, True):
        place = "document.body" if is_playing else "document.getElementById('other')"
        page.evaluate(f"(host.speed = 1e-6, {str(is_playing).lower()} && view.toggle(), events.length = 0, {place}.append(host), true)")
        page.wait("ready('a') && see('a')")
        now, plays = page.evaluate(STATE)
        assert 2 <= now < 2.1 and plays == is_playing, f"an element that is moved: {now}, {plays}"
    page.evaluate("(view.player.pause(), host.speed = 1, view.player.loops = 2, view.player.go(0), events.length = 0, view.player.play(), [1, 2, 3].forEach(() => view.player.advance(9)), true)")
    told = page.evaluate("events.map(([, event]) => event)")
    assert told == ["play", "seeked", "seeked", "ended"], f"the ends of three turns: {told}"


CHUNKS = "Array.from({ length: view.line.chunks }, (_, i) => [Math.round(view.line.time(i) * 1e6), view.line.end(i)])"
NOTES = "[...root.querySelectorAll('#notes li')].map((item) => item.textContent)"


def ended(chunks):
    """Returns chunks as the element has them: the time and the end of each."""
    made, end = [], 0
    for micros, data in chunks:
        end += len(data)
        made += [[micros, end]] if data else []
    return made


# What a recording decides: what is played, and how.
DECIDED = f"[{CHUNKS}, {NOTES}, view.options.terminal, view.options.encoding, view.options.pause, view.options.markers]"


def test_readings(page, server):
    """The element reads recordings itself: it plays the bytes that other readers give, at their times, and ends with the screen that tmux shows."""
    rows, players = recordings(), ""
    for i, (_, words, data, _, _) in enumerate(rows):
        (server.place / f"r{i}").write_bytes(data)
        if words:
            (server.place / f"r{i}.timing").write_bytes(words[1].read_bytes())
        (server.place / f"p{i}").write_bytes(subprocess.run([ROOT / "apps/page/vt220-page", "--data", server.place / f"r{i}", *words], capture_output=True, check=True).stdout)
        players += f'<vt220-player id="p{i}" src="p{i}"></vt220-player>'
        players += f'<vt220-player id="r{i}" src="r{i}"{f""" timing="r{i}.timing" """ if words else ""}></vt220-player>'
    server.asked.clear()
    page.go(server.page("readings.html", players))
    page.wait(f"ready({', '.join(f'{chr(39)}{kind}{i}{chr(39)}' for kind in 'rp' for i in range(len(rows)))})")
    assert server.asked["/vt220/reader.wasm"] == 1, f"one reader: {server.asked}"
    for i, (name, words, _, chunks, options) in enumerate(rows):
        page.evaluate(f"see('r{i}') && host.seek('100%')")
        assert page.evaluate(CHUNKS) == ended(chunks), f"the chunks of {name}, {i}"
        assert page.evaluate("view.line.terminal.terminal") == options.get("terminal", "vt220"), f"the terminal of {name}, {i}"
        assert page.evaluate(SHOWN) == (RECORDINGS / f"{name}.screen").read_text(), f"the end of {name}, {i}"
        page.evaluate("host.loaded.then(() => host.noted)")
        read = page.evaluate(DECIDED)
        page.evaluate(f"see('p{i}') && host.loaded.then(() => host.noted).then(() => host.seek('100%'))")
        assert page.evaluate(DECIDED) == read and page.evaluate(SHOWN) == (RECORDINGS / f"{name}.screen").read_text(), f"what vt220-page writes of {name}, {i}, plays in the same way"
        page.evaluate(f"see('r{i}')")
        if name == "asciinema-wide":
            assert page.evaluate("view.player.longestPause") == 1.5, "the idle limit of the header"
            assert page.evaluate(NOTES) == ["Colours aren't shown."], f"notes: {page.evaluate(NOTES)}"


def test_given(page, server):
    """A recording comes as a file, as bytes and inside of the element, too, and a timing file as a file. What has no times has some."""
    text, made = '{"version": 2, "width": 80, "height": 24}\n[0.5, "o", "one"]\n[1.5, "m", "here"]\n[2.5, "o", "two"]\n', [(0, b"one"), (2 * 10**6, b"two")]
    inside = f'<vt220-player id="inside"><script type="application/x-asciicast">{text}</script></vt220-player>'
    page.go(server.page("given.html", inside + '<vt220-player id="a"></vt220-player>'))
    page.wait("ready('inside') && see('inside')")
    assert page.evaluate(CHUNKS) == [[500000, 3], [2500000, 6]] and page.evaluate("view.options.markers") == [[1.5, "here"]], "a recording inside of the element"
    as_text = json.dumps(text)
    for made_by in (f"new Blob([{as_text}])", f"new TextEncoder().encode({as_text})", f"new TextEncoder().encode({as_text}).buffer"):
        given(page, made_by)
        assert page.evaluate(CHUNKS) == [[500000, 3], [2500000, 6]], f"a recording that is {made_by[:30]}"
    given(page, f"(host.timing = new Blob(['0 3\\n2 3\\n']), new Blob([{json.dumps(scripted(made).decode())}]))")
    assert page.evaluate(CHUNKS) == [[0, 3], [2000000, 6]], f"a timing file that is given: {page.evaluate(CHUNKS)}"
    data = "café ".encode() * 30
    given(page, f"(host.timing = null, Uint8Array.from({list(data)}))")
    wanted = [(50000 * (i + 1), data[48 * i : 48 * i + 48]) for i in range(-(-len(data) // 48))]
    assert page.evaluate(CHUNKS) == ended(wanted), "bytes without times are played as over a line of 9600 baud"
    notes = page.evaluate(f"host.loaded.then(() => host.noted).then(() => {NOTES})")
    assert notes == ["It has no times, and is played as over a line of 9600 baud."], f"notes: {notes}"
    page.evaluate(f"events.length = 0, host.setAttribute('encoding', 'dec'), (host.src = Uint8Array.from({list(data)}), true)")
    page.wait("ready('a') && see('a')")
    assert page.evaluate("host.seek('100%').then(() => view.line.terminal.rowText(1))").startswith("cafÃ© cafÃ©"), "an encoding that is asked for"
    notes = page.evaluate(f"host.loaded.then(() => host.noted).then(() => {NOTES})")
    assert notes[1:] == ["Its bytes look like UTF-8, which a VT220 doesn't read."], f"notes: {notes}"
    page.evaluate("host.removeAttribute('encoding')")
    broken = cast(made, 2) + b'[9, "o", 7]\n'
    given(page, f"Uint8Array.from({list(broken)})")
    assert page.evaluate(NOTES)[-1] == f"It breaks its format at byte {len(cast(made, 2))}. What follows isn't shown.", f"a recording that breaks its format: {page.evaluate(NOTES)}"
    # Events that are shorter than most: the reader needs more room for them than it takes first.
    small = b'{"version": 2, "width": 80, "height": 24}\n' + b'[0,"o","."]\n' * 5000
    given(page, f"Uint8Array.from({list(small)})")
    assert page.evaluate("[view.line.chunks, view.line.length]") == [5000, 5000], "many small events"
    for bad, reason in ((b"\x1f\x8b\x08\0\0\0", "it is compressed: decompress it first"), (b'{"version": 9}\n[0.5, "o", "x"]\n', "it is by asciinema, of version 9, which isn't known")):
        given(page, f"Uint8Array.from({list(bad)})", "error")
        assert page.evaluate("root.getElementById('said').textContent") == f"The recording can't be read. ({reason})", f"refused: {page.evaluate('root.getElementById(`said`).textContent')}"


# Bytes, and whether they are UTF-8 with a character beyond ASCII. The last character may be cut (RFC 3629).
ENCODED = [(b"", False), (b"cafe", False), (b"caf\xc3\xa9", True), (b"caf\xe9", False), (b"caf\xc3", False), (b"\xc3\xa9\xe2\x94", True), (b"\xc3\xa9\xe9 ", False), (b"\xef\xbb\xbf", True),
           (b"\xc3\xa9\xc0\xaf", False), (b"\xc3\xa9\xe0\x80", False), (b"\xed\xa0\x80", False), (b"\xf0\x9f\x98\x80", True), (b"\xf4\x90\x80\x80", False), (b"x" * (2**20 - 1) + b"\xc3\xa9", True)]


def test_contents(page, server):
    """The content decides on UTF-8 if nothing else does: of a ttyrec, of script, and of bytes, for the element and for vt220-page."""
    page.go(server.page("contents.html", ""))
    rows = json.dumps([[base64.b64encode(data).decode(), is_utf8] for data, is_utf8 in ENCODED])
    wrong = page.evaluate("import('/vt220/src/reading.js').then(({ showsUtf8 }) => "
                          f"{rows}.map(([data, is]) => showsUtf8(Uint8Array.from(atob(data), (c) => c.charCodeAt(0))) === is).map((is, i) => is ? -1 : i).filter((i) => i >= 0))")
    assert wrong == [], f"what is UTF-8: the rows {wrong}"
    texts, players, files = [b"caf\xc3\xa9 \xe2\x94", b"\x82!"], "", []
    for i, content in enumerate((texts, [*texts, b"\xff."])):
        data, script = b"".join(content), b"Script started on 2026-01-01 00:00:00+00:00%s\n%s\nScript done on 2026-01-01 00:00:09+00:00\n"
        named = script % (b' [TERM="vt220" TTY="/dev/pts/0" COLUMNS="80" LINES="24"]', data)
        files += [(f"c{i}.ttyrec", b"".join(struct.pack("<III", 100 + at, 0, len(part)) + part for at, part in enumerate(content)), None, data), (f"c{i}", data, None, data),
                  (f"c{i}.script", script % (b"", data), None, data), (f"t{i}.script", named, "".join(f"1 {len(part)}\n" for part in content), data)]
    # The first frame of a large file is of its beginning, which doesn't show what the whole does.
    files.append(("large", b"plain\r\n" * 50000 + b"\xc3\xa9", None, b"plain\r\n" * 50000 + b"\xc3\xa9"))
    for name, data, timing, _ in files:
        (server.place / name).write_bytes(data)
        words = [] if timing is None else ["--timing", server.place / f"{name}.timing"]
        if words:
            words[1].write_text(timing)
        (server.place / f"{name}.json").write_bytes(subprocess.run([ROOT / "apps/page/vt220-page", "--data", server.place / name, *words], capture_output=True, check=True).stdout)
        players += f'<vt220-player id="{name}" src="{name}"{f""" timing="{name}.timing" """ if words else ""}></vt220-player><vt220-player id="{name}.json" src="{name}.json"></vt220-player>'
    page.go(server.page("contents.html", players))
    page.wait("ready(...[...document.querySelectorAll('vt220-player')].map(({ id }) => id))")
    for name, _, _, data in files:
        wanted = shown(data, encoding="dec" if data.endswith(b"\xff.") else "utf-8").text()
        for each in (name, f"{name}.json"):
            found = page.evaluate(f"see('{each}') && host.seek('100%').then(() => {SHOWN})")
            assert found == wanted, f"the content of {each} decides: {found[:20]!r}"


def test_typing(page, server):
    """What was typed is told by events, and shown if that is wanted. A control's own event isn't told."""
    rows = [[0.5, "o", "$ "], [1, "i", "l"], [1.25, "i", "s\x7f"], [2, "i", "\x1b[A\x1bOB\x03\r"], [3, "o", "end"], [9, "i", "q"]]
    text = '{"version": 2, "width": 80, "height": 24}\n' + "".join(json.dumps(row) + "\n" for row in rows)
    (server.place / "typed.cast").write_text(text)
    page.go(server.page("typed.html", '<vt220-player id="a" src="typed.cast" keystrokes></vt220-player><vt220-player id="b" src="typed.cast"></vt220-player>'))
    page.wait("ready('a', 'b')")
    names = "[...root.querySelectorAll('#typed:not([hidden]) kbd')].map((key) => key.textContent)"
    for time, wanted in ((0, []), (1, ["l"]), (1.25, ["l", "s", "Backspace"]), (2.6, ["s", "Backspace", "↑", "↓", "Ctrl+C", "Enter"])):
        shown = page.evaluate(f"see('a') && host.seek({time}).then(() => {names})")
        assert shown == wanted, f"the keys at {time}: {shown}"
    page.evaluate("see('b') && host.seek(1)")
    assert page.evaluate(names) == [], "they aren't shown by default"
    assert page.evaluate(f"(host.keystrokes = true, {names})") == ["l"] and page.evaluate(f"(host.keystrokes = false, {names})") == [], "the property"
    page.evaluate("events.length = 0, host.seek(0.9).then(() => (view.player.play(), (view.player.skips = false), view.player.advance(1), view.player.pause()))")
    told = [[time, data] for _, event, time, data in page.evaluate("events") if event == "input"]
    assert told == [[1, "l"], [1.25, "s\x7f"]], f"what was typed: {told}"
    page.evaluate("events.length = 0, root.getElementById('needle').dispatchEvent(new Event('input', { bubbles: true, composed: true }))")
    told = page.evaluate("new Promise((resolve) => { let count = 0; host.addEventListener('input', () => count++); root.getElementById('time').dispatchEvent(new Event('input', { bubbles: true, composed: true })); resolve(count); })")
    assert told == 0, "a control's own event isn't told"


def sound(seconds):
    """Returns silence as a file of WAVE."""
    data = bytes(8000 * seconds)
    return b"RIFF" + struct.pack("<I", 36 + len(data)) + b"WAVEfmt " + struct.pack("<IHHIIHH", 16, 1, 1, 8000, 8000, 1, 8) + b"data" + struct.pack("<I", len(data)) + data


def test_sounds(page, server):
    """The sound of a recording goes along with it. Pauses aren't skipped then."""
    server.data("sounds.json", *spoken(*[b"%d " % i for i in range(20)]))
    # A browser seeks only in what its server sends in parts, or in an address that has the data.
    address = f"data:audio/wav;base64,{base64.b64encode(sound(8)).decode()}"
    page.go(server.page("sounds.html", f'<vt220-player id="a" src="sounds.json" audio-url="{address}" speed="2"></vt220-player><vt220-player id="b" src="sounds.json"></vt220-player>',
                        "<script>window.played = 0; HTMLMediaElement.prototype.play = function () { played += 1; return Promise.resolve(); };</script>"))
    page.wait("ready('a', 'b') && see('a') && view.sound.audio.readyState > 0")
    assert page.evaluate("[host.audioUrl, view.player.skips, root.getElementById('skip').checked]") == [address, False, False], "pauses aren't skipped"
    assert page.evaluate("see('b') && [view.sound, view.player.skips]") == [None, True], "no sound"
    state = "[view.sound.audio.currentTime, view.sound.audio.playbackRate, view.sound.audio.paused]"
    assert page.evaluate(f"see('a') && host.seek(3).then(() => {state})") == [3, 2, True], f"the sound at a moment: {page.evaluate(state)}"
    page.evaluate("view.player.play()")
    count = page.evaluate("played")
    assert count > 0, "it plays"
    page.evaluate("host.seek(12)")
    assert page.evaluate("[played, view.sound.audio.paused]") == [count, True], "it has ended"


def test_signs(page, server):
    """Characters that fonts lack are drawn, each in a cell of the same width. What is selected is the characters."""
    chart = "\x1b(0" + "".join(map(chr, range(0x62, 0x6A))) + "opqrs\x1b(B"
    server.data("signs.json", *spoken(b"abc\r\n" + chart.encode() + b"\r\n\x1a\x1b[7m\x1a\x1b[m!"))
    page.go(server.page("signs.html", '<vt220-player id="a" src="signs.json"></vt220-player>'))
    page.wait("ready('a') && see('a')")
    drawn = page.evaluate("[...root.querySelectorAll('.sign')].map((sign) => [sign.textContent, sign.matches('.scan') ? Number(sign.style.getPropertyValue('--scan')) : sign.dataset.first + sign.dataset.second])")
    assert "none" not in page.evaluate("[...root.querySelectorAll('.sign')].map((sign) => getComputedStyle(sign, '::before').content)"), "something is drawn"
    # By the manual's chart of special graphics: HT, FF, CR, LF, NL, VT, and scan lines 1, 3, 7 and 9. Line 5 is that of boxes.
    wanted = [["␉", "HT"], ["␌", "FF"], ["␍", "CR"], ["␊", "LF"], ["␤", "NL"], ["␋", "VT"], ["⎺", 1], ["⎻", 3], ["⎼", 7], ["⎽", 9], ["␦", "?"], ["␦", "?"]]
    assert drawn == wanted, f"what is drawn: {drawn}"
    widths = page.evaluate("(() => { const range = document.createRange(), row = root.querySelector('#screen > div').firstChild; range.setStart(row, 0), range.setEnd(row, 1); const one = range.getBoundingClientRect().width;"
                           " return [...root.querySelectorAll('.sign')].map((sign) => Math.abs(sign.getBoundingClientRect().width - one)); })()")
    assert max(widths) < 0.1, f"the widths: {widths}"
    tops = page.evaluate("[...root.querySelectorAll('.scan')].map((sign) => parseFloat(getComputedStyle(sign, '::before').top))")
    assert tops == sorted(tops) and len(set(tops)) == 4, f"the scan lines: {tops}"
    assert page.evaluate("[...root.querySelectorAll('.sign')].every((sign) => getComputedStyle(sign).webkitTextFillColor === 'rgba(0, 0, 0, 0)')"), "the text of a sign isn't seen"


def test_keys(chromium, server):
    """A player has the keys only while it has the focus."""
    server.data("keys.json", *spoken(b"one", b"two", b"three"))
    chromium.go(server.page("keys.html", '<button id="own">Own</button><vt220-player id="a" src="keys.json"></vt220-player><vt220-player id="b" src="keys.json"></vt220-player>'))
    chromium.wait("ready('a', 'b')")
    times = "['a', 'b'].map((id) => document.getElementById(id).getCurrentTime())"
    for focus, wanted in (("document.getElementById('own')", [0, 0]), ("document.getElementById('b')", [0, 2]), ("document.getElementById('a')", [2, 2])):
        chromium.evaluate(f"{focus}.focus()")
        chromium.press("End")
        assert chromium.evaluate(times) == wanted, f"the key End at {focus}: {chromium.evaluate(times)}"
    scales = []
    for key in "+--":
        chromium.press(key, text=key)
        scales.append(chromium.evaluate("document.getElementById('a').view.scale"))
    assert scales[0] > 1 == scales[1] > scales[2], f"the keys + and -: {scales}"


def test_looks(page, server):
    """Custom properties change the colours and the least size, and controls change the size."""
    server.data("looks.json", *spoken(b"one \x1b[7mtwo\x1b[m"))
    page.go(server.page("looks.html", '<style>#b { --vt220-background: rgb(1, 2, 3); --vt220-foreground: rgb(4, 5, 6); --vt220-least: 30px }</style><div style="width: 300px">'
                                      '<vt220-player id="a" src="looks.json"></vt220-player></div><vt220-player id="b" src="looks.json"></vt220-player>'))
    page.wait("ready('a', 'b')")
    styles = "(({ backgroundColor, color, fontSize }) => [backgroundColor, color, parseFloat(fontSize)])(getComputedStyle(root.getElementById('screen')))"
    assert page.evaluate(f"see('b') && {styles}") == ["rgb(1, 2, 3)", "rgb(4, 5, 6)", 30], f"a theme: {page.evaluate(styles)}"
    reverse = page.evaluate("(({ backgroundColor, color }) => [backgroundColor, color])(getComputedStyle(root.querySelector('.r')))")
    assert reverse == ["rgb(4, 5, 6)", "rgb(1, 2, 3)"], f"reverse video of a theme: {reverse}"
    size = "parseFloat(getComputedStyle(root.getElementById('screen')).fontSize)"
    assert page.evaluate(f"see('a') && {size}") == 12, "the least size in a narrow place"
    page.evaluate("'larger '.repeat(9).trim().split(' ').forEach((id) => root.getElementById(id).click())")
    assert page.evaluate(size) > 20, f"larger text: {page.evaluate(size)}"
    page.evaluate("'smaller '.repeat(9).trim().split(' ').forEach((id) => root.getElementById(id).click())")
    assert page.evaluate(size) == 6, f"smaller text: {page.evaluate(size)}"


# The whole screen can be seen, and the screen is neither over the controls nor outside of the element.
WHOLE = "(({ scrollWidth, scrollHeight, clientWidth, clientHeight }) => scrollWidth <= clientWidth + 1 && scrollHeight <= clientHeight + 1)(root.getElementById('screen'))"
APART = "(([screen, controls]) => screen.bottom <= controls.top && screen.right <= host.getBoundingClientRect().right)(['screen', 'controls'].map((id) => root.getElementById(id).getBoundingClientRect()))"


def inside(page, server):
    """With fit="both" a large screen is whole, or scrolls inside of a place that is too small for its text."""
    places = {"small": (500, 300), "large": (900, 800)}
    page.go(server.page("inside.html", "".join(f'<div style="width: {width}px; height: {height}px"><vt220-player id="{name}" src="fits.json" fit="both" rows="40" cols="120"></vt220-player></div>'
                                               for name, (width, height) in places.items())))
    page.wait("ready('small', 'large')")
    for name, (_, height) in places.items():
        state = page.evaluate(f"see('{name}') && [{APART}, {WHOLE}, host.offsetHeight, parseFloat(getComputedStyle(root.getElementById('screen')).fontSize)]")
        assert state[:3] == [True, name == "large", height] and state[3] >= 6, f"40 rows of 120 columns in a {name} place: {state}"


def test_fits(page, server):
    """The screen is as large as the width of the element allows, as its height does, or both."""
    server.data("fits.json", *spoken(b"one"))
    places = {"wide": (1500, 500), "high": (500, 900)}
    page.go(server.page("fits.html", "".join(f'<div style="width: {width}px; height: {height}px"><vt220-player id="{name}-{fit}" src="fits.json" fit="{fit}" style="--vt220-least: 1px"></vt220-player></div>'
                                             for name, (width, height) in places.items() for fit in ("width", "height", "both"))))
    page.wait("ready(...[...document.querySelectorAll('vt220-player')].map(({ id }) => id))")
    sizes = {each: page.evaluate(f"see('{each}') && [host.offsetHeight, root.getElementById('screen').offsetHeight, parseFloat(getComputedStyle(root.getElementById('screen')).fontSize)]")
             for each in (f"{name}-{fit}" for name in places for fit in ("width", "height", "both"))}
    for each in ("wide-height", "wide-both", "high-height"):
        height, screen, _ = sizes[each]
        page.evaluate(f"see('{each}')")
        stage = page.evaluate("root.getElementById('stage').offsetHeight")
        least = stage - 17 if each.endswith("height") else stage - 1  # a scroll bar has its place
        assert height == places[each.split("-")[0]][1] and least <= screen <= stage + 1, f"{each} fills the height: {sizes[each]}, {stage}"
    inside(page, server)
    assert sizes["wide-height"][2] <= sizes["wide-both"][2] < sizes["wide-width"][2] and sizes["high-both"][2] == sizes["high-width"][2] < sizes["high-height"][2], f"the smaller size: {sizes}"


def test_searches(page, server):
    """A search is in a Worker, or on the page's thread if there is none or the page allows none. All of what wraps, of one case and of an expression is marked."""
    server.data("searches.json", *spoken(b"\x1b[5;78Hwrapped, Word\r\n", b"word 12 word", b"\x1b[2J"))
    before = "<script>window.workers = 0; const Own = Worker; window.Worker = function (...words) { workers += 1; return new Own(...words); };</script>"
    alone = "<script>delete window.Worker;</script>"
    typed = """<meta http-equiv="Content-Security-Policy" content="require-trusted-types-for 'script'; trusted-types vt220-player">"""
    wanted = {"wrapped": ("", ["wra", "pped"], [0]), "word": ("", ["Word", "word", "word"], [0]), "Word": ("case", ["Word"], [0]), "w\\w+ \\d+": ("expression", ["word 12"], [1])}
    for hook, count in ((before, 1), (alone, None), (typed, None)):
        page.go("about:blank")
        page.go(server.page("searches.html", '<vt220-player id="a" src="searches.json"></vt220-player>', hook))
        page.wait("ready('a') && see('a')")
        for text, (box, marks, times) in wanted.items():
            page.evaluate(f"['case', 'expression'].forEach((id) => (root.getElementById(id).checked = id === {box!r}))")
            spans = page.evaluate(f"host.search({json.dumps(text)})")
            page.evaluate("host.seek(1)")
            found = page.evaluate("[...root.querySelectorAll('mark')].map((mark) => mark.textContent)")
            assert [span["time"] for span in spans] == times and found == marks, f"a search for {text}: {spans}, {found}"
        assert count is None or page.evaluate("workers") == count, f"{count} Workers"
        page.evaluate("root.getElementById('expression').checked = true")
        assert page.evaluate("host.search('(').then(() => root.getElementById('said').textContent)").startswith("This expression can't be read"), "an expression that can't be read"


# Of what is unpacked, only the first part comes until the test lets the rest come.
PART_UNPACKED = """<script>
const Own = DecompressionStream;
window.hold = new Promise((resolve) => (window.release = resolve));
let made = 0;
window.DecompressionStream = function (kind) {
  const own = new Own(kind), isBytes = made++ % 2 === 1;
  let parts = 0;
  const held = new TransformStream({ transform: async (part, control) => (isBytes && parts++ > 0 && (await hold), control.enqueue(part)) });
  return { writable: own.writable, readable: own.readable.pipeThrough(held) };
};
</script>"""


def test_large(page, server):
    """The first frame is shown, and the controls can be used, before the whole recording has come."""
    texts = [b"the first frame", *[b"\r\n%d " % i + hashlib.sha256(b"%d" % i).hexdigest().encode() * 40 for i in range(800)], b"\r\nthe end"]
    server.data("large.json", *spoken(*texts))
    page.go(server.page("large.html", '<vt220-player id="a" src="large.json"></vt220-player>', PART_UNPACKED))
    page.wait("ready('a') && see('a')")
    assert page.evaluate(SHOWN).startswith("the first frame\n") and page.evaluate("!root.getElementById('controls').disabled"), "the first frame"
    assert page.evaluate("0 < view.line.available && view.line.available < view.line.length && host.getDuration() === 801"), "a part of the recording has come"
    page.evaluate("host.seek('100%')")
    assert "the end" not in page.evaluate(SHOWN), "the end hasn't come"
    page.evaluate("release(), host.loaded")
    assert "the end\n" in page.evaluate(SHOWN) and page.evaluate("view.line.available === view.line.length"), "the rest comes"


# Notes how many bytes the reader reads on the page's thread, and how many characters of base64 are unpacked before the first frame. A Worker gets
# nothing until the test lets it go on.
COUNTED = """<script>
const { instantiate } = WebAssembly, own = atob, Own = Worker;
Object.assign(window, { reads: [], characters: 0, goes: new Promise((resolve) => (window.goOn = resolve)) });
WebAssembly.instantiate = async (...words) => {
  const made = await instantiate(...words), { read } = made.exports;
  return read === undefined ? made : { exports: { ...made.exports, read: (at, size, ...more) => (reads.push(size), read(at, size, ...more)) } };
};
window.atob = (text) => ((characters += text.length), own(text));
window.Worker = class extends Own {
  postMessage(...words) {
    goes.then(() => super.postMessage(...words));
  }
};
addEventListener("ready", ({ target: { view } }) => (window.atFirst = { characters, played: view.line.position, known: view.line.length }), { capture: true });
</script>"""


def beginning(page, chunks):
    """The first frame of a file is shown, and its beginning plays, while the rest comes or is read."""
    total, first = sum(len(data) for _, data in chunks), b"".join(data for micros, data in chunks if micros == 0)
    page.wait("ready('a') && see('a')")
    assert page.evaluate(SHOWN) == shown(first).text(), "the first frame of a beginning"
    assert page.evaluate("reads.length === 1 && reads[0]") in range(BEGINNING // 2, BEGINNING + 1), f"what is read before: {page.evaluate('reads')}"
    counts = page.evaluate("atFirst")
    assert counts["played"] == len(first) and counts["known"] <= BEGINNING < total, f"what is played before: {counts}"
    assert page.evaluate("[host.getDuration(), root.getElementById('time').disabled, root.getElementById('controls').disabled, root.getElementById('said').textContent]") == [None, True, False, "Loading"], "the rest is missing"
    page.evaluate("host.play().then(() => (view.player.advance(1e6), window.sought = host.seek('100%'), true))")
    assert page.evaluate("[host.getCurrentTime() === view.line.duration, view.player.isPlaying, events.some(([, event]) => event === 'ended')]") == [True, True, False], "it waits at the end of the beginning"


def whole(page, chunks):
    """The whole file is played, as one that is small."""
    page.evaluate("(goOn(), host.loaded)")
    page.evaluate("sought.then(() => host.pause())")
    assert page.evaluate(CHUNKS) == ended(chunks), "the chunks of the whole"
    assert page.evaluate(SHOWN) == shown(b"".join(data for _, data in chunks)).text() and page.evaluate("host.getDuration()") == chunks[-1][0] / 1e6, "the end of the whole"
    assert page.evaluate("[root.getElementById('time').disabled, root.getElementById('said').textContent]") == [False, ""], "nothing is missing"
    assert page.evaluate("host.search('chunk 1499').then((spans) => spans.length)") == 1, "it is searched"


def test_beginnings(page, server):
    """Of a large file only the beginning comes and is read before the first frame: of all formats, and of a file, bytes, and what vt220-page wrote."""
    source = random.Random(6)
    made = [(10000 * i, b"\r\nchunk %d %s" % (i, source.randbytes(400).hex().encode())) for i in range(1500)]
    ttyrec = b"".join(struct.pack("<III", micros // 10**6, micros % 10**6, len(data)) + data for micros, data in made)
    data = b"".join(data for _, data in made)
    paced = [(50000 * (i + 1), data[48 * i : 48 * i + 48]) for i in range(-(-len(data) // 48))]
    (server.place / "timing").write_text("".join(f"{wait / 1e6:.6f} {len(data)}\n" for wait, data in waits(made)))
    casts = {f"cast-{version}": (cast(made, version, NARROW), made) for version in (2, 3)}
    files = {**casts, "ttyrec": (ttyrec, made), "raw": (data, paced), "script": (scripted(made, NARROW), made)}
    for name, (content, chunks) in files.items():
        (server.place / name).write_bytes(content)
        timing = ' timing="timing"' if name == "script" else ""
        server.goes_on.clear()
        page.go(server.page("held.html", f'<vt220-player id="a" src="held/{name}"{timing} terminal="vt220" encoding="dec"></vt220-player>', COUNTED))
        beginning(page, chunks)
        server.goes_on.set()
        whole(page, chunks)
    for given in ("blob", "arrayBuffer"):
        page.go(server.page("given-large.html", '<vt220-player id="a" terminal="vt220"></vt220-player>', COUNTED))
        page.evaluate(f"fetch('cast-2').then((answer) => answer.{given}()).then((file) => (document.getElementById('a').src = file, true))")
        beginning(page, made)
        whole(page, made)
    server.data("packed", data, [(micros, len(each)) for micros, each in made])
    server.goes_on.clear()
    page.go(server.page("held.html", '<vt220-player id="a" src="held/packed"></vt220-player>', COUNTED))
    page.wait("ready('a') && see('a')")
    counts = page.evaluate("atFirst")
    assert counts["characters"] < HELD and counts["played"] == len(made[0][1]) and counts["known"] == len(data), f"what is unpacked and played before: {counts}"
    assert page.evaluate("[host.getDuration(), view.line.available < view.line.length]") == [made[-1][0] / 1e6, True], "the rest of what vt220-page wrote is missing"
    server.goes_on.set()
    page.evaluate("host.loaded.then(() => (window.sought = host.seek('100%')))")
    whole(page, made)


# A recording whose window changes its size, and the last size at which no screen is.
RESIZED = """{"version": 2, "width": 100, "height": 30, "env": {"TERM": "vt220"}}
[1, "o", "a\\r\\nb\\r\\nc\\u001b[30;98Hxyz"]
[2, "r", "80x2"]
[3, "o", "d"]
[4, "r", "120x40"]
[4.5, "o", "\\u001b[40;118Hend"]
[5, "r", "1x10"]
"""
SIZE = "[root.querySelectorAll('#screen > div').length, view.line.terminal.width]"


def resized(steps):
    """Returns what a screen of 30 rows of 100 columns shows after texts and changes of its size, which are pairs."""
    terminal = vt220.Terminal(encoding="utf-8", rows=30, columns=100)
    for step in steps:
        terminal.resize(*step) if isinstance(step, tuple) else terminal.feed(step)
    return terminal.text()


def test_sizes(page, server):
    """A recording is played at the size of its window, and follows its changes. Attributes choose another size."""
    (server.place / "sized.cast").write_text(RESIZED)
    (server.place / "sized.json").write_bytes(subprocess.run([ROOT / "apps/page/vt220-page", "--data", server.place / "sized.cast"], capture_output=True, check=True).stdout)
    page.go(server.page("sizes.html", "".join(f'<vt220-player id="{name}" src="sized.{kind}" {words}></vt220-player>' for name, kind, words in
                                              [("a", "cast", ""), ("b", "json", ""), ("c", "cast", 'rows="40" cols="120"'), ("d", "json", 'cols="132"'), ("e", "cast", 'rows="1"')])))
    page.wait("ready('a', 'b', 'c', 'd') && events.some(([where, what]) => where === 'e' && what === 'error')")
    first, last = b"a\r\nb\r\nc\033[30;98Hxyz", b"\033[40;118Hend"
    wanted = {0: [[30, 100], []], 1: [[30, 100], [first]], 2: [[2, 80], [first, (2, 80)]], 3: [[2, 80], [first, (2, 80), b"d"]], 4: [[40, 120], [first, (2, 80), b"d", (40, 120)]],
              5: [[40, 120], [first, (2, 80), b"d", (40, 120), last]]}
    for name in "ab":
        page.evaluate(f"see('{name}')")
        for time in (0, 1, 2, 3, 4, 5, 2, 4, 1, 3, 0):
            size, steps = wanted[time]
            found = page.evaluate(f"host.seek({time}).then(() => [{SIZE}, {SHOWN}])")
            assert found == [size, resized(steps)], f"the screen of {name} at {time}: {found[0]}, not {size}"
        spans = page.evaluate("host.search('d').then((spans) => spans.map(({ time, until, row, column }) => [time, until ?? null, row, column]))")
        assert spans[:1] == [[3, None, 2, 1]], f"a search in {name}: {spans}"
        notes = page.evaluate(f"host.loaded.then(() => {NOTES})")
        assert len(notes) == 1 and notes[0].startswith("Its window changed its size once to one at which it isn't played."), f"notes of {name}: {notes}"
        assert page.evaluate("host.getDuration()") == 4.5 and page.evaluate("parseFloat(getComputedStyle(root.getElementById('screen')).getPropertyValue('--rows')) > 0"), f"the duration of {name}"
    for name, size, rest in (("c", [40, 120], "It is played at another size"), ("d", [24, 132], "It is played at another size")):
        assert page.evaluate(f"see('{name}') && host.seek(5).then(() => {SIZE})") == size, f"the size of {name}: {page.evaluate(SIZE)}"
        assert rest in page.evaluate(NOTES)[0], f"the notes of {name}: {page.evaluate(NOTES)}"
    assert "a screen has 2 to 255 rows" in page.evaluate("see('e') && root.getElementById('said').textContent"), "no such size"


def test_live_sizes(page, server):
    """A live player follows a size that its source names, and shows a terminal of any size."""
    for address in ("/events", server.url.replace("http", "ws") + "socket"):
        screen = vt220.Terminal(rows=40, columns=120)
        screen.feed(b"\033[40;118Hend")
        page.go("about:blank")
        page.go(server.page("live-sizes.html", f'<vt220-player id="a" live="{address}"></vt220-player>'))
        server.lines.put(b"one")
        page.wait("ready('a') && see('a')")
        server.lines.put("120x40")
        server.lines.put(screen.repaint())
        page.wait(f"{SHOWN} === {json.dumps(screen.text())}")
        assert page.evaluate(SIZE) == [40, 120], f"the size: {page.evaluate(SIZE)}"
        page.evaluate("host.remove()")
        server.lines.put(None)
    module = '<script type="module">import { Terminal } from "/vt220/src/vt220.js"; window.Terminal = Terminal;</script>'
    page.go(server.page("live-shown.html", '<vt220-player id="a" live rows="30" cols="100"></vt220-player>', module))
    page.wait("ready('a') && see('a') && window.Terminal !== undefined")
    assert page.evaluate(SIZE) == [30, 100], "the size of attributes"
    page.evaluate("host.resize(10, 90), host.feed(new TextEncoder().encode('\\x1b[99;99Hx'))")
    assert page.evaluate(SIZE) == [10, 90] and page.evaluate(SHOWN).split("\n")[9] == " " * 89 + "x", "a live player is resized"
    page.evaluate("host.constructor.core.then((core) => { const t = new Terminal(core, { rows: 50, columns: 200, terminal: 'xterm' }); t.feed(new TextEncoder().encode('shown')); host.show(t); return true; })")
    assert page.evaluate(SIZE) == [50, 200] and page.evaluate(SHOWN).startswith("shown\n"), "a terminal of another size is shown"


def test_live(page, server):
    """What comes by a WebSocket or an EventSource is shown. If the connection is lost, it connects again."""
    for address in ("/events", server.url.replace("http", "ws") + "socket"):
        first, later = shown(b"\x1b[2;3Hlive \x1b[7mone\x1b[m"), shown(b"\x1b[2;3Hlive \x1b[7mtwo\x1b[m and more")
        server.asked.clear()
        page.go("about:blank")
        page.go(server.page("live.html", f'<vt220-player id="a" live="{address}"></vt220-player>'))
        server.lines.put(first.repaint())
        page.wait(f"ready('a') && see('a') && {SHOWN} === {json.dumps(first.text())}")
        assert page.evaluate("[...root.querySelectorAll('.timed')].every((each) => each.offsetHeight === 0) && root.getElementById('larger').offsetHeight > 0"), "a live player has no bar of time"
        copy = vt220.Terminal()
        copy.copy_from(first)
        server.lines.put(copy.update(later))
        page.wait(f"{SHOWN} === {json.dumps(later.text())}")
        server.lines.put(None)
        page.wait("events.some(([, event]) => event === 'offline')")
        server.lines.put(first.repaint())
        page.wait(f"{SHOWN} === {json.dumps(first.text())}")
        page.evaluate("host.remove()")
        server.lines.put(None)
        assert sum(server.asked[path] for path in ("/events", "/socket")) >= 2, "it connects again"


def test_hidden(page, server):
    """In a page that was hidden for long, a recording goes on where it was."""
    server.data("hidden.json", *spoken(*[b"%d " % i for i in range(100)]))
    page.go(server.page("hidden.html", '<vt220-player id="a" src="hidden.json"></vt220-player>', "<script>window.frames_ = []; window.requestAnimationFrame = (act) => frames_.push(act);</script>"))
    page.wait("ready('a') && see('a')")
    page.evaluate("host.play().then(() => { const now = performance.now(); frames_.shift()(now + 200); window.before = host.getCurrentTime(); frames_.shift()(now + 600000); })")
    moved = page.evaluate("host.getCurrentTime() - before")
    assert 0 < moved <= 0.5, f"ten minutes in a hidden page move it by {moved} seconds"


def test_idle(page, server):
    """While nothing comes, a page draws once in a tenth of a second, and writes no row of the screen again."""
    server.data("idle.json", b"one\r\ntwo", [(0, 8), (10**8, 0)])
    page.go(server.page("idle.html", '<vt220-player id="a" src="idle.json"></vt220-player>'))
    page.wait("ready('a') && see('a')")
    counts = page.evaluate("""(() => { const { player, screen } = view, counts = [0, 0], { drawRow } = screen; player.skips = false; player.play();
      view.drawn = () => counts[0]++; screen.drawRow = (...words) => (counts[1]++, drawRow.call(screen, ...words));
      for (let i = 0; i < 200; i++) player.advance(0.01);
      player.pause(); player.go(0); return counts; })()""")
    assert counts[0] in range(15, 25) and counts[1] == 0, f"draws and rows of two seconds in which nothing comes: {counts}"


def test_blinking(page, server):
    """Text blinks only while the recording plays."""
    server.data("blink.json", *spoken(b"\x1b[5mblink\x1b[m", b" more"))
    page.go(server.page("blink.html", '<vt220-player id="a" src="blink.json"></vt220-player>'))
    page.wait("ready('a') && see('a')")
    state = "getComputedStyle(root.querySelector('.k')).animationPlayState"
    states = [page.evaluate(state), page.evaluate(f"(view.player.play(), {state})"), page.evaluate(f"(view.player.pause(), {state})")]
    assert states == ["paused", "running", "paused"], f"blinking: {states}"


def test_compared(page, tmp_path):
    """Two recordings side by side: the first moment at which the screens differ, and the rows that do. They go together."""
    good, bad = spoken(b"one\r\n", b"two\r\n", b"three", b"four"), spoken(b"one\r\n", b"", b"t", b"wx\r\n", b"three", b"four")
    path = tmp_path / "both.html"
    path.write_text(side_by_side("Both <runs>", [("This run", recording(*bad, "bad")), ("The last run that passed", recording(*good, "good"))]))
    page.go(path.as_uri())
    page.wait("!document.getElementById('difference').hidden")
    assert page.evaluate("document.getElementById('difference').textContent") == "The screens first differ at 0:03.0 of the first recording, in row 2.", page.evaluate("document.getElementById('difference').textContent")
    state = "[...document.querySelectorAll('vt220-player')].map((each) => [each.getCurrentTime(), [...each.shadowRoot.querySelectorAll('#screen > div')].map((row, i) => row.matches('.d') ? i + 1 : 0).filter(Boolean)])"
    assert page.evaluate(state) == [[3, [2]], [1, [2]]], f"the difference: {page.evaluate(state)}"
    page.evaluate("document.querySelectorAll('vt220-player')[1].seek(2)")
    assert page.evaluate(state) == [[4, [2]], [2, [2]]], f"both go on: {page.evaluate(state)}"
    page.evaluate("document.querySelectorAll('vt220-player')[0].seek(0)")
    assert page.evaluate(state) == [[0, []], [0, []]], f"both go back: {page.evaluate(state)}"
    playing = "[...document.querySelectorAll('vt220-player')].map((each) => each.view.player.isPlaying)"
    for act in ("play", "pause"):
        page.evaluate(f"document.querySelectorAll('vt220-player')[1].{act}()")
        assert page.evaluate(playing) == [act == "play"] * 2, f"both {act}: {page.evaluate(playing)}"
    path.write_text(side_by_side("Equal", [("a", recording(*good, "a")), ("b", recording(*good, "b"))]))
    page.go("about:blank")
    page.go(path.as_uri())
    page.wait("!document.getElementById('difference').hidden")
    assert page.evaluate("document.getElementById('difference').textContent") == "The screens never differ.", "two equal recordings"


# What of a large page comes at first: all up to the rest of the bytes, and so many characters of these.
OF_REST = 100000


def test_before_the_rest(chromium, server):
    """The first frame of a page with a large recording is shown before the rest of the page has come."""
    source = random.Random(7)
    texts = [b"the first frame", *[b"\r\n%d %s" % (i, source.randbytes(1000).hex().encode()) for i in range(500)], b"\r\nthe end"]
    text = page_of(*spoken(*texts), "Large")
    at = text.index('id="rest"') + OF_REST
    server.held = len(text[:at].encode())
    (server.place / "large.html").write_text(text)
    server.goes_on.clear()
    chromium.call("Page.navigate", url=server.url + "held/large.html")
    chromium.wait("location.pathname === '/held/large.html' && document.documentElement?.dataset.state !== undefined")
    chromium.evaluate("(window.host = document.querySelector('vt220-player'), window.root = host.shadowRoot, true)")
    state = chromium.evaluate("[document.readyState, document.documentElement.dataset.state, root.getElementById('controls').disabled, host.view.line.available < host.view.line.length]")
    assert state == ["loading", "ready", False, True], f"the page while it comes: {state}"
    assert chromium.evaluate(SHOWN).startswith("the first frame\n"), "the first frame of a page that comes"
    server.goes_on.set()
    chromium.evaluate("host.loaded.then(() => host.seek('100%'))")
    assert "the end\n" in chromium.evaluate(SHOWN) and chromium.evaluate("document.readyState") != "loading", "the rest of the page comes"


# A script that stands after the player's, and in the test comes after the core was compiled.
LATE = """<script>window.heard = []; document.getElementById("a").addEventListener("ready", () => heard.push("ready"));</script>"""


def test_heard(chromium, server):
    """A script of the page hears that a player is ready, however late it comes."""
    path = server.page("late.html", '<vt220-player id="a" live></vt220-player>', after=f"""<script src="/vt220/vt220-player.global.js"></script><p>{'x' * OF_REST}</p>{LATE}""")
    server.held = (server.place / "late.html").read_text().index(LATE)
    server.goes_on.clear()
    chromium.call("Page.navigate", url=path.replace("late.html", "held/late.html"))
    chromium.wait("location.pathname === '/held/late.html' && customElements.get('vt220-player') !== undefined && document.querySelector('script + p') !== null")
    chromium.evaluate("customElements.get('vt220-player').core.then(() => new Promise((resolve) => setTimeout(resolve)))")
    server.goes_on.set()
    chromium.wait("document.readyState === 'complete' && see('a') && view !== null")
    assert chromium.evaluate("heard") == ["ready"], f"a late script hears of it: {chromium.evaluate('heard')}"
    server.held = HELD


def test_classic(page, tmp_path):
    """The classic script works from file://, next to its page."""
    (tmp_path / "vt220-player.global.js").write_bytes((PACKAGE / "vt220-player.global.js").read_bytes())
    text = recording(*spoken(b"a classic script, and a classic page"), "classic")
    inside = f'<vt220-player id="a"><script type="application/json">{text}</script></vt220-player><vt220-player id="b"><script type="application/x-asciicast">{RESIZED}</script></vt220-player>'
    path = tmp_path / "classic.html"
    path.write_text(PAGE % {"title": "classic", "before": '<script src="vt220-player.global.js"></script>', "players": inside, "after": ""})
    page.go(path.as_uri())
    page.wait("ready('a', 'b')")
    assert page.evaluate(f"see('b') && host.seek(4.5).then(() => {SIZE})") == [40, 120], f"an asciicast and a classic script: {page.evaluate(SIZE)}"
    page.evaluate("see('a')")
    assert page.evaluate(SHOWN).startswith("a classic script, and a classic page\n"), "a classic script"
    assert [span["time"] for span in page.evaluate("host.search('classic page')")] == [0] and page.evaluate("root.querySelectorAll('mark').length") == 1, "it searches"


# The accessibility tree of a player: roles and names, apart from the text of the screen and of the keys.
TREE = [
    ("group", "Terminal screen"), ("button", "Play"), ("slider", "Time"), ("button", "One chunk back"), ("button", "One chunk forth"), ("combobox", "Speed"), ("checkbox", "Skip pauses"),
    ("button", "Smaller text"), ("button", "Larger text"), ("button", "Copy text"), ("button", "Save picture"), ("button", "Full screen"), ("search", ""), ("searchbox", "Search all time"),
    ("button", "Search"), ("button", "Previous time on the screen"), ("button", "Next time on the screen"), ("checkbox", "Match case"), ("checkbox", "Expression"), ("status", ""),
    ("group", "Markers"), ("group", ""), ("button", "0:00.5 here"), ("note", "What a VT220 can't show"),
]


def test_tree(page, server):
    server.data("tree.json", *spoken(b"one", b"two"), notes=["a note"], markers=[[0.5, "here"]])
    page.go(server.page("tree.html", '<vt220-player id="a" src="tree.json"></vt220-player>'))
    page.wait("ready('a') && see('a')")
    roles = {role for role, _ in TREE}
    found = [(role, name or "") for role, name in page.names() if role in roles]
    assert sorted(found) == sorted(TREE), f"the accessibility tree: {found}"


# Pictures of the page for people to look at, of each browser, width and colour scheme.
PICTURES = ROOT / "out/js/pictures"


@pytest.mark.parametrize("scheme", ["light", "dark"])
def test_pictures(request, browser, server, scheme):
    """Pictures of a page in a window of 1280 and of 375 pixels. Its text can be read, it isn't wider than that, and its colours follow the scheme."""
    page = request.getfixturevalue("dark") if (browser, scheme) == (Firefox, "dark") else request.getfixturevalue("page")
    if browser is Chromium:
        page.media(prefers_color_scheme=scheme)
    data = (ROOT / "tests/bench/recordings/mc-panels.raw").read_bytes()
    (server.place / "page.html").write_text(page_of(data, [(1000 * i, len(data[at : at + 200])) for i, at in enumerate(range(0, len(data), 200))], "Midnight Commander",
                                                    ["a note"], markers=[[0.1, "a marker"]], poster=len(data) / 200 / 1000 / 2))
    PICTURES.mkdir(parents=True, exist_ok=True)
    page.size(1300, 1100)
    for width, height in ((1280, 1000), (375, 800)):
        (server.place / f"{width}.html").write_text(f'<!doctype html><title>{width}</title><body style="margin: 0"><iframe src="page.html" width="{width}" height="{height}" style="border: 0"></iframe>')
        page.go(server.url + f"{width}.html")
        page.wait("(window.inner = frames[0])?.document.documentElement?.dataset.state === 'ready'")
        ground, wide, size = page.evaluate("""[inner.getComputedStyle(inner.document.body).backgroundColor, inner.document.documentElement.scrollWidth,
            parseFloat(inner.getComputedStyle(inner.document.querySelector('vt220-player').shadowRoot.getElementById('screen')).fontSize)]""")
        assert (ground == "rgb(255, 255, 255)") == (scheme == "light") and wide <= width and size >= 12, f"the page at {width} pixels, {scheme}: {ground}, {wide}, {size}"
        bar = page.evaluate("inner.getComputedStyle(inner.document.querySelector('vt220-player').shadowRoot.getElementById('screen')).scrollbarColor")
        assert bar == "rgb(184, 224, 176) rgb(16, 20, 15)", f"the scroll bar has the colours of the screen: {bar}"
        page.picture(PICTURES / f"{type(page).__name__.lower()}-{width}-{scheme}.png")
