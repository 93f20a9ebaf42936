"""Tests the pages that apps/page/vt220-page writes."""
import base64
import functools
import gzip
import json
import os
import pathlib
import random
import re
import runpy
import struct
import subprocess
import tempfile

import pytest
import vt220
from browsers import PATIENCE, until
from recorded import RECORDINGS, SIZED, XTERM, cast, recordings, scripted, waits

HERE = pathlib.Path(__file__).resolve().parent
ROOT = HERE.parents[2]
TOOL = HERE.parent / "vt220-page"
PARTS = runpy.run_path(str(TOOL))
BROKEN = 7  # the exit status if a recording breaks its format
# The page is ready. Then `host` is its player, `root` what is inside of that, and `page` its view.
READY = """(() => {
  window.host = document.querySelector("vt220-player");
  Object.assign(window, { root: host?.shadowRoot, page: host?.view });
  return document.documentElement.dataset.state !== undefined;
})()"""
SHOWN = "[...root.querySelectorAll('#screen > div')].map((row) => row.textContent.trimEnd() + '\\n').join('')"
NOTED = "host.loaded.then(() => host.noted).then(() => [...root.querySelectorAll('#notes:not([hidden]) li')].map((item) => item.textContent).join(' '))"
SAID = "root.getElementById('said').textContent"
NOW = "page.player.now"
FITS = "document.documentElement.scrollWidth <= innerWidth && root.getElementById('screen').scrollWidth <= root.getElementById('screen').clientWidth + 1"
# The text is large enough, and the screen scrolls to the last column of it.
READABLE = """(() => {
  const screen = root.getElementById("screen"), range = document.createRange();
  range.selectNodeContents(screen);
  screen.scrollLeft = 1e9;
  const isWhole = range.getBoundingClientRect().right <= screen.getBoundingClientRect().right;
  screen.scrollLeft = 0;
  return isWhole && parseFloat(getComputedStyle(screen).fontSize) >= 12 && document.documentElement.scrollWidth <= innerWidth;
})()"""


@functools.cache
def frames(seed=5):
    """Returns the recordings of bench as chunks with times in microseconds, with pauses of some seconds between them."""
    source, now, made = random.Random(seed), 0, []
    for path in sorted(ROOT.glob("tests/bench/recordings/*.raw")):
        data, at = path.read_bytes()[:9000] + b"\x18\x1b[m\x1b(B\x1b[r\x1b[?6l\x1b[H\x1b[J", 0
        while at < len(data):
            size = 1 + source.randrange(200)
            made.append((now, data[at : at + size]))
            at += size
            now += 20000 + source.randrange(90000)
        now += 4000000
    return made


def sized(made):
    """Returns chunks as pairs of microseconds and a number of bytes."""
    return [(micros, len(data)) for micros, data in made]


def ttyrec(made, begin=1700000000):
    return b"".join(struct.pack("<III", begin + micros // 10**6, micros % 10**6, len(data)) + data for micros, data in made)


class Work:
    """A directory with recordings and the pages that the tool writes of them."""

    def __init__(self, place):
        self.place = pathlib.Path(place)

    def page(self, name, data, *words):
        (self.place / name).write_bytes(data)
        made = subprocess.run([TOOL, self.place / name, *words], capture_output=True)
        assert made.returncode in (0, BROKEN), made.stderr
        path = self.place / f"{name}.html"
        path.write_bytes(made.stdout)
        return path


@pytest.fixture(scope="session")
def work():
    with tempfile.TemporaryDirectory() as place:
        yield Work(place)


@pytest.fixture(scope="session")
def url(work):
    """The address of the page of a long recording."""
    return work.page("long.ttyrec", ttyrec(frames()), "--title", "A <title> & more", "--marker", "2=two", "--marker", "20=</script>twenty").as_uri()


@pytest.fixture
def page(chromium):
    return chromium


@pytest.fixture
def long(page, url):
    """The page of a long recording, of which nothing comes onto the console."""
    fresh(page, url)
    yield
    assert page.said == []


@pytest.mark.usefixtures("long")
def test_title(page):
    assert page.evaluate("document.documentElement.dataset.state") == "ready" and page.evaluate("document.title") == "A <title> & more"
    assert page.evaluate("root.getElementById('markers').textContent") == "0:02.0 two0:20.0 </script>twenty"


# --- the times of recordings ---


def read(data, timing=None):
    """Returns a recording as vt220-page reads it."""
    return PARTS["Recording"](data, timing)


def test_read():
    """What a page takes from the program's list of a recording's events. The rows of lib/rows/recordings.txt show how the program reads each format."""
    for data, terminal, size in ((scripted([]), "xterm", (100, 30)), (cast([], 2), "xterm", (100, 30)), (cast([], 3), "xterm", (100, 30)), (b"\x1b[?1049h", None, None), (ttyrec([(0, b"x")]), None, None)):
        assert (read(data).terminal, read(data).size) == (terminal, size), f"what the first line names: {data[:40]}"
    made = [(0, b"one"), (1, b""), (1, b"two"), (1, b"at once"), (3 * 3600 * 10**6 + 8, b"hours later" + bytes(range(32, 127)) * 50)]
    for data in (ttyrec(made), cast(made, 2), cast(made, 3)):
        assert read(data).chunks == sized((micros, data) for micros, data in made if data), "the times of chunks"
    assert read(ttyrec(made)[:-1]).broken == {"part": "recording", "at": len(ttyrec(made[:-1]))} and read(b'{"version": 1}\n').broken == {"part": "recording", "at": 0}, "where it is broken"
    assert read(ttyrec([(5000000, b"a"), (7000000, b"b"), (6000000, b"c")])).chunks == [(0, 1), (2000000, 1), (2000000, 1)], "times that fall"
    assert not read(b"\x1b[2Jtext").is_timed and not read(b"").is_timed, "bytes have no times"
    # A backslash, TAB and LF, and bytes of both halves.
    plain = bytes(range(256)) + b"\\x41\t\n"
    assert read(ttyrec([(5000000, plain)])).content == plain and read(b"\x1f\x8b\x08\0\0\0").content == b"", "the bytes of a ttyrec, and of a compressed file"


def test_markers(page, work):
    """The markers of a recording by asciinema, in both versions."""
    events = [(500000, "o", "one"), (1250000, "m", "first <b>"), (2000000, "o", "x"), (2000000, "m", ""), (3500000, "i", "typed"), (4000000, "m", "last"), (5000000, "o", "end")]
    for version in (2, 3):
        last, lines = 0, [json.dumps({"version": version, "width": 80, "height": 24})]
        for micros, code, text in events:
            lines.append(json.dumps([(micros - last if version == 3 else micros) / 1e6, code, text]))
            last = micros
        page.go(work.page(f"marked-{version}.cast", "\n".join(lines).encode() + b"\n", "--marker", "3=mine", "--stop-at-markers", "--pause", "4").as_uri())
        page.wait(READY)
        assert page.evaluate("page.player.markers") == [1.25, 2, 3, 4], f"the markers of version {version}"
        assert page.evaluate("[...root.querySelectorAll('#markers button')].map((b) => b.textContent)") == ["0:01.2 first <b>", "0:02.0", "0:03.0 mine", "0:04.0 last"], "their names"
        assert page.evaluate("page.line.length") == 7 and page.evaluate("page.player.longestPause") == 4, "the bytes of a recording with markers"
        stops = page.evaluate("(() => { const p = page.player, seen = []; for (const by of [1, 0.5, 5]) { p.play(); p.advance(by); seen.push(p.now, p.isPlaying); } return seen; })()")
        assert stops == [1, True, 1.25, False, 2, False], f"it stops at each marker: {stops}"


def test_times_of_script(page, work):
    """A page of a recording by script with its timing file."""
    made = frames()
    timing = work.place / "timing"
    timing.write_text("".join(f"{wait / 1e6:.6f} {len(data)}\n" for wait, data in waits(made)))
    page.go(work.page("script.typescript", scripted(made), "--timing", timing).as_uri())
    page.wait(READY)
    told = page.evaluate(NOTED)
    assert "columns" not in told and "Colours" in told and "9600" not in told, f"the notes of script: {told}"
    assert page.evaluate("page.line.chunks") == len(made) and page.evaluate("page.line.duration") == made[-1][0] / 1e6, "the chunks of script"
    moments(page, made, 20, **XTERM, **SIZED)
    page.go(work.page("script.typescript", scripted(made), "--timing", timing, "--terminal", "vt220").as_uri())
    page.wait(READY)
    assert "recorded for an xterm" in page.evaluate(NOTED), f"the notes of script for a VT220: {page.evaluate(NOTED)}"
    moments(page, made, 20, **SIZED)


# --- the player ---


def moments(page, made, count=200, **options):
    """The screen at moments, by way of checkpoints, is that of the library for C."""
    source = random.Random(2)
    for at in [source.randrange(len(made)) for _ in range(count)]:
        terminal = vt220.Terminal(**options)
        terminal.feed(b"".join(data for _, data in made[: at + 1]))
        shown = page.evaluate(f"page.player.go({made[at][0] / 1e6!r}), {SHOWN}")
        assert shown == terminal.text(), f"the screen after chunk {at}"


@pytest.mark.usefixtures("long")
def test_moments(page):
    moments(page, frames())


def unwrapped(text, width):
    """Returns the text of a screen, in which a row with a character in its last column goes on in the next one."""
    return "".join(line if len(line) == width else line + "\n" for line in text.split("\n"))


def spans_of(made, needle, **options):
    """Returns when a text was on the screen, by the library for C: from, until, and the number of its line if it only scrolled past."""
    terminal, spans, was, count = vt220.Terminal(**options), [], False, 0
    for micros, data in made:
        lines, width = terminal.feed_log(data)[1], terminal.width()
        now = needle.lower() in unwrapped(terminal.text(), width).lower()
        past = next((number for number, line in enumerate(lines.split("\n"), count + 1) if needle.lower() in line.lower()), None)
        count += lines.count("\n")
        if now != was:
            spans += [[micros / 1e6, None, None]] if now else []
            spans[-1][1] = None if now else micros / 1e6
        elif past and not was:
            spans.append([micros / 1e6, micros / 1e6, past])
        was = now
    return spans


FOUND = "page.player.spans.map((span) => [span.time, span.until === Infinity ? null : span.until, span.line])"


@pytest.mark.usefixtures("long")
def test_searches(page):
    made = frames()
    for needle in ("bytes", "VT220", "zzqzz", "│"):
        spans = spans_of(made, needle)
        found = page.evaluate(f"page.search({needle!r}).then(() => {FOUND})")
        assert found == spans, f"the times of {needle}: {len(found)} and {len(spans)}"
        marked = page.evaluate("[...root.querySelectorAll('mark')].map((mark) => mark.textContent).join('').toLowerCase()")
        hits = unwrapped(page.evaluate(SHOWN), page.evaluate("page.line.terminal.width")).lower().count(needle.lower())
        is_shown = page.evaluate("page.player.spans[page.player.span]?.line === null")
        assert marked == hits * needle.lower() and (hits > 0) == is_shown, f"{needle} is marked wherever it is"
        said = page.evaluate("root.getElementById('said').textContent")
        assert said.startswith(f"{len(spans)} times" if len(spans) > 1 else "Once") if spans else said == "This text is never on the screen.", f"what is said of {needle}: {said}"
    page.evaluate("page.search('')")


def test_scrolled(page, work):
    """A search finds a line that comes and scrolls off within a chunk, goes to this chunk, and says so. So it finds each line of fast output."""
    texts = ["".join(f"line {i}\r\n" for i in range(first, first + 100)) for first in range(0, 1000, 100)]
    made = [(800000 * (i + 1), text.encode()) for i, text in enumerate(texts)]
    page.go(work.page("scrolled.cast", cast(made, 2, (80, 24))).as_uri())
    page.wait(READY)
    lost = page.evaluate("""(async () => { const lost = []; for (let i = 0; i < 1000; i++) if ((await page.searcher.search(`^line ${i} *$`, { expression: true })).length === 0) lost.push(i); return lost; })()""")
    assert lost == [], f"lines that can't be found: {len(lost)} of 1000"
    page.evaluate("page.search('line 142')")
    assert [page.evaluate(NOW), page.evaluate(SAID)] == [1.6, "Once on the screen; this is number 1, in line 143, which scrolled past at 0:01.6."], f"what is said: {page.evaluate(SAID)}"


@pytest.mark.usefixtures("long")
def test_keys(page):
    now = NOW
    page.evaluate("page.player.go(10), root.activeElement?.blur()")
    for key, text, wanted in [("ArrowRight", None, 15), ("ArrowLeft", None, 10), ("Home", None, 0), ("5", "5", "page.line.duration / 2"), ("End", None, "page.line.duration")]:
        page.press(key, text=text)
        assert page.evaluate(f"Math.abs({now} - {wanted}) < 1e-6"), f"the key {key}"
    page.evaluate("page.player.go(10)")
    before = page.evaluate(f"page.line.chunksAt({now})")
    page.press(".", text=".")
    assert page.evaluate(f"page.line.chunksAt({now})") == before + 1, "the key ."
    page.press(",", text=",")
    assert page.evaluate(f"page.line.chunksAt({now})") == before, "the key ,"
    page.press("]", text="]")
    assert page.evaluate(now) == 20, "the key ]"
    page.press("[", text="[")
    assert page.evaluate(now) == 2, "the key ["
    page.press("]", "Digit6", "]", alt=True)
    assert page.evaluate(now) == 20, "the key ] by Option and 6"
    page.press("[", "Digit5", "[", alt=True)
    for key in ("5", "n", "ArrowRight"):
        page.press(key, text=key if len(key) == 1 else None, alt=True)
        assert page.evaluate(now) == 2, f"Alt+{key} is for the browser"
    for key, speed in ((">", 2), ("<", 1)):
        page.press(key, text=key, shift=True)
        assert page.evaluate("page.player.speed") == speed and page.evaluate("Number(root.getElementById('speed').value)") == speed, f"the key {key}"
    page.press("s", text="s")
    assert page.evaluate("!page.player.skips"), "the key s"
    page.press("s", text="s")
    page.press("ArrowRight", shift=True)
    assert page.evaluate(f"Math.abs({now} - 2 - page.line.duration / 10) < 1e-6"), "the key ArrowRight with Shift"
    page.press("f", text="f")
    page.wait("document.fullscreenElement !== null")
    assert page.evaluate(FITS), "it fits a full screen"
    page.press("f", text="f")
    page.wait("document.fullscreenElement === null")
    page.press("/", text="/")
    assert page.evaluate("root.activeElement.id") == "needle", "the key /"
    for letter in "bytes":
        page.press(letter, text=letter)
    page.press("Enter", text="\r")
    page.wait("page.player.needle === 'bytes' && page.player.spans.length > 1")
    page.press("Escape")
    assert page.evaluate("root.activeElement.id") == "screen", "the key Escape"
    for is_open in (True, False):
        page.press("?", text="?", shift=True)
        assert page.evaluate("root.getElementById('keys').open") == is_open, "the key ?"
    spot = page.evaluate(now)
    page.press("n", text="n")
    assert page.evaluate(now) != spot, "the key n"
    page.press("N", text="N", shift=True)
    assert page.evaluate("page.player.span") >= 0, "the key N"
    page.evaluate("page.search('')")
    page.press(" ", "Space", " ")
    page.wait(f"page.player.isPlaying && {now} > {spot}")
    page.press(" ", "Space", " ")
    assert page.evaluate("!page.player.isPlaying && root.getElementById('play').textContent === 'Play'"), "the key Space"


# Notes what the player tells of, with the times.
LISTEN = "(() => { const { player } = page, { told } = player; window.told = []; player.told = (event, time) => { window.told.push([event, time]); told(event, time); }; })()"
PLAYED = "told.filter(([event]) => event === 'play').map(([, time]) => time)"


def fresh(page, url):
    """Loads a page anew."""
    page.go("about:blank")
    page.go(url)
    page.wait(READY)
    page.evaluate(LISTEN)


def test_first_play(page, url):
    """The first Play goes on from the place that was sought, whichever way led there."""
    ways = {
        "the bar": lambda: page.click("#time"),
        "a key": lambda: page.press("5", text="5"),
        "a chunk": lambda: page.click("#forth"),
        "a marker": lambda: page.click("#markers button:nth-child(2)"),
        "a search": lambda: page.evaluate("page.search('bytes').then(() => page.player.nextSpan())"),
        "a link": lambda: (page.evaluate("location.hash = 't=12.5'"), page.wait(f"{NOW} === 12.5")),
    }
    for way, seek in ways.items():
        fresh(page, url)
        seek()
        sought = page.evaluate(NOW)
        page.click("#play")
        played = page.evaluate(PLAYED)
        assert played == [sought] and sought > 0, f"the first Play after {way} to {sought}: {played}"


def test_quiet(page, url):
    """A screen reader reads out nothing of what changes while a recording plays."""
    fresh(page, url)
    page.evaluate("""(() => { window.changed = new Set(); const note = (node) => { for (; node !== null; node = node.parentNode) if (node.id) changed.add(node.id); };
      new MutationObserver((all) => all.forEach((each) => note(each.target))).observe(root, { subtree: true, childList: true, characterData: true }); })()""")
    page.click("#play")
    page.wait("changed.has('clock') && changed.has('screen')")
    page.click("#play")
    live, changed = page.live(), set(page.evaluate("[...changed]"))
    assert "said" in live and not live & changed, f"what is read out: {live}, and what changes: {changed}"


@pytest.mark.usefixtures("long")
def test_reached(page):
    """Each control has the focus in turn."""
    page.evaluate("root.getElementById('screen').focus()")
    wanted, found = page.evaluate("[...root.querySelectorAll('button, input, select, summary')].map((e) => e.id || e.textContent)"), []
    for _ in wanted:
        page.press("Tab")
        found.append(page.evaluate("root.activeElement.id || root.activeElement.textContent.slice(0, 80)"))
    assert found == wanted and len(wanted) > 15, f"the key Tab reaches each control: {found}"


@pytest.mark.usefixtures("long")
def test_mouse(page, work):
    """Each control, by the mouse."""
    page.call("Browser.grantPermissions", permissions=["clipboardReadWrite", "clipboardSanitizedWrite"])
    page.call("Browser.setDownloadBehavior", behavior="allow", downloadPath=str(work.place / "saved"))
    page.call("Emulation.setFocusEmulationEnabled", enabled=True)
    page.click("#time")
    assert page.evaluate(f"Math.abs({NOW} / page.line.duration - 0.5) < 0.02"), "a click on the bar"
    page.click("#time", 0.25)
    assert page.evaluate(f"Math.abs({NOW} / page.line.duration - 0.25) < 0.02"), "another click on the bar"
    at = page.evaluate(f"page.line.chunksAt({NOW})")
    for button, by in (("forth", 1), ("forth", 2), ("back", 1)):
        page.click(f"#{button}")
        assert page.evaluate(f"page.line.chunksAt({NOW})") == at + by, f"the button {button}"
    page.click("#markers button:nth-child(2)")
    assert page.evaluate(NOW) == 20, "the button of a marker"
    page.click("#play")
    page.wait(f"page.player.isPlaying && {NOW} > 20 && root.getElementById('play').textContent === 'Pause'")
    page.click("#play")
    assert page.evaluate("!page.player.isPlaying && root.getElementById('play').textContent === 'Play'"), "the button Pause"
    for is_on in (False, True):
        page.click("#skip")
        assert page.evaluate("page.player.skips") == is_on, "the box of pauses"
    page.evaluate("root.getElementById('speed').focus()")
    for key, speed in (("ArrowDown", 2), ("ArrowDown", 4), ("ArrowUp", 2), ("ArrowUp", 1)):
        page.press(key)
        assert page.evaluate("page.player.speed") == speed, f"the speed {speed}"
    for button, wanted in (("copy", "page.text()"), ("link", "page.link()")):
        page.click(f"#{button}")
        page.wait(f"{SAID}.endsWith('is copied')")
        assert page.evaluate("navigator.clipboard.readText()") == page.evaluate(wanted) != "", f"the button {button}"
        page.evaluate("page.say('')")
    page.click("#picture")
    saved = until(lambda: [file for file in (work.place / "saved").glob("*.svg") if file.read_text().endswith("</svg>\n")], "a picture")
    assert saved[0].read_text() == page.evaluate("page.line.terminal.picture()") and saved[0].name == f"vt220-{round(page.evaluate(NOW), 6)}.svg", f"the picture {saved[0].name}"
    page.click("#needle")
    for letter in "bytes":
        page.press(letter, text=letter)
    page.click("#find")
    page.wait("page.player.needle === 'bytes' && page.player.span >= 0")
    for button, by in (("next", 1), ("next", 1), ("previous", -1)):
        before = page.evaluate("page.player.span")
        page.click(f"#{button}")
        assert page.evaluate("(page.player.span - %d + page.player.spans.length) %% page.player.spans.length" % by) == before, f"the button {button}"
    spaces(page)
    clicks(page)
    selection(page)


def spaces(page):
    """Space plays after a click on a control, and presses a control that Tab reached."""
    for control in ("#time", "#skip", "#copy", "#next"):
        page.click(control)
        for is_playing in (True, False):
            page.press(" ", "Space", " ")
            assert page.evaluate("page.player.isPlaying") == is_playing, f"Space after a click on {control}"
    page.evaluate("root.getElementById('speed').focus()")
    page.press("Tab")
    skips = page.evaluate("page.player.skips")
    page.press(" ", "Space", " ")
    assert page.evaluate("[root.activeElement.id, page.player.skips, page.player.isPlaying]") == ["skip", not skips, False], "Space on a control that Tab reached"
    page.press(" ", "Space", " ")
    page.click("#skip")


def clicks(page):
    """A click on the screen plays and pauses. A drag selects, and so does a double click."""
    row = page.evaluate("""(() => { root.getSelection().removeAllRanges();
      for (page.player.go(10);; page.player.step(1)) {
        const row = [...root.querySelectorAll("#screen > div")].findIndex((row) => /\\S{3}/.test(row.textContent.slice(0, 40)));
        if (row >= 0) return row + 1;
      }
    })()""")
    place = f"#screen > div:nth-child({row})"
    for is_playing in (True, False):
        page.click(place)
        assert page.evaluate("page.player.isPlaying") == is_playing, "a click on the screen"
    page.click(place, 0.01, to=0.5)
    assert page.evaluate("!page.player.isPlaying && root.getSelection().toString().trim() !== ''"), "a drag selects"
    page.click(place)
    assert page.evaluate("!page.player.isPlaying && root.getSelection().isCollapsed"), "a click that ends a selection"
    for count in (1, 2):
        page.click(place, count=count)
    assert page.evaluate("!page.player.isPlaying"), "a double click"
    page.evaluate("root.getSelection().removeAllRanges()")


def test_marked(page, url):
    """The bar has the spans of the search, and the markers, and nothing else."""
    fresh(page, url)
    wrong = page.evaluate("""(async () => {
      await page.search("bytes");
      const canvas = root.getElementById("marks"), context = canvas.getContext("2d"), { duration } = page.line, half = canvas.height / 2;
      const isDrawn = (time, row) => context.getImageData(Math.min(canvas.width - 1, Math.floor(time / duration * canvas.width)), row, 1, 1).data[3] > 0;
      const middles = (spans) => spans.filter(([from, to]) => (to - from) / duration * canvas.width > 6).map(([from, to]) => (from + to) / 2);
      const { spans } = page.player, on = spans.map((span) => [span.time, Math.min(span.until, duration)]), off = spans.slice(1).map((span, i) => [spans[i].until, span.time]);
      const markers = page.player.markers, wrong = [];
      for (const time of middles(on)) if (!isDrawn(time, 0)) wrong.push(["no span", time]);
      for (const time of middles(off)) if (isDrawn(time, 0)) wrong.push(["a span", time]);
      for (const time of markers) if (!isDrawn(time, canvas.height - 1)) wrong.push(["no marker", time]);
      return middles(on).length > 0 && middles(off).length > 0 && markers.length > 0 && !isDrawn((markers[0] + markers[1]) / 2, canvas.height - 1) ? wrong : ["nothing to see"];
    })()""")
    assert wrong == [], f"the bar has each span: {wrong}"
    page.evaluate("page.search('')")
    assert page.evaluate("(() => { const c = root.getElementById('marks'); return c.getContext('2d').getImageData(0, 0, c.width, c.height / 2).data.every((value) => value === 0); })()"), "the bar without a search"


def selection(page):
    """The text of the screen can be selected. A row that doesn't change stays selected."""
    page.evaluate("root.getSelection().selectAllChildren(root.getElementById('screen'))")
    assert page.evaluate("root.getSelection().toString().split('\\n').map((line) => line.trimEnd()).join('\\n').trimEnd()") == page.evaluate("page.text().trimEnd()"), "a selection of the screen"
    row = page.evaluate("""(() => { const { player, line, screen } = page; player.go(10);
      for (;;) {
        const rows = [...root.querySelectorAll("#screen > div")], before = rows.map((row) => row.firstChild);
        const row = rows.findIndex((row, i) => row.textContent.trim() !== "" && i + 1 !== line.terminal.cursor.row);
        if (row >= 0) {
          root.getSelection().selectAllChildren(rows[row]);
          const text = root.getSelection().toString();
          player.step(1);
          if (rows[row].firstChild === before[row] && rows.some((row, i) => row.firstChild !== before[i])) return [text, root.getSelection().toString()];
        } else player.step(1);
      }
    })()""")
    assert row[0] == row[1] != "", f"what is selected: {row}"
    copy = """(() => { const copy = new ClipboardEvent("copy", { clipboardData: new DataTransfer(), bubbles: true, cancelable: true });
      root.querySelector("#screen > div").dispatchEvent(copy); return copy.clipboardData.getData("text/plain"); })()"""
    page.evaluate("root.getSelection().selectAllChildren(root.getElementById('screen'))")
    assert page.evaluate(copy).rstrip("\n") == page.evaluate(SHOWN).rstrip("\n") != "", "a copy has no blanks at the ends of lines"
    page.evaluate("root.getSelection().removeAllRanges(), navigator.clipboard.writeText = () => Promise.reject()")
    page.click("#copy")
    page.wait(f"{SAID}.includes('selected')")
    assert page.evaluate(copy).rstrip("\n") == page.evaluate(SHOWN).rstrip("\n"), "text that can't be copied is selected"
    page.evaluate("root.getSelection().removeAllRanges(), delete navigator.clipboard.writeText")


@pytest.mark.usefixtures("long")
def test_playing(page):
    """The clock on the wall is that of the test."""
    run = "(() => {{ const p = page.player; p.pause(); p.speed = {speed}; p.skips = {skips}; p.loops = {loops}; p.now = {now}; p.isPlaying = true; p.advance({by}); const r = [p.now, p.isPlaying]; p.pause(); p.speed = 1; p.skips = true; p.loops = false; return r; }})()"

    def advanced(by, now, speed=1, skips="false", loops="false"):
        return page.evaluate(run.format(by=by, now=now, speed=speed, skips=skips, loops=loops))

    duration = page.evaluate("page.line.duration")
    assert advanced(2, 3) == [5, True] and advanced(2, 3, speed=4) == [11, True], "the speed"
    assert advanced(5, duration - 1) == [duration, False] and advanced(5, duration - 1, loops="true") == [0, True], "the end, and a loop"
    gap = page.evaluate("(() => { for (let i = 1; i < page.line.chunks; i++) if (page.line.time(i) - page.line.time(i - 1) > 3) return [page.line.time(i - 1), page.line.time(i)]; })()")
    assert advanced(1.1, gap[0], skips="true") == [gap[1], True] and advanced(0.9, gap[0], skips="true")[0] < gap[1], "pauses are skipped after a second"


def test_safety(page, url):
    fresh(page, url)
    page.evaluate("(() => { const made = document.createElement('script'); made.textContent = 'window.injected = 1'; document.body.append(made); })()")
    assert page.evaluate("window.injected === undefined"), "an injected script is refused"
    assert page.evaluate("fetch('https://example.com/').then(() => 'fetched', () => 'refused')") == "refused", "the network is refused"
    assert page.evaluate("(() => { try { return localStorage.length } catch { return 0 } })()") == 0, "nothing is stored"


@pytest.mark.usefixtures("long")
def test_looks(page):
    names = page.names()
    for role, name in [("group", "Terminal screen"), ("button", "Play"), ("slider", "Time"), ("searchbox", "Search all time"), ("button", "One chunk back"), ("button", "One chunk forth"),
                       ("button", "Previous time on the screen"), ("button", "Next time on the screen"), ("combobox", "Speed"), ("checkbox", "Skip pauses"), ("button", "Save picture"),
                       ("button", "Copy text"), ("button", "Copy link"), ("button", "Full screen"), ("group", "Markers"), ("status", None)]:
        assert any(r == role and (name is None or (n or "").strip() == name) for r, n in names), f"the name {name} of the {role}"
    for width, height in ((1000, 800), (667, 375), (640, 410), (375, 667), (320, 568)):
        page.size(width, height)
        assert page.evaluate(READABLE), f"its text can be read in {width} times {height} pixels"
        assert width < 640 or page.evaluate(FITS), f"it fits into {width} pixels"
    page.size(1000, 820)
    grounds = []
    for scheme in ("light", "dark"):
        page.media(prefers_color_scheme=scheme)
        grounds.append(page.evaluate("getComputedStyle(document.body).backgroundColor"))
    assert grounds[0] == "rgb(255, 255, 255)" and grounds[1] != grounds[0], "light and dark"
    page.media(media="print")
    assert page.evaluate("getComputedStyle(root.querySelector('.bar')).display") == "none" and page.evaluate("getComputedStyle(root.getElementById('screen')).backgroundColor") == "rgb(255, 255, 255)", "a print"
    page.media()


def test_widths(page, work):
    """The page is as wide as the smallest text needs, up to the window, and larger if there is room."""
    for columns, rows in ((80, 24), (132, 24), (120, 40), (200, 50)):
        page.go(work.page("widths.cast", cast([(0, b"x" * columns)], 2, (columns, rows))).as_uri())
        page.wait(READY)
        for width, height in ((1280, 720), (1366, 768), (2560, 1440)):
            page.size(width, height)
            room, needed = width - 2 * 16, 12 * (columns * 0.602 + 1.5)  # the page has a rem at both sides
            fits, wide, size = page.evaluate(f"[{FITS}, root.getElementById('screen').offsetWidth, parseFloat(getComputedStyle(root.getElementById('screen')).fontSize)]")
            assert fits if needed <= room else wide >= room, f"{columns}x{rows} in a window of {width}x{height}: {wide}, and {needed} is needed"
            assert size > 15 or width < 2560, f"the text of {columns}x{rows} in a window of {width}x{height}: {size}"
    page.size(1000, 820)


def test_phone(page, work):
    """On a phone the whole screen is shown after some presses of A-, and each press of A+ and A- changes the size."""
    page.size(375, 667)
    page.go(work.page("phone.raw", b"x" * 80).as_uri())
    page.wait(READY)
    sizes = []
    for button in ("larger", "smaller", "smaller", "smaller"):
        page.click(f"#{button}")
        sizes.append(page.evaluate("parseFloat(getComputedStyle(root.getElementById('screen')).fontSize)"))
    assert sizes == [15, 12, 9, 6] and page.evaluate(FITS), f"the sizes of the text on a phone: {sizes}"
    page.size(1000, 820)


def test_reverse(page, work):
    """Reverse video differs from blank cells in every way to show a page. Blank cells of both kinds are compared, and what is found."""
    data = b"\x1b[7m" + b" " * 40 + b"\x1b[m\r\n\r\n" + b"found" * 8 + b"\x1b[24;1H"
    screens = {"a screen": data, "a reversed screen": b"\x1b[?5h" + data}
    rows = [f"#screen > div:nth-child({number})" for number in (1, 2)]
    for what, data in screens.items():
        page.go(work.page("reverse.raw", data).as_uri())
        page.wait(READY)
        page.evaluate("page.player.go(1e9), page.search('found')")
        for media in ({}, {"forced_colors": "active"}, {"forced_colors": "active", "prefers_color_scheme": "dark"}, {"media": "print"}):
            page.media(**media)
            reversed_, blank = (page.pixels(row, 0.2) for row in rows)
            assert reversed_ != blank, f"reverse video on {what} with {media}"
            assert page.evaluate("['.r', 'mark'].every((each) => getComputedStyle(root.querySelector('#screen ' + each)).printColorAdjust === 'exact')"), f"reverse video on {what} in print"
        page.media()


def test_links(page, url):
    page.go(f"{url}#t=12.5")
    page.wait(READY)
    assert page.evaluate("page.player.now") == 12.5 and page.evaluate("page.link()").endswith("#t=12.5"), "a link to a moment"
    page.evaluate("location.hash = 't=3.25'")
    page.wait("page.player.now === 3.25")
    page.evaluate("location.hash = 't=0:00:24.5'")
    page.wait("page.player.now === 24.5")
    page.evaluate("location.hash = 'q=by%74es'")
    page.wait("page.player.needle === 'bytes' && page.player.span >= 0")
    assert page.evaluate("page.link()").endswith("#q=bytes"), "a link to a search"
    for end in ("#q=100%", "#q=%E0%A4%A", "#t=soon"):
        fresh(page, url + end)
        assert page.evaluate("document.documentElement.dataset.state") == "ready" and end in page.evaluate(SAID), f"the link {end}: {page.evaluate(SAID)}"
        page.click("#play")
        assert page.evaluate(PLAYED) == [0], f"a page that was opened by the link {end} plays"
    fresh(page, url + "#q=by%74es")
    page.wait("page.player.span >= 0")
    picture = page.evaluate("page.line.terminal.picture()")
    terminal = vt220.Terminal()
    terminal.feed(bytes(page.evaluate("[...page.line.terminal.repaint()]")))
    assert picture == terminal.picture() and page.evaluate("page.text()") == terminal.text().rstrip() + "\n", "the picture and the text of a moment"


def test_notes(page, long, work):
    """What a VT220 can't show is on the page; nothing is if there is nothing to say."""
    assert page.evaluate(NOTED) == "", "no notes"
    plain = [(micros, data) for micros, data in frames()[:50] if data.isascii()]
    odd = cast(plain, 2, (300, 20)) + '[99, "o", "\\u001bc→ café €"]\n[oh\n'.encode()
    page.go(work.page("odd.cast", odd, "--poster", "0.5", "--start", "1", "--loop", "--speed", "4").as_uri())
    page.wait(READY)
    told = page.evaluate(NOTED)
    for part in ("300 columns and 20 rows", "Colours", "breaks its format at byte"):
        assert part in told, f"the note of {part}: {told}"
    assert page.evaluate("[page.player.now, page.player.speed, page.player.loops === Infinity]") == [0.5, 4, True], "poster, speed and loop"
    page.evaluate(f"{LISTEN}, page.toggle()")
    assert page.evaluate(PLAYED) == [1], "it starts where it should"
    page.evaluate("page.player.pause()")  # it would begin again at its end
    page.evaluate("page.player.go(1e9)")
    assert page.evaluate(SHOWN).startswith("> café ¤\n"), "characters that a VT220 hasn't are shown as similar ones"
    for words, said in (["--encoding", "dec"], "look like UTF-8"), ([], "50 as a similar one"):
        page.go(work.page("plain.raw", "→ in UTF-8 ".encode() * 50 + b"\x1b[?3h\x1b[3;120Hwide", *words).as_uri())
        page.wait(READY)
        told = page.evaluate(NOTED)
        assert said in told and "9600 baud" in told, f"the notes of bytes, {words}: {told}"
    page.evaluate("page.player.go(1e9)")
    assert page.evaluate("page.line.terminal.width") == 132 and page.evaluate(SHOWN).split("\n")[2].endswith("wide"), "132 columns"
    assert page.evaluate(FITS), "132 columns fit"
    for words in [], ["--encoding", "utf-8"]:
        page.go(work.page("utf8.raw", "café".encode(), *words).as_uri())
        page.wait(READY)
        page.evaluate("page.player.go(1e9)")
        told = page.evaluate(NOTED)
        assert page.evaluate(SHOWN).startswith("café\n") and "UTF-8" not in told and "9600 baud" in told, f"a program in UTF-8, {words}: {told}"
    for data, text in ("café".encode(), "café ready"), (b"caf\xe9", "café ready"), (b"\xc3\xa9 \xe9", "Ã© é ready"):
        page.go(work.page("content.ttyrec", ttyrec([(0, data), (1500000, b" ready")])).as_uri())
        page.wait(READY)
        page.evaluate("page.player.go(1e9)")
        assert page.evaluate(SHOWN).startswith(text + "\n") and page.evaluate(NOTED) == "", f"the content of a ttyrec decides on its encoding: {data}, {page.evaluate(NOTED)}"
    both = b"main\x1b[?1049h\x1b[2J\x1b[Hother" + b" " * 30 + b"\x1b[?1049l page \xe2\x80\x9cx\xe2\x80\x9d"
    page.go(work.page("xterm.raw", both, "--terminal", "xterm").as_uri())
    page.wait(READY)
    page.evaluate("page.player.go(1e9)")
    told = page.evaluate(NOTED)
    assert page.evaluate(SHOWN).startswith('main page "x"\n') and "Colours" in told and "UTF-8" not in told, f"a program under TERM=xterm: {told}"
    page.evaluate("page.player.go(0.06)")
    assert page.evaluate(SHOWN).startswith("other\n"), "the alternate page in time"


def test_reasons(work):
    """What the program notes of a recording is on standard error, and its exit status is the program's. So is a fault of reading and of writing."""
    session, timing = work.place / "session", work.place / "wrong-timing"
    timing.write_text("no timing file\n")
    cut = cast([(0, b"one"), (10**6, b"two")], 2)[:-4]
    rows = [
        (b"", [], 1, "it has no output to play", False), (cast([], 2), [], 1, "it has no output to play", False), (b'{"version": 9}\n[0.5, "o", "x"]\n', [], 7, "a version that isn't known", False),
        (cut, [], BROKEN, "is broken at byte", True), (cut[:9], [], 0, "", True), (ttyrec([(0, b"one")])[:-1], [], BROKEN, "is broken at byte", False), (b"\x1f\x8b\x08\0\0\0", [], BROKEN, "it looks like a file of gzip", False),
        (scripted([(0, b"one")]), ["--timing", timing], BROKEN, "a timing file has lines such as", False), (scripted([]), ["--timing", "missing"], 4, "missing: No such file or directory", False),
        ("café".encode(), [], 0, "", True), ("café".encode() + b" " * 5000 + b"\xff", [], 0, "", True), ("café\x1b[?1049h".encode(), [], 0, "use --terminal xterm", True),
    ]  # fmt: skip
    for data, words, status, said, has_page in rows:
        session.write_bytes(data)
        ran = subprocess.run([TOOL, session, *words], capture_output=True, text=True)
        assert ran.returncode == status and said in ran.stderr and (said != "" or ran.stderr == "") and ("<title>" in ran.stdout) == has_page, f"{data[:30]} {words}: {ran.returncode}, {ran.stderr}"
        assert all(line.startswith("vt220-page: ") for line in ran.stderr.splitlines()), f"who says it: {ran.stderr}"
    session.write_bytes(b"one")
    for to, said in ((">/dev/full", "No space left on device"), (">&-", "Bad file descriptor")):
        ran = subprocess.run(["sh", "-c", f'"$1" "$2" {to}', "sh", TOOL, session], capture_output=True, text=True)
        assert (ran.returncode, ran.stderr) == (5, f"vt220-page: standard output: {said}\n"), f"{to}: {ran.returncode}, {ran.stderr}"
    for place in (work.place / "none", work.place):
        ran = subprocess.run([TOOL, place], capture_output=True, text=True)
        assert ran.returncode == 4 and ran.stderr.startswith(f"vt220-page: {place}: ") and ran.stderr.count("\n") == 1, f"{place}: {ran.stderr}"
    ran = subprocess.run([TOOL, session], capture_output=True, text=True, env={**os.environ, "VT220_PAGE": ""})
    assert ran.returncode == 1 and all(part in ran.stderr for part in ("the program vt220", "the template", "`make js` builds both")), f"without what it needs: {ran.stderr}"


def test_hits(page, work):
    """Each hit of a row is marked, and one of them can be seen."""
    page.go(work.page("hits.raw", b"text text, and Text").as_uri() + "#q=text")
    page.wait(READY)
    page.wait("page.player.spans.length > 0")
    page.evaluate("page.player.go(1e9)")
    assert page.evaluate("[...root.querySelectorAll('mark')].map((mark) => mark.textContent)") == ["text", "text", "Text"], "each hit of a row is marked"
    page.size(375, 667)
    page.go(work.page("right.raw", b"\x1b[1;70Hat the side").as_uri() + "#q=side")
    page.wait(READY)
    page.wait("root.querySelector('mark') !== null")
    sides = page.evaluate("['#screen', '#screen mark'].map((each) => root.querySelector(each).getBoundingClientRect().right)")
    assert sides[1] <= sides[0], f"a narrow screen scrolls to a hit: {sides}"
    page.size(1000, 820)


def test_damaged(page, work):
    """A page that can't begin says whether the browser or the recording is the reason."""
    path = work.page("whole.raw", b"text")
    broken = path.with_name("broken.html")
    said = []
    for field in ("bytes", "chunks"):
        broken.write_text(re.sub(rf'("{field}": )("[^"]*"|null)', r'\1"AAAA"', path.read_text(), count=1))
        page.go("about:blank")
        page.go(broken.as_uri())
        page.wait(READY)
        said.append(page.evaluate(SAID).partition(" (")[0])
    assert said == ["The recording is damaged."] * 2, f"what a damaged recording says: {said}"
    for name in ("DecompressionStream", "WebAssembly"):
        script = page.call("Page.addScriptToEvaluateOnNewDocument", source=f"delete globalThis.{name}")["identifier"]
        page.go("about:blank")
        page.go(path.as_uri())
        page.wait(READY)
        page.call("Page.removeScriptToEvaluateOnNewDocument", identifier=script)
        assert page.evaluate(SAID).startswith("This needs a browser of 2023") and name in page.evaluate(SAID), f"a browser without {name}: {page.evaluate(SAID)}"
    usable = page.evaluate("[...root.querySelectorAll('button, input, select')].some((each) => !each.matches(':disabled'))")
    assert not usable, "the controls of a page that can't begin"


# Notes the order in which the page shows the screen, ends its first frame and adds notes, and how often the module is asked for a glyph.
ORDER = """
window.order = [], window.asked = 0;
const { instantiate } = WebAssembly;
WebAssembly.instantiate = async (module) => {
  const { exports } = await instantiate(module);
  return { exports: { ...exports, shown: (code) => (asked++, exports.shown(code)) } };
};
const once = (what) => order.includes(what) || order.push(what);
const { attachShadow } = Element.prototype;
Element.prototype.attachShadow = function (how) {
  const root = attachShadow.call(this, how);
  new MutationObserver(() => {
    if (root.querySelector("#screen").textContent.includes("caf")) once("screen"), requestAnimationFrame(() => once("frame"));
    if (root.querySelector("#notes").textContent.includes("lacks")) once("note");
  }).observe(root, { subtree: true, childList: true, characterData: true });
  return root;
};
"""


def heights(page, path):
    """Returns the height of a player before the script of its page runs, and that of its screen afterwards."""
    half = path.with_name("half.html")
    half.write_text(path.read_text().partition("<script>")[0])
    page.go(half.as_uri())
    before = page.evaluate("document.querySelector('vt220-player').offsetHeight")
    page.go(path.as_uri())
    page.wait(READY)
    return before, page.evaluate("root.getElementById('screen').offsetHeight")


def test_sizes(page, work):
    """An option chooses another size than that of the recording's window. lib/js/tests/test_player.py has windows that change."""
    data = b'{"version": 2, "width": 100, "height": 30, "env": {"TERM": "vt220"}}\n[1, "o", "first"]\n[2, "r", "120x40"]\n'
    page.go(work.page("sizes.cast", data, "--size", "132x24").as_uri())
    page.wait(READY)
    assert page.evaluate("page.player.go(5), [page.line.terminal.rows, page.line.terminal.width]") == [24, 132] and "another size" in page.evaluate(NOTED), "an option chooses a size"
    for size in ("1x24", "80x1", "256x24", "80x256", "80", "x", "80x24x2"):
        ran = subprocess.run([TOOL, work.place / "sizes.cast", "--size", size], capture_output=True, text=True)
        assert ran.returncode == 2 and f"{size} isn't a size from 2x2 to 255x255" in ran.stderr, f"the size {size}: {ran.stderr}"


def test_loading(page, work):
    """Until its script runs, a page has the size that it has afterwards, says that it is loading, and has no control that can be used."""
    words = ["--encoding", "utf-8", "--poster", "9"]
    path = work.page("loading.raw", "café € “quoted” ".encode() * 300, *words)
    for size in (["--size", "120x40"], ["--size", "100x2"], ["--size", "132x24"]):
        before, after = heights(page, work.page("sized.raw", b"text", *size))
        assert abs(after - before) <= 1, f"the height before and after of {size}: {before}, {after}"
    before, _ = heights(page, path)
    page.go(path.with_name("half.html").as_uri())
    assert page.evaluate("document.querySelector('vt220-player').innerText") == "Loading", "it says that it is loading"
    assert page.evaluate("document.querySelector('button, input, select') === null"), "controls that can be used before"
    script = page.call("Page.addScriptToEvaluateOnNewDocument", source=ORDER)["identifier"]
    page.go(path.as_uri())
    page.wait(READY)
    told = page.evaluate(NOTED)
    page.call("Page.removeScriptToEvaluateOnNewDocument", identifier=script)
    after = page.evaluate("root.getElementById('screen').offsetHeight")
    assert abs(after - before) <= 1 and page.evaluate(SAID) == "", f"the height before and after: {before}, {after}"
    assert page.evaluate("[...root.querySelectorAll(':disabled')].length") == 0, "controls that can be used after"
    assert "900 as a similar one" in told, f"the note on characters: {told}"
    assert page.evaluate("order") == ["screen", "frame", "note"], f"the note comes after the first frame: {page.evaluate('order')}"
    assert page.evaluate("asked") <= 4, f"the module is asked once for each character: {page.evaluate('asked')} times"


# --- recordings by other programs ---


def carried(path):
    """Returns the bytes that a page has, and its chunks as pairs of microseconds and bytes, or None if it has no times."""
    text = path.read_text()
    recorded = json.loads(re.search(r'<script type="application/json">([^<]*)<', text)[1])
    recorded["bytes"] += "".join(re.findall(r' id="rest">([^<]*)<', text))
    content, listed = (recorded[name] and gzip.decompress(base64.b64decode(recorded[name])) for name in ("bytes", "chunks"))
    return content, listed and [tuple(map(int, line.split())) for line in listed.decode().split("\n")]


OTHERS = [pytest.param(*recording, id=f"{recording[0]}-{i}") for i, recording in enumerate(recordings())]


def test_text(work):
    narrow, wide = (carried(work.page(name, data, "--text"))[0] for name, data in (("narrow", b"one\ntwo \xe2\x94\x82\n" + b"x" * 80), ("wide", b"one\n" + b"x" * 81)))
    assert narrow == b"one\r\ntwo \xe2\x94\x82\r\n" + b"x" * 80 and wide == b"\x1b[?3hone\r\n" + b"x" * 81, "lines of text"
    piped = subprocess.run([TOOL, "--text", "--title", "piped", "-"], input=b"one\n", capture_output=True, check=True).stdout
    assert b"<title>piped</title>" in piped, "standard input"


def options_in(path):
    return json.loads(re.search(r'<script type="application/json">([^<]*)<', path.read_text())[1])["options"]


def test_typed(work):
    """A page has what was typed only if that is asked for, of asciinema and of script."""
    rows = [[0.5, "o", "$ "], [1, "i", "l"], [1.25, "i", "é\\\x03\x1b[A\t"], [3, "o", "end"]]
    data = b'{"version": 2, "width": 80, "height": 24}\n' + b"".join(json.dumps(row).encode() + b"\n" for row in rows)
    plain, shown = (options_in(work.page("typed.cast", data, *words)) for words in ([], ["--keystrokes"]))
    assert (plain["inputs"], plain["keystrokes"]) == ([], False), f"what was typed isn't there: {plain}"
    assert (shown["inputs"], shown["keystrokes"]) == ([[1, "l"], [1.25, "é\\\x03\x1b[A\t"]], True), f"what was typed: {shown}"
    words = (RECORDINGS / "script-both.typescript").read_bytes(), "--timing", RECORDINGS / "script-both.timing", "--keystrokes"
    inputs = options_in(work.page("typed.script", *words))["inputs"]
    assert [text for _, text in inputs] == ["printf '\\033[?3h\\033[2;101H'; echo right of 100\r", "head -n 3 notes\r", "exit\r"], f"what was typed under script: {inputs}"
    assert options_in(work.page("typed.raw", b"bytes", "--keystrokes"))["inputs"] == [], "bytes of a program have no input"


@pytest.mark.parametrize("name, words, data, chunks, options", OTHERS)
def test_others(page, work, name, words, data, chunks, options):
    """The pages of recordings by other programs, in the browser."""
    page.go(work.page("other", data, *words).as_uri())
    page.wait(READY)
    moments(page, chunks, 20, **options)
    page.evaluate("page.player.go(1e9)")
    assert page.evaluate(SHOWN) == (RECORDINGS / f"{name}.screen").read_text(), "the end"
    for needle in sorted({row[at : at + 6] for row in page.evaluate(SHOWN).split("\n")[::5] for at in (0, len(row) // 2)} - {""} | {"nowhere at all"}):
        found = page.evaluate(f"page.search({needle!r}).then(() => {FOUND})")
        assert found == spans_of(chunks, needle, **options), f"the times of {needle!r}: {found}"
    page.evaluate("page.search(''), page.player.go(1e9)")
    if name == "asciinema":
        assert "15 as a similar one, 3 as a mirrored question mark." in page.evaluate(NOTED), f"the characters without a glyph: {page.evaluate(NOTED)}"
    if name == "asciinema-wide":
        told = page.evaluate(NOTED)
        assert "columns" not in told and "Colours" in told and "lacks" not in told, f"the notes: {told}"
        assert page.evaluate("page.player.longestPause") == 1.5 and page.evaluate("document.title") == "A wide window", "the header"


def test_of_keeper(page, work):
    """README's commands for a session of vt220-keep."""
    commands = re.findall(r"^\$ (vt220-keep new .*|vt220-keep log .*|apps/page/vt220-page --timing .*)$", (HERE.parent / "README.md").read_text(), re.M)
    place = work.place / "keep"
    place.mkdir()
    (place / "apps").symlink_to(ROOT / "apps")
    (place / "Makefile").write_text("all:\n\t@printf 'made by make'\n")
    environment = {**os.environ, "KEEP_DIR": str(place / "sockets"), "KEEP_LINGER": "0", "KEEP_PATIENCE": str(PATIENCE), "PATH": f"{ROOT / 'out'}:{os.environ['PATH']}"}

    def ran(command):
        return subprocess.run(command, shell=True, cwd=place, env=environment, capture_output=True, text=True, check=True).stdout

    ran(commands[0])
    until(lambda: "job" not in ran("vt220-keep list --tsv"), "the end of the session")
    ran(commands[1])
    page.go((place / "job.html").as_uri())
    page.wait(READY)
    page.evaluate("page.player.go(page.line.duration)")
    assert page.evaluate(SHOWN).startswith("made by make\n") and page.evaluate(NOTED) == "", "a session of vt220-keep"
    ran("vt220-keep new job sh -c 'printf \"\\033[?3h\"; seq 100; seq -s _ 40; read answer'")
    until(lambda: "_40" in ran("vt220-keep text job"), "the end of the text")
    ran(commands[2])
    ran("vt220-keep kill job")
    page.go((place / "log.html").as_uri())
    page.wait(READY)
    page.evaluate("page.player.go(page.line.duration), page.search('57')")
    assert page.evaluate("page.player.spans.length") == 1 and "9600 baud" in page.evaluate(NOTED) and page.evaluate("document.title") == "job", "the log of a session of vt220-keep"
    page.evaluate("page.player.go(page.line.duration)")
    assert page.evaluate("page.line.terminal.width") == 132 and "_39_40\n" in page.evaluate(SHOWN), "a long line of a log"


def test_embedded(page, work, url):
    """A page that embeds this one is told of events, and can ask for some."""
    outer = work.place / "outer.html"
    outer.write_text("<!doctype html><title>outer</title><script>window.events = []; addEventListener('message', (e) => events.push(e.data))</script>"
                     "<iframe sandbox='allow-scripts' src='long.ttyrec.html' width=800 height=700></iframe>")
    page.go(outer.as_uri())
    page.wait("events.some((event) => event.vt220 === 'ready')")
    ask = "frames[0].postMessage({}, '*')"
    asks = [("seek', time: 5", "seek"), ("play'", "play"), ("pause'", "pause"), ("time'", "time"), ("seek', time: 1", "seek"), ("marker', by: 1", "seek"), ("marker', by: 1", "seek"), ("marker', by: -1", "seek"), ("search', text: 'bytes'", "seek")]
    for asked, event in [(f"{{vt220: '{words}}}", event) for words, event in asks]:
        page.evaluate(f"events.length = 0, {ask.replace('{}', asked)}")
        page.wait(f"events.some((told) => told.vt220 === '{event}')")
        told = page.evaluate(f"events.find((told) => told.vt220 === '{event}').time")
        assert event != "play" or told == 5, f"the message {event}: {told}"


def test_alone(page, work):
    """A page without controls, and with a loop of two turns."""
    page.go(work.page("alone.raw", b"alone" * 40, "--no-controls", "--loop", "2", "--start", "0:01").as_uri())
    page.wait(READY)
    assert page.evaluate("[document.querySelector('main'), root].map(({ children }) => [...children].filter((e) => e.offsetHeight > 0).map((e) => e.id))") == [["players"], ["stage"]] and page.evaluate(FITS), "the screen alone"
    assert page.evaluate("document.documentElement.scrollHeight <= innerHeight"), "the screen alone fits"
    assert page.evaluate("page.options.start") == 1, "a time with a colon"
    ends = page.evaluate("(() => { const p = page.player, seen = []; p.play(); for (let i = 0; i < 3; i++) p.advance(9), seen.push(p.isPlaying, p.now); return seen; })()")
    assert ends == [True, 0, True, 0, False, page.evaluate("page.line.duration")], f"two more turns: {ends}"


def test_in_firefox(firefox, url):
    made, page = frames(), firefox
    page.go(url + "#t=30")
    page.wait(READY)
    assert page.evaluate("document.documentElement.dataset.state") == "ready", "Firefox begins"
    for at in (10, 200, 400):
        terminal = vt220.Terminal()
        terminal.feed(b"".join(data for _, data in made[: at + 1]))
        page.evaluate(f"location.hash = 't={made[at][0] / 1e6!r}'")
        page.wait(f"{SHOWN} === {json.dumps(terminal.text())}")
        
    page.evaluate("location.hash = 'q=bytes'")
    page.wait("root.querySelectorAll('mark').length > 0")
    assert "on the screen" in page.evaluate("root.getElementById('said').textContent"), "Firefox: a search"
    page.evaluate("(() => { const made = document.createElement('script'); made.textContent = 'document.title = \"injected\"'; document.body.append(made); })()")
    assert page.evaluate("document.title") == "A <title> & more", "Firefox: an injected script is refused"
