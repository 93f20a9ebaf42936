"""The page in a headless Chromium, with real sessions; by keyboard, for screen readers, and attacked."""
import asyncio
import base64
import contextlib
import json
import os
import socket
import subprocess
import sys

import aiohttp
from yarl import URL

from harness import PATIENCE, PATIENT, ROOT, Source, asked, conf, ending, free_port, keys, launched, program, session, started, stores, vt220, wait_for, wanted
from fleet import gallery
from fleet.gallery import Picture
from fleet.web import UNKNOWN

sys.path.append(os.path.join(ROOT, "lib/js/tests"))

from browsers import Chromium

HOSTILE = "<b>bold</b><script>alert(1)</script>&amp;\"'"
MARKUP = "<img src=x onerror=alert(1)>\\033[1mBold \\033[7mreverse\\033[0m &lt; \\033[4munder"


class Browser(Chromium):
    """A page in a headless Chromium, which ends with the case."""

    def __init__(self, url, width=1500, height=900):
        super().__init__("about:blank", width, height)
        started.callback(self.close)
        self.call("Page.navigate", url=url)  # the page changes its address at once, so that one isn't waited for

    def type(self, text):
        for each in text:
            self.press(each, text=each)


class Served:
    """fleet web, on a port of its own."""

    def __init__(self, machine, *words, config=None):
        self.port = free_port()
        words = [*(["--config", config] if config else []), "web", "--port", str(self.port), *words]
        self.url = ending(launched(machine, *words, stderr=subprocess.PIPE, text=True)).stderr.readline().strip()
        wait_for(self.listens)

    def token(self):
        return self.url.split("#token=")[1]

    @contextlib.asynccontextmanager
    async def live(self, *sessions, token=None):
        """A browser's connection that has said the token, once it was told of these sessions."""
        async with aiohttp.ClientSession() as client, client.ws_connect(f"http://127.0.0.1:{self.port}/live") as socket:
            await socket.send_json({"token": token or self.token()})
            known = set()
            while not known >= set(sessions):
                known |= {each["session"] for each in json.loads((await socket.receive(PATIENCE)).data).get("news", [])}
            yield socket

    def listens(self):
        with socket.socket() as client:
            return client.connect_ex(("127.0.0.1", self.port)) == 0


# What is inside of the player.
INSIDE = "document.getElementById('screen').shadowRoot"


def lines(browser):
    return browser.evaluate(f"[...{INSIDE}.querySelectorAll('#screen > div')].map(e => e.textContent)")


def count(browser, selector):
    """Returns how many elements of the page a selector finds."""
    return browser.evaluate(f"document.querySelectorAll('{selector}').length")


def said(browser, name, what="textContent"):
    """Returns the text of an element of the page."""
    return browser.evaluate(f"document.getElementById('{name}').{what}")


def is_hidden(browser, name):
    return said(browser, name, "hidden")


def shows(browser, *wanted):
    """Waits until the screen has these lines."""
    wait_for(lambda: [line.rstrip() for line in lines(browser)] == [*wanted])


def choose(browser, name):
    buttons = "[...document.querySelectorAll('li button')]"
    browser.evaluate(f"{buttons}.find(e => e.querySelector('.name').textContent === {json.dumps(name)}).click()")


def terminal_of(store, name):
    return session.as_it_is(store, store.hget(keys.NAMES, name).decode()).terminal


def cursor_of(store, name):
    place = terminal_of(store, name).cursor()
    return place.row, place.col


def test_real_sessions_in_the_browser(machine):
    store = stores.connect(machine.url)
    served = Served(machine, "--typing")
    program(machine, "editor", ["vim", "-u", "NONE", "-i", "NONE", "-n"], "--input")
    program(machine, "top", ["top", "-d", "1"])
    program(machine, "flood", ["sh", "-c", "while :; do seq 1 100000; done"])
    program(machine, HOSTILE, ["sh", "-c", f"printf '{MARKUP}'; sleep infinity"])
    browser = Browser(served.url)
    wait_for(lambda: count(browser, "li") == 4)  # all sessions are there
    assert browser.evaluate("location.href") == f"http://127.0.0.1:{served.port}/", "the token is no longer in the address"
    names = browser.evaluate("[...document.querySelectorAll('.name')].map(e => e.textContent)")
    assert names == sorted(["editor", "top", "flood", HOSTILE]), f"by name: {names}"
    markup_is_text(browser)
    the_editor_is_typed_into(browser, store)
    by_keyboard_alone(browser)
    it_fits(browser)
    changes_arrive(browser, store)
    assert browser.said == [], f"the browser complains of nothing: {browser.said[:2]}"


def looking_at(served, name, count_of=1):
    """Returns a browser that shows a session."""
    browser = Browser(served.url)
    wait_for(lambda: count(browser, "li") == count_of)
    choose(browser, name)
    return browser


def test_sessions_of_several_sizes_in_the_browser(machine):
    """Each has the size of its session: a large one, and then a VT220 in its place, and back. It is resized, also to the size of a VT220. Another page that
    comes later shows the same."""
    served = Served(machine)
    large = Source(machine.url, "large", screen="120x40").send(b"first\r\n\033[40;100Hlast")
    Source(machine.url, "usual").send(b"a VT220\033[24;80H*")
    browser = looking_at(served, "large", 2)
    for _ in range(2):
        shows(browser, "first", *[""] * 38, " " * 99 + "last")
        choose(browser, "usual")
        shows(browser, "a VT220", *[""] * 22, " " * 79 + "*")
        choose(browser, "large")
    large.resize("130x42").send(b"\033[42;130H+")
    later = looking_at(served, "large", 2)
    for each in (browser, later):
        shows(each, "first", *[""] * 38, " " * 99 + "last", "", " " * 129 + "+")
    large.resize("80x24").send(b"\033[24;79Hup")
    for each in (browser, later):
        shows(each, *[""] * 23, " " * 78 + "up")
        assert each.said == [], "the browser complains of nothing"


# What is copied if the first row of the screen is selected.
COPIED = """((root, row) => {
  const copy = new ClipboardEvent("copy", { clipboardData: new DataTransfer(), bubbles: true, cancelable: true });
  root.getSelection().selectAllChildren(row);
  row.dispatchEvent(copy);
  return copy.clipboardData.getData("text/plain");
})(INSIDE, INSIDE.querySelector("#screen > div"))""".replace("INSIDE", INSIDE)


def markup_is_text(browser):
    choose(browser, HOSTILE)
    wanted = "<img src=x onerror=alert(1)>Bold reverse &lt; under"
    wait_for(lambda: lines(browser)[0].rstrip() == wanted)
    assert count(browser, "img, li b, main script, iframe") == 0, "and never markup, in a name, a title or a screen"
    assert said(browser, "title") == HOSTILE, "the title"
    looks = browser.evaluate(f"[...{INSIDE}.querySelectorAll('#screen span')].map(e => [e.textContent, e.className])")
    marked = [look for look in looks if "c" not in look[1].split()]
    assert marked == [["Bold ", "b"], ["reverse", "b r"], ["under", "u"]], f"attributes: {looks}"
    # In one script: between two the page may draw the row anew.
    copied = browser.evaluate(COPIED)
    assert copied == wanted, f"its text can be selected and copied: {copied!r}"


def the_editor_is_typed_into(browser, store):
    choose(browser, "top")
    assert is_hidden(browser, "type"), "no typing at a host that takes no input"
    choose(browser, "editor")
    wait_for(lambda: not is_hidden(browser, "type"))  # typing at one that does
    browser.type("x")
    browser.evaluate("document.getElementById('type').click()")
    browser.type("iHello <b>page</b>")
    browser.press("Enter", text="\r")
    browser.type("two")
    browser.press("Escape")
    wait_for(lambda: cursor_of(store, "editor") == (2, 3))  # ESC ends the insertion, and the cursor goes back
    for name in ("ArrowLeft", "ArrowUp"):
        browser.press(name)
    browser.type("i!")
    browser.press("Escape")
    wanted_lines = ["H!ello <b>page</b>", "two"]
    are_shown = wait_for(lambda: [line.rstrip() for line in lines(browser)[:2]] == wanted_lines)
    assert are_shown, f"keys arrive in order, once: {lines(browser)[:3]}"
    assert terminal_of(store, "editor").text().splitlines()[:2] == wanted_lines, "at the program"
    browser.press("]", control=True)
    assert browser.evaluate("document.activeElement.id") == "type", "Ctrl+] leaves the screen"


def it_fits(browser):
    """The page fits a phone, where a screen scrolls to the side, and is light or dark as the reader wants."""
    browser.size(375, 700)
    sizes = browser.evaluate("[document.documentElement.scrollWidth, innerWidth]")
    assert sizes[0] <= sizes[1], f"the page fits a phone: {sizes}"
    browser.call("Emulation.clearDeviceMetricsOverride")
    grounds = []
    for scheme in ("light", "dark"):
        browser.media(prefers_color_scheme=scheme)
        grounds.append(browser.evaluate("getComputedStyle(document.body).backgroundColor"))
    assert grounds[0] == "rgb(255, 255, 255)" != grounds[1], f"light and dark: {grounds}"
    browser.media()


def by_keyboard_alone(browser):
    browser.evaluate("document.body.focus(); document.activeElement.blur()")
    seen = []
    focused = "(e => e.id || (e.querySelector('.name') || {}).textContent || e.className)(document.activeElement)"
    for _ in range(20):  # the player has six controls
        browser.press("Tab")
        seen.append(browser.evaluate(focused))
    for each in ("skip", "filter", "editor", "top", "flood", HOSTILE, "type", "announce", "screen"):
        assert each in seen, f"Tab reaches {each}: {seen}"
    browser.evaluate("[...document.querySelectorAll('li button')].find(e => e.textContent.startsWith('top')).focus()")
    browser.press("Enter", text="\r")
    assert said(browser, "title") == "top", "Enter chooses a session"
    parts = {"button": "editor, running", "searchbox": "Filter", "heading": "top", "navigation": "Sessions", "checkbox": "Announce changes"}
    for each in parts.items():
        wait_for(lambda: each in browser.names())
    names = [said for role, said in browser.names() if role in ("group", "region")]
    assert "Screen of top" in names, f"and the screen by its name: {names}"
    browser.evaluate("document.getElementById('announce').click()")
    wait_for(lambda: len(said(browser, "said")) > 20)  # changes are announced
    browser.evaluate("document.getElementById('announce').click()")


# Another connection: its messages, until there are COUNT of them and two have bytes of the session MOVING, and how many seconds they took.
MESSAGES = """new Promise(done => {
  const got = [], begun = performance.now(), other = new WebSocket(socket.url);
  let moves = 0;
  other.addEventListener("open", () => other.send(JSON.stringify({ token: sessionStorage.getItem("token") })));
  other.addEventListener("message", event => {
    got.push(event.data);
    moves += (JSON.parse(event.data).news || []).some(each => each.session === MOVING && each.bytes);
    if (got.length < COUNT || moves < 2) return;
    other.close();
    done([(performance.now() - begun) / 1000, got]);
  });
})"""


def changes_arrive(browser, store):
    """Only what changed is sent; the flood doesn't hold up the rest. However slow the machine is, messages don't come sooner."""
    top, still = (store.hget(keys.NAMES, each).decode() for each in ("top", HOSTILE))
    seconds, got = browser.evaluate(MESSAGES.replace("COUNT", "100").replace("MOVING", json.dumps(top)))
    assert seconds > len(got) / 40, f"at most some messages a second: {len(got)} in {seconds:.2f} s"
    news = [each for message in got for each in json.loads(message).get("news", []) if each["session"] == still]
    assert sum("bytes" in each for each in news) == 1, f"a session that stands still is sent once: {news}"
    choose(browser, "flood")
    before = lines(browser)
    wait_for(lambda: lines(browser) != before)  # the flood moves


def its_terminal_is_the_session_s(browser, source):
    """The page has played bytes: its terminal has also what no screen shows."""
    repaint = f"btoa(String.fromCharCode(...sessions.get({json.dumps(source.incarnation)}).terminal.repaint()))"
    state = base64.b64encode(terminal_of(source.store, source.name).repaint()).decode()
    wait_for(lambda: browser.evaluate(repaint) == state)  # the page's terminal has the state of the session
    assert browser.evaluate("performance.getEntriesByType('resource').length") == 0, "and the page loads nothing"


def test_ended_and_faulty_sessions_are_shown(machine, data):
    served = Served(machine)
    done, bad = Source(machine.url, "done").send(data).end(7), Source(machine.url, "bad").send(b"ab")
    bad.store.xadd(bad.part("bytes"), {"v": "9", "bytes": "c"}, id="3-0")
    Source(machine.url, "gone", lease=0.01).send(b"gone")
    for number in range(60):
        Source(machine.url, f"many-{number:03}").send(b"Session %d" % number)
    browser = Browser(served.url, 900, 1000)
    wait_for(lambda: count(browser, "li") == 63)  # all are there
    facts = "[...document.querySelectorAll('li')].map(e => [e.querySelector('.name').textContent, e.querySelector('.how').textContent])"
    said = lambda: dict(browser.evaluate(facts))
    wait_for(lambda: said()["bad"].startswith("fault: Version"))
    wait_for(lambda: said()["done"] == "ended 7" and said()["gone"] == "no host")
    bad.store.xdel(bad.part("bytes"), "3-0")
    wait_for(lambda: said()["bad"] == "running")  # a fault ends with its cause
    choose(browser, "done")
    text = wanted("text", data)[1].decode().splitlines()
    wait_for(lambda: [line.rstrip() for line in lines(browser)] == text)  # the screen of one that ended
    its_terminal_is_the_session_s(browser, done)
    choose(browser, "many-042")
    wait_for(lambda: lines(browser)[0].rstrip() == "Session 42")  # and of one of many
    assert browser.evaluate("document.documentElement.scrollWidth <= innerWidth"), "nothing is wider than the window"
    browser.evaluate("const f = document.getElementById('filter'); f.value = '-04'; f.dispatchEvent(new Event('input'))")
    assert count(browser, "li") == 10, "a filter"


def tell(client, picture):
    """Tells a client, a terminal and the number that it knows, what a picture has since then."""
    news = picture.since(client[1]) or {}
    client[0].feed(base64.b64decode(news.get("bytes", "")))
    client[1] = picture.number


USUAL = "80x24", ""  # the size of a session that wasn't resized


def test_clients_are_led_where_a_session_is(data, monkeypatch):
    """One is told each change, others some of them; one knew another picture, and one comes at the end. Few updates are kept."""
    monkeypatch.setattr(gallery, "KEPT", 500)
    picture, session, shown = Picture("x"), vt220.Terminal(), vt220.Terminal()
    clients = {every: [vt220.Terminal(), -1] for every in (1, 7, len(data))}
    other = Picture("x")
    other.follow(vt220.Terminal(), USUAL)
    tell(clients[7], other)
    for step, at in enumerate(range(0, len(data), 50)):
        session.feed(data[at : at + 50])
        if session.is_between():
            update = shown.update(session)
            picture.follow(shown, USUAL, update if step % 20 else None)
            assert sum(len(update) for _, update in picture.updates) == picture.kept <= 500
        for every, client in clients.items():
            if step % every == every - 1:
                tell(client, picture)
    for every, client in clients.items():
        tell(client, picture)
        assert client[0].same_state(shown), f"one that is told after {every} changes"
    assert picture.since(picture.number) is None, "nothing is left to be told"


def test_the_page_sends_the_keys_of_a_vt220(machine):
    """Under LNM, DECCKM and S8C1T. The bytes are those of the VT220's manual, chapter 3."""
    served, wanted = Served(machine, "--typing"), b""
    source = Source(machine.url, "keys", takes_input=True).send(b"\033[20h\033[?1h\033 Gready")
    browser = looking_at(served, "keys")
    shows(browser, "ready", *[""] * 23)
    wait_for(lambda: not is_hidden(browser, "type"))
    browser.evaluate("document.getElementById('type').click()")
    for pressed, sent in (
        (lambda: browser.press("Enter", text="\r"), b"\r\n"),
        (lambda: [browser.press(each) for each in ("Delete", "Backspace", "ArrowUp", "Home", "F1", "F10")], b"\x9b3~\x7f\x8fA\x9b1~\x8fP\x9b21~"),
        (lambda: browser.press("c", control=True), b"\x03"),
        (lambda: browser.type("éœÿ"), b"\xe9\xf7\xfd"),
        # A German keyboard of a Mac has these by Option and L, 5, 7. Alt and a letter is for the browser.
        (lambda: [browser.press(sign, text=sign, alt=True) for sign in "f@[|"], b"@[|"),
        (lambda: browser.type("3÷4"), b"34"),
    ):
        pressed()
        wanted += sent
        wait_for(lambda: source.keys() == wanted)
    browser.type("÷")
    wait_for(lambda: "no key of a VT220 sends '÷'" in said(browser, "problem"))
    asyncio.run(is_refused(served, Source(machine.url, "read-only").send(b"x").incarnation))


async def is_refused(served, session):
    """Waits until the page is told why what it typed isn't sent."""
    async with served.live(session) as socket:
        await socket.send_json({"session": session, "text": "y"})
        while "allows no input" not in (await socket.receive(PATIENCE)).data:
            pass


FIRST = ("", "x", "[]", "{}", '{"token": 1}', '{"token": ""}', '{"token": "a guess"}', '{"token": "\\ud800"}')


async def refusal(client, address, first):
    """Returns the code with which a connection ends that begins with this message."""
    async with client.ws_connect(address) as socket:
        await socket.send_str(first)
        await socket.receive(PATIENCE)
        return socket.close_code


async def type_without_right(served, session):
    async with served.live(session) as socket:
        for bad in ({"text": "id\r"}, {"session": "x", "text": "y"}, {}, {"key": "nosuch"}):
            await socket.send_json({"session": session} | bad)
        await socket.send_json([])
        await socket.send_json("x")
        await socket.send_str("no JSON")
        errors = 0
        while errors < 7:
            errors += "error" in json.loads((await socket.receive(PATIENCE)).data)
        assert errors == 7, "what may not be typed is refused, and the connection lives"


def test_only_the_token_opens_the_page(machine):
    served = Served(machine)
    source = Source(machine.url, "session", takes_input=True).send(b"x")
    base, token = f"http://127.0.0.1:{served.port}", served.token()
    assert served.url.startswith("http://127.0.0.1:") and len(token) >= 32, "on 127.0.0.1 alone, with a long token"

    async def ask():
        async with aiohttp.ClientSession() as client:
            for first in FIRST + (json.dumps({"token": token + "x"}), json.dumps({"token": token[:-1]})):
                code = await refusal(client, base + f"/live?token={token}", first)
                assert code == UNKNOWN, f"{first}: {code}"
            for path in ("/page.js", "/../cli.py", "/%2e%2e/cli.py", "//etc/passwd"):
                status = (await client.get(URL(f"{base}{path}?token={token}", encoded=True))).status  # as it is written
                assert status in (403, 404), f"{path}: {status}"
            async with client.get(base + "/") as answer:
                assert token not in await answer.text(), "the page has no token"
                policy = answer.headers["Content-Security-Policy"]
                loose = policy.replace("'wasm-unsafe-eval'", "")
                assert answer.status == 200 and "default-src 'none'" in policy and "unsafe" not in loose, "a strict policy"
                assert answer.headers["Referrer-Policy"] == "no-referrer", "the token leaks to no other page"
            status = 101
            try:
                await client.ws_connect(f"{base}/live", origin="http://evil.example")
            except aiohttp.WSServerHandshakeError as refused:
                status = refused.status
            assert status == 403, "another page's script is refused"
            await type_without_right(served, source.incarnation)

    asyncio.run(ask())
    assert not source.store.exists(source.part("keys")), "nothing was typed"


def the_page_asks_for_the_token(address, token):
    """Typed into its field, it opens the page. It comes into no address, so into no history and no log."""
    browser = Browser(address)

    def typed(what):
        browser.evaluate(f"document.getElementById('token').value = {json.dumps(what)}; document.getElementById('enter').requestSubmit()")

    wait_for(lambda: browser.evaluate("document.getElementById('enter')?.hidden === false"))  # the page asks for the token
    typed("a guess")
    wait_for(lambda: "not the token" in said(browser, "problem"))  # a wrong one is refused
    assert not is_hidden(browser, "enter"), "and asked for again"
    typed(token)
    wait_for(lambda: "session" in said(browser, "summary"))  # the right one opens the page
    assert browser.evaluate("location.href") == address and is_hidden(browser, "enter"), "and isn't in its address"


def test_a_token_of_a_file_is_not_printed(machine):
    """What a service prints is in the journal."""
    token = "0123456789abcdef-of-a-file"
    file = conf(machine, "token", token)
    served = Served(machine, config=conf(machine, "web.conf", *PATIENT, "[web]", f"token-file = {file}"))
    assert token not in served.url and file in served.url, f"the file is named: {served.url}"
    the_page_asks_for_the_token(f"http://127.0.0.1:{served.port}/", token)

    async def ask():
        async with served.live(token=token) as connection:
            return json.loads((await connection.receive(PATIENCE)).data)

    assert "typing" in asyncio.run(ask()), "its token opens the page"
    assert asked(served.port, "healthz")[0] == 200, "it is well, and tells that without the token"
    machine.kill()
    assert asked(served.port, "healthz")[0] == 503, "without a store it isn't"
    machine.start()
