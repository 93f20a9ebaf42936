"""A page in the browser with live pictures of all sessions. It listens on 127.0.0.1 unless told otherwise. The page itself is the same for all
who ask. Only a connection that begins with the token is told of sessions. The token is in no request's address: logs and histories have those.

A session's screen reaches the page as bytes, which a terminal there plays. The page puts its characters and all names into text nodes: none is
ever markup.
"""
import asyncio
import errno
import hmac
import json
import logging
import os
import re
import secrets
import sys
import threading
from urllib.parse import urlsplit

import vt220
from aiohttp import WSMsgType, web
from vt220.keyboard import spelled
from vt220.page import hashed

from .gallery import Gallery
from .operate import Sender, Typist

log = logging.getLogger("fleet.web")

HERE = os.path.join(os.path.dirname(os.path.abspath(__file__)), "page")
PAUSE = 0.04  # seconds between two messages to a client
TYPED = 64  # messages of keys for one session that wait, at most: a program that reads nothing holds up nobody's keys for others
ENTERING = 10.0  # seconds that a client has to say the token
UNKNOWN = 4403  # the code with which a connection without the token is closed; page.js knows it
BUILT = os.path.join(HERE, "..", "..", "..", "..", "out", "js")  # of this repository
SCREEN = "screen.global.js"  # the terminal with its screen, which `make js` builds; the package has it next to the page
POLICY = (
    "default-src 'none'; script-src {SCREEN} {SCRIPT} 'wasm-unsafe-eval'; style-src {STYLE}; connect-src 'self'; "
    "base-uri 'none'; form-action 'none'; frame-ancestors 'none'"
)


def part(name):
    """Returns the text of a file of the page. Raises FileNotFoundError if there is none."""
    place = next((each for each in (HERE, BUILT) if os.path.exists(os.path.join(each, name))), None)
    if place is None:
        raise FileNotFoundError(errno.ENOENT, "the page needs this file, which `make js` builds", name)
    with open(os.path.join(place, name), encoding="utf-8") as file:
        return file.read()


def document():
    """Returns the page, and its policy: the hashes of its style and its scripts, and WebAssembly."""
    parts = {"STYLE": part("page.css"), "SCREEN": part(SCREEN), "SCRIPT": part("page.js")}
    text = re.sub(r"/\*(STYLE|SCREEN|SCRIPT)\*/", lambda match: parts[match[1]], part("page.html"))
    return text, POLICY.format(**{name: hashed(each) for name, each in parts.items()})


def token_of(path):
    """Returns the token of a file, or a new one."""
    if not path:
        return secrets.token_urlsafe(24)
    with open(path) as file:
        token = file.read().strip()
    if len(token) < 16:
        raise ValueError(f"{path}: a token has at least 16 characters")
    return token


def problem(error):
    return json.dumps({"error": f"{type(error).__name__}: {error}"})


class Page:
    def __init__(self, store, asked, settings):
        """Makes the page over a store, whose calls wait for ever. Those of `asked`, for the page's health, give up."""
        self.store, self.asked, self.settings, self.token = store, asked, settings, token_of(settings.token_file)
        self.text, self.policy = document()
        self.gallery = Gallery(store, self.changed)
        self.loop, self.events = None, set()

    def changed(self):
        if self.loop:
            self.loop.call_soon_threadsafe(lambda: [event.set() for event in self.events])

    def admits(self, said):
        """Returns whether the first message of a client, if it has sent one, has the token."""
        try:
            given = json.loads(said)["token"].encode("utf-8", "replace")
        except (AttributeError, KeyError, TypeError, ValueError):
            given = b""
        return hmac.compare_digest(given, self.token.encode())

    async def index(self, _):
        headers = {
            "Content-Security-Policy": self.policy,
            "Referrer-Policy": "no-referrer",
            "Cache-Control": "no-store",
            "X-Content-Type-Options": "nosniff",
            "X-Frame-Options": "DENY",
        }
        return web.Response(text=self.text, content_type="text/html", headers=headers)

    async def health(self, _):
        """Returns 200 if the store answers, otherwise 503."""
        problem = await asyncio.get_running_loop().run_in_executor(None, self.problem)
        return web.Response(status=503 if problem else 200, text=f"{problem or 'ok'}\n")

    def problem(self):
        try:
            self.asked.ping()
            return ""
        except Exception as error:
            log.warning("the store can't be read: %s: %s", type(error).__name__, error)
            return "the store can't be read"

    async def live(self, request):
        """A client's connection: first the token comes; then what changed goes there, and keys come from there."""
        origin = request.headers.get("Origin")
        if origin and urlsplit(origin).netloc != request.host:
            raise web.HTTPForbidden(text="Another page's.\n")
        socket = web.WebSocketResponse(heartbeat=20, max_msg_size=65536)
        await socket.prepare(request)
        try:
            first = (await socket.receive(timeout=ENTERING)).data
        except asyncio.TimeoutError:
            first = None
        if not self.admits(first):
            await socket.close(code=UNKNOWN)
            return socket
        event, self.gallery.clients = asyncio.Event(), self.gallery.clients + 1
        self.events.add(event)
        event.set()
        sender = asyncio.ensure_future(self.send(socket, event))
        try:
            await self.receive(socket)
        finally:
            sender.cancel()
            self.events.discard(event)
            self.gallery.clients -= 1
        return socket

    async def send(self, socket, event):
        told, order, first = {}, None, {"typing": self.settings.typing}
        while True:
            await event.wait()
            event.clear()
            news = self.gallery.since(told)
            if news["order"] == order:
                del news["order"]
            order = news.get("order", order)
            if news.get("news") or "order" in news or first:
                text, first = json.dumps(news | first), {}
                await socket.send_str(text)
            await asyncio.sleep(PAUSE)

    async def receive(self, socket):
        typed = {}
        try:
            async for message in socket:
                if message.type != WSMsgType.TEXT:
                    break
                try:
                    self.hear(json.loads(message.data), socket, typed)
                except Exception as error:
                    await socket.send_str(problem(error))
        finally:
            for sender in typed.values():
                sender.finish(0)

    def hear(self, said, socket, typed):
        """Takes keys: {"session": .., "text": characters} or {"session": .., "key": a name of vt220-keys.h}."""
        followed = self.gallery.followed.get(str(said.get("session")))
        if not followed:
            raise ValueError("no such session")
        if not self.settings.typing:
            raise PermissionError("this page doesn't type: fleet web --typing")
        modes = followed.picture.modes
        encoding, terminal, _ = followed.language
        data = vt220.key(str(said["key"]), modes, terminal=terminal) if "key" in said else spelled(str(said["text"])[:4096], modes, encoding)
        if followed.incarnation not in typed:
            typist = Typist(self.store, followed.incarnation)
            typed[followed.incarnation] = Sender(typist, lambda error: asyncio.run_coroutine_threadsafe(socket.send_str(problem(error)), self.loop))
        sender = typed[followed.incarnation]
        if sender.waiting.qsize() >= TYPED:
            raise sender.typist.unread()
        sender.type(data)

    async def start(self, app):
        self.loop = asyncio.get_running_loop()
        threading.Thread(target=self.gallery.run, daemon=True).start()

    def application(self):
        app = web.Application()
        app.add_routes([web.get("/", self.index), web.get("/live", self.live), web.get("/healthz", self.health)])
        app.on_startup.append(self.start)
        return app


def serve(store, asked, settings):
    """Serves the page until Ctrl-C."""
    page = Page(store, asked, settings)
    where = f"[{settings.address}]" if ":" in settings.address else settings.address
    # What a service prints is in the journal, which others may read. So a token of a file is never printed.
    address = f"http://{where}:{settings.port}/"
    address += f" which asks for the token in {settings.token_file}" if settings.token_file else f"#token={page.token}"

    def announce(_):
        """Prints the address, once the page is served there."""
        print(address, file=sys.stderr, flush=True)

    web.run_app(page.application(), host=settings.address, port=settings.port, print=announce, access_log=None)
    return 0
