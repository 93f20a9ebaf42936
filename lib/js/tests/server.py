"""The server of the package, and of pages that have it."""
import base64
import collections
import hashlib
import http.server
import pathlib
import queue
import struct
import threading

from browsers import PATIENCE
from vt220.page import recording

ROOT = pathlib.Path(__file__).resolve().parents[3]
PACKAGE = ROOT / "out/js/package"
TYPES = {".js": "text/javascript", ".mjs": "text/javascript", ".wasm": "application/wasm", ".html": "text/html; charset=utf-8", ".json": "application/json"}
# A page with players. It notes their events, and when each is ready.
PAGE = """<!doctype html><html lang="en"><title>%(title)s</title><script>
window.events = [];
const note = (event) => events.push([event.target.id, event.type, event.detail?.time ?? null, event.detail?.data ?? null]);
for (const name of ["ready", "play", "pause", "ended", "seeked", "marker", "input", "offline", "error"]) addEventListener(name, note, { capture: true });
window.ready = (...ids) => ids.every((id) => events.some(([where, what]) => where === id && what === "ready"));
window.see = (id) => (window.host = document.getElementById(id), window.root = host.shadowRoot, window.view = host.view, true);
</script>%(before)s%(players)s%(after)s"""
MODULE = '<script type="module" src="/vt220/src/player.js"></script>'
# How much of a file comes before the test lets the rest come.
HELD = 300000


class Server:
    """Serves the package at /vt220/, files of a directory, and what is live: /events, and the WebSocket /socket. Of a file below /held/ it sends the first bytes, so
    many as `held` has, and the rest when the test lets it go on."""

    def __init__(self, place):
        self.place, self.asked, self.lines, self.goes_on, self.held = place, collections.Counter(), queue.Queue(), threading.Event(), HELD
        server = self

        class Handler(http.server.BaseHTTPRequestHandler):
            protocol_version = "HTTP/1.1"

            def log_message(self, *_):
                pass

            def do_GET(self):
                server.asked[self.path] += 1
                acts = {"/events": self.events, "/socket": self.socket}
                acts.get(self.path, self.file)()

            def file(self):
                is_held = self.path.startswith("/held/")
                path = PACKAGE / self.path[7:] if self.path.startswith("/vt220/") else server.place / self.path[6 if is_held else 1 :]
                data = path.read_bytes() if path.is_file() else b""
                self.send_response(200 if path.is_file() else 404)
                self.send_header("Content-Type", TYPES.get(path.suffix, "text/plain"))
                self.send_header("Content-Length", str(len(data)))
                self.end_headers()
                self.wfile.write(data[:server.held] if is_held else data)
                if is_held and server.goes_on.wait(PATIENCE):
                    self.wfile.write(data[server.held:])

            def sent(self, framed):
                """Sends what the test puts into the queue, until that is None: the connection then ends."""
                self.close_connection = True
                while (data := server.lines.get()) is not None:
                    self.wfile.write(framed(data))
                    self.wfile.flush()

            def events(self):
                self.send_response(200)
                self.send_header("Content-Type", "text/event-stream")
                self.end_headers()
                self.wfile.write(b"retry: 1\n\n")
                self.sent(lambda data: b"event: size\ndata: %s\n\n" % data.encode() if isinstance(data, str) else b"data: " + base64.b64encode(data) + b"\n\n")

            def socket(self):
                key = self.headers["Sec-WebSocket-Key"] + "258EAFA5-E914-47DA-95CA-C5AB0DC85B11"  # RFC 6455, 1.3
                self.send_response(101)
                self.send_header("Upgrade", "websocket")
                self.send_header("Connection", "Upgrade")
                self.send_header("Sec-WebSocket-Accept", base64.b64encode(hashlib.sha1(key.encode()).digest()).decode())
                self.end_headers()
                # A frame of bytes, whose length has 7 or 16 bits, or of a text (RFC 6455, 5.2).
                head = lambda size: struct.pack(">BB", 0x82, size) if size < 126 else struct.pack(">BBH", 0x82, 126, size)  # noqa: E731
                self.sent(lambda data: struct.pack(">BB", 0x81, len(data) + 5) + b"size " + data.encode() if isinstance(data, str) else head(len(data)) + data)

        self.http = http.server.ThreadingHTTPServer(("127.0.0.1", 0), Handler)
        self.http.daemon_threads = True
        threading.Thread(target=self.http.serve_forever, daemon=True).start()
        self.url = f"http://127.0.0.1:{self.http.server_port}/"

    def page(self, name, players, before="", after=MODULE):
        (self.place / name).write_text(PAGE % {"title": name, "players": players, "before": before, "after": after})
        return self.url + name

    def data(self, name, content, chunks, **options):
        (self.place / name).write_text(recording(content, chunks, name, **options))
