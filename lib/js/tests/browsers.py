"""Pages in headless browsers: Chromium by its DevTools protocol over a pipe, and Firefox by Marionette. They need no package of Python."""
import base64
import json
import os
import shutil
import socket
import subprocess
import tempfile
import time

# No test depends on how fast the machine is: what is waited for comes, or hangs.
PATIENCE = 300


def until(holds, what):
    """Waits until a call returns something true, and returns that."""
    end = time.monotonic() + PATIENCE
    while time.monotonic() < end:
        if found := holds():
            return found
        time.sleep(0.02)
    raise TimeoutError(what)


def found(selector):
    """Returns a script that finds an element in a page, or in the first player of it."""
    return f"[document, document.querySelector('vt220-player')?.shadowRoot].map((root) => root?.querySelector({json.dumps(selector)})).find(Boolean)"


class Page:
    """What the pages of both browsers have. `evaluate` awaits a promise."""

    def wait(self, script):
        until(lambda: self.evaluate(script), script)

    def picture(self, path):
        """Writes a picture of what the window shows."""
        with open(path, "wb") as file:
            file.write(base64.b64decode(self.pictured()))

    def end(self):
        """Kills the browser, and removes its profile. Nothing of it is kept, and to close may take minutes on a busy machine."""
        self.process.kill()
        self.process.wait()
        shutil.rmtree(self.folder, ignore_errors=True)


class Chromium(Page):
    def __init__(self, url, width=1000, height=820, options=()):
        to_read, self.to = os.pipe()
        self.back, to_write = os.pipe()
        self.folder = tempfile.mkdtemp(prefix="chromium-")
        words = ["chromium", "--headless=new", "--no-sandbox", "--disable-gpu", "--disable-dev-shm-usage", "--no-first-run", "--hide-scrollbars",
                 "--remote-debugging-pipe", f"--user-data-dir={self.folder}", f"--window-size={width},{height}", *options, "about:blank"]
        # The browser reads from descriptor 3 and writes to 4. The shell moves them there: bash, since dash knows no descriptors beyond 9.
        shell = ["bash", "-c", f'exec "$@" 3<&{to_read} 4>&{to_write}', "bash", *words]
        self.process = subprocess.Popen(shell, pass_fds=(to_read, to_write), stdin=subprocess.DEVNULL, stdout=subprocess.DEVNULL, stderr=subprocess.DEVNULL)
        os.close(to_read)
        os.close(to_write)
        self.number, self.rest, self.session, self.said = 0, b"", None, []
        target = until(lambda: next((t for t in self.call("Target.getTargets")["targetInfos"] if t["type"] == "page"), None), "a page")
        self.session = self.call("Target.attachToTarget", targetId=target["targetId"], flatten=True)["sessionId"]
        for domain in ("Page", "Runtime", "Log"):
            self.call(f"{domain}.enable")
        self.go(url)

    def go(self, url):
        self.call("Page.navigate", url=url)
        self.wait(f"location.href === {json.dumps(url)} && document.readyState === 'complete'")

    def _next(self):
        while b"\0" not in self.rest:
            data = os.read(self.back, 1 << 20)
            if not data:
                raise EOFError("Chromium ended")
            self.rest += data
        message, self.rest = self.rest.split(b"\0", 1)
        return json.loads(message)

    def call(self, method, **parameters):
        self.number += 1
        message = {"id": self.number, "method": method, "params": parameters, **({"sessionId": self.session} if self.session else {})}
        data = json.dumps(message).encode() + b"\0"
        while data:
            data = data[os.write(self.to, data) :]
        while True:
            answer = self._next()
            if answer.get("id") == self.number:
                if "error" in answer:
                    raise RuntimeError(f"{method}: {answer['error']}")
                return answer["result"]
            if answer.get("method") in ("Runtime.consoleAPICalled", "Runtime.exceptionThrown", "Log.entryAdded", "Page.javascriptDialogOpening"):
                self.said.append(answer["params"])

    def evaluate(self, script):
        got = self.call("Runtime.evaluate", expression=script, awaitPromise=True, returnByValue=True)
        if "exceptionDetails" in got:
            raise RuntimeError(got["exceptionDetails"].get("exception", {}).get("description", got["exceptionDetails"]))
        return got["result"].get("value")

    def press(self, key, code=None, text=None, shift=False, alt=False, control=False):
        words = {"key": key, "code": code or key, "modifiers": 8 * shift + 2 * control + alt, **({"text": text} if text else {})}
        self.call("Input.dispatchKeyEvent", type="keyDown", **words)
        self.call("Input.dispatchKeyEvent", type="keyUp", **words)

    def click(self, selector, part=0.5, to=None, count=1):
        """Clicks an element at a part of its width, or drags the mouse from there to another part. `count` is 2 for the second of a double click."""
        place = self.evaluate(f"(() => {{ const e = {found(selector)}; e.scrollIntoView({{ block: 'nearest' }}); return e.getBoundingClientRect().toJSON(); }})()")
        words = {"y": place["y"] + place["height"] / 2, "button": "left", "clickCount": count}
        end = part if to is None else to
        for kind, at in (("mousePressed", part), *([("mouseMoved", end)] if to is not None else []), ("mouseReleased", end)):
            self.call("Input.dispatchMouseEvent", type=kind, x=place["x"] + at * place["width"], **words)

    def names(self):
        """Returns the accessibility tree as pairs of role and name."""
        nodes = self.call("Accessibility.getFullAXTree")["nodes"]
        return [(node.get("role", {}).get("value"), node.get("name", {}).get("value")) for node in nodes if not node.get("ignored")]

    def live(self):
        """Returns the ids of the elements whose changes a screen reader reads out."""
        nodes = self.call("Accessibility.getFullAXTree")["nodes"]
        live = [node for node in nodes if any(each["name"] == "live" and each["value"]["value"] != "off" for each in node.get("properties", []))]
        objects = [self.call("DOM.resolveNode", backendNodeId=node["backendDOMNodeId"])["object"]["objectId"] for node in live]
        ids = [self.call("Runtime.callFunctionOn", objectId=each, functionDeclaration="function () { return this.id; }", returnByValue=True) for each in objects]
        return {each["result"]["value"] for each in ids if each["result"].get("value")}

    def media(self, **features):
        self.call("Emulation.setEmulatedMedia", media=features.pop("media", ""), features=[{"name": n.replace("_", "-"), "value": v} for n, v in features.items()])

    def size(self, width, height):
        self.call("Emulation.setDeviceMetricsOverride", width=width, height=height, deviceScaleFactor=1, mobile=False)

    def pixels(self, selector, part, size=8):
        """Returns a picture of a square inside an element, at a part of its width."""
        place = self.evaluate(f"{found(selector)}.getBoundingClientRect().toJSON()")
        clip = {"x": round(place["x"] + part * place["width"]), "y": round(place["y"] + (place["height"] - size) / 2), "width": size, "height": size, "scale": 1}
        return self.call("Page.captureScreenshot", format="png", clip=clip)["data"]

    def pictured(self):
        return self.call("Page.captureScreenshot", format="png")["data"]

    def close(self):
        self.end()
        os.close(self.to)
        os.close(self.back)


class Firefox(Page):
    def __init__(self, url, scheme="light"):
        self.folder = tempfile.mkdtemp(prefix="firefox-")
        with open(os.path.join(self.folder, "user.js"), "w") as file:
            file.write('user_pref("marionette.port", 0);\n')
            file.write(f'user_pref("layout.css.prefers-color-scheme.content-override", {int(scheme == "light")});\n')
        environment = dict(os.environ, HOME=self.folder, MOZ_HEADLESS="1")
        words = ["firefox-esr", "--headless", "--no-remote", "--marionette", "--profile", self.folder]
        self.process = subprocess.Popen(words, env=environment, stdin=subprocess.DEVNULL, stdout=subprocess.DEVNULL, stderr=subprocess.DEVNULL)
        self.wire = socket.create_connection(("127.0.0.1", until(self._port, "Firefox's port")), PATIENCE)
        self.rest, self.number = b"", 0
        self._next()
        self.call("WebDriver:NewSession", capabilities={})
        self.call("WebDriver:SetTimeouts", script=1000 * PATIENCE, pageLoad=1000 * PATIENCE)
        self.go(url)

    def _port(self):
        """Returns the port that Firefox listens on, once it has written it into its profile."""
        try:
            with open(os.path.join(self.folder, "MarionetteActivePort")) as file:
                return int(file.read())
        except (OSError, ValueError):
            return None

    def go(self, url):
        self.call("WebDriver:Navigate", url=url)

    def _next(self):
        while b":" not in self.rest:
            self._read()
        size, _, after = self.rest.partition(b":")
        while len(after) < int(size):
            self._read()
            after = self.rest.partition(b":")[2]
        self.rest = after[int(size) :]
        return json.loads(after[: int(size)])

    def _read(self):
        data = self.wire.recv(1 << 20)
        if not data:
            raise EOFError("Firefox ended")
        self.rest += data

    def call(self, method, **parameters):
        self.number += 1
        message = json.dumps([0, self.number, method, parameters]).encode()
        self.wire.sendall(b"%d:%s" % (len(message), message))
        _, _, fault, result = self._next()
        if fault:
            raise RuntimeError(f"{method}: {fault['error']}: {fault['message']}")
        return result

    def evaluate(self, script):
        asynchronous = f"const done = arguments[arguments.length - 1]; (async () => ({script}))().then(done, (fault) => done({{ fault: String(fault) }}));"
        got = self.call("WebDriver:ExecuteAsyncScript", script=asynchronous, args=[])["value"]
        if isinstance(got, dict) and "fault" in got:
            raise RuntimeError(got["fault"])
        return got

    def names(self):
        """Returns the roles and the names that a screen reader has of the elements in the first player."""
        player = self.call("WebDriver:FindElement", using="css selector", value="vt220-player")["value"]
        root = next(iter(self.call("WebDriver:GetShadowRoot", id=next(iter(player.values())))["value"].values()))
        found = [next(iter(each.values())) for each in self.call("WebDriver:FindElementsFromShadowRoot", shadowRoot=root, using="css selector", value="*")]
        return [tuple(self.call(f"WebDriver:GetComputed{what}", id=each)["value"] for what in ("Role", "Label")) for each in found]

    def size(self, width, height):
        self.call("WebDriver:SetWindowRect", width=width, height=height)

    def pictured(self):
        return self.call("WebDriver:TakeScreenshot", full=False)["value"]

    def close(self):
        self.end()
        self.wire.close()
