"""Runs the tests in JavaScript that need nothing of node, and README's page, in Chromium and Firefox."""
import functools
import json
import os
import pathlib
import re
import subprocess

import beside
import pytest
from server import PACKAGE

HERE = pathlib.Path(__file__).resolve().parent
README = (HERE.parent / "README.md").read_text()
EXAMPLE = re.search(r"^```html\n(.*?)^```$", README, re.M | re.S)[1]
REPLACED = {name: "/tests/in-browser.mjs" for name in ("node:test", "node:assert/strict", "/tests/package.mjs")}
# A page that runs the tests of a module, or only has the classic script.
PAGE = f"""<!doctype html><meta charset="utf-8"><title>tests</title><script type="importmap">{json.dumps({"imports": REPLACED})}</script>
<script src="/vt220/vt220.global.js"></script><script type="module">
const name = location.hash.slice(1);
if (name !== "") import(`/tests/${{name}}.test.mjs`).then(() => import("node:test")).then(({{ ran }}) => ran())
  .catch((fault) => ({{ faults: [String(fault)] }}))
  .then((result) => (window.result = result));
</script>"""
IN_WORKER = """fetch("/vt220/vt220.global.js").then((answer) => answer.text()).then((script) => new Promise((resolve) => {
  script += ";vt220.load().then((core) => { const t = new vt220.Terminal(core); t.feed(Uint8Array.of(0x4f, 0x4b)); postMessage(t.rowText(1)); });";
  new Worker(URL.createObjectURL(new Blob([script]))).onmessage = ({ data }) => resolve(data);
}))"""


@functools.cache
def hashes():
    """Returns inputs with hashes of what the library for C makes of them, as JSON."""
    return beside.hashed(int(os.environ.get("COUNT", "3000")))


@pytest.fixture
def tests(server):
    """The address of a page, next to which are the tests."""
    (server.place / "tests").symlink_to(HERE)
    subprocess.run([HERE.parents[1] / "rows/flat.py", server.place / "rows"], check=True)
    (server.place / "tests.html").write_text(PAGE)
    return server.url + "tests.html"


@pytest.mark.parametrize("name", ["hashes", "calls", "timelines", "tables"])
def test_module(page, server, tests, name):
    if name == "hashes":
        (server.place / "hashes.json").write_text(hashes())
    page.go(f"{tests}#{name}")
    page.wait("window.result !== undefined")
    result = page.evaluate("result")
    assert result["faults"] == [] and result["count"] > 0


def test_worker(page, tests):
    page.go(tests)
    assert page.evaluate(IN_WORKER) == "OK"


def test_example(page, tmp_path):
    """README's page works from file://, and is short."""
    assert len(EXAMPLE.splitlines()) <= 22
    path = tmp_path / "example.html"
    path.write_text(EXAMPLE)
    path.with_name("vt220.global.js").write_bytes((PACKAGE / "vt220.global.js").read_bytes())
    page.go(path.as_uri())
    page.evaluate("""(() => { const input = document.getElementById("file"), files = new DataTransfer(); files.items.add(new File(["Hello\\r\\n\\x1b(0lqk"], "session"));
      input.files = files.files; input.dispatchEvent(new Event("change")); })()""")
    page.wait("document.getElementById('screen').textContent !== ''")
    assert page.evaluate("document.getElementById('screen').textContent") == "Hello\n┌─┐\n" + "\n" * 22
