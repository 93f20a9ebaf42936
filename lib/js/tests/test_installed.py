"""Tests the package as npm installs it: by its names, its types, and bundled by esbuild and webpack."""
import os
import pathlib
import shutil
import subprocess
import tempfile

import pytest
from server import ROOT, Server

HERE = pathlib.Path(__file__).resolve().parent
PROGRAM = """import { load, Terminal } from "vt220";
import { Timeline } from "vt220/timeline";
import "vt220/player";

const bytes = (text) => new TextEncoder().encode(text);
async function run() {
  const core = await load(), terminal = new Terminal(core);
  terminal.feed(bytes("one"));
  const line = new Timeline(core, { bytes: bytes("two"), times: [1], ends: [3] });
  return `${terminal.rowText(1)} ${line.seekTime(1).rowText(1)}${typeof document === "undefined" ? "" : await played()}`;
}
async function played() {
  const player = document.createElement("vt220-player");
  document.body.append(player);
  player.src = { bytes: bytes("three"), times: [3], ends: [5] };
  const [span] = await player.search("three");
  player.src = bytes('{"version": 2, "width": 80, "height": 24}\\n[4, "o", "four"]\\n');
  const [read] = await player.search("four");
  return ` ${span.time} ${read.time}`;
}
const tell = (text) => (typeof document === "undefined" ? console.log(text) : (document.title = text));
run().then(tell, (fault) => tell(`failed: ${fault}`));
"""
# The bundle of each: its command, its file, and whether the modules of WebAssembly have to be copied as README says.
ESBUILD = ["esbuild", "main.js", "--bundle", "--format=esm"]
WEBPACK = ["webpack", "--mode", "production", "--entry", "./main.js"]
BUNDLES = {
    "esbuild, browser": ([*ESBUILD, "--outfile=es/js/main.js"], "es/js/main.js", True),
    "esbuild, node": ([*ESBUILD, "--platform=node", "--outfile=es-node/js/main.mjs"], "es-node/js/main.mjs", True),
    "webpack, browser": ([*WEBPACK, "--target", "web", "-o", "web"], "web/main.js", False),
    "webpack, node": ([*WEBPACK, "--target", "node", "-o", "web-node", "--output-filename", "main.cjs"], "web-node/main.cjs", False),
}
STRICT = "tsc --strict --noEmit --target es2022"
NODE_NEXT = f"{STRICT} --module nodenext --moduleResolution nodenext"
# In a project for browsers, in one for node, and in one that finds modules as node did before `exports`.
TYPES = {
    "for browsers": f"{NODE_NEXT} --lib es2022,dom types.ts types-web.ts types-player.ts",
    "for node": f"{NODE_NEXT} --lib es2022 types.ts",
    "without exports": f"{STRICT} --module es2022 --moduleResolution node --lib es2022 types.ts",
}


def pytest_generate_tests(metafunc):
    """Debian's webpack can't be installed next to a nodejs of another maker, so it is tried only if it is there. `packaging/dist --check` tries it in
    a clean root, where esbuild isn't."""
    if "bundle" in metafunc.fixturenames:
        root = metafunc.config.getoption("--root")
        metafunc.parametrize("bundle", [name for name, (command, _, _) in BUNDLES.items() if (command[0] == "webpack" if root else shutil.which(command[0]) or command[0] == "esbuild")])


@pytest.fixture(scope="module")
def root(pytestconfig):
    """The root that --root names, in which commands then run, or None. Its bundles/ has the package."""
    named = pytestconfig.getoption("--root")
    return named and pathlib.Path(named).resolve()


@pytest.fixture(scope="module")
def installed(root):
    """A project with the package, and the programs that use it."""
    if root:
        (root / "bundles/main.js").write_text(PROGRAM)
        yield root / "bundles"
        return
    work = pathlib.Path(tempfile.mkdtemp())
    (work / "package.json").write_text('{"type": "module"}')
    subprocess.run(["npm", "install", "--offline", "--silent", "--no-audit", "--no-fund", *ROOT.glob("out/js/vt220-*.tgz")], cwd=work, check=True)
    for file in (HERE / "use.mjs", *HERE.glob("types*.ts")):
        shutil.copy(file, work)
    (work / "main.js").write_text(PROGRAM)
    yield work
    shutil.rmtree(work)


def run(command, work, root=None):
    """Runs a command in a directory, and in a root if there is one. Returns what it prints."""

    def enter():
        os.chroot(root)
        os.chdir(f"/{work.relative_to(root)}")

    where = {"preexec_fn": enter} if root else {"cwd": work}
    done = subprocess.run(command, stdin=subprocess.DEVNULL, capture_output=True, text=True, **where)
    assert done.returncode == 0, done.stdout + done.stderr
    return done.stdout


def test_use(installed):
    run(["node", "use.mjs"], installed)


@pytest.mark.parametrize("project", TYPES)
def test_types(installed, project):
    run(TYPES[project].split(), installed)


def in_browser(page, work, file):
    (work / "page.html").write_text(f'<!doctype html><title></title><script type="module" src="{file}"></script>')
    server = Server(work)
    page.go(f"{server.url}page.html")
    page.wait("document.title !== ''")
    server.http.shutdown()
    return page.evaluate("document.title")


def test_bundle(installed, root, chromium, bundle):
    command, file, is_copied = BUNDLES[bundle]
    run(command, installed, root)
    for name in ("vt220.wasm", "reader.wasm") if is_copied else ():
        shutil.copy(installed / "node_modules/vt220" / name, (installed / file).parents[1])
    if bundle.endswith("node"):
        assert run(["node", file], installed, root) == "one two\n"
    else:
        assert in_browser(chromium, installed, file) == "one two 3 4"
