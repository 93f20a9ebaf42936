"""Joins modules of lib/js/ into one script: lib/js/pack and apps/page/template do so."""
import functools
import pathlib
import re
import subprocess

JS = pathlib.Path(__file__).resolve().parent


def printed(*command):
    """Returns what a script of packaging/ prints."""
    name, *words = command
    return subprocess.run([JS.parents[1] / "packaging" / name, *words], check=True, capture_output=True, text=True).stdout


def version():
    """Returns the version of the package, in the form of npm."""
    return printed("version", "semver").strip()


@functools.cache
def notices(part="--library"):
    """Returns a comment for a script that has the WebAssembly: the version, LICENCE, and the notices of others' code in it. With the part
    `--player` the script also has the reader of recordings."""
    text = f"vt220 {version()}\n\n{printed('licence', '--notice')}\nIt contains code of others, with these notices:\n{printed('third-party', part)}"
    assert "*/" not in text and "</" not in text, "the notices would end the comment or the script"
    return f"/*!\n{text}*/\n"


# The modules of a timeline, lowest first; those of the Worker that searches; and those of a player over them.
TIMELINE = ["src/vt220.js", "src/finding.js", "src/timeline.js"]
SERVING = [*TIMELINE, "src/reader.js", "src/serving.js"]
PLAYER = ["src/playback.js", "src/screen.js", "src/sound.js", "src/typed.js", "src/live.js", "src/look.js", "src/notes.js", "src/reading.js", "src/incoming.js", "src/packed.js", "src/searcher.js",
          "src/recordings.js", "src/view.js", "src/attributes.js", "src/player.js"]
# What a script in one file has in place of what a module finds next to it.
MODULE = "Returns the bytes of vt220.wasm next to this module"
READER = "Returns the bytes of reader.wasm next to this module"
WORKER = "Returns a Worker that serves what serving.js does"


def bundle(*names):
    """Returns the modules of these files as the text of one: without imports, and with plain declarations for exports."""
    text = "\n".join((JS / name).read_text(encoding="utf-8") for name in names)
    text = re.sub(r"^import .*;\n", "", text, flags=re.M)
    declared = re.findall(r"^(?:export )?(?:async )?(?:const|let|class|function\*?) (\w+)", text, flags=re.M)
    assert len(declared) == len(set(declared)), f"modules declare the same names: {sorted(name for name in declared if declared.count(name) > 1)}"
    return re.sub(r"^export ", "", text, flags=re.M)


def bare(text):
    """Returns a bundle without its comments, each of which has lines of its own."""
    return re.sub(r"^ *(?://.*?|/\*.*?\*/)\n", "", text, flags=re.M | re.S)


def with_module(text, value):
    """Returns a bundle whose load() without an argument takes the value of an expression."""
    return replaced(text, MODULE, f"/** Returns the bytes of vt220.wasm. */\nasync function nearby() {{\n  return {value};\n}}\n")


def with_reader(text, value):
    """Returns a bundle whose reader is the value of an expression."""
    return replaced(text, READER, f"/** Returns the bytes of reader.wasm. */\nasync function nearbyReader() {{\n  return {value};\n}}\n")


def replaced(text, comment, function):
    """Replaces the function whose comment begins so."""
    text, count = re.subn(rf"/\*\* {re.escape(comment)}.*?\n}}\n", lambda _: function, text, flags=re.S)
    assert count == 1, f"{count} functions have the comment '{comment}'"
    return text


def player(value, reader, *names):
    """Returns a script of the modules of a player and others, in which the values of two expressions are the modules of the terminal and of
    the reader.

    The modules of a timeline are a function, whose text is also the script of the Worker that searches. That never asks for the module.
    """
    exported = re.findall(r"^export (?:async )?(?:const|class|function\*?) (\w+)", "\n".join((JS / name).read_text(encoding="utf-8") for name in SERVING), flags=re.M)
    inner = with_module(bundle(*SERVING), "packedModule()")
    worker = "let workerText = null;\n\n/** Returns a Worker of this script's own text. */\nfunction newWorker() {\n" \
        '  workerText ??= URL.createObjectURL(new Blob([`(${serving})().serve()`], { type: "text/javascript" }));\n  return new Worker(workerText);\n}\n'
    outer = with_reader(replaced(bundle(*PLAYER, *names), WORKER, worker), reader)
    names = ", ".join(exported)
    return f"function serving() {{\n{inner}return {{ {names} }};\n}}\nconst {{ {names} }} = serving();\n\nfunction packedModule() {{\n  return {value};\n}}\n\n{outer}"
