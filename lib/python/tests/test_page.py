"""Runs each example of the package's page in the order of the page, in one directory, and compares what it prints."""
import os
import pathlib
import re
import subprocess
import sys

import vt220

PAGE = pathlib.Path(__file__).resolve().parents[1] / "README.md"
# Blocks of commands that install something aren't run.
KINDS = ("python", "console", "output")
# A wait of an example may take long if the machine is busy.
LONG_WAITS = "import vt220.rig\nvt220.rig.Rig.__init__.__kwdefaults__['timeout'] = 300\n"


def blocks():
    """Returns the kind and the text of each block of the page."""
    for kind, text in re.findall(r"^```(\w*)\n(.*?)^```$", PAGE.read_text(encoding="utf-8"), re.M | re.S):
        if kind in KINDS:
            yield kind, text


def expect(lines, output):
    """Finds lines in an output, in their order. Two points stand for any text."""
    rest = [line.rstrip() for line in output.split("\n")]
    for line in lines:
        expression = ".*".join(re.escape(part.strip() if at else part) for at, part in enumerate(line.split("..")))
        while rest and not re.fullmatch(expression.rstrip() + ".*" * line.endswith(".."), rest[0]):
            rest.pop(0)
        assert rest, f"{line!r} isn't in the output:\n{output}"
        rest.pop(0)


class Reader:
    """Does what a reader of the page does, in one directory."""

    def __init__(self, directory):
        self.directory, self.printed = directory, ""
        commands = directory.parent / "commands"
        commands.mkdir()
        (commands / "python3").symlink_to(sys.executable)
        kept = {name: value for name, value in os.environ.items() if not name.startswith("PYTEST")}
        self.env = {**kept, "PATH": f"{commands}:{kept['PATH']}", "PYTHONPATH": str(PAGE.parent), "PYTEST_PLUGINS": "vt220.pytest_plugin",
                    "PYTHONDONTWRITEBYTECODE": "1", "PYTEST_ADDOPTS": "-p no:cacheprovider --vt-timeout 300"}

    def run(self, command):
        done = subprocess.run(command, cwd=self.directory, env=self.env, stdout=subprocess.PIPE, stderr=subprocess.STDOUT, text=True)
        return done.stdout

    def python(self, text):
        name = re.match(r"# (\w+\.py)\n", text)
        if name:
            (self.directory / name[1]).write_text(text, encoding="utf-8")
        else:
            self.printed = self.run(["python3", "-c", LONG_WAITS + text])

    def output(self, text):
        assert self.printed == text

    def console(self, text):
        for part in re.split(r"^\$ ", text, flags=re.M)[1:]:
            command, *lines = part.rstrip("\n").split("\n")
            expect(lines, self.run(["sh", "-c", command]))


def test_the_examples_of_the_page(tmp_path):
    directory = tmp_path / "reader"
    directory.mkdir()
    reader, seen = Reader(directory), 0
    for kind, text in blocks():
        getattr(reader, kind)(text)
        seen += 1
    assert seen >= 12


def test_the_page_names_every_key():
    page = PAGE.read_text(encoding="utf-8")
    ranges = {f"F{number}" for number in range(1, 21)} | {f"KP_{number}" for number in range(10)} | {f"PF{number}" for number in range(1, 5)}
    missing = [name for name in vt220.keyboard.Key.__members__ if name not in ranges and not re.search(rf"\b{name}\b", page)]
    assert not missing
