"""Checks that what the package offers has its types and its docstrings."""
import inspect
import pathlib
import subprocess
import sys

import vt220
import vt220.cast
import vt220.expected
import vt220.keyboard
import vt220.picture
import vt220.process
import vt220.pytest_plugin
import vt220.recordings
import vt220.rig
import vt220.screen

MODULES = [vt220, vt220.cast, vt220.expected, vt220.keyboard, vt220.picture, vt220.process, vt220.pytest_plugin, vt220.recordings, vt220.rig, vt220.screen]


def offered(module):
    """Returns the public functions, classes and methods that a module defines."""
    for name, one in vars(module).items():
        if not name.startswith("_") and getattr(one, "__module__", None) == module.__name__ and (inspect.isfunction(one) or inspect.isclass(one)):
            yield f"{module.__name__}.{name}", one
            if inspect.isclass(one):
                yield from ((f"{module.__name__}.{name}.{inner}", method) for inner, method in vars(one).items()
                            if not inner.startswith("_") and (inspect.isfunction(method) or isinstance(method, property)))


def test_all_that_is_offered_has_a_docstring():
    found = [pair for module in MODULES for pair in offered(module)]
    assert len(found) > 60
    assert [name for name, one in found if not one.__doc__] == []


TYPED = """
from vt220.rig import ENTER, UP, F10
from vt220.rig import {names}
from vt220.rig import Key, alt, ctrl, run, shift
from vt220.pytest_plugin import Session

def test_it(vt: Session) -> None:
    less = vt.run("less", "notes.txt", columns=132)
    less.keys("/", UP, F10, ENTER, {names})
    less.keys(ctrl("c") + "x", ctrl(UP), alt(shift(F10)))
    row: int = less.wait("x", row=24).at("x").row
    keys: "list[Key]" = [{names}]
    with run("less", "notes.txt", cwd="/", timeout=5) as rig:
        assert rig.screen.at("x").reverse, (row, keys)
"""


def test_the_rig_and_a_program_that_uses_it_have_strict_types(tmp_path):
    """mypy finds each key by its name, as README imports it. Nothing else reads the names without running the module."""
    package, program = pathlib.Path(vt220.__file__).parent, tmp_path / "test_it.py"
    program.write_text(TYPED.format(names=", ".join(vt220.keyboard.Key.__members__)))
    words = [sys.executable, "-m", "mypy", "--strict", "--follow-imports=silent", "--cache-dir=/dev/null", *sorted(package.glob("*.py")), program]
    done = subprocess.run(words, cwd=package.parent, capture_output=True, text=True)
    assert done.returncode == 0, done.stdout + done.stderr


def test_the_rig_has_each_key_by_its_name():
    found = {name: key for name, key in vars(vt220.rig).items() if isinstance(key, vt220.keyboard.Key)}
    assert found == dict(vt220.keyboard.Key.__members__) and set(found) <= set(vt220.rig.__all__)
