"""What the tests of other terminals share. A terminal that isn't installed has no test. terminals.py names the Debian packages."""
import pathlib
import subprocess
import sys

import pytest

TOP = pathlib.Path(__file__).resolve().parents[2]
sys.path[:0] = [str(TOP / "lib/python"), str(TOP / "lib/rows"), str(TOP / "tests/model")]
from terminals import PACKAGES


def version(name):
    """Returns the version of a terminal's package, or nothing if it isn't installed."""
    return subprocess.run(["dpkg-query", "-W", "-f", "${Version}", PACKAGES[name][0]], capture_output=True, text=True).stdout


def pytest_addoption(parser):
    parser.addoption("--write", action="store_true", help="writes what the terminals show into docs/PEERS.md and lib/rows/cells.txt")
    parser.addoption("--command", default=f"{TOP}/crates/vt220/out/vt220 text", help="the command that test_command compares with the vectors of a VT220")
    parser.addoption("--program", default=str(TOP / "crates/vt220/out/vt220"), help="the program whose log is compared")
    parser.addoption("--count", type=int, default=0, help="the number of generated inputs for real xterm")
    parser.addoption("--seed", type=int, default=1, help="of the first of these")
    parser.addoption("--file", action="append", default=[], help="a recording that is compared with real xterm, too")
    parser.addoption("--size", default="80x24", help="the size for these, COLUMNSxROWS")


def pytest_generate_tests(metafunc):
    """Gives `name` of each terminal that is installed to a test."""
    if "name" in metafunc.fixturenames:
        wanted = getattr(metafunc.function, "names", PACKAGES)
        metafunc.parametrize("name", [name for name in wanted if name == "vt220" or version(name)])


@pytest.fixture
def is_written(pytestconfig):
    return pytestconfig.getoption("--write")
