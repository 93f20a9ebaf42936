"""What the tests of the program share: how it is run. `make program` builds it; --program=FILE names another one."""
import pathlib
import subprocess
import sys
import tempfile
from typing import NamedTuple

import pytest
from samples import TOP

sys.path.insert(0, str(TOP / "lib/rows"))  # the module `vectors`


class Done(NamedTuple):
    """How a run of the program ended, and what it wrote."""

    status: int
    out: bytes
    err: bytes


def pytest_addoption(parser):
    parser.addoption("--program", default=str(TOP / "crates/vt220/out/vt220"), help="the program that is tested")


def pytest_make_parametrize_id(val):
    """Names a test by what it is given: by its name, or by its beginning, since inputs are long."""
    return None if isinstance(val, str) else getattr(val, "name", ascii(val)[:60])


@pytest.fixture
def tmp_path():
    """A folder that is gone after the test. Those of pytest stay for three runs."""
    with tempfile.TemporaryDirectory(ignore_cleanup_errors=True) as name:
        yield pathlib.Path(name)


@pytest.fixture(scope="session")
def program(pytestconfig):
    """The path of the program."""
    return str(pathlib.Path(pytestconfig.getoption("--program")).resolve())


@pytest.fixture(scope="session")
def run(program):
    """Runs the program with the words of a line, and with further ones. Returns its status, standard output and standard error."""

    def run(line, *words, data=b"", stdout=subprocess.PIPE, **more):
        done = subprocess.run([program, *line.split(), *words], input=data, stdout=stdout, stderr=subprocess.PIPE, **more)
        return Done(done.returncode, done.stdout, done.stderr)

    return run


@pytest.fixture(scope="session")
def told(run):
    """Runs the program, which says nothing of a fault. Returns its standard output."""

    def told(line, *words, data=b""):
        done = run(line, *words, data=data)
        assert (done.status, done.err) == (0, b"")
        return done.out

    return told
