"""Each test has a keeper, which is built by a compiler with its sanitizers, and a directory of its own. `make -f tests/Makefile keeper` builds the
keepers."""
import pathlib

import pytest
import sessions

BUILT = sessions.TOP / "out/tests"


def pytest_addoption(parser):
    parser.addoption("--program", default=sessions.PROGRAM, help="the proved program, which plays what clients are sent")
    parser.addoption("--seconds", type=float, default=10, help="how long there are many sessions, and how long there is junk")
    parser.addoption("--seed", type=int, help="of the junk")


def pytest_configure(config):
    sessions.PROGRAM = str(pathlib.Path(config.getoption("--program")).resolve())


def pytest_collection_modifyitems(items):
    """The longest tests begin first."""
    items.sort(key=lambda item: "seconds" not in item.fixturenames)


@pytest.fixture(autouse=True, params=["gcc-sane", "clang-sane"])
def room(request):
    sessions.begin(BUILT / f"keep.{request.param}")
    yield
    sessions.finish()


@pytest.fixture
def seconds(pytestconfig):
    return pytestconfig.getoption("--seconds")
