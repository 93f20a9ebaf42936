"""Each test has a store of its own, and a host daemon if it starts a session. A test that fails shows what both logged."""
import pathlib

import pytest

from harness import PATIENT, configured, local, recordings, started


def pytest_addoption(parser):
    parser.addoption("--seed", type=int, default=1, help="of the storm, and of what is random in others")
    parser.addoption("--rounds", type=int, default=9, help="of the storm")
    parser.addoption("--sessions", type=int, default=12, help="of the storm")


def pytest_collection_modifyitems(items):
    """The longest test begins first."""
    items.sort(key=lambda item: item.get_closest_marker("storm") is None)


@pytest.fixture
def seed(pytestconfig):
    return pytestconfig.getoption("--seed")


@pytest.fixture(scope="session")
def data():
    """Bytes of a program, with a question at the end."""
    return max(recordings(), key=len)[:7001] + b"\033[6n"


@pytest.fixture
def machine(monkeypatch):
    made = local.LocalStore()
    started.callback(made.stop)
    monkeypatch.setenv("FLEET_DAEMON", made.where()["FLEET_DAEMON"])
    with started, configured(made, *PATIENT, "[host]", "lease = 3600"):
        yield made
        for name in ("daemon-log", "log"):
            path = pathlib.Path(made.folder, name)
            print(f"--- {name}", path.read_text(errors="replace") if path.exists() else "", sep="\n")
