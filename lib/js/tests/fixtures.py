"""What the tests in browsers share: a browser for all tests of a worker, a page of it for a test, and a server."""
import pathlib
import tempfile

import pytest
from browsers import Chromium, Firefox
from server import Server


@pytest.fixture
def tmp_path():
    """A folder that is gone after the test. Those of pytest stay for three runs."""
    with tempfile.TemporaryDirectory(ignore_cleanup_errors=True) as name:
        yield pathlib.Path(name)


def opened(browser, *words):
    page = browser("about:blank", *words)
    yield page
    page.close()


@pytest.fixture(scope="session")
def a_chromium():
    yield from opened(Chromium)


@pytest.fixture(scope="session")
def a_firefox():
    yield from opened(Firefox)


@pytest.fixture
def dark():
    """A page in a Firefox of its own, whose scheme of colours is dark."""
    yield from opened(Firefox, "dark")


@pytest.fixture
def chromium(a_chromium):
    """An empty page in Chromium, of the usual size and in its usual colours, whose console is empty."""
    a_chromium.size(1000, 820)
    a_chromium.media()
    a_chromium.go("about:blank")
    a_chromium.said.clear()
    return a_chromium


@pytest.fixture
def firefox(a_firefox):
    a_firefox.size(1000, 820)
    a_firefox.go("about:blank")
    return a_firefox


@pytest.fixture(params=[Chromium, Firefox], ids=["chromium", "firefox"])
def browser(request):
    return request.param


@pytest.fixture
def page(request, browser):
    """A page in each of the browsers."""
    return request.getfixturevalue(browser.__name__.lower())


@pytest.fixture
def server(tmp_path):
    server = Server(tmp_path)
    yield server
    server.http.shutdown()
    server.http.server_close()
