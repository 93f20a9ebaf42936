"""Where the tests find the Python package with the library for C, which is the model of what is shown, and what they share."""
import beside  # noqa: F401
from fixtures import *  # noqa: F403


def pytest_addoption(parser):
    parser.addoption("--root", help="a root with webpack and node, for test_installed.py -k webpack")
