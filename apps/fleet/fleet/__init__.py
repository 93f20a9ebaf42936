"""Sessions of a VT220 kept in Redis: hosts send bytes, workers play them, viewers look, and any of them may die."""
import importlib
import os
import sys

VERSION = "0.4.0"  # of the fleet, which has its own

_ROOT = os.path.join(os.path.dirname(os.path.abspath(__file__)), "..", "..", "..")
sys.path.insert(0, os.path.join(_ROOT, "lib", "python"))


def __getattr__(name):
    """Loads a module of the fleet when it is first used: so a command loads what it needs, and no more."""
    if name.startswith("_"):
        raise AttributeError(name)
    return importlib.import_module(f".{name}", __name__)
