"""What the tests share is that of lib/js/tests."""
import pathlib
import sys

sys.path.insert(0, str(pathlib.Path(__file__).resolve().parents[3] / "lib/js/tests"))
import beside  # noqa: E402,F401
from fixtures import *  # noqa: E402,F403
