"""The tests of the package, of the rig and of the plugin, which are in the directory above, as `make lib program` builds what they need."""
import os
import pathlib
import sys

PACKAGE = pathlib.Path(__file__).resolve().parents[1]
sys.path[:0] = [str(PACKAGE), str(PACKAGE.parent / "rows")]
os.environ |= {"PYTHONPATH": str(PACKAGE), "PYTHONDONTWRITEBYTECODE": "1"}
pytest_plugins = ["vt220.pytest_plugin"]
