"""What the tests of the rig share. A test that imports `in_a_directory` runs in an empty directory."""
import subprocess

import pytest

from vt220 import rig as rig_module

# A limit that only says that something hangs.
LONG = 300
# Shows the bytes that it gets, after it has written its first argument.
SHOWS = "stty raw -echo; printf \"$1\"; while :; do dd bs=100 count=1 2>/dev/null | od -An -tx1 -v; printf '\\r'; done"


@pytest.fixture(autouse=True)
def in_a_directory(tmp_path, monkeypatch):
    monkeypatch.chdir(tmp_path)


def run(*argv, **options):
    return rig_module.run(*argv, **{"timeout": LONG, **options})


def shell(script, *arguments, **options):
    return run("/bin/sh", "-c", script, "sh", *arguments, **options)


def terminfo(*words):
    """Returns what an entry of terminfo has, by the names of its capabilities: bytes."""
    lines = subprocess.run(["infocmp", "-1", *words], capture_output=True, text=True, check=True).stdout.splitlines()
    named = (line.strip().rstrip(",").partition("=") for line in lines)
    return {name: code.replace("\\E", "\033").encode() for name, _, code in named}
