"""Installs the package into environments of their own, with pip and without the network, and runs pytest in them."""
import os
import pathlib
import re
import shutil
import subprocess
import sys
import zipfile

import pytest

import vt220

PACKAGE = pathlib.Path(vt220.__file__).resolve().parent
PYTHON = PACKAGE.parent
HEADER = PYTHON.parent / "c/include/vt220.h"
# A test of somebody who has never heard of vt220, and one of somebody who uses it.
UNRELATED = "def test_it():\n    assert 1 + 1 == 2\n"
RIG = "def test_it(vt):\n    vt.run('echo', 'hello', timeout=300).wait('hello')\n"


def environment(directory, **more):
    """Returns what a new shell has, with the commands of an environment of Python first in PATH, and pip without the network."""
    kept = {name: value for name, value in os.environ.items() if not name.startswith(("PYTEST", "PYTHON", "VT220"))}
    return {**kept, "PATH": f"{directory / 'bin'}:{kept['PATH']}", "PIP_NO_INDEX": "1", "PIP_NO_BUILD_ISOLATION": "0",
            "PIP_DISABLE_PIP_VERSION_CHECK": "1", "PYTHONDONTWRITEBYTECODE": "1", "PYTEST_ADDOPTS": "-p no:cacheprovider", **more}


def go(command, directory, env):
    return subprocess.run(command, cwd=directory, env=env, stdout=subprocess.PIPE, stderr=subprocess.STDOUT, text=True)


def copied(directory):
    """Copies the sources of the package, without the library."""
    return shutil.copytree(PYTHON, directory, ignore=shutil.ignore_patterns("libvt220.so", "build", "*.egg-info", "__pycache__", "vt220-failures"))


@pytest.fixture
def venv(tmp_path):
    """Makes an environment that has Debian's pip, pytest, setuptools and wheel, which can't be fetched here."""
    directory = tmp_path / "venv"
    subprocess.run([sys.executable, "-m", "venv", "--system-site-packages", "--without-pip", directory], check=True)
    pip = directory / "bin" / "pip"
    pip.write_text(f'#!/bin/sh\nexec {directory}/bin/python3 -m pip "$@"\n')
    pip.chmod(0o755)
    return directory


@pytest.fixture
def tests(tmp_path):
    directory = tmp_path / "tests"
    directory.mkdir()
    (directory / "test_it.py").write_text(UNRELATED)
    return directory


def pytest_in(directory, env):
    return go(["python3", "-m", "pytest", "-q"], directory, env)


def test_a_package_without_its_library_breaks_no_run_of_pytest(tmp_path, venv, tests):
    env = environment(venv, VT220_LIBRARY=str(tmp_path / "nothing"))
    done = go(["pip", "install", copied(tmp_path / "python")], tmp_path, env)
    assert done.returncode == 0, done.stdout
    done = pytest_in(tests, env)
    assert done.returncode == 0 and "1 passed" in done.stdout, done.stdout
    (tests / "test_it.py").write_text(RIG)
    done = pytest_in(tests, env)
    assert done.returncode == 1 and "NoLibrary: the library can't be loaded: " in done.stdout and "1 failed" in done.stdout, done.stdout


def installing():
    """Returns the commands of the page's part 'Install', block by block."""
    page = (PYTHON / "README.md").read_text(encoding="utf-8")
    part = re.search(r"^## Install\n(.*?)^## ", page, re.M | re.S)[1]
    return re.findall(r"^```sh\n(.*?)^```$", part, re.M | re.S)


@pytest.fixture
def repository(tmp_path):
    """Makes a repository whose library is built."""
    directory = tmp_path / "repository"
    copied(directory / "lib" / "python")
    (directory / "lib/c/include").mkdir(parents=True)
    shutil.copy(HEADER, directory / "lib/c/include")
    (directory / "out").mkdir()
    shutil.copy(vt220._find(), directory / "out" / "libvt220.so")
    (directory / "Makefile").write_text("lib:\n# The gate has built it.\n")
    return directory


def test_the_blocks_of_the_page_work_in_one_shell(tmp_path, venv, tests, repository):
    (tests / "test_it.py").write_text(RIG)
    first, second = installing()
    run_tests = f"(cd {tests} && python3 -m pytest -q && python3 -c 'import vt220; print(vt220.__file__)')\n"
    done = go(["sh", "-e", "-c", first + run_tests + second + run_tests], repository, environment(venv))
    assert done.returncode == 0 and done.stdout.count("1 passed") == 2, done.stdout
    used = [line for line in done.stdout.split("\n") if line.endswith("/__init__.py")]
    assert used[0] == str(repository / "lib/python/vt220/__init__.py") and used[1].startswith(str(venv)), done.stdout


def test_a_plugin_that_is_named_and_installed_is_loaded_once(venv, tests, repository):
    (tests / "test_it.py").write_text(RIG)
    shutil.copy(repository / "out" / "libvt220.so", repository / "lib" / "python" / "vt220")
    done = go(["pip", "install", "lib/python"], repository, environment(venv))
    assert done.returncode == 0, done.stdout
    named = environment(venv, PYTEST_PLUGINS="vt220.pytest_plugin", PYTHONPATH=str(repository / "lib" / "python"))
    for env, options in ((environment(venv), []), (named, []), (environment(venv), ["-p", "vt220.pytest_plugin"]), (named, ["-p", "vt220.pytest_plugin"])):
        done = go(["python3", "-m", "pytest", "-q", *options], tests, env)
        assert done.returncode == 0 and "1 passed" in done.stdout, done.stdout


def build(directory, call):
    """Runs a call of the package's build backend, as pip and build do."""
    words = [sys.executable, "-B", "-W", "ignore", "-c", f"import setuptools.build_meta as backend; print(backend.{call})"]
    return subprocess.run(words, cwd=directory, capture_output=True, text=True)


def test_there_is_no_source_distribution(tmp_path):
    done = build(copied(tmp_path / "python"), f"build_sdist({str(tmp_path / 'made')!r})")
    assert done.returncode != 0 and "error: vt220 has no source distribution" in done.stderr and "build a wheel" in done.stderr
    assert not list(tmp_path.rglob("*.tar.gz"))


def files_of_wheel(directory):
    done = build(directory, f"build_wheel({str(directory / 'made')!r})")
    assert done.returncode == 0, done.stderr
    name = done.stdout.split()[-1]
    with zipfile.ZipFile(directory / "made" / name) as wheel:
        return name, {path.split("/", 1)[1]: wheel.read(path).decode("latin-1") for path in wheel.namelist()}


def test_a_wheel_with_the_library_is_of_its_platform(tmp_path):
    name, files = files_of_wheel(copied(tmp_path / "without"))
    assert name == f"vt220-{vt220._spelled(vt220.VERSION)}-py3-none-any.whl" and "Root-Is-Purelib: true" in files["WHEEL"]
    (copied(tmp_path / "with") / "vt220" / "libvt220.so").write_text("stands for the library")
    name, files = files_of_wheel(tmp_path / "with")
    assert re.fullmatch(r"vt220-[\d.]+-py3-none-linux_\w+\.whl", name) and "Root-Is-Purelib: false" in files["WHEEL"] and "libvt220.so" in files
    assert re.search("^License: ", files["METADATA"], re.M) and re.search("^Author-email: .*maintainers", files["METADATA"], re.M)
    assert files["entry_points.txt"].split("\n")[:2] == ["[pytest11]", "vt220.pytest_plugin = vt220.pytest_plugin"]
