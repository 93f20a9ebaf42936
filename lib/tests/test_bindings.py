"""Tests the bindings for Rust and Go, the Python package by its extension module, the installed library, and plain models next to the library.

The Rust packages are tested as `cargo package` packs them, away from the repository and offline. The suite `rig` tests the Python package by ctypes.
Needs what `make` builds, and the packages that `tests/needs bindings` names.
"""
import os
import pathlib
import subprocess

import pytest

TOP = pathlib.Path(__file__).resolve().parents[2]
PACKED = r"""
for name in vt220-sys vt220; do
  (cd lib/rust/$name && cargo package --offline --allow-dirty --list) | grep -v '^Cargo.toml.orig$\|^Cargo.lock$\|^LICENCE$\|^.cargo_vcs' | while read -r file; do
    install -D -m 644 lib/rust/$name/$file $W/packed/$name/$file
  done
done
printf '[workspace]\nmembers = ["vt220-sys", "vt220"]\nresolver = "2"\n' >$W/packed/Cargo.toml
cd $W/packed
VT220_LIB_DIR=$TOP/out cargo test --offline -q
"""
# What Rust drops gives back its memory.
LEAKS = r"""
runner='valgrind -q --error-exitcode=99 --leak-check=full --show-leak-kinds=definite --errors-for-leak-kinds=definite'
cd lib/rust
VT220_LIB_DIR=$TOP/out CARGO_TARGET_X86_64_UNKNOWN_LINUX_GNU_RUNNER=$runner cargo test --offline -q --tests
"""
INSTALLED = r"""
cat >$W/use.c <<'C'
#include <vt220-keys.h>
int main(void) { vt220 t = VT220_INIT; if (vt220_open(&t) != VT220_OK || vt220_version() != VT220_VERSION) return 1; vt220_close(&t); return 0; }
C
gcc -o $W/use $W/use.c $(pkg-config --cflags --libs vt220)
$W/use
readelf -d $W/use | grep -q 'NEEDED.*libvt220\.so\.0'
[ "$($P/bin/vt220-keep --version)" = "vt220-keep $($P/bin/vt220 --version | cut -d' ' -f2)" ]
"""
UNINSTALLED = 'make -s install PREFIX=$W/there; make -s uninstall PREFIX=$W/there; [ -z "$(find $W/there -type f -o -type l)" ]'


@pytest.fixture(scope="session")
def installed(tmp_path_factory):
    place = tmp_path_factory.mktemp("installed")
    subprocess.run(["make", "-s", "install", f"PREFIX={place}"], cwd=TOP, check=True, stdout=subprocess.DEVNULL)
    return place


@pytest.fixture
def run(installed, tmp_path):
    """Runs lines of a shell, which ends with the first that fails. cargo, go and pkg-config depend on nothing of the user's. Debian's tools come first."""
    library = f"{installed}/lib"
    kept = {name: value for name, value in os.environ.items() if not name.startswith("PYTEST")}
    environment = {**kept, "TOP": str(TOP), "W": str(tmp_path), "P": str(installed), "PATH": f"/usr/bin:{os.environ['PATH']}", "LD_LIBRARY_PATH": library,
                   "PKG_CONFIG_PATH": f"{library}/pkgconfig", "CARGO_HOME": f"{tmp_path}/cargo", "CARGO_TARGET_DIR": f"{tmp_path}/rust", "GOCACHE": f"{tmp_path}/go",
                   "GOPATH": f"{tmp_path}/gopath", "GOFLAGS": "", "GOTOOLCHAIN": "local", "VT220_ROWS": str(TOP / "out/tests/rows")}

    def run(lines):
        done = subprocess.run(["bash", "-eu", "-o", "pipefail", "-c", lines], cwd=TOP, env=environment, stdin=subprocess.DEVNULL, stdout=subprocess.PIPE, stderr=subprocess.STDOUT, text=True)
        assert done.returncode == 0, done.stdout

    return run


COMMANDS = {
    "rust-valgrind": LEAKS, "rust": PACKED, "rust-installed": "cd lib/rust; cargo test --offline -q",
    "python-extension": "make -s python OUT=$W; PYTHONDONTWRITEBYTECODE=1 VT220_EXTENSION=$W/_calls.abi3.so pytest-3 lib/python/tests",
    "go": "cd lib/go; go vet -tags vt220_source ./...; go test -tags vt220_source -count=1 ./...", "go-installed": "cd lib/go; go test -count=1 ./...",
    "go-static": "cd lib/go; LD_LIBRARY_PATH= go test -count=1 -tags vt220_static ./...", "installed": INSTALLED, "uninstalled": UNINSTALLED,
}


@pytest.mark.parametrize("name", COMMANDS)
def test_binding(run, name):
    run(COMMANDS[name])
