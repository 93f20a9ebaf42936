"""Runs the programs of this directory, which `make -f tests/Makefile library` builds with gcc and clang, plain, under the sanitizers and valgrind, and under
qemu for aarch64; libFuzzer; and the examples."""
import pathlib
import re
import subprocess

import pytest

TOP = pathlib.Path(__file__).resolve().parents[3]
HERE, T, ROWS, PROGRAM = "lib/c/tests", "out/tests", "out/tests/rows", "crates/vt220/out/vt220"
PLAIN = "rows misuse fields calls sizes languages updates keys readers stack processor refused many moved stays serve".split()
CHECKED = "rows misuse calls sizes languages blocks keys refused serve".split()
GROUND = "rows misuse calls sizes languages keys refused".split()
AARCH64 = "rows calls misuse fields keys readers refused stack many moved".split()
ARGUMENTS = {"rows": [f"{ROWS}/screens.rows"], "keys": [f"{ROWS}/keys.rows"], "fields": [f"{ROWS}/fields.rows", f"{HERE}/abi.txt"],
             "updates": [f"{ROWS}/updates.rows"]}
VALGRIND = "valgrind -q --error-exitcode=99 --leak-check=full --show-leak-kinds=all --errors-for-leak-kinds=all".split()
CROSS = "aarch64-linux-gnu-gcc -std=gnu11 -O2 -Wall -Wextra -Werror -Ilib/c/include".split()
QEMU = "qemu-aarch64 -L /usr/aarch64-linux-gnu".split()
WRAP = "-Wl,--wrap=malloc,--wrap=realloc,--wrap=free"
FLAGS = {"readers": ["-pthread", WRAP], "refused": [WRAP], "stack": ["-pthread"]}
aarch64, compilers = pytest.mark.aarch64, pytest.mark.parametrize("compiler", ["gcc", "clang"])


def run(*words, status=0, **options):
    """Runs a program at the top of the repository. Returns what it prints."""
    done = subprocess.run(words, cwd=TOP, stdin=subprocess.DEVNULL if "input" not in options else None, capture_output=True, **options)
    assert done.returncode == status, (done.stderr + done.stdout).decode(errors="replace")
    return done.stdout


@pytest.fixture
def check(record_property):
    """Runs a program that prints how many of its checks passed."""

    def check(*words):
        printed = run(*words).decode()
        record_property("checks", int(re.search(r"(\d+) passed, 0 failed\n\Z", printed)[1]))

    return check


def test_fuzz(pytestconfig, tmp_path):
    run(f"{T}/fuzz", f"-max_total_time={pytestconfig.getoption('--fuzz')}", "-max_len=4096", "-timeout=300", f"-artifact_prefix={tmp_path}/", tmp_path)


@pytest.mark.parametrize("name", GROUND)
def test_valgrind(check, name):
    check(*VALGRIND, f"{T}/{name}.gcc", *ARGUMENTS.get(name, []))


@compilers
@pytest.mark.parametrize("name", [*PLAIN, *(f"{name}-sane" for name in CHECKED)])
def test_program(check, name, compiler):
    name, sane = name.removesuffix("-sane"), "-sane" * name.endswith("-sane")
    check(f"{T}/{name}.{compiler}{sane}", *ARGUMENTS.get(name, []))


@compilers
def test_example_beside_the_program(tmp_path, compiler):
    box = tmp_path / "box"
    box.write_bytes(b"Hello\r\n\033[2;3H\033(0lqk\033[3;3Hmqj\033[6n")
    done = subprocess.run([TOP / f"{T}/example-screen.{compiler}"], input=box.read_bytes(), capture_output=True, check=True)
    assert (done.stdout, done.stderr) == (run(PROGRAM, "text", box), run(PROGRAM, "reports", box))


@compilers
def test_example_whose_text_cannot_be_written(compiler):
    done = subprocess.run([TOP / f"{T}/full.{compiler}"], stdin=subprocess.DEVNULL, capture_output=True, text=True)
    assert done.returncode != 0 and done.stdout + done.stderr == "screen: the output buffer is too small\n"


# The commands of docs/C.md that run an example, and what they print there.
EXAMPLES = [(command, printed) for command, printed in re.findall(r"^\$ (.*\./\w+.*)\n((?:(?![$`]).*\n)+)", (TOP / "docs/C.md").read_text(), re.M) if "screen" not in command]


@pytest.mark.parametrize("command, printed", EXAMPLES, ids=[re.search(r"\./(\w+)", command)[1] for command, _ in EXAMPLES])
def test_example_prints_what_the_page_says(command, printed):
    assert run("bash", "-o", "pipefail", "-c", re.sub(r"\./(\w+)", rf"{T}/example-\1.gcc", command)).decode() == printed


def test_examples_of_the_page():
    assert {re.search(r"\./(\w+)", command)[1] for command, _ in EXAMPLES} == {"keys", "utf8", "xterm", "sizes", "serve"}


def test_shared_library(check):
    assert b"libvt220.so => not" not in run("ldd", f"{T}/shared")
    check(f"{T}/shared")


@pytest.mark.parametrize("compiler", ["g++", "clang++"])
def test_header_from_cxx(check, compiler):
    check(f"{T}/header.{compiler}")


def test_limits_of_the_header_are_those_of_the_crates():
    defined = run("gcc", "-E", "-dM", "lib/c/include/vt220.h").decode()
    limits = re.findall(r"^#define (VT220_(?:ROWS|COLUMNS|[A-Z0-9_]*LIMIT) \d+)$", defined, re.M)
    assert sorted(limits) == sorted(line for line in (TOP / "crates/figures/stdout").read_text().splitlines() if line.startswith("VT220_"))


def interface(nm, option, library, *abi):
    """Returns the sizes and offsets of the structs, as a program prints them, and what a library exports."""
    names = re.findall(r" T ([^@\n]*)", run(nm, option, "--defined-only", library).decode())
    return run(*abi).decode() + "".join(f"{name}\n" for name in sorted(names))


LIBRARIES = pytest.mark.parametrize("library, option", [("libvt220.so", "-D"), ("libvt220.a", "-g")])


@LIBRARIES
def test_interface(library, option):
    assert interface("nm", option, f"out/{library}", f"{T}/abi") == (TOP / HERE / "abi.txt").read_text()


@aarch64
@pytest.mark.parametrize("name", AARCH64)
def test_program_on_aarch64(check, tmp_path, name):
    run(*CROSS, "-o", tmp_path / name, f"{HERE}/{name}.c", "out/aarch64/libvt220.a", *FLAGS.get(name, []))
    check(*QEMU, tmp_path / name, *ARGUMENTS.get(name, []))


@aarch64
def test_shared_library_on_aarch64(check, tmp_path):
    run(*CROSS, "-o", tmp_path / "shared", f"{HERE}/misuse.c", "-Lout/aarch64", "-lvt220")
    check(*QEMU, "-E", "LD_LIBRARY_PATH=out/aarch64", tmp_path / "shared")


@aarch64
@LIBRARIES
def test_interface_on_aarch64(tmp_path, library, option):
    """The sizes and offsets are those of x86-64."""
    run(*CROSS, f"-I{T}", "-o", tmp_path / "abi", f"{HERE}/abi.c")
    assert interface("aarch64-linux-gnu-nm", option, f"out/aarch64/{library}", *QEMU, tmp_path / "abi") == (TOP / HERE / "abi.txt").read_text()
