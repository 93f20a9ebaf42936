"""The crates of crates.txt, what they use, their sources, and where the toolchain is."""
import functools
import hashlib
import pathlib
import subprocess

ROOT = pathlib.Path(__file__).resolve().parents[1]
SOURCES = ["src", "specs", "proofs"]


@functools.cache
def rows():
    """Returns for each crate its line of crates.txt."""
    return {line.partition(":")[0].split()[0]: line for line in (ROOT / "crates.txt").read_text().splitlines() if line and not line.startswith("#")}


def libraries():
    """Returns for each crate the libraries that it uses, those of the toolchain among them."""
    return {crate: row.partition(":")[2].split() for crate, row in rows().items()}


def graph():
    """Returns for each crate the crates of this repository that it uses."""
    deps = libraries()
    return {crate: [dep for dep in each if dep in deps] for crate, each in deps.items()}


def below(uses, crate):
    """Returns the crates that a crate depends on, lowest first."""
    return list(dict.fromkeys(each for dep in uses[crate] for each in [*below(uses, dep), dep]))


def folder(crate, tree=ROOT):
    return tree / "crates" / crate


def files(crate):
    """Returns the source files of a crate."""
    return sorted(path for part in SOURCES for path in (folder(crate) / part).rglob("*") if path.is_file())


@functools.cache
def toolchain():
    return subprocess.run(["rt", "version"], stdout=subprocess.PIPE, check=True).stdout


def checksum(uses, crate):
    """Returns the sum of all that a crate's proof and tests depend on."""
    total = hashlib.sha256(toolchain())
    for each in [*below(uses, crate), crate]:
        total.update(rows()[each].encode())
        for path in files(each):
            total.update(repr((str(path.relative_to(ROOT)), path.read_bytes())).encode())
    return total.hexdigest()


def place_of_kit():
    return pathlib.Path(subprocess.run([ROOT / "tools/kit"], check=True, stdout=subprocess.PIPE, text=True).stdout.strip())
