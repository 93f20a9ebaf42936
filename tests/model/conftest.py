"""What the tests of the plain model share: their options, and the seeds of generated inputs."""
import pathlib
import sys

import pytest

TOP = pathlib.Path(__file__).resolve().parents[2]
sys.path[:0] = [str(TOP / "lib/python"), str(TOP / "lib/rows")]
# The seeds of one test.
BLOCK = 250


def pytest_addoption(parser):
    parser.addoption("--program", default=str(TOP / "crates/vt220/out/vt220"), help="the program that plays the recordings")
    parser.addoption("--count", type=int, help="the number of generated inputs of each kind")
    parser.addoption("--seed", type=int, default=1, help="of the first input; the others have the numbers after it")
    parser.addoption("--input", help="a file that is compared next to the generated inputs")
    parser.addoption("--inputs", type=int, default=0, help="so many generated inputs of each kind must see each mutant, too")


def pytest_generate_tests(metafunc):
    """Gives `seeds` to a test of generated inputs, in blocks. Its module says how many there are."""
    if "seeds" in metafunc.fixturenames:
        first, count = (metafunc.config.getoption(name) for name in ("seed", "count"))
        end = first + (metafunc.module.COUNT if count is None else count)
        metafunc.parametrize("seeds", [range(at, min(at + BLOCK, end)) for at in range(first, end, BLOCK)], ids=lambda seeds: str(seeds[0]))


@pytest.fixture(scope="session")
def program(pytestconfig):
    return str(pathlib.Path(pytestconfig.getoption("--program")).resolve())
