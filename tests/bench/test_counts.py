"""Counts instructions, and compares each count with the figure of docs/PERFORMANCE.md. One that differs by more than 1 in 100, apart from the rounding
to a tenth, fails. If so, look whether the toolchain and the C library are those that the page names."""
import os
import subprocess

import pytest
import run
import workloads

PAGE = (run.TOP / "docs/PERFORMANCE.md").read_text()
ROUNDING = 0.05  # a figure of the page has one decimal


def figures(corner, name):
    """Returns the figures of a row of the page's table with this word in its corner, by their heads."""
    heads = None
    for line in PAGE.splitlines():
        cells = [cell.strip(" `") for cell in line.strip().split("|")[1:-1]]
        if cells[:1] == [corner]:
            heads = cells
        elif heads and cells[:1] == [name]:
            return list(zip(heads[1:], map(float, cells[1:])))


def compare(found, rounding=ROUNDING):
    """Compares figures with counts: triples of what they are, the page's figure and the count."""
    assert found and not [one for one in found if abs(one[1] - one[2]) > one[2] / 100 + rounding], tools()


def tools():
    """Returns what the counts depend on apart from the sources, as the page names it, and whether the page does."""
    _, *logic = subprocess.run(["rt", "version"], capture_output=True, text=True).stdout.split()
    words = f"{' '.join(logic)}, GNU C library {os.confstr('CS_GNU_LIBC_VERSION').split()[1]}"
    return f"counted with {words}{'' if words in PAGE else ', which the page does not name'}"


@pytest.mark.parametrize("corner, name", [(corner, name) for corner, (_, *names) in run.TABLES.items() for some in names for name in some])
def test_workload(corner, name):
    programs = run.TABLES[corner][0]
    counts = run.counts_of(programs, run.once(corner, name))
    page = dict(figures(corner, name))
    compare([(program, page[program], counts[program]) for program in programs])


@pytest.mark.parametrize("name", workloads.CASTS)
def test_cast(name):
    compare([(what, figure, count) for (what, figure), count in zip(figures("asciicast", name), run.cast_counts(name), strict=True)])


@pytest.mark.parametrize("name", workloads.SCREENS)
def test_screen(name):
    compare([(what, figure, count) for (what, figure), count in zip(figures("screen", name), run.screen_counts(name), strict=True)], rounding=0)
