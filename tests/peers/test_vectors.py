"""Compares other terminals with the conformance vectors, by the rules of docs/PEERS.md, which has the counts. It takes about six minutes.

`-n 0 --write` writes the counts into the page. `-rP` also lists the vectors that each terminal fails, and why. `--command 'COMMAND ARGUMENT ..'
-k test_command` compares a command: it is given the input of each vector of a VT220's bytes, and must print its text: 24 lines of
UTF-8, each without the spaces at its end, and LF.
"""
import concurrent.futures
import os
import re
import shlex
import subprocess
from collections import Counter

import pytest
import vectors
from conftest import TOP, version
from terminals import HERE, PACKAGES
from vt220 import shown as shown_by_vt220

PAGE = TOP / "docs/PEERS.md"
ALL = list(vectors.vectors())
# The last row of the table of each set of vectors: an encoding and a terminal.
SETS = {("dec", "vt220"): "all", ("utf-8", "vt220"): "all of UTF-8", ("utf-8", "xterm"): "all of TERM=xterm"}
OF_VT220 = [one for one in ALL if (one.encoding, one.terminal) == ("dec", "vt220")]
# Vectors whose input has another meaning on later or larger terminals. They are counted for none but this one.
LATER = [one.name for one in OF_VT220 if f"\n- {one.name}: " in PAGE.read_text()]
HANGS = 600  # seconds, on a busy machine, too
# How terminals show the VT220's reversed question mark.
QUESTION_MARKS = str.maketrans("\u2e2e\ufffd", "\u2426\u2426")


def has_8_bits(one):
    return max(one.input, default=0) >= 0x80


def is_counted(one, name):
    """Returns whether a vector is counted for a terminal."""
    if one in OF_VT220:
        return name == "vt220" or one.name not in LATER and not (PACKAGES[name][1] and has_8_bits(one))
    return not (name == "xterm" and one.wanted["pending"])


def shown(name, one):
    """Returns the text that a terminal shows, or None if it ends with an error."""
    words = [HERE / "terminals.py", name, "--encoding", one.encoding, "--terminal", one.terminal]
    done = subprocess.run(words, input=one.input, capture_output=True, timeout=HANGS)
    text = done.stdout.decode("utf-8", "replace").translate(QUESTION_MARKS)
    if done.returncode:
        return None
    return text if one in OF_VT220 else "".join(shown_by_vt220(line).rstrip(" ") + "\n" for line in text.splitlines())


def rows_of(some):
    """Returns how many vectors each row of the tables has."""
    return Counter(key for one in some for key in {SETS[one.encoding, one.terminal], *([one.name.partition(":")[0]] if one in OF_VT220 else [])})


def on_page(name):
    """Returns the column of a terminal in the page's tables, by the rows that are counted, and the places of its cells."""
    column, found = None, {}
    for at, line in enumerate(PAGE.read_text().splitlines()):
        cells = [cell.strip() for cell in line.split("|")]
        if cells[1:2] in (["Subject"], ["Set"]) and name in cells:
            column = cells.index(name)
        elif len(cells) < 3:
            column = None
        elif column and " of " in cells[column]:
            found[cells[1]] = (cells[column], at, column)
    return found


def write(name, counts):
    lines = PAGE.read_text().splitlines()
    for key, (_, at, column) in on_page(name).items():
        cells = lines[at].split("|")
        cells[column] = f" {counts[key]} "
        lines[at] = "|".join(cells)
    PAGE.write_text("\n".join([*lines, ""]))


def test_table(name, is_written):
    counted = [one for one in ALL if is_counted(one, name)]
    shown(name, counted[0])  # which may build the terminal
    with concurrent.futures.ThreadPoolExecutor(2 * os.cpu_count()) as pool:
        texts = list(pool.map(lambda one: shown(name, one), counted))
    failed = [(one, text) for one, text in zip(counted, texts) if text != one.text()]
    print(*(f"- {one.name}{' (it ended with an error)' if text is None else f' (xterm {one.differs})' if name == 'xterm' and one.differs else ''}" for one, text in failed), sep="\n")
    totals, missed = rows_of(counted), rows_of(one for one, _ in failed)
    counts = {key: f"{total - missed[key]} of {total}" for key, total in totals.items()}
    if is_written:
        write(name, counts)
    assert counts == {key: count for key, (count, *_) in on_page(name).items()}
    # If xterm differs from a vector of UTF-8 or of TERM=xterm, the vector's line says so.
    assert name != "xterm" or not [one.name for one, _ in failed if one not in OF_VT220 and not one.differs]


test_table.names = (*PACKAGES, "vt220")


# The numbers of vectors on the page, and the versions of the terminals.
NUMBERS = {
    r"A blank screen passes (\d+) of": sum(one.text() == "\n" * 24 for one in OF_VT220),
    r"of the (\d+) vectors of a\s+VT220": len(OF_VT220),
    r"The (\d+) vectors of a VT220 with": sum(map(has_8_bits, OF_VT220)),
    r"- (\d+) vectors of a VT220 aren't": len(LATER),
    r"- (\d+) vectors end inside": sum(one.wanted["pending"] != b"" for one in ALL),
    **{rf"[: ]{name} (\d[^ ]*)[,.](?=\s)": version(name) for name in PACKAGES if version(name)},
}


@pytest.mark.parametrize("pattern", NUMBERS)
def test_numbers(pattern, is_written):
    page, wanted = PAGE.read_text(), str(NUMBERS[pattern])
    if is_written:
        PAGE.write_text(page := re.sub(pattern, lambda found: found[0].replace(found[1], wanted), page))
    assert {found[1] for found in re.finditer(pattern, page[: page.index("## Programs of today")])} == {wanted}


@pytest.mark.parametrize("one", OF_VT220, ids=lambda one: one.name)
def test_command(one, pytestconfig):
    done = subprocess.run(shlex.split(pytestconfig.getoption("--command")), input=one.input, capture_output=True, timeout=HANGS)
    assert done.stdout.decode() == one.text()
