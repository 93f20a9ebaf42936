"""Compares the recipes of docs/CONTRIBUTING.md with worked examples. `--commands try` tries these, and `-k NAME` chooses one.

A recipe is a section of docs/CONTRIBUTING.md that says 'N edits in M files', and has a table with these files. NAME.patch has the edits of its
worked example. So the files of the table are all that has to change by hand. An edit is a run of changed lines.

A patch begins with lines 'recipe: TITLE', 'try: COMMAND' and 'prove: COMMAND'. A command is run at the top of the copy. `in CRATE ..
COMMAND` stands for COMMAND in the folder of each of these crates. If a patch no longer applies, mend its lines by hand: the files that it
changes have moved on.
"""
import pathlib
import re
import shutil
import subprocess

import pytest

HERE = pathlib.Path(__file__).resolve().parent
TOP = HERE.parents[1]
CRATES = {path.name for path in (TOP / "crates").iterdir() if not (TOP / path.name).is_dir()}
PATCHES = {path.stem: path.read_text() for path in sorted(HERE.glob("*.patch"))}
_, *PARTS = re.split(r"^## (.*)\n", (TOP / "docs/CONTRIBUTING.md").read_text(), flags=re.M)
RECIPES = {title: section for title, section in zip(PARTS[::2], PARTS[1::2]) if re.search(r"\d+ edits? in \d+ files?", section)}


def orders(patch, word):
    """Returns the values of the lines 'WORD: ..' at the beginning of a patch."""
    return re.findall(rf"^{word}: (.*)$", patch.partition("\n--- ")[0], re.M)


def edits(patch):
    """Returns how many runs of changed lines a patch has."""
    lines = [line[:1] for line in patch.split("\n") if not line.startswith(("+++ ", "--- "))]
    return sum(line in ("+", "-") and before not in ("+", "-") for before, line in zip(["", *lines], lines))


def spelled_out(path):
    """Returns the files that a path with braces stands for. A path that begins with a crate's name is below crates/, unless a directory at the top has that name."""
    if found := re.match(r"(.*)\{(.*)\}(.*)", path):
        return [file for part in found[2].split(",") for file in spelled_out(f"{found[1]}{part}{found[3]}")]
    return [f"crates/{path}" if path.split("/")[0] in CRATES else path]


def test_each_recipe_has_a_patch():
    assert {*RECIPES} == {title for patch in PATCHES.values() for title in orders(patch, "recipe")}


@pytest.mark.parametrize("name", PATCHES)
def test_files(name):
    """The recipe names the files of its patch, and counts its edits."""
    patch, section = PATCHES[name], RECIPES["".join(orders(PATCHES[name], "recipe"))]
    files = {*re.findall(r"^\+\+\+ b/(.*)$", patch, re.M)}
    cells = re.findall(r"^\| (`[^|]*) \|", section, re.M)
    assert {file for cell in cells for path in re.findall(r"`([^`]+)`", cell) for file in spelled_out(path)} == files
    assert re.search(r"(\d+) edits? in (\d+) files?", section).groups() == (str(edits(patch)), str(len(files)))


@pytest.mark.parametrize("name", PATCHES)
def test_patch(name, pytestconfig, tmp_path):
    """It applies. With --commands its commands end with the status 0 in a copy of what git lists here."""
    subprocess.run(["git", "apply", "--check", HERE / f"{name}.patch"], cwd=TOP, check=True)
    words = {None: [], "try": ["try"], "prove": ["try", "prove"]}[pytestconfig.getoption("--commands")]
    if words:
        copy(tmp_path, name)
    for order in (order for word in words for order in orders(PATCHES[name], word)):
        found = re.match(r"in ((?:\w+ )*?\w+) (rt .*)", order)
        for folder in [f"crates/{crate}" for crate in found[1].split()] if found else ["."]:
            subprocess.run(found[2] if found else order, shell=True, cwd=tmp_path / folder, stdin=subprocess.DEVNULL, check=True)


def copy(folder, name):
    """Copies what git lists here, and applies a patch."""
    listed = subprocess.run(["git", "ls-files", "-zco", "--exclude-standard"], cwd=TOP, capture_output=True, text=True, check=True)
    for file in filter(lambda file: file and (TOP / file).exists(), listed.stdout.split("\0")):
        (folder / file).parent.mkdir(parents=True, exist_ok=True)
        shutil.copy2(TOP / file, folder / file, follow_symlinks=False)
    subprocess.run(["git", "init", "-q"], cwd=folder, check=True)
    subprocess.run(["git", "apply", HERE / f"{name}.patch"], cwd=folder, check=True)
