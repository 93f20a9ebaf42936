"""Checks the edits that the prover must refuse. The gate tries those in must-fail/ of a crate by `rt must-fail`. docs/decisions/gate.md says which are where.

The first line of each edit is a note, '# clause: FUNCTION: CLAUSE, ..': the function of the crate that the prover refuses, and those of
its clauses that the edit breaks. 'requires' or 'requires CLAUSE' is of a function that the edit calls. A function with one clause without
a name has none in its note, or 'its clause'. 'invariant FIELD' is a field of a loop's invariant that says the same as the clause. A note
is right if the function has these clauses and fields. Each edit that struck.txt names is there.

`--on-request NAME ..` tries the edits in on-request/ of these crates. `-n 0 --struck NAME ..` shows that an edit is refused for the clauses that it is
meant for. The crates are copied with what their proofs have kept. There the function is checked with the edit, which must be refused, and then
without the clauses and the hand-written proofs of them, which must be proved. (A clause that is then the only one has a goal of another name. So
if its proof is written by hand, no edit of that function is for the list.) One check runs at a time.
"""
import pathlib
import re
import shutil
import subprocess
import tempfile

import pytest

HERE = pathlib.Path(__file__).resolve().parent
ROOT = HERE.parents[1]
LIST = (HERE / "struck.txt").read_text()
NOTE = re.compile(r"# clause: ([\w:]+?\w)(?:: (.+))?")


def edits(crate, name="*"):
    """Returns the edits of a crate, or the one of a name."""
    return sorted(path for part in ("must-fail", "on-request") for path in (crate / part).glob(f"{name}.edit"))


def note_of(edit):
    """Returns the function and the clauses of an edit's note, or nothing if it has none."""
    found = NOTE.fullmatch(edit.read_text().splitlines()[0])
    return found and (found[1], ["" if name == "its clause" else name for name in found[2].split(", ")] if found[2] else [""])


def fields_of(names):
    """Returns the fields of invariants among the names of a note."""
    return [name.removeprefix("invariant ") for name in names if name.startswith("invariant ")]


def source_of(crate, function):
    """Returns the file of a function, and where it begins there, or nothing if the crate has no such function."""
    parts = function.split("::")
    files = (crate / "src" / f"{'/'.join(parts[:count])}.rt" for count in range(len(parts) - 1, 0, -1))
    path = next((path for path in files if path.is_file()), None)
    if not path:
        return None
    names = parts[len(path.relative_to(crate / "src").parts) :]
    at, source = 0, path.read_text()
    for pattern in [rf"\b(?:impl\b.*\b{name}|trait {name})\b.* \{{" for name in names[:-1]] + [rf"\bfn {names[-1]}\b"]:
        found = re.compile(pattern).search(source, at)
        if not found:
            return None
        at = found.start()
    return path, at


def names_of(crate, function):
    """Returns a function's module, and its names in the module as the prover has them: a type's name goes on with that of a trait that it implements."""
    module, *names = function.split("::")
    path, at = source_of(crate, function)
    heads = re.findall(r"^impl\b.*", path.read_text()[:at], re.M) if len(names) > 1 else []
    trait = heads and re.match(rf"impl(?:<.*?>)? (\w+)(?:<.*>)? for {names[-2]}\b", heads[-1])
    return module, [*names[:-2], names[-2] + trait[1], names[-1]] if trait else names


def proofs_of(crate, function):
    """Returns the folders of the proofs of a function. Those of a method are in the folder of the module that has the type."""
    module, names = names_of(crate, function)
    place = "/".join(names if module == "lib" or len(names) > 1 else [module, *names])
    return [path for path in (crate / "proofs").glob(f"**/{place}") if path.is_dir()]


def places(source, at, clause):
    """Returns the beginning and the end of each clause of this name in a function's signature. Without a name, it has one."""
    ends = re.compile(r"^ *\{|;\n", re.M).search(source, at)
    word, _, name = clause.rpartition(" ") if " " in clause else ("requires", "", "") if clause == "requires" else ("ensures", "", clause)
    found = []
    for match in re.finditer(rf"\n *{word}{' ' + name if name else ''} \{{", source[at : ends.start()]):
        end, depth = at + match.end(), 1
        while depth > 0:
            depth += {"{": 1, "}": -1}.get(source[end], 0)
            end += 1
        found.append((at + match.start(), end))
    return found


EDITS = [edit for crate in sorted((ROOT / "crates").iterdir()) for edit in edits(crate)]


@pytest.mark.parametrize("edit", EDITS, ids=lambda edit: f"{edit.parents[1].name}/{edit.stem}")
def test_note(edit):
    """An edit's note names clauses that are there, and each text that it replaces is in its file once."""
    crate = edit.parents[1]
    function, clauses = note_of(edit)
    path, at = source_of(crate, function)
    for field in fields_of(clauses):
        texts = [path.read_text() for folder in proofs_of(crate, function) for path in folder.glob("Invariants.antt")]
        assert any(f"  {field} :" in text for text in texts), f"{function} has no invariant with a field '{field}'"
    for clause in clauses:
        assert clause.startswith("invariant ") or len(places(path.read_text(), at, clause)) == 1, f"{function} has one clause '{clause}'"
    file = None
    for line in edit.read_text().splitlines():
        kind, _, text = line.partition(": ")
        file = crate / text if kind == "file" else file
        assert kind != "old" or file.read_text().count(text) == 1, f"'{text}' is in {file} once"


def test_list():
    """Each edit that the list names is there."""
    assert not [f"{crate}/{name}" for crate, name in re.findall(r"^(?:# )?(vt\w+)/([\w-]+)", LIST, re.M) if not edits(ROOT / "crates" / crate, name)]


def edited(crate, edit):
    """Applies an edit to a crate, as `rt must-fail` does."""
    path = old = None
    for line in edit.read_text().splitlines():
        kind, _, text = line.partition(": ")
        if kind == "file":
            path = crate / text
        elif kind == "old":
            old = text
        elif kind == "new":
            source = path.read_text()
            assert source.count(old) == 1, f"{edit.stem}: '{old}' isn't there once"
            path.write_text(source.replace(old, text))


def strike(crate, function, names):
    """Takes clauses of a function and fields of its invariants out of a crate, with their proofs by hand: a proof of nothing is an error."""
    path, at = source_of(crate, function)
    clauses = [name for name in names if not name.startswith("invariant ")]
    for clause in clauses:
        source = path.read_text()
        [(begin, end)] = places(source, at, clause)
        path.write_text(source[:begin] + source[end:])
    for folder in proofs_of(crate, function):
        for file in folder.glob("*.antt"):
            text = file.read_text()
            if file.name == "Answers.antt":
                named = "" if clauses == [""] else f"-clause-(?:{'|'.join(clauses)})"
                proof = re.compile(rf"^pub returns\S*{named} : ", re.M)
                text = "\n\n".join(part for part in text.split("\n\n") if not proof.search(part))
            for field in fields_of(names):
                text = re.sub(rf"^( +){field} [:=](?: .*)?\n(?:.*\n)*?(?=\1\w+ [:=]| *\}})", "", text, flags=re.M)
            file.write_text(text)


def verdict(crate, function):
    """Returns whether the prover accepts a function. A check that comes to no verdict fails."""
    # A type's function is named by the module of the type, which may be another one.
    _, names = names_of(crate, function)
    name = "::".join(names) if len(names) > 1 else f"{crate.name}::{function.removeprefix('lib::')}"
    done = subprocess.run(["rt", "check", "--jobs", "1", "--only", name], cwd=crate, capture_output=True, text=True)
    assert done.returncode in (0, 1), f"{crate.name}::{function}: status {done.returncode}\n{done.stdout}{done.stderr}"
    return done.returncode == 0


def copied(folder, names):
    """Copies crates into a folder, and those below them, with what their proofs have kept."""
    listed = subprocess.run(["make", "-s", "crates", f"OF={' '.join(names)}"], cwd=ROOT, capture_output=True, text=True, check=True)
    for name in listed.stdout.split():
        shutil.copytree(ROOT / "crates" / name, folder / "crates" / name, symlinks=True)
    graph = [line for line in (ROOT / "crates.txt").read_text().splitlines() if re.split(r"[ :]", line)[0] in listed.stdout.split()]
    (folder / "crates.txt").write_text("".join(f"{line}\n" for line in graph))
    shutil.copy(ROOT / "HANDLES", folder)


def edits_of(words):
    """Returns the crates and the names of the edits that are tried."""
    listed = [tuple(line.split("/")) for line in LIST.splitlines() if not line.startswith("#")]
    named = [tuple(word.split("/")) for word in words if "/" in word]
    return named + [row for row in listed if row[0] in words or not words]


def pytest_generate_tests(metafunc):
    """Without the options, there are no edits to try."""
    words = {name: metafunc.config.getoption(name) for name in ("struck", "on_request")}
    if metafunc.function is test_struck:
        metafunc.parametrize("crate, name", edits_of(words["struck"]) if words["struck"] is not None else [])
    if metafunc.function is test_on_request:
        metafunc.parametrize("names", [words["on_request"] or sorted(path.parent.name for path in ROOT.glob("crates/*/on-request"))] if words["on_request"] is not None else [])


@pytest.fixture(scope="session")
def copy(pytestconfig):
    """A copy of the crates whose edits are tried. It is gone after the tests."""
    struck, names = (pytestconfig.getoption(name) for name in ("struck", "on_request"))
    with tempfile.TemporaryDirectory() as room:
        if struck is not None:
            names = dict(edits_of(struck))
        copied(pathlib.Path(room), names or sorted(path.parent.name for path in ROOT.glob("crates/*/on-request")))
        yield pathlib.Path(room)


def test_struck(crate, name, copy):
    """An edit is refused in a copy of its crate, and passes without the clauses of its note."""
    place = copy / "crates" / crate
    [edit] = edits(place, name)
    function, clauses = note_of(edit)
    kept = {path: path.read_text() for part in ("src", "specs", "proofs") for path in (place / part).rglob("*") if path.is_file()}
    try:
        edited(place, edit)
        assert not verdict(place, function), "it isn't refused"
        strike(place, function, clauses)
        assert verdict(place, function), f"it is refused without {function}: {', '.join(clause or 'its clause' for clause in clauses)}"
    finally:
        for path, text in kept.items():
            path.write_text(text)


def test_on_request(names, copy):
    """`rt must-fail` refuses the edits that the gate leaves out."""
    for crate in (copy / "crates").iterdir():
        shutil.rmtree(crate / "must-fail", ignore_errors=True)
        if (crate / "on-request").is_dir():
            (crate / "on-request").rename(crate / "must-fail")
    subprocess.run(["rt", "must-fail", *names], cwd=copy, check=True)
