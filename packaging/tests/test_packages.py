"""Tests packaging/licence on copies of the commit, and the list by SPDX and the statement by in-toto, as their specifications describe them."""
import hashlib
import json
import pathlib
import re
import subprocess
import sys
import tomllib

import pytest

ROOT = pathlib.Path(__file__).resolve().parents[2]
# What a choice changes, and the name in Debian and a part of the text of each licence.
CHANGED = ["LICENCE", "lib/js/package.json", "lib/python/pyproject.toml", "lib/rust/vt220-sys/Cargo.toml", "lib/rust/vt220/Cargo.toml"]
CHOICES = {"MIT": ("Expat", "Permission is hereby granted, free of charge"), "Apache-2.0": ("Apache-2.0", "Version 2.0, January 2004"), "GPL-3.0-or-later": ("GPL-3+", "Version 3, 29 June 2007")}


def printed(*words, cwd=ROOT):
    return subprocess.run(words, cwd=cwd, stdout=subprocess.PIPE, text=True, check=True).stdout


@pytest.fixture
def copy(tmp_path):
    subprocess.run(["git", "clone", "-q", "--shared", ROOT, tmp_path / "copy"], check=True)
    return tmp_path / "copy"


def named(copy):
    """Returns the licence that each file names, as the readers of its format find it."""
    cargo = [tomllib.loads((copy / f"lib/rust/{name}/Cargo.toml").read_text())["package"].get("license") for name in ("vt220", "vt220-sys")]
    project = tomllib.loads((copy / "lib/python/pyproject.toml").read_text())["project"]["license"]["text"]
    return [printed("packaging/licence", cwd=copy).strip(), *cargo, project, json.loads((copy / "lib/js/package.json").read_text())["license"]]


def debian(copy):
    """Returns the names of licences of the paragraphs about files in Debian's copyright file."""
    paragraphs = printed("packaging/third-party", "--debian", cwd=copy).split("\n\n")
    return [re.search(r"^License: (.*)$", each, re.M)[1] for each in paragraphs if each.startswith("Files:")]


def noticed(copy):
    return printed(sys.executable, "-B", "-c", "import sys; sys.path.insert(0, 'lib/js'); import bundle; print(bundle.notices())", cwd=copy)


def test_no_licence(copy):
    """Without a choice all say that there is none. An unknown licence changes nothing."""
    if printed("packaging/licence", cwd=copy).strip() == "NONE":
        assert "none is granted" in named(copy)[3] and debian(copy)[0] == "none-granted" and "No licence is granted yet" in noticed(copy)
    assert subprocess.run(["packaging/licence", "WTFPL"], cwd=copy, capture_output=True).returncode != 0
    assert printed("git", "status", "--porcelain", cwd=copy) == ""


@pytest.mark.parametrize("name", CHOICES)
def test_licence(copy, name):
    short, part = CHOICES[name]
    assert sorted(printed("packaging/licence", name, cwd=copy).split()) == CHANGED, "what it says it changed"
    assert sorted(printed("git", "diff", "--name-only", cwd=copy).split()) == CHANGED, "what it changed"
    assert named(copy) == [name] * 5
    assert part in (copy / "LICENCE").read_text() and (copy / "LICENCE").read_text().startswith("Copyright 2026 "), "its text"
    files = debian(copy)
    assert files[0] == short and files[1].startswith(f"{short} and "), "Debian's copyright file"
    assert "none-granted" not in printed("packaging/third-party", "--debian", cwd=copy)
    notice = noticed(copy)
    assert f"SPDX-License-Identifier: {name}" in notice and "No licence" not in notice and len(notice) < 20000, "the notice of a page"


def test_spdx():
    """What SPDX 2.3 demands (6, 7, 11), and each crate that THIRD-PARTY lists."""
    text = printed("packaging/third-party", "--spdx")
    made = json.loads(text)
    assert [made["spdxVersion"], made["dataLicense"], made["SPDXID"]] == ["SPDX-2.3", "CC0-1.0", "SPDXRef-DOCUMENT"], "the document"
    assert re.fullmatch(r"\d{4}-\d\d-\d\dT\d\d:\d\d:\d\dZ", made["creationInfo"]["created"]) and made["creationInfo"]["creators"], "its creation"
    assert re.fullmatch(r"https://\S+[^#\s]", made["documentNamespace"]), "its name in the world"
    ids = [each["SPDXID"] for each in made["packages"]]
    assert len(set(ids)) == len(ids) and all(re.fullmatch(r"SPDXRef-[A-Za-z0-9.-]+", each) for each in ids), "identifiers"
    assert all(each["name"] and each["downloadLocation"] and each["filesAnalyzed"] is False for each in made["packages"]), "packages"
    assert {each[key] for each in made["relationships"] for key in ("spdxElementId", "relatedSpdxElement")} == {*ids, "SPDXRef-DOCUMENT"}, "each package is in a relation"
    listed = {crate for part in re.findall(r"^In .*:\n((?:.+\n)+)", (ROOT / "packaging/THIRD-PARTY").read_text(), re.M) for crate in re.findall(r"\w+", part)}
    assert {each["name"].removeprefix("rattle-") for each in made["packages"] if each["name"].startswith("rattle-")} == listed, "the crates of THIRD-PARTY"
    licences = {each["name"]: each["licenseDeclared"] for each in made["packages"]}
    assert [licences[name] for name in ("rattle-clap", "rattle-json", "vt220")] == ["MIT", "NOASSERTION", printed("packaging/licence").strip()]
    assert printed("packaging/third-party", "--spdx") == text, "the same list twice"


def test_statement(tmp_path):
    """What in-toto's Statement v1 demands, and what PROVED states."""
    for name in ("one", "a/two"):
        (tmp_path / name).parent.mkdir(exist_ok=True)
        (tmp_path / name).write_text(name)
    subprocess.run("sha256sum one a/two >SHA256SUMS", shell=True, cwd=tmp_path, check=True)
    made = json.loads(printed("packaging/statement", tmp_path / "SHA256SUMS"))
    assert made["_type"] == "https://in-toto.io/Statement/v1" and made["predicateType"].startswith("https://"), "the form"
    assert made["subject"] == [{"name": name, "digest": {"sha256": hashlib.sha256(name.encode()).hexdigest()}} for name in ("one", "a/two")], "the files"
    proved, stated = printed("packaging/proved"), made["predicate"]
    assert stated["commit"] == printed("git", "rev-parse", "HEAD").strip() and f"Gate: {stated['gate']}\n" in proved and f"Toolchain: {stated['toolchain']}\n" in proved
    assert {*printed("make", "-s", "crates", "OF=vt220 vt220_c recording_c").split()} == {*stated["functions"]}, "the crates"
    for name, value in {**stated["functions"], **stated["tools"]}.items():
        assert re.search(rf"^  {re.escape(name)} +{re.escape(str(value))}$", proved, re.M), "as PROVED has it"
