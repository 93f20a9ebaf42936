"""Compares docs/contracts.txt with what the last stored version promised, docs/contracts-VERSION.txt. `-rP` prints each change, with its reason.

A change is a call, a type or a definition that is gone, a clause, row or field of one that is gone or has other words, or a condition
(`requires`) that is new. An item that moved to another crate with all its lines is no change. docs/contracts-changes.txt has a line for each
reason, and below it indented lines 'CRATE: NAME ..' of what changed for it. A name without a change is a fault, too. So is a stored file,
of contracts or of the C library's interface, that is gone or isn't as its first commit has it.
"""
import collections
import pathlib
import re
import subprocess

ROOT = pathlib.Path(__file__).resolve().parents[2]
DOCS = ROOT / "docs"
# What is stored of versions. git expands these itself.
STORED = ["docs/contracts-[0-9]*.txt", "lib/c/tests/abi-[0-9]*.txt"]
SECTION = re.compile(r"## (\w+): (contracts|definitions)")
CALL = re.compile(r"(?:impl(?:<[^>]*>)? (?:[\w:]+(?:<[^>]*>)? for )?(\w+)(?:<[^>]*>)? )?(?:pub )?(?:extern \"C\" )?fn (\w+)")
# What tells two definitions of one name apart, and changes with others.
HOME = re.compile(r"\bvt_\w+\.[A-Z]\w*\.")
TYPE = re.compile(r"(?:impl Model for|(?:pub )?(?:struct|enum|trait|const)) (\w+)|impl\S* .*?(\w+)(?:<.*)? \{")
DEFINITION = re.compile(r"(?:(?:abbrev|unfoldable|pub|data|record) )+([^\s:]+)|([^\s:]+) : ")


def name_of(line, kind):
    """Returns the name of the item that begins with a line, or nothing if none begins there."""
    if line[0] in " }":
        return None
    if kind == "definitions":
        found = DEFINITION.match(line)
        return found and (found[1] or found[2])
    if found := CALL.match(line):
        return "::".join(part for part in found.groups() if part)
    found = TYPE.match(line)
    return found and (found[1] or found[2])


def items(path):
    """Returns the lines of each item of such a file, by its crate and name. What a line names comes first in it."""
    found, crate, kind, name = collections.defaultdict(list), "", "", ""
    for line in path.read_text().splitlines():
        if section := SECTION.fullmatch(line):
            crate, kind = section.groups()
        elif line and crate:
            name = name_of(line, kind) or name
            found[crate, name].append(HOME.sub("", line.strip()))
    return found


def missing(old, new):
    """Returns the lines of `old` that `new` lacks."""
    return list((collections.Counter(old) - collections.Counter(new)).elements())


def changes(before, now):
    """Returns each changed item, with what changed."""
    by_name = collections.defaultdict(list)
    for (_, name), lines in now.items():
        by_name[name].append(lines)
    found = {}
    for (crate, name), lines in before.items():
        here = now.get((crate, name))
        if here is None and any(not missing(lines, other) for other in by_name[name]):
            continue
        said = [f"gone: {line}" for line in missing(lines, here or [])] if here else ["gone"]
        said += [f"new: {line}" for line in missing(here or [], lines) if line.startswith("requires")]
        if said:
            found[f"{crate}::{name}"] = said
    return found


def reasons():
    """Returns the reason for each name."""
    found, reason = {}, ""
    for line in (DOCS / "contracts-changes.txt").read_text().splitlines():
        if line.startswith("  "):
            crate, _, names = line.strip().partition(": ")
            found |= {f"{crate}::{name}": reason for name in names.split()}
        elif not line.startswith("#"):
            reason = line
    return found


def git(*words):
    return subprocess.run(["git", *words], cwd=ROOT, capture_output=True, text=True, check=True).stdout


def stored():
    """Returns each file that a commit stored for a version, and whether it is still what its first commit has."""
    first = {}
    for line in git("log", "--full-history", "--diff-filter=A", "--no-renames", "--reverse", "--no-abbrev", "--format=", "--raw", "--", *STORED).splitlines():
        facts, name = line.split("\t")
        first.setdefault(name, facts.split()[3])
    return {name: (ROOT / name).is_file() and git("hash-object", name).strip() == blob for name, blob in first.items()}


def last_stored():
    """Returns the contracts of the last stored version."""
    return max(DOCS.glob("contracts-[0-9]*.txt"), key=lambda path: [int(part) for part in re.findall(r"\d+", path.stem)])


def test_changes():
    """Each change has a reason, and each reason a change."""
    path, known = last_stored(), reasons()
    changed = changes(items(path), items(DOCS / "contracts.txt"))
    print(*(f"{path.stem}: {name}: {'; '.join(said)}\n    {known.get(name)}" for name, said in changed.items()), sep="\n")
    faults = [f"{path.stem}: {name}: {'; '.join(said)}" for name, said in changed.items() if name not in known]
    faults += [f"contracts-changes.txt: nothing changed of {name}" for name in sorted(known.keys() - changed)]
    assert not faults, "\n".join(faults)


def test_stored_files():
    faults = [f"{name} isn't what was stored" for name, is_kept in stored().items() if not is_kept]
    assert not faults, "\n".join(faults)
