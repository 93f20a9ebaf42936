"""Reads the crates of Rattle: what they export, the clauses of that, and the definitions in specs/ that clauses reach.

docs/definitions reads the crates by this module.
"""
import dataclasses
import functools
import pathlib
import re

ROOT = pathlib.Path(__file__).resolve().parent.parent / "crates"
WORD = re.compile(r"[A-Za-z_][\w'-]*(?:\.[A-Za-z_][\w'-]*)*|◌[^\s.{},]+◌")
TEXT = re.compile(r'"(?:[^"\\]|\\.)*"')
DATA = re.compile(r"(?:pub )?data ")
CONSTRUCTOR = re.compile(r"\s+(\S+) :")
START = re.compile(r"(?:(?:abbrev|unfoldable|pub|data|record) )*([A-Za-z_][\w'-]*)(?= :| \(| \{| ⟦|$)")
CLAUSE = re.compile(r"\n *((?:requires|ensures)(?: \w+)?) \{")


# --- definitions ---


def imports(text):
    """Returns the names that `use` lines import, each with its module and its name there."""
    names = {}
    for module, group, alias in re.findall(r"use ((?:Rattle|Prim)\.[\w.]+?)(?:\.\{([^}]*)\})?(?: as (\w+))?;?\n", text):
        for name in (group or "").split(","):
            old, _, new = name.strip().partition(" as ")
            names[new or old] = (module, old)
        if not group:
            names[alias or module.rsplit(".", 1)[1]] = (module, None)
    return names


@functools.cache
def file_of(module):
    """Returns the file of a module of specs/ in this repository, if it is one."""
    parts = module.split(".")[1:]
    if len(parts) < 3 or parts[1] != "specs" or parts[2] in ("declared", "contracts"):
        return None
    path = ROOT / parts[0] / "specs" / ("/".join(parts[2:]) + ".antt")
    return path if path.exists() else None


def module_of(path):
    """Returns the module of a file of specs/."""
    return ".".join(("Rattle", *path.relative_to(ROOT).with_suffix("").parts))


class Module:
    """A file of specs/: its imports, the lines of each definition, and the definitions that a name leads to."""

    def __init__(self, path):
        text = path.read_text()
        self.names = imports(text)
        self.lines, name = {}, None
        for line in text.split("\n"):
            if not line.strip() or line.lstrip().startswith("--") or line.startswith("use "):
                continue
            line = re.sub(r"  -- .*", "", line)
            if not line.startswith(" "):
                start = START.match(line)
                name = start.group(1) if start else name
            self.lines.setdefault(name, []).append(line)
        # A constructor is in the lines of its type. A definition that reads a field names the type of the record elsewhere.
        self.of = {}
        for name, lines in self.lines.items():
            for each in dict.fromkeys([name, *constructors(lines)]):
                self.of.setdefault(each, []).append(name)


def constructors(lines):
    """Returns the names of the constructors of a `data` type with these lines."""
    return [found[1] for line in lines if DATA.match(lines[0]) and (found := CONSTRUCTOR.match(line))]


class Reading:
    """What is reached from some clauses: definitions, and their files in the order to read them."""

    modules = {}

    def __init__(self, opaque=()):
        self.closed = {(file_of(f"Rattle.{crate}.specs.{file}"), name) for crate, file, name in (word.split(".") for word in opaque)}
        self.reached, self.order = {}, []
        for path, name in self.closed:
            if path is None or name not in self.module(path).lines:
                raise ValueError(name)

    def module(self, path):
        if path not in self.modules:
            self.modules[path] = Module(path)
        return self.modules[path]

    def reach(self, module, word):
        """Follows a name to its definition, and to all names in it, which come before it in the order."""
        path = file_of(module)
        if path is None:
            return
        here = self.module(path)
        for name in here.of.get(word, ()):
            if (path, name) not in self.reached and (path, name) not in self.closed:
                self.reached[path, name] = None
                for said in WORD.findall(TEXT.sub("", "\n".join(here.lines[name]))):
                    self.follow(said, module, here.names)
                if path not in self.order:
                    self.order.append(path)

    def follow(self, said, module, names):
        first, _, rest = said.partition(".")
        if first in names:
            found, word = names[first]
            self.reach(found, word or rest)
        else:
            self.reach(module, first)

    def read(self, text, names):
        """Follows the names of a clause."""
        for said in WORD.findall(text):
            if said.partition(".")[0] in names:
                self.follow(said, "", names)

    def lines(self, path):
        return sum(len(self.module(path).lines[name]) for at, name in self.reached if at == path)

    def total(self):
        return sum(map(self.lines, self.order))


# --- clauses ---


def stated(text):
    """Returns what the clauses in a text state, without their names."""
    return re.sub(r"\b(requires|ensures) \w+ \{", r"\1 {", " ".join(re.findall(r"\b(?:requires|ensures|ghost)\b[^{]*\{.*", text, re.S)))


def clauses(place):
    """Returns the text of a function's clauses, or of one of them, and the imports of its file."""
    name, function, *clause = place.split(":")
    crate, file = name.split("/", 1)
    text = (ROOT / crate / "src" / file).read_text()
    body = re.search(rf"fn {function}\b.*?(?:\n\s*{{\n|\n\s*{{}}\n|;\n)", text, re.S).group(0)
    for one in clause:
        body = re.search(rf"\n *ensures {one} {{.*?(?=\n *(?:ensures|requires) |\n{{)", body, re.S).group(0)
    return stated(body), imports(text)


def closed(text, at):
    """Returns where the brace closes that is open before a place of a text."""
    depth = 1
    while depth > 0:
        depth += {"{": 1, "}": -1}.get(text[at], 0)
        at += 1
    return at


def parted(text):
    """Returns a function's signature without its clauses, and its clauses: the words before the brace, and what is in it."""
    found = []
    for match in CLAUSE.finditer(text):
        found.append((match[1], text[match.end() : closed(text, match.end()) - 1].strip()))
    head = text[: match.start()] if (match := CLAUSE.search(text)) else text
    return head.strip(), found


# --- what a crate exports ---


@dataclasses.dataclass
class Item:
    """An item that a crate exports: a function or method with its clauses, a trait, a type, its model, or a constant."""

    path: pathlib.Path
    kind: str  # fn, trait, struct, enum, const, model
    owner: str  # the `impl` line of a method, without its brace
    name: str
    text: str  # of a function or method the signature with its clauses, else the whole item

    @property
    def crate(self):
        return self.path.relative_to(ROOT).parts[0]

    @property
    def names(self):
        return imports(self.path.read_text())


def crates():
    """Returns the names of all crates but those of tests and of what the gate refuses."""
    return sorted(path.name for path in ROOT.iterdir() if (path / "src").exists() and not path.name.startswith(("tests", "refused")))


def exported(crate):
    """Returns the names that a crate exports, and the modules that it exports whole. All of a library for C is exported."""
    root = ROOT / crate / "src/lib.rt"
    text = root.read_text() if root.exists() else ""
    names = set()
    for group, one in re.findall(r"^pub use [\w:]+::(?:\{([^}]*)\}|(\w+));", text, re.M):
        names.update(re.findall(r"\w+", group or one))
    return names, set(re.findall(r"^pub mod (\w+);", text, re.M))


def reexported(path):
    """Returns what a file exports of others: pairs of a module and a name."""
    found = re.findall(r"^pub use (?:\w+::)*(\w+)::(?:\{([^}]*)\}|(\w+));", path.read_text() if path.exists() else "", re.M)
    return {(module, name) for module, group, one in found for name in re.findall(r"\w+", group or one)}


def home_of(item):
    """Returns the public module of a function, with `::` behind it, or nothing for the crate's root."""
    source, stem = ROOT / item.crate / "src", item.path.stem
    modules = exported(item.crate)[1]
    if (stem, item.name) in reexported(source / "lib.rt"):
        return ""
    homes = [stem] if stem in modules else [each for each in sorted(modules) if (stem, item.name) in reexported(source / f"{each}.rt")]
    return f"{homes[0]}::" if homes else ""


def parts(text):
    """Returns the items of a file of source: what begins in the first column, with the lines below it that don't."""
    return re.split(r"\n(?=(?:pub|impl|trait|fn|const|struct|enum)\b)", text)


def signature(text):
    """Returns a function with its clauses, without its body."""
    head = re.split(r"\n\s*\{(?:\n|\}\n)", text)[0]
    return head if CLAUSE.search(head) else re.split(r" \{\}?\n|;\n", head)[0]


def offered(crate):
    """Returns what the public modules of a crate export of its other modules: pairs of a module and a name."""
    return {pair for module in exported(crate)[1] for pair in reexported(ROOT / crate / f"src/{module}.rt")}


def public_items(crate):
    """Returns what a crate exports, in the order of its files."""
    names, modules = exported(crate)
    there = offered(crate)
    names = names | {name for _, name in there if name[0].isupper()}
    found = []
    for path in sorted((ROOT / crate / "src").glob("**/*.rt")):
        for text in parts(path.read_text()):
            head = re.match(
                r'(?:pub )?(?:(extern) "C" )?(fn|trait|struct|enum|const) (\w+)|impl(?:<[^>]*>)? (?:([\w:]+)(?:<.*>)? for )?(\w+)', text
            )
            if not head:
                continue
            extern, kind, name, trait, of = head.groups()
            is_root = path.name == "main.rt" or path.name == "lib.rt" and text.startswith("pub ")
            if kind == "fn" and (extern or is_root or text.startswith("pub ") and (name in names or path.stem in modules or (path.stem, name) in there)):
                found.append(Item(path, kind, "", name, signature(text)))
            elif kind in ("trait", "struct", "enum", "const") and name in names:
                found.append(Item(path, kind, "", name, text))
            elif of in names and trait == "Model":
                found.append(Item(path, "model", "", of, text))
            elif of in names:
                owner = text.split(" {\n")[0]
                for method in re.split(r"\n(?=    (?:pub )?(?:fn|ghost) )", text):
                    if called := re.match(r"    (?:pub )?fn (\w+)" if trait else r"    pub fn (\w+)", method):
                        found.append(Item(path, "fn", owner, called[1], signature(method)))
    return found


def public_clauses(crate):
    """Returns the clauses of the calls, traits and types that a crate exports, each with the imports of its file."""
    found = []
    for item in public_items(crate):
        if item.kind in ("fn", "trait"):
            found.append((item.path, item.text, item.names))
        elif item.kind in ("struct", "enum"):
            found.append((item.path, " ".join(re.findall(r"pub (ghost .*)", item.text)), item.names))
    return found
