"""The plain model meets each row by hand, and a row sees each change of one rule of docs/SPECIFICATION.md in the model.

mutants.txt has a line for each change. A row by hand is a vector (lib/rows/vectors.txt), or a row of lib/rows/fields.txt, repaints.txt or sizes.txt. The name of a test begins with the
rule, so `-k n-right-left` tries the changes of the rule `n right, left`. With `--inputs N` generated inputs must see each change, too.
"""
import functools
import pathlib
import re
import sys
import types

import inputs
import pytest
import repaint
import rows
import terminal
import utf8
import xterm

# The modules of the model, each before those that import it, and the class for each kind of row.
MODEL = {"terminal": terminal, "utf8": utf8, "xterm": xterm, "repaint": repaint}
SOURCES = {name: pathlib.Path(module.__file__).read_text() for name, module in MODEL.items()}
MODELS = {rows.VT220: ("terminal", "Terminal"), rows.UTF8: ("utf8", "Utf8Terminal"), rows.XTERM: ("xterm", "Xterm")}
CHANCES = {rows.VT220: inputs.Chance, rows.UTF8: inputs.Utf8Chance, rows.XTERM: inputs.XtermChance}
USED = {rows.VT220: ("terminal", "repaint"), rows.UTF8: ("terminal", "utf8"), rows.XTERM: ("terminal", "utf8", "xterm", "repaint")}
# What a change may raise that makes no sense of the model.
UNPLAYED = (ArithmeticError, LookupError, NameError, TypeError, ValueError, AttributeError)
# The sections whose tables list rules.
SECTIONS = ("Graphic sets", "State", "Functions", "Reports", "UTF-8", "Under TERM=xterm")
ROWS = rows.all_rows()


def mutants():
    """Yields each change: its rule, what goes, and what comes."""
    for line in (rows.TOP / "tests/model/mutants.txt").read_text().splitlines():
        if not line.startswith("# "):
            named, old, new = line.replace("⏎", "\n").split("\t")
            rule = named or rule
            yield rule, old, new


MUTANTS = list(mutants())


@functools.lru_cache(maxsize=16)
def compiled(name, source):
    return compile(source, f"{name}.py", "exec")


def load(sources, monkeypatch):
    """Executes the modules of a model. Returns them by name."""
    modules = {}
    for name in MODEL:
        modules[name] = types.ModuleType(name)
        monkeypatch.setitem(sys.modules, name, modules[name])
        exec(compiled(name, sources[name]), modules[name].__dict__)
    return modules


def played(modules, kind, size, steps):
    """Returns a new model of a size that has played steps, and its reports."""
    module, name = MODELS[kind]
    model = getattr(modules[module], name)(modules["terminal"].size_of(*size))
    return model, model.play(steps)


def shown(row, modules):
    """Returns what a model shows of what a row wants. The row is played byte by byte."""
    model, reports = played(modules, row.kind, row.first, row.steps())
    return rows.shown(row.wanted, model, reports, modules["repaint"])


def state(modules, kind, size, steps):
    """Returns what a model keeps and has written after it has played steps, and its repaint, as text, since the classes of another model differ."""
    try:
        model, reports = played(modules, kind, size, steps)
        parts = {name: sorted(part) if isinstance(part, set) else part for name, part in model.state().items()}
        paint = modules["repaint"].session_repaint if kind == rows.XTERM else modules["repaint"].repaint
        return hash(repr((parts, reports, model.scrolled_off, None if model.sequence else paint(model))))
    except UNPLAYED:
        return None  # a change that the model can't play any more is seen


@pytest.fixture(scope="session")
def by_chance(pytestconfig):
    """So many inputs of each kind as --inputs says, each with the state of the model after it."""
    found = [(kind, *chance(seed).generated()) for seed in range(1, pytestconfig.getoption("--inputs") + 1) for kind, chance in CHANCES.items()]
    return [(*one, state(MODEL, *one)) for one in found]


@pytest.mark.parametrize("row", ROWS, ids=lambda row: row.name)
def test_row(row):
    assert shown(row, MODEL) == row.wanted


@pytest.mark.parametrize("old, new", [(old, new) for _, old, new in MUTANTS], ids=["-".join(re.findall(r"\w+", rule, re.ASCII)) for rule, *_ in MUTANTS])
def test_change(old, new, by_chance, monkeypatch):
    [place] = [name for name in MODEL for _ in range(SOURCES[name].count(old))]
    made = load(SOURCES | {place: SOURCES[place].replace(old, new)}, monkeypatch)
    assert any(shown(row, made) != row.wanted for row in ROWS if place in USED[row.kind]), "no row sees it"
    assert not by_chance or any(state(made, *one) != wanted for *one, wanted in by_chance if place in USED[one[0]]), "no generated input sees it"


def in_one_line(text):
    return re.sub(r"\s+", " ", text)


PAGE = (rows.TOP / "docs/SPECIFICATION.md").read_text()


def test_rules():
    """Each rule is on the page, word for word."""
    assert not {rule for rule, *_ in MUTANTS if rule not in in_one_line(PAGE)}


def test_tables():
    """Each row of the page's tables of sets, states, functions, reports, characters and pages has a mutant."""
    sections = [re.search(rf"^## {title}.*?(?=^## )", PAGE, re.M | re.S)[0] for title in SECTIONS]
    tables = [table.splitlines()[2:] for section in sections for table in re.findall(r"(?:^\|.*\n)+", section, re.M)]
    assert not [row for table in tables for row in map(in_one_line, table) if not any(rule in row for rule, *_ in MUTANTS)]
