"""Makes the book of definitions: a page for each rule of the tables of docs/SPECIFICATION.md, and one for each file of definitions.

`docs/definitions --book` writes it. A page has the rule in words, its definition, its body, its vectors, and wrong bodies. All of this is read from
the sources, so a page can't differ from them. A rule is joined to its definition by the name in the table of functions, by its final byte, or
by RULES below.
"""
import dataclasses
import functools
import html
import pathlib
import re
import sys

TOP = pathlib.Path(__file__).resolve().parents[1]
sys.path.insert(0, str(TOP / "lib/rows"))
from clauses import ROOT, START, WORD, Reading, imports, module_of  # noqa: E402
from vectors import vectors  # noqa: E402

# The sections whose rows are rules, and the crate of each.
SECTIONS = {"Graphic sets": "vt_glyph", "State": "vt_term", "Functions": "vt_term", "Reports": "vt_term", "UTF-8": "vt_utf8", "Under TERM=xterm": "vt_xterm"}
# The tables of functions: the file of a section.
TABLES = {"Functions": "vt_term/specs/Functions.antt", "Reports": "vt_term/specs/Functions.antt", "Under TERM=xterm": "vt_xterm/specs/Front.antt"}
# The definitions of the rules that no table of functions has, by the section and the beginning of the name. The first that fits counts.
RULES = [
    ("Graphic sets", "British", "vt_glyph.Tables.british_changes vt_glyph.Tables.glyph_of"),
    ("Graphic sets", "German", "vt_glyph.Tables.german_changes vt_glyph.Tables.glyph_of"),
    ("Graphic sets", "Special", "vt_glyph.Tables.special_changes vt_glyph.Tables.glyph_of"),
    ("Graphic sets", "Supplemental", "vt_glyph.Tables.supplemental_glyph vt_glyph.Tables.glyph_of"),
    ("Graphic sets", "6", "vt_glyph.Tables.special_from_60"),
    ("Graphic sets", "7", "vt_glyph.Tables.special_from_60"),
    ("Graphic sets", "Glyphs", "vt_glyph.Tables.is_glyph"),
    ("Graphic sets", "Shifts", "vt_glyph.Invocation.locked_left vt_glyph.Invocation.locked_right vt_glyph.Invocation.shifted_once"),
    ("Graphic sets", "Reading", "vt_glyph.Invocation.glyph_read vt_glyph.Invocation.after_read"),
    ("Graphic sets", "Spelling", "vt_glyph.Spell.spelling_of vt_glyph.Spell.spelled"),
    ("Graphic sets", "", "vt_glyph.Tables.glyph_of vt_glyph.Designation.finals"),
    ("State", "Sets", "vt_glyph.Invocation.sets_at_power_up vt_term.State.display_at_power_up"),
    ("State", "Margins", "vt_term.State.full_margins vt_term.State.display_at_power_up"),
    ("State", "Tab stops", "vt_term.State.is_stop_at_power_up"),
    ("State", "Modes", "vt_term.State.modes_at_power_up"),
    ("State", "Saved", "vt_term.State.saved_at_power_up"),
    ("State", "Held", "vt_term.State.power_up"),
    ("State", "", "vt_term.State.display_at_power_up"),
    ("UTF-8", "U+", "vt_utf8.Translation.translation vt_utf8.Translation.beyond_ascii"),
    ("UTF-8", "of ", "vt_utf8.Translation.written vt_utf8.Translation.spelled_in"),
    ("UTF-8", "Decoding", "vt_utf8.Decoding.characters vt_utf8.Decoding.read"),
    ("UTF-8", "Cells", "vt_utf8.Cells.cells"),
    ("UTF-8", "Writing", "vt_utf8.Translation.put vt_utf8.Translation.written_wide"),
    ("UTF-8", "", "vt_utf8.Similar.shown"),
    ("Under TERM=xterm", "?3", "vt_xterm.Pages.allowed_column_mode"),
    ("Under TERM=xterm", "?40", "vt_xterm.Pages.allow_column_mode"),
    ("Under TERM=xterm", "?47", "vt_xterm.Pages.show_page"),
    ("Under TERM=xterm", "?1047", "vt_xterm.Pages.show_or_clear"),
    ("Under TERM=xterm", "?1048", "vt_xterm.Pages.save_or_restore"),
    ("Under TERM=xterm", "?1049", "vt_xterm.Pages.show_and_save"),
    ("Under TERM=xterm", "?2004", "vt_xterm.Pages.bracket_pastes"),
    ("Under TERM=xterm", "Colours", "vt_xterm.Attributes.without_colours"),
    ("Under TERM=xterm", "The log", "vt_xterm.Log.xterm_line_off"),
    ("Under TERM=xterm", "", "vt_xterm.Front.xterm_effect"),
]
CONTROL = re.compile(rb"(?P<csi>\x1b\[|\x9b)(?P<marker>[<-?]?)(?P<values>[0-9;:]*)(?P<inter>[ -/]?)(?P<final>[@-~])|\x1b(?P<after>[ -/]?)(?P<last>[0-~])|(?P<c>[\x00-\x1f\x80-\x9f])")
PARAMETERS = {"n", "p", "q", "r", "c", "t", "b", "..", ";"}


@dataclasses.dataclass
class Rule:
    """A row of a table of the specification, or a paragraph with a title."""

    section: str
    name: str
    cells: list
    heads: list
    source: str

    @property
    def names(self):
        """Returns the names of functions in the row."""
        column = {"Bytes": 1, "Function": 0}.get(self.heads[0] if self.heads else "", None)
        return re.findall(r"[A-Z][A-Z0-9]+", self.cells[column]) if column is not None else []

    @property
    def file(self):
        """Returns the name of the rule's page. Signs are spelled by their numbers."""
        words = re.sub(r"`|, ", " ", f"{self.section} {self.name}").split()
        spelled = (re.sub(r"[^A-Za-z0-9]", lambda sign: f"-{ord(sign[0]):x}-", word).strip("-") for word in words)
        return f"{'-'.join(spelled).lower()}.html"


# --- the specification ---


def rows_of(table):
    """Returns the heads and the rows of a table. A row is its cells."""
    rows = [[cell.strip().replace(r"\|", "|") for cell in re.split(r"(?<!\\)\|", line)[1:-1]] for line in table.splitlines()]
    return rows[0], rows[2:]


def rules():
    """Returns all rules of the specification's tables, and of the paragraphs with a title, in their order."""
    page, found = (TOP / "docs/SPECIFICATION.md").read_text(), []
    for title in SECTIONS:
        section = re.search(rf"^## {re.escape(title)}.*?(?=^## )", page, re.M | re.S)[0]
        cited = "; ".join(dict.fromkeys(re.findall(r"\(([^()]*(?:EK-VT220-RM|ECMA-48|Unicode|xterm's control|this profile)[^()]*)\)", section)))
        for table in re.findall(r"(?:^\|.*\n)+", section, re.M):
            heads, rows = rows_of(table)
            found += [Rule(title, cells[1] if heads[0] == "Bytes" and title == "Functions" else cells[0], cells, heads, cells[heads.index("Source")] if "Source" in heads else cited) for cells in rows]
        found += [Rule(title, words.rstrip("."), [rest.strip()], [], cited) for words, rest in re.findall(r"^\*\*(.+?)\*\*(.*?)(?=\n\n)", section, re.M | re.S)]
    return distinct(found)


def distinct(found):
    """Returns rules with the first cell added to the names that several rules have."""
    names = [(rule.section, rule.name) for rule in found]
    return [dataclasses.replace(rule, name=f"{rule.name}, {rule.cells[0]}") if names.count((rule.section, rule.name)) > 1 else rule for rule in found]


# --- definitions ---


@functools.cache
def chunks(path):
    """Returns the definitions of a file of specs/, each with the comment above it."""
    found = {}
    for block in re.split(r"\n\s*\n", path.read_text()):
        for line in block.split("\n"):
            if not line.startswith((" ", "--", "use ")) and (start := START.match(line)):
                found.setdefault(start[1], block.strip("\n"))
    return found


def place_of(word):
    """Returns the file and the name of a definition that is written CRATE.FILE.NAME."""
    crate, file, name = word.split(".")
    return ROOT / crate / "specs" / f"{file}.antt", name


def lines_of(path):
    """Returns the rows of the tables of functions in a file, each with the sign that comes before its final byte, if one does."""
    sign, found = "", []
    for line in path.read_text().split("\n"):
        if line.startswith("--") or line.startswith("abbrev"):
            after = re.search(r"after `(.)`", line)
            sign = after[1] if after else sign if line.startswith("abbrev") else ""
        elif "(0x" in line or 'row "' in line:
            found.append((sign, re.sub(r"^\w+ = ", "", line).strip(" ∷").strip()))
    return found


def is_row_of(rule, sign, line):
    """Returns whether a row of a table of functions is about a rule: by its final byte under TERM=xterm, otherwise by its name."""
    if rule.heads[:1] != ["Function"]:
        return any(re.search(rf'\(codes "{name}[ "]', line) for name in rule.names)
    after = re.search(r"after `(.)`", rule.cells[1])
    finals = re.findall(r"`(?:ESC )?(\S)`|`` (\S) ``", rule.cells[1].partition(" after ")[0])
    return sign == (after[1] if after else "") and any(line.startswith(f'row "{one or other}" ({word}') for one, other in finals for word in ("λ", "change"))


def rows_in_tables(rule):
    """Returns the rows of the tables of functions that a rule is about, and the definitions that these name."""
    if rule.section not in TABLES or not rule.names:
        return [], []
    path = ROOT / TABLES[rule.section]
    rows = [line for sign, line in lines_of(path) if is_row_of(rule, sign, line)]
    names, places = imports(path.read_text()), []
    for word in dict.fromkeys(word for row in rows for word in WORD.findall(re.sub(r'"[^"]*"', "", row))):
        module, _ = names.get(word, (module_of(path), word))
        at = ROOT / module.split(".")[1] / "specs" / f"{module.split('.')[-1]}.antt"
        if at.exists() and word in chunks(at) and word not in ("byte", "row", "count", "first", "second", "on_display"):
            places.append((at, word))
    return rows, [place for place in places if place[0] != path] or places


def definitions(rule):
    """Returns the rows of a rule, and its definitions as files and names."""
    rows, places = rows_in_tables(rule)
    words = next((words for section, start, words in RULES if section == rule.section and rule.name.startswith(start)), "")
    return rows, places or list(map(place_of, words.split()))


# --- bodies ---


@functools.cache
def functions(crate):
    """Returns the functions of a crate: the file, the name, the text with its comment, and the names in its `ensures`."""
    found = []
    for path in sorted((ROOT / crate / "src").glob("**/*.rt")):
        text = path.read_text()
        for match in re.finditer(r"^((?: *(?:///.*|#\[.*\])\n)*)( *)(?:pub(?:\(crate\))? )?fn (\w+)", text, re.M):
            end = re.compile(rf"^{match[2]}\}}$|^{match[2]}\{{\}}$", re.M).search(text, match.end())
            whole = text[match.start(): end.end()] if end else match[0]
            said = re.split(r"\n *\{\}?\n", whole)[0].partition("ensures")[2]
            found.append((path, match[3], whole, frozenset(WORD.findall(said))))
    return found


def bodies(rule, places):
    """Returns the functions whose clauses cite the definitions of a rule."""
    found = []
    for crate in dict.fromkeys([SECTIONS[rule.section], *(path.relative_to(ROOT).parts[0] for path, _ in places)]):
        found += [(path, name, text) for path, name, text, said in functions(crate) if any(of in said for _, of in places)]
    return found


def arms(rule):
    """Returns the arms of the dispatcher for the final bytes of a rule's control sequences without marker and intermediate."""
    if rule.section not in TABLES:
        return []
    rows = [line for sign, line in lines_of(ROOT / TABLES[rule.section]) if not sign and is_row_of(rule, sign, line)]
    finals = [found[1] for line in rows if (found := re.match(r'row "(.)"', line))]
    text = (ROOT / SECTIONS[rule.section] / "src/functions.rt").read_text()
    plain = re.search(r"^ *(?:pub\(crate\) )?fn plain_sequence\(.*?^ *\}\n\n", text, re.M | re.S)[0]
    return [arm.strip() for final in finals for arm in re.findall(rf"^ *b'{re.escape(final)}' => .*$", plain, re.M)]


# --- vectors ---


def forms(cell):
    """Returns the forms of a row's bytes, as `form_of` returns them."""
    found = []
    for form in re.split(r", (?=CSI|ESC|[0-9A-F]{2}\b)", cell):
        words = form.split()
        if words[0] == "CSI":
            marks = [word for word in words[1:-1] if word not in PARAMETERS and not word.isdigit()]
            found.append(("CSI", "".join([*marks, words[-1]])))
        elif words[0] == "ESC":
            found += [("ESC", sign) for sign in words[1:-1]] if words[-1] == "final" else [("ESC", "".join(words[1:]).replace("SP", " "))]
        else:
            found.append(("control", words[0]))
    return found


def forms_in(data):
    """Returns the forms of the control functions in bytes. A C1 control is also its 7-bit form."""
    found = set()
    for match in CONTROL.finditer(data):
        text = {key: (value or b"").decode("latin-1") for key, value in match.groupdict().items()}
        if text["csi"]:
            found.add(("CSI", text["marker"] + text["inter"] + text["final"]))
        elif text["last"]:
            found |= {("ESC", text["after"] + text["last"]), ("ESC", text["after"] or "none"), ("control", f"{ord(text['last']) + 0x40:02X}")}
        else:
            found.add(("control", f"{ord(text['c']):02X}"))
    return found


@functools.cache
def vectors_of_a_vt220():
    """Returns the vectors of a VT220's bytes: the name, the input, the text and the forms of its control functions."""
    return [(one.name, one.input, one.text(), forms_in(one.input)) for one in vectors("dec", "vt220")]


def examples(rule):
    """Returns the vectors of a rule, the shortest first: their names, inputs and what they want."""
    if rule.section in ("UTF-8", "Under TERM=xterm"):
        names = {rule.name, rule.cells[0], *rule.names, *(f"{rule.cells[0]}, {head.lower()}" for head in rule.heads[1:])}
        found = [(one.name, one.input, one.wanted["text"]) for one in vectors() if one.encoding != "dec" and one.name.partition(": ")[0] in names]
    elif rule.heads[:1] == ["Bytes"]:
        wanted = {*forms(rule.cells[0])}
        found = [(name, sent, text) for name, sent, text, has in vectors_of_a_vt220() if wanted & has]
    else:
        final = rule.cells[1].strip("`") if rule.heads[:1] == ["Set"] else None
        found = [(name, sent, text) for name, sent, text, _ in vectors_of_a_vt220() if final and re.search(rb"\x1b[(-+]" + re.escape(final.encode()), sent)]
    return sorted(found, key=lambda one: len(one[1]))


# --- wrong bodies ---


@functools.cache
def edits():
    """Returns the edits of all crates: the file, the function that the prover refuses, its clauses, and the lines of the edit."""
    found = []
    for path in sorted(ROOT.glob("*/*/*.edit")):
        note, _, lines = path.read_text().partition("\n")
        of, _, refused = note.removeprefix("# clause: ").partition(": ")
        found.append((path, of.split("::")[-1], refused or "its clause", lines.strip()))
    return found


@functools.cache
def mutants():
    """Returns the changes of the model, each with its rule."""
    found, rule = [], ""
    for line in (TOP / "tests/model/mutants.txt").read_text().splitlines():
        if not line.startswith("# "):
            named, old, new = line.split("\t")
            rule = named or rule
            found.append((rule, "\n".join(mark + part for mark, side in (("-", old), ("+", new)) for part in side.split("⏎"))))
    return found


def wrong(rule, places):
    """Returns the edits of a rule's bodies, and the changes of the model that break the rule."""
    names = {(path.relative_to(ROOT).parts[0], name) for path, name, _ in bodies(rule, places)}
    text = re.sub(r"\s+", " ", f"| {' | '.join(rule.cells)} |" if rule.heads else f"{rule.name}. {rule.cells[0]}")
    return ([one for one in edits() if (one[0].relative_to(ROOT).parts[0], one[1]) in names],
            [change for of, change in mutants() if of.replace(r"\|", "|") in text])


# --- pages ---


STYLE = "body{max-width:60em;margin:2em auto;padding:0 1em;font:16px/1.5 sans-serif}pre{background:#f4f4f4;padding:.6em;overflow:auto}table{border-collapse:collapse}td,th{border:1px solid #ccc;padding:.2em .6em;text-align:left}"


def e(text):
    return html.escape(str(text))


def pre(text):
    return f"<pre>{e(text)}</pre>\n"


def shown(data):
    """Returns bytes as text, in which a byte that isn't a graphic character of ASCII is spelled."""
    return "".join(chr(byte) if 0x20 <= byte <= 0x7E and byte != 0x5C else f"\\x{byte:02X}" for byte in data).replace("\\x1B", "\\e")


def document(title, body, up=""):
    return f'<!DOCTYPE html>\n<html lang="en"><meta charset="utf-8"><title>{e(title)}</title><style>{STYLE}</style>\n<p><a href="{up}index.html">The definitions</a></p>\n<h1>{e(title)}</h1>\n{body}</html>\n'


def file_page(path):
    return f"{path.relative_to(ROOT).parts[0]}-{path.stem}.html"


def link_to(path, name):
    return f'<a href="{e(file_page(path))}#{e(name)}">{e(name)}</a>'


def page_of(rule):
    """Returns the page of a rule, and the files of definitions that it links to."""
    rows, places = definitions(rule)
    reading = Reading()
    for path, name in places:
        reading.reach(module_of(path), name)
    cells = "".join(f"<tr><th>{e(head)}</th><td>{e(cell)}</td></tr>\n" for head, cell in zip(rule.heads, rule.cells))
    body = f"<table>\n{cells}</table>\n" if cells else f"<p>{e(rule.cells[0])}</p>\n"
    body += f"<p>Source: {e(rule.source) or 'this profile'}. Section '{e(rule.section)}' of the specification.</p>\n<h2>Definition</h2>\n"
    body += "".join(map(pre, rows)) + "".join(pre(chunks(path)[name]) for path, name in places)
    below = [place for place in reading.reached if place not in places and place[1] in chunks(place[0])]
    body += f"<p>It rests on {len(below)} more: {', '.join(link_to(*place) for place in below)}.</p>\n" if below else ""
    return document(rule.name, body + body_part(rule, places) + vectors_part(rule) + wrong_part(rule, places)), [path for path, _ in reading.reached]


def body_part(rule, places):
    found = sorted(bodies(rule, places), key=lambda one: len(one[2]))
    more = f"<p>Clauses of these cite it, too: {', '.join(f'<code>{e(name)}</code>' for _, name, _ in found[4:])}.</p>\n" if found[4:] else ""
    calls = "".join(map(pre, arms(rule)))
    return f"<h2>Body</h2>\n{calls}" + ("".join(f"<p>{e(path.relative_to(TOP))}</p>\n{pre(text)}" for path, _, text in found[:4]) or ("" if calls else "<p>No clause cites it alone.</p>\n")) + more


def vectors_part(rule):
    found = examples(rule)
    rows = "".join(f"<tr><td>{e(name)}</td><td><code>{e(shown(sent))}</code></td><td><pre>{e(text.rstrip(chr(10)))}</pre></td></tr>\n" for name, sent, text in found[:12])
    table = f"<table>\n<tr><th>Vector</th><th>Input</th><th>Text</th></tr>\n{rows}</table>\n" if rows else "<p>No vector is for this row alone.</p>\n"
    more = f"<p>{len(found) - 12} more vectors have it.</p>\n" if len(found) > 12 else ""
    return f"<h2>Vectors</h2>\n{table}{more}"


def wrong_part(rule, places):
    refused, seen = wrong(rule, places)
    body = "<h2>Wrong bodies</h2>\n"
    body += "".join(f"<p>{e(path.relative_to(TOP))}: the prover refuses it, for {e(clauses)} of <code>{e(name)}</code>.</p>\n{pre(lines)}" for path, name, clauses, lines in refused)
    return body + "".join(f"<p>A change of the plain model: a row by hand sees it.</p>\n{pre(change)}" for change in seen)


def index(found):
    """Returns the first page: the rules by their sections."""
    body = f"<p>Each rule of the tables of the specification, with its definition, body, vectors and wrong bodies: {len(found)} pages.</p>\n"
    for title in SECTIONS:
        body += f"<h2>{e(title)}</h2>\n<ul>\n" + "".join(f'<li><a href="{rule.file}">{e(rule.name)}</a></li>\n' for rule in found if rule.section == title) + "</ul>\n"
    return document("The definitions", body)


def write(out):
    """Writes the book. Returns how many pages it has."""
    out = pathlib.Path(out)
    out.mkdir(parents=True, exist_ok=True)
    found, files = rules(), {}
    for rule in found:
        text, paths = page_of(rule)
        (out / rule.file).write_text(text)
        files.update(dict.fromkeys(paths))
    for path in files:
        body = "".join(f'<div id="{e(name)}">{pre(block)}</div>\n' for name, block in chunks(path).items())
        (out / file_page(path)).write_text(document(str(path.relative_to(TOP)), body))
    (out / "index.html").write_text(index(found))
    return len(found) + len(files) + 1
