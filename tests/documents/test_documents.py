"""Checks the documents: links, sentences, numbers, manual pages, completions, and the commands that they show. `-m "not built"` leaves out what needs
built programs: completions and commands. packaging/dist --check runs the commands that need the packages in a clean root."""
import os
import pathlib
import re
import struct
import subprocess
import sys
import tempfile

import pytest

ROOT = pathlib.Path(__file__).resolve().parents[2]
sys.path[:0] = [str(ROOT / "packaging/tries"), str(ROOT / "lib/rows")]
from on_terminal import DETACH, on_terminal
from run_document import Shell, blocks, commands, fault, markdown_blocks
from vectors import vectors

README = ROOT / "README.md"
KEEPER = ROOT / "docs/man/vt220-keep.1"
PLAYER = ROOT / "docs/man/vt220-play.1"
# The most words of a sentence of a document, and of a manual page or a header, in which a list may count as one.
FEW_WORDS, MOST_WORDS = 25, 40
# The most words of what docs/CONTRIBUTING.md lists under 'Read first'.
READ_FIRST = 8000
PAGES = sorted(ROOT.glob("docs/man/*.[137]"))
# The documents whose commands are run here, with the sections; without sections, all are run.
RUN_HERE = {
    "README.md": (),
    "docs/INSTALL.md": ("A build from source", "Recordings"),
    "docs/TOUR.md": (),
    "docs/C.md": ("Without an installed library", "The keyboard", "UTF-8", "TERM=xterm", "Other sizes", "A server"),
    "docs/man/vt220.1": (),
}
# The first words of commands in these that aren't run here: packaging/dist --check installs the packages, lib/c/tests tests the library, and the
# gate the program.
NOT_RUN = re.compile(r"^(apt|make lib|make screen)\b")
# What `make js` builds, without which no page is written.
TEMPLATE = ROOT / "out/js/page.html"
PATIENCE = 300  # seconds after which a program hangs
# What repeats the version of lib/c/include/vt220.h, as VT220_VERSION or as three numbers: the files, and a pattern with it.
VERSIONS = {
    "lib/go/vt220.go": r"^\tVersion += (\d+)",
    "lib/python/pyproject.toml": r'^version = "(.*)"$',
    "lib/python/vt220/__init__.py": r"^VERSION = (\d+)$",
    "lib/rust/vt220-sys/Cargo.toml": r'^version = "(.*)"$',
    "lib/rust/vt220-sys/src/lib.rs": r"^pub const VT220_VERSION: u32 = (\d+);$",
    "lib/rust/vt220/Cargo.toml": r'^(?:vt220-sys = \{ )?version = "([^"]*)"',
    "crates/vt220_c/specs/Status.antt": r"^version = (\d+)$",
    "crates/vt220_c/src/readers.rt": r"^const VERSION: u32 = (\d+);$",
    "crates/vt_cli/src/command_line.rt": r'^const VERSION: &str = "(.*)";$',
    "docs/INSTALL.md": r"^\$ echo 'vt220 = \">=([\d.]+)-dev\"'",
}
# The sections of docs/SPECIFICATION.md whose rules have vectors in lib/rows/vectors.txt, and the encoding and the terminal of these. The heads
# of a table in which a row is a rule; in any other table, each column of a row is one.
RULED = {"UTF-8": ("utf-8", "vt220"), "Under TERM=xterm": ("utf-8", "xterm")}
BY_ROWS = {"Final byte", "Effect", "Source", "Bytes"}
# The sections of docs/SPECIFICATION.md whose rules have a page in the book, and what some pages have: the rule, its definition, its body, a
# vector, and a wrong body.
BOOK = ("Graphic sets", "State", "Functions", "Reports", "UTF-8", "Under TERM=xterm")
IN_BOOK = {
    "functions-il-dl.html": ("inside the margins: n blank rows come in", "insert_line_any k n s =", "pub fn insert_line", "\\e[LX", "insert_line_shifts_below_the_margins.edit: the prover refuses it"),
    "under-term-3d-xterm-vpr.html": ("ECMA-48 8.3.160", "line_position_forward n s =", "pub(crate) fn line_position_forward", "VPR: 0 means 1", "A change of the plain model"),
    "utf-2d-8-decoding.html": ("characters : List", "Decoding: a lone continuation byte"),
    "vt_term-Moving.html": ("-- CUB: left n, not past column 1",),
}
built = pytest.mark.built
each = pytest.mark.parametrize


def documents():
    """Returns the Markdown files of the repository."""
    listed = subprocess.run(["git", "ls-files", "-co", "--exclude-standard", "*.md"], cwd=ROOT, capture_output=True, text=True, check=True)
    return [ROOT / name for name in listed.stdout.split("\n") if name and (ROOT / name).exists()]


def output(*words):
    """Returns what a program of the repository prints."""
    return subprocess.run([ROOT / words[0], *words[1:]], stdout=subprocess.PIPE, text=True).stdout


def passes(*words):
    """Runs a program of the repository, which prints what is wrong."""
    done = subprocess.run([ROOT / words[0], *words[1:]], capture_output=True, text=True)
    assert done.returncode == 0, done.stdout + done.stderr


def named(path):
    return str(path.relative_to(ROOT))


DOCUMENTS = documents()
each_document = each("path", DOCUMENTS, ids=named)


def without_code(text):
    """Takes the blocks of code out of a Markdown text."""
    return re.sub(r"^```.*?^```$", "", text, flags=re.M | re.S)


# --- links ---


def anchors(path):
    """Returns the names by which the headings of a Markdown file are linked to."""
    names = set()
    for heading in re.findall(r"^#+ +(.*)$", without_code(path.read_text()), re.M):
        plain = re.sub(r"[`*]|\[([^\]]*)\]\([^)]*\)", r"\1", heading).strip().lower()
        name = re.sub(r"[^\w\- ]", "", plain).replace(" ", "-")
        names.add(name if name not in names else f"{name}-1")
    return names


@each_document
def test_links(path):
    """A link leads to a file that exists, and to a heading of it."""
    for link in re.findall(r"\]\(([^)\s]+)\)", without_code(path.read_text())):
        name, _, anchor = link.partition("#")
        target = (path.parent / name).resolve() if name else path
        if not re.match(r"[a-z]+:", link):
            assert target.exists(), f"the link {link} leads to no file"
            assert not anchor or target.suffix != ".md" or anchor in anchors(target), f"the link {link} leads to no heading"


@each("path", [path for path in DOCUMENTS if path.name != "CHANGELOG.md"], ids=named)  # which also names what is gone
def test_sources(path):
    """A file or directory of a crate is there that a document names, as vt_term/proofs/Tables."""
    for crate, part, name in re.findall(r"(?<![\w/])(vt\w*)/(proofs|specs|src)/(\w+)\b", path.read_text()):
        place = ROOT / "crates" / crate / part / name
        assert any(place.with_suffix(end).exists() for end in ("", ".antt", ".rt")), f"there is no {crate}/{part}/{name}"


# --- sentences ---


def markdown_parts(text):
    """Returns the paragraphs, items, headings and cells of a Markdown text."""
    for block in re.split(r"\n\s*\n|\n(?=\s*(?:[-*] |\d+\. |#|\|))", without_code(text)):
        yield from re.split(r"(?<!\\)\|", block) if block.lstrip().startswith("|") else [block]


def mdoc_parts(text):
    """Returns the paragraphs of a manual page, without its macros and with their arguments. A synopsis isn't a sentence."""
    text = re.sub(r"^\.Bd .*?^\.Ed$", ".Pp", text, flags=re.M | re.S)
    text = re.sub(r"^\.Sh SYNOPSIS$.*?(?=^\.Sh )", "", text, flags=re.M | re.S)
    part = []
    for line in text.split("\n"):
        macro = re.match(r"\.(\S+) ?(.*)", line)
        if not macro:
            part.append(line)
        elif macro.group(1) in ("Pp", "It", "Sh", "Ss", "Bl", "El", "Dl", "Nd", "Ft", "Fn"):
            yield " ".join(part)
            part = [] if macro.group(1) == "Dl" else [macro.group(2)]
        elif not macro.group(1).startswith("\\"):
            part.append(macro.group(2))
    yield " ".join(part)


def comments(text):
    """Returns the comments of a C header, by their paragraphs."""
    for comment in re.findall(r"/\*(.*?)\*/", text, re.S):
        yield from re.split(r"\n\s*\n", re.sub(r"^\s*\*? ?", "", comment, flags=re.M))


SENTENCES = [*((path, markdown_parts, FEW_WORDS) for path in DOCUMENTS), *((path, mdoc_parts, MOST_WORDS) for path in PAGES),
             *((ROOT / "lib/c/include" / name, comments, MOST_WORDS) for name in ("vt220.h", "vt220-keys.h"))]


@each("path, parts_of, most", SENTENCES, ids=lambda value: named(value) if isinstance(value, pathlib.Path) else "")
def test_sentences(path, parts_of, most):
    for part in parts_of(path.read_text()):
        for sentence in re.split(r"(?<=[.?!:;])[\"')*]*\s+(?=\S)", re.sub(r"\s+", " ", part)):
            words = [word for word in sentence.split(" ") if re.search(r"\w", word)]
            assert len(words) <= most, " ".join(words)


# --- numbers ---


def limit(name):
    """Returns a constant of the crates, which the program of crates/figures prints."""
    return int(re.search(rf"^VT220_{name}_LIMIT (\d+)$", (ROOT / "crates/figures/stdout").read_text(), re.M).group(1))


def default_limit():
    """Returns the default of --limit, as the help has it."""
    return int(re.search(r"--limit N .*default: (\d+)", (ROOT / "crates/vt_cli/src/command_line.rt").read_text()).group(1))


def per_cent_passed():
    """Returns how many in a hundred vectors of a VT220 each terminal of README's table passes, by docs/PEERS.md."""
    rows = {line.split(" | ")[0]: line.strip("| ").split(" | ") for line in (ROOT / "docs/PEERS.md").read_text().splitlines() if line.startswith("| ")}
    passed = dict(zip(rows["| Subject"], rows["| all"]))
    counts = [map(int, passed[name].split(" of ")) for name in ("vt220", "libvterm", "vt100", "pyte", "tmux", "xterm")]
    return [round(100 * part / whole) for part, whole in counts]


def counts_on_recordings():
    """Returns the instructions a byte of README's table, by docs/PERFORMANCE.md: those of the program, libvterm and vt100."""
    page = (ROOT / "docs/PERFORMANCE.md").read_text()
    heads, row = ([cell.strip() for cell in re.search(rf"^\| {name} \|(.*)\|$", page, re.M)[1].split("|")] for name in ("workload", "recordings"))
    return [float(row[heads.index(head)]) for head in ("vt220", "libvterm", "vt100")]


def facts():
    """Returns the numbers of the documents: a pattern, and the values of its groups."""
    count = len([*vectors("dec", "vt220")])
    show, picture = limit("SHOW"), limit("PICTURE")
    most = re.search(r"const LIMIT_MOST: \w+ = ([\d_]+);", (ROOT / "crates/vt_cli/src/command_line.rt").read_text()).group(1)
    return [
        (r"vectors of a VT220 passed" + r" \| (\d+) %" * 6 + r" \|", per_cent_passed()),
        (r"a byte, on recordings" + r" \| ([\d.]+)" * 3 + r" \|", counts_on_recordings()),
        (r"of the (\d+) vectors", [count]),
        (r"\| all \| (\d+) of (\d+) \|", [count, count]),
        (r"at most (\d+): 16 for each", [show]),
        (r"At most (\d+) bytes: 208 for each", [picture]),
        (r"`--limit N` \|[^\n]*\| (\d{6,}) \|", [default_limit()]),
        (r"`SHOW_LIMIT` is proved to be (\d+), and `PICTURE_LIMIT` (\d+)", [show, picture]),
        (r"0 to (\d{10,})", [int(most.replace("_", ""))]),
        (r"`TEXT_LIMIT` is proved to be (\d+)", [limit("TEXT")]),
    ]


@each("pattern, values", facts(), ids=lambda value: value if isinstance(value, str) else "")
def test_numbers(pattern, values):
    """The numbers in the documents are those of the build."""
    found = [(path, match) for path in [*DOCUMENTS, *PAGES] for match in re.finditer(pattern, path.read_text())]
    assert found, "no document has it"
    for path, match in found:
        said = [float(group.replace(",", "")) for group in match.groups() if group]
        assert said == values, f"{named(path)}: '{match.group(0).strip()}' should say {values}"


@each("option, name", [("--table", "PROMISES.md"), ("--crates", "ARCHITECTURE.md")])
def test_tables_of_definitions(option, name):
    made = output("docs/definitions", option)
    assert made and f"\n\n{made}\n" in (ROOT / "docs" / name).read_text(), "docs/definitions --write"


def test_contracts():
    made = output("docs/definitions", "--contracts")
    assert made and made == (ROOT / "docs/contracts.txt").read_text(), "docs/definitions --write"


@each("option", ["--private", "--files"])
def test_comments(option):
    """Each file of definitions has a comment."""
    made = output("docs/definitions", option)
    assert made and " |  |" not in made, "it prints nothing, or a file without a comment"


def test_comments_of_calls():
    done = subprocess.run([ROOT / "docs/definitions", "--calls"], capture_output=True, text=True)
    assert done.stdout and not done.stderr, done.stderr


def test_errors():
    """The promise on allocation names each kind of error."""
    told = re.search(r"^\*\*Allocation\.\*\*.*?\n\n", (ROOT / "docs/PROMISES.md").read_text(), re.M | re.S)[0]
    kinds = {*re.findall(r"-> Result<[^\n{]*, (\w+)>", (ROOT / "docs/contracts.txt").read_text())} - {"ExitCode"}
    assert not {kind for kind in kinds if f"`{kind}`" not in told}


def test_laws():
    """Each law that docs/PROMISES.md lists is a call of its crate."""
    section = re.search(r"^### The theorems$.*?^### ", (ROOT / "docs/PROMISES.md").read_text(), re.M | re.S)[0]
    for row in re.findall(r"^\| ([^|]*`[^|]*) \| ", section, re.M):
        for crate, law in re.findall(r"\b(vt_\w+) (?=`)|`(\w+)`", row):
            if crate:
                path = ROOT / "crates" / crate / "src/laws.rt"
            assert not law or f"pub fn {law}(" in path.read_text(), f"{path.relative_to(ROOT)} has no law {law}"


# --- vectors ---


def rules(section):
    """Yields the rules of a section of the specification: its title, the titles of its paragraphs, and the names of the rows of its tables.

    A table of characters has none, since its paragraph is the rule. tests/model/mutants.txt breaks each row of it."""
    yield re.match(r"## (.*?) \(", section).group(1)
    yield from (title.rstrip(".") for title in re.findall(r"^\*\*(.+?)\*\*", section, re.M))
    for table in re.findall(r"(?:^\|.*\n)+", section, re.M):
        (_, *heads), _, *rows = [[cell.strip() for cell in line.strip("|").split("|")] for line in table.splitlines()]
        by_columns = not BY_ROWS >= {*heads}
        for cell, *_ in rows if heads != ["Characters"] else []:
            names = cell.split(", ") if re.fullmatch(r"[A-Z]+(, [A-Z]+)+", cell) else [cell]
            yield from (f"{name}, {head.lower()}" for name in names for head in heads) if by_columns else names


def test_tables_of_vectors():
    assert output("tools/vectors") == (ROOT / "crates/vt_vectors/src/vectors/tables.rt").read_text(), "it isn't what tools/vectors prints"


@each("heading, kind", RULED.items(), ids=str)
def test_rules(heading, kind):
    """Each rule of the specification has a vector in lib/rows/vectors.txt, and each vector a rule."""
    section = re.search(rf"^## {heading} .*?(?=^## )", (ROOT / "docs/SPECIFICATION.md").read_text(), re.M | re.S).group()
    assert {*rules(section)} == {one.name.partition(": ")[0] for one in vectors(*kind)}


def words_behind(path, link):
    """Returns how many words a link leads to: those of a document, or of the section of its heading."""
    name, _, anchor = link.partition("#")
    target = (path.parent / name).resolve() if name else path
    text = target.read_text()
    if anchor:
        parts = re.split(r"^(#+ .*)$", text, flags=re.M)
        text = next(body for head, body in zip(parts[1::2], parts[2::2]) if re.sub(r"[^\w\- ]", "", head.strip("# ").lower()).replace(" ", "-") == anchor)
    return len(text.split())


def test_read_first():
    """What a newcomer reads first is short: the documents and sections of the first list of 'Read first', with the longest recipe."""
    path = ROOT / "docs/CONTRIBUTING.md"
    section = re.search(r"^## Read first\n\n((?:- .*\n)+)", path.read_text(), re.M).group(1)
    recipes = [words_behind(path, f"#{title}") for title in re.findall(r"^## (A new .*)$", path.read_text(), re.M) for title in [title.lower().replace(" ", "-")]]
    count = sum(words_behind(path, link) for link in re.findall(r"\]\(([^)]+)\)", section)) + max(recipes)
    assert count <= READ_FIRST


# --- the book of definitions ---


@pytest.fixture(scope="module")
def book():
    """The pages of the book of definitions, by their names."""
    with tempfile.TemporaryDirectory() as directory:
        passes("docs/definitions", "--book", directory)
        return {path.name: path.read_text() for path in pathlib.Path(directory).glob("*.html")}


@pytest.mark.xdist_group("book")
@each("title", BOOK)
def test_book(book, title):
    """Each row of the specification's tables of rules has a page in the book."""
    section = re.search(rf"^## {title}.*?(?=^## )", (ROOT / "docs/SPECIFICATION.md").read_text(), re.M | re.S).group()
    rows = sum(len(table.splitlines()) - 2 for table in re.findall(r"(?:^\|.*\n)+", section, re.M)) + len(re.findall(r"^\*\*.+?\*\*", section, re.M))
    listed = re.search(rf"<h2>{title}</h2>\n<ul>\n(.*?)</ul>", book["index.html"], re.S).group(1)
    assert len(set(re.findall(r'href="(.*?)"', listed))) == rows


@pytest.mark.xdist_group("book")
def test_links_of_book(book):
    for name, page in book.items():
        for target, anchor in re.findall(r'href="([^"#]+)#?([^"]*)"', page):
            assert target in book and (not anchor or f'id="{anchor}"' in book[target]), f"{name}: the link {target}#{anchor} leads nowhere"


@pytest.mark.xdist_group("book")
@each("name", IN_BOOK)
def test_pages_of_book(book, name):
    assert not [words for words in IN_BOOK[name] if words not in book[name]]


# --- manual pages ---


@each("part, name", [("3", "vt220.3"), ("7", "vt220.7"), ("page", "vt220-page.1"), ("fleet", "vt220-fleet.1")])
def test_made_pages(part, name):
    assert output("docs/manual", part) == (ROOT / "docs/man" / name).read_text(), f"it isn't what docs/manual {part} prints"


@each("path", PAGES, ids=named)
def test_pages(path):
    text = path.read_text()
    lint = subprocess.run(["mandoc", "-Tlint", "-W", "warning", path], capture_output=True, text=True)
    assert lint.returncode == 0, lint.stdout
    assert len(re.search(r"^\.Nd (.*)$", text, re.M)[1]) < 50, "its .Nd"
    assert path.suffix != ".1" or {"EXAMPLES", "FILES"} <= {*re.findall(r"^\.Sh (\w+)$", text, re.M)}, "a page of a program has both"


# --- the version ---


def version():
    """Returns the version of lib/c/include/vt220.h as VT220_VERSION, and as three numbers."""
    code = re.search(r"^#define VT220_VERSION (\d+)$", (ROOT / "lib/c/include/vt220.h").read_text(), re.M).group(1)
    return code, subprocess.run(["make", "-s", "version"], cwd=ROOT, capture_output=True, text=True, check=True).stdout.strip()


@each("name", VERSIONS)
def test_version(name):
    """What repeats the version is that of lib/c/include/vt220.h."""
    found = re.findall(VERSIONS[name], (ROOT / name).read_text(), re.M)
    assert found and set(found) <= {*version()}


# The sections of the changelog whose changes raise another version, or none.
OTHER_SECTIONS = {"vt220-keep", "vt220-fleet", "Packages, builds, tests and documents"}


def unreleased():
    """Returns the sections of CHANGELOG.md with changes that no release has."""
    text = re.search(r"^## \[Unreleased\]\n(.*?)^## \[", (ROOT / "CHANGELOG.md").read_text(), re.M | re.S)[1]
    return {name for name, changes in re.findall(r"^### (.*)\n((?:(?!### ).*\n)*)", text, re.M) if re.search("^- ", changes, re.M)}


def test_interface():
    """The interface is that of the last release. A higher number may add to it, and nothing of it goes."""
    stored = max(ROOT.glob("lib/c/tests/abi-*.txt"), key=lambda path: as_numbers(path.stem.removeprefix("abi-")))
    released, number = stored.stem.removeprefix("abi-"), version()[1]
    dated = re.search(r"^## \[([\d.]+)\] - ", (ROOT / "CHANGELOG.md").read_text(), re.M).group(1)
    assert dated == released, "CHANGELOG.md's last release is another"
    before, now = (set(path.read_text().splitlines()) for path in (stored, ROOT / "lib/c/tests/abi.txt"))
    is_raised = as_numbers(number) > as_numbers(released)
    assert not before - now, "the interface lacks what the release has"
    assert is_raised or not now - before, "the version isn't raised, and the interface has more"
    assert is_raised or not unreleased() - OTHER_SECTIONS, "the version isn't raised, and CHANGELOG.md has changes"
    symbols = re.findall(r"^ (vt220_\w+)@\S+ ([\d.]+)~?$", (ROOT / "packaging/debian/libvt220-0.symbols").read_text(), re.M)
    for call, since in symbols:
        is_right = as_numbers(since) <= as_numbers(released) if call in before else since == number
        assert is_right, f"packaging/debian/libvt220-0.symbols says that {call} came with {since}"


def as_numbers(version):
    return [int(part) for part in version.split(".")]


# --- what is stored for the packages ---


def test_symbols():
    exports = re.findall(r"^(vt220_\w+)$", (ROOT / "lib/c/tests/abi.txt").read_text(), re.M)
    assert re.findall(r"^ (vt220_\w+)@", (ROOT / "packaging/debian/libvt220-0.symbols").read_text(), re.M) == exports


def test_toolchain():
    logic = re.search(r"logic \w+", subprocess.run(["rt", "version"], capture_output=True, text=True).stdout).group()
    assert logic in (ROOT / "docs/PROMISES.md").read_text(), "docs/PROMISES.md doesn't name it"
    passes("packaging/third-party", "--check")


# --- completions ---


def help_words(program, *arguments):
    """Returns the commands and the long options in a program's help."""
    text = subprocess.run([program, *arguments], capture_output=True, text=True, timeout=PATIENCE).stdout
    listed = re.search(r"^Commands:\n((?: .*\n)*)", text, re.M)
    commands = re.findall(r"^ {2}(\w+) ", listed.group(1), re.M) if listed else re.findall(r"^(?:usage:|      ) vt220-keep ([a-z]+)", text, re.M)
    return set(commands), set(re.findall(r"(?<![\w-])--[a-z]+(?![\w-])", text))


def completed(path):
    """Returns the words and the long options in a file of completions."""
    text = path.read_text()
    options = re.findall(r"(?<![\w-])--([a-z]+)", text) + re.findall(r"^complete .* -l ([a-z]+)", text, re.M)
    return set(re.findall(r"[a-z]+", text)), {f"--{option}" for option in options}


def key_names():
    """Returns the names of keys in the library's table."""
    table = (ROOT / "lib/c/vt220-keys.c").read_text()
    rows = re.findall(r'^    (?:\{|SAME\()"(\w+)", (?:NULL|"(\w+)"),', table, re.M)
    return {name for row in rows for name in row if name} | set(re.findall(r'^    ON_KEYPAD\("(\w+)"', table, re.M))


@each("file", ["vt220-keep.bash", "_vt220-keep", "vt220-keep.fish"])
def test_completed_keys(file):
    """Completions are written by hand. They have the names of the keys, and what the help of the programs has."""
    keys = key_names()
    assert len(keys) > 50, "lib/c/vt220-keys.c has a table of keys"
    assert not keys - set(re.findall(r"\w+", (ROOT / "packaging/completions" / file).read_text()))


@built
@each("form", ["{}.bash", "_{}", "{}.fish"])
@each("program", ["crates/vt220/out/vt220", "out/vt220-keep", "out/vt220-play"])
def test_completions(form, program):
    commands, options = help_words(ROOT / program, "--help")
    if "text" in commands:
        options |= help_words(ROOT / program, "text", "--help")[1]
    words, offered = completed(ROOT / "packaging/completions" / form.format(pathlib.Path(program).name))
    assert not commands - words
    assert options - {"--help", "--version"} <= offered <= options


# --- the commands of documents ---


def stage(directory):
    """Makes a directory with the programs as they are installed, and Debian's Python. Returns its path."""
    bin_ = directory / "bin"
    bin_.mkdir()
    (bin_ / "vt220").symlink_to(ROOT / "crates/vt220/out/vt220")
    (bin_ / "vt220-play").symlink_to(ROOT / "out/vt220-play")
    (bin_ / "python3").symlink_to("/usr/bin/python3")
    return bin_


def write_inputs(work):
    """Writes the files that the examples of the manual page begin with."""
    frames = [(0, b"early\r\n"), (20, b"late\r\n")]
    inputs = {
        "monday.bin": b"first\r\n",
        "tuesday.bin": b"second\r\n",
        "a.bin": b"same",
        "b.bin": b"other\r\x1b[Ksame",
        "demo.cast": b'{"version": 2}\n[1, "o", "one"]\n[2, "m", ""]\n[3, "m", "second"]\n[4, "o", "two"]\n',
        "job.timing": b"1 3\n2 3\n",
        "job.typescript": b"Script started on 2026-11-24 10:00:00+00:00\nA\r\nB\r\n\nScript done on 2026-11-24 10:00:03+00:00\n",
        "demo.tty": b"".join(struct.pack("<III", seconds, 0, len(content)) + content for seconds, content in frames),
    }
    for name, content in inputs.items():
        (work / name).write_bytes(content)


@pytest.fixture
def shell():
    """A shell in a new directory with the programs, the inputs and links to the repository's files."""
    with tempfile.TemporaryDirectory() as name:
        directory = pathlib.Path(name)
        work = directory / "work"
        work.mkdir()
        for entry in ("vt220", "HANDLES", "apps", "lib", "tests", "tools", "docs", "crates", "out", "Makefile", "crates.txt"):
            if (ROOT / entry).exists():
                (work / entry).symlink_to(ROOT / entry)
        write_inputs(work)
        rig = {"PYTHONPATH": str(ROOT / "lib/python"), "PYTEST_PLUGINS": "vt220.pytest_plugin", "PYTEST_ADDOPTS": f"--vt-timeout {PATIENCE}"}
        path = f"{stage(directory)}:{os.environ['PATH']}"
        shell = Shell(work, {**os.environ, **rig, "PATH": path, "LC_ALL": "C.UTF-8", "PYTHONDONTWRITEBYTECODE": "1"})
        shell.work = work
        yield shell
        shell.close()


def test_size():
    """README fits on a page."""
    lines = README.read_text().splitlines()
    assert len(lines) <= 110 and max(map(len, lines)) <= 120


def test_program():
    assert (ROOT / "lib/c/examples/screen.c").read_text() in (ROOT / "docs/C.md").read_text()


def in_tables(path):
    """Returns the commands in the last column of a document's tables, except those of vt220-keep(1) and vt220-play(1), which are run on terminals."""
    on_terminals = {command for page in (KEEPER, PLAYER) for block in blocks(page) for command, _ in commands(block)}
    return [command for command in re.findall(r"^\|.*\| `([^`]+)` \|$", path.read_text(), re.M) if command not in on_terminals]


def write_sources(path, work):
    """Writes each block of a document that begins with the name of a Python file."""
    for _, _, block in markdown_blocks(path.read_text()) if path.suffix == ".md" else ():
        if name := re.match(r"# (\w+\.py)\n", block):
            (work / name[1]).write_text(block)


@each("name", [name for name in RUN_HERE if RUN_HERE[name]])
def test_sections(name):
    """The clean root runs the sections of a document that aren't run here."""
    tries = (ROOT / "packaging/tries/documents").read_text()
    consoles = {heading for heading, language, _ in markdown_blocks((ROOT / name).read_text()) if language == "console"}
    assert not [heading for heading in consoles - {*RUN_HERE[name]} if f"'{heading}'" not in tries]


@built
@each("name", RUN_HERE)
def test_commands(name, shell):
    """Each command of a document prints the lines below it. Those in a table of README come last."""
    path, faults = ROOT / name, []
    write_sources(path, shell.work)
    entries = [entry for block in blocks(path, *RUN_HERE[name]) for entry in commands(block)]
    for command, wanted in [*entries, *((command, []) for command in in_tables(path) if path == README)]:
        if not NOT_RUN.search(command) and (TEMPLATE.exists() or not command.startswith("apps/page/vt220-page")):
            faults += [f"'{command}': {wrong}" for wrong in [fault(shell, command, wanted)] if wrong]
    assert not faults


@built
def test_sessions():
    """Runs the commands of vt220-keep's page, each on a terminal. A client that shows no end of its session is detached by the key."""
    with tempfile.TemporaryDirectory() as name:
        work = pathlib.Path(name)
        (work / "vt220-keep").symlink_to(ROOT / "out/vt220-keep")
        (work / "Makefile").write_text("all:\n\t@echo made\n")
        environment = {**os.environ, "PATH": f"{work}:{os.environ['PATH']}", "TERM": "xterm", "KEEP_DIR": str(work / "sockets"), "KEEP_PATIENCE": str(PATIENCE)}
        environment.pop("KEEP_SESSION", None)
        for command, output in (entry for block in blocks(KEEPER) for entry in commands(block)):
            attaches = re.search(r" attach | new -A ", command) and not output
            status, said = on_terminal(command, DETACH if attaches else b"", work, environment)
            last = said.rstrip().split("\n")[-1]
            assert status == 0 and (not output or [last] == output), f"'{command}': {said}"
        for session in ("work", "job"):
            subprocess.run([work / "vt220-keep", "kill", session], env=environment, stderr=subprocess.DEVNULL)


@built
def test_playing():
    """Runs the commands of vt220-play's page, each on a terminal, and ends them by the key."""
    with tempfile.TemporaryDirectory() as name:
        work = pathlib.Path(name)
        write_inputs(work)
        (work / "vt220-play").symlink_to(ROOT / "out/vt220-play")
        for command, _ in (entry for block in blocks(PLAYER) for entry in commands(block)):
            status, said = on_terminal(command, b"q", work, {**os.environ, "PATH": f"{work}:{os.environ['PATH']}", "TERM": "xterm"})
            assert status == 0, f"'{command}': {said}"


@built
@each("block", [block for block in blocks(ROOT / "docs/man/vt220.1") if "vt220 repaint" in block])
def test_refusals(block, shell):
    """An example with a repaint doesn't succeed if its inputs end inside a sequence, and so have none."""
    for name in ("monday.bin", "a.bin", "b.bin"):
        (shell.work / name).write_bytes(name.encode() + b"\x1b[")
    assert 0 not in [shell.run(command)[0] for command, _ in commands(block)]
