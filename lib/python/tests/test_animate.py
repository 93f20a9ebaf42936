"""Pictures that move: what an XML parser finds in them, by hand, and what is refused."""
import json
import struct
import subprocess
import sys
import xml.etree.ElementTree as xml

import pytest
import vt220
from vt220 import animate
from vt220.animate import Animation, Refused, Step

SVG = "{http://www.w3.org/2000/svg}"
MARK = "#e80"  # the colour of the cursor


def paper_of(group):
    """Returns the colour of the paper under a frame of a whole screen, or None."""
    return next((box.get("fill") for box in group.findall(f"{SVG}rect") if box.get("width") == "100%"), None)


class Picture:
    """A picture that moves, as a browser reads it."""

    def __init__(self, text):
        self.root = xml.fromstring(text)
        self.title, self.text = self.root.find(f"{SVG}title").text, self.root.find(f"{SVG}desc").text
        self.size = self.root.get("width"), self.root.get("height")
        self.all = self.root.find(f"{SVG}g")
        self.rows = {f"#{row.get('id')}": row for row in self.root.iter(f"{SVG}g") if row.get("id")}
        groups = self.all.findall(f"{SVG}g")
        self.first = self.drawn(groups[0])
        self.frames = [(int(group.get("style").removeprefix("--vt220-t:")), self.drawn(group)) for group in groups[1:]]
        self.marks = [(int(mark.get("x")), int(mark.get("y"))) for mark in self.all.iter(f"{SVG}rect") if MARK in mark.attrib.values()]

    def drawn(self, group):
        """Returns the rows of a frame: the top of each, and its text."""
        return [(int(use.get("y")), "".join(self.rows[use.get("href")].itertext()).strip("\n")) for use in group.iter(f"{SVG}use")]


def moving(*steps, terminal=None, **options):
    """Returns the picture of steps: a time and bytes, or a time and a size."""
    taken = [Step(micros, what) if isinstance(what, bytes) else Step(micros, b"", what) for micros, what in steps]
    return Picture(str(Animation(terminal or vt220.Terminal(), taken, **options)))


def test_a_frame_has_the_rows_that_changed():
    shown = moving((500000, b"one\r\n"), (2000000, b"\xe9\x1b[6n"))
    assert shown.first == [] and shown.frames == [(500000, [(0, "one"), (18, "")]), (2000000, [(18, "\u00e9")])]
    assert (shown.title, shown.text, shown.size) == ("VT220 screen", "one\n\u00e9\n" + 22 * "\n", ("820", "452"))
    assert shown.all.get("style") == "--vt220-d:3000000" and shown.marks == [(1, 1), (1, 19), (11, 19)]
    assert not any("transform" in part.attrib for part in shown.root.iter())


def test_output_of_a_thirtieth_of_a_second_is_one_frame():
    shown = moving((0, b"a"), (33333, b"b"), (33334, b"c"), (66666, b"d"), (66667, b"e"))
    assert shown.frames == [(33333, [(0, "ab")]), (66666, [(0, "abcd")]), (66667, [(0, "abcde")])]
    assert moving((0, b"a"), (1000000, b"\a"), (2000000, b"b")).frames == [(0, [(0, "a")]), (2000000, [(0, "ab")])]


def test_a_row_that_comes_again_is_drawn_once():
    shown = moving((0, b"one\r\ntwo"), (1000000, b"\x1b[24;1H\n"), (2000000, b"\x1b[H\x1b[2Jtwo\r\none"))
    assert [text for _, drawn in shown.frames for _, text in drawn].count("two") == 2
    assert sorted("".join(row.itertext()).strip("\n") for row in shown.rows.values()) == ["", "one", "two"]


def test_attributes_and_signs_of_xml():
    [row] = [row for row in moving((0, b"\x1b[?25l a<\x1b[1;4;7m&> \x1b[0;5mz\x1b[m  ")).rows.values() if "".join(row.itertext()).strip()]
    texts = [(run.text, run.get("class"), run.get("fill"), run.get("x"), run.get("textLength")) for run in row.iter(f"{SVG}text")]
    assert texts == [(" a<", None, None, "0", "30"), ("&> ", "vt220-b vt220-u", "#101010", "30", "30"), ("z", "vt220-k", None, "60", "10")]
    assert [(box.get("fill"), box.get("x"), box.get("width")) for box in row.iter(f"{SVG}rect")] == [("#101010", None, "800"), (None, "30", "30")]


def test_a_reverse_screen_and_a_wide_one_are_drawn_whole():
    shown = moving((0, b"one"), (1000000, b"\x1b[?5h"), (2000000, b"\x1b[?3hwide"))
    assert shown.frames == [(0, [(0, "one")]), (1000000, [(0, "one")]), (2000000, [(0, "wide")])] and shown.size == ("1340", "452")
    assert [paper_of(group) for group in shown.all.findall(f"{SVG}g")] == ["#101010", None, "#d0d0d0", "#d0d0d0"]


def test_the_room_is_that_of_the_largest_screen():
    shown = moving((0, b"a\r\nb\r\nc"), (1000000, (2, 90)), (2000000, b"d"), (3000000, (30, 20)))
    assert shown.frames == [(0, [(0, "a"), (18, "b"), (36, "c")]), (1000000, [(0, "b"), (18, "c")]), (2000000, [(18, "cd")]), (3000000, [(0, "b"), (18, "cd")])]
    assert shown.size == ("920", "560") and shown.text == "b\ncd\n" + 28 * "\n"


@pytest.mark.parametrize("cursor, marks", [("block", [(0, 0), (10, 0)]), ("underline", [(0, 15), (10, 15)]), ("hidden", [])])
def test_the_cursor(cursor, marks):
    assert moving((0, b"a"), cursor=cursor).marks == marks


def test_the_theme_and_the_title():
    shown = moving((0, b"a"), theme="green", title="a <b>&\t\u00e9")
    assert shown.title == "a <b>& \u00e9" and [group.get("fill") for group in shown.all.findall(f"{SVG}g")] == ["#41ff6a", "#41ff6a"]
    assert shown.root.find(f".//{SVG}use").get("href") != moving((0, b"a")).root.find(f".//{SVG}use").get("href")


def test_the_limit_is_of_the_whole_picture():
    made = str(Animation(vt220.Terminal(), [Step(0, b"a")]))
    assert str(Animation(vt220.Terminal(), [Step(0, b"a")], limit=len(made))) == made
    for limit in (len(made) - 1, 100):
        with pytest.raises(Refused, match=f"more than {limit} bytes: end it earlier with --until"):
            Animation(vt220.Terminal(), [Step(0, b"a")], limit=limit)


# --- recordings ---


def run(*words, status=0):
    done = subprocess.run([sys.executable, "-m", "vt220", "animate", *map(str, words)], capture_output=True, text=True)
    assert done.returncode == status, done.stderr
    return Picture(done.stdout) if status == 0 else done.stderr


def cast(path, *events, **header):
    path.write_text("".join(json.dumps(line) + "\n" for line in ({"version": 2, "width": 80, "height": 24, **header}, *events)))
    return path


def test_a_recording_by_asciinema(tmp_path):
    file = cast(tmp_path / "a.cast", [0.5, "o", "one\r\n"], [0.7, "i", "k"], [1, "m", "o"], [1.25, "o", ""], [2, "o", "\u00e9\x1b[6n"], [2.5, "r", "100x30"])
    told = [(500000, [(0, "one"), (18, "")]), (2000000, [(18, "\u00e9")]), (2500000, [(0, "one"), (18, "\u00e9")])]
    assert run(file).frames == told and run(file).size == ("1020", "560")
    for until, count in (("1.9", 1), ("event:5", 2), ("marker:1", 1), ("9", 3)):
        assert run("--until", until, file).frames == told[:count], until
    assert run("--size", "90x10", file).frames == told[:2] and run("--size", "90x10", file).size == ("920", "200")
    assert run("--title", "T", "--theme", "amber", "--cursor", "hidden", file).marks == []
    large = cast(tmp_path / "large.cast", [1, "o", "\x1b[40;118Hend"], width=120, height=40)
    assert run(large).frames == [(1000000, [(0, ""), (702, 117 * " " + "end")])] and run(large).size == ("1220", "740")
    wide = cast(tmp_path / "wide.cast", [1, "o", "\x1b[1;130Hend"], width=132)
    assert run(wide).size == run("--terminal", "xterm", wide).size == ("1340", "452")
    pages = cast(tmp_path / "pages.cast", [1, "o", "shell\x1b[?1049h"], [2, "o", "\x1b[?1049l"], env={"TERM": "xterm"})
    assert run(pages).frames == [(1000000, [(0, "")]), (2000000, [(0, "shell")])]
    assert run("--terminal", "vt220", pages).frames == [(1000000, [(0, "shell")])]


def test_the_other_formats(tmp_path):
    ttyrec = tmp_path / "a.tty"
    ttyrec.write_bytes(b"".join(struct.pack("<III", at, 0, text) + data for at, text, data in ((100, 1, b"a"), (105, 1, b"b"), (102, 1, b"c"), (106, 2, b"\xc3\xa9"))))
    back = [(0, [(0, "a")]), (5000000, [(0, "abc")])]
    for words, end in ([], "\u00e9"), (["--encoding", "auto"], "\u00e9"), (["--encoding", "utf-8"], "\u00e9"), (["--encoding", "dec"], "\u00c3\u00a9"):
        assert run(*words, ttyrec).frames == [*back, (6000000, [(0, f"abc{end}")])]
    ttyrec.write_bytes(ttyrec.read_bytes() + struct.pack("<III", 107, 0, 2) + b"\xe9!")
    assert run(ttyrec).frames == [*back, (6000000, [(0, "abc\u00c3\u00a9")]), (7000000, [(0, "abc\u00c3\u00a9\u00e9!")])]
    (tmp_path / "typescript").write_bytes(b"Script started on 2026-11-24 10:00:00+00:00\nabcde\nScript done on 2026-11-24 10:00:01+00:00\n")
    (tmp_path / "timing").write_bytes(b"O 0.5 3\nS 0.25 SIGWINCH ROWS=10 COLS=90\nO 1.5 2\n")
    timed = run("--timing", tmp_path / "timing", tmp_path / "typescript")
    assert timed.frames == [(500000, [(0, "abc")]), (750000, [(0, "abc")]), (2250000, [(0, "abcde")])] and timed.size == ("920", "452")
    (tmp_path / "typescript").write_bytes(b"Script started on 2026-11-24 10:00:00+00:00\nab\xc3\xa9e\nScript done on 2026-11-24 10:00:01+00:00\n")
    assert run("--timing", tmp_path / "timing", tmp_path / "typescript").frames[-1] == (2250000, [(0, "ab\u00e9e")])


def test_what_is_refused(tmp_path):
    file = cast(tmp_path / "a.cast", [0.5, "o", "one"])
    assert "more than 500 bytes" in run("--limit", "500", file, status=1)
    (tmp_path / "bytes").write_bytes(b"one")
    assert "no times" in run(tmp_path / "bytes", status=1)
    assert "no output" in run(cast(tmp_path / "empty.cast", [1, "i", "x"]), status=1)
    assert str(tmp_path / "none") in run(tmp_path / "none", status=1)
    for words in (["--size", "1x24"], ["--theme", "blue"], ["--terminal", "xterm", "--encoding", "dec"]):
        assert "usage: python3 -m vt220 animate" in run(*words, file, status=2)
    assert run("--limit", "1000000", cast(tmp_path / "b.cast", [0.5, "o", "one"]), status=0).frames == [(500000, [(0, "one")])]
    (tmp_path / "broken.cast").write_text('{"version": 2}\n[1, "o", "one"]\n[2]\n')
    assert run(tmp_path / "broken.cast").frames == [(1000000, [(0, "one")])]


@pytest.mark.parametrize("text, size", [("120x40", (40, 120)), ("ROWS=40 COLS=120", (40, 120)), ("2x2", (2, 2)), ("1x2", None), ("256x24", None), ("80 by 24", None)])
def test_a_size(text, size):
    assert animate.size_of(text) == size
