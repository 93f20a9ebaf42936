"""What raw input looks like, other sizes and other languages are noted once. The notes change neither the output nor the status."""
import pytest
from samples import RECORDINGS, SPECIFIED, USUAL, WORDS, cast_of, said, typescript


def noted(note):
    return said(f"standard input: {note}") if note else b""


@pytest.mark.parametrize("word", WORDS)
@pytest.mark.parametrize("_, data, hint", RECORDINGS)
def test_recording_as_raw_bytes(run, word, _, data, hint):
    ask = word if word in SPECIFIED else f"{word} --format raw"
    done = run(ask, data=data)
    assert done.err == noted(hint)
    assert run(f"{ask} --quiet", data=data) == (done.status, done.out, b"")


@pytest.mark.parametrize("format, data", (("script", typescript("onetwo", ' [TERM="xterm" COLUMNS="120" LINES="40"]')),
                                          ("asciicast", cast_of({"version": 2, "width": 120, "height": 40})),
                                          ("asciicast", cast_of({"version": 3, "term": {"cols": 120, "rows": 40}}))))
def test_recording_of_another_size(run, format, data):
    for ask in (format, "auto"):
        done = run(f"log --columns 80 --format {ask}", data=data)
        assert (done.status, done.err) == (0, noted("recorded at 120x40, played on 80x24"))
        assert run(f"log --columns 80 --quiet --format {ask}", data=data) == (0, done.out, b"")
        assert run(f"events --format {ask}", data=data).err == run(f"content --format {ask}", data=data).err == b""


CAST = cast_of(USUAL)
RESIZED = CAST + b'[11, "r", "120x40"]\n[12, "o", "\\"r\\""]\n'
STAYS = "the window changes its size, and the screen stays at 80x24"


@pytest.mark.parametrize("words, data, note", (
    *((words, RESIZED, STAYS) for words in ("picture --size 80x24", "trace --columns 80", "log --columns 80")),
    *((words, RESIZED, "") for words in ("text", "picture", "log", "trace", "repaint --terminal xterm", "events", "content")),
    # a window that doesn't, and a text with quotes
    ("log", RESIZED.replace(b'"r", "120', b'"i", "120'), ""),
    ("text", RESIZED.replace(b"120x40", b"1x20"), "the window changes to a size from outside 2x2 to 255x255, and the screen doesn't"),
))
def test_window_that_changes_its_size(run, words, data, note):
    assert run(f"{words} --format auto", data=data).err == noted(note)


# --- what was played for a VT220 and looks like something else is noted ---

XTERM, UTF8 = "it has sequences of an xterm: use --terminal xterm", "it looks like UTF-8: use --encoding utf-8"


@pytest.mark.parametrize("data, note", (
    (b"main\033[?1049halt", XTERM), (b"\033[38;5;1mX", XTERM), (b"caf\xc3\xa9.", UTF8), (b"caf\xc3\xa9.\xe2\x94", UTF8), (b"caf\xe9.", ""), (b"caf\xc3\xa9", UTF8),
    (b"caf\xc3\xa9\xe2\x94", UTF8), (b"caf\xc3\xa9\xe9.", ""), (b"caf\xe9", ""), (b"caf\xc3", ""), (b"plain", ""),
))
def test_language(run, data, note):
    assert run("text", data=data).err == noted(note)
    for options in ("--terminal vt220", "--encoding dec", "--quiet"):
        assert run(f"text {options}", data=data).err == b""


@pytest.mark.parametrize("front, end", ((4094, "é"), (4095, "Ã©"), (4096, "Ã©")))
def test_raw_bytes_whose_first_4096_decide(told, front, end):
    assert told("show", data=front * b"x" + "é".encode()).decode().rstrip().endswith("x" + end)
