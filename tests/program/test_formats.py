"""What a broken recording of each format leaves, and how a format is found. script(1) of util-linux records real sessions."""
import os
import select
import struct
import subprocess

import pytest
from samples import (EVENT, FIRST_LINE, LIKE_ASCIICAST, LIKE_RAW, LIKE_SCRIPT, RECORDINGS, SCRIPT, SESSION, SPECIFIED, TTYREC, USUAL, WORDS,
                     broken, cast_of, frames, lines, said, typescript)

CUT = frames((100, 0, b"one"), (112, 500000, b"two"))[:-1]
CAST = b'{"version": 2}\n[1, "o", "x"]\n[2, "o"]\n'


@pytest.mark.parametrize("format, data, out, err", (
    ("ttyrec", CUT, b"one", broken(15, TTYREC)),
    ("ttyrec", CUT[:11], b"", broken(0, f"{TTYREC}; {LIKE_RAW}")),
    # a long frame isn't said to be raw
    ("ttyrec", frames((100, 0, b"one")) + struct.pack("<III", 101, 0, 70000) + b"cut", b"one", broken(15, TTYREC)),
    ("asciicast", lines({"version": 1, "stdout": [[0.25, "a"], [0.5]]}), b"a", broken(0, FIRST_LINE)),
    ("asciicast", lines({"version": 4}), b"", broken(0, f"{FIRST_LINE}; {LIKE_RAW}")),
    ("asciicast", CAST, b"x", broken(29, EVENT)),
    ("asciicast", SESSION, b"", broken(0, f"{FIRST_LINE}; {LIKE_SCRIPT}")),
    *((format, cast_of(USUAL), b"", broken(0, f"{reason}; {LIKE_ASCIICAST}")) for format, reason in (("script", SCRIPT), ("ttyrec", TTYREC))),
    *((format, b"\033[2Jonetwo", b"", broken(0, f"{reason}; {LIKE_RAW}")) for format, reason in (("script", SCRIPT), ("ttyrec", TTYREC), ("asciicast", FIRST_LINE))),
    *((format, b"", b"", broken(0, f"{reason}; the file is empty")) for format, reason in (("script", SCRIPT), ("asciicast", FIRST_LINE))),
))
def test_reason_of_a_break(run, format, data, out, err):
    """What came before a break is written in any case. With --partial it is enough, if the break isn't at byte 0."""
    assert run(f"content --format {format}", data=data) == (7, out, err)
    for options in ("--partial", "--partial --quiet"):
        assert run(f"content --format {format} {options}", data=data) == (7 if err.splitlines()[0].endswith(b" at byte 0") else 0, out, err)


@pytest.mark.parametrize("word", (*WORDS, "events"))
def test_what_came_before_a_break_is_written(run, word):
    cut = run(f"{word} --format asciicast", data=CAST)
    assert cut.status == 7 and run(f"{word} --format asciicast --partial", data=CAST) == (0, cut.out, cut.err)


@pytest.mark.parametrize("before, rows", ((999, 3), (1000, 2)))
def test_change_of_the_size_that_is_the_thousandth(run, before, rows):
    """It is the last one that is carried out."""
    cast = b'{"version": 2}\n' + before * b'[1, "r", "80x2"]\n' + b'[2, "r", "80x3"]\n'
    assert run("text --quiet --format asciicast", data=cast) == (0, rows * b"\n", b"")


# --- script ---


@pytest.mark.parametrize("options", ("-O file", "-T times -m classic -O file", "-T times -m advanced -O file", "-T times -B file", "-T times -I input -O file"))
def test_session_that_script_records(told, tmp_path, options):
    """What the program wrote is its content."""
    words = ["script", "-q", *options.split(), "-c", "stty -echo; printf 'begin\\n\\033[1mone\\033[m\\n'; read x; echo got $x; echo end"]
    subprocess.run(words, cwd=tmp_path, input=b"line\n", capture_output=True, env={**os.environ, "SHELL": "/bin/sh"}, check=True)
    session = (tmp_path / "file").read_bytes()
    assert session.startswith(b"Script started on ")
    timing = ["--timing", tmp_path / "times"] if "-T" in options else []
    found = told("content --format script", *timing, data=session)
    # script may echo what is typed before stty takes effect.
    assert found.replace(b"line\r\n", b"", found.count(b"line\r\n") - 1).endswith(b"begin\r\n\x1b[1mone\x1b[m\r\ngot line\r\nend\r\n")
    if timing:
        assert told("content --format script --until 1:00:00", *timing, data=session) == found
        assert found.startswith(told("content --format script --until 0.000001", *timing, data=session))


def test_broken_timing_file(run, tmp_path):
    times, session = tmp_path / "times", typescript("abcdef")
    bad = broken(6, "a timing file has lines such as '0.25 80', or 'O 0.25 80' with other letters too", "timing file", times)
    times.write_bytes(b"0.5 3\n1.0 x\n")
    assert run("content --format script --timing", times, data=session) == (7, b"abc", bad)
    assert run("content --format script --partial --timing", times, data=session) == (0, b"abc", bad)
    # a recording that is shorter than its timing file
    times.write_bytes(b"0.5 3\n1.0 9\n")
    second = broken(50, "a second session begins there, or the timing file has more bytes than the recording")
    assert run("content --format script --timing", times, data=session) == (7, b"abc", second)


# --- the beginning of the input decides on its format ---


@pytest.mark.parametrize("format, data, _", RECORDINGS)
def test_format_is_found(run, told, format, data, _):
    for piece in ("1", "7", "4096"):
        assert told(f"content --format auto --piece {piece}", data=data) == b"onetwo"
    for word in WORDS:
        named = run(f"{word} --format {format}", data=data)
        assert run(f"{word} --format auto", data=data) == named
        assert word in SPECIFIED or run(word, data=data) == named
    assert told("content --format auto --until 4b", data=data) == b"onet"
    done = run("content --format auto --until 5", data=data)
    ways = {"script": "times are in a file by script: use --timing FILE", "raw": "--format auto found raw bytes; a moment may be bytes, as 4096b"}
    assert done == ((2, b"", said("the input has no times", f"standard input: {ways[format]}")) if format in ways else (0, b"one", b""))


@pytest.mark.parametrize("word", WORDS)
def test_long_raw_bytes_are_found(run, word):
    """They are more than is looked at, so that the bytes after it come from the device itself."""
    long = b"".join(b"line %d\r\n\x1b[6n" % number for number in range(10000))
    for piece in ("7", "65536"):
        assert run(f"{word} --format auto --piece {piece}", data=long) == run(f"{word} --piece {piece}", data=long)


@pytest.mark.parametrize("asked", (("--format", "raw"), ("--encoding", "dec"), ("--terminal", "xterm")))
def test_raw_bytes_are_played_as_they_come(program, asked):
    """Lines are written while the input is still open, as soon as its first bytes show that it is raw, if they don't have to decide on the encoding."""
    with subprocess.Popen([program, "log", *asked], stdin=subprocess.PIPE, stdout=subprocess.PIPE) as running:
        running.stdin.write(b"line\r\n" * 25)
        running.stdin.flush()
        assert select.select([running.stdout], [], [], 300)[0] != []
        assert running.poll() is None
        running.stdin.close()
        assert running.stdout.read().startswith(b"line\n")
