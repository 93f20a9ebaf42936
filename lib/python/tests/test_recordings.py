"""Tests the reader of recordings, and the command python3 -m vt220, against the proved reader of the program vt220."""
import json
import os
import pathlib
import struct
import subprocess
import sys

import pytest

import vt220
from vt220.recordings import Event, detect, is_utf_8, read

PROGRAM = pathlib.Path(__file__).resolve().parents[3] / "crates/vt220/out/vt220"
TEXT = "caf\u00e9 \u2014 \u2502ready"


def cast(*events, **head):
    return "".join(json.dumps(line) + "\n" for line in ({"version": 2, "width": 80, "height": 24, **head}, *events)).encode()


def frames(*parts):
    return b"".join(struct.pack("<III", int(at), int(at % 1 * 1e6), len(data)) + data for at, data in parts)


def script(data, about=""):
    return b"Script started on 2026-11-30 13:00:00+00:00" + about.encode() + b"\n" + data + b"\nScript done on 2026-11-30 13:00:01+00:00 [COMMAND_EXIT_CODE=\"0\"]\n"


XTERM = {"TERM": "xterm-256color"}
# Recordings with the options of the program that play each as python3 -m vt220 does without options.
RECORDINGS = {
    "asciicast of an xterm": (cast([0.5, "o", "shell\033[?1049h\033[2J\033[5Gfull"], [1, "o", "\033[?1049l " + TEXT], env=XTERM), "asciicast", ["--terminal", "xterm"]),
    "asciicast without TERM": (cast([0.1, "o", "shell\033[?1049h\033[2J\033[5Gfull\033[?1049l"]), "asciicast", ["--terminal", "xterm"]),
    "asciicast of a VT220": (cast([0.1, "o", "a\033[5Gb " + TEXT], env={"TERM": "vt220"}), "asciicast", []),
    "asciicast of another size": (cast([0.1, "o", "\033[40;110Hlow"], width=120, height=40, env=XTERM), "asciicast", ["--terminal", "xterm"]),
    "asciicast of 132 columns": (cast([0.1, "o", "\033[2;130Hlow"], width=132, env=XTERM), "asciicast", ["--terminal", "xterm"]),
    "asciicast with changes": (cast([0, "o", "\033[24Hlow"], [1, "r", "100x12"], [2, "o", "\033[1;99Hhigh"], [3, "r", "80x30"], env=XTERM), "asciicast", ["--terminal", "xterm"]),
    "asciicast with an impossible change": (cast([0, "o", "one"], [1, "r", "999x12"], [2, "o", " two"], env=XTERM), "asciicast", ["--terminal", "xterm"]),
    "asciicast of version 3": (b'{"version": 3, "term": {"cols": 100, "rows": 30, "type": "xterm"}}\n# a comment\n[0.5, "o", "one"]\n\n[0.5, "m", "here"]\n[1e-1, "o", "\\u001b[30;90Htwo"]\n', "asciicast", ["--terminal", "xterm"]),
    "asciicast of version 1": (b'{\n "version": 1, "width": 90, "height": 20, "env": {"TERM": "xterm"},\n "stdout": [[0.5, "one"], [1, "\\u001b[20;85Htwo"]]}\n', "asciicast", ["--terminal", "xterm"]),
    "asciicast that breaks": (cast([0.5, "o", "one"], [1, "o"], [2, "o", "two"], env=XTERM), "asciicast", ["--terminal", "xterm", "--partial"]),
    "ttyrec": (frames((100.0, b"caf\351"), (101.5, b" ready")), "ttyrec", []),
    "ttyrec in UTF-8": (frames((100.0, TEXT[:4].encode()), (101.5, TEXT[4:].encode())), "ttyrec", ["--encoding", "utf-8"]),
    "ttyrec that is cut": (frames((100.0, b"one"), (101.5, b"two"))[:-1], "ttyrec", ["--partial"]),
    "script": (script(b"caf\351\r\n"), "script", []),
    "script in UTF-8": (script(TEXT.encode()), "script", ["--encoding", "utf-8"]),
    "script of an xterm": (script(b"\033[5Gone\033[40;100Htwo", ' [TERM="xterm" TTY="/dev/pts/1" COLUMNS="120" LINES="40"]'), "script", ["--terminal", "xterm"]),
    "script of a VT220 in UTF-8": (script(TEXT.encode(), ' [TERM="vt220" TTY="/dev/pts/1" COLUMNS="80" LINES="24"]'), "script", ["--encoding", "utf-8"]),
    "script without an end": (b"Script started on 2026-11-30 13:00:00+00:00\none", "script", []),
    "script that was appended to": (script(b"one") + script(b"two"), "script", ["--partial"]),
    "raw": (b"caf\351", "raw", []),
    "raw in UTF-8": (TEXT.encode(), "raw", ["--encoding", "utf-8"]),
    "nothing": (b"", "raw", []),
}


def module(*words):
    return subprocess.run([sys.executable, "-B", "-m", "vt220", *words], capture_output=True, text=True,
                          env={**os.environ, "PYTHONPATH": os.path.dirname(os.path.dirname(vt220.__file__))})


@pytest.mark.parametrize("name", RECORDINGS)
def test_the_command_plays_a_recording_as_the_program_does(tmp_path, name):
    data, format, options = RECORDINGS[name]
    (tmp_path / "it").write_bytes(data)
    assert detect(data) == format
    wanted = subprocess.run([PROGRAM, "text", "--quiet", "--format", format, *options, tmp_path / "it"], capture_output=True, text=True, check=True).stdout
    for words in ([], ["--format", "auto"], ["--format", format, *([] if "--partial" in options else options)]):
        done = module(*words, str(tmp_path / "it"))
        assert done.stdout == wanted, words
        assert (done.returncode, done.stderr != "") == ((7, True) if "--partial" in options else (0, False))


def test_raw_bytes_are_those_of_a_vt220(tmp_path):
    for name in ("asciicast of an xterm", "ttyrec", "script", "raw in UTF-8"):
        (tmp_path / "it").write_bytes(RECORDINGS[name][0])
        wanted = subprocess.run([PROGRAM, "text", "--quiet", "--format", "raw", "--encoding", "dec", tmp_path / "it"], capture_output=True, text=True, check=True).stdout
        assert module("--format", "raw", str(tmp_path / "it")).stdout == wanted
    assert module("--format", "raw", "--encoding", "utf-8", str(tmp_path / "it")).stdout.startswith("caf\u00e9 - \u2502ready")


def test_a_number_of_bytes_is_of_the_content(tmp_path):
    (tmp_path / "it").write_bytes(cast([0, "o", "one"], [1, "r", "90x30"], [2, "o", "two"], env=XTERM))
    for count, text, lines in ((2, "on", 24), (3, "one", 24), (4, "onet", 30), (99, "onetwo", 30)):
        assert module(str(tmp_path / "it"), str(count)).stdout == text + "\n" * lines


def test_an_asciicast_of_a_vt220s_bytes_has_their_characters(tmp_path):
    (tmp_path / "it").write_bytes(cast([0, "o", "caf\u00e9\u0152\u2014."]))
    wanted = subprocess.run([PROGRAM, "text", "--quiet", "--format", "asciicast", "--encoding", "dec", tmp_path / "it"], capture_output=True, text=True, check=True).stdout
    assert module("--encoding", "dec", str(tmp_path / "it")).stdout == wanted and wanted.startswith("caf\u00e9\u0152\u2426.")


@pytest.mark.parametrize("name", [name for name, (_, format, _) in RECORDINGS.items() if format != "raw"])
def test_events_are_those_of_the_program(tmp_path, name):
    data, format, _ = RECORDINGS[name]
    (tmp_path / "it").write_bytes(data)
    done = subprocess.run([PROGRAM, "events", "--full", "--partial", "--quiet", "--format", format, tmp_path / "it"], capture_output=True, check=True)
    rows = [line.split(b"\t", 4) for line in done.stdout.split(b"\n")[:-1]]
    wanted = [Event(float(row[0]) if row[0] != b"-" else 0.0, row[1].decode(), row[4].decode("unicode_escape").encode("latin-1")) for row in rows if len(row) > 3]
    found = [event._replace(at=round(event.at, 6)) for event in read(data).events]
    assert found == wanted


@pytest.mark.parametrize("data, format", [
    (b"\x1f\x8b\x08\0", "compressed"), (b"\xfd7zXZ\0", "compressed"), (b"BZh91AY&SY", "compressed"), (b'{"version": 4}\n', "raw"), (b'{"a": "b"}\n', "raw"),
    (b'\xef\xbb\xbf {"width": 80, "version": 2}\n', "asciicast"), (b"Script started", "raw"), (frames((1, b"x" * 70000)), "raw"), (b"\0" * 12, "raw"),
])
def test_a_format_is_detected_as_the_program_does(tmp_path, data, format):
    (tmp_path / "it").write_bytes(data)
    assert detect(data) == format
    done = subprocess.run([PROGRAM, "events", "--full", "--partial", "--quiet", "--format", "auto", tmp_path / "it"], capture_output=True)
    assert (done.returncode == 7) == (format == "compressed" or data.startswith(b'{"version":')), done


def test_what_is_wrong_is_said(tmp_path):
    for data, said in ((b"\x1f\x8b\x08\0", "decompress it first"), (b'{"version": 4, "width": 80}\n[0.5, "o", "x"]\n', "it is of version 4, which isn't known")):
        (tmp_path / "it").write_bytes(data)
        done = module(str(tmp_path / "it"))
        assert done.returncode == 7 and said in done.stderr and done.stdout == "\n" * 24
    assert module("--format", "raw", str(tmp_path / "it")).stdout.startswith('{"version": 4')
    for words in (["--format", "gif", "it"], ["--terminal", "xterm", "--encoding", "dec", "it"], ["it", "-1"], ["it", "1", "2"]):
        done = module(*words)
        assert (done.returncode, done.stdout) == (2, "") and "--format FORMAT" in done.stderr, words
    done = module(str(tmp_path / "nowhere"))
    assert (done.returncode, done.stdout, done.stderr) == (1, "", f"vt220: {tmp_path}/nowhere: No such file or directory\n")
    assert module("--help").stdout.startswith("Prints the screen after a recording")


@pytest.mark.parametrize("data, found", [(b"", False), (b"cafe", False), ("caf\u00e9".encode(), True), (b"caf\xe9", False), (b"caf\xc3", False), ("\u00e9".encode() + b"\xe2\x94", True), ("\u00e9".encode() + b"\xe9 ", False)])
def test_bytes_that_look_like_utf_8(data, found):
    assert is_utf_8(data) == found
