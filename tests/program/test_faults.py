"""What the program refuses, files that can't be opened or read, devices that fail, and memory that is short: the second line says why."""
import errno
import os
import resource

import pytest
from samples import SESSION, SPECIFIED, WORDS, said

READ, WRITE, TOO_LONG = "read failed", "write failed", "input is longer than the limit"


def reason(name, number):
    """Returns the second line for the operating system's error of a file."""
    return f"{name}: {os.strerror(number)}"


def longer(name, limit):
    return said(TOO_LONG, f"{name}: more than {limit} bytes; a greater --limit allows them")


@pytest.fixture
def run_there(run, tmp_path):
    """Runs the program in a folder with a recording, its timing file, and a long file."""
    for name, content in (("recording", SESSION), ("times", b"0.5 6\n"), ("lines", 100 * b"line\r\n"), ("as", b"Script started on x\n" + b"a" * 9000), ("as.times", b"0.001 1\n" * 9000)):
        (tmp_path / name).write_bytes(content)
    return lambda line, **more: run(line, cwd=tmp_path, **more)


@pytest.mark.parametrize("words, name, number", (
    ("nope", "nope", errno.ENOENT), ("--partial nope", "nope", errno.ENOENT), ("recording/x", "recording/x", errno.ENOTDIR), ("/", "/", errno.EISDIR),
    ("--format ttyrec /", "/", errno.EISDIR), ("--format auto /", "/", errno.EISDIR), ("--format script --timing nope recording", "nope", errno.ENOENT),
    ("--format script --timing . recording", ".", errno.EISDIR), ("--format script --timing times nope", "nope", errno.ENOENT),
))
def test_file_that_cannot_be_read(run_there, words, name, number):
    assert run_there(f"content {words}") == (4, b"", said(READ, reason(name, number)))


def test_standard_input_and_names(run_there, run):
    assert run_there("text -").err == said(READ, reason("-", errno.ENOENT), "standard input is read if no FILE is named")
    assert run("text", preexec_fn=lambda: os.close(0)) == (4, b"", said(READ, reason("standard input", errno.EBADF)))
    assert run("text", b"caf\xe9") == (2, b"", said("bad command line", "an argument isn't UTF-8; for a file of such a name use '< FILE'"))


@pytest.mark.parametrize("words, data, status, out, err", (
    ("content --limit 5 --format script --timing times recording", b"", 6, b"", longer("times", 5)),
    ("content --limit 72000 --format script --timing as.times as", b"", 0, b"a" * 9000, b""),
    ("content --limit 71999 --format script --timing as.times as", b"", 6, b"", longer("as.times", 71999)),
    # the size of a file is known, and that of a pipe isn't
    ("log --limit 599 lines", b"", 6, b"", longer("lines", 599)),
    ("log --limit 599", 100 * b"line\r\n", 6, 76 * b"line\n", longer("standard input", 599)),
    ("log --limit 600 lines", b"", 0, 100 * b"line\n" + b"\n", b""),
    ("text --partial --limit 1", b"ab", 6, b"", longer("standard input", 1)),
))
def test_limit(run_there, words, data, status, out, err):
    assert run_there(words, data=data) == (status, out, err)


@pytest.mark.parametrize("word", WORDS)
def test_device_that_fails(run, word):
    data = b"a\x1b[6n\r\n" * 100
    with open("/dev/full", "wb") as full:
        assert run(word, data=data, stdout=full)[::2] == (5, said(WRITE, reason("standard output", errno.ENOSPC)))
    assert run(word, "/") == (4, b"", said(READ, reason("/", errno.EISDIR)))
    assert run(f"{word} --limit 10", data=data)[::2] == (6, longer("standard input", 10))
    # Nobody reads the pipe: its reading end is closed before the program starts.
    reading, writing = os.pipe()
    os.close(reading)
    done = run(word, data=data, stdout=writing)
    os.close(writing)
    assert done[::2] == (5, said(WRITE, reason("standard output", errno.EPIPE)) if word in SPECIFIED else b"")


def test_help_to_a_full_device(run):
    with open("/dev/full", "wb") as full:
        assert run("--help", stdout=full)[::2] == (5, said(WRITE, reason("standard output", errno.ENOSPC)))


def test_repaint_inside_a_sequence(run):
    wanted = said("input ends inside a sequence", "standard input: the last sequence has no end; vt220 status prints its kind")
    assert run("repaint", data=b"a\x1b[")[::2] == (3, wanted)


def test_less_and_less_memory(run):
    """A command works, or ends with status 1 and has written nothing."""
    seen = set()
    for word in WORDS:
        for limit in range(8192 << 10, 1024 << 10, -256 << 10):
            done = run(word, data=b"abc", preexec_fn=lambda: resource.setrlimit(resource.RLIMIT_AS, (limit, limit)))
            if done.status not in (0, 1):
                break  # the program can't be loaded
            seen.add(done.status)
            assert done.status == 0 or done == (1, b"", b"vt220: out of memory\n"), (word, limit)
    assert 1 in seen
