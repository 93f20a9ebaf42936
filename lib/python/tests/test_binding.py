"""Tests the binding: threads, arguments, the version, and how the library is found. test_vectors.py plays the vectors."""
import copy
import ctypes
import ctypes.util
import gc
import os
import pathlib
import shutil
import subprocess
import sys
import threading

import pytest

import vt220

PACKAGE = pathlib.Path(vt220.__file__).parent


def memory():
    """Returns the resident memory in KB."""
    with open("/proc/self/statm") as file:
        return int(file.read().split()[1]) * os.sysconf("SC_PAGESIZE") // 1024


def in_threads(count, call):
    """Runs `call` in `count` threads at once, and returns what they raised."""
    raised = []

    def run():
        try:
            call()
        except BaseException as fault:
            raised.append(fault)

    threads = [threading.Thread(target=run) for _ in range(count)]
    for thread in threads:
        thread.start()
    for thread in threads:
        thread.join()
    return raised


def python(code, **environment):
    return subprocess.run([sys.executable, "-B", "-c", code], capture_output=True, text=True, timeout=3600,
                          env={**os.environ, "PYTHONPATH": str(PACKAGE.parent), **environment})


def test_ended_threads_leave_no_memory():
    terminal = vt220.Terminal()
    for _ in range(50):
        in_threads(1, terminal.repaint)
    before = memory()
    for _ in range(1000):
        assert not in_threads(1, terminal.repaint)
    # A scratch buffer that stays has 92 KB, so that a thousand of them have 92 MB.
    assert memory() - before < 8000


def test_dropped_terminals_leave_no_memory():
    for _ in range(100):
        vt220.Terminal()
    gc.collect()
    before = memory()
    terminal = vt220.Terminal()
    for _ in range(2000):
        vt220.Terminal().text()
        terminal.__init__()
    assert memory() - before < 8000


# A crash ends its process, so each of these runs in one of its own.
HAMMER = """
import threading, vt220
terminal, other, text = vt220.Terminal(), vt220.Terminal(), vt220.Terminal("utf-8")
data = b"\\033[?3habc\\033[6n\\033[4h\\033(0lqk\\033[2J\\xe4\\xb8\\x96\\xe2" * 300
calls = [call for call in {calls} for _ in range(2)]
made = [0] * len(calls)
def hammer(number, call):
    # As long as any thread is at work, all are.
    while min(made) < 300:
        try:
            call()
        except vt220.Error:
            pass
        made[number] += 1
threads = [threading.Thread(target=hammer, args=pair) for pair in enumerate(calls)]
for thread in threads: thread.start()
for thread in threads: thread.join()
print("alive")
"""


@pytest.mark.parametrize("calls", [
    "[lambda: terminal.feed(data)]",
    "[lambda: terminal.feed(data), terminal.repaint, lambda: terminal.row(5), lambda: other.update(terminal), terminal.modes]",
    "[lambda: terminal.feed(data), lambda: terminal.close(), lambda: terminal.__init__(), terminal.text]",
    "[lambda: other.update(terminal), lambda: terminal.update(other), lambda: other.same_state(terminal), lambda: other.feed(data)]",
    "[lambda: text.feed(data), lambda: text.feed_log(data), text.pending, text.copy, text.reset, lambda: text.copy_from(other), lambda: text.__init__('utf-8')]",
])
def test_threads_cannot_crash_python(calls):
    done = python(HAMMER.format(calls=calls))
    assert (done.returncode, done.stdout) == (0, "alive\n"), done.stderr


def test_threads_get_their_own_reports():
    terminal = vt220.Terminal()
    question = b"\033[5n" * 2000

    def ask():
        for _ in range(20):
            assert terminal.feed(question) == b"\033[0n" * 2000

    assert not in_threads(8, ask)


def test_a_closed_terminal_never_keeps_a_thread():
    terminal = vt220.Terminal()
    data = b"x" * 1000

    def play():
        while True:
            terminal.feed(data)

    timer = threading.Timer(0.2, terminal.close)
    timer.start()
    raised = in_threads(3, play)
    assert [type(fault) for fault in raised] == [vt220.Closed] * 3


@pytest.mark.parametrize("wrong", [5, 5.0, "text", None, [65], object()])
def test_feed_refuses_what_is_not_bytes(wrong):
    terminal = vt220.Terminal()
    for call in (terminal.feed, terminal.feed_until_report, terminal.feed_log):
        with pytest.raises(TypeError):
            call(wrong)
    assert terminal.text() == "\n" * 24


def test_a_repaint_is_not_for_terminals_of_term_xterm():
    """?3 has an effect under TERM=xterm only after ?40 (docs/SPECIFICATION.md, 'Under TERM=xterm')."""
    source, xterm = vt220.Terminal(), vt220.Terminal(terminal="xterm")
    source.feed(b"\033[?3h")
    xterm.feed(source.repaint())
    assert (source.width(), xterm.width()) == (132, 80)


# The calls that take the number of a row.
ROW_CALLS = {"row": vt220.Terminal.row, "row_text": vt220.Terminal.row_text, "changed": lambda terminal, row: terminal.changed(vt220.Terminal(), row)}


@pytest.mark.parametrize("call", ROW_CALLS)
def test_a_number_is_a_row_from_1_to_24(call):
    terminal = vt220.Terminal()
    terminal.feed(b"one\033[24Hlast")
    for wrong in (0, -1, 25, 2**32 + 1, 2**64, 2**64 + 1, 2**64 + 24, -(2**64) + 1):
        with pytest.raises(vt220.NoRow, match=f"rows count from 1 to 24, so there is no row {wrong}$"):
            ROW_CALLS[call](terminal, wrong)
    for wrong in (1.0, 1.5, "1", None, b"1", [1]):
        with pytest.raises(TypeError):
            ROW_CALLS[call](terminal, wrong)
    assert ROW_CALLS[call](terminal, True) == ROW_CALLS[call](terminal, 1)  # a bool is an int


def test_the_text_of_a_status_is_that_of_its_number():
    assert [vt220.status_text(status) for status in (7, 11, 13)] == ["there is no such row", "two handles have different sizes", "there is no such size"]
    for other in (14, 99, 2**32 - 1, 2**32 + 7, 2**64 + 7, -1):
        assert vt220.status_text(other) == "unknown status"
    for wrong in (7.0, "7", None):
        with pytest.raises(TypeError):
            vt220.status_text(wrong)


@pytest.mark.parametrize("kind", [bytes, bytearray, memoryview])
def test_feed_takes_what_is_bytes(kind):
    terminal = vt220.Terminal()
    assert terminal.feed(kind(b"ab\033[6n")) == b"\033[1;3R"
    assert terminal.feed(kind(b"")) == b""


def test_exceptions_have_words():
    for fault in (vt220.Error, vt220.Memory, vt220.InUse, vt220.Closed, vt220.Partial, vt220.Room):
        assert len(str(fault()).split()) >= 3 and issubclass(fault, vt220.Error)
    terminal = vt220.Terminal()
    terminal.feed(b"\033[")
    with pytest.raises(vt220.Partial, match="inside a sequence"):
        terminal.repaint()
    terminal.close()
    with pytest.raises(vt220.Closed, match="closed"):
        terminal.text()


def test_docstrings_begin_with_a_verb():
    import vt220.rig
    for owner in (vt220, vt220.Terminal, vt220.rig, vt220.rig.Rig, vt220.rig.Screen):
        for name, thing in vars(owner).items():
            if not name.startswith("_") and callable(thing) and getattr(thing, "__module__", "").startswith("vt220"):
                first = (thing.__doc__ or "").split(" ")[0]
                assert first.rstrip(",").endswith("s") and first[0].isupper(), f"{owner.__name__}.{name}: {thing.__doc__}"


def test_a_library_of_another_version_is_refused(tmp_path):
    if not shutil.which("gcc"):
        pytest.skip("gcc isn't installed")
    (tmp_path / "other.c").write_text("unsigned vt220_version(void) { return 9900; }\n")
    library = tmp_path / "libvt220.so"
    subprocess.run(["gcc", "-shared", "-fPIC", "-o", str(library), str(tmp_path / "other.c")], check=True)
    done = python("import vt220; vt220.Terminal()", VT220_LIBRARY=str(library))
    assert done.returncode == 1 and f"NoLibrary: {library} is of version 0.99.0, and this module is for 0." in done.stderr


def test_an_older_library_is_refused(tmp_path):
    (tmp_path / "older.c").write_text(f"unsigned vt220_version(void) {{ return {vt220.VERSION}; }}\n")
    library = tmp_path / "libvt220.so"
    subprocess.run(["gcc", "-shared", "-fPIC", "-o", str(library), str(tmp_path / "older.c")], check=True)
    done = python("import vt220; vt220.Terminal()", VT220_LIBRARY=str(library))
    assert done.returncode == 1 and f"NoLibrary: {library} is older than this module: " in done.stderr


def test_a_file_that_is_no_library_is_refused(tmp_path):
    (tmp_path / "text").write_text("text\n")
    for path in (tmp_path / "nothing", tmp_path / "text", ctypes.util.find_library("c")):
        done = python("import vt220\ntry:\n    vt220.Terminal()\nexcept ImportError as fault:\n    assert isinstance(fault, vt220.Error)\n    print(fault)",
                      VT220_LIBRARY=str(path))
        assert done.returncode == 0 and str(path) in done.stdout, done.stderr


def test_an_import_needs_no_library():
    modules = ["vt220", "vt220.cast", "vt220.expected", "vt220.keyboard", "vt220.picture", "vt220.process", "vt220.pytest_plugin", "vt220.recordings", "vt220.rig", "vt220.screen", "vt220.__main__"]
    for module in modules:
        done = python(f"import {module}; print('imported')", VT220_LIBRARY="/no/such/file")
        assert (done.returncode, done.stdout) == (0, "imported\n"), done.stderr
    for call in ("vt220.Terminal()", "vt220.version()", "vt220.status_text(0)", "vt220.rig.run('true')"):
        done = python(f"import vt220, vt220.rig; {call}", VT220_LIBRARY="/no/such/file")
        assert done.returncode == 1 and "NoLibrary: the library can't be loaded: /no/such/file" in done.stderr, done.stderr
    done = subprocess.run([sys.executable, "-B", "-m", "vt220", __file__], capture_output=True, text=True,
                          env={**os.environ, "PYTHONPATH": str(PACKAGE.parent), "VT220_LIBRARY": "/no/such/file"})
    assert done.returncode == 1 and done.stderr.startswith("vt220: the library can't be loaded: /no/such/file") and done.stderr.count("\n") == 1


def test_the_library_next_to_the_package_comes_first(tmp_path):
    here = tmp_path / "a" / "b" / "c"
    shutil.copytree(PACKAGE, here / "vt220", ignore=shutil.ignore_patterns("__pycache__"))
    # Another program's directory of the name out is never searched.
    (here.parent.parent / "out").mkdir()
    (here.parent.parent / "out" / "libvt220.so").write_text("not a library")
    shutil.copy(vt220._find(), here / "vt220" / "libvt220.so")
    environment = {name: value for name, value in os.environ.items() if name != "VT220_LIBRARY"}
    done = subprocess.run([sys.executable, "-B", "-c", "import vt220; vt220.Terminal(); print(vt220._library._loaded._name)"], capture_output=True, text=True,
                          env={**environment, "PYTHONPATH": str(here)}, cwd=tmp_path)
    assert done.stdout.strip() == str(here / "vt220" / "libvt220.so"), done.stderr
    (here / "vt220" / "libvt220.so").unlink()
    done = subprocess.run([sys.executable, "-B", "-c", "import vt220; vt220.Terminal()"], capture_output=True, text=True,
                          env={**environment, "PYTHONPATH": str(here)}, cwd=tmp_path)
    assert str(here.parent.parent) + "/out" not in done.stdout + done.stderr.split("NoLibrary")[-1]


def test_a_row_is_read_by_one_call_and_a_known_row_is_not_cut_again(monkeypatch):
    terminal = vt220.Terminal()
    terminal.feed(b"".join(b"\033[%dmabc" % (at % 8) for at in range(640)))
    read, cells = [], vt220._library.vt220_row
    monkeypatch.setitem(vars(vt220._library), "vt220_row", lambda *words: read.append(words[1]) or cells(*words))
    first = [terminal.row(row) for row in range(1, vt220.ROWS + 1)]
    monkeypatch.setattr(vt220._Rows, "__missing__", None)  # it cuts a row that wasn't seen before
    assert [terminal.row(row) for row in range(1, vt220.ROWS + 1)] == first
    assert read == 2 * list(range(1, vt220.ROWS + 1))


def test_a_long_feed_lets_other_threads_run(monkeypatch):
    """The interpreter's lock is held during each call of the library, so no call plays more than 64 KB. calls.c does the same."""
    monkeypatch.setattr(vt220._library, "calls", vt220._ByCtypes)
    terminal, other, lengths = vt220.Terminal(), vt220.Terminal(), []
    for name, at in (("vt220_feed", 2), ("vt220_feed_log", 3)):
        call = getattr(vt220._library, name)
        monkeypatch.setitem(vars(vt220._library), name, lambda *words, call=call, at=at: lengths.append(words[at]) or call(*words))
    data = b"\033c" + b"some text " * 100000 + b"\033[6n" + b"x" * 200000
    assert terminal.feed(data) == b"\033[24;80R" and terminal.feed_until_report(data)[0] == len(data) - 200000
    assert terminal.feed_log(data)[0] == b"\033[24;80R" and max(lengths) == 65536
    assert vt220._whole(data) is data  # a copy would be made under the lock
    for at in range(0, len(data), 1000):
        other.feed(data[at : at + 1000])
    assert other.text() == terminal.text()


def test_the_calls_are_by_the_extension_module_if_there_is_one():
    program = "import vt220; print(type(vt220._library.calls).__name__)"
    assert python(program, VT220_EXTENSION="").stdout == "type\n"
    assert "NoLibrary: the extension module can't be loaded: " in python(program, VT220_EXTENSION="/no/such/file").stderr
    path = os.environ.get("VT220_EXTENSION")
    if path:
        assert python(program, VT220_EXTENSION=path).stdout == "module\n" and type(vt220._library.calls).__name__ == "module"


def test_both_ways_to_call_refuse_alike():
    terminal, other, closed = vt220.Terminal(), vt220.Terminal(terminal="xterm"), vt220.Terminal()
    closed.close()
    for calls in {vt220._ByCtypes, vt220._library.calls}:
        for name, *words in (("feed", b""), ("feed", b"x"), ("text",), ("show",), ("picture",), ("row_text", 1), ("repaint_as", 0)):
            with pytest.raises(vt220.Closed):
                getattr(calls, name)(closed._handle, *words)
        for name in ("update", "draw"):
            for pair in ((closed, terminal), (terminal, closed)):
                with pytest.raises(vt220.Closed):
                    getattr(calls, name)(*(each._handle for each in pair))
        with pytest.raises(vt220.Closed):
            calls.draw(None, closed._handle)
        with pytest.raises(vt220.OtherLanguage):
            calls.update(other._handle, terminal._handle)
        with pytest.raises(vt220.OtherLanguage):
            calls.repaint_as(terminal._handle, 2)
        with pytest.raises(vt220.NoRow):
            calls.row_text(terminal._handle, 25)
        terminal.feed(b"\033[")
        with pytest.raises(vt220.Partial):
            calls.repaint_as(terminal._handle, 0)
        terminal.feed(b"c")
        assert calls.feed(terminal._handle, b"\033[c" * 2000) == b"\033[?62;1;6c" * 2000
        assert calls.feed(terminal._handle, b"") == b"" == calls.update(terminal._handle, terminal._handle)
        for words in ((), (terminal._handle,), (terminal._handle, "x"), (bytearray(3), b"x")):
            with pytest.raises((TypeError, ctypes.ArgumentError, BufferError)):
                calls.feed(*words)


def test_a_copy_is_a_terminal_of_its_own():
    terminal = vt220.Terminal()
    terminal.feed(b"text\033[1m\033)0\a\033[5")
    for copied in (terminal.copy(), copy.copy(terminal), copy.deepcopy(terminal)):
        assert copied.same_state(terminal) and copied.held() == "control" and copied.bells() == 0
        copied.feed(b";5Hmore")
        assert not copied.same_state(terminal)
        copied.close()
    assert terminal.text().startswith("text\n")
    terminal.close()
    with pytest.raises(vt220.Closed):
        copy.copy(terminal)


def test_rows_read_twice_are_the_reader_s_own():
    terminal = vt220.Terminal()
    terminal.feed(b"ab")
    terminal.row(1).clear()
    assert [cell.glyph for cell in terminal.row(1)[:3]] == ["a", "b", " "]


def test_the_cell_is_laid_out_as_in_the_header():
    assert ctypes.sizeof(vt220._Cell) == 12


def test_a_terminal_of_another_size():
    terminal = vt220.Terminal(terminal="xterm", rows=40, columns=120)
    terminal.feed(b"\033[40;118Hend")
    assert (terminal.rows(), terminal.width(), len(terminal.row(40)), terminal.stops()[-1]) == (40, 120, 120, 113)
    assert terminal.text().count("\n") == 40 and terminal.row_text(40).endswith("end\n")
    with pytest.raises(vt220.NoRow):
        terminal.row(41)
    terminal.resize(255, 255)
    other = vt220.Terminal(terminal="xterm", rows=255, columns=255)
    other.feed(terminal.repaint())
    assert other.same_state(terminal) and terminal.copy().same_state(terminal) and "</svg>" in terminal.picture()
    assert terminal.feed_log(b"\n" * 300)[1].count("\n") == 85


def test_two_sizes():
    small, large = vt220.Terminal(), vt220.Terminal(rows=25, columns=80)
    for call in (small.copy_from, small.update, lambda to: small.changed(to, 1)):
        with pytest.raises(vt220.OtherSize):
            call(large)
    assert large.draw(small) == large.draw()
    for size in ((1, 80), (256, 80), (24, 1), (24, 256)):
        with pytest.raises(vt220.NoSize):
            vt220.Terminal(rows=size[0], columns=size[1])
        with pytest.raises(vt220.NoSize):
            small.resize(*size)


def test_a_thread_draws_two_sizes_in_turn():
    small, large = vt220.Terminal(), vt220.Terminal(rows=50, columns=200)
    for _ in range(3):
        assert small.text().count("\n") == 24 and large.text().count("\n") == 50
