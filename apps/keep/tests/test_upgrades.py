"""A keeper becomes another program while its command runs. The other program is a copy of the keeper. A test that needs one that waits, changes the
state or fails passes a shell, which finds a script named `resume`."""
import threading

import pytest
from sessions import *


def played(frames):
    """The text of a client's terminal, by what was sent to it."""
    return plays(b"".join(content for letter, content in frames if letter == b"P"))


def kept(name):
    """What must be the same after a keeper was replaced."""
    return keep("log", name).stdout, repaint(name), keep("list").stdout


def test_goes_on():
    """The screen, the log, the clients, the keys and the end."""
    shell("work", "seq 1 100; printf '\\033[1mbold\\033[m \\033[?1h\\0337'; cat; exit 7")
    wait(lambda: "bold" in text("work"), "a program")
    outer, reader = Outer("work"), Outer("work", words="attach -r")
    outer.follows("work", "before")
    reader.follows("work", "before, only shown")
    old = Raw("work", b"a")
    frames = [old.frame()]
    before = kept("work")
    replaced("work")
    assert kept("work") == before, "the screen, the log and the clients are as they were"
    outer.keys("typed", "Enter")
    wait(lambda: text("work").count("typed") == 2, "keys of a client that was attached before")
    outer.follows("work", "after")
    reader.follows("work", "after, only shown")
    wait(lambda: frames.append(old.frame()) or played(frames) == text("work"), "a client of version 1 gets what leads to the screen")
    replaced("work", KEEP)
    outer.keys("again", "Enter")
    wait(lambda: text("work").count("again") == 2, "keys after it went back to the first program")
    outer.follows("work", "after it went back")
    (SOCKETS / "work").unlink()
    wait(lambda: listed("work") is not None, "its socket is made again")
    replaced("work")
    assert keep("rename", "work", "other").returncode == 0 and attached("other") == 3, "it is renamed"
    replaced("other", KEEP)
    outer.follows("other", "once more")
    outer.keys("C-d")
    outer.is_ended("the end", "vt220-keep: work ended with status 7", "status 7")
    reader.is_ended("the end, only shown", "vt220-keep: work ended with status 7", "status 7")
    old.close()
    wait(lambda: row("other") is None, "it is over")


def test_while_it_writes():
    """No line is lost, comes twice, or is cut."""
    stop = ROOM / "stop"
    shell("writes", f"i=0; while [ ! -e {stop} ] && [ $i -lt 9000 ]; do for x in 0 1 2 3 4 5 6 7 8 9; do i=$((i+1)); printf '\\033[1mline\\033[m %d\\n' $i; done; sleep 0.01; done; echo end $i; read x")
    outer = Outer("writes")
    wait(lambda: "line" in text("writes"), "a program writes")
    for program in [NEWER, KEEP] * 4:
        replaced("writes", program)
    stop.touch()
    wait(lambda: "end" in text("writes"), "it ends to write")
    outer.follows("writes", "a client")
    got = keep("log", "writes").stdout.split("\n")
    count = int(next(line for line in got if line.startswith("end"))[4:])
    assert got[: count + 1] == [f"line {n}" for n in range(1, count + 1)] + [f"end {count}"], "the log has each line once"
    assert not any(got[count + 1 :]), "and nothing more"


def test_keys_and_reports():
    """Each key arrives once, and each report."""
    got, answers = reads("typed", ""), ROOM / "answers"
    wanted = b"".join(b"key %d\n" % n for n in range(30000))
    client = Raw("typed", b"a")
    typing = threading.Thread(target=client.keys, args=[wanted])
    typing.start()
    for program in [NEWER, KEEP] * 4:
        replaced("typed", program)
    typing.join()
    wait(lambda: got.stat().st_size >= len(wanted) and got.read_bytes() == wanted, "each key arrives once, in order")
    client.close()
    end("typed")
    ask = f"for i in 1 2 3 4 5; do printf '\\033[6n'; dd bs=1 count=6 2>/dev/null >>{answers}; done"
    shell("asks", f"stty raw -echo; printf ready; {' '.join([ask + ';'] * 40)} printf 'done'; exec cat >>{answers}")
    wait(lambda: "ready" in text("asks"), "a program that asks")
    for program in [NEWER, KEEP] * 4:
        replaced("asks", program)
    wait(lambda: "done" in text("asks"), "it gets all that it asks for")
    keep("send", "asks", "x")
    wait(lambda: answers.read_bytes() == b"\033[1;6R" * 200 + b"x", "each report once")


LONG = "printf '\\033P'; awk 'BEGIN { for (i = 0; i < 10000; i++) printf \"aaaaaaaaaa\" }'"
INSIDE = (("printf '\\033[3;5'", "Hx", (3, "    x")), ("printf '\\033'", "[3;5Hx", (3, "    x")), ("printf '\\2333;'", "5Hx", (3, "    x")), ("printf '\\033#'", "8", (3, "E" * 80)),
          ("printf '\\033P1;1|17/'", "41\\033\\\\x", (1, "readyx")), ("printf '\\033]0;title\\033'", "\\\\x", (1, "readyx")), ("printf '\\033N'", "a", (1, "readyá")),
          ("printf '\\033[?3'", "hx", (1, "x")), ("printf '\\033[1;3\\030\\033[3'", ";5Hx", (3, "    x")), (LONG, "aaaaaaaaaa\\033\\\\x", (1, "readyx")), (LONG + "; printf '\\033'", "\\\\x", (1, "readyx")))


@pytest.mark.parametrize("first, second, wanted", INSIDE)
def test_inside(first, second, wanted):
    """A keeper is replaced while the command is inside a sequence. What is shown then is as the VT220's manual has it."""
    written = ROOM / "written"
    shell("inside", f"stty -echo; printf ready; {first}; : >{written}; read x; printf '{second}'; read x; exit 5")
    wait(written.exists, "a program inside a sequence")
    wait(lambda: sleeps(keeper("inside")), "its keeper has played that")
    replaced("inside")
    replaced("inside", KEEP)
    keep("send", "inside", "Enter")
    assert until(lambda: len(lines("inside")) == 24 and lines("inside")[wanted[0] - 1] == wanted[1]), f"it goes on: {lines('inside')[:4]}"
    keep("send", "inside", "Enter")
    wait(lambda: has_ended("inside") and row("inside")["status"] == "5", "and ends")
    before = kept("inside")
    assert replace("inside").returncode == 0 and kept("inside") == before, "it is handed over as well when its command has ended"


def test_ends_meanwhile():
    """The command ends while the new program is tried."""
    begun, going, leaving = ROOM / "begun", ROOM / "going", ROOM / "leaving"
    shell("meanwhile", f"while [ ! -e {leaving} ]; do sleep 0.02; done; echo last words; exit 7")
    SCRIPT.write_text(f": >{begun}; while [ ! -e {going} ]; do sleep 0.02; done; exec {NEWER} resume \"$@\"\n")
    pid, command = keeper("meanwhile"), listed("meanwhile")[2]
    client = Raw("meanwhile", b"u", version=3)
    client.upgrade("/bin/sh")
    wait(begun.exists, "the new program is tried")
    leaving.touch()
    wait(lambda: field(command, 3) == "Z", "meanwhile the command ends")
    going.touch()
    assert client.frame() == (b"A", b""), "the keeper becomes the new program"
    client.close()
    wait(lambda: has_ended("meanwhile"), "which sees the end")
    assert program_of(pid) == NEWER, "it is the new program"
    assert row("meanwhile")["status"] == "7" and lines("meanwhile")[:1] == ["last words"], "with the status and the last words"


def test_unfit():
    """Programs that can't go on with the session. The keeper goes on as it is."""
    for name, mode, content in (("plain", 0o600, "text"), ("junk", 0o700, "\x7fELFtext")):
        (ROOM / name).write_text(content)
        (ROOM / name).chmod(mode)
    form = f"printf '\\377' | dd of=/proc/self/fd/$1 bs=1 seek=12 conv=notrunc 2>/dev/null; exec {NEWER} resume \"$@\"\n"
    shorter = f"truncate -s 500 /proc/self/fd/$1; exec {NEWER} resume \"$@\"\n"
    longer = f"printf x >>/proc/self/fd/$1; exec {NEWER} resume \"$@\"\n"
    other = f"printf x | dd of=/proc/self/fd/$1 bs=1 seek=0 conv=notrunc 2>/dev/null; exec {NEWER} resume \"$@\"\n"
    unreadable = b"its state can't be read"
    cases = (("/bin/false", None, b"it ends at once"), ("/bin/sh", "kill -SEGV $$\n", b"it ends at once"), ("/bin/sh", form, b"its state has form 255, and the new program knows the forms 1 to"),
             ("/bin/sh", shorter, unreadable), ("/bin/sh", longer, unreadable), ("/bin/sh", other, unreadable), ("/bin/sh", "echo words >/proc/self/fd/$2\n", b"words"),
             (ROOM / "plain", None, b"Permission denied"), (ROOM / "junk", None, b"Exec format error"), (FOLDER, None, b"Permission denied"))
    shell("unfit", "stty -echo; printf '\\033[1;3'; read x; stty echo; printf '5Hhere'; exec cat")
    pid = keeper("unfit")
    for program, script, why in cases:
        if script is not None:
            SCRIPT.write_text(script)
        letter, reason = passed("unfit", program)
        assert letter == b"R" and why in reason, f"{program} {script} is refused: {letter} {reason}"
        SCRIPT.unlink(missing_ok=True)
    empty = Raw("unfit", b"u", version=3)
    empty.send(b"U")
    assert empty.frame() == (b"R", b"no new program came"), "a program must be passed"
    empty.close()
    assert program_of(pid) == KEEP and keeper("unfit") == pid, "the keeper is what it was"
    files = len(os.listdir(f"/proc/{pid}/fd"))
    keep("send", "unfit", "Enter")
    wait(lambda: lines("unfit")[0].startswith(" " * 34 + "here"), "its command goes on, inside a sequence")
    keep("send", "unfit", "typed", "Enter")
    wait(lambda: text("unfit").count("typed") == 2, "and takes keys")
    assert files <= 9, f"no file is left open: {files}"
    replaced("unfit")


def test_silent():
    shell("hasty", "exec cat", **SHORT)
    wait(lambda: b"it doesn't answer" in passed("hasty", shutil.which("yes"))[1], "a program that doesn't answer is refused")
    wait(lambda: keep("send", "hasty", "goes on").returncode == 0 and "goes on" in text("hasty"), "its keeper goes on")


@pytest.mark.parametrize("limit", range(9, 16))
def test_few_files(limit):
    """With few files a keeper is replaced or refuses, and goes on. With fewer it doesn't begin."""
    if subprocess.run(["sh", "-c", f"ulimit -n {limit}; exec {KEEP} new few cat"], env=ENVIRONMENT, capture_output=True).returncode == 0:
        pid = keeper("few")
        done = replace("few")
        now = program_of(pid)
        assert (done.returncode == 0) == (now == NEWER) and keeper("few") == pid, done.stderr
        keep("send", "few", "goes on")
        wait(lambda: "goes on" in text("few"), "it goes on")


def test_reads_log():
    """A client that reads the log meanwhile gets all of it."""
    shell("read", "seq 100001 130000 | sed 's/$/ and more of the same line, so that it takes long/'; printf ready; read x")
    wait(lambda: "ready" in text("read"), "a program has written")
    wanted = keep("log", "read").stdout
    client = Raw("read", b"g", version=2)
    letter, screen = client.frame()
    assert letter == b"T", "a client begins to read"
    replaced("read")
    got = b""
    while letter in (b"T", b"L"):
        letter, more = client.frame()
        got += more
    assert letter == b"Z" and (got + screen).decode() == wanted, "it gets the whole log"


def test_older():
    """A keeper that can't be replaced, and one that isn't there."""
    status, said = answered("upgrade", b"\2\1\2\0" + b"0.3.0")
    assert status == 1 and "kept by an older vt220-keep, which can't be replaced" in said, "an older keeper can't be replaced"
    done = replace("nobody")
    assert done.returncode == 1 and done.stderr == "vt220-keep: no such session: nobody\n", "upgrade of no session"
    for given in (["resume", "0"], ["resume", "77"]):
        assert keep(*given, stdin=subprocess.DEVNULL).returncode == 1, f"{given} without a state fails"
