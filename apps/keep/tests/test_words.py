"""What the keeper's words say and refuse, and what they tell of sessions."""
import stat

import pytest
from sessions import *


def test_words():
    for given in ([], ["new"], ["attach"], ["text"], ["other"], ["text", "a", "b"], ["list", "-z"], ["rename", "a"], ["new", "x", "--"]):
        assert keep(*given).returncode == 2, f"{given} is refused"
    for name in ("", ".x", "-x", "a/b", "..", "a b", "x" * 65, "ä"):
        assert keep("new", name, "true").returncode == 2, f"the name {name!r} is refused"
    assert "attach [-r] NAME" in keep("--help").stdout, "help"
    for word in ("attach", "detach", "text", "log", "repaint"):
        done = keep(word, "nobody")
        assert done.returncode == 1 and done.stderr == "vt220-keep: no such session: nobody\n", f"{word} of no session"
    assert keep("list").stdout == "", "no session is listed"
    done = keep("new", "x", "no-such-command")
    assert done.returncode == 127 and "no-such-command: No such file" in done.stderr, "a command that isn't there"
    (ROOM / "plain").write_text("")
    assert keep("new", "x", str(ROOM / "plain")).returncode == 126, "a command that can't be run"
    assert keep("list").stdout == "" and not any(SOCKETS.iterdir()), "nothing is left of these"


def test_help_words():
    for given in (["--help"], ["-h"], ["help"], ["text", "--help"], ["new", "-h"]):
        done = keep(*given)
        assert done.returncode == 0 and done.stdout.startswith("usage: vt220-keep new") and done.stderr == "", f"{given} helps"
    for given in (["--version"], ["version"]):
        done = keep(*given)
        assert done.returncode == 0 and done.stdout == f"vt220-keep {VERSION}\n", f"{given}"
    for given, said in ((["bogus"], "unknown command 'bogus'"), (["new", "x"], "new: an argument is missing"), (["list", "x"], "list: unexpected argument 'x'"),
                        (["list", "--wide"], "list: unknown option '--wide'"), (["new", "../x", "cat"], "invalid session name '../x'"),
                        (["text", "../x"], "invalid session name '../x'")):
        done = keep(*given)
        assert done.returncode == 2 and done.stderr.startswith("vt220-keep: " + said), f"{given} says {said}"


def test_names():
    new("one", "cat")
    done = keep("new", "one", "cat")
    assert done.returncode == 1 and "already" in done.stderr, "a name is used once"
    assert stat.S_IMODE((SOCKETS / "one").stat().st_mode) & 0o77 == 0, "the socket is the user's own"
    shell("two", "sleep infinity # \033[31m")
    assert listed("two")[3] == "sh -c sleep infinity # ?[31m", "a command's words are listed without controls"
    assert [line.split()[0] for line in keep("list").stdout.splitlines()] == ["one", "two"], "both are listed"
    os.kill(keeper("one"), signal.SIGKILL)
    wait(lambda: listed("one") is None and not (SOCKETS / "one").exists(), "a killed keeper isn't listed, and its socket goes")
    os.kill(keeper("two"), signal.SIGKILL)
    wait(lambda: keep("new", "two", "cat").returncode == 0, "a killed keeper's name can be used again")
    stopped = keeper("two")
    os.kill(stopped, signal.SIGSTOP)
    assert "doesn't answer" in keep("list", env=ENVIRONMENT | SHORT).stdout, "a stopped keeper doesn't answer"
    os.kill(stopped, signal.SIGCONT)


def test_listing():
    before = int(time.time())
    new("listed", "cat")
    line = row("listed")
    assert line["state"] == "running" and line["rows"] == "24" and line["ended"] == "-" and line["status"] == "-", "the list for scripts"
    assert before <= int(line["began"]) <= time.time(), "its start"
    day = time.strftime("%Y-%m-%d", time.localtime(int(line["began"])))
    assert re.fullmatch(rf"listed +80x24 +0 attached +\d+ +{day} \d\d:\d\d  cat\n", keep("list").stdout), "the list for the eye"


def test_renamed():
    new("first", "cat")
    new("second", "cat")
    done = keep("rename", "first", "second")
    assert done.returncode == 1 and "already exists" in done.stderr, "a name that is used can't be taken"
    assert keep("rename", "first", "../x").returncode == 2, "nor one that is none"
    outer = Terminal("attach", "first", shows=b"\033[?25h")
    assert keep("rename", "first", "third").returncode == 0 and listed("first") is None and attached("third") == 1, "rename"
    outer.close()
    (SOCKETS / "third").unlink()
    wait(lambda: listed("third") is not None, "its socket has the new name from then on")
    assert keep("new", "first", "cat").returncode == 0, "the old name is free"


def test_unsent():
    """What `send` says when it can't send: the reason is that of the session, whatever other calls have failed since."""
    keep("list")
    send = lambda name, **more: (lambda done: (done.returncode, done.stderr))(keep("send", name, "x", **more))
    gone = (1, "vt220-keep: no such session: nobody\n")
    assert send("nobody") == gone, "no such session"
    few = [subprocess.run(["sh", "-c", f"ulimit -n {limit}; exec {KEEP} send nobody x"], env=ENVIRONMENT, capture_output=True, text=True) for limit in range(4, 16)]
    said = {(done.returncode, done.stderr) for done in few}
    assert gone in said and all("nobody" not in words for _, words in said - {gone}), f"the same if the search for its keeper fails: {said}"
    (SOCKETS / "file").write_text("")
    assert send("file") == (1, "vt220-keep: file: isn't a session\n"), "a file of its name"
    new("killed", "cat")
    os.kill(keeper("killed"), signal.SIGKILL)
    wait(lambda: send("killed") == (1, "vt220-keep: no such session: killed (its keeper was killed)\n"), "a killed keeper")
    folder = os.open(SOCKETS, os.O_RDONLY)
    fcntl.flock(folder, fcntl.LOCK_EX)
    assert keep("list", env=ENVIRONMENT | SHORT).stdout == "", "which isn't listed, also while the directory is locked"
    os.close(folder)
    repaint, hello = frame(b"H", b"\1\1\1\0" + b"0.2.0") + frame(b"A"), frame(b"H", b"\1\1\1\0" + b"0.2.0")
    for what, reply, is_so, settings in (
        ("has no place for it", frame(b"F"), "peer takes no more clients", {}),
        ("says nothing", b"", "peer doesn't answer", SHORT),
        ("takes no keys", hello, "peer takes no keys", SHORT),
        ("refuses the keys", hello + frame(b"R", b"x"), "peer takes no keys", {}),
        ("has ended its command", frame(b"H", b"\1\1\1\1" + b"0.2.0"), "the command of peer has ended", {}),
        ("is a later one", frame(b"H", b"\0\10\11\0" + b"0.9x"), "peer is kept by keep 0.9x, which speaks protocol 8 to 9; this one speaks 1 to 7", {}),
    ):
        # With little patience the command may give up before this test has replied, so it is asked again.
        done = []
        asked = lambda: done.append(replied(["send", "peer", "x"], repaint, reply, **settings)) or done[-1] == (1, f"vt220-keep: {is_so}\n")
        assert until(asked) if settings else asked(), f"a keeper that {what}: {done[-1]}"
    done = replied(["send", "peer", "x"], repaint, hello, is_gone=True)
    assert done == (1, "vt220-keep: no such session: peer\n"), f"a keeper that ends meanwhile: {done}"
    (SOCKETS / "file").unlink()
    new("reads", "cat")
    file = os.open("/", os.O_RDONLY)
    assert keep("send", "reads", stdin=file).stderr == "vt220-keep: standard input: Is a directory\n", "an input that can't be read"


@pytest.mark.parametrize("options, wanted", [([], ""), (["--encoding=dec"], "C"), (["--locale=de_DE"], "de_DE"), (["--locale=", "--encoding=dec"], ""), (["--locale=C"], "C")])
def test_environment(options, wanted):
    settings = {"LANG": "de_DE.UTF-8", "COLORTERM": "truecolor", "TERMCAP": "x", "STY": "1.x", "TMUX": "a,b,c", "TERM_PROGRAM": "iTerm", "LINES": "50"}
    given = {"env": {name: value for name, value in ENVIRONMENT.items() if name != "LC_ALL"} | settings}
    names = "$LC_ALL,$TERM,$LANG,${COLORTERM-},${TERMCAP-},${STY-},${TMUX-},${TERM_PROGRAM-},${LINES-},$KEEP_SESSION"
    assert keep("new", *options, "env", "sh", "-c", f"echo {names}; exec cat", **given).returncode == 0, "new"
    wait(lambda: lines("env")[:1] == [f"{wanted},vt220,de_DE.UTF-8,,,,,,,env"], "the environment")


def test_completions():
    """What bash completes."""
    new("one", "cat")
    new("other", "cat")
    source = TOP / "packaging/completions/vt220-keep.bash"
    environment = ENVIRONMENT | {"PATH": f"{ROOM}:{ENVIRONMENT['PATH']}"}
    for typed, wanted in ((["at"], "attach"), (["attach", ""], "one other"), (["attach", "ot"], "other"), (["attach", "-"], "-h --help -r"),
                          (["send", "-l", "on"], "one"), (["send", "one", "PF"], "PF1 PF2 PF3 PF4"), (["new", "x", "printenv"], "printenv"), (["list", "--t"], "--tsv")):
        words = " ".join(f"'{word}'" for word in ["vt220-keep", *typed])
        script = f"source {source}; compopt() {{ :; }}; COMP_WORDS=({words}); COMP_CWORD={len(typed)}; _vt220_keep; echo ${{COMPREPLY[*]}}"
        done = subprocess.run(["bash", "-c", script], env=environment, capture_output=True, text=True)
        assert done.stdout.strip() == wanted, f"{typed} completes to {wanted}: {done.stdout}{done.stderr}"
