"""The protocol, and the places for clients."""
from sessions import *


def test_versions():
    new("now", "cat")
    later = Raw("now", b"", first=b"keep\x09\x09a\0")
    letter, told = later.frame()
    assert letter == b"H" and told[:4] == b"\0\1\7\0" and later.frame() == (b"", b""), "a client of a later version is told which ones are spoken"
    assert told[4:].decode() == VERSION, f"and the keeper's own version: {told[4:]}"
    wide = Raw("now", b"", first=b"keep\x01\x09t\0")
    assert wide.frame()[1][:1] == b"\7" and wide.frame()[0] == b"A", "one that speaks several is served in the highest that both know"
    unknown = Raw("now", b"?")
    assert unknown.frame()[0] == b"R", "what isn't known is refused"
    old = Raw("now", b"", first=b"l")
    assert old.frame() == (b"A", b"is kept by a newer keep\n"), "a client of before the versions gets a line"
    for it in (later, wide, unknown, old):
        it.close()
    hello = b"H" + struct.pack("=I", 8) + b"\0\10\11\0" + b"0.9x"
    for answer, said in ((hello, "is kept by keep 0.9x, which speaks protocol 8 to 9"), (b"A" + bytes(4), "is kept by an older keep")):
        for words in (["text", "peer"], ["list"], ["kill", "peer"]):
            assert said in replied(words, answer)[1], f"{words} says: {said}"


def test_upgraded():
    """A session goes on while its program is replaced, and is served by the old one."""
    new("long", "cat")
    pid, copy = keeper("long"), ROOM / "copy"
    shutil.copy(KEEP, copy)
    copy.replace(KEEP)
    assert program_of(pid).endswith("(deleted)"), "the keeper runs a program that is gone"
    (SOCKETS / "long").unlink()
    wait(lambda: keep("send", "long", "still here").returncode == 0, "it takes keys of the new one, and makes its socket again")
    wait(lambda: lines("long")[:1] == ["still here"], "and shows its screen")
    assert keeper("long") == pid, "it is the same process"


def test_places():
    """Clients that are silent, and those that are attached, keep nobody else out."""
    new("places", "cat")
    idle = [Raw("places", b"", first=b"kee") for _ in range(60)]
    assert keep("text", "places").returncode == 0, "the text while many are silent"
    clients = [Raw("places", b"a") for _ in range(32)]
    assert all(it.frame()[0] == b"P" for it in clients), "32 attached"
    done = Terminal("attach", "places")
    assert done.status() == 1 and b"takes no more clients" in done.read(), "one more is told that it is full"
    assert b"\033[?1049h" not in done.read(), "on the screen itself"
    done.close()
    assert attached("places") == 32 and keep("detach", "places").returncode == 0, "they can be listed and detached"
    assert all(it.frame()[0] == b"D" for it in clients), "all are detached"


def test_crowd():
    new("crowd", "cat")
    clients = [Raw("crowd", b"a") for _ in range(40)]
    letters = [client.frame()[0] for client in clients]
    assert letters.count(b"P") == 32 and letters.count(b"F") == 8, "32 are let in, and 8 told that it is full"
    clients[0].keys(b"all of them\n")
    assert all(client.frame()[0] == b"P" for client in clients[:32]), "all of them get the update"
    for client in clients:
        client.close()
    wait(lambda: attached("crowd") == 0, "all are gone")
    for junk in (b"\xff", b"z"):
        client = Raw("crowd", junk)
        client.close()
    new("hasty", "cat", **SHORT)
    idle = Raw("hasty", b"")
    assert idle.frame() == (b"", b""), "who asks nothing is cut off"
    wait(lambda: keep("kill", "hasty") and row("hasty") is None, "hasty ends")
    wait(lambda: "all of them" in text("crowd"), "the session lives on")
    pasted = Raw("crowd", b"a")
    pasted.keys(b"x" * 79 + b"\n" + b"0123456789\n" * 20000)
    wait(lambda: lines("crowd")[:2] == ["0123456789"] * 2, "much that is pasted goes through")
