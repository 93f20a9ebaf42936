"""The directory of the sockets, and what is in it that isn't the keeper's own."""
import stat

from sessions import *


def test_folder():
    keep("list")
    assert stat.S_IMODE(FOLDER.stat().st_mode) == 0o700, "the folder is made with mode 0700"
    for mode in (0o755, 0o770, 0o701, 0o500):
        FOLDER.chmod(mode)
        done = keep("list")
        assert done.returncode == 1 and "it must have mode 700" in done.stderr, f"mode {mode:o} is refused"
    FOLDER.chmod(0o700)
    (ROOM / "link").symlink_to(FOLDER)
    for path in ("link", "link/", "link/.", "link//./", "vt220-keep", "none/there"):
        assert keep("list", env=ENVIRONMENT | {"KEEP_DIR": f"{ROOM}/{path}"}).returncode == 1, f"the folder {path} is refused"
    deep = ROOM / ("long-" * 30)
    given = {"env": ENVIRONMENT | {"KEEP_DIR": str(deep)}}
    assert keep("new", "x", "cat", **given).returncode == 0 and keep("kill", "x", **given).returncode == 0, "a folder whose path is long"
    deeper = deep.joinpath(*["deep-" * 30] * 4)
    deeper.mkdir(parents=True)
    deeper.chmod(0o755)
    assert "it must have mode 700" in keep("list", env=ENVIRONMENT | {"KEEP_DIR": str(deeper)}).stderr, "a reason is whole, however long the path"
    usual = {name: value for name, value in ENVIRONMENT.items() if name != "KEEP_DIR"}
    path = pathlib.Path(f"/tmp/keep-{os.geteuid()}")
    lock = os.open("/tmp", os.O_RDONLY)
    fcntl.flock(lock, fcntl.LOCK_EX)  # another run of this test makes and removes the same folder
    was_there = path.exists()
    assert keep("list", env=usual).returncode == 0 and stat.S_IMODE(path.stat().st_mode) == 0o700, "the usual folder"
    if not was_there:
        with contextlib.suppress(OSError):  # somebody has a session there by now
            (path / BOOT).rmdir()
            path.rmdir()
    os.close(lock)
    masked = ROOM / "masked"
    given = {"env": ENVIRONMENT | {"KEEP_DIR": str(masked)}, "preexec_fn": lambda: os.umask(0o177)}
    assert keep("list", **given).returncode == 0 and keep("list", **given).returncode == 0, "the folder is made right under any umask"


def test_users():
    """Another user's folder, and clients of another user, root among them."""
    if os.geteuid() != 0:
        return
    nobody = 65534
    other = ROOM / "others"
    other.mkdir(0o700)
    os.chown(other, nobody, nobody)
    given = {"env": ENVIRONMENT | {"KEEP_DIR": str(other)}}
    done = keep("list", **given)
    assert done.returncode == 1 and "another user" in done.stderr, "another user's folder is refused"
    assert keep("new", "x", "cat", user=nobody, group=nobody, extra_groups=[], cwd="/", **given).returncode == 0, "another user's session"
    assert "cat" in keep("list", user=nobody, group=nobody, extra_groups=[], cwd="/", **given).stdout, "he sees it"
    with contextlib.chdir(other) if hasattr(contextlib, "chdir") else contextlib.nullcontext():
        peer = socket.socket(socket.AF_UNIX)
        peer.connect(str(other / BOOT / "x"))
        peer.settimeout(PATIENCE)
        assert peer.recv(5) == b"F\0\0\0\0" and peer.recv(1) == b"", "its keeper lets no other user in, not even root"
        peer.close()
    closed = ROOM / "closed"
    closed.mkdir(0o700)
    os.chown(closed, nobody, nobody)
    script = f"chmod 0 {closed}; cd -P .; {KEEP} new far cat && {KEEP} kill far"
    done = subprocess.run(["sh", "-c", script], user=nobody, group=nobody, extra_groups=[], cwd=closed, **given, capture_output=True)
    assert done.returncode == 0, "a working folder that can't be searched"
    assert keep("kill", "x", user=nobody, group=nobody, extra_groups=[], cwd="/", **given).returncode == 0, "he ends it"
    assert keep("list", user=nobody, group=nobody, extra_groups=[], cwd="/").returncode == 1, "nobody else gets into the folder"


def test_foreign():
    """Nothing is removed that isn't a session's socket, whatever its name is."""
    home = ROOM / "foreign"
    given = {"env": ENVIRONMENT | {"KEEP_DIR": str(home), "KEEP_LINGER": "0"}}
    keep("list", **given)
    for place in (home, home / BOOT):
        place.mkdir(0o700, parents=True, exist_ok=True)
        (place / "notes").write_text("the only copy")
        os.mkfifo(place / "pipe")
        (place / "link").symlink_to("notes")
        (place / "folder").mkdir()
        for name in ("notes", "pipe", "link", "folder"):
            keep("new", name, "true", **given)
            wait(lambda: not (home / BOOT / name).is_socket(), "a session of a short command ends")
            keep("new", name, "no-such-command", **given)
        keep("list", **given)
        assert (place / "notes").exists() and (place / "notes").read_text() == "the only copy", f"a file stays, in {place.name}"
        assert (place / "pipe").is_fifo() and (place / "link").is_symlink() and (place / "folder").is_dir(), f"other files stay, in {place.name}"
    done = keep("new", "notes", "true", **given)
    assert done.returncode == 1 and "isn't a session" in done.stderr, "a file of the name is told"
    assert keep("text", "notes", **given).returncode == 1, "and isn't asked"


def test_machines():
    """A machine that shares the folder: its sockets refuse here, and stay."""
    home = ROOM / "shared"
    given = {"env": ENVIRONMENT | {"KEEP_DIR": str(home)}}
    keep("list", **given)
    other = home / "01234567-89ab-cdef-0123-456789abcdef"
    other.mkdir(0o700)
    sockets = [socket.socket(socket.AF_UNIX) for _ in range(2)]
    sockets[0].bind(str(home / "work"))
    sockets[1].bind(str(other / "work"))
    numbers = [it.stat().st_ino for it in (home / "work", other / "work")]
    assert keep("list", **given).stdout == "", "another machine's session isn't listed"
    assert keep("new", "work", "cat", **given).returncode == 0, "its name can be used here"
    keep("list", **given)
    assert keep("kill", "work", **given).returncode == 0, "and ends here"
    is_there = lambda it, number: it.exists() and it.is_socket() and it.stat().st_ino == number
    assert is_there(home / "work", numbers[0]) and is_there(other / "work", numbers[1]), "its socket stays"


def test_taken_away():
    """Sockets that were removed are made again, and no other session's is removed."""
    new("taken", "cat")
    pid = keeper("taken")
    (SOCKETS / "taken").unlink()
    os.kill(pid, signal.SIGUSR1)
    wait(lambda: (SOCKETS / "taken").is_socket() and listed("taken"), "SIGUSR1 makes a socket again")
    (SOCKETS / "taken").unlink()
    wait(lambda: listed("taken") is not None, "list has it made again")
    (SOCKETS / "taken").unlink()
    wait(lambda: keep("text", "taken").returncode == 0, "and so has any other command")
    assert keep("new", "taken", "cat").returncode == 1, "its name stays its own"
    shutil.rmtree(FOLDER)
    wait(lambda: listed("taken") is not None and keep("text", "taken").returncode == 0, "the whole folder is made again")
    (SOCKETS / "taken").unlink()
    impostor = socket.socket(socket.AF_UNIX)
    impostor.bind(str(SOCKETS / "taken"))
    impostor.listen()
    os.kill(pid, signal.SIGUSR1)
    wait(lambda: any(it.name.startswith("taken.") for it in SOCKETS.iterdir()), "if the name has gone to another, it has a longer one")
    longer = next(it.name for it in SOCKETS.iterdir() if it.name.startswith("taken."))
    wait(lambda: keep("kill", longer).returncode == 0, f"{longer} ends")
    assert (SOCKETS / "taken").is_socket(), "the other one's socket stays when it ends"
    impostor.close()  # which answers nobody
    new("gone", "cat")
    pid = keeper("gone")
    (SOCKETS / "gone").unlink()
    impostor = socket.socket(socket.AF_UNIX)
    impostor.bind(str(SOCKETS / "gone"))
    impostor.listen()
    os.kill(pid, signal.SIGTERM)
    wait(lambda: not pathlib.Path(f"/proc/{pid}/cwd").exists(), "a keeper ends whose name another one took")
    assert (SOCKETS / "gone").is_socket(), "that one's socket stays, too"
    impostor.close()
    bystander = subprocess.Popen(["sleep", "infinity"], cwd=SOCKETS)
    keep("list")
    assert bystander.poll() is None, "who only is in that folder gets no signal"
    bystander.kill()
    bystander.wait()


def test_lock():
    """A list that can't print keeps nobody from the folder."""
    for name in ("a", "b"):
        new(name, "cat")
    reader, writer = os.pipe()
    fcntl.fcntl(writer, 1031, 4096)
    os.set_blocking(writer, False)
    with contextlib.suppress(BlockingIOError):
        while True:
            os.write(writer, b"x" * 64)
    os.set_blocking(writer, True)
    waiting = subprocess.Popen([KEEP, "list"], stdout=writer, env=ENVIRONMENT)
    wait(lambda: "pipe_write" in pathlib.Path(f"/proc/{waiting.pid}/wchan").read_text(), "a list waits to print")
    assert keep("new", "c", "cat", env=ENVIRONMENT | {"KEEP_PATIENCE": "60"}).returncode == 0, "a new session while a list waits to print"
    os.close(writer)
    os.close(reader)
    waiting.wait()


def test_locked():
    """Who holds the lock of the folder stops no keeper: a renaming waits for it, and all else goes on."""
    new("held", "cat")
    new("brief", "cat", **SHORT)
    client, folder = Raw("held", b"n"), os.open(SOCKETS, os.O_RDONLY)
    fcntl.flock(folder, fcntl.LOCK_EX)
    client.send(b"N", b"freed")
    wait(lambda: struct.unpack("i", fcntl.ioctl(client.socket, termios.TIOCOUTQ, bytes(4)))[0] == 0, "the keeper has read the new name")
    assert keep("send", "held", "typed").returncode == 0, "the session takes keys"
    wait(lambda: lines("held")[:1] == ["typed"], "and shows its screen")
    refused = "vt220-keep: brief: another vt220-keep holds the lock of the directory\n"
    wait(lambda: keep("rename", "brief", "long").stderr == refused, "after a while it is refused")
    fcntl.flock(folder, fcntl.LOCK_UN)
    assert client.frame()[0] == b"A" and listed("freed"), "then it has the new name"
    client.close()
    client, pid = Raw("freed", b"a"), keeper("freed")
    fcntl.flock(folder, fcntl.LOCK_EX)
    (SOCKETS / "freed").unlink()
    os.kill(pid, signal.SIGUSR1)
    client.keys(b"Y")
    wait(lambda: b"Y" in client.frame()[1], "a socket that was taken away waits for the lock, too")
    os.close(folder)
    wait(lambda: (SOCKETS / "freed").is_socket(), "and is made again")
    client.close()
    wait(lambda: listed("freed"), "and listens")
