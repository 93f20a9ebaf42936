"""Holds one test for each of six real programs. Each is a function of `run`, which starts a rig, and of an empty directory."""
import pathlib

from vt220.rig import DELETE, DOWN, ENTER, ESCAPE, F7, F10, LEFT, UP, Key, Rig, ctrl

SCREENS = pathlib.Path(__file__).parent / "screens"


def less(run, directory):
    """Searches a text, whose place is then in reverse, and goes back to the first line."""
    (directory / "notes.txt").write_text("".join(f"line {number}{' the terminal' if number == 40 else ''}\n" for number in range(1, 61)))
    rig = run("less", "notes.txt", cwd=directory, env={"LESSHISTFILE": "-"})
    rig.wait("notes.txt", row=24)
    rig.keys("/", "terminal", ENTER)
    rig.wait(lambda screen: screen.at("terminal").reverse)
    rig.matches("less-search")
    rig.keys("g")
    rig.wait("^line 1$", row=1)
    rig.keys("q")
    rig.ended()


def vi(run, directory):
    """Writes two lines, changes the first one, and stores them."""
    rig = run("vim", "-u", "NONE", "-i", "NONE", "-N", "-n", "letter", cwd=directory)
    rig.wait("letter.*New", row=24)
    rig.keys("i", "Dear Eva,", ENTER, "goodbye")
    rig.wait("^Dear Eva,$", row=1)
    rig.wait("^goodbye$", row=2)
    rig.keys(ESCAPE)
    rig.wait(lambda screen: not screen.at("INSERT"))
    rig.keys(UP, "0wcw")
    rig.wait("INSERT", row=24)
    rig.keys("Anna", ESCAPE)
    rig.wait(lambda screen: not screen.at("INSERT"))
    rig.matches("vi-letter")
    rig.keys(":wq", ENTER)
    rig.ended()
    assert (directory / "letter").read_text() == "Dear Anna,\ngoodbye\n"


def top(run, directory):
    """Shows the whole command of one process, then the help, and goes back."""
    rig = run("sh", "-c", "exec top -d 0.3 -p $$", env={"HOME": str(directory)})
    rig.wait(lambda screen: screen.at("COMMAND").reverse)
    rig.wait("top$", row=8)
    rig.keys("c")
    rig.wait("top -d 0", row=8)
    rig.keys("h")
    rig.wait("Help for Interactive Commands", row=1)
    rig.keys("q")
    rig.wait(lambda screen: screen.at("COMMAND").reverse)
    rig.keys("q")
    rig.ended()


def dialog(run, directory):
    """Chooses the third entry of a menu with the cursor keys, which follow the mode that the program sets."""
    command = "exec dialog --output-fd 3 --menu Colours 12 40 4 1 Red 2 Green 3 Blue 3>chosen"
    rig = run("sh", "-c", command, cwd=directory)
    rig.wait("Blue")
    rig.keys(DOWN, DOWN)
    rig.matches("dialog-menu")
    rig.keys(ENTER)
    rig.ended()
    assert (directory / "chosen").read_text() == "3"


def mc(run, directory):
    """Makes a directory in the left panel by F7, and leaves by F10."""
    for name in ("home", "left", "right"):
        (directory / name).mkdir()
    rig = run("mc", "-u", "-b", "-X", str(directory / "left"), str(directory / "right"), cwd=directory / "left", env={"HOME": str(directory / "home")})
    rig.wait("10Quit", row=24)
    rig.keys(F7)
    rig.wait("Create a new Directory")
    rig.keys("letters")
    rig.wait("letters")
    rig.keys(ENTER)
    rig.wait("/letters")
    rig.keys(F10)
    rig.ended()
    assert (directory / "left" / "letters").is_dir()


def shell(run, directory):
    """Edits a line in its middle, takes it back from the history, and changes its end."""
    rig = run("bash", "--norc", "--noprofile", "-i", cwd=directory, env={"PS1": "$ ", "HISTFILE": "", "HOME": str(directory), "INPUTRC": "/dev/null"})
    rig.wait(cursor=(1, 3))
    rig.keys("echo hel world", LEFT, LEFT, LEFT, LEFT, LEFT, LEFT, "lo")
    rig.wait("^\\$ echo hello world$", row=1)
    rig.keys(ENTER)
    rig.wait("^hello world$", row=2)
    # The line edits itself until bash shows its prompt; then bash does.
    rig.wait(cursor=(3, 3))
    rig.keys(UP, DELETE, DELETE, "k", ctrl("a"), ctrl("d"), "E")
    rig.wait("^\\$ Echo hello work$", row=3)
    rig.matches("shell-line")
    rig.keys(ENTER)
    rig.wait("^bash: Echo: command not found$", row=4)
    rig.wait(cursor=(5, 3))
    rig.keys("exit", ENTER)
    rig.ended(127)


PROGRAMS = {"less": less, "vi": vi, "top": top, "dialog": dialog, "mc": mc, "shell": shell}


class Forgetful(Rig):
    """Leaves out one of the keys that a test presses: the one of this number, from 0. `pressed` counts them."""

    def __init__(self, argv, left_out, **options):
        self.left_out, self.pressed = left_out, 0
        super().__init__(argv, **options)

    def keys(self, *keys):
        __tracebackhide__ = True
        each = [one for key in keys for one in ([key] if isinstance(key, Key) else key)]
        at = self.left_out - self.pressed
        self.pressed += len(each)
        super().keys(*(key for number, key in enumerate(each) if number != at))
