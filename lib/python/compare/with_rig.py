"""Searches a word in less: the test with vt220.rig."""
import sys

from vt220.rig import ENTER, run


def test(keys, **options):
    with run("less", "notes.txt", timeout=1, **options) as less:
        less.wait("notes.txt", row=24)
        less.keys(*keys)
        less.wait(lambda screen: screen.at("terminal").reverse)
        less.matches("less-search")


if __name__ == "__main__":
    test(["/terminal"] + [ENTER] * ("fail" not in sys.argv), update="store" in sys.argv)
