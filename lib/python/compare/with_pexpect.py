"""Searches a word in less: the same test with pexpect and pyte, written with equal care."""
import os
import pathlib
import sys
import time

import pexpect
import pyte


class Program:
    def __init__(self, *argv, timeout):
        env = {**os.environ, "TERM": "vt220", "LC_ALL": "C"}
        self.screen, self.timeout = pyte.Screen(80, 24), timeout
        self.stream = pyte.ByteStream(self.screen)
        self.child = pexpect.spawn(argv[0], list(argv[1:]), env=env, dimensions=(24, 80))
        self.child.delaybeforesend = None

    def wait(self, condition):
        end = time.monotonic() + self.timeout
        while not condition(self.screen):
            if time.monotonic() > end:
                raise AssertionError("it didn't come:\n" + "\n".join(self.screen.display))
            try:
                self.stream.feed(self.child.read_nonblocking(65536, timeout=0.1))
            except pexpect.TIMEOUT:
                pass

    def settle(self):
        try:
            while True:
                self.stream.feed(self.child.read_nonblocking(65536, timeout=0.5))
        except pexpect.TIMEOUT:
            pass

    def stored(self):
        lines = [line.rstrip() for line in self.screen.display]
        for row, cells in sorted(self.screen.buffer.items()):
            marks = [(col, cell.bold, cell.underscore, cell.reverse) for col, cell in sorted(cells.items()) if cell.bold or cell.underscore or cell.reverse]
            lines += [f"{row}: {marks}"] if marks else []
        return "\n".join(lines) + f"\ncursor: {self.screen.cursor.y} {self.screen.cursor.x}\n"


def is_reverse(screen, text):
    for row, line in enumerate(screen.display):
        col = line.find(text)
        if col >= 0:
            return all(screen.buffer[row][col + at].reverse for at in range(len(text)))
    return False


def test(keys, store=False):
    less = Program("less", "notes.txt", timeout=1)
    try:
        less.wait(lambda screen: "notes.txt" in screen.display[23])
        less.child.send(keys)
        less.wait(lambda screen: is_reverse(screen, "terminal"))
        path = pathlib.Path("less-search.txt")
        if store:
            less.settle()
            path.write_text(less.stored())
        less.wait(lambda screen: less.stored() == path.read_text())
    finally:
        less.child.close(force=True)


if __name__ == "__main__":
    test("/terminal" + "\r" * ("fail" not in sys.argv), store="store" in sys.argv)
