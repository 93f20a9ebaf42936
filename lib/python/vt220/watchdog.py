"""Finds what commands left, and ends it. As a program it does so when its input ends, which only the process that started it holds open.

Each line of that input is the number of a session that was begun, or after a minus sign of one that has been ended.
"""
import os
import signal
import sys
import time
from typing import Container, Dict, List, Set

MARK = "VT220_RIG"


def left(mark: str, sessions: Container[int]) -> List[int]:
    """Returns the processes of these sessions, those whose mark begins with `mark`, and those that any of them started."""
    parents: Dict[int, int] = {}
    found: Set[int] = set()
    variable = f"{MARK}={mark}".encode()
    for name in filter(str.isdigit, os.listdir("/proc")):
        marked = False
        try:
            with open(f"/proc/{name}/stat", "rb") as file:
                state, parent, _, session = file.read().rpartition(b")")[2].split()[:4]
            if state in (b"Z", b"X"):
                continue
            parents[int(name)] = int(parent)
            with open(f"/proc/{name}/environ", "rb") as file:
                marked = any(one.startswith(variable) for one in file.read().split(b"\0"))
        except OSError:
            if int(name) not in parents:
                continue
        if marked or int(session) in sessions:
            found.add(int(name))
    while True:
        more = {pid for pid, parent in parents.items() if parent in found and pid not in found}
        if not more:
            return sorted(found)
        found |= more


def end(mark: str, sessions: Container[int]) -> None:
    """Kills these processes until none of them is left."""
    for turn in range(100):
        found = left(mark, sessions)
        if not found:
            return
        for pid in found:
            try:
                os.kill(pid, signal.SIGKILL)
            except (ProcessLookupError, PermissionError):
                pass
        time.sleep(0.001 * turn)  # until the killed ones are gone


def main() -> None:
    """Waits for the end of the input, and ends what is left then."""
    for number in (signal.SIGHUP, signal.SIGINT, signal.SIGTERM, signal.SIGQUIT):
        signal.signal(number, signal.SIG_IGN)
    sessions: Set[int] = set()
    for line in sys.stdin:
        number_read = int(line)
        if number_read > 0:
            sessions.add(number_read)
        else:
            sessions.discard(-number_read)
    end(sys.argv[1], sessions)


if __name__ == "__main__":
    main()
