#!/usr/bin/python3
"""A program for the tests: teller.py PLACE STEPS

Its terminal is raw. In each step it writes a part of PLACE/data, cut anywhere, and asks for a report, which it waits for. What it reads besides is keys. It notes
what it wrote, the reports and the keys in files of PLACE. After as many steps as the pipe PLACE/goal says it waits until there are more. It reads on after the last
one, until a key is q, and ends with 7. It only waits for what comes, so hundreds of them leave a processor for others.
"""
import os
import pathlib
import re
import select
import sys
import tty

PLACE, STEPS = pathlib.Path(sys.argv[1]), int(sys.argv[2])
REPORT = re.compile(rb"(?:\033\[|\x9b)[0-9;?>]*[Rnc]")
files = {name: open(PLACE / name, "ab", buffering=0) for name in ("sent", "reports", "keys", "steps")}
goals, goal, came = os.open(PLACE / "goal", os.O_RDWR), 0, b""


def write(data):
    files["sent"].write(data)
    while data:
        data = data[os.write(1, data) :]


def read(patience=None):
    """Waits for what comes. Returns how many reports came, and whether a key was q."""
    global came, goal
    ready = select.select([0, goals], [], [], patience)[0]
    if goals in ready:
        goal = int(os.read(goals, 4096).split()[-1])
    if 0 in ready:
        came += os.read(0, 65536)
    found = REPORT.findall(came)
    files["reports"].write(b"".join(found))
    keys = REPORT.sub(b"", came)
    cut = min((at for at in (keys.find(b"\033"), keys.find(b"\x9b")) if at >= 0), default=-1)  # the beginning of a report
    came = b"" if cut < 0 else keys[cut:]
    keys = keys if cut < 0 else keys[:cut]
    files["keys"].write(keys)
    return len(found), b"q" in keys


def main():
    tty.setraw(0)
    (PLACE / "ready").touch()
    data, is_over = (PLACE / "data").read_bytes(), False
    for step in range(STEPS):
        while step >= goal:
            is_over = read()[1] or is_over
        write(data[len(data) * step // STEPS : len(data) * (step + 1) // STEPS] + b"\030\033[6n")
        reports = 0
        while not reports:
            reports, ends = read()
            is_over = is_over or ends
        files["steps"].write(b".")
    while not is_over:
        is_over = read()[1]
    read(0)
    return 7


sys.exit(main())
