#!/usr/bin/env python3
"""on_terminal.py COMMAND [KEYS]: runs a command on a terminal, and types keys once it draws: without KEYS, the one that detaches from a session.

Prints what the command printed, and ends with its exit status.
"""
import fcntl
import os
import pty
import select
import signal
import struct
import sys
import termios

PATIENCE = 600  # seconds without output, after which a command hangs


DETACH = b"\x1c"


def on_terminal(command, keys, directory=".", environment=None):
    """Runs a command on a terminal, and types keys when it draws. Returns the exit status and the printed text."""
    process, terminal = pty.fork()
    if process == 0:
        os.chdir(directory)
        os.execvpe("bash", ["bash", "-c", command], environment or os.environ)
    fcntl.ioctl(terminal, termios.TIOCSWINSZ, struct.pack("HHHH", 24, 80, 0, 0))
    said = b""
    while select.select([terminal], [], [], PATIENCE)[0]:
        try:
            read = os.read(terminal, 65536)
        except OSError:  # the command has ended
            break
        said += read
        if keys and b"\x1b" in said:  # it draws, so it reads keys
            os.write(terminal, keys)
            keys = b""
    else:
        os.kill(process, signal.SIGKILL)
    os.close(terminal)
    return os.waitstatus_to_exitcode(os.waitpid(process, 0)[1]), said.decode(errors="replace").replace("\r\n", "\n")


def main():
    if len(sys.argv) not in (2, 3) or sys.argv[1] == "--help":
        sys.exit(__doc__)
    status, said = on_terminal(sys.argv[1], sys.argv[2].encode() if len(sys.argv) == 3 else DETACH)
    print(said, end="")
    return status


if __name__ == "__main__":
    sys.exit(main())
