#!/usr/bin/env python3
"""run_document.py FILE [HEADING..]: runs the commands of a document as they stand, one after another in one shell.

A command is a line that begins with '$ ' in a block 'console' of Markdown, or in a literal display of a manual page. The lines below it
are what it prints. With HEADING, only the commands of these sections are run. They are run in the working directory. Each gives a line:
'ok COMMAND' or 'not ok COMMAND: WHY'. The exit status is 1 if one fails, or if there is none.
"""
import os
import pathlib
import re
import select
import shlex
import subprocess
import sys

PATIENCE = 600  # seconds without output, after which a command hangs


def markdown_blocks(text):
    """Returns the blocks of code of a Markdown text: the heading above each, its language, and its lines."""
    heading, language = "", None
    for line in text.splitlines(keepends=True):
        if language is None and line.startswith("```"):
            language, block = line[3:].strip(), ""
        elif language is None and line.startswith("#"):
            heading = line.strip("# \n")
        elif language is not None and line.startswith("```"):
            yield heading, language, block
            language = None
        elif language is not None:
            block += line


def blocks(path, *headings):
    """Returns the blocks of commands of a Markdown file or of a manual page. With headings, only those of these sections."""
    text = pathlib.Path(path).read_text()
    if pathlib.Path(path).suffix == ".md":
        return [block for heading, language, block in markdown_blocks(text) if language == "console" and (not headings or heading in headings)]
    displays = re.findall(r"^\.Bd -literal[^\n]*\n(.*?)^\.Ed$", text, re.M | re.S)
    return [block.replace(r"\e", "\\") for block in displays if block.startswith("$ ")]


def commands(block):
    """Returns the commands of a block, each with the lines below it."""
    for entry in re.split(r"^\$ ", block, flags=re.M)[1:]:
        command, *output = entry.rstrip("\n").split("\n")
        while command.endswith("\\") and output:
            command += "\n" + output.pop(0)
        yield command, output


class Shell:
    """A shell that keeps its directory and its variables from one command to the next."""

    def __init__(self, directory=".", environment=None):
        self.process = subprocess.Popen(
            ["bash"], cwd=directory, env=environment, stdin=subprocess.PIPE, stdout=subprocess.PIPE, stderr=subprocess.STDOUT)

    def run(self, command):
        """Runs a command. Returns its exit status, or None if it hangs or ends the shell, and the lines that it printed."""
        self.process.stdin.write(f"eval {shlex.quote(command)} </dev/null; printf '\\036%d\\036' $?\n".encode())
        self.process.stdin.flush()
        said = b""
        while said.count(b"\x1e") < 2:
            ready = select.select([self.process.stdout], [], [], PATIENCE)[0]
            read = os.read(self.process.stdout.fileno(), 65536) if ready else b""
            if not read:
                return None, said.decode(errors="replace").split("\n")
            said += read
        printed, status, _ = said.split(b"\x1e")
        return int(status), printed.decode(errors="replace").rstrip("\n").split("\n")

    def close(self):
        """Ends the shell."""
        self.process.kill()
        self.process.communicate()


def fault(shell, command, output):
    """Runs a command. Returns what is wrong, or nothing if it succeeds and prints these lines. Without lines it may print any."""
    status, printed = shell.run(command)
    if status != 0:
        return f"status {status}: {printed}"
    if output and printed != output:
        return f"it prints {printed}, and not {output}"
    return ""


def main():
    if len(sys.argv) < 2:
        sys.exit(__doc__)
    entries = [entry for block in blocks(*sys.argv[1:]) for entry in commands(block)]
    shell = Shell()
    faults = [(command, fault(shell, command, output)) for command, output in entries]
    shell.close()
    for command, wrong in faults:
        line = command.split("\n")[0]
        print(f"not ok {line}: {wrong}" if wrong else f"ok {line}")
    return 1 if not faults or any(wrong for _, wrong in faults) else 0


if __name__ == "__main__":
    sys.exit(main())
