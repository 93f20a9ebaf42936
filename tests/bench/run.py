#!/usr/bin/env python3
"""tests/bench/run.py: prints the figures of docs/PERFORMANCE.md, as tables in markdown. test_counts.py compares its counts with the page.

First it plays the workloads of tests/bench/workloads.py and the recordings of tests/bench/recordings. For each it prints the best processor time of
TURNS turns as MB/s, and the instructions a byte: those that callgrind counts on 1 MB, less those of an empty input. This is done for
`vt220 status`, `vt220 log` and `vt220 trace`, and in UTF-8 for `status`, also with `--terminal xterm`, and for `log` and `trace`.

Then it prints the instructions of recordings by asciinema in millions, less those of an empty input, and those of their content alone.

Then it prints for each of three screens the bytes and the instructions of one repaint and of one text: those of `repaint` or `text`,
less those of `status` on the same input. One call is too short to be timed. So the calls a second are computed from the
instructions a second of the workload 'addressing, SGR' in this run.

The environment:
  VT220       the program (crates/vt220/out/vt220)
  TURNS       the number of turns (5). With 0 it prints only the instructions a byte, which other work on the machine doesn't change
  MEGABYTES   the size of a timed input (32)
  PEERS       with 1, it also plays the inputs by libvterm, libtsm, the vt100 crate and alacritty_terminal, as far as they are installed
              (Debian: libvterm-dev, libtsm-dev, and what tests/peers/terminals.py names). Each has a screen of 24 lines and 80 columns

Needs valgrind, and the library for C (make lib), which plays the inputs in chunks of 4096 bytes.
"""
import atexit
import functools
import os
import pathlib
import re
import shutil
import subprocess
import sys
import tempfile

import workloads

sys.dont_write_bytecode = True
HERE = pathlib.Path(__file__).resolve().parent
TOP = HERE.parents[1]
MEGABYTE = 1_000_000
CAST_WORDS = ("text", "content", "events")
LENGTH = 500  # of the arguments of a run that is counted, and of its environment
BETWEEN = b"\x18\x1b[m\x1b(B\x1b[r\x1b[?6l\x1b[H\x1b[J"
# Each run is in the folder of `built`. The notes look at the first 4096 bytes of each run, so they would count for more the shorter an input is.
PROGRAMS = {"vt220": ["./vt220", "status", "--quiet"], "log": ["./vt220", "log", "--quiet"], "trace": ["./vt220", "trace", "--quiet"], "C library": ["./c"]}
UTF_8 = {"vt220": [*PROGRAMS["vt220"], "--encoding", "utf-8"], "xterm": [*PROGRAMS["vt220"], "--terminal", "xterm"],
         "log": [*PROGRAMS["log"], "--encoding", "utf-8"], "trace": [*PROGRAMS["trace"], "--encoding", "utf-8"]}
# The tables of workloads: the word in the corner, the programs, and the names of the workloads, and of the directories of recordings.
TABLES = {"workload": (PROGRAMS, workloads.WORKLOADS, {"recordings": "recordings"}),
          "UTF-8": (UTF_8, workloads.UTF_8, {"recordings": "recordings/utf-8", "others": "recordings/others"})}


@functools.cache
def built():
    """Makes a folder with the program, which has the same name in every checkout, and the driver of the library for C. Returns it."""
    folder = pathlib.Path(tempfile.mkdtemp())
    atexit.register(shutil.rmtree, folder)
    (folder / "vt220").symlink_to(pathlib.Path(os.environ.get("VT220", TOP / "crates/vt220/out/vt220")).resolve(strict=True))
    compiled("vt220", f"-I{TOP}/lib/c/include", TOP / "out/libvt220.a").rename(folder / "c")
    return folder


def compiled(name, *words):
    """Builds a driver in C. Returns its path."""
    made = pathlib.Path(tempfile.mkdtemp()) / name
    atexit.register(shutil.rmtree, made.parent)
    subprocess.run(["cc", "-O2", HERE / f"peers/{name}.c", "-o", made, *words], check=True)
    return made


def peers():
    """Builds the drivers of other terminals, and says which of them can't be built. Returns the command of each."""
    sys.path.append(str(TOP / "tests/peers"))
    from terminals import built as in_rust

    found = {}
    makers = {"libvterm": lambda: [compiled("vterm", "-lvterm")], "libtsm": lambda: [compiled("tsm", "-ltsm")],
              "vt100": lambda: [in_rust("vt100"), "80x24"], "alacritty": lambda: [in_rust("alacritty"), "80x24"]}
    for name, make in makers.items():
        try:
            found[name] = [str(word) for word in make()]
        except (OSError, subprocess.CalledProcessError):
            print(f"tests/bench/run.py: {name} isn't installed, so it has no column", file=sys.stderr)
    return found


def spent(command, path):
    """Returns the processor seconds of one run."""
    with open(path, "rb") as source:
        process = subprocess.Popen(command, cwd=built(), stdin=source, stdout=subprocess.DEVNULL, stderr=subprocess.DEVNULL)
        _, status, usage = os.wait4(process.pid, 0)
    process.returncode = os.waitstatus_to_exitcode(status)
    if process.returncode:
        raise subprocess.CalledProcessError(process.returncode, command)
    return usage.ru_utime + usage.ru_stime


def instructions(command, data):
    """Returns the instructions that callgrind counts for one run. The arguments and the environment have one length together, since this
    length moves the stack, and with it the counts of short runs."""
    environment = {"PADDING": "x" * (LENGTH - len("".join(command)))}
    with tempfile.TemporaryFile() as source:
        source.write(data)
        source.seek(0)
        done = subprocess.run(["valgrind", "--tool=callgrind", f"--callgrind-out-file={os.devnull}", *command], cwd=built(),
                              stdin=source, stdout=subprocess.DEVNULL, stderr=subprocess.PIPE, text=True, env=environment)
    return int(re.search(r"Collected\s*:\s*(\d+)", done.stderr).group(1))


@functools.cache
def idle(*command):
    """Returns the instructions of a program on an empty input."""
    return instructions(command, b"")


def once(corner, name):
    """Returns the bytes of a workload."""
    _, makers, folders = TABLES[corner]
    if name not in folders:
        return workloads.make(name, MEGABYTE, makers)
    return b"".join(path.read_bytes() + BETWEEN for path in sorted((HERE / folders[name]).glob("*.raw")))


def counts_of(programs, data):
    """Returns the instructions a byte of each program on an input."""
    return {program: (instructions(command, data) - idle(*command)) / len(data) for program, command in programs.items()}


def cast_counts(name):
    """Returns the millions of instructions of a recording by asciinema, for each word of CAST_WORDS, and those of its content alone."""
    recording, content = workloads.cast(name)
    counts = [instructions(["./vt220", word, "--quiet", "--format", "asciicast"], recording) for word in CAST_WORDS]
    counts.append(instructions(["./vt220", "text", "--quiet"], content))
    return [(count - idle("./vt220", "text", "--quiet")) / 1e6 for count in counts]


def screen_counts(name):
    """Returns the bytes and the instructions of one repaint of a screen, and of one text."""
    data, counts = workloads.SCREENS[name](), []
    for verb in ("repaint", "text"):
        length = len(subprocess.run(["./vt220", verb], cwd=built(), input=data, capture_output=True, check=True).stdout)
        counts += [length, instructions(["./vt220", verb], data) - instructions(["./vt220", "status"], data)]
    return counts


def row(*cells):
    print(f"| {' | '.join(map(str, cells))} |", flush=True)


def head(*cells):
    print()
    row(*cells)
    print("|---|" + "---:|" * (len(cells) - 1))


def throughput(corner, programs, turns, megabytes):
    """Prints a table of workloads. Returns the program's instructions a second on the workload of addressing, or 0."""
    head(corner, *(f"{name} {what}" for what in ("MB/s", "instr/byte")[turns == 0:] for name in programs))
    pace, (_, makers, folders) = 0, TABLES[corner]
    for name in (*makers, *folders):
        data, best = once(corner, name), dict.fromkeys(programs, float("inf"))
        size = -(-megabytes * MEGABYTE // len(data)) * len(data)
        (built() / "big").write_bytes(data * (size // len(data)))
        for _ in range(turns):
            for program, command in programs.items():
                best[program] = min(best[program], spent(command, built() / "big"))
        rates, counts = {program: size / 1e6 / best[program] for program in programs}, counts_of(programs, data)
        row(name, *(f"{rates[program]:.0f}" for program in programs if turns > 0), *(f"{counts[program]:.1f}" for program in programs))
        if name == "addressing, SGR":
            pace = rates["vt220"] * 1e6 * counts["vt220"]
    return pace


def main():
    if sys.argv[1:]:
        sys.exit(__doc__)
    turns, pace = int(os.environ.get("TURNS", "5")), 0
    for corner, (programs, *_) in TABLES.items():
        more = peers() if os.environ.get("PEERS") == "1" and corner == "workload" else {}
        pace = throughput(corner, programs | more, turns, int(os.environ.get("MEGABYTES", "32"))) or pace
    head("asciicast", *CAST_WORDS, "content alone")
    for name in workloads.CASTS:
        row(name, *(f"{count:.1f}" for count in cast_counts(name)))
    if turns > 0:
        head("screen", "repaint bytes", "instr", "calls/s", "text bytes", "instr", "calls/s")
        for name in workloads.SCREENS:
            repaint, painting, text, reading = screen_counts(name)
            row(name, repaint, painting, f"{pace / painting:.0f}", text, reading, f"{pace / reading:.0f}")


if __name__ == "__main__":
    main()
