"""Runs suites side by side and adds up what they count.

The last line that a suite prints to standard output is 'N passed, M failed', perhaps with a name before it, or the one of pytest, or it ends
as node's test runner does (its reporter `spec`). A suite has no standard input and no terminal. If it fails, all that it printed is shown.
"""
import concurrent.futures
import dataclasses
import os
import pathlib
import re
import subprocess
import sys
import tempfile
import threading
import time

TOP = pathlib.Path(__file__).resolve().parents[1]
COUNT = re.compile(r"(?:.*[ :])?(?P<passed>\d+) passed, (?P<failed>\d+) failed")
# pytest's line about tests that passed or failed. If there were none, or anything else became of one, its line is another: that is a fault.
PYTEST = re.compile(r"(?:(?P<failed>\d+) failed, )?(?P<passed>\d+) passed(?:, \d+ warnings?)? in \S+s(?: \(\S+\))?")
# node's last lines, and the tests that failed. As with pytest they are others, which is a fault, if a test was skipped or didn't end.
NODE = re.compile(r"ℹ tests [1-9].*\nℹ suites .*\nℹ pass (?P<passed>\d+)\nℹ fail (?P<failed>\d+)\nℹ cancelled 0\nℹ skipped 0\nℹ todo 0\nℹ duration_ms .*(?:\n\n✖ failing tests:\n(?s:.*))?\Z")
printing = threading.Lock()


@dataclasses.dataclass
class Suite:
    """A command, as a list of words or as one line for a shell. One that doesn't count is itself a check: it passes with the exit status 0."""

    title: str
    command: list | str
    counts: bool = True


@dataclasses.dataclass
class Result:
    """How many checks of a suite passed and failed, what it printed, and its seconds of wall and of processor."""

    title: str
    passed: int
    failed: int
    said: str
    wall: float
    processor: float

    def took(self):
        """Returns a line with the minutes."""
        return f"took {self.wall / 60:5.1f} min of wall and {self.processor / 60:5.1f} of processor: {self.title}"


def say(*words):
    """Prints whole lines at once, beside other threads."""
    with printing:
        print(*words, sep="\n", flush=True)


def counted(suite, status, printed):
    """Returns how many checks passed and failed, and lines about a fault that isn't in these counts."""
    last = (printed.rstrip().splitlines() or [""])[-1]
    found = COUNT.fullmatch(last.strip()) or PYTEST.fullmatch(last.strip()) or NODE.search(printed.rstrip())
    if not suite.counts:
        return (1, 0, "") if status == 0 else (0, 1, f"status {status}")
    if not found:
        return 0, 1, f"status {status}, and no line that counts"
    passed, failed = int(found["passed"]), int(found["failed"] or 0)
    return (passed, failed, "") if failed or not status else (passed, 1, f"status {status}")


def run(suite, environment=None):
    """Runs a suite to its end, at the top of the repository. Returns its result."""
    words = suite.command if isinstance(suite.command, list) else ["bash", "-c", suite.command]
    begun = time.monotonic()
    with tempfile.TemporaryFile() as output, tempfile.TemporaryFile() as errors:
        try:
            process = subprocess.Popen(words, cwd=TOP, stdin=subprocess.DEVNULL, stdout=output, stderr=errors, env=environment)
        except OSError as fault:
            return Result(suite.title, 0, 1, f"{fault}\n", 0, 0)
        _, status, usage = os.wait4(process.pid, 0)
        process.returncode = os.waitstatus_to_exitcode(status)
        printed, said = (read_all(file) for file in (output, errors))
    passed, failed, fault = counted(suite, process.returncode, printed)
    said = "".join([said, printed, f"{fault}\n" if fault else ""])
    return Result(suite.title, passed, failed, said, time.monotonic() - begun, usage.ru_utime + usage.ru_stime)


def read_all(file):
    file.seek(0)
    return file.read().decode(errors="replace")


def report(name, result):
    """Prints the counts of a suite, and all that it printed if a check failed."""
    lines = [f"{name}: {result.title}: {result.passed} passed, {result.failed} failed"]
    if result.failed:
        lines += [f"{name}: {result.title} FAILED. It printed:", result.said.rstrip(), f"{name}: the end of what {result.title} printed"]
    say(*lines)


def run_all(name, suites, jobs=None, environment=None):
    """Runs suites, so many at a time as there are processors, in their order. Returns their results."""

    def one(suite):
        result = run(suite, environment)
        report(name, result)
        return result

    with concurrent.futures.ThreadPoolExecutor(jobs or os.cpu_count()) as pool:
        return list(pool.map(one, suites))


def finish(results):
    """Prints the sum as the last line. Returns the exit status."""
    passed, failed = sum(result.passed for result in results), sum(result.failed for result in results)
    print(f"{passed} passed, {failed} failed", flush=True)
    return 1 if failed else 0


def rows(name):
    """Returns the fields of each line of a list in tests/."""
    lines = [line for line in (TOP / "tests" / name).read_text().splitlines() if line.strip() and not line.startswith("#")]
    return [[field.strip() for field in line.split("|")] for line in lines]


def gate_suites():
    """Returns the suites of tests/suites.txt: for each name its command, and its short command or None."""
    return {name: (whole, None if short == "-" else short) for name, whole, short in rows("suites.txt")}


def options(text, *known):
    """Returns the options among a script's arguments. With --help, prints the script's text and ends; so it does with an unknown one."""
    words = sys.argv[1:]
    if words == ["--help"] or set(words) - set(known):
        print(text, end="", file=sys.stdout if words == ["--help"] else sys.stderr)
        sys.exit(0 if words == ["--help"] else 2)
    return words
