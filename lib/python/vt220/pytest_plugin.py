"""Gives tests the fixture `vt`, which runs programs on a VT220 and ends them with the test."""
import contextlib
import hashlib
import pathlib
import re
from typing import Any, Dict, Iterator, List, Optional, Set

import pytest

from . import ENCODINGS, ROWS, TERMINALS
from .rig import ENDINGS, TIMEOUT, Directory, Failure, Reports, Rig, recorded

_KEY = "vt220_screens"
# What pytest's options and ini settings choose, with the values and the usual one.
_CHOICES = (("encoding", ENCODINGS, "utf-8"), ("terminal", TERMINALS, "vt220"))
# The ids of tests that are still different when each other character is a hyphen: their parts have none.
_PLAIN = re.compile(r"(\w+/)*\w+\.py(::\w+)+(\[[\w.]+\])?", re.ASCII)
# A file's name has at most 255 bytes; this leaves enough for the digits that follow, and for the ending.
_LONGEST = 180


def file_name(nodeid: str) -> str:
    """Returns the beginning of the names of a test's files. Two tests never share it, whatever their parameters are."""
    name = re.sub(r"[^\w.]+", "-", nodeid, flags=re.ASCII).strip("-")
    if _PLAIN.fullmatch(nodeid) and len(name) <= _LONGEST:
        return name
    return f"{name[:_LONGEST]}-{hashlib.sha256(nodeid.encode(errors='surrogatepass')).hexdigest()[:12]}"


class Session:
    """Runs the programs of one test, and ends them with it."""

    def __init__(self, request: pytest.FixtureRequest) -> None:
        config = request.config
        self.used: Set[str] = config._vt220_used  # type: ignore[attr-defined]
        self.screens = pathlib.Path(request.path).parent / "screens"
        self.update = bool(config.getoption("--update-screens"))
        self.timeout = float(config.getoption("--vt-timeout"))
        self.encoding, self.terminal = chosen(config)
        self.directory = pathlib.Path(config.rootpath) / config.getoption("--vt-reports")
        self.name = file_name(request.node.nodeid)
        self.colour = config.get_terminal_writer().hasmarkup
        self.rigs: List[Rig] = []
        self.passed = False
        # Where the recordings of the last good run are. Without pytest's cache there are none.
        cache = getattr(config, "cache", None)
        self.good: Optional[pathlib.Path] = cache.mkdir("vt220") if cache is not None else None
        for old in self.directory.glob(f"{self.name}-*"):
            if re.fullmatch(rf"-\d+\.({'|'.join(ENDINGS)})", old.name[len(self.name) :]):
                old.unlink(missing_ok=True)

    def run(self, *argv: str, rows: int = ROWS, columns: int = 80, cwd: Optional[Directory] = None, env: Optional[Dict[str, str]] = None,
            timeout: Optional[float] = None, term: Optional[str] = None, encoding: Optional[str] = None, terminal: Optional[str] = None) -> Rig:
        """Runs a command on a terminal of 24 rows and 80 or 132 columns, or of another size, and returns its Rig.

        The command is in UTF-8, or has the bytes of a VT220. With terminal="xterm" it has TERM=xterm-256color. Without these two arguments, the
        options of pytest and its ini settings decide.
        """
        terminal = terminal or ("vt220" if encoding == "dec" else self.terminal)
        encoding = encoding or ("utf-8" if terminal == "xterm" else self.encoding)
        reports = Reports(self.directory, f"{self.name}-{len(self.rigs) + 1}", self.colour, self.good_of(len(self.rigs) + 1))
        rig = Rig(argv, rows=rows, columns=columns, cwd=cwd, env=env, timeout=timeout or self.timeout, term=term, encoding=encoding,
                  screens=self.screens, update=self.update, reports=reports, used=lambda path: self.used.add(str(path)), terminal=terminal)
        self.rigs.append(rig)
        return rig

    def good_of(self, number: int) -> Optional[pathlib.Path]:
        """Returns the file of the recording of one of its programs in the last good run."""
        return self.good / f"{self.name}-{number}.json" if self.good is not None else None

    def keep(self) -> None:
        """Stores the recordings of a good run."""
        for number, rig in enumerate(self.rigs, 1):
            path = self.good_of(number)
            if path is not None:
                path.write_text(recorded(rig), encoding="utf-8")

    def close(self) -> None:
        """Ends all programs of the test, also if one of them can't be ended."""
        with contextlib.ExitStack() as stack:
            for rig in self.rigs:
                stack.callback(rig.close)


_SESSION = pytest.StashKey[Session]()


@pytest.fixture
def vt(request: pytest.FixtureRequest) -> Iterator[Session]:
    """Runs programs on a VT220: vt.run(COMMAND, ARGUMENT ..)."""
    session = request.node.stash[_SESSION] = Session(request)
    try:
        yield session
    finally:
        session.close()


@pytest.hookimpl(hookwrapper=True)  # type: ignore[misc]
def pytest_runtest_makereport(item: pytest.Item, call: "pytest.CallInfo[None]") -> Iterator[None]:
    """Adds the screen, the picture, the recording and the page of each program of a failed test, unless its failure has them."""
    outcome: Any = yield
    report, session = outcome.get_result(), item.stash.get(_SESSION, None)
    if session is None:
        return
    if report.failed and call.excinfo is not None:
        shown = call.excinfo.value.rig if isinstance(call.excinfo.value, Failure) else None
        report.sections += [(f"vt220: {rig.argv[0]}", rig.report()) for rig in session.rigs if rig is not shown]
    session.passed = session.passed or (call.when == "call" and report.passed)
    if call.when == "teardown":
        if session.passed and report.passed:
            session.keep()
        del item.stash[_SESSION]


def pytest_addoption(parser: pytest.Parser) -> None:
    """Adds the options of the rig."""
    group = parser.getgroup("vt220", "tests of terminal programs")
    group.addoption("--update-screens", action="store_true", help="store the screens that matches() compares with")
    group.addoption("--vt-reports", default="vt220-failures", metavar="DIR", help="where pictures, recordings and pages of failures go")
    for name, values, usual in _CHOICES:
        about = f"the {name} of programs whose test doesn't choose one"
        group.addoption(f"--vt-{name}", choices=values, help=f"{about} ({usual})")
        parser.addini(f"vt_{name}", f"{about}: {' or '.join(values)} ({usual})", default=usual)
    group.addoption("--vt-timeout", type=float, default=TIMEOUT, metavar="SECONDS", help="how long a wait takes at most (%(default)s)")


def chosen(config: pytest.Config) -> List[str]:
    """Returns the encoding and the terminal that pytest's options choose, or its ini settings. Raises UsageError."""
    found = [str(config.getoption(f"--vt-{name}") or config.getini(f"vt_{name}")) for name, _, _ in _CHOICES]
    for (name, values, _), value in zip(_CHOICES, found):
        if value not in values:
            raise pytest.UsageError(f"vt_{name} is {' or '.join(values)}, not {value!r}")
    if found == ["dec", "xterm"]:
        raise pytest.UsageError("an xterm's programs are in UTF-8: leave out --vt-encoding dec, or --vt-terminal xterm, or the setting of that name")
    return found


def pytest_configure(config: pytest.Config) -> None:
    """Begins the list of the stored screens that tests used. Looks at the options and the settings."""
    chosen(config)
    config._vt220_used = set()  # type: ignore[attr-defined]


@pytest.hookimpl(trylast=True)  # type: ignore[misc]
def pytest_sessionfinish(session: pytest.Session) -> None:
    """Sends a worker's list to the process that started the workers."""
    output: Optional[Dict[str, Any]] = getattr(session.config, "workeroutput", None)
    if output is not None:
        output[_KEY] = sorted(session.config._vt220_used)  # type: ignore[attr-defined]


@pytest.hookimpl(optionalhook=True)  # type: ignore[misc]
def pytest_testnodedown(node: Any, error: object) -> None:
    """Takes a worker's list."""
    node.config._vt220_used.update(getattr(node, "workeroutput", {}).get(_KEY, []))


def pytest_terminal_summary(terminalreporter: Any, exitstatus: int, config: pytest.Config) -> None:
    """Names stored screens that no test asked for, if whole files of tests ran and passed."""
    used: Set[str] = config._vt220_used  # type: ignore[attr-defined]
    is_part = config.getoption("keyword") or config.getoption("markexpr") or any("::" in word for word in config.args)
    if exitstatus != 0 or is_part:
        return
    for directory in sorted({str(pathlib.Path(path).parent) for path in used}):
        for path in sorted(pathlib.Path(directory).glob("*.txt")):
            if str(path) not in used:
                terminalreporter.write_line(f"vt220: no test asked for the stored screen {path}")
