"""The options of the tests of the library for C, and how many checks its programs make: they print it."""


def pytest_addoption(parser):
    parser.addoption("--fuzz", type=int, default=10, help="how many seconds libFuzzer has")


def pytest_terminal_summary(terminalreporter):
    reports = [report for kind in ("passed", "failed") for report in terminalreporter.stats.get(kind, ())]
    terminalreporter.write_line(f"{sum(count for report in reports for name, count in report.user_properties if name == 'checks'):,} checks in C")
