def pytest_addoption(parser):
    parser.addoption("--struck", nargs="*", metavar="CRATE[/EDIT]", help="tries these edits; of a crate alone those of struck.txt; without a word all of that list")
    parser.addoption("--on-request", nargs="*", metavar="CRATE", help="tries the edits of these crates that the gate leaves out; without a word those of all crates")
