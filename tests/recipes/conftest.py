def pytest_addoption(parser):
    parser.addoption("--commands", choices=["try", "prove"], help="also applies the patches in copies, and runs their commands of 'try'; with 'prove' those of 'prove', too")
