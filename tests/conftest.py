def pytest_collection_modifyitems(items):
    """A test that has parameters only with an option isn't there without it."""
    items[:] = [item for item in items if not any("empty parameter set" in mark.kwargs.get("reason", "") for mark in item.iter_markers("skip"))]
