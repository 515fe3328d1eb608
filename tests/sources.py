"""The sources of the crates."""
from shared import TOP

# crates of tests, whose functions nothing is proved for
OF_TESTS = ("napt_calls", "napt_run_tests")


def libraries(top=TOP):
    """Returns the folders of the libraries but those of tests."""
    return sorted(it.parent.parent for it in top.glob("crates/*/src/lib.rt") if it.parent.parent.name not in OF_TESTS)
