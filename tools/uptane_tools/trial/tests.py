"""Runs the tests of `tools/tests`, by pytest where it is installed, and else by unittest. They
need no program.

    tools/run tests [PATTERN]      those in the files of that pattern, `test_refused.py` for one
"""
import importlib
import importlib.util
import unittest
from typing import Any

from uptane_tools import TOP, arguments

FOLDER = TOP / "tools" / "tests"


class Counts:
    """What pytest tells of each test."""

    def __init__(self) -> None:
        self.passed = self.failed = 0

    def pytest_runtest_logreport(self, report: Any) -> None:
        """Counts a test once it has run, or couldn't begin or end."""
        self.passed += report.when == "call" and report.passed
        self.failed += report.failed


def by_pytest(pattern: str) -> tuple[int, int]:
    """How many passed and failed."""
    counts = Counts()
    words = ["--quiet", "--rootdir", str(TOP / "tools"), "-p", "no:cacheprovider"]
    importlib.import_module("pytest").main([*words, *map(str, FOLDER.glob(pattern))], plugins=[
        counts])
    return counts.passed, counts.failed


def by_unittest(pattern: str) -> tuple[int, int]:
    """How many passed and failed."""
    found = unittest.defaultTestLoader.discover(str(FOLDER), pattern, str(TOP / "tools"))
    ran = unittest.TextTestRunner(verbosity=2).run(found)
    failed = len({test.id().split(" ")[0] for test, _ in [*ran.failures, *ran.errors]})
    return ran.testsRun - failed, failed


def main(words: arguments.Words = None) -> int:
    """Runs the tests, and says how many passed."""
    pattern = arguments.given(__doc__, words, pattern="test_*.py").pattern
    has_pytest = importlib.util.find_spec("pytest") is not None
    passed, failed = (by_pytest if has_pytest else by_unittest)(pattern)
    print(f"{passed} passed, {failed} failed")
    return 1 if failed or not passed else 0
