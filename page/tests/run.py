"""Runs one part of the tests, `units`, `program` or `browser`, prints a line for each, and how many there were."""

import sys
import time
import unittest
from pathlib import Path

HERE = Path(__file__).resolve().parent
# Tests of the bridge over the built program, which the units do without.
OVER_PROGRAM = ["test_program"]


def names_of(part):
    """The modules of a part."""
    if part == "program":
        return OVER_PROGRAM
    pattern = {"units": "test_*.py", "browser": "browse_*.py"}[part]
    return [name for name in sorted(file.stem for file in HERE.glob(pattern)) if name not in OVER_PROGRAM]


def name_of(test):
    """A test's name without that of its package."""
    return test.id().partition(".tests.")[2]


class Counting(unittest.TextTestResult):
    """Names each test as it ends, with the seconds that it took."""

    def startTest(self, test):
        super().startTest(test)
        self.began = time.monotonic()

    def addSuccess(self, test):
        super().addSuccess(test)
        print(f"ok      {name_of(test)} ({time.monotonic() - self.began:.1f} s)", flush=True)

    def addSkip(self, test, reason):
        super().addSkip(test, reason)
        print(f"skipped {name_of(test)}: {reason}", flush=True)


def run(package, names):
    """Runs modules of a package, and gives the status to end with."""
    suite = unittest.defaultTestLoader.loadTestsFromNames([f"{package}.{name}" for name in names])
    result = unittest.TextTestRunner(stream=sys.stdout, resultclass=Counting, verbosity=0).run(suite)
    # A test that failed to load counts as failed.
    failed = len(result.failures) + len(result.errors) + len(result.unexpectedSuccesses)
    passed = max(0, result.testsRun - failed - len(result.skipped))
    print(f"{passed} passed, {failed} failed, {len(result.skipped)} skipped", flush=True)
    return 1 if failed else 0


if __name__ == "__main__":
    sys.exit(run("page.tests", names_of(sys.argv[1])))
