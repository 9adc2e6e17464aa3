"""Runs some modules of tests, prints a line for each test, and how many there were."""

import sys

from page.tests.run import run

if __name__ == "__main__":
    sys.exit(run("carrier.tests", sys.argv[1:]))
