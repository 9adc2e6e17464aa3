"""The built program, run from outside: what it is handed, what it prints and how it ends."""

import os
import subprocess
import threading
import unittest
from concurrent.futures import ThreadPoolExecutor
from contextlib import contextmanager
from dataclasses import dataclass
from pathlib import Path

ROOT = Path(__file__).resolve().parent.parent
EXAMPLES = ROOT / "examples"
# The program that tests/run was given.
PROGRAM = Path(os.environ.get("GROUPDESIGN_PROGRAM", ROOT / "crates/groupdesign/out/groupdesign"))
# A run that hangs is ended after so many seconds, and fails. It is so long that no run reaches it on a busy machine.
LONGEST = 1_200
# So many runs of a table go on at a time.
AT_A_TIME = min(4, os.cpu_count() or 1)

DONE, USAGE, BAD_LOG, READ_FAULT, WRITE_FAULT, JOURNAL_FAULT = 0, 2, 3, 4, 5, 6
LINK_FAULT, NO_MEMORY, LINE_LIMIT, OTHER_JOURNAL, BAD_VIEW, NO_WORDS = 7, 8, 9, 11, 12, 13


@dataclass
class Ended:
    """How a run ended, and what it printed on standard output and on standard error."""

    status: int
    printed: bytes
    said: bytes

    @property
    def text(self):
        return self.printed.decode("utf-8", "backslashreplace")


def run_program(words, given=b"", **options):
    """Runs the program with these words over these bytes. `options` are those of subprocess.run, as another stdin."""
    if "stdin" not in options:
        options["input"] = given
    options = {"stdout": subprocess.PIPE, "stderr": subprocess.PIPE, "timeout": LONGEST} | options
    done = subprocess.run([PROGRAM, *words], **options)
    return Ended(done.returncode, done.stdout or b"", done.stderr or b"")


@contextmanager
def guarded(process):
    """A process that is ended where it hangs, so that whoever waits for it sees its end."""
    guard = threading.Timer(LONGEST, process.kill)
    guard.daemon = True
    guard.start()
    try:
        yield process
    finally:
        guard.cancel()


def at_a_time(function, rows):
    """What the function gives of each row, some at a time, in the order of the rows."""
    with ThreadPoolExecutor(AT_A_TIME) as pool:
        return list(pool.map(lambda row: function(*row), rows))


class Case(unittest.TestCase):
    """Cases whose rows are runs of the program."""

    maxDiff = 2000
    longMessage = True

    def expect(self, words, given, status, printed):
        """Runs the program, which has to print just that and to end so."""
        ended = run_program(words, given)
        printed = printed.encode() if isinstance(printed, str) else printed
        self.assertEqual((ended.printed, ended.status), (printed, status), words)
        return ended

    def expect_all(self, rows):
        """Runs each row, of words, what is given, the status, and what is printed."""
        for (words, given, status, printed), ended in zip(rows, at_a_time(run_program, [row[:2] for row in rows])):
            printed = printed.encode() if isinstance(printed, str) else printed
            self.assertEqual((ended.printed, ended.status), (printed, status), (words, given[:200]))
