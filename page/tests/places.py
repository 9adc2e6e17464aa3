"""What several tests need: a folder with a journal for a stand-in, and waiting."""

import asyncio
import json
import os
import shutil
import tempfile
import time
import unittest
from pathlib import Path

STAND_IN = Path(__file__).resolve().parent / "stand_in.py"
# In seconds. What is waited for comes at once on an idle machine, and on a slow and busy one much later.
PATIENCE = 300


def wait_for(call, seconds=PATIENCE):
    """Waits until a call gives something that is true, and gives that. It is the test's failure where none comes."""
    end = time.monotonic() + seconds
    while not (found := call()):
        if time.monotonic() > end:
            raise AssertionError(f"it didn't come within {seconds} s")
        time.sleep(0.01)
    return found


async def until(call, seconds=PATIENCE, what="it"):
    """The same for what comes about in the loop of the test."""
    end = time.monotonic() + seconds
    while not (found := call()):
        if time.monotonic() > end:
            raise AssertionError(f"{what} didn't come within {seconds} s")
        await asyncio.sleep(0.005)
    return found


class WithFolder(unittest.IsolatedAsyncioTestCase):
    """A test with a folder of its own, in which there is room for a journal."""

    def setUp(self):
        # A node waits for the disk twice for each event, which says nothing of what is tested.
        memory = "/dev/shm" if os.access("/dev/shm", os.W_OK) else None
        self.folder = Path(tempfile.mkdtemp(prefix="groupdesign-test-", dir=memory))
        self.addCleanup(shutil.rmtree, self.folder, ignore_errors=True)
        self.journal = self.folder / "site.log"

    async def asyncSetUp(self):
        # The loop's own checks of each call take most of the time here.
        asyncio.get_running_loop().set_debug(False)

    def beside(self, ending):
        return Path(f"{self.journal}.{ending}")


class WithStandIn(WithFolder):
    """A test in which a stand-in has its journal in the folder."""

    def script(self, **fields):
        self.beside("script").write_text(json.dumps(fields))

    def command(self, *options):
        """The words of a stand-in, as a desk has them."""
        words = options or ("--session", "7", "--site", "1")
        return [str(STAND_IN), "node", *words, "--journal", str(self.journal), "A", "B"]

    def typed(self):
        """The lines that the stand-in was handed."""
        file = self.beside("typed")
        return file.read_text(encoding="utf-8").split("\n")[:-1] if file.exists() else []

    def edits(self):
        """What was typed, without what a desk asks for by itself."""
        return [line for line in self.typed() if line not in ("show", "who", "status", "poll")]
