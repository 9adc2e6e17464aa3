"""The types of the Python package, by mypy."""

import os
import shutil
import subprocess
import unittest
from pathlib import Path

PACKAGE = Path(__file__).resolve().parents[1] / "python/groupdesign"


class Types(unittest.TestCase):
    def test_mypy_finds_nothing(self) -> None:
        mypy = shutil.which("mypy")
        if not mypy:
            self.skipTest("mypy isn't installed")
        words = [mypy, "--strict", "--cache-dir", os.devnull, PACKAGE]
        done = subprocess.run(words, capture_output=True, text=True)
        self.assertEqual(done.returncode, 0, done.stdout)
