"""Random steps, judged by the program."""

import os
import unittest

from embed.tests.fuzz import fuzz

STEPS = int(os.environ.get("GROUPDESIGN_FUZZ_STEPS", "4000"))


class Fuzz(unittest.TestCase):
    def test_members_do_what_the_program_does(self) -> None:
        differences, counts = fuzz(os.environ["GROUPDESIGN_PROGRAM"], STEPS, seed=1)
        self.assertEqual(differences, [])
        self.assertGreater(min(counts.values()), 0)
