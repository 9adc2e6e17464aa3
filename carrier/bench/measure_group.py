#!/usr/bin/env python3
"""Measures a full session on this machine: 16 seats over mosquitto, of which 8 draw at 5 edits a second, for 10 minutes.

    carrier/bench/measure_group.py PROGRAM [--minutes 10] [--seats 16] [--drawing 8] [--rate 5]

It prints how many edits there were, whether all seats show the same drawing, how long that took behind the last edit, and how much
memory this process has taken. The status is 0 where all show the same.
"""

import argparse
import os
import resource
import sys
import time
import unittest
from pathlib import Path

sys.path.insert(0, str(Path(__file__).resolve().parent.parent.parent))


def asked():
    parser = argparse.ArgumentParser(description="Measures a full session over a broker.")
    parser.add_argument("program", type=Path)
    parser.add_argument("--minutes", type=float, default=10)
    parser.add_argument("--seats", type=int, default=16)
    parser.add_argument("--drawing", type=int, default=8)
    parser.add_argument("--rate", type=float, default=5)
    return parser.parse_args()


GIVEN = asked()
os.environ["CARRIER_PROGRAM"] = str(GIVEN.program.resolve())

# They take the program when they are loaded.
from carrier.bench.group import drawn_by  # noqa: E402
from carrier.tests.members import WithMembers  # noqa: E402


class Measured(WithMembers):
    async def test_group(self):
        members = await self.sit(*range(1, GIVEN.seats + 1))
        start = time.monotonic()
        edits = await drawn_by(members[: GIVEN.drawing], GIVEN.minutes * 60, GIVEN.rate)
        took, end = time.monotonic() - start, time.monotonic()
        print(f"{edits} edits by {GIVEN.drawing} of {GIVEN.seats} seats in {took:.0f} s: {edits / took:.1f} a second", flush=True)
        await self.same(members, edits)
        memory = resource.getrusage(resource.RUSAGE_SELF).ru_maxrss / 1024
        print(f"all show the same {time.monotonic() - end:.1f} s behind the last edit; {memory:.0f} MB here", flush=True)
        self.assertEqual([each["line"] for member in members for each in member.desk.news.entries if each["what"] == "said"], [])


if __name__ == "__main__":
    unittest.main(argv=sys.argv[:1])
