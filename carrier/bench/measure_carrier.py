#!/usr/bin/env python3
"""Measures sessions over a broker on this machine: members in one process, each with a node of the built program, and mosquitto.

    carrier/bench/measure_carrier.py PROGRAM [--events 10000] [--edits 100] [--seats 3]

It prints how long an edit takes to another seat, how long a newcomer takes to catch up, and how many messages an idle seat sends. The
status is 0 where all of that is within its bar on this machine, which has to be idle.
"""

import argparse
import asyncio
import os
import statistics
import sys
import time
import unittest
from pathlib import Path

sys.path.insert(0, str(Path(__file__).resolve().parent.parent.parent))


def asked():
    parser = argparse.ArgumentParser(description="Measures sessions over a broker.")
    parser.add_argument("program", type=Path)
    parser.add_argument("--events", type=int, default=10_000)
    parser.add_argument("--edits", type=int, default=100)
    parser.add_argument("--seats", type=int, default=3)
    return parser.parse_args()


GIVEN = asked()
os.environ["CARRIER_PROGRAM"] = str(GIVEN.program.resolve())

# In milliseconds: the median, and 99 of 100. In seconds, and in messages a second a seat.
MOST_MEDIAN, MOST_LATE, MOST_CATCH_UP, MOST_IDLE = 60.0, 200.0, 5.0, 3.0

# They take the program when they are loaded.
from carrier.bench.group import idle_rate  # noqa: E402
from carrier.tests.members import WithMembers  # noqa: E402


class Measured(WithMembers):
    async def test_all(self):
        self.over = []
        members = await self.sit(*range(1, GIVEN.seats + 1))
        await self.latency(members)
        await self.catch_up(members)
        await self.idle(members)
        self.assertEqual(self.over, [], "over the bar")

    def held(self, what, found, most):
        """Puts down what is above its bar."""
        if found > most:
            self.over.append(f"{what}: {found:.2f} of {most:.0f}")

    async def latency(self, members):
        """From typing at one to the journal of another."""
        one, other = members[:2]
        times = []
        for count in range(GIVEN.edits):
            start = time.perf_counter()
            await one.draw(f"create rect {count} 0 5 5 edit {count}")
            while other.standing.feeds[1].count <= count:
                await asyncio.sleep(0.001)
                other.standing.heads.grow(other.standing.feeds.read_on())
            times.append((time.perf_counter() - start) * 1e3)
            await asyncio.sleep(0.05)
        times.sort()
        median, late = statistics.median(times), times[int(0.99 * (len(times) - 1))]
        print(f"an edit at another seat: median {median:.1f} ms, 99 % {late:.1f} ms of {len(times)}", flush=True)
        self.held("median", median, MOST_MEDIAN)
        self.held("99 %", late, MOST_LATE)

    async def catch_up(self, members):
        """A newcomer to many events."""
        for first in range(0, GIVEN.events, 500):
            await members[0].draw(*[f"create rect {each} 0 5 5 old" for each in range(first, min(first + 500, GIVEN.events))])
        total = members[0].standing.feeds
        while members[0].standing.told != GIVEN.events + GIVEN.edits:
            await asyncio.sleep(0.05)
        await asyncio.sleep(2)
        start = time.perf_counter()
        (newcomer,) = await self.sit(GIVEN.seats + 1)
        while newcomer.standing.feeds[1].count < total[1].count:
            await asyncio.sleep(0.01)
        took = time.perf_counter() - start
        members.append(newcomer)
        print(f"a newcomer has {total[1].count} events {took:.2f} s after its start", flush=True)
        self.held("a newcomer", took, MOST_CATCH_UP)

    async def idle(self, members):
        """What goes out where nobody does anything."""
        await asyncio.sleep(20)
        rate = await idle_rate(members, 20)
        print(f"idle, {len(members)} of 16 seats: {rate:.2f} messages a second a seat", flush=True)
        self.held("idle", rate, MOST_IDLE)


if __name__ == "__main__":
    unittest.main(argv=sys.argv[:1])
