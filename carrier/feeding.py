"""Hands the own node records that were given, as frames of their seat, as fast as it takes them."""

import asyncio
import time
from itertools import islice

from carrier.frames import count_of, frames

# So many frames lie at the node's socket at a time, and no fewer are taken by a poll.
FRAMES = 64
# How often is looked whether the node has taken what lies there, and for how long it may take nothing.
# Frames that it hasn't taken after so long were lost.
LOOK, PATIENCE, AGAIN = 0.01, 8.0, 0.5


class Feeding:
    """What one node is handed. `deliver` hands it a datagram from a seat, and `wake` has it polled."""

    def __init__(self, session, seat, feeds, deliver, wake):
        self.session, self.seat, self.feeds, self.deliver, self.wake = session, seat, feeds, deliver, wake
        self.loans, self.task, self.grown = [], None, lambda seats: None

    def hand(self, loan):
        """Takes records, which follow in the turn of their coming."""
        self.loans.append(loan)
        if self.task is None or self.task.done():
            self.task = asyncio.get_running_loop().create_task(self.run())

    async def stop(self):
        if self.task:
            self.task.cancel()
            await asyncio.gather(self.task, return_exceptions=True)

    async def run(self):
        while self.loans:
            await self.feed(self.loans.pop(0))

    async def feed(self, loan):
        """Hands on the records of one loan. Where the node takes none for long, the rest is left: it is wanted again."""
        seat, goal, before, moved_at, sent_at = loan.head.seat, -1, -1, time.monotonic(), 0.0
        while (held := self.feeds[seat].count) < loan.head.count and time.monotonic() - moved_at < PATIENCE:
            if held != before:
                before, moved_at = held, time.monotonic()
            if held >= goal or time.monotonic() - max(moved_at, sent_at) > AGAIN:
                goal, sent_at = self.send(loan, held), time.monotonic()
            await asyncio.sleep(LOOK)
            self.grown(self.feeds.read_on())

    @property
    def is_busy(self):
        """Whether the node is being handed records."""
        return self.task is not None and not self.task.done()

    def send(self, loan, held):
        """Hands the node some frames behind the records that it holds. Gives the number of the last record."""
        first, seat, last = held + 1 - loan.first, loan.head.seat, held
        check = self.feeds[seat].check(held)
        made = frames(self.session, seat, self.seat, held + 1, loan.records[first:], loan.clocks[first:], check)
        for each in islice(made, FRAMES):
            self.deliver(seat, each)
            last = count_of(each)
        self.wake()
        return last
