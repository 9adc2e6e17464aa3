"""The rounds of a desk: when its node is polled, and when it is asked for what may have changed."""

import asyncio
import math
import time

from page import lines
from page.names import read_word
from page.node import Busy, Ended

# A frame has at most 1,144 bytes of events. So for a while behind a poll that brought some, or heard that others took some, the
# next polls come soon.
SOON, SOON_FOR = 0.01, 0.3
# While these bring more and more, the drawing is asked for so often at most.
SHOW_EVERY = 0.1
# Datagrams come all the time, and have notes asked for so often at most.
ASK_EVERY = 0.4


class Rounds:
    """What is asked of one run of a node. All that is found is handed to the desk."""

    def __init__(self, desk, node, poll_every):
        self.desk, self.node, self.poll_every = desk, node, poll_every
        self.wake, self.show_due, self.notes_due = asyncio.Event(), True, True
        # When that poll was whose echoes no picture has yet.
        self.behind_since, self.shown_at = None, 0.0
        self.asked_at, self.soon_until = -math.inf, 0.0

    def expect(self, verbs):
        """Lines with these first words were typed: what they change is asked for at once."""
        self.show_due = self.show_due or bool(verbs & lines.EDITS)
        self.notes_due = self.notes_due or bool(verbs & lines.NOTES)
        self.wake.set()

    async def run(self):
        """Polls and asks, until the node has ended. A node that takes long is waited for."""
        due = time.monotonic()
        try:
            while True:
                await self.pause(due - time.monotonic())
                await self.round()
                is_soon = time.monotonic() < self.soon_until and not self.desk.is_woken
                due = time.monotonic() + (min(SOON, self.poll_every) if is_soon else self.poll_every)
        except Ended:
            self.desk.read_history()

    async def pause(self, seconds):
        """Waits for so long, or until something was typed."""
        timer = asyncio.get_running_loop().call_later(max(0, seconds), self.wake.set)
        try:
            await self.wake.wait()
        finally:
            timer.cancel()
        self.wake.clear()

    async def round(self):
        """Shows what was edited here, polls, and asks for all that may have changed by that."""
        if self.show_due:
            await self.show(others=False)
        polled_at = time.time()
        *came, last = await self.ask(b"poll")
        echoes = self.desk.take_news(came, last)
        if echoes:
            self.behind_since = self.behind_since or polled_at
            self.be_soon()
            self.desk.read_history()
        if self.behind_since and not (echoes and time.monotonic() - self.shown_at < SHOW_EVERY):
            await self.show(others=True)
        if lines.datagrams_of(last):
            self.desk.peers.datagrams()
            self.notes_due = True
            if self.desk.standing.get("kept"):
                await self.ask_standing()
        if self.notes_due and time.monotonic() - self.asked_at >= ASK_EVERY:
            await self.ask_notes()

    def be_soon(self):
        self.soon_until = time.monotonic() + SOON_FOR

    async def ask(self, line):
        """Types a line of this program's own, and gives the lines of its answer."""
        return [each.decode(errors="replace") for each in await (await self.type(line)).answer()]

    async def type(self, line):
        """Types a line once there is room for it, and gives the place of its answer."""
        while True:
            try:
                # A poll gives the site another clock.
                async with self.desk.typing:
                    (slot,) = self.node.type(line)
                return slot
            except Busy:
                await asyncio.sleep(self.poll_every)

    async def show(self, others):
        """Asks for the drawing. `others` says that it has what a poll brought."""
        self.show_due = False
        slot = await self.type(b"show")
        shown = await slot.answer()
        self.desk.take_picture(shown, slot.accepted, others, self.behind_since)
        if others:
            self.behind_since, self.shown_at = None, time.monotonic()
        self.notes_due = True
        await self.ask_standing()

    async def ask_standing(self):
        """Asks for the numbers."""
        (standing,) = await self.ask(b"status")
        if self.desk.take_standing(lines.standing_of(standing)):
            self.be_soon()

    async def ask_notes(self):
        """Asks for the notes of all and for the numbers."""
        self.notes_due, self.asked_at = False, time.monotonic()
        answer = await self.ask(b"who")
        self.desk.take_notes([{**each, "name": read_word(each["name"])} for each in lines.notes_of(answer)])
        self.desk.take_parted(lines.parted_of(answer), self.desk.is_older)
        await self.ask_standing()
