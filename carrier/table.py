"""Who sits where: which seats somebody has, who is there, and what the own node and the page are told of that.

A seat that nobody has would keep the node from ever being sure of all. So the node is told that such a seat has nothing and
says nothing more. When somebody sits down there the node is started anew from its journal, which forgets that.
"""

import asyncio
import time

from carrier.frames import closing
from page.audience import message
from page.node import Busy, Ended

# A datagram may be lost, also on this machine: what a node is told of free seats it is told at these seconds behind its start.
TIMES = (0.0, 1.0, 4.0)
# So many seconds lie between two tellings of who is there, where nothing but times has changed.
TELL_EVERY = 5.0
# So often is looked how many seats are free.
COUNT_EVERY = 1.0


async def renew(desk):
    """Ends the node of a desk and starts it anew from its journal, behind all that was typed and before all that will be. Pages
    see nothing of it. Raises `Ended` where it ends, and `Busy` where too much was typed at it already."""
    async with desk.starting, desk.typing:
        if desk.node is None or desk.node.status is not None:
            return
        # A node that is told to quit is killed where it takes long over what was typed before.
        await desk.node.ask(b"status")
        told, desk.node.ended = desk.node.ended, lambda status, said: None
        await desk.stop()
        try:
            await desk.start()
        except Ended as said:
            await desk.node.is_over.wait()
            told(desk.node.status, [str(said)])
            raise


class Table:
    """The seats of one carrier's session."""

    def __init__(self, carrier, standing, retiring, watched, desk, invites):
        """`invites` gives how many more people can be invited here."""
        self.retiring, self.watched, self.retired = retiring, watched, {}
        self.carrier, self.standing, self.desk, self.invites = carrier, standing, desk, invites
        self.own, self.name = carrier.seat.seat, carrier.seat.roster.name
        self.heard, self.closed, self.node, self.due, self.renewing = set(), set(), None, [], None
        self.is_settled, self.told, self.told_at = False, None, 0.0
        self.free, self.counted_at = 0, float("-inf")
        carrier.comings.append(self.heard.add)
        standing.looks.append(self.look)
        desk.audience.openings.append((desk.number, self.opening))

    def taken(self):
        """The seats that somebody has: of which there are records, or a head, or that were heard, and that aren't retired."""
        with_records = {seat for seat, feed in self.standing.feeds.feeds.items() if feed.count}
        return ({self.own} | with_records | set(self.standing.heads.newest) | self.heard) - set(self.retiring.gone)

    def look(self):
        """Takes what may have changed."""
        now, taken = time.monotonic(), self.taken()
        self.is_settled = self.is_settled or self.carrier.settled.is_set()
        if self.closed & taken:
            self.open_again()
        elif self.is_settled and self.renewing is None:
            self.close_free(taken, now)
        self.tell(taken, now)

    def open_again(self):
        """Somebody sits down at a seat of which the node was told that nobody does."""
        closed, self.closed = self.closed, set()

        async def anew():
            try:
                await renew(self.desk)
                self.carrier.ways.held = frozenset()
            except Ended:
                # The page says so, and has a button that starts it again.
                self.carrier.ways.held = frozenset()
            except Busy:
                self.closed = closed
            self.renewing = None

        self.renewing = asyncio.get_running_loop().create_task(anew())

    def close_free(self, taken, now):
        """Tells the node of the seats that nobody has, or has any more."""
        node = self.desk.node
        if node is None or node.status is not None:
            return
        ready = self.retiring.ready()
        if node is not self.node or ready != self.retired:
            self.retired = ready
            self.node, self.due, self.closed = node, [now + each for each in TIMES], set()
        if not self.due or now < self.due[0]:
            return
        self.due.pop(0)
        free = set(self.standing.feeds.feeds) - taken - set(self.retiring.gone)
        self.closed |= free
        self.carrier.ways.held = frozenset(self.closed)
        for seat, count in [*dict.fromkeys(free, 0).items(), *ready.items()]:
            if seat != self.own:
                check = self.standing.feeds.feeds[seat].check(count)
                self.carrier.ways.hand(seat, closing(self.carrier.seat.roster.number, seat, self.own, count, check))
        self.carrier.wake()

    # What the page is told.

    def fields(self, taken, now):
        """What a page is told of the session."""
        seats = []
        for seat in sorted(taken - {self.own}):
            pace = self.carrier.paces[seat]
            ago = None if pace.heard_at is None else round(now - pace.heard_at)
            missing = self.standing.heads.newest[seat].count - self.standing.feeds[seat].count if self.is_behind(seat) else 0
            seats.append({"site": seat, "here": pace.is_here(now), "heard": ago, "missing": missing, "lies": self.lies(seat)})
        broker = self.carrier.broker
        own = {"name": self.name, "seats": seats, "up": broker.up, "fault": "" if broker.up else broker.fault}
        if now - self.counted_at >= COUNT_EVERY:
            self.free, self.counted_at = self.invites(), now
        looks = {"watches": self.watched.can_make, "watched": self.watched.key is not None}
        return {**own, "broker": self.carrier.seat.broker, "invites": self.free, **looks}

    def is_behind(self, seat):
        return seat in self.standing.heads.newest and seat in self.standing.heads.missing()

    def lies(self, seat):
        return seat in self.standing.heads.liars

    def tell(self, taken, now):
        """Tells the desk who is there, and its pages where that has changed."""
        peers, fields = self.desk.peers, self.fields(taken, now)
        peers.seats = {each["site"]: each["here"] for each in fields["seats"]}
        for seat in peers.seats:
            if self.carrier.paces[seat].heard_at is not None:
                peers.heard[seat] = self.carrier.paces[seat].heard_at
        plain = {**fields, "seats": [{**each, "heard": None} for each in fields["seats"]]}
        if plain != self.told or now - self.told_at >= TELL_EVERY:
            self.told, self.told_at = plain, now
            self.desk.tell("carried", **fields)

    def opening(self):
        """What a page that comes is told."""
        yield message("carried", desk=self.desk.number, **self.fields(self.taken(), time.monotonic()))

    async def stop(self):
        if self.renewing:
            await asyncio.gather(self.renewing, return_exceptions=True)
