"""A carrier: what the node of one seat sends goes to the others over a broker, sealed, and what they send comes to the node.

Nothing here is needed for all to see the same drawing: a node may be handed any datagrams, and none, in any order.
"""

import asyncio
import time

from carrier.broker import Broker, login_of, topic
from carrier.keys import Keys
from carrier.pace import Pace
from carrier.roster import SEATS
from carrier.sealing import FRAME, Seals
from carrier.twin import Twin
from carrier.ways import Ways
from page.addresses import parts_of

# Where the two seats stand in a frame, how it begins, and how many bytes it has at least.
MAGIC, FROM, TO, LEAST = b"GDOF", 9, 10, 40
STRANGE = "something came that no seat of this session has sealed: it was passed over"


class Carrier:
    """The carrier of one seat. All of it runs in the loop in which it is made."""

    def __init__(self, seat, say=lambda line: None):
        """`seat` is what the file of a seat has. `say` is called with a line for people, again where something is said again."""
        self.seat, self.say, self.session = seat, say, seat.roster.session
        self.keys = Keys(seat.seed)
        self.seals = Seals(seat.roster, seat.seat, self.keys)
        self.paces = {other: Pace() for other in range(1, SEATS + 1) if other != seat.seat}
        self.ways = Ways(seat.seat, SEATS, self.sent)
        # What is called with the sender and the content of each kind; with the words behind the session's and the content of
        # what the broker keeps; at each change of the connection; and where a seat comes.
        self.takers, self.keepers, self.changes, self.comings = {FRAME: self.take_frame}, {}, [], []
        # What has the node polled, and whether it runs.
        self.wake, self.runs = lambda: None, lambda: True
        # Seats that were retired.
        self.barred = set()
        self.counts = {"out": 0, "in": 0, "kept": 0, "strange": 0}
        # What is called where this seat runs elsewhere too, with whether it was there first.
        self.twin, self.met_twin, self.own_topic = Twin(seat.seed), lambda is_later: None, topic(self.session, seat.seat, seat.seat)
        # Set once all has come that the broker kept.
        self.settled = asyncio.Event()
        login, address = login_of(seat.account, self.session, seat.seat, self.keys), parts_of(seat.broker)
        self.broker = Broker(address, login, seat.trust, seat.certificate, self.come, self.changed)

    @property
    def addresses(self):
        """The addresses of all seats, for the node."""
        return self.ways.addresses

    def start(self):
        """Begins to connect."""
        topics = [topic(self.session, each, "+") for each in (self.seat.seat, "head", "left")]
        self.broker.start([*topics, *(topic(self.session, each) for each in ("roster", "retired", "watched"))])

    async def stop(self):
        await self.broker.stop()
        self.ways.close()

    async def settle(self, seconds):
        """Waits until all has come that the broker kept, for so long at most, and says whether it has. It doesn't wait where the
        broker refused this seat."""
        end = time.monotonic() + seconds
        while not self.settled.is_set() and not self.broker.is_refused and time.monotonic() < end:
            await asyncio.sleep(0.02)
        return self.settled.is_set()

    def changed(self):
        """The connection was made or lost."""
        self.settled.clear()
        for pace in self.paces.values():
            pace.leave()
            pace.again()
        # What the broker kept comes before this does.
        self.broker.publish(self.own_topic, self.twin.hello())
        for call in self.changes:
            call(self.broker.up, self.broker.fault)
        self.wake()

    def bar(self, seat):
        """A seat was retired: it isn't heard any more."""
        self.barred.add(seat)
        if seat in self.paces:
            self.paces[seat].leave()

    def here(self):
        """The seats that were heard lately, in their order."""
        now = time.monotonic()
        return [other for other, pace in self.paces.items() if pace.is_here(now)]

    # Out.

    def sent(self, to, window):
        """The node sent a window of frames."""
        if self.broker.up and self.runs() and to not in self.barred:
            going = self.paces[to].takes(window, time.monotonic())
            for frame in going:
                self.send(to, FRAME, frame)
            self.counts["kept"] += len(window) - len(going)

    def send(self, to, kind, content):
        """Seals a content for a seat and sends it, where there is a connection; says whether there is one."""
        self.counts["out"] += 1
        return self.broker.publish(topic(self.session, to, self.seat.seat), self.seals.seal(to, kind, content))

    # In.

    def come(self, name, data, was_kept):
        """A message came."""
        words = name.split("/")[2:]
        own = str(self.seat.seat)
        if words == [own, own]:
            self.take_own(data)
        elif len(words) == 2 and words[0] == own:
            if not was_kept and words[1].isascii() and words[1].isdigit() and len(words[1]) < 3:
                self.take(int(words[1]), data)
        elif words and words[0] in self.keepers:
            self.keepers[words[0]](words[1:], data)

    def take_own(self, data):
        """A run of this seat said something to all runs of it."""
        meaning = self.twin.take(data)
        if meaning == "own":
            self.settled.set()
        elif meaning == "later":
            self.met_twin(True)
        elif meaning:
            self.broker.publish(self.own_topic, meaning)
            self.met_twin(False)

    def take(self, sender, data):
        """Something came as from a seat. What that seat hasn't sealed for this one is passed over."""
        if sender in self.barred:
            return
        opened = self.seals.opened(sender, data)
        if opened is None:
            self.counts["strange"] += 1
            self.say(STRANGE)
            return
        self.counts["in"] += 1
        if self.paces[sender].hear(time.monotonic()):
            for call in self.comings:
                call(sender)
            # It is answered at once.
            self.wake()
        kind, content = opened
        if kind in self.takers:
            self.takers[kind](sender, content)

    def take_frame(self, sender, frame):
        """Hands a frame to the node, if it says the same two seats as its seal, and has the node polled."""
        if len(frame) >= LEAST and frame[:4] == MAGIC and (frame[FROM], frame[TO]) == (sender, self.seat.seat) and self.runs():
            self.ways.deliver(sender, frame)
            self.wake()
