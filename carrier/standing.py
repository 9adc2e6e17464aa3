"""What a seat tells of its own records and knows of the others': it signs heads, and sees what doesn't fit."""

import asyncio
import logging
import time

from carrier.broker import topic
from carrier.feeding import Feeding
from carrier.feeds import Feeds
from carrier.heads import Heads, signed
from carrier.lending import Lending
from carrier.roster import SEATS
from carrier.sealing import GIVE, WANT
from page.placed import CALLED

# How often the journal is looked at, and how many seconds lie between two heads of the same seat.
LOOK, BETWEEN = 0.25, 0.5
LOG = logging.getLogger("carrier.standing")
OLDER = (
    "the journal {journal} is older than what this seat has told the others: it has {held} of its own edits, and they know of "
    "{told}. It is a copy that was put back, or this seat was used on another machine too. Nothing was sent. Go on with the "
    "newest journal, on one machine; where that is lost, ask for a link to another seat"
)
ELSEWHERE = (
    "this seat draws elsewhere too: the others know of edits that this journal hasn't. Nothing more is sent or taken. End this "
    f"{CALLED}, and go on where the newest journal is"
)
TAKEN = (
    f"this seat is in use elsewhere: another {CALLED} has it open, here or on another machine. Two would tell two stories, so nothing "
    "is sent or taken here. End one of them"
)
OPENED = "this seat was opened elsewhere too, where nothing is sent or taken. End it there, or ask for another seat for it"
LIES = "{seat} tells two stories: it has signed two different lists of its edits, so what it drew differs from one to another"


class Standing:
    """The records and heads of a carrier's session."""

    def __init__(self, carrier, journal):
        self.carrier, self.seat, self.roster, self.journal = carrier, carrier.seat.seat, carrier.seat.roster, journal
        self.feeds = Feeds(journal, self.roster.session, SEATS)
        self.heads = Heads(self.roster, self.feeds)
        self.feeding = Feeding(self.roster.number, self.seat, self.feeds, carrier.ways.deliver, lambda: carrier.wake())
        self.lending = Lending(self.roster, self.seat, self.feeds, self.heads, carrier.send, self.feeding.hand)
        self.feeding.grown = self.heads.grow
        # How many own edits are surely in the journal, whatever happens now; the head that was told last, and when.
        self.safe, self.told, self.told_at, self.shown, self.task = lambda: 0, None, 0.0, set(), None
        self.begun_with, self.is_parted, self.is_taken, self.looks = 0, False, False, []
        carrier.met_twin = self.meet_twin
        carrier.takers.update({WANT: self.lending.take_want, GIVE: self.lending.take_give})
        carrier.keepers["head"] = self.take_head
        carrier.comings.append(self.lending.come)
        carrier.changes.append(self.change)

    def begin(self):
        """Reads the journal as it is at the start. Gives why this seat can't go on with it, in words, or nothing."""
        self.heads.grow(self.feeds.read_on())
        self.begun_with = self.feeds[self.seat].count
        return self.what_is_wrong()

    def what_is_wrong(self):
        """Why this seat can't go on with its journal, as far as that is known here."""
        if self.is_taken:
            return TAKEN
        head, held = self.heads.newest.get(self.seat), self.feeds[self.seat].count
        if head is None or (head.count <= held and self.seat not in self.heads.liars):
            return None
        return OLDER.format(journal=self.journal, held=held, told=head.count)

    def start(self, edits):
        """Begins to look at the journal. `edits` gives how many edits the node has said `ok` to since `begin`."""
        self.safe = lambda: self.begun_with + edits()
        self.task = asyncio.get_running_loop().create_task(self.run())

    async def stop(self):
        """Ends, and tells the last head."""
        if self.task:
            self.task.cancel()
            await asyncio.gather(self.task, return_exceptions=True)
            self.look()
            self.tell(time.monotonic() + BETWEEN)
        await self.feeding.stop()

    async def run(self):
        while True:
            try:
                self.step()
            except Exception:
                # The next look may do better, and without any nobody would be told anything.
                LOG.exception("a look at the journal and the heads failed")
            await asyncio.sleep(LOOK)

    def step(self):
        """Takes what came, tells, asks and has all others look who want to."""
        self.look()
        self.tell(time.monotonic())
        if not self.feeding.is_busy:
            self.lending.look(self.carrier.here())
        for look in self.looks:
            look()

    def meet_twin(self, is_later):
        """This seat runs elsewhere too. Where it is the later one of them it goes no further."""
        if is_later:
            self.is_taken = True
            self.judge()
        else:
            self.carrier.say(OPENED)

    def change(self, up, fault):
        """The connection was made or lost. Made anew, all heads are told anew, since the broker may have lost them."""
        self.told = None
        if not up:
            self.lending.asked = None

    def look(self):
        """Takes what came to the journal."""
        self.heads.grow(self.feeds.read_on())
        self.judge()

    def take_head(self, words, data):
        """The broker has a head of some seat."""
        head = self.heads.take(data)
        if head is not None and words == [str(head.seat)]:
            self.judge()

    def judge(self):
        """Says what doesn't fit, once. A seat whose own head is beyond its journal sends nothing more."""
        if self.task and not self.is_parted and self.what_is_wrong():
            self.is_parted, self.carrier.runs = True, lambda: False
            self.carrier.say(TAKEN if self.is_taken else ELSEWHERE)
        for seat in self.heads.liars - self.shown - {self.seat}:
            self.shown.add(seat)
            self.carrier.say(LIES.format(seat=f"seat {seat}"))

    def tell(self, now):
        """Signs and leaves a head with the broker, where there are more own records than in the last one."""
        feed = self.feeds[self.seat]
        count = min(feed.count, self.safe())
        if self.is_parted or not self.carrier.broker.up or count == self.told or now - self.told_at < BETWEEN:
            return
        clock = feed.clock if count == feed.count else 0
        data = signed(self.roster, self.carrier.keys.signing, self.seat, count, clock, feed.digest(count))
        self.heads.take(data)
        self.carrier.broker.publish(topic(self.roster.session, "head", self.seat), data, keep=True)
        self.told, self.told_at = count, now
