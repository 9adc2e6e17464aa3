"""Want and give: who misses records that somebody has is handed them, as far as they lead to a head that their seat has signed.

A want has how many records of each seat are held. What is given for it is, for each seat of which there are more, the newest head
whose records are all there, and the records up to that, in parts; behind the last one a give that says that this was all.
"""

import asyncio
import struct
import time

from carrier.feeds import FAULTS, next_digest, records_of
from carrier.heads import SIZE, head_of
from carrier.roster import SEATS
from carrier.sealing import GIVE, WANT

WANTED = struct.Struct(f">{SEATS}H")
# What a give is: the end of what is given, or a head, the number of the first record, and records.
END, PART = b"\0", b"\1"
NUMBER = struct.Struct(">H")
# A part has so many bytes of records at most, and what one seat signed so many.
MOST_PART, MOST_LOAN = 60_000, 40 << 20
# So many seconds a seat has to give the next part, and so many lie between two questions to the same seat.
PATIENCE, AGAIN = 6.0, 5.0
# So many lie between two gives to the same seat.
BETWEEN = 2.0


def parts_of(records):
    """How many records go together, one number after the other."""
    size, count = 0, 0
    for record in records:
        if size + len(record) > MOST_PART:
            yield count
            size, count = 0, 0
        size, count = size + len(record), count + 1
    if count:
        yield count


class Loan:
    """Records of one seat that come in parts, until they reach a head."""

    def __init__(self, head, first):
        self.head, self.first, self.records, self.clocks, self.size = head, first, [], [], 0

    @property
    def next(self):
        return self.first + len(self.records)

    def add(self, data):
        """Takes the bytes of more records. Says whether they can be such."""
        self.size += len(data)
        try:
            found = list(records_of(data))
        except FAULTS:
            return False
        if self.size > MOST_LOAN or any(event["site"] != self.head.seat for event, _ in found):
            return False
        self.records += [record for _, record in found]
        self.clocks += [event["clock"] for event, _ in found]
        return self.next <= self.head.count + 1

    def leads_from(self, digest):
        """Whether the records lead from a digest to the head."""
        for record in self.records:
            digest = next_digest(digest, record)
        return digest == self.head.digest


class Lending:
    """Wants and gives of one seat."""

    def __init__(self, roster, seat, feeds, heads, send, hand, clock=time.monotonic):
        """`send` sends a content of a kind to a seat; `hand` is called with a loan that leads to its head; `clock` gives seconds."""
        self.roster, self.seat, self.feeds, self.heads = roster, seat, feeds, heads
        self.send, self.hand, self.clock = send, hand, clock
        self.loans, self.giving, self.given_at = {}, set(), {}
        # Who was asked last and since when, who comes next, and when each was asked.
        self.asked, self.asked_at, self.queue, self.times = None, 0.0, [], {}

    # What is wanted.

    def come(self, seat):
        """A seat has come: it is asked in its turn."""
        if seat not in self.queue:
            self.queue.append(seat)

    def look(self, here):
        """Asks one of the seats that are here, where it is time to: one after the other those that came, and again and again one
        where records are missing."""
        now = self.clock()
        if self.asked is not None and now - self.asked_at < PATIENCE:
            return
        self.asked = None
        if self.heads.missing():
            late = [each for each in here if each not in self.queue and now - self.times.get(each, -AGAIN) >= AGAIN]
            self.queue += sorted(late, key=lambda each: self.times.get(each, -AGAIN))[:1]
        self.queue = [each for each in self.queue if each in here]
        if self.queue:
            self.ask(self.queue.pop(0), now)

    def ask(self, seat, now):
        self.asked, self.asked_at, self.times[seat] = seat, now, now
        self.loans.clear()
        self.send(seat, WANT, WANTED.pack(*self.feeds.counts()))

    def take_give(self, sender, content):
        """Something was given. What nobody asked for is passed over."""
        if sender != self.asked:
            return
        self.asked_at = self.clock()
        if content == END:
            self.asked = None
        elif content[:1] == PART and len(content) > SIZE + 3:
            self.take_part(content[1 : 1 + SIZE], NUMBER.unpack_from(content, 1 + SIZE)[0], content[3 + SIZE :])

    def take_part(self, data, first, records):
        """Puts a part to the ones before it, and hands on what leads to its head."""
        head = head_of(self.roster, data)
        if head is None or head.seat == self.seat:
            return
        loan = self.loans.get(head.seat)
        if loan is None or loan.head.data != head.data:
            loan = Loan(head, first)
        if first != loan.next or not loan.add(records):
            self.loans.pop(head.seat, None)
            return
        self.loans[head.seat] = loan
        if loan.next == head.count + 1:
            del self.loans[head.seat]
            self.finish(loan)

    def finish(self, loan):
        """Hands on a loan whose records lead from what is held to its head, and knows the head from then on."""
        feed = self.feeds[loan.head.seat]
        if 1 <= loan.first <= feed.count + 1 and loan.leads_from(feed.digest(loan.first - 1)):
            self.heads.take(loan.head.data)
            self.hand(loan)
        elif loan.first <= feed.count + 1:
            # It is signed and doesn't follow from what is here: one of the two is another story.
            self.heads.take(loan.head.data)

    # What is given.

    def take_want(self, sender, content):
        """Somebody misses records. One who is being given some, or was just now, isn't given more."""
        now = self.clock()
        is_soon = sender in self.giving or now - self.given_at.get(sender, -BETWEEN) < BETWEEN
        if len(content) == WANTED.size and not is_soon:
            self.giving.add(sender)
            self.given_at[sender] = now
            task = asyncio.get_running_loop().create_task(self.give(sender, WANTED.unpack(content)))
            task.add_done_callback(lambda done: self.giving.discard(sender))

    async def give(self, to, counts):
        """Gives a seat what it misses."""
        try:
            for seat, head in sorted(self.heads.proved.items()):
                if seat != to and head.count > counts[seat - 1]:
                    await self.give_records(to, head, counts[seat - 1] + 1)
        except OSError:
            # The journal can't be read now: somebody else may have the rest.
            pass
        self.send(to, GIVE, END)

    async def give_records(self, to, head, first):
        records = self.feeds.records(head.seat, first, head.count)
        at = 0
        for count in parts_of(records):
            part = PART + head.data + NUMBER.pack(first + at) + b"".join(records[at : at + count])
            self.send(to, GIVE, part)
            at += count
            await asyncio.sleep(0)
