"""Want and give between seats that hold different records, without a broker."""

import asyncio

from carrier.feeds import Feeds
from carrier.heads import SIZE, Heads
from carrier.lending import BETWEEN, END, MOST_PART, PART, WANTED, Lending
from carrier.roster import SEATS
from carrier.sealing import GIVE, MOST, WANT
from carrier.tests.logs import create, log
from carrier.tests.rosters import SESSION, roster_with
from carrier.tests.test_heads import WithJournal, records_by
from page.tests.places import until


class Member:
    """One seat with a journal of these records. What it sends lies in `sent`, what it hands its node in `handed`."""

    def __init__(self, test, seat, records):
        self.seat, self.sent, self.handed, self.time = seat, [], [], 0.0
        self.path = test.folder / f"{seat}.log"
        self.path.write_bytes(log(records, site=seat))
        self.feeds = Feeds(self.path, SESSION, SEATS)
        self.feeds.read_on()
        self.heads = Heads(roster_with(), self.feeds)
        self.lending = Lending(roster_with(), seat, self.feeds, self.heads, self.send, self.handed.append, lambda: self.time)

    def send(self, to, kind, content):
        self.sent.append((to, kind, content))

    def wants(self, other):
        """Asks another seat. Gives the content of the want."""
        self.lending.come(other)
        self.lending.look([other])
        ((to, kind, content),) = self.sent
        self.sent.clear()
        assert (to, kind) == (other, WANT)
        return content


class Lent(WithJournal):
    async def given(self, member, want, to=2):
        """What a member gives for a want."""
        member.lending.take_want(to, want)
        await until(lambda: member.sent and member.sent[-1][2] == END)
        sent, member.sent = member.sent[:], []
        self.assertEqual({(each, kind) for each, kind, _ in sent}, {(to, GIVE)})
        return [content for _, _, content in sent]

    def giver(self, records, *heads):
        member = Member(self, 3, records)
        for each in heads:
            member.heads.take(each)
        return member

    async def test_what_is_missing_comes_up_to_the_head(self):
        records = records_by(1, 20)
        giver = self.giver(records, self.head(1, records, 18))
        wanter = Member(self, 2, records[:5])
        gives = await self.given(giver, wanter.wants(3))
        for content in gives:
            wanter.lending.take_give(3, content)
        (loan,) = wanter.handed
        self.assertEqual((loan.head.seat, loan.first, loan.records), (1, 6, records[5:18]))
        self.assertEqual(loan.clocks, list(range(6, 19)))
        self.assertEqual((wanter.lending.asked, wanter.heads.missing()), (None, [1]))

    async def test_many_records_come_in_parts(self):
        records = records_by(1, 1000, b"x" * 200)
        giver = self.giver(records, self.head(1, records))
        wanter = Member(self, 2, [])
        gives = await self.given(giver, wanter.wants(3))
        self.assertEqual(len(gives), 1 + -(-len(b"".join(records)) // (MOST_PART - MOST_PART % 228)))
        self.assertTrue(all(len(content) <= MOST for content in gives))
        for content in gives[:-2]:
            wanter.lending.take_give(3, content)
            self.assertEqual(wanter.handed, [])
        for content in gives[-2:]:
            wanter.lending.take_give(3, content)
        self.assertEqual(wanter.handed[0].records, records)

    async def test_what_doesn_t_lead_to_the_head_goes_nowhere(self):
        records, head = records_by(1, 12), self.head(1, records_by(1, 12))
        other = create(7, 1, 7, b"forged")
        stranger = create(13, 4, 1, b"of 4")
        rows = {
            "another record": (1, [*records[:6], other, *records[7:]]),
            "one left out": (1, [*records[:6], *records[7:]]),
            "another order": (1, [*records[:6], records[7], records[6], *records[8:]]),
            "one too many": (1, [*records, create(13, 1, 13, b"more")]),
            "a gap before": (7, records[6:]),
            "of another seat": (1, [*records[:11], stranger]),
            "from nowhere": (0, [other, *records]),
        }
        for name, (first, given) in rows.items():
            wanter = Member(self, 2, [])
            wanter.wants(3)
            wanter.lending.take_give(3, PART + head + first.to_bytes(2, "big") + b"".join(given))
            self.assertEqual(wanter.handed, [], name)
        wanter = Member(self, 2, [])
        wanter.wants(3)
        for content in (b"", b"\2", PART, PART + head, PART + bytes(SIZE) + b"\0\1" + records[0], PART + head + b"\0\1" + b"\xff" * 50):
            wanter.lending.take_give(3, content)
        self.assertEqual((wanter.handed, wanter.lending.asked), ([], 3))
        # The true ones are taken all the same.
        wanter.lending.take_give(3, PART + head + b"\0\1" + b"".join(records))
        self.assertEqual(wanter.handed[0].records, records)

    async def test_nobody_is_given_what_was_not_asked_for(self):
        records = records_by(1, 3)
        wanter = Member(self, 2, [])
        content = PART + self.head(1, records) + b"\0\1" + b"".join(records)
        wanter.lending.take_give(3, content)
        wanter.wants(3)
        wanter.lending.take_give(4, content)
        self.assertEqual(wanter.handed, [])

    async def test_one_is_asked_after_the_other(self):
        wanter = Member(self, 2, [])
        for seat in (3, 4, 5):
            wanter.lending.come(seat)
        asked = []
        for step in range(300):
            wanter.time = step / 10
            wanter.lending.look([3, 5])
            asked += [(wanter.time, to) for to, _, _ in wanter.sent]
            wanter.sent.clear()
            if wanter.time == 1:
                wanter.lending.take_give(3, END)
        # Seat 3 answers, seat 5 never does, seat 4 isn't there, and nothing is known to be missing.
        self.assertEqual(asked, [(0, 3), (1.1, 5)])
        wanter.heads.take(self.head(1, records_by(1, 3)))
        for step in range(300, 600):
            wanter.time = step / 10
            wanter.lending.look([3, 5])
        self.assertGreater(len(wanter.sent), 3)
        self.assertEqual({to for to, _, _ in wanter.sent}, {3, 5})

    async def test_wants_that_are_none_and_too_many(self):
        records = records_by(1, 3)
        giver = self.giver(records, self.head(1, records))
        want = WANTED.pack(*[0] * SEATS)
        for content in (b"", want[:-1], want + b"\0"):
            giver.lending.take_want(2, content)
        self.assertEqual(len(await self.given(giver, want)), 2)
        for _ in range(10):
            giver.lending.take_want(2, want)
        await asyncio.sleep(0)
        self.assertEqual(giver.sent, [])
        giver.time = BETWEEN
        self.assertEqual(len(await self.given(giver, want)), 2)
        # Who holds all is given nothing.
        giver.time = 2 * BETWEEN
        self.assertEqual(await self.given(giver, WANTED.pack(3, *[0] * 15)), [END])
