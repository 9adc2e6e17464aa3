"""Records of a journal, digests of them, and signed heads."""

import hashlib
import unittest

from carrier.feeds import FAULTS, Feeds, records_of
from carrier.heads import Heads, SIZE, head_of, signed
from carrier.frames import closing, count_of, crc32c, frame, frames
from carrier.keys import Keys
from carrier.roster import SEATS
from carrier.tests.rosters import SEEDS, SESSION, roster_with
from carrier.tests.logs import create, disband, log, move
from page.tests.places import WithFolder

SIGNING = {seat: Keys(SEEDS[seat]).signing for seat in SEEDS}


def records_by(seat, count, label=b"x"):
    return [create(clock, seat, clock, label) for clock in range(1, count + 1)]


def digests(seat, records):
    """The digests as carrier/README.md says."""
    found = [hashlib.sha256(b"groupdesign feed" + SESSION + bytes([seat])).digest()]
    for record in records:
        found.append(hashlib.sha256(found[-1] + record).digest())
    return found


class WithJournal(WithFolder):
    def feeds(self, records):
        self.journal.write_bytes(log(records))
        made = Feeds(self.journal, SESSION, SEATS)
        made.read_on()
        return made

    def head(self, seat, records, count=None, roster=None):
        count = len(records) if count is None else count
        return signed(roster or roster_with(), SIGNING[seat], seat, count, count, digests(seat, records)[count])


class FeedsOfAJournal(WithJournal):
    def test_counts_digests_and_records(self):
        one, two = records_by(1, 5), records_by(2, 3)
        feeds = self.feeds([one[0], two[0], *one[1:], *two[1:]])
        self.assertEqual(feeds.counts(), [5, 3] + [0] * 14)
        for seat, records in ((1, one), (2, two), (3, [])):
            self.assertEqual([feeds[seat].digest(at) for at in range(len(records) + 1)], digests(seat, records))
        self.assertEqual(feeds.records(1, 2, 4), one[1:4])
        self.assertEqual((feeds[1].clock, feeds[3].clock), (5, 0))
        self.assertEqual([feeds[2].check(count) for count in range(4)], [crc32c(b"".join(two[:count])) for count in range(4)])

    def test_it_is_read_on_whenever_more_is_there(self):
        records = [*records_by(1, 3), *records_by(2, 3)]
        whole = log(records)
        for cut in range(len(whole)):
            self.journal.write_bytes(whole[:cut])
            feeds = Feeds(self.journal, SESSION, SEATS)
            feeds.read_on()
            before = sum(feeds.counts())
            self.journal.write_bytes(whole)
            feeds.read_on()
            self.assertEqual((feeds.counts()[:2], feeds.read_on()), ([3, 3], set()), (cut, before))
            self.assertEqual(feeds[2].digest(3), digests(2, records[3:])[3])

    def test_records_one_behind_the_other(self):
        records = [create(1, 1, 1, b"a"), move(2, 1, 2, (1, 1)), create(3, 1, 3, b"long" * 40), disband(4, 1, 4, (1, 1), (3, 1))]
        self.assertEqual([record for _, record in records_of(b"".join(records))], records)
        for bad in (records[0] + b"\0", records[1][:-1], b"\0" * 30, records[0][:9] + b"\x0f" + records[0][10:]):
            with self.assertRaises(FAULTS):
                list(records_of(bad))


class SignedHeads(WithJournal):
    def test_a_head_is_read_again_and_each_change_is_refused(self):
        data = self.head(3, records_by(3, 4))
        head = head_of(roster_with(), data)
        self.assertEqual((len(data), head.seat, head.count, head.clock), (SIZE, 3, 4, 4))
        self.assertEqual(head.digest, digests(3, records_by(3, 4))[4])
        for place in range(len(data)):
            for bit in range(8):
                changed = bytearray(data)
                changed[place] ^= 1 << bit
                self.assertIsNone(head_of(roster_with(), bytes(changed)))
        for cut in range(len(data)):
            self.assertIsNone(head_of(roster_with(), data[:cut]))

    def test_another_seat_or_roster_signs_nothing_here(self):
        records = records_by(3, 4)
        self.assertIsNone(head_of(roster_with("Elm"), self.head(3, records)))
        data = self.head(3, records, roster=roster_with("Elm"))
        self.assertIsNone(head_of(roster_with(), data[:5] + roster_with().digest[:4] + data[9:]))
        forged = signed(roster_with(), SIGNING[4], 3, 4, 4, digests(3, records)[4])
        self.assertIsNone(head_of(roster_with(), forged))

    def test_the_newest_head_counts_and_what_is_missing_is_known(self):
        records = records_by(2, 6)
        heads = Heads(roster_with(), self.feeds(records[:4]))
        for count in (3, 6, 5, 6):
            self.assertEqual(heads.take(self.head(2, records, count)).count, count)
        self.assertEqual((heads.newest[2].count, heads.proved[2].count, heads.missing()), (6, 3, [2]))
        self.journal.write_bytes(log(records))
        heads.grow(heads.feeds.read_on())
        self.assertEqual((heads.proved[2].count, heads.missing(), heads.liars), (6, [], set()))

    def test_two_stories(self):
        records, others = records_by(2, 6), [*records_by(2, 5), create(6, 2, 6, b"for Ben")]
        for first, second in ((records, others), (others, records)):
            heads = Heads(roster_with(), self.feeds([]))
            heads.take(self.head(2, first))
            heads.take(self.head(2, first))
            self.assertEqual(heads.liars, set())
            heads.take(self.head(2, second))
            self.assertEqual(heads.liars, {2})
        # A head at odds with what the journal has, when it comes or when the records do.
        heads = Heads(roster_with(), self.feeds(records))
        heads.take(self.head(2, others))
        self.assertEqual(heads.liars, {2})
        heads = Heads(roster_with(), self.feeds(records[:3]))
        heads.take(self.head(2, others))
        self.assertEqual(heads.liars, set())
        self.journal.write_bytes(log(records))
        heads.grow(heads.feeds.read_on())
        self.assertEqual((heads.liars, heads.missing()), ({2}, []))

    def test_one_story_in_any_order_is_no_lie(self):
        records = records_by(2, 6)
        heads = Heads(roster_with(), self.feeds(records[:3]))
        for count in (6, 0, 3, 1, 5, 2, 4):
            heads.take(self.head(2, records, count))
        self.assertEqual(heads.liars, set())


class Frames(unittest.TestCase):
    def test_the_worked_frame_of_the_formats(self):
        """docs/FORMATS.md, section 8, but for what it acknowledges."""
        record = bytes.fromhex("000000000001 02 0001 01 01 00000000 00000000 0000000A 0000000A 00")
        self.assertEqual(
            frame(7, 2, 1, [record], 1, 1, crc32c(record)),
            bytes.fromhex("47444F46 03 00000007 02 01 0000 0001 000000000001 C218FBBA 0000 00000000000000 00 01") + record
            + bytes.fromhex("49B34D30"),
        )
        self.assertEqual(crc32c(b"123456789"), 0xE3069283)

    # Of 28 bytes each there are 40 records in a frame.
    def test_as_many_records_a_frame_as_fit(self):
        records = [create(clock, 3, clock) for clock in range(1, 91)]
        self.assertEqual({len(record) for record in records}, {28})
        made = list(frames(7, 3, 1, 11, records, list(range(101, 191)), 9))
        self.assertEqual([each[35] for each in made], [40, 40, 10])
        self.assertEqual([count_of(each) for each in made], [50, 90, 100])
        self.assertEqual([int.from_bytes(each[15:21], "big") for each in made], [140, 180, 190])
        self.assertEqual(b"".join(each[36:-4] for each in made), b"".join(records))
        self.assertEqual([len(each) for each in made], [1_160, 1_160, 320])
        # The longest record, and what fits behind it to the last byte or doesn't.
        for last, counts in ((138, [2]), (139, [1, 1])):
            self.assertEqual([each[35] for each in frames(7, 3, 1, 1, [bytes(1_006), bytes(last)], [1, 2], 0)], counts)
        # Each has the check of all records up to its last one, behind those whose check was given.
        whole = [crc32c(b"".join(records[:last]), 9) for last in (40, 80, 90)]
        self.assertEqual([int.from_bytes(each[21:25], "little") for each in made], whole)
        self.assertEqual(closing(7, 3, 1, 5, 1)[13:25], b"\0\5" + b"\xff" * 6 + b"\1\0\0\0")
