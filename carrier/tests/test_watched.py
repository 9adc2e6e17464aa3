"""What seats leave for those who only look on, and what these take of it."""

import types
import unittest

from carrier.feeds import Feed, first_digest
from carrier.heads import head_of, signed
from carrier.keys import Keys, public_bytes
from carrier.retiring import retire
from carrier.sealing import FRAME, KINDS, WATCH as KIND, WATCHERS, Seals
from carrier.tests.logs import create, move
from carrier.tests.rosters import FOUNDER, SEEDS, SESSION, WATCH, roster_with
from carrier.watched import MOST_PIECE, Ends, Piece, key_of, piece_of, statement
from carrier.watching import Feeds
from page.journal import event_at

ROSTER = roster_with()
KEY = public_bytes(Keys(WATCH).exchange)


def feed_of(records, seat):
    feed = Feed(first_digest(SESSION, seat))
    for record in records:
        feed.add(0, record, event_at(record, 0)[0]["clock"])
    return feed


def piece(records, first, last, seat=2, name="Ben", key=None, whole=None):
    """The records of a seat from one number to another, with a head over all of them up to there."""
    digest = feed_of((whole or records)[:last], seat).digest(last)
    data = signed(ROSTER, Keys(key or SEEDS[seat]).signing, seat, last, 0, digest)
    return data, first, name, records[first - 1 : last]


def content(*words, **more):
    data, first, name, records = piece(*words, **more)
    return Piece(types.SimpleNamespace(data=data), first, name, records).data


RECORDS = [create(clock, 2, clock, f"shape {clock}".encode()) for clock in range(1, 8)]


class Statements(unittest.TestCase):
    def test_the_founder_alone_says_whose_key_it_is(self):
        data = statement(ROSTER, Keys(FOUNDER).signing, KEY)
        self.assertEqual(key_of(ROSTER, data), KEY)
        others = [statement(ROSTER, Keys(SEEDS[1]).signing, KEY), data[:-1], data + b"\0", b""]
        others += [data[:place] + bytes([data[place] ^ 1]) + data[place + 1 :] for place in range(len(data))]
        for other in others:
            self.assertIsNone(key_of(ROSTER, other))
        self.assertIsNone(key_of(roster_with(session=bytes(16)), data))


class WatchSeals(unittest.TestCase):
    def setUp(self):
        self.ben, self.watcher = Seals(ROSTER, 2, Keys(SEEDS[2])), Seals(ROSTER, WATCHERS, Keys(WATCH))
        self.ben.seal_for_watchers(ROSTER, Keys(SEEDS[2]), KEY)

    def test_who_looks_on_reads_what_is_for_that_and_nothing_else(self):
        self.assertEqual(self.watcher.opened(2, self.ben.seal(WATCHERS, KIND, b"shown")), (KIND, b"shown"))
        for seat in (1, 3):
            self.assertIsNone(Seals(ROSTER, seat, Keys(SEEDS[seat])).opened(2, self.ben.seal(WATCHERS, KIND, b"shown")))
            self.assertIsNone(self.watcher.opened(2, self.ben.seal(seat, FRAME, b"not for them")))
        self.assertIsNone(self.watcher.opened(3, self.ben.seal(WATCHERS, KIND, b"shown")))

    def test_no_seat_takes_what_they_seal(self):
        for seat in range(1, 17):
            seals = Seals(ROSTER, seat, Keys(SEEDS[seat]))
            for kind in KINDS:
                sealed = self.watcher.seal(seat, kind, b"drawn")
                for sender in range(17):
                    self.assertIsNone(seals.opened(sender, sealed))


class Pieces(unittest.TestCase):
    def test_bytes_and_back(self):
        found = piece_of(ROSTER, content(RECORDS, 3, 7))
        self.assertEqual((found.head.seat, found.head.count, found.first, found.name), (2, 7, 3, "Ben"))
        self.assertEqual(found.records, RECORDS[2:])

    def test_what_is_no_piece(self):
        good = content(RECORDS, 1, 7)
        forged = content(RECORDS, 1, 7, key=SEEDS[3])
        other = content([create(1, 3, 1)], 1, 1, key=SEEDS[2])
        for data in (good[:-1], good + b"\0", good[:100], b"", forged, other, content(RECORDS, 3, 2)):
            self.assertIsNone(piece_of(ROSTER, data))

    def test_pieces_end_at_the_same_places_however_many_records_there_are(self):
        label = b"x" * 200
        feed = feed_of([create(clock, 2, clock, label) for clock in range(1, 101)], 2)
        ends, each = Ends(feed), MOST_PIECE // feed.lengths[0]
        self.assertEqual(ends.up_to(0), [])
        self.assertEqual(ends.up_to(each), [(1, each)])
        self.assertEqual(ends.up_to(each + 1), [(1, each), (each + 1, each + 1)])
        whole = Ends(feed).up_to(100)
        self.assertEqual(ends.up_to(100), whole)
        self.assertEqual([last + 1 for _, last in whole[:-1]], [first for first, _ in whole[1:]])
        self.assertEqual((whole[0][0], whole[-1][1]), (1, 100))


class Taken(unittest.TestCase):
    def setUp(self):
        self.feeds = Feeds(ROSTER)

    def grown(self):
        return [(seat, first, records) for seat, first, records, _ in self.feeds.grown()]

    def test_pieces_in_any_order_and_twice(self):
        self.feeds.take(2, content(RECORDS, 4, 6))
        self.assertEqual(self.grown(), [])
        for _ in range(2):
            self.feeds.take(2, content(RECORDS, 1, 3))
        self.assertEqual(self.grown(), [(2, 1, RECORDS[:6])])
        self.feeds.take(2, content(RECORDS, 4, 7, name="Benno"))
        self.feeds.take(2, content(RECORDS, 4, 6))
        self.assertEqual(self.grown(), [(2, 7, RECORDS[6:])])
        self.assertEqual((self.feeds.names, self.feeds.heads.liars), ({2: "Benno"}, set()))

    def test_another_seat_s_piece_and_changed_records_are_passed_over(self):
        changed = [*RECORDS[:2], move(3, 2, 3, (1, 2)), *RECORDS[3:]]
        self.feeds.take(3, content(RECORDS, 1, 7))
        self.assertEqual(self.grown(), [])
        self.feeds.take(2, content(changed, 1, 7, whole=RECORDS))
        self.assertEqual(self.grown(), [])

    def test_two_stories_are_seen(self):
        self.feeds.take(2, content(RECORDS, 1, 3))
        self.assertEqual(self.grown(), [(2, 1, RECORDS[:3])])
        other = [create(1, 2, 1, b"another"), *RECORDS[1:]]
        self.feeds.take(2, content(other, 1, 4))
        self.assertEqual(self.grown(), [])
        self.assertEqual(self.feeds.heads.liars, {2})

    def test_of_a_retired_seat_no_more_is_taken_than_the_founder_says(self):
        feed = feed_of(RECORDS, 2)
        self.feeds.retire(retire(ROSTER, Keys(FOUNDER).signing, 2, 4, feed.digest(4)))
        self.feeds.take(2, content(RECORDS, 1, 7))
        self.assertEqual(self.grown(), [(2, 1, RECORDS[:4])])
        self.assertEqual(self.grown(), [])
        self.assertIsNotNone(head_of(ROSTER, content(RECORDS, 1, 7)[:114]))


if __name__ == "__main__":
    unittest.main()
