"""What the founder signs of seats that were left for good."""

import base64
import time
import types

from carrier.files import Founder
from carrier.keys import Keys
from carrier.retiring import MAGIC, OWN_MAGIC, SIZE, Retiring, leaving_file, retire, retired_of
from carrier.tests.rosters import FOUNDER, SEEDS, roster_with
from page.tests.places import WithFolder

KEY = Keys(FOUNDER).signing


class Statements(WithFolder):
    def test_what_the_founder_signed_and_nothing_else(self):
        data = retire(roster_with(), KEY, 3, 500, bytes(range(32)))
        found = retired_of(roster_with(), data)
        self.assertEqual((len(data), found.seat, found.count, found.digest), (SIZE, 3, 500, bytes(range(32))))
        for place in range(SIZE):
            for bit in range(8):
                changed = bytearray(data)
                changed[place] ^= 1 << bit
                self.assertIsNone(retired_of(roster_with(), bytes(changed)))
            self.assertIsNone(retired_of(roster_with(), data[:place]))
        for key in (Keys(SEEDS[1]).signing, Keys(SEEDS[3]).signing):
            self.assertIsNone(retired_of(roster_with(), retire(roster_with(), key, 3, 500, bytes(32))))
        for signer, seat, magic, is_good in ((3, 3, OWN_MAGIC, True), (3, 3, MAGIC, False), (3, 4, OWN_MAGIC, False)):
            signed = retire(roster_with(), Keys(SEEDS[signer]).signing, seat, 500, bytes(32), magic)
            self.assertEqual(retired_of(roster_with(), signed) is not None, is_good)
        self.assertIsNone(retired_of(roster_with(), retire(roster_with(), KEY, 3, 500, bytes(32), OWN_MAGIC)))
        other = retire(roster_with("Elm"), KEY, 3, 500, bytes(32))
        self.assertIsNone(retired_of(roster_with(), other[:5] + roster_with().digest[:4] + other[9:]))


class Wishes(WithFolder):
    def setUp(self):
        super().setUp()
        self.said, self.barred, self.published, self.is_up = [], [], [], True
        seat = types.SimpleNamespace(seat=1, roster=roster_with())
        broker = types.SimpleNamespace(publish=lambda name, data, keep: self.published.append(data) or self.is_up)
        self.carrier = types.SimpleNamespace(
            seat=seat, broker=broker, keepers={}, changes=[], bar=self.barred.append, say=self.said.append, runs=lambda: True
        )
        self.carrier.keys = Keys(SEEDS[1])
        self.feeds = {number: types.SimpleNamespace(count=0, digest=lambda count: bytes([count]) * 32) for number in SEEDS}
        heads = types.SimpleNamespace(proved={}, missing=lambda: self.missing)
        self.missing = []
        self.standing = types.SimpleNamespace(feeds=self.feeds, heads=heads, looks=[], told=None, told_at=-100.0)

    def retiring(self):
        return Retiring(self.carrier, self.standing, self.journal)

    def test_the_founder_retires_a_seat_once_all_is_here_that_it_signed(self):
        Founder(FOUNDER, {4: SEEDS[4]}).write(self.journal)
        Founder.note_retired(self.journal, 4)
        self.assertEqual(Founder.read(self.journal), Founder(FOUNDER, {}, {4: ""}))
        one = self.retiring()
        self.missing, self.feeds[4].count = [4], 2
        one.wish()
        self.assertEqual((one.gone, self.barred), ({}, []))
        # All is here, and more than it has signed.
        self.missing = []
        one.wish()
        self.assertEqual(one.gone, {})
        self.standing.heads.proved[4] = types.SimpleNamespace(count=2)
        one.wish()
        self.assertEqual((self.barred, one.ready()), ([4], {4: 2}))
        (data,) = self.published
        self.assertEqual(retired_of(roster_with(), data).digest, bytes([2]) * 32)
        self.assertEqual(base64.b64decode(Founder.read(self.journal).retired[4]), data)
        # The next run says the same, and a seat of which nothing was ever signed has no edits.
        Founder.note_retired(self.journal, 9)
        again = self.retiring()
        again.wish()
        self.assertEqual(again.ready(), {4: 2, 9: 0})
        self.assertEqual(len(self.published[-1]), 2 * SIZE)

    def test_others_take_what_was_signed_and_say_what_doesn_t_fit(self):
        one = self.retiring()
        self.assertFalse(one.is_founder)
        data = [retire(roster_with(), KEY, seat, 2, bytes(32)) for seat in (3, 5)]
        self.carrier.keepers["retired"]([], data[0] + data[1] + bytes(SIZE) + b"rest")
        self.assertEqual((self.barred, one.ready()), ([3, 5], {}))
        self.feeds[3].count, self.feeds[5].count = 2, 4
        for _ in range(3):
            one.look()
        self.assertEqual(one.ready(), {3: 2, 5: 4})
        self.assertEqual([line[:30] for line in self.said], ["seat 5 was retired, and 2 of i"])

    def test_a_seat_leaves_once_it_has_signed_all_that_it_drew(self):
        one, self.feeds[1].count = self.retiring(), 3
        self.standing.told = 3
        one.leave()
        self.assertEqual(one.gone, {})
        leaving_file(self.journal).touch()
        self.standing.told, self.standing.told_at = 2, time.monotonic() - 100
        one.leave()
        self.standing.told, self.standing.told_at = 3, time.monotonic()
        one.leave()
        self.standing.told_at, self.is_up = time.monotonic() - 100, False
        one.leave()
        self.assertEqual(one.gone, {})
        self.is_up = True
        one.look()
        found = retired_of(roster_with(), self.published[-1])
        self.assertEqual((found.seat, found.count, found.is_by_itself), (1, 3, True))
        self.assertEqual(one.ready(), {1: 3})
        self.assertEqual([line[:33] for line in self.said], ["this seat was retired by itself: "])
        self.assertFalse(self.carrier.runs())
        # The founder says nothing in its name.
        Founder(FOUNDER).write(self.journal)
        again, told = self.retiring(), len(self.published)
        again.take(found.data)
        again.publish()
        self.assertEqual(len(self.published), told)

    def test_a_seat_that_was_retired_stops(self):
        one = self.retiring()
        one.take(retire(roster_with(), KEY, 1, 0, bytes(32)))
        for _ in range(3):
            one.look()
        self.assertTrue(one.is_own)
        self.assertFalse(self.carrier.runs())
        self.assertEqual(len(self.said), 1)
