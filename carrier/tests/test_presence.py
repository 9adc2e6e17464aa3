"""What seats say of themselves beside the frames."""

import json
import unittest

from carrier.presence import AGAIN, BETWEEN, Presence, read
from carrier.sealing import PRESENCE

GOOD = {"at": 5, "name": "Ana", "point": [1, 2.5], "selection": ["1.1", "70.16"]}


def packed(**fields):
    return json.dumps({**GOOD, **fields}).encode()


class Contents(unittest.TestCase):
    def test_what_is_taken(self):
        self.assertEqual(read(packed()), GOOD)
        self.assertEqual(read(packed(name="", point=None, selection=[])), {"at": 5, "name": "", "point": None, "selection": []})
        self.assertEqual(read(b'{"at":9,"bye":true}'), {"at": 9, "bye": True})
        self.assertEqual(read(packed(name="é" * 32))["name"], "é" * 32)

    def test_what_is_none(self):
        bad = [b"", b"{", b"[]", b"null", b"1", b"\xff", b"[" * 5000, packed(more="x" * 8000)]
        bad += [packed(at=each) for each in (-1, 1.5, "1", None, True)]
        bad += [packed(name=each) for each in (None, 1, "x" * 65, "a\nb", "\x1b[2J")]
        bad += [packed(point=each) for each in ([1], [1, 2, 3], "12", [1, "2"], [1e11, 0], [True, 1], {"x": 1})]
        bad += [b'{"at":1,"name":"","point":[NaN,0],"selection":[]}', b'{"at":1,"name":"","point":[Infinity,0],"selection":[]}']
        bad += [packed(selection=each) for each in (None, "1.1", ["1"], ["1.1 "], [11], ["<b>"], ["1.1"] * 65)]
        bad += [json.dumps({name: GOOD[name] for name in GOOD if name != left}).encode() for left in GOOD]
        for content in bad:
            self.assertIsNone(read(content), content[:80])


class Seats(unittest.TestCase):
    def setUp(self):
        self.time, self.sent, self.told = 100.0, [], []
        self.one = Presence(self.send, lambda kind, **fields: self.told.append((kind, fields)), lambda: self.time)

    def send(self, seat, kind, content):
        self.assertEqual(kind, PRESENCE)
        self.sent.append((seat, read(content)))

    def test_twenty_a_second_and_only_to_those_who_are_here(self):
        for step in range(200):
            self.time = 100 + step / 100
            self.one.take_page({"point": [step, 0], "selection": []})
            self.one.look([2, 3], "Ana")
        to_two = [said for seat, said in self.sent if seat == 2]
        self.assertLessEqual(len(to_two), 41)
        self.assertGreater(len(to_two), 30)
        self.assertEqual({seat for seat, _ in self.sent}, {2, 3})

    def test_what_stays_is_said_seldom_and_to_newcomers(self):
        times = []
        for step in range(1300):
            self.time = 100 + step / 10
            self.one.look([2], "Ana")
            times += [step / 10] * len(self.sent)
            self.sent.clear()
        self.assertEqual(times[0], 0)
        self.assertEqual(len(times), 5)
        self.assertTrue(all(later - earlier >= AGAIN - 0.01 for earlier, later in zip(times, times[1:])))
        self.one.come(3)
        self.time += BETWEEN
        self.one.look([2, 3], "Ana")
        self.assertEqual([seat for seat, _ in self.sent], [3])

    def test_pages_are_told_what_others_say(self):
        self.assertFalse(self.one.take(2, packed()))
        self.assertEqual(self.told, [
            ("pointer", {"site": 2, "point": [1, 2.5]}),
            ("presence", {"site": 2, "name": "Ana", "selection": ["1.1", "70.16"], "gone": False}),
        ])
        self.told.clear()
        self.one.take(2, packed(at=6, point=[3, 3]))
        # What came before, or again, or is none, changes nothing.
        for content in (packed(at=5, name="Old"), packed(at=6, name="Again"), b"{}"):
            self.one.take(2, content)
        self.assertEqual(self.told, [("pointer", {"site": 2, "point": [3, 3]})])
        self.assertEqual(self.one.names(), {2: "Ana"})

    def test_what_a_seat_said_goes_with_it(self):
        for end in (lambda: self.one.look([3], "Ana"), lambda: self.assertTrue(self.one.take(2, b'{"at":99,"bye":true}'))):
            self.one.latest.clear()
            self.one.take(2, packed())
            self.told.clear()
            end()
            self.assertIn(("pointer", {"site": 2, "point": None}), self.told)
            self.assertEqual(self.one.names(), {})
            self.assertEqual(list(self.one.opening(1)), [])

    def test_what_a_page_asks_for(self):
        for asked in ({}, {"point": [1, 2]}, {"point": 1, "selection": []}, {"point": None, "selection": ["x"]}):
            with self.assertRaises(ValueError):
                self.one.take_page(asked)
