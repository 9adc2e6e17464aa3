"""Which gestures can be taken back and done again, by what was typed of each, and how that was answered."""

import unittest

from page.turns import MOST_BACKS, NOTHING, Turns


class Told(unittest.TestCase):
    def setUp(self):
        self.turns, self.clock = Turns(), 0

    def done(self, verb, edits=1, refused=0):
        """What a node answers to a line, or to a gesture of so many edits, and of so many lines that it refuses."""
        stamps = range(self.clock + 1, self.clock + 1 + edits)
        self.clock += edits
        lines = ["refused: NoObject"] * refused + [f"ok {clock}.1" for clock in stamps]
        return verb, lines if verb not in (b"begin", b"undo", b"redo") else [*lines, f"end {len(lines)}"]

    def end(self, name, *replies, is_astray=False):
        return self.turns.end(name, replies, is_astray)

    def assert_due(self, undo, redo):
        """What is next: its name and how many lines that takes, or none."""
        told = self.turns.told()
        self.assertEqual([due and (due["name"], due["lines"]) for due in (told["undo"], told["redo"])], [undo, redo])

    def test_gestures_are_taken_back_and_done_again_whole(self):
        self.assert_due(None, None)
        self.end("Made", self.done(b"begin", 2))
        self.end("Moved", self.done(b"move"))
        self.assert_due(("Moved", 1), None)
        self.end("", self.done(b"undo"))
        self.assert_due(("Made", 1), ("Moved", 1))
        self.end("", self.done(b"undo", 2))
        self.assert_due(None, ("Made", 1))
        self.end("", self.done(b"redo", 2))
        self.assert_due(("Made", 1), ("Moved", 1))
        self.end("Raised", self.done(b"raise"))
        self.assert_due(("Raised", 1), None)

    def test_one_that_was_several_at_the_node_takes_as_many_lines(self):
        self.end("Moved", self.done(b"begin", 512), self.done(b"begin", 512), self.done(b"move"))
        self.assert_due(("Moved", 3), None)
        self.end("", self.done(b"undo"), self.done(b"undo", 512), self.done(b"undo", 512))
        self.assert_due(None, ("Moved", 3))
        self.assertEqual(self.turns.told()["redo"], {"name": "Moved", "lines": 3, "first": 1026, "last": 2050})

    def test_the_clocks_are_those_of_the_last_events(self):
        self.end("Made", self.done(b"begin", 3))
        self.end("", self.done(b"undo", 3))
        self.assertEqual(self.turns.told()["redo"], {"name": "Made", "lines": 1, "first": 4, "last": 6})
        self.end("", self.done(b"redo", 3))
        self.assertEqual(self.turns.told()["undo"], {"name": "Made", "lines": 1, "first": 7, "last": 9})

    def test_a_gesture_of_which_nothing_was_taken_is_none(self):
        self.end("Moved", self.done(b"begin", 2, 1))
        self.assert_due(("Moved", 1), None)
        self.assertFalse(self.end("Moved", self.done(b"begin", 0, 2), (b"move", ["refused: NoObject"]), (b"focus", ["noted 1"])))
        self.assertFalse(self.end("Cut"))
        self.assert_due(("Moved", 1), None)
        self.end("Half", self.done(b"begin", 0, 512), self.done(b"begin", 1, 1))
        self.assert_due(("Half", 1), None)

    def test_of_a_gesture_that_was_taken_back_in_part_the_rest_can_be(self):
        self.end("Moved", *[self.done(b"begin", 500) for _ in range(5)])
        full = (b"undo", ["refused: SessionFull"])
        self.end("", *[self.done(b"undo", 500) for _ in range(3)], full, full)
        self.assert_due(("Moved", 2), ("Moved", 3))

    def test_more_than_a_gesture_has_are_taken_back(self):
        self.end("Made", self.done(b"begin", 2), self.done(b"begin", 2))
        self.end("Moved", self.done(b"move"))
        self.end("", self.done(b"undo"), self.done(b"undo", 2))
        self.assert_due(("Made", 1), ("Made", 2))

    def test_where_the_node_has_nothing_left_nothing_is_due(self):
        self.end("Made", self.done(b"create"), self.done(b"fill"))
        self.end("", self.done(b"undo"), (b"undo", [NOTHING]))
        self.assert_due(None, ("Made", 1))
        self.end("", self.done(b"redo"), (b"redo", [NOTHING]))
        self.assert_due(("Made", 1), None)

    def test_what_the_node_took_back_by_itself_leaves_nothing_to_do_again(self):
        self.end("Made", self.done(b"create"))
        self.end("Moved", self.done(b"move"))
        self.end("", self.done(b"undo"))
        self.assertTrue(self.end("Astray", is_astray=True))
        self.assert_due(("Made", 1), None)

    def test_what_the_node_forgets_a_part_of_can_t_be_taken_back(self):
        self.end("First", *[self.done(b"raise")] * (MOST_BACKS - 10))
        self.end("Second", *[self.done(b"raise")] * 11)
        self.assert_due(("Second", 11), None)
        self.end("", *[self.done(b"undo")] * 11)
        self.assert_due(None, ("Second", 11))
        self.end("Most", *[self.done(b"raise")] * MOST_BACKS)
        self.assert_due(("Most", MOST_BACKS), None)
        self.end("Too many", *[self.done(b"raise")] * (MOST_BACKS + 1))
        self.assert_due(None, None)

    def test_what_was_told_later_has_a_greater_number(self):
        numbers = [self.turns.told()["number"]]
        for verb in (b"raise", b"undo", b"redo"):
            self.assertTrue(self.end("", self.done(verb)))
            numbers.append(self.turns.told()["number"])
        self.turns.forget()
        numbers.append(self.turns.told()["number"])
        self.assertEqual(numbers, sorted(set(numbers)))
        self.assert_due(None, None)
