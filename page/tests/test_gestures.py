"""Which events are one gesture, and which wait until that is known."""

import unittest

from page.gestures import Gestures


class Waiting(unittest.TestCase):
    def setUp(self):
        self.gestures = Gestures()

    def test_events_wait_for_the_answers_to_their_gesture_and_those_behind_them_too(self):
        self.assertEqual(self.gestures.told(7), 7)
        self.gestures.begin()
        self.gestures.see(7, 20)
        self.gestures.see(9, 21)
        self.assertEqual(self.gestures.told(12), 7)
        self.assertEqual(self.gestures.end([20, 21], False), [20, 21])
        self.assertEqual((self.gestures.told(12), self.gestures.whole), (12, [[20, 21]]))

    def test_a_gesture_that_is_answered_waits_for_no_later_one(self):
        self.gestures.begin()
        self.gestures.begin()
        for place, clock in enumerate((4, 5, 6)):
            self.gestures.see(place, clock)
        self.gestures.end([4, 5], False)
        # What is read from the journal behind the answers waits for nothing.
        self.gestures.see(3, 5)
        self.assertEqual(self.gestures.told(4), 2)
        self.assertIsNone(self.gestures.end([6], False))
        self.assertEqual((self.gestures.told(4), self.gestures.whole), (4, [[4, 5]]))

    def test_what_a_node_took_before_its_end_is_of_the_gesture_that_it_cut(self):
        for answered, seen, wanted in (([4], [5, 6], [4, 6]), ([], [5, 6], [5, 6]), ([4, 5], [], [4, 5]), ([], [5], None), ([], [], None)):
            gestures = Gestures()
            gestures.begin()
            for place, clock in enumerate(seen):
                gestures.see(place, clock)
            self.assertEqual(gestures.end(answered, True), wanted, (answered, seen))
            self.assertEqual(gestures.told(9), 9)
