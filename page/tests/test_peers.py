"""What is known of the other sites, with a clock of the test's own."""

import unittest
from unittest import mock

from page.peers import AWAY, SILENT, UNSURE, Peers


class Known(unittest.TestCase):
    def setUp(self):
        self.now = 1000.0
        patch = mock.patch("page.peers.time.monotonic", lambda: self.now)
        patch.start()
        self.addCleanup(patch.stop)

    def away(self, peers, silence=0):
        told = peers.told({}, silence)["peers"]
        return [each["site"] for each in told if each["away"]], [each["site"] for each in told if each["perhaps"]]

    def stand(self, peers, kept, line):
        peers.stand({"held": 9, "kept": kept, "line": line, "clock": 9})

    def test_all_are_away_where_nothing_comes(self):
        peers = Peers(2, 3)
        self.assertEqual(self.away(peers), ([], []))
        self.now += AWAY
        self.assertEqual(self.away(peers), ([1, 3], []))
        peers.datagrams()
        self.assertEqual(self.away(peers), ([], []))

    def test_soon_after_the_last_sign_nothing_is_sure(self):
        peers = Peers(2, 3)
        for seconds, is_quiet in ((0, False), (UNSURE / 2, False), (UNSURE / 2, True)):
            self.now += seconds
            self.assertEqual(peers.told({}, 0)["quiet"], is_quiet)
        peers.datagrams()
        self.assertFalse(peers.told({}, 0)["quiet"])

    def test_the_one_that_the_line_waits_for_is_away(self):
        peers = Peers(1, 3)
        peers.event(8, 3, is_new=True)
        peers.event(4, 2, is_new=True)
        self.stand(peers, kept=2, line=4)
        self.now += AWAY
        peers.datagrams()
        self.assertEqual(self.away(peers), ([2], []))
        self.stand(peers, kept=2, line=5)
        self.assertEqual(self.away(peers), ([], []))

    def test_one_of_several_is_only_perhaps(self):
        peers = Peers(1, 3)
        self.stand(peers, kept=2, line=4)
        self.now += AWAY
        peers.datagrams()
        self.assertEqual(self.away(peers), ([], [2, 3]))

    def test_nobody_is_where_nothing_is_kept(self):
        peers = Peers(1, 2)
        for _ in range(5):
            self.stand(peers, kept=0, line=4)
            peers.datagrams()
            self.now += AWAY
            peers.datagrams()
        self.stand(peers, kept=1, line=4)
        self.assertEqual(self.away(peers), ([], []))

    def test_while_the_node_is_silent_nobody_is_called_away(self):
        peers = Peers(1, 2)
        self.now += 100
        self.assertEqual(self.away(peers, silence=SILENT), ([], []))
        self.assertEqual([peers.told({}, each)["silent"] for each in (0, SILENT - 1, SILENT)], [False, False, True])
        peers.resume()
        self.assertEqual(self.away(peers), ([], []))

    def test_own_edits_above_the_line_wait(self):
        peers = Peers(1, 2)
        for clock in (1, 3, 6, 7):
            peers.event(clock, 1, is_new=True)
        peers.event(5, 2, is_new=True)
        self.assertEqual(peers.waiting(), 4)
        self.stand(peers, kept=3, line=3)
        self.assertEqual(peers.told({}, 0)["waiting"], 2)
        self.stand(peers, kept=0, line=7)
        self.assertEqual(peers.waiting(), 0)

    def test_when_each_was_heard(self):
        peers = Peers(1, 3)
        peers.event(1, 3, is_new=False)
        peers.event(2, 2, is_new=True)
        self.now += 7
        peers.note(3)
        self.now += 2
        told = {each["site"]: (each["name"], each["heard"]) for each in peers.told({2: "Bob"}, 0)["peers"]}
        self.assertEqual(told, {2: ("Bob", 9), 3: (None, 2)})
