"""The proxy of a demonstration, over sockets."""

import socket
import time
import unittest

from page.audience import Audience
from page.demo import Proxy
from page.tests.places import PATIENCE


class Between(unittest.TestCase):
    """Two sites of three, whose sockets stand where their nodes would."""

    def setUp(self):
        self.proxy = Proxy(3, Audience(), seed=7)
        self.addCleanup(self.proxy.close)
        self.sites = [self.socket(self.proxy.addresses(site)[site - 1]) for site in (1, 2, 3)]
        self.proxy.start()

    def socket(self, address):
        host, port = address.split(":")
        made = socket.socket(socket.AF_INET, socket.SOCK_DGRAM)
        made.bind((host, int(port)))
        made.settimeout(PATIENCE)
        self.addCleanup(made.close)
        return made

    def send(self, source, goal, data):
        host, port = self.proxy.addresses(source)[goal - 1].split(":")
        self.sites[source - 1].sendto(data, (host, int(port)))

    def came(self, goal, count=0, quiet=0.3):
        """All that comes to a site, until there are so many and then none comes for some time."""
        found = []
        while True:
            self.sites[goal - 1].settimeout(quiet if len(found) >= count else PATIENCE)
            try:
                found.append(self.sites[goal - 1].recv(100))
            except TimeoutError:
                return found

    def test_each_site_has_addresses_of_its_own(self):
        lists = [self.proxy.addresses(site) for site in (1, 2, 3)]
        self.assertEqual(len({address for addresses in lists for address in addresses}), 9)

    def test_datagrams_are_handed_on(self):
        self.send(1, 2, b"a")
        self.send(3, 2, b"b")
        self.send(2, 1, b"c")
        self.assertEqual(sorted(self.came(2, 2)), [b"a", b"b"])
        self.assertEqual(self.came(1, 1), [b"c"])
        self.assertEqual(self.came(3), [])

    def test_they_come_from_the_address_at_which_their_sender_is_known(self):
        for source, goal in ((1, 2), (2, 1), (3, 1)):
            self.send(source, goal, b"a")
            self.sites[goal - 1].settimeout(PATIENCE)
            _, (host, port) = self.sites[goal - 1].recvfrom(100)
            self.assertEqual(f"{host}:{port}", self.proxy.addresses(goal)[source - 1])

    def test_a_site_is_cut_off_both_ways(self):
        self.proxy.set({"cut": [2]})
        for source, goal in ((1, 2), (2, 1), (2, 3), (3, 2), (1, 3)):
            self.send(source, goal, b"x")
        self.assertEqual([self.came(3, 1), self.came(1), self.came(2)], [[b"x"], [], []])
        self.proxy.set({"cut": []})
        self.send(1, 2, b"y")
        self.assertEqual(self.came(2, 1), [b"y"])

    def test_what_is_on_its_way_to_a_cut_site_is_lost(self):
        self.proxy.set({"delay": 3000})
        for _ in range(20):
            self.send(1, 2, b"x")
        time.sleep(0.1)
        self.proxy.set({"cut": [2]})
        self.assertLess(len(self.came(2, quiet=3.2)), 20)

    def test_all_are_lost_or_doubled(self):
        self.proxy.set({"loss": 100})
        self.send(1, 2, b"x")
        self.assertEqual(self.came(2), [])
        self.proxy.set({"loss": 0, "twice": 100})
        self.send(1, 2, b"y")
        self.assertEqual(self.came(2, 2), [b"y", b"y"])

    def test_some_are_lost(self):
        self.proxy.set({"loss": 50})
        for _ in range(100):
            self.send(1, 2, b"x")
            time.sleep(0.001)
        self.assertTrue(20 < len(self.came(2, 21, quiet=1)) < 80)

    def test_datagrams_are_delayed(self):
        self.proxy.set({"delay": 400})
        began = time.monotonic()
        for number in range(30):
            self.send(1, 2, b"%d" % number)
        found = self.came(2, 30, quiet=0.5)
        self.assertEqual(sorted(found), sorted(b"%d" % number for number in range(30)))
        self.assertNotEqual(found, sorted(found, key=int))
        self.assertGreater(time.monotonic() - began, 0.2 + 0.5)

    def test_settings_out_of_range_change_nothing(self):
        before = self.proxy.settings
        wrong = [{"loss": -1}, {"loss": 101}, {"twice": 1.5}, {"delay": 3001}, {"delay": "1"}, {"loss": True}]
        for settings in [*wrong, {"cut": 1}, {"cut": [0]}, {"cut": [4]}, {"cut": [True]}, {"loss": 5, "cut": ["1"]}]:
            with self.assertRaises(ValueError, msg=settings):
                self.proxy.set(settings)
        self.assertEqual(self.proxy.settings, before)
