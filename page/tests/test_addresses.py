"""Addresses as people give them."""

import errno
import socket
import unittest
from unittest import mock

from page.addresses import BadAddress, check_own, looked_up, numeric

HERE = "127.0.0.1:7001"


TABLE = {
    socket.AF_INET: {"desk.example": "192.0.2.7", "127.0.0.1": "127.0.0.1", "192.0.2.8": "192.0.2.8"},
    socket.AF_INET6: {"desk.example": "2001:db8::7", "::1": "::1", "0:0:0:0:0:0:0:1": "::1"},
}


def found(host, _, family, *__):
    """What a table of names says, in the place of the machine's own."""
    if host not in TABLE[family]:
        raise socket.gaierror(socket.EAI_NONAME, "Name or service not known")
    return [(family, socket.SOCK_DGRAM, 17, "", (TABLE[family][host], 0))]


class Looked(unittest.TestCase):
    def setUp(self):
        patch = mock.patch("page.addresses.socket.getaddrinfo", found)
        patch.start()
        self.addCleanup(patch.stop)

    def refused(self, words, call, *given):
        with self.assertRaises(BadAddress) as said:
            call(*given)
        self.assertIn(words, str(said.exception))

    def test_names_become_numbers(self):
        self.assertEqual(looked_up([HERE, "desk.example:7002"], 1), [HERE, "192.0.2.7:7002"])
        self.assertEqual(looked_up(["[::1]:7001", "desk.example:7002"], 1), ["[::1]:7001", "[2001:db8::7]:7002"])

    def test_what_is_wrong_with_one(self):
        rows = {
            "127.0.0.1": "has no port",
            "desk.example": "has no port",
            ":7001": "has no port",
            "::1": "has no port",
            "::1:7001": "has no port",
            "127.0.0.1:": "no port from 1 to 65535",
            "127.0.0.1:0": "no port from 1 to 65535",
            "127.0.0.1:65536": "no port from 1 to 65535",
            "127.0.0.1:-1": "no port from 1 to 65535",
            "127.0.0.1:\u0661": "no port from 1 to 65535",
            "nobody.example:7001": "isn't known here",
            "[::2]:7001": "isn't known here by IPv4",
        }
        for word, why in rows.items():
            self.refused(why, numeric, word)

    def test_what_is_wrong_with_the_list(self):
        self.refused("there is 1 address:", looked_up, [HERE], 1)
        self.refused("there are 17 addresses", looked_up, [f"192.0.2.8:{port}" for port in range(1, 18)], 1)
        self.refused("no site 3 among 2", looked_up, [HERE, "192.0.2.8:7001"], 3)
        self.refused("no site 0 among 2", looked_up, [HERE, "192.0.2.8:7001"], 0)
        twice = [HERE, "192.0.2.8:7001", "192.0.2.8:07001"]
        self.refused("192.0.2.8:07001 stands there twice", looked_up, twice, 1)
        twice = ["[::1]:7001", "[0:0:0:0:0:0:0:1]:7001"]
        self.refused("[0:0:0:0:0:0:0:1]:7001 stands there twice", looked_up, twice, 1)
        self.refused("give all of one kind", looked_up, [HERE, "[::1]:7001"], 1)


class Own(unittest.TestCase):
    def test_one_that_is_free_can_be_had(self):
        with socket.socket(socket.AF_INET, socket.SOCK_DGRAM) as tried:
            tried.bind(("127.0.0.1", 0))
            port = tried.getsockname()[1]
        check_own(f"127.0.0.1:{port}")

    def test_one_of_ipv6_can_be_had(self):
        with socket.socket(socket.AF_INET6, socket.SOCK_DGRAM) as tried:
            try:
                tried.bind(("::1", 0))
            except OSError:
                self.skipTest("this machine has no IPv6")
            port = tried.getsockname()[1]
        check_own(f"[::1]:{port}")

    def test_one_that_is_taken_is_said(self):
        with socket.socket(socket.AF_INET, socket.SOCK_DGRAM) as taken:
            taken.bind(("127.0.0.1", 0))
            with self.assertRaises(BadAddress) as said:
                check_own(f"127.0.0.1:{taken.getsockname()[1]}")
        self.assertIn("is taken", str(said.exception))

    def test_one_of_another_machine_is_said(self):
        with self.assertRaises(BadAddress) as said:
            check_own("192.0.2.1:7001")
        self.assertIn("192.0.2.1 is no address of this machine", str(said.exception))

    def test_other_faults_are_said_too(self):
        for code, words in ((errno.EACCES, "above 1023"), (errno.ENOBUFS, "can't be had")):
            with mock.patch("page.addresses.socket.socket.bind", side_effect=OSError(code, "x")):
                with self.assertRaises(BadAddress) as said:
                    check_own("127.0.0.1:7001")
            self.assertIn(words, str(said.exception))
