"""Who sits where, over a carrier without a broker and a node that is played."""

import asyncio
import socket
import types
import unittest
from unittest import mock

from carrier.frames import closing
from carrier.roster import SEATS
from carrier.table import TIMES, Table
from carrier.tests.rosters import roster_with
from carrier.ways import Ways
from page.peers import Peers


def feed(count):
    return types.SimpleNamespace(count=count, check=lambda count: 10 * count)


class Desk:
    def __init__(self):
        self.number, self.peers, self.told = 1, Peers(1, SEATS), []
        self.audience = types.SimpleNamespace(openings=[])
        self.node = types.SimpleNamespace(status=None)

    def tell(self, kind, **fields):
        self.told.append((kind, fields))


class Seats(unittest.IsolatedAsyncioTestCase):
    async def asyncSetUp(self):
        asyncio.get_running_loop().set_debug(False)
        ways = Ways(1, SEATS, lambda seat, data: None)
        self.addCleanup(ways.close)
        self.node = socket.socket(socket.AF_INET, socket.SOCK_DGRAM)
        self.addCleanup(self.node.close)
        self.node.bind(ways.node)
        self.node.setblocking(False)
        pace = types.SimpleNamespace(heard_at=None, is_here=lambda now: False)
        self.settled = types.SimpleNamespace(is_set=lambda: self.is_settled)
        self.is_settled, self.renewed, self.heads = False, 0, {}
        seat = types.SimpleNamespace(seat=1, roster=roster_with(), broker="h:1")
        broker = types.SimpleNamespace(up=True, fault="")
        paces, wake = dict.fromkeys(range(2, 17), pace), lambda: None
        self.carrier = types.SimpleNamespace(
            seat=seat, comings=[], ways=ways, settled=self.settled, wake=wake, broker=broker, paces=paces
        )
        self.feeds = {seat: feed(0) for seat in range(1, SEATS + 1)}
        heads = types.SimpleNamespace(newest=self.heads, liars=set(), missing=lambda: [])
        standing = types.SimpleNamespace(looks=[], feeds=types.SimpleNamespace(feeds=self.feeds), heads=heads)
        self.retiring, self.desk = types.SimpleNamespace(gone={}, ready=lambda: dict(self.retiring.gone)), Desk()
        watched = types.SimpleNamespace(can_make=False, key=None)
        self.table = Table(self.carrier, standing, self.retiring, watched, self.desk, lambda: 3)

    def datagrams(self):
        found = []
        while True:
            try:
                found.append(self.node.recv(100))
            except BlockingIOError:
                return found

    async def test_free_seats_are_told_to_the_node_once_the_heads_are_known(self):
        self.table.look()
        self.assertEqual(self.datagrams(), [])
        self.is_settled = True
        self.feeds[3], self.heads[4] = feed(2), types.SimpleNamespace(count=0)
        self.carrier.comings[0](5)
        self.table.look()
        free = [seat for seat in range(2, 17) if seat not in (3, 4, 5)]
        self.assertEqual(sorted(self.datagrams()), sorted(closing(roster_with().number, seat, 1, 0, 0) for seat in free))
        self.table.look()
        self.assertEqual(self.datagrams(), [])
        self.assertEqual(len(self.table.due), len(TIMES) - 1)
        # A retired seat is told with how many edits it has.
        self.feeds[9], self.retiring.gone[9] = feed(4), 4
        self.table.look()
        self.assertIn(closing(roster_with().number, 9, 1, 4, 40), self.datagrams())
        self.assertNotIn(9, self.table.closed)
        free.remove(9)
        # A node that was started anew is told anew.
        self.desk.node = types.SimpleNamespace(status=None)
        self.table.look()
        self.assertEqual(len(self.datagrams()), len(free) + 1)

    async def test_a_node_is_started_anew_where_somebody_sits_down(self):
        self.is_settled = True
        self.table.look()
        self.datagrams()
        self.table.open_again = lambda: setattr(self, "renewed", self.renewed + 1)
        self.carrier.comings[0](9)
        self.table.look()
        self.assertEqual((self.renewed, self.datagrams()), (1, []))

    async def test_what_a_seat_says_waits_until_the_node_was_started_anew(self):
        self.is_settled, self.feeds[3] = True, feed(1)
        self.table.look()
        self.datagrams()
        for seat in (3, 9):
            self.carrier.ways.deliver(seat, b"of %d" % seat)
        self.assertEqual(self.datagrams(), [b"of 3"])
        with mock.patch("carrier.table.renew", self.renew):
            self.carrier.comings[0](9)
            self.table.look()
            self.carrier.ways.deliver(9, b"too early")
            self.assertEqual(self.datagrams(), [])
            await self.table.stop()
        self.carrier.ways.deliver(9, b"of 9")
        self.assertEqual((self.renewed, self.datagrams()), (1, [b"of 9"]))

    async def renew(self, desk):
        self.renewed += 1

    async def test_the_page_is_told_who_has_a_seat(self):
        self.table.look()
        self.assertEqual(self.desk.told[-1][1]["seats"], [])
        self.assertEqual(self.desk.peers.told({}, 0)["peers"], [])
        self.feeds[7] = feed(1)
        self.table.look()
        (seat,) = self.desk.told[-1][1]["seats"]
        self.assertEqual((seat["site"], seat["here"], seat["missing"]), (7, False, 0))
        (peer,) = self.desk.peers.told({}, 0)["peers"]
        self.assertEqual((peer["site"], peer["away"], peer["perhaps"]), (7, True, False))
        count = len(self.desk.told)
        self.table.look()
        self.assertEqual(len(self.desk.told), count)
        (text,) = self.table.opening()
        self.assertIn('"is":"carried"', text)


