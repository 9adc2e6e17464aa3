"""The sockets towards one node."""

import asyncio
import socket
import unittest

from carrier.frames import frame
from carrier.ways import HERE, MOST_DATAGRAM, Ways
from page.tests.places import until


class WaysOfANode(unittest.IsolatedAsyncioTestCase):
    async def asyncSetUp(self):
        asyncio.get_running_loop().set_debug(False)
        self.sent = []
        self.ways = Ways(2, 16, lambda seat, data: self.sent.append((seat, data)))
        self.addCleanup(self.ways.close)
        self.node = socket.socket(socket.AF_INET, socket.SOCK_DGRAM)
        self.addCleanup(self.node.close)
        self.node.bind(self.ways.node)
        self.node.settimeout(300)

    def to(self, seat):
        return (HERE, self.ways.port(seat))

    async def test_the_node_knows_each_seat_by_an_address_of_its_own(self):
        addresses = self.ways.addresses
        self.assertEqual(len(set(addresses)), 16)
        self.assertEqual(addresses[1], f"{HERE}:{self.ways.node[1]}")
        for seat in (1, 3, 16):
            self.ways.deliver(seat, b"from %d" % seat)
            self.assertEqual(self.node.recvfrom(100), (b"from %d" % seat, self.to(seat)))
            self.assertEqual(addresses[seat - 1], f"{HERE}:{self.ways.port(seat)}")

    # Of two polls, one behind the other, between which the node took a frame: those of the later one, each once.
    async def test_the_frames_of_the_newest_poll_alone_go_on(self):
        def made(clock, *numbers):
            records = [bytes(7) + number.to_bytes(2, "big") + b"op" for number in numbers]
            return frame(7, 2, 5, records, 9, clock, 0)

        old, new, other = [made(8, 1, 2), made(8, 3, 4)], [made(9, 2, 3), made(9, 4), made(9, 5, 6)], [made(9)]
        for each in [*old, *new, *new[:2]]:
            self.node.sendto(each, self.to(5))
        self.node.sendto(other[0], self.to(6))
        await until(lambda: len(self.sent) == 2)
        self.assertEqual(sorted(self.sent), [(5, new), (6, other)])

    async def test_what_another_sends_and_what_is_too_long_goes_nowhere(self):
        with socket.socket(socket.AF_INET, socket.SOCK_DGRAM) as stranger:
            stranger.sendto(b"forged", self.to(5))
        self.node.sendto(bytes(MOST_DATAGRAM + 1), self.to(6))
        self.node.sendto(bytes(MOST_DATAGRAM), self.to(7))
        await until(lambda: self.sent)
        self.assertEqual(self.sent, [(7, [bytes(MOST_DATAGRAM)])])

    async def test_a_node_that_isn_t_there_costs_nothing(self):
        self.node.close()
        for _ in range(3):
            self.ways.deliver(1, b"lost")
