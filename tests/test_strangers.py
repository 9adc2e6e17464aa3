"""Datagrams that are no frames, of another session, or from an address that isn't in a node's list; and addresses of IPv6."""

import socket
from random import Random

from tests.nodes import Node, Peer, free_addresses, room, started
from tests.program import DONE, Case
from tests.spelled import frame, square

RECT = frame([square((1, 2), 1)])


class Strangers(Case):
    def test_a_datagram_from_elsewhere_is_passed_over(self):
        stranger = Peer()
        with started((1, 2)) as (node, peers):
            self.assertTrue(node.is_ready())
            for datagram in (RECT, b"", b"GDOF", bytes(9000), frame(clock=9)):
                stranger.send(node, datagram)
            self.assertEqual(node.ask("poll"), ["polled 0"])
            # One from the list is taken behind them, whatever came from elsewhere.
            stranger.send(node, b"x")
            peers[2].send(node, RECT)
            stranger.send(node, b"y")
            self.assertEqual(node.ask("poll"), ["echo 1.2 applied create rect 0 0 10 10", "polled 1"])
            self.assertEqual(node.ask("status"), ["held 1 kept 0 line 1 clock 1"])
        stranger.close()

    # Of another port of the same host, and of another address of loopback with the same port.
    def test_the_whole_address_counts(self):
        with started((1, 2)) as (node, peers):
            self.assertTrue(node.is_ready())
            other = socket.socket(socket.AF_INET, socket.SOCK_DGRAM)
            other.bind(("127.0.0.2", peers[2].socket.getsockname()[1]))
            host, _, port = node.address.partition(":")
            other.sendto(RECT, (host, int(port)))
            other.close()
            self.assertEqual(node.ask("poll"), ["polled 0"])

    def test_random_datagrams_of_a_peer_are_refused(self):
        draw = Random(7)
        with started((1, 2)) as (node, peers):
            self.assertTrue(node.is_ready())
            for _ in range(10):
                for _ in range(10):
                    datagram = draw.randbytes(draw.choice([0, 1, 12, 31, 60, 400, 8096, 8192, 9000]))
                    peers[2].send(node, (b"GDOF\x03" if draw.random() < 0.5 else b"") + datagram)
                answer = node.ask("poll")
                self.assertEqual(answer[-1], "polled 10")
                self.assertTrue(all(line.startswith("frame refused: ") for line in answer[:-1]), answer)
            self.assertEqual(node.ask("status"), ["held 0 kept 0 line 0 clock 0"])
            self.assertEqual(node.end()[1], DONE)

    def test_a_frame_of_another_session_is_refused(self):
        with started((1, 2)) as (node, peers):
            self.assertTrue(node.is_ready())
            peers[2].send(node, frame([square((1, 2), 1)], session=8))
            self.assertEqual(node.ask("poll"), ["frame refused: Session", "polled 1"])

    def test_nodes_of_two_sessions_hear_nothing_of_each_other(self):
        addresses = free_addresses(2)
        with room() as folder, Node(1, addresses, folder / "1") as one, Node(2, addresses, folder / "2", session=8) as two:
            self.assertTrue(one.is_ready() and two.is_ready())
            self.assertEqual(one.ask("create rect 0 0 10 10"), ["ok 1.1"])
            one.ask("status")
            self.assertEqual(two.ask("poll"), ["frame refused: Session", "polled 1"])


class IPv6(Case):
    def setUp(self):
        try:
            Peer("::1").close()
        except OSError as error:
            self.skipTest(f"no IPv6 on loopback: {error}")

    def test_nodes_at_addresses_of_ipv6_draw_together(self):
        addresses = free_addresses(2, "::1")
        with room() as folder, Node(1, addresses, folder / "1") as one, Node(2, addresses, folder / "2") as two:
            self.assertTrue(one.is_ready() and two.is_ready())
            self.assertEqual(one.ask("create rect 0 0 10 10"), ["ok 1.1"])
            one.ask("status")
            self.assertEqual(two.ask("poll"), ["echo 1.1 applied create rect 0 0 10 10", "polled 1"])
            self.assertEqual(two.ask("show"), one.ask("show"))
