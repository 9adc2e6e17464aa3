"""The side towards one node: at each address at which the node knows another seat stands a socket of this carrier."""

import asyncio
import socket

from carrier.frames import head_of

HERE = "127.0.0.1"
# A datagram has at most so many bytes, and one more tells that it has too many.
MOST_DATAGRAM = 1_200
# So many are taken at a time.
MOST_READ = 1_000


def bound():
    """A socket for datagrams at a free port of this machine."""
    made = socket.socket(socket.AF_INET, socket.SOCK_DGRAM)
    made.bind((HERE, 0))
    made.setblocking(False)
    return made


def free_port():
    """A port that is free at this moment, for the node."""
    with bound() as tried:
        return tried.getsockname()[1]


class Ways:
    """The sockets of all other seats. `sent` is called with a seat and the frames that the node sent to it last."""

    def __init__(self, seat, seats, sent):
        self.sent, self.loop, self.seat, self.seats = sent, asyncio.get_running_loop(), seat, seats
        self.sockets = {other: bound() for other in range(1, seats + 1) if other != seat}
        self.node = (HERE, free_port())
        # Seats of which the node was told that they say nothing more: what they say waits until it was started anew.
        self.held = frozenset()
        for other, way in self.sockets.items():
            self.loop.add_reader(way, self.read, other, way)

    @property
    def addresses(self):
        """The addresses of all seats in their order, as the node is given them."""
        ports = [self.node[1] if each == self.seat else self.port(each) for each in range(1, self.seats + 1)]
        return [f"{HERE}:{port}" for port in ports]

    def port(self, seat):
        return self.sockets[seat].getsockname()[1]

    def read(self, seat, way):
        """Takes all that lies there. The frames of the last poll go on, each once: they have all that those of earlier polls had and
        wasn't acknowledged, and what the node sends twice for links that lose is sent once here."""
        window = {}
        for _ in range(MOST_READ):
            try:
                data, source = way.recvfrom(MOST_DATAGRAM + 1)
            except OSError:
                break
            if source == self.node and len(data) <= MOST_DATAGRAM:
                if window and head_of(data) != head_of(next(iter(window))):
                    window = {}
                window[data] = None
        if window:
            self.sent(seat, list(window))

    def deliver(self, seat, data):
        """Hands the node a datagram from a seat. It may be lost, as datagrams may be, and is where the seat is held back."""
        if seat not in self.held:
            self.hand(seat, data)

    def hand(self, seat, data):
        """The same, whether the seat is held back or not."""
        try:
            self.sockets[seat].sendto(data, self.node)
        except OSError:
            pass

    def close(self):
        for way in self.sockets.values():
            self.loop.remove_reader(way)
            way.close()
