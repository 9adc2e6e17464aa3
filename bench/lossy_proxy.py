#!/usr/bin/env python3
"""A proxy for datagrams that loses, doubles, delays and reorders them. See README.md.

    lossy_proxy.py [--lose RATE] [--double RATE] [--delay RATE] [--reorder RATE] [--longest SECONDS] [--seed N] HERE=THERE ..

What comes to each address HERE goes on to THERE, from the address HERE whose THERE sent it: a node passes over what comes from
an address that it doesn't know. It runs until it is ended, or its standard input is, and then prints what became of the
datagrams.
"""

import argparse
import heapq
import selectors
import signal
import socket
import sys
import time
from collections import Counter, namedtuple
from random import Random

KINDS = ["lose", "double", "delay", "reorder"]
HEADS = ["came", "lost", "doubled", "delayed", "reordered", "sent"]
# More than a datagram has at most.
MOST = 65_536
# After so many seconds a datagram that waits for the next one goes on alone.
ALONE = 0.05


# A datagram that came, and the socket from which it goes on.
Datagram = namedtuple("Datagram", "content socket")


def address_of(text):
    host, _, port = text.rpartition(":")
    return host, int(port)


class Way:
    """What comes to one address, and where it goes on to."""

    def __init__(self, here, there):
        self.there, self.held = there, None
        self.socket = socket.socket(socket.AF_INET, socket.SOCK_DGRAM)
        self.socket.setsockopt(socket.SOL_SOCKET, socket.SO_RCVBUF, 1 << 22)
        self.socket.bind(here)
        self.socket.setblocking(False)


class LossyProxy:
    """Ways with the same rates, of which each datagram takes its draws from one generator."""

    def __init__(self, ways, rates, longest, seed):
        self.ways = [Way(*way) for way in ways]
        self.way_to = {way.there: way for way in self.ways}
        self.rates, self.longest, self.draw = rates, longest, Random(seed)
        self.counts, self.later, self.turn = Counter(), [], 0

    def is_drawn(self, kind):
        # Each datagram takes as many draws, whatever becomes of it.
        return self.draw.random() < self.rates[kind]

    def wait_until(self, moment, way, datagram):
        self.turn += 1
        heapq.heappush(self.later, (moment, self.turn, way, datagram))

    def send(self, way, datagram):
        self.counts["sent"] += 1
        try:
            datagram.socket.sendto(datagram.content, way.there)
        except OSError:
            self.counts["lost"] += 1

    def let_go(self, way):
        if way.held:
            datagram, way.held = way.held[1], None
            self.send(way, datagram)

    def take(self, way, datagram):
        self.counts["came"] += 1
        lose, double, delay, reorder = [self.is_drawn(kind) for kind in KINDS]
        wait = self.draw.random() * self.longest
        if lose:
            self.counts["lost"] += 1
            return
        for copy in range(2 if double else 1):
            self.counts["doubled"] += copy
            if delay:
                self.counts["delayed"] += 1
                self.wait_until(time.monotonic() + wait, way, datagram)
            elif reorder and not way.held:
                # It goes behind the next one of its way.
                self.counts["reordered"] += 1
                way.held = (time.monotonic() + ALONE, datagram)
            else:
                self.send(way, datagram)
                self.let_go(way)

    def receive(self, way):
        while True:
            try:
                content, source = way.socket.recvfrom(MOST)
            except OSError:
                return
            self.take(way, Datagram(content, self.way_to.get(source, way).socket))

    def send_what_is_due(self):
        now = time.monotonic()
        while self.later and self.later[0][0] <= now:
            _, _, way, datagram = heapq.heappop(self.later)
            self.send(way, datagram)
        for way in self.ways:
            if way.held and way.held[0] <= now:
                self.let_go(way)

    def pause(self):
        """How long nothing is due."""
        moments = [self.later[0][0]] if self.later else []
        moments += [way.held[0] for way in self.ways if way.held]
        return max(0, min(moments) - time.monotonic()) if moments else None

    def run(self, end):
        """Hands datagrams on until that file is at its end."""
        with selectors.DefaultSelector() as ready:
            ready.register(end, selectors.EVENT_READ, None)
            for way in self.ways:
                ready.register(way.socket, selectors.EVENT_READ, way)
            while True:
                for key, _ in ready.select(self.pause()):
                    if key.data is None:
                        if not end.readline():
                            return
                    else:
                        self.receive(key.data)
                self.send_what_is_due()


def rate(text):
    value = float(text)
    if not 0 <= value <= 1:
        raise argparse.ArgumentTypeError("a rate is from 0 to 1")
    return value


def way(text):
    here, _, there = text.partition("=")
    return address_of(here), address_of(there)


def asked():
    parser = argparse.ArgumentParser(prog="bench/lossy_proxy.py", description=__doc__.splitlines()[0])
    for kind in KINDS:
        parser.add_argument(f"--{kind}", metavar="RATE", type=rate, default=0, help=f"how many of all it is to {kind}: 0 to 1")
    parser.add_argument("--longest", metavar="SECONDS", type=float, default=0.02, help="how long a delay is at most")
    parser.add_argument("--seed", metavar="N", type=int, default=7)
    parser.add_argument("ways", metavar="HERE=THERE", type=way, nargs="+", help="as 127.0.0.1:5000=127.0.0.1:6000")
    return parser.parse_args()


def main():
    words = asked()
    rates = {kind: getattr(words, kind) for kind in KINDS}
    proxy = LossyProxy(words.ways, rates, words.longest, words.seed)
    print("ready", flush=True)
    signal.signal(signal.SIGTERM, lambda *_: sys.exit(0))
    try:
        proxy.run(sys.stdin)
    except KeyboardInterrupt:
        pass
    finally:
        print(" ".join(f"{head} {proxy.counts[head]}" for head in HEADS), flush=True)


if __name__ == "__main__":
    main()
