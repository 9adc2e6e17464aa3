"""A demonstration: several nodes on loopback, and the proxy between them, which loses, doubles, delays and cuts off."""

import heapq
import selectors
import socket
import threading
import time
from random import Random

from page.audience import message

HERE = "127.0.0.1"
# More than a datagram has at most.
MOST_BYTES = 65_536
MOST_SITES = 4
MOST_DELAY = 3000
# Datagrams that wait are no more than so many; the next ones are lost.
MOST_WAITING = 10_000
LONGEST_PAUSE = 0.2


def bound():
    """A socket for datagrams on loopback, at a port that nobody has."""
    made = socket.socket(socket.AF_INET, socket.SOCK_DGRAM)
    made.setblocking(False)
    made.bind((HERE, 0))
    return made


def name_of(made):
    return f"{HERE}:{made.getsockname()[1]}"


class Proxy:
    """Takes each datagram that one site sends to another at an address of these two alone, so that it knows both."""

    def __init__(self, sites, audience, seed=None):
        self.sites, self.audience, self.draw = sites, audience, Random(seed)
        self.settings = {"loss": 0, "twice": 0, "delay": 0, "cut": []}
        self.later, self.turn, self.closed = [], 0, False
        self.thread = threading.Thread(target=self.run, daemon=True)
        places = [bound() for _ in range(sites)]
        self.own = [name_of(place) for place in places]
        self.targets = [place.getsockname() for place in places]
        pairs = [(source, goal) for source in range(sites) for goal in range(sites) if source != goal]
        self.ways = {pair: bound() for pair in pairs}
        # The nodes open these ports themselves.
        for place in places:
            place.close()
        audience.openings.append((None, self.opening))

    def addresses(self, site):
        """The addresses of all sites as the node of that site, counted from 1, is given them."""
        site -= 1
        return [self.own[goal] if goal == site else name_of(self.ways[site, goal]) for goal in range(self.sites)]

    def opening(self):
        """What a page that comes is told."""
        yield message("link", **self.settings)

    def set(self, wanted):
        """Sets what is done to datagrams from now on. Raises `ValueError` where a number is out of its range."""
        settings = dict(self.settings)
        for name, most in (("loss", 100), ("twice", 100), ("delay", MOST_DELAY)):
            value = wanted.get(name, settings[name])
            if type(value) is not int or not 0 <= value <= most:
                raise ValueError(f"{name} is a whole number from 0 to {most}")
            settings[name] = value
        cut = wanted.get("cut", settings["cut"])
        if not isinstance(cut, list) or any(type(site) is not int or not 1 <= site <= self.sites for site in cut):
            raise ValueError("cut is a list of sites")
        settings["cut"] = sorted(set(cut))
        self.settings = settings
        self.audience.tell("link", **settings)

    def start(self):
        self.thread.start()

    def close(self):
        """Hands nothing on any more."""
        self.closed = True
        if self.thread.is_alive():
            self.thread.join()
        for way in self.ways.values():
            way.close()

    def run(self):
        with selectors.DefaultSelector() as ready:
            for pair, way in self.ways.items():
                ready.register(way, selectors.EVENT_READ, pair)
            while not self.closed:
                for key, _ in ready.select(self.pause()):
                    self.receive(key.fileobj, key.data)
                self.send_what_is_due()

    def pause(self):
        """How long nothing is due; never so long that a close waits."""
        return min(LONGEST_PAUSE, max(0, self.later[0][0] - time.monotonic())) if self.later else LONGEST_PAUSE

    def receive(self, way, pair):
        while True:
            try:
                datagram = way.recv(MOST_BYTES)
            except OSError:
                return
            self.take(pair, datagram)

    def is_cut(self, pair):
        return any(site + 1 in self.settings["cut"] for site in pair)

    def take(self, pair, datagram):
        """Draws what becomes of a datagram."""
        settings = self.settings
        if self.is_cut(pair) or self.draw.random() * 100 < settings["loss"]:
            return
        for _ in range(2 if self.draw.random() * 100 < settings["twice"] else 1):
            if len(self.later) < MOST_WAITING:
                self.turn += 1
                moment = time.monotonic() + self.draw.random() * settings["delay"] / 1000
                heapq.heappush(self.later, (moment, self.turn, pair, datagram))

    def send_what_is_due(self):
        while self.later and self.later[0][0] <= time.monotonic():
            _, _, pair, datagram = heapq.heappop(self.later)
            # What was on its way when a site was cut off doesn't arrive either.
            if not self.is_cut(pair):
                self.send(pair, datagram)

    def send(self, pair, datagram):
        source, goal = pair
        try:
            # It comes from the address at which the one that gets it knows the one that sent it.
            self.ways[goal, source].sendto(datagram, self.targets[goal])
        except OSError:
            # As good as lost.
            pass
