"""A carrier between a node that is played and a broker that is played."""

import asyncio
import socket
import unittest
from unittest import mock

from carrier.carrier import Carrier
from carrier.files import Seat
from carrier.frames import frame
from carrier.keys import Keys
from carrier.sealing import FRAME, WANT, Seals
from carrier.tests.logs import create
from carrier.tests.rosters import SEEDS, SESSION, roster_with
from carrier.trust import SYSTEM, Trust
from carrier.twin import Twin
from page.tests.places import until

ROOT = f"gd/{SESSION.hex()}"


class PlayedBroker:
    def __init__(self, address, account, trust, certificate, came, changed):
        self.user, self.came, self.changed, self.up, self.fault = account.user, came, changed, False, ""
        self.is_refused, self.sent = False, []

    def start(self, topics):
        self.topics = topics

    def publish(self, name, content, keep=False):
        if self.up:
            self.sent.append((name, content))
        return self.up

    async def stop(self):
        pass


class Twins(unittest.TestCase):
    def test_who_comes_is_answered_by_who_is_there(self):
        first, second, stranger = Twin(SEEDS[2]), Twin(SEEDS[2]), Twin(SEEDS[3])
        hello = second.hello()
        self.assertEqual((first.take(first.hello()), second.take(hello)), ("own", "own"))
        answer = first.take(hello)
        self.assertEqual((second.take(answer), first.take(answer)), ("later", None))
        # An answer is for one run, and nobody else's secret will do.
        self.assertIsNone(Twin(SEEDS[2]).take(answer))
        self.assertEqual([stranger.take(each) for each in (hello, answer)], [None, None])
        for place in range(len(answer)):
            self.assertIsNone(second.take(answer[:place] + bytes([answer[place] ^ 1]) + answer[place + 1 :]))
            self.assertIsNone(second.take(answer[:place]))


class Carried(unittest.IsolatedAsyncioTestCase):
    async def asyncSetUp(self):
        asyncio.get_running_loop().set_debug(False)
        self.said, self.polls, self.came = [], [], []
        seat = Seat(2, SEEDS[2], roster_with(), "h:1", Trust(SYSTEM), b"")
        with mock.patch("carrier.carrier.Broker", PlayedBroker):
            self.carrier = Carrier(seat, self.said.append)
        self.carrier.wake = lambda: self.polls.append(1)
        self.carrier.comings.append(self.came.append)
        self.broker = self.carrier.broker
        self.carrier.start()
        self.addAsyncCleanup(self.carrier.stop)
        self.node = socket.socket(socket.AF_INET, socket.SOCK_DGRAM)
        self.addCleanup(self.node.close)
        self.node.bind(self.carrier.ways.node)
        self.node.setblocking(False)
        self.others = {each: Seals(roster_with(), each, Keys(SEEDS[each])) for each in (1, 3)}

    def connect(self):
        self.broker.up = True
        self.broker.changed()
        self.broker.sent.clear()

    def frame(self, sender=1, to=2, clock=5):
        return frame(roster_with().number, sender, to, [], 0, clock, 0)

    def receive(self, data, sender=1, name=None, kept=False):
        self.broker.came(name or f"{ROOT}/2/{sender}", data, kept)

    def got(self):
        """What came to the node, with the seat from whose address."""
        found = []
        while True:
            try:
                data, source = self.node.recvfrom(5000)
            except BlockingIOError:
                return found
            found.append((data, [seat for seat in self.carrier.paces if self.carrier.ways.port(seat) == source[1]][0]))

    async def test_what_it_hears_and_says_who_it_is(self):
        names = ["2/+", "head/+", "left/+", "roster", "retired", "watched"]
        self.assertEqual(self.broker.topics, [f"{ROOT}/{name}" for name in names])
        self.assertEqual(self.broker.user, f"{SESSION.hex()}.2")

    async def test_frames_come_to_the_node_from_the_address_of_their_seat(self):
        self.connect()
        for sender in (1, 3):
            self.receive(self.others[sender].seal(2, FRAME, self.frame(sender)), sender)
        self.assertEqual(self.got(), [(self.frame(1), 1), (self.frame(3), 3)])
        self.assertGreaterEqual(len(self.polls), 2)
        self.assertEqual((self.came, self.carrier.here()), ([1, 3], [1, 3]))

    async def test_what_another_sealed_or_says_comes_to_nobody(self):
        self.connect()
        good = self.others[1].seal(2, FRAME, self.frame())
        for data, sender in ((good, 3), (self.others[3].seal(2, FRAME, self.frame(3)), 1), (good[:-1], 1), (b"", 1), (self.frame(), 1)):
            self.receive(data, sender)
        self.assertEqual((self.carrier.counts["strange"], len(set(self.said))), (5, 1))
        # Sealed well, and the frame says other seats, or is none.
        for content in (self.frame(3), self.frame(1, 3), b"", b"GDOF", bytes(40)):
            self.receive(self.others[1].seal(2, FRAME, content))
        # Kept by the broker, at another topic, or from nobody.
        self.receive(good, kept=True)
        for name in (f"{ROOT}/3/1", f"{ROOT}/2/01x", f"{ROOT}/2", f"{ROOT}/2/1/1", "gd/other", "x", f"{ROOT}/2/²"):
            self.receive(good, name=name)
        self.assertEqual(self.got(), [])

    async def test_other_kinds_go_to_who_takes_them_and_nobody_hears_a_barred_seat(self):
        self.connect()
        taken = []
        self.carrier.takers[WANT] = lambda *words: taken.append(words)
        self.receive(self.others[1].seal(2, WANT, b"what"))
        self.assertEqual(taken, [(1, b"what")])
        self.carrier.bar(1)
        self.receive(self.others[1].seal(2, WANT, b"what"))
        self.receive(self.others[1].seal(2, FRAME, self.frame()))
        self.assertEqual((len(taken), self.got(), self.carrier.here()), (1, [], []))

    async def test_frames_of_the_node_go_out_sealed(self):
        self.connect()
        self.receive(self.others[1].seal(2, WANT, b""))
        frames = {clock: frame(roster_with().number, 2, 1, [create(clock, 2, clock)], clock, clock, 0) for clock in (1, 2, 3)}
        for clock in (1, 2, 2, 3):
            self.node.sendto(frames[clock], ("127.0.0.1", self.carrier.ways.port(1)))
            await asyncio.sleep(0.05)
        await until(lambda: len(self.broker.sent) == 3)
        opened = [(name, self.others[1].opened(2, data)) for name, data in self.broker.sent]
        self.assertEqual(opened, [(f"{ROOT}/1/2", (FRAME, frames[clock])) for clock in (1, 2, 3)])

    async def test_nothing_goes_out_or_in_where_it_is_not_to(self):
        self.node.sendto(self.frame(2, 1), ("127.0.0.1", self.carrier.ways.port(1)))
        await asyncio.sleep(0.05)
        self.connect()
        self.carrier.runs = lambda: False
        self.node.sendto(self.frame(2, 3), ("127.0.0.1", self.carrier.ways.port(3)))
        await asyncio.sleep(0.05)
        self.receive(self.others[1].seal(2, FRAME, self.frame()))
        self.assertEqual((self.broker.sent, self.got()), ([], []))

    async def test_all_that_the_broker_keeps_has_come_once_the_own_message_comes_back(self):
        heads = []
        self.carrier.keepers["head"] = lambda words, data: heads.append((words, data))
        self.broker.up = True
        self.broker.changed()
        ((name, hello),) = self.broker.sent
        self.assertEqual(name, f"{ROOT}/2/2")
        self.receive(b"head", name=f"{ROOT}/head/3", kept=True)
        self.assertFalse(await self.carrier.settle(0))
        for other in (b"", hello[:-1], bytes(len(hello)), Carrier.__name__.encode()):
            self.receive(other, name=f"{ROOT}/2/2")
        self.assertFalse(await self.carrier.settle(0))
        self.receive(hello, name=f"{ROOT}/2/2")
        self.assertTrue(await self.carrier.settle(5))
        self.assertEqual(heads, [(["3"], b"head")])
        # Once it is lost all have to be heard again.
        self.receive(self.others[1].seal(2, WANT, b""))
        self.broker.up = False
        self.broker.changed()
        self.assertEqual((self.carrier.here(), self.carrier.settled.is_set()), ([], False))
