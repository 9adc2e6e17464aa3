"""What tests of carriers over a real broker share: members in this process, each with a node of the program and no page."""

import argparse
import asyncio
import os
import subprocess
from pathlib import Path


from carrier.broker import client_of
from carrier.carrier import Carrier
from carrier.files import Seat
from carrier.keys import Keys
from carrier.mosquitto import OwnBroker
from carrier.running import begin, desk_of
from carrier.retiring import Retiring
from carrier.standing import Standing
from carrier.table import Table
from carrier.watched import Watched
from carrier.sealing import WATCHERS
from carrier.tests.rosters import FOUNDER, SEEDS, WATCH
from carrier.tests.runs import PROGRAM, free_port, why_not
from carrier.roster import Roster
from carrier.keys import public_bytes
from carrier.trust import context, exact
from page.audience import Audience
from page.node import Ended
from page.tests.places import PATIENCE, WithFolder, until


class Member:
    """One seat of the session of a test."""

    def __init__(self, test, number, name=None):
        self.test, self.number, self.said = test, number, []
        self.journal = test.folder / (name or f"{number}.log")
        self.seat = Seat(number, SEEDS[number], test.roster, test.address, test.trust, test.certificate)
        self.desk = self.carrier = self.standing = None

    async def sit(self):
        """Begins to carry, and gives what is wrong with the journal, or nothing; then the node runs."""
        self.carrier = Carrier(self.seat)
        self.standing = Standing(self.carrier, self.journal)
        self.retiring = Retiring(self.carrier, self.standing, self.journal)
        self.watched = Watched(self.carrier, self.standing, self.journal)
        self.test.members.append(self)
        begin(self.carrier, self.seat)
        self.test.assertTrue(await self.carrier.settle(PATIENCE), self.carrier.broker.fault)
        wrong = self.standing.begin()
        if wrong is None:
            given = argparse.Namespace(program=Path(PROGRAM), journal=self.journal)
            self.desk = desk_of(given, self.seat, self.carrier, Audience())
            self.carrier.say = self.said.append
            await self.desk.start()
            self.watched.name = lambda: self.desk.name
            Table(self.carrier, self.standing, self.retiring, self.watched, self.desk, lambda: 0)
            self.standing.start(lambda: self.desk.edits)
        return wrong

    async def leave(self):
        """Ends the node and the carrier, with the last head told."""
        if self in self.test.members:
            self.test.members.remove(self)
            if self.desk and self.desk.node:
                await self.desk.stop()
            await self.standing.stop()
            await self.carrier.stop()

    async def draw(self, *lines):
        """Types lines, all of which are taken."""
        answers = (await self.desk.batch(list(lines)))["answers"]
        self.test.assertTrue(all(answer.startswith("ok ") for answer in answers), answers)
        return [answer[3:] for answer in answers]

    async def drawing(self):
        """What `show` prints, and how many events were held before; nothing, where the node is just being started anew."""
        try:
            (standing,) = await self.desk.node.ask(b"status")
            shown = await self.desk.node.ask(b"show")
        except Ended:
            return "", -1
        return b"\n".join(shown).decode(), int(standing.split(b" ")[1])


class WithMembers(WithFolder):
    """A test with a broker and members."""

    def setUp(self):
        super().setUp()
        why = why_not()
        if why:
            self.skipTest(why)
        publics = tuple(Keys(SEEDS[seat]).public for seat in SEEDS)
        self.roster = Roster(os.urandom(16), "Oak", public_bytes(Keys(FOUNDER).signing), publics)
        self.address, self.members = f"127.0.0.1:{free_port()}", []
        self.own = OwnBroker(self.folder / "broker.log", self.address)
        passwords = {seat: Keys(seed).password for seat, seed in {**SEEDS, WATCHERS: WATCH}.items()}
        self.certificate = self.own.make(self.roster, passwords)
        self.trust = exact(self.certificate)
        self.let_in("evil", "topic readwrite gd/#")
        self.own.start()
        self.addCleanup(self.own.stop)

    async def asyncSetUp(self):
        await super().asyncSetUp()
        self.addAsyncCleanup(self.leave_all)

    async def leave_all(self):
        for member in list(self.members):
            await member.leave()

    def let_in(self, user, rule):
        """Lets somebody in who isn't a seat, whose password is the name."""
        words = ["mosquitto_passwd", "-b", self.own.folder / "passwords", user, user]
        subprocess.run(words, check=True, capture_output=True)
        with open(self.own.folder / "rules", "a", encoding="utf-8") as rules:
            rules.write(f"\nuser {user}\n{rule}\n")

    async def sit(self, *numbers):
        """Members at these seats, who can go on."""
        made = [Member(self, number) for number in numbers]
        for member in made:
            self.assertIsNone(await member.sit())
        return made

    async def same(self, members, events):
        """Waits until all hold so many events, and gives the one drawing that all show."""
        found = []
        for _ in range(PATIENCE * 10):
            found = [await member.drawing() for member in members]
            if all(held == events for _, held in found):
                self.assertEqual(len({shown for shown, _ in found}), 1)
                return found[0][0]
            await asyncio.sleep(0.1)
        raise AssertionError(f"not all hold {events}: {[held for _, held in found]}")

    async def client(self, user, came=lambda topic, data: None, password=None, topics=("gd/#",)):
        """A client of the broker that is no carrier. It is handed what comes in a thread of paho's."""
        client, host, port = client_of(f"test-{user}"), *self.address.split(":")
        client.tls_set_context(context(self.trust, self.certificate))
        client.username_pw_set(user, password or user)
        client.on_message = lambda _, __, message: came(message.topic, message.payload)
        answers = []

        def connected(client, _, flags, code, *rest):
            answers.append(code)
            client.subscribe([(each, 0) for each in topics])

        client.on_connect = connected
        client.connect_async(host, int(port))
        client.loop_start()
        self.addCleanup(client.loop_stop)
        self.addCleanup(client.disconnect)
        await until(lambda: answers, what="an answer of the broker")
        return client, answers[0]


