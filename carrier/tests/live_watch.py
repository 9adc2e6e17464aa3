"""People who only look on, over a real broker and nodes of the built program."""

import asyncio
import os
import signal
import socket

from carrier.files import Founder
from carrier.keys import Keys
from carrier.link import link_of
from carrier.tests.members import WithMembers
from carrier.tests.rosters import WATCH
from carrier.tests.runs import Looker, Person, WithPeople
from page.addresses import parts_of
from page.tests.places import PATIENCE, until


class Looking(WithPeople):
    def is_reached(self):
        """Whether the broker's port is open."""
        with socket.socket() as tried:
            return tried.connect_ex(parts_of(self.broker)) == 0

    async def test_who_looks_on_sees_what_all_draw_and_draws_nothing(self):
        ana = await self.found()
        ben = await self.join(ana, "ben.log")
        await ben.page.ask("name", desk=ben.seat, name="Ben with a name of more than sixteen bytes")
        await ana.draw("create rect 0 0 10 10 by Ana", *[f"create rect {at} 0 10 10 {'x' * 190}" for at in range(60)])
        await ben.draw("create rect 20 0 10 10 by Ben")
        link = await self.link(ana, "--watch")
        self.assertEqual(await self.link(ana, "--watch"), link)
        self.assertEqual(link_of(link).seat, 0)
        first = await Looker(self, "first").begin("--watch", link)
        self.assertEqual((first.hello["watcher"], first.hello["journal"]), (True, "Oak"))
        self.assertIn("by Ben", await self.same_picture(first, ana, 62))
        # It is live, and late edits come where they belong.
        await ben.draw("move 1.1 7 8", "raise 1.1")
        for _ in range(PATIENCE * 5):
            if (await first.picture())[-1]["at"] == [7, 8]:
                break
            await asyncio.sleep(0.2)
        await self.same_picture(first, ben, 62)
        await first.page.next(lambda told: told["is"] == "who" and any(each["name"] == "Ben with a name of more than sixteen bytes" for each in told["who"]))
        for ask in ({"do": "batch", "lines": ["delete 1.1"]}, {"do": "name", "name": "x"}, {"do": "carried", "what": "invite"}):
            self.assertIn("a message asks for one of save", (await first.page.ask(ask.pop("do"), **ask))["error"])
        self.assertEqual(await first.drawing(), await ana.drawing())
        # No word of the run has the link, and nothing of it is kept.
        words = open(f"/proc/{first.run.pid}/cmdline", encoding="utf-8").read()
        self.assertNotIn(link[13:], words)
        # Ben is away, his edits are at the broker; and a broker that lost all is told anew.
        await ben.end()
        os.kill(await self.until_broker(ana), signal.SIGKILL)
        (self.folder / "ana.log.broker/mosquitto.db").unlink(missing_ok=True)
        await ana.draw("create ellipse 0 0 5 5 behind the kill")
        await until(self.is_reached, what="the broker that is started anew")
        second = await Looker(self, "second").begin("--watch", link)
        await ben.begin()
        await self.same_picture(second, ana, 63)
        await self.same_picture(first, ana, 63)
        self.assertEqual(await first.end(), 0)

    async def test_links_are_for_what_they_are_for(self):
        ana = await self.found()
        seat, watch = await self.link(ana), await self.link(ana, "--watch")
        self.assertIn("--join LINK", await Looker(self, "no").refused("--watch", seat))
        self.assertIn("--watch LINK", await Person(self, "no.log").refused("--join", watch))
        self.assertFalse((self.folder / "no.log.seat").exists())


class Rights(WithMembers):
    async def test_who_looks_on_writes_nothing_and_reads_what_is_left_for_that_alone(self):
        root, got, seen = f"gd/{self.roster.session.hex()}", [], []
        watching, _ = await self.client("evil", lambda name, data: seen.append((name, data)))
        user, password = f"{self.roster.session.hex()}.watch", Keys(WATCH).password
        looker, answer = await self.client(user, lambda name, data: got.append(name), password)
        self.assertEqual(answer, 0)
        for name in ("1/2", "2/0", "head/1", "retired", "roster", "watched", "watch/1/0", "watch/0/0", "0/1"):
            looker.publish(f"{root}/{name}", b"from who looks on", retain=True)
        for name in ("1/2", "2/1", "16/16", "head/1", "watch/2/0"):
            watching.publish(f"{root}/{name}", b"said")
        await until(lambda: f"{root}/watch/2/0" in got, what="what is for those who look on")
        self.assertEqual(got, [f"{root}/head/1", f"{root}/watch/2/0"])
        self.assertNotIn(b"from who looks on", [data for _, data in seen])

    async def test_nothing_is_left_for_those_who_look_on_until_the_founder_lets_them(self):
        seen = []
        await self.client("evil", lambda name, data: seen.append((name, data)), topics=("gd/+/watch/#", "gd/+/watched"))
        Founder(bytes([99]) * 32, watch=WATCH).write(self.folder / "1.log")
        ana, ben = await self.sit(1, 2)
        await ana.draw("create rect 0 0 5 5 secret label")
        await self.same([ana, ben], 1)
        await asyncio.sleep(2)
        self.assertEqual(seen, [])
        Founder.let_watch(self.folder / "1.log")
        await until(lambda: any("/watch/1/0" in name for name, _ in seen), what="the first piece")
        await until(lambda: ben.watched.key, what="the founder's statement")
        await ben.draw("create rect 0 0 5 5 secret label")
        await until(lambda: any("/watch/2/0" in name for name, _ in seen), what="Ben's piece")
        self.assertFalse(any(b"label" in data for _, data in seen))
