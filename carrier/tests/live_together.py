"""People draw together over a real broker, each over a node of the built program."""

import argparse
import asyncio
import os
import shutil
import signal
import subprocess

from carrier import certificate, commands
from carrier.files import Seat
from carrier.link import Link, link_of
from carrier.mosquitto import PATH, OwnBroker
from carrier.tests.runs import Looker, Person, WithPeople, free_port
from carrier.trust import Trust
from page.tests.places import PATIENCE, until


class Together(WithPeople):
    async def test_three_draw_together_and_go_on_later(self):
        ana = await self.found()
        ben = await self.join(ana, "ben.log")
        await ana.draw("create rect 0 0 10 10 by Ana")
        await ben.draw("create rect 20 0 10 10 by Ben")
        self.assertEqual(await self.all_see([ana, ben], 2), ["by Ana", "by Ben"])
        cem = await self.join(ana, "cem.log")
        await cem.draw("create ellipse 0 0 5 5 by Cem")
        self.assertEqual(await self.all_see([ana, ben, cem], 3), ["by Ana", "by Ben", "by Cem"])
        self.assertEqual([person.seat for person in (ana, ben, cem)], [1, 2, 3])
        for file in self.folder.iterdir():
            if file.suffix != ".said" and ".broker" not in file.name:
                self.assertEqual(os.stat(file).st_mode & 0o077, 0, file.name)
        # Ben leaves, draws alone while the broker is away as well, and comes back.
        await ben.end()
        self.assertEqual((await ana.end(), await cem.end()), (0, 0))
        await ben.begin()
        self.assertIn("isn't reached", ben.last_said())
        await ben.draw("create rect 40 0 10 10 alone")
        await ana.begin()
        await cem.begin()
        await cem.draw("text 1.1 with one voice")
        labels = await self.all_see([ana, ben, cem], 4)
        self.assertIn("alone", labels)

    async def test_a_broker_that_is_killed_costs_nothing(self):
        ana = await self.found()
        ben = await self.join(ana, "ben.log")
        await ana.draw("create rect 0 0 10 10 before")
        await self.all_see([ana, ben], 1)
        killed = await self.until_broker(ana)
        os.kill(killed, signal.SIGKILL)
        for count in range(10):
            await ana.draw(f"create rect {count} 0 10 10 a{count}")
            await ben.draw(f"create rect {count} 0 10 10 b{count}")
        labels = await self.all_see([ana, ben], 21)
        self.assertEqual(labels[0], "a0")
        self.assertNotEqual(await self.until_broker(ana), killed)

    async def test_a_broker_doesn_t_outlive_its_founder(self):
        ana = await self.found()
        await self.until_broker(ana)
        await ana.end(signal.SIGKILL)
        await until(lambda: self.broker_process(ana) is None, what="the end of the broker")
        await ana.begin()


class Brokers(WithPeople):
    async def test_a_broker_that_is_there_already(self):
        """The founder's rules and passwords are taken in by who runs it, and its certificate is that of an authority."""
        address, journal = f"localhost:{free_port()}", self.folder / "ana.log"
        _, pem, key = certificate.made("localhost")
        (self.folder / "ca.pem").write_bytes(pem)
        ana = await Person(self, "ana.log").begin("--found", "Oak", "--broker", address, "--ca", str(self.folder / "ca.pem"))
        self.assertIn("isn't reached", ana.last_said())
        await ana.draw("create rect 0 0 10 10 alone")
        broker = OwnBroker(journal, address)
        for name, data in (("certificate.pem", pem), ("key.pem", key)):
            (broker.folder / name).write_bytes(data)
        await asyncio.get_running_loop().run_in_executor(None, broker.start)
        self.addCleanup(broker.stop)
        await ana.page.next(lambda told: told["is"] == "carried" and told["up"], PATIENCE)
        ben = await self.join(ana, "ben.log")
        await ben.draw("create rect 0 0 10 10 by Ben")
        self.assertEqual(await self.all_see([ana, ben], 2), ["alone", "by Ben"])

    async def test_one_account_of_all_members(self):
        """As at a rented broker, which knows nothing of seats."""
        address, account = f"localhost:{free_port()}", self.folder / "account"
        _, pem, key = certificate.made("localhost")
        (self.folder / "ca.pem").write_bytes(pem)
        account.write_text("rented\nall of us know it\n")
        broker = OwnBroker(self.folder / "rented", address)
        broker.folder.mkdir()
        files = {"certificate.pem": pem, "key.pem": key, "passwords": b"rented:all of us know it\n"}
        for name, data in {**files, "rules": b"user rented\ntopic readwrite gd/#\n"}.items():
            (broker.folder / name).write_bytes(data)
        tool = shutil.which("mosquitto_passwd", path=PATH)
        subprocess.run([tool, "-U", broker.folder / "passwords"], check=True, capture_output=True)
        await asyncio.get_running_loop().run_in_executor(None, broker.start)
        self.addCleanup(broker.stop)
        given = ["--broker", address, "--ca", str(self.folder / "ca.pem"), "--account", str(account)]
        ana = await Person(self, "ana.log").begin("--found", "Oak", *given)
        self.assertFalse((self.folder / "ana.log.broker").exists())
        account.unlink()
        ben = await self.join(ana, "ben.log")
        await ana.draw("create rect 0 0 10 10 by Ana")
        await ben.draw("create rect 0 0 10 10 by Ben")
        await self.all_see([ana, ben], 2)
        looker = await Looker(self, "looker").begin("--watch", await self.link(ana, "--watch"))
        await self.same_picture(looker, ana, 2)


class Keepers(WithPeople):
    async def test_a_keeper_hands_on_what_somebody_drew_who_is_away(self):
        ana = await self.found()
        keeper = Person(self, "keeper.log")
        self.assertTrue((await keeper.tell("--keep", await self.link(ana))).startswith("keeping a copy"))
        ben = await self.join(ana, "ben.log")
        await ben.draw(*[f"create rect {count} 0 10 10 b{count}" for count in range(30)])
        await self.all_see([ana, ben], 30)
        # It goes on without a page, also later.
        self.assertEqual(await keeper.end(), 0)
        self.assertTrue((await keeper.tell()).startswith("keeping a copy"))
        await until(lambda: b"b29" in keeper.journal.read_bytes(), what="the copy")
        await ben.draw("create rect 0 0 10 10 last")
        await until(lambda: b"last" in keeper.journal.read_bytes(), what="the copy")
        self.assertEqual(await ben.end(), 0)
        cem = await self.join(ana, "cem.log")
        self.assertIn("last", await self.all_see([ana, cem], 31))


class Links(WithPeople):
    async def test_links_that_open_nothing(self):
        ana = await self.found()
        good = link_of(await self.link(ana))

        def changed(**fields):
            return Link(**{**{name: getattr(good, name) for name in good.__dataclass_fields__}, **fields}).text

        rows = {
            good.text[:-4]: "cut or changed",
            changed(seed=bytes(32)): "doesn't let this seat in",
            changed(session=bytes(16)): "doesn't let this seat in",
            changed(trust=Trust(1, bytes(32))): "another certificate",
            changed(digest=bytes(32)): "another roster",
            changed(broker="127.0.0.1:1"): "isn't reached",
        }
        loop = asyncio.get_running_loop()
        for count, (text, words) in enumerate(rows.items()):
            given = argparse.Namespace(join=text, keep=None, journal=self.folder / f"other{count}.log")
            with self.assertRaisesRegex(commands.Wrong, words):
                await loop.run_in_executor(None, commands.join, given)
        self.assertFalse(list(self.folder.glob("other*.seat")))
        # It is still good, for one person.
        ben = await Person(self, "ben.log").begin("--join", good.text)
        await ben.draw("create rect 0 0 10 10 by Ben")
        await self.all_see([ana, ben], 1)
        self.assertIn("is taken", await Person(self, "again.log").refused("--join", good.text))

    async def test_a_seat_s_secret_stands_in_its_file_alone(self):
        ana = await self.found()
        link = await self.link(ana)
        ben = await Person(self, "ben.log").begin("--join", link)
        await ben.draw("create rect 0 0 10 10 x")
        await self.all_see([ana, ben], 1)
        seed, text = Seat.read(ben.journal).seed, link.encode()
        for file in self.folder.rglob("*"):
            if file.is_file() and file != Seat.path(ben.journal):
                data = file.read_bytes()
                self.assertFalse(seed in data or text in data, file)
        with open(f"/proc/{ben.run.pid}/cmdline", "rb") as words:
            self.assertNotIn(text, words.read())
