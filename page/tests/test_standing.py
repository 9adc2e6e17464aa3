"""How a desk stands: names, ends, starts again, and a node that is silent."""

import asyncio
import os
import signal
from unittest import mock

from page.audience import Audience
from page.desk import Desk
from page.names import BadName
from page.node import Busy, Ended
from page.tests.desks import ROW, WithDesk
from page.tests.places import until


class Named(WithDesk):
    async def test_a_name_survives_a_start(self):
        desk = await self.desk()
        await desk.rename("Ada Lovelace, Countess")
        await until(lambda: self.edits() == ["name Ada\u00a0Lovelace,\u00a0"[:-1]])
        await until(lambda: any(each["who"] for each in self.heard("who")))
        self.assertEqual(self.heard("who")[-1]["who"][0]["name"], "Ada Lovelace, Countess")
        self.assertEqual(self.opened(desk)["hello"]["names"], {"1": "Ada Lovelace, Countess"})
        await desk.stop()
        self.beside("typed").unlink()
        again = await self.desk()
        await until(lambda: "name Ada\u00a0Lovelace," in self.typed())
        self.assertEqual(self.opened(again)["hello"]["names"], {"1": "Ada Lovelace, Countess"})

    async def test_it_is_typed_again_where_the_node_starts_again(self):
        desk = await self.desk(end=["undo", "", 9])
        await desk.rename("\u0410\u043b\u0435\u043a\u0441\u0430\u043d\u0434\u0440")
        await desk.batch(["undo"])
        await until(lambda: desk.end)
        self.script()
        await desk.start_again()
        await until(lambda: self.edits().count("name \u0410\u043b\u0435\u043a\u0441\u0430\u043d\u0434") == 2)

    async def test_what_is_no_name_changes_nothing(self):
        desk = await self.desk()
        await desk.rename("Ada")
        for wrong in ("a" * 65, "a\nb", None):
            with self.assertRaises(BadName):
                await desk.rename(wrong)
        with mock.patch.object(desk.node, "type", side_effect=Busy), self.assertRaises(BadName):
            await desk.rename("Bob")
        self.assertEqual((desk.name, desk.names.read()), ("Ada", "Ada"))


class Ending(WithDesk):
    async def ended(self):
        desk = await self.desk(end=["undo", "", 7])
        answer = (await desk.batch(["raise 1.1", "undo", "raise 2.1"]))["answers"]
        self.assertEqual((answer[0][:3], answer[1:]), ("ok ", ["unanswered", "unanswered"]))
        await until(lambda: desk.end)
        return desk

    async def test_the_end_is_told_with_its_meaning_and_it_can_start_again(self):
        desk = await self.ended()
        (end,) = self.heard("end")
        self.assertEqual(end["end"]["status"], 7)
        self.assertIn("can't use the network", end["end"]["meaning"])
        self.assertIn("end", self.opened(desk))
        self.script(show=[ROW])
        self.assertIsNotNone(desk.turns.told()["undo"])
        await desk.start_again()
        self.assertEqual(len(self.heard("begun")), 1)
        # It takes nothing back that was done before.
        self.assertIsNone(self.heard("turns")[-1]["undo"])
        await until(lambda: self.heard("picture") and self.heard("picture")[-1]["items"])
        self.assertEqual((await desk.batch(["undo"]))["edits"], 2)
        self.assertNotIn("end", self.opened(desk))

    async def test_nothing_at_an_ended_node_is_ok(self):
        desk = await self.ended()
        answered = await desk.batch(["create rect 0 0 1 1", "raise @1"])
        self.assertEqual((answered["answers"], answered["edits"]), (["refused: Ended"] * 2, 1))

    async def test_no_second_node_starts_on_a_live_journal(self):
        desk = await self.desk()
        process = desk.node.process
        self.beside("words").unlink()
        with self.assertRaises(Busy):
            await desk.start_again()
        self.assertIs(desk.node.process, process)
        self.assertFalse(self.beside("words").exists())

    async def test_two_who_start_it_again_start_one(self):
        desk = await self.ended()
        self.script()
        found = await asyncio.gather(*(desk.start_again() for _ in range(3)), return_exceptions=True)
        self.assertEqual(sorted(type(each).__name__ for each in found), ["Busy", "Busy", "NoneType"])
        self.assertEqual(len(self.heard("begun")), 1)

    async def test_a_start_that_fails_again_is_no_success(self):
        desk = await self.ended()
        self.script(first="other journal\n", status=11)
        with self.assertRaises(Ended) as found:
            await desk.start_again()
        self.assertEqual(str(found.exception), "other journal")
        self.assertEqual((self.heard("begun"), desk.end["status"]), ([], 11))
        self.assertEqual((await desk.batch(["undo"]))["answers"], ["refused: Ended"])
        self.script()
        await desk.start_again()
        self.assertEqual((await desk.batch(["undo"]))["answers"][0][:3], "ok ")

    async def test_a_node_that_ends_at_once_says_why(self):
        self.script(first="other journal\n", status=11)
        desk = Desk(1, self.command(), self.journal, Audience())
        with self.assertRaises(Ended) as found:
            await desk.start()
        self.assertEqual(str(found.exception), "other journal")
        self.assertEqual(await desk.stop(), 11)


class Silent(WithDesk):
    async def test_a_node_that_is_silent_is_told_and_polled_again_when_it_answers(self):
        with mock.patch("page.peers.SILENT", 0.3), mock.patch("page.desk.WATCH_EVERY", 0.05):
            desk = await self.desk(show=[ROW])
            await self.wait_for_polls(2)
            os.kill(desk.node.process.pid, signal.SIGSTOP)
            self.addCleanup(os.kill, desk.node.process.pid, signal.SIGCONT)
            gesture = asyncio.create_task(desk.batch(["undo"]))
            await until(lambda: any(each["silent"] for each in self.heard("peers")))
            self.assertFalse(gesture.done())
            os.kill(desk.node.process.pid, signal.SIGCONT)
            self.assertEqual((await gesture)["answers"][0][:3], "ok ")
            await until(lambda: not self.heard("peers")[-1]["silent"])
            await until(lambda: self.heard("picture")[-1]["edits"] == 1)
            await self.wait_for_polls(5)
            self.assertEqual(self.heard("end"), [])

    async def test_the_others_are_away_where_nothing_comes(self):
        with mock.patch("page.peers.AWAY", 2), mock.patch("page.desk.WATCH_EVERY", 0.05):
            desk = await self.desk(polls=[["polled 1"]] * 30)
            await until(lambda: any(peer["away"] for each in self.heard("peers") for peer in each["peers"]))
            self.assertFalse(self.heard("peers")[0]["peers"][0]["away"])
            self.assertTrue(self.opened(desk)["peers"]["peers"][0]["away"])

    async def test_peers_are_told_only_where_something_changed(self):
        with mock.patch("page.desk.WATCH_EVERY", 0.02):
            await self.desk(polls=[["polled 1"]] * 1000)
            await self.wait_for_polls(3)
            before = len(self.heard("peers"))
            await asyncio.sleep(0.5)
            self.assertLess(len(self.heard("peers")) - before, 3)
