"""The bridge over the built program: what it reads of journals and drawings is what the program prints of them."""

import asyncio
import json
import os
import subprocess
import unittest
from unittest import mock

from page.audience import Audience
from page.batch import stamps_of
from page.demo import Proxy
from page.desk import Desk
from page.draw import ROOT, node_command
from page.journal import Journal
from page.node import Ended
from page.replays import saved
from page.tests.logs import header
from page.tests.places import WithFolder, until

PROGRAM = os.environ.get("PAGE_PROGRAM", "")
SESSION = 4242


def replayed(journal, form):
    with open(journal, "rb") as given:
        done = subprocess.run([PROGRAM, "replay", "--format", form], stdin=given, capture_output=True, check=True)
    return json.loads(done.stdout)


def as_replayed(event):
    """An event of the history as a replay prints it."""
    given = {key: value for key, value in event.items() if key not in ("id", "target", "seen", "came", "by", "count")}
    return {**given, "id": event["target"]} if "target" in event else given


class Logs(unittest.TestCase):
    def test_the_reader_of_journals_reads_the_examples_as_the_program_does(self):
        logs = sorted((ROOT / "examples").glob("*.log"))
        read = [log for log in logs if log.read_bytes()[:4] == b"GDOL"]
        self.assertGreater(len(read), 3)
        for log in read:
            with open(log, "rb") as given:
                done = subprocess.run([PROGRAM, "replay", "--format", "events"], stdin=given, capture_output=True)
            if done.returncode == 0:
                self.assertEqual([as_replayed(each) for each in Journal(log).read_on()], json.loads(done.stdout), log.name)


class TwoSites(WithFolder):
    async def asyncSetUp(self):
        await super().asyncSetUp()
        self.proxy = Proxy(2, Audience())
        self.proxy.start()
        self.addCleanup(self.proxy.close)
        self.desks = [await self.desk(site) for site in (1, 2)]

    async def desk(self, site, session=SESSION):
        journal = self.folder / f"site-{site}.log"
        command = node_command(PROGRAM, session, site, journal, self.proxy.addresses(site))
        desk = Desk(site, command, journal, Audience(), session)
        self.addAsyncCleanup(self.stop, desk)
        await desk.start()
        return desk

    async def stop(self, desk):
        if desk.node.status is None:
            await desk.stop()

    def told(self, desk):
        return {each["is"]: each for each in map(json.loads, desk.opening())}

    async def draw(self):
        """A shape of each kind, a group, and each other edit, as one gesture; then some that are taken back, and done again. The
        answers."""
        lines = ["create rect 10 20 30 40 caf\u00e9", "create ellipse 0 0 9 9", "create line 1 2 -3 -4", "create text 5 5 9 9 \u05d0 @1"]
        lines += ["fill @1 FFCC00", "stroke @2 00ab0c", "width @3 7", "text @4  a  b ", "fill @1 none", "move @1 -5 6"]
        lines += ["resize @2 -1 2", "group @1 @2", "move @12 100 100"]
        answers = (await self.desks[0].batch(lines))["answers"]
        one, two, _, four = (answer[3:] for answer in answers[:4])
        (raised, grouped) = [f"raise {one}", f"lower {four}", f"raise {two}"], [f"group {answers[11][3:]} {four}", "ungroup @1"]
        for gesture in (raised, grouped, ["create rect 1 1 1 1", "delete @1"], ["undo"] * 3, ["redo"] * 2):
            answers += (await self.desks[0].batch(gesture))["answers"]
        return answers

    async def same(self):
        """Waits until both show the same, with nothing kept."""
        one, other = self.desks
        await until(lambda: all(desk.shown == desk.edits and not desk.peers.waiting() for desk in self.desks))
        await until(lambda: one.picture.lines == other.picture.lines and one.picture.lines)

    async def test_drawings_and_events_are_those_that_the_program_prints(self):
        answers = await self.draw()
        self.assertEqual([each for each in answers if not each.startswith("ok ")], [])
        self.assertEqual([len(answer.split("\n")) for answer in answers[-5:]], [3, 3, 4, 4, 3])
        count = sum(len(stamps_of(answer)) for answer in answers)
        await self.same()
        for desk in self.desks:
            self.assertEqual(self.told(desk)["picture"]["items"], replayed(desk.journal, "json"))
            await until(lambda: len(desk.history.events) == count)
            self.assertEqual([as_replayed(json.loads(each)) for each in desk.history.events], replayed(desk.journal, "events"))
            self.assertEqual(json.loads(await saved(PROGRAM, desk.journal, "json")), replayed(desk.journal, "json"))
        self.assertEqual({json.loads(each)["came"] for each in self.desks[1].history.events}, {"applied"})

    async def test_a_gesture_is_in_the_journal_and_taken_back_as_one(self):
        one, _ = self.desks
        made = (await one.batch([line for at in range(20) for line in (f"create rect {at} 0 9 9", f"fill @{2 * at + 1} 11223{at % 10}")]))["answers"]
        self.assertEqual(made, [f"ok {clock}.1" for clock in range(1, 41)])
        await self.same()
        before = list(one.picture.lines)
        moved = await one.batch([f"move {2 * at + 1}.1 {at} 50" for at in range(20)], "Moved")
        self.assertEqual((moved["turns"]["undo"]["lines"], one.gestures.whole), (1, [[1, 40], [41, 60]]))
        (answer,) = (await one.batch(["undo"]))["answers"]
        self.assertEqual(answer.split("\n"), [*(f"ok {clock}.1" for clock in range(61, 81)), "end 20"])
        await self.same()
        self.assertEqual(one.picture.lines, before)

    async def test_more_than_the_node_takes_as_one_is_taken_back_whole(self):
        one, _ = self.desks
        turns = (await one.batch([f"create rect {at} 0 9 9" for at in range(1030)]))["turns"]
        self.assertEqual(turns["undo"], {"name": "", "lines": 3, "first": 1, "last": 1030})
        answers = (await one.batch(["undo"] * 3))["answers"]
        self.assertEqual([answer.split("\n")[-1] for answer in answers], ["end 6", "end 512", "end 512"])
        await until(lambda: one.shown == 2060)
        self.assertEqual(one.picture.lines, [])

    async def test_what_a_refusal_led_astray_is_taken_back(self):
        one, _ = self.desks
        await one.batch(["create rect 0 0 9 9"])
        astray = await one.batch(["create rect 1000000001 0 9 9", "create rect 5 5 9 9", "fill @1 112233", "fill @2 445566"])
        # The first fill was done to what the second create made.
        self.assertEqual(astray["answers"], ["refused: BadNumber"] * 3 + ["refused: NoObject"])
        await until(lambda: one.shown == 5)
        self.assertEqual([line.split(b" ")[1] for line in one.picture.lines], [b"1.1"])

    async def test_the_session_is_the_one_that_was_given(self):
        await self.desks[0].batch(["create rect 0 0 1 1"])
        self.assertEqual(self.desks[0].journal.read_bytes()[:11], header(SESSION, 1, 2))
        await self.desks[0].stop()
        with self.assertRaises(Ended) as said:
            await self.desk(1, SESSION + 1)
        self.assertEqual(str(said.exception), "other journal")

    async def test_what_waits_here_and_who_is_away_is_told_and_what_came_late(self):
        one, two = self.desks
        with mock.patch("page.peers.AWAY", 1):
            name = (await one.batch(["create rect 0 0 9 9"]))["answers"][0][3:]
            await self.same()
            self.proxy.set({"cut": [2]})
            await one.batch([f"move {name} 1 1"])
            late = ["create text 1 1 1 1 a", f"move {name} 2 2", f"fill {name} 112233", f"group {name} @1"]
            self.assertEqual({each[:3] for each in (await two.batch(late))["answers"]}, {"ok "})
            await until(lambda: [each["away"] for each in self.told(one)["peers"]["peers"]] == [True])
            self.assertEqual((self.told(one)["peers"]["waiting"], self.told(two)["peers"]["waiting"]), (1, 4))
            self.proxy.set({"cut": []})
            await self.same()
            await until(lambda: [each["away"] for each in self.told(one)["peers"]["peers"]] == [False])
        came = {each["came"] for desk in self.desks for each in map(json.loads, desk.history.events) if "came" in each}
        self.assertTrue(came & {"dropped", "reworked"}, came)

    async def test_names_are_seen_by_others(self):
        one, two = self.desks
        await one.rename("Ada Lovelace")
        await two.rename("\u0410\u043b\u0435\u043a\u0441\u0430\u043d\u0434\u0440")
        await until(lambda: self.told(two)["peers"]["peers"][0]["name"] == "Ada Lovelace")
        await until(lambda: self.told(one)["peers"]["peers"][0]["name"] == "\u0410\u043b\u0435\u043a\u0441\u0430\u043d\u0434")

    async def test_a_node_that_was_killed_goes_on_with_its_journal_and_its_name(self):
        one, two = self.desks
        await one.rename("Ada Lovelace")
        await one.batch(["create rect 0 0 9 9"])
        one.node.process.kill()
        await until(lambda: one.end)
        self.assertEqual((await one.batch(["undo"]))["answers"], ["refused: Ended"])
        await one.start_again()
        self.assertEqual((await one.batch(["create rect 5 5 9 9"]))["edits"], 2)
        await self.same()
        self.assertEqual(len(two.picture.lines), 2)
        await until(lambda: self.told(two)["peers"]["peers"][0]["name"] == "Ada Lovelace")

    async def test_times_and_names_are_known_behind_a_start_of_all(self):
        one, _ = self.desks
        await one.rename("Ada Lovelace, Countess")
        await one.batch(["create rect 0 0 9 9", "fill @1 112233"])
        await until(lambda: len(one.history.events) == 2)
        seen = [json.loads(each)["seen"] for each in one.history.events]
        await asyncio.gather(*(desk.stop() for desk in self.desks))
        again = await self.desk(1)
        self.assertEqual([json.loads(each)["seen"] for each in again.history.events], seen)
        self.assertNotIn(None, seen)
        self.assertEqual(self.told(again)["hello"]["names"], {"1": "Ada Lovelace, Countess"})
