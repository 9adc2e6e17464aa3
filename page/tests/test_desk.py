"""A desk over a stand-in: what it asks for and when, and what it tells."""

import asyncio
import json
import os
import signal
from unittest import mock

from page.audience import Audience
from page.desk import Desk
from page.tests.desks import ROW, WithDesk
from page.tests.logs import create, header, log
from page.tests.places import until


class Asking(WithDesk):
    async def test_the_drawing_is_asked_for_where_it_may_have_changed(self):
        desk = await self.desk(polls=[["polled 0"]] * 20 + [["echo 1.2 applied raise 1.1", "polled 1"]], show=[ROW])
        await self.wait_for_polls(10)
        self.assertEqual(self.typed().count("show"), 1)
        await until(lambda: self.typed().count("show") == 2)
        await self.wait_for_polls(5)
        self.assertEqual(self.typed().count("show"), 2)
        await desk.batch(["undo"])
        await until(lambda: self.typed().count("show") == 3)
        await self.wait_for_polls(5)
        self.assertEqual(self.typed().count("show"), 3)

    async def test_a_gesture_of_many_lines_asks_for_the_drawing_and_polls_once(self):
        desk = await self.desk(poll_every=1000)
        first = ["show", "status", "poll", "who", "status"]
        await until(lambda: self.typed() == first)
        await desk.batch([f"raise {clock}.1" for clock in range(1, 501)])
        await until(lambda: self.typed().count("poll") == 2)
        await asyncio.sleep(0.2)
        verbs = [line.split(" ")[0] for line in self.typed()[len(first) :]]
        self.assertEqual([verbs[0], verbs[501], verbs[502]], ["begin", "end", "show"])
        self.assertEqual({verb: verbs.count(verb) for verb in ("raise", "show", "poll")}, {"raise": 500, "show": 1, "poll": 1})

    async def test_no_poll_comes_between_the_clock_and_a_gesture_whose_ids_are_foretold_by_it(self):
        desk = await self.desk(poll_every=0.001)
        for _ in range(50):
            await desk.batch(["create rect 0 0 1 1", "fill @1 none"])
        typed = self.typed()
        begun = [at for at, line in enumerate(typed) if line == "begin"]
        self.assertEqual({typed[at - 1] for at in begun}, {"status"})
        fills = [line for line in typed if line.startswith("fill")]
        self.assertEqual(fills, [f"fill {2 * at + 1}.1 none" for at in range(50)])

    async def test_a_page_that_comes_before_the_first_drawing_is_told_of_none(self):
        desk = await self.desk(poll_every=1000, show=[ROW])
        self.assertNotIn("picture", self.opened(desk))
        await until(lambda: self.heard("picture"))
        self.assertEqual([item["id"] for item in self.opened(desk)["picture"]["items"]], ["1.1"])

    async def test_notes_and_datagrams_ask_for_no_drawing(self):
        desk = await self.desk(polls=[["polled 1"]] * 200)
        self.assertEqual((await desk.batch(["focus 1.1"]))["answers"][0][:5], "noted")
        await self.wait_for_polls(10)
        self.assertEqual(self.typed().count("show"), 1)

    async def test_notes_are_asked_for_behind_datagrams_and_not_at_each_poll(self):
        with mock.patch("page.rounds.ASK_EVERY", 1000):
            desk = await self.desk(polls=[["polled 1"]] * 400)
            await self.wait_for_polls(15)
            self.assertEqual(self.typed().count("who"), 1)
            desk.rounds.asked_at -= 2000
            await until(lambda: self.typed().count("who") == 2)

    async def test_polls_are_soon_while_events_come(self):
        # Without that the next poll would come after a quarter of an hour.
        with mock.patch("page.rounds.SOON_FOR", 100):
            await self.desk(poll_every=1000, polls=[["echo 1.2 applied raise 1.1", "polled 1"]])
            await self.wait_for_polls(5)

    async def test_a_line_break_is_refused_before_the_node_sees_it(self):
        desk = await self.desk(poll_every=1000)
        lines = ["text 1.1 a\nquit", "text 1.1 a\rquit", "name a\n", "quit", "text 1.1 a"]
        answers = (await desk.batch(lines))["answers"]
        self.assertEqual(answers[:4], ["refused: BadLabel"] * 3 + ["refused: UnknownCommand"])
        self.assertEqual(self.edits(), ["text 1.1 a"])

    async def test_gestures_of_two_pages_don_t_mix(self):
        desk = await self.desk(poll_every=1000)
        one = ["create rect 0 0 1 1", "fill @1 none", "raise @1"]
        other = ["create text 0 0 1 1 a", "fill @1 000000"]
        await asyncio.gather(desk.batch(one), desk.batch(other))
        verbs = [line.split(" ")[0] for line in self.edits()]
        self.assertEqual(verbs, ["begin", "create", "fill", "raise", "end", "begin", "create", "fill", "end"])

    async def test_a_journal_that_is_there_is_gone_on_with(self):
        await self.desk()
        self.assertEqual(json.loads(self.beside("words").read_text()), self.command()[1:])
        self.journal.write_bytes(log(header()))
        await self.desk()
        self.assertEqual(json.loads(self.beside("words").read_text()), ["node", "--resume", *self.command()[2:]])


class Telling(WithDesk):
    async def test_an_edit_is_in_the_picture_of_its_number(self):
        desk = await self.desk(show=[ROW], refused={"raise 9.1": "NoObject"})
        self.assertEqual([(await desk.batch(["undo"]))["edits"] for _ in range(3)], [1, 2, 3])
        several = await desk.batch(["undo", "raise 9.1", "undo"])
        self.assertEqual((several["edits"], several["answers"][1]), (5, "refused: NoObject"))
        self.assertEqual((await desk.batch(["raise 9.1"]))["edits"], 5)
        await until(lambda: any(each["edits"] == 5 for each in self.heard("picture")))
        self.assertEqual([each["id"] for each in self.heard("picture")[0]["items"]], ["1.1"])
        self.assertEqual(self.heard("picture")[-1]["items"], [])

    async def test_an_edit_behind_a_picture_isn_t_in_it(self):
        desk = await self.desk(poll_every=1000, show=[ROW])
        await until(lambda: "who" in self.typed())
        os.kill(desk.node.process.pid, signal.SIGSTOP)
        self.addCleanup(os.kill, desk.node.process.pid, signal.SIGCONT)
        desk.rounds.show_due = True
        desk.rounds.wake.set()
        await until(lambda: desk.node.slots)
        gesture = asyncio.create_task(desk.batch(["undo"]))
        await until(lambda: len(desk.node.slots) == 2)
        os.kill(desk.node.process.pid, signal.SIGCONT)
        await gesture
        await until(lambda: len(self.heard("picture")) == 3)
        self.assertEqual([each["edits"] for each in self.heard("picture")], [0, 0, 1])

    async def test_own_edits_are_told_as_they_were_typed(self):
        desk = await self.desk(refused={"raise 9.1": "NoObject"})
        answers = (await desk.batch(["create rect 0 0 1 1", "raise 9.1", "fill @1 none"]))["answers"]
        name = answers[0][3:]
        own = [entry for each in self.heard("news") for entry in each["news"]]
        wanted = [("own", name, "create rect 0 0 1 1"), ("own", answers[2][3:], f"fill {name} none")]
        self.assertEqual([(each["what"], each["event"], each["line"]) for each in own], wanted)

    async def test_what_happened(self):
        echoes = ["echo 1.2 applied raise 1.1", "echo 2.2 dropped by 3.1 raise 1.1", "echo 3.2 reworked 4 delete 1.1", "frame refused: Session"]
        await self.desk(polls=[[*echoes, "polled 4"], ["polled 0"], ["link fault after 0"]])
        await until(lambda: len(self.heard("news")) == 2)
        whats = [entry["what"] for each in self.heard("news") for entry in each["news"]]
        self.assertEqual(whats, ["applied", "dropped", "reworked", "said", "said"])
        done = [entry["line"] for each in self.heard("news") for entry in each["news"]]
        self.assertEqual(done[:3], ["raise 1.1", "raise 1.1", "delete 1.1"])
        await until(lambda: any(each["others"] for each in self.heard("picture")))

    async def test_frames_of_a_wrong_peer_don_t_push_out_what_happened(self):
        with mock.patch("page.news.SAY_EVERY", 1000):
            await self.desk(polls=[["echo 1.2 applied raise 1.1", "polled 1"]] + [["frame refused: Session", "polled 1"]] * 100)
            await self.wait_for_polls(100)
        entries = [entry for each in self.heard("news") for entry in each["news"]]
        self.assertEqual([entry["what"] for entry in entries], ["applied", "said"])

    async def test_a_journal_that_can_t_be_read_is_said_once(self):
        desk = await self.desk()
        self.journal.write_bytes(b"GDOB and no drawing")
        for _ in range(2):
            await desk.batch(["undo"])
            await self.wait_for_polls(2)
        said = [entry for each in self.heard("news") for entry in each["news"] if entry["what"] == "said"]
        self.assertEqual([entry["line"] for entry in said], ["the drawing's file isn't read for the history: it is no log"])

    async def test_a_page_that_comes_later_is_told_all(self):
        desk = await self.desk(show=[ROW])
        await desk.batch(["move 1.1 0 0"])
        await until(lambda: desk.shown == 1 and desk.standing.get("clock") == 1 and desk.who)
        told = self.opened(desk)
        hello = {"is": "hello", "desk": 1, "site": 1, "sites": 2, "session": 7, "demo": False, "openly": False, "journal": "site.log"}
        turns = {"number": 1, "undo": {"name": "", "lines": 1, "first": 1, "last": 1}, "redo": None}
        self.assertEqual(told["hello"], {**hello, "desks": [1], "names": {}, "gestures": [], "turns": turns})
        self.assertEqual([each["id"] for each in told["picture"]["items"]], ["1.1"])
        self.assertEqual((told["picture"]["whole"], told["picture"]["edits"]), (True, 1))
        self.assertEqual([each["line"] for each in told["news"]["news"]], ["move 1.1 0 0"])
        self.assertEqual(told["who"]["who"], [{"site": 1, "name": None, "focus": None}])
        self.assertEqual(told["standing"]["standing"], {"held": 0, "kept": 0, "line": 0, "clock": 1})
        self.assertEqual((told["peers"]["silent"], [each["site"] for each in told["peers"]["peers"]]), (False, [2]))
        self.assertEqual((told["parted"]["sites"], told["parted"]["older"]), ([], False))
        self.assertEqual(list(told), ["hello", "news", "who", "standing", "parted", "peers", "picture", "history"])

    async def test_whose_edits_are_others_is_told_for_as_long_as_the_node_says_so(self):
        polls = [["parted from 2 at 3", "polled 1"], *[["polled 1"]] * 20, ["frame refused: OverAck 5 4", "polled 1"]]
        with mock.patch("page.rounds.ASK_EVERY", 0):
            desk = await self.desk(polls=polls, who=["who 1 - focus -", "parted from 2 at 3"], end=["undo", "", 9])
            await until(lambda: len(self.heard("parted")) == 2)
        self.assertEqual([(each["sites"], each["older"]) for each in self.heard("parted")], [([2], False), ([2], True)])
        told = self.opened(desk)["parted"]
        self.assertEqual((told["sites"], told["older"]), ([2], True))
        # A node that is begun anew has parted from nobody.
        await desk.batch(["undo"])
        await until(lambda: desk.end)
        self.script()
        await desk.start_again()
        told = self.heard("parted")[-1]
        self.assertEqual((told["sites"], told["older"]), ([], False))

    async def test_the_edits_of_a_gesture_are_told_as_one(self):
        desk = await self.desk(poll_every=1000, refused={"raise 9.1": "NoObject"})
        for lines in (["raise 1.1"], ["raise 9.1", "raise 1.1", "raise 9.1", "raise 2.1"], ["raise 9.1", "raise 1.1"], ["focus 1.1"]):
            await desk.batch(lines)
        self.assertEqual([each["gestures"] for each in self.heard("gestures")], [[[2, 3]]])
        self.assertEqual(self.opened(desk)["hello"]["gestures"], [[2, 3]])

    async def test_what_can_be_taken_back_is_told_behind_each_gesture_and_to_who_comes_later(self):
        desk = await self.desk(poll_every=1000, refused={"raise 9.1": "NoObject"})
        rows = [
            ("Moved", ["move 1.1 0 0", "move 2.1 0 0"], ("Moved", 1), None), ("", ["raise 9.1"], ("Moved", 1), None),
            ("", ["focus 1.1"], ("Moved", 1), None), ("", ["undo"], None, ("Moved", 1)), ("", ["redo"], ("Moved", 1), None),
        ]
        for name, lines, *wanted in rows:
            turns = (await desk.batch(lines, name))["turns"]
            due = [each and (each["name"], each["lines"]) for each in (turns["undo"], turns["redo"])]
            self.assertEqual(due, wanted)
            self.assertEqual(self.opened(desk)["hello"]["turns"], turns)
        told = self.heard("turns")
        self.assertEqual([each["number"] for each in told], [1, 2, 3])
        self.assertEqual({**told[-1], "is": None, "desk": None}, {**turns, "is": None, "desk": None})

    async def stopped(self, *lines):
        """A desk whose node has stopped behind the lines of a gesture, which stand in its journal, and another one's event
        behind them; the gesture, and the clocks of its first and its last event."""
        desk = await self.desk(poll_every=1000)
        await until(lambda: self.typed()[-2:] == ["who", "status"] and not desk.node.slots)
        os.kill(desk.node.process.pid, signal.SIGSTOP)
        gesture = asyncio.create_task(desk.batch(list(lines)))
        await until(lambda: desk.node.slots)
        own = [create(f"{at + 1}.1", at + 1, "rect", 0, 0, 1, 1) for at in range(len(lines))]
        self.journal.write_bytes(log(header(), *own, create("1.2", 1, "rect", 0, 0, 1, 1)))
        # As behind a poll that brought the other one's event.
        desk.read_history()
        return desk, gesture, [1, len(lines)]

    async def test_a_gesture_is_told_before_its_events_however_late_its_answers_come(self):
        desk, gesture, clocks = await self.stopped("raise 1.1", "raise 2.1", "raise 3.1")
        self.assertEqual((self.heard("history"), self.opened(desk)["history"]["events"]), ([], []))
        os.kill(desk.node.process.pid, signal.SIGCONT)
        await gesture
        self.heard("history")
        kinds = [each["is"] for each in self.told if each["is"] in ("gestures", "history")]
        self.assertEqual(kinds, ["gestures", "history"])
        self.assertEqual(self.heard("gestures")[0]["gestures"], [clocks])
        self.assertEqual([event["site"] for event in self.heard("history")[0]["events"]], [1, 1, 1, 2])

    async def test_a_gesture_is_one_where_the_node_ends_before_it_has_answered(self):
        desk, gesture, clocks = await self.stopped("raise 1.1", "raise 2.1", "raise 3.1")
        os.kill(desk.node.process.pid, signal.SIGKILL)
        self.assertEqual((await gesture)["answers"], ["unanswered"] * 3)
        self.assertEqual([each["gestures"] for each in self.heard("gestures")], [[clocks]])
        self.assertEqual(len(self.heard("history")[0]["events"]), 4)

    async def test_a_desk_of_another_site_begins_with_its_name_and_its_journal_too(self):
        self.script()
        self.beside("name").write_text("Ben")
        self.journal.write_bytes(log(header(), create("1.2", 1, "rect", 0, 0, 1, 1)))
        desk = Desk(2, self.command("--session", "7", "--site", "2"), self.journal, Audience(), 7, 1000)
        await desk.start()
        self.addAsyncCleanup(desk.stop)
        told = self.opened(desk)
        self.assertEqual((told["hello"]["site"], told["hello"]["sites"], told["hello"]["names"]), (2, 2, {"2": "Ben"}))
        self.assertEqual([each["site"] for each in told["peers"]["peers"]], [1])
        self.assertEqual([each["id"] for each in told["history"]["events"]], ["1.2"])

    async def test_events_are_told_once_with_what_came_of_them(self):
        first, second = (create(f"{clock}.2", clock, "rect", 0, 0, 1, 1) for clock in (1, 2))
        self.journal.write_bytes(log(header(), first))
        desk = await self.desk(polls=[["polled 0"]] * 10 + [["echo 2.2 reworked 3 raise 1.1", "polled 1"]])
        self.assertEqual(len(self.opened(desk)["history"]["events"]), 1)
        await until(lambda: self.heard("picture"))
        self.journal.write_bytes(log(header(), first, second))
        (told,) = await until(lambda: self.heard("history"))
        self.assertEqual((told["from"], [each["id"] for each in told["events"]]), (1, ["2.2"]))
        self.assertEqual((told["events"][0]["came"], told["events"][0]["count"]), ("reworked", 3))
        await self.wait_for_polls(5)
        self.assertEqual(len(self.heard("history")), 1)
