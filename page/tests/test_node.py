"""A node as a process, by a stand-in."""

import asyncio
import os
import signal
from unittest import mock

from page.lines import last_of
from page.node import Busy, Ended, Node, Slot
from page.tests.places import WithStandIn, until

SHOWN = "text 1.1 in - at 0 0 size 9 9 stroke 000000 fill none width 1 text \u00e9\u2028\u0085end 1"


class WithNode(WithStandIn):
    async def node(self, **script):
        """A node that is ready. What it ended with is in `self.ends`."""
        self.script(**script)
        self.ends = []
        node = Node(self.command(), lambda *end: self.ends.append(end))
        self.addAsyncCleanup(node.quit)
        await node.wait_until_ready()
        return node

    async def ask(self, node, text):
        return [line.decode() for line in await node.ask(text.encode())]


class Answers(WithNode):
    async def test_replies_split_anywhere(self):
        node = await self.node()
        answers = {
            b"show": [SHOWN, "end 1"], b"raise 1.1": ["ok 1.1"], b"begin\nraise 1.1\nraise 2.1\nend": ["ok 2.1", "refused: NoObject", "end 2"],
            b"undo": ["ok 3.1", "end 1"], b" redo": ["refused: NothingBack"],
        }
        stream = "".join(f"{line}\n" for lines in answers.values() for line in lines).encode()
        for cut in range(len(stream) + 1):
            slots = [Slot(last_of(typed), node.loop) for typed in answers]
            node.slots.extend(slots)
            for piece in (stream[:cut], stream[cut:]):
                node.hand_out(piece)
            self.assertEqual([[line.decode() for line in slot.lines] for slot in slots], list(answers.values()))
            self.assertEqual((node.pending, len(node.slots)), (b"", 0))

    async def test_a_cut_line_is_left_out(self):
        node = await self.node(end=["undo", "ok 1.1", 8])
        (slot,) = node.type(b"undo")
        await slot.settled()
        self.assertEqual((slot.lines, slot.cut), ([], True))

    async def test_answers_of_one_line_and_of_several(self):
        node = await self.node(show=[SHOWN], polls=[["echo 1.2 applied raise 1.1", "polled 1"], ["link fault after 0"]])
        self.assertEqual(await self.ask(node, "show"), [SHOWN, "end 1"])
        self.assertEqual(await self.ask(node, "poll"), ["echo 1.2 applied raise 1.1", "polled 1"])
        self.assertEqual(await self.ask(node, "poll"), ["link fault after 0"])
        self.assertEqual(await self.ask(node, "move 1.1 0 0"), ["ok 1.1"])

    async def test_a_refusal_is_an_answer(self):
        node = await self.node(refused={"raise 9.1": "NoObject"})
        self.assertEqual(await self.ask(node, "raise 9.1"), ["refused: NoObject"])
        self.assertEqual(await self.ask(node, "undo"), ["ok 1.1", "end 1"])

    async def test_a_gesture_has_one_answer(self):
        node = await self.node(refused={"raise 9.1": "NoObject"})
        slots = node.type(b"begin\nraise 1.1\nraise 9.1\nraise 2.1\nend", b"raise 3.1")
        self.assertEqual(node.lines_waiting, 6)
        await slots[-1].answer()
        self.assertEqual(slots[0].lines, [b"ok 1.1", b"refused: NoObject", b"ok 2.1", b"end 3"])
        self.assertEqual((slots[1].lines, [slot.accepted for slot in slots], node.lines_waiting), ([b"ok 3.1"], [2, 3], 0))

    async def test_each_answer_has_the_number_of_edits_before_it(self):
        node = await self.node(refused={"raise 9.1": "NoObject"}, show=[SHOWN])
        typed = [b"undo", b"raise 9.1", b"show", b"undo", b"name A", b"undo", b"show"]
        slots = node.type(*typed)
        await slots[-1].answer()
        self.assertEqual([slot.accepted for slot in slots], [1, 1, 1, 2, 2, 3, 3])

    async def test_ten_thousand_lines_in_one_answer(self):
        rows = [f"group {clock}.1 in - at 0 0" for clock in range(1, 10_001)]
        node = await self.node(show=rows)
        self.assertEqual(await self.ask(node, "show"), [*rows, "end 10000"])

    async def test_ten_thousand_typed_lines(self):
        node = await self.node()
        slots = node.type(*[b"raise 1.1"] * 10_000)
        await slots[-1].answer()
        self.assertEqual([slot.lines for slot in slots], [[f"ok {count}.1".encode()] for count in range(1, 10_001)])

    async def test_each_of_several_who_type_has_an_answer_of_its_own(self):
        refused = {f"raise {name}.1": f"Why{name}" for name in range(8)}
        node = await self.node(refused=refused)
        wrong = []

        async def type_often(name):
            for _ in range(100):
                if await self.ask(node, f"raise {name}.1") != [f"refused: Why{name}"]:
                    wrong.append(name)

        await asyncio.gather(*(type_often(name) for name in range(8)))
        self.assertEqual(wrong, [])
        self.assertEqual(len(self.typed()), 800)


class Ends(WithNode):
    async def test_an_end_in_the_middle_of_an_answer(self):
        node = await self.node(end=["show", f"{SHOWN}\nrect 2.", 8])
        (waiting,) = node.type(b"raise 1.1")
        with self.assertRaises(Ended):
            await node.ask(b"show")
        self.assertEqual((waiting.lines, waiting.cut), ([b"ok 1.1"], False))
        await until(lambda: self.ends)
        self.assertEqual(self.ends, [(8, [])])
        with self.assertRaises(Ended):
            node.type(b"undo")

    async def test_the_last_words_of_a_node(self):
        node = await self.node(end=["undo", "line limit\n", 9])
        with self.assertRaises(Ended):
            await node.ask(b"undo")
        await until(lambda: self.ends)
        self.assertEqual(self.ends, [(9, ["line limit"])])

    async def test_an_end_before_it_is_ready(self):
        self.script(first="bad log at 3: Short\n", status=3)
        node = Node(self.command())
        with self.assertRaises(Ended) as found:
            await node.wait_until_ready()
        self.assertEqual(str(found.exception), "bad log at 3: Short")
        self.assertEqual(await node.quit(), 3)

    async def test_quit_ends_it(self):
        node = await self.node()
        self.assertEqual(await node.quit(), 0)
        self.assertEqual(self.typed(), ["quit"])
        self.assertEqual(self.ends, [(0, [])])


class Silence(WithNode):
    """A node that is stopped, as one that hangs is, and goes on later."""

    async def stopped(self):
        node = await self.node()
        await self.ask(node, "undo")
        os.kill(node.process.pid, signal.SIGSTOP)
        self.addCleanup(self.go_on, node)
        return node

    def go_on(self, node):
        if node.status is None:
            os.kill(node.process.pid, signal.SIGCONT)

    async def test_its_silence_is_measured_and_its_answer_comes_late(self):
        node = await self.stopped()
        self.assertEqual(node.silence(), 0)
        (slot,) = node.type(b"undo")
        await until(lambda: node.silence() > 0.3)
        self.assertFalse(slot.whole.done())
        self.go_on(node)
        self.assertEqual(await slot.answer(), [b"ok 2.1", b"end 1"])
        self.assertEqual(node.silence(), 0)

    async def test_who_stops_waiting_doesn_t_stop_others(self):
        node = await self.stopped()
        (slot,) = node.type(b"undo")
        one, other = (asyncio.create_task(slot.answer()) for _ in range(2))
        await asyncio.sleep(0)
        one.cancel()
        self.go_on(node)
        self.assertEqual(await other, [b"ok 2.1", b"end 1"])

    async def test_what_waits_for_it_is_bounded(self):
        with mock.patch("page.node.MOST_WAITING", 1000):
            node = await self.stopped()
            slots = node.type(*[b"text 1.1 " + b"a" * 1000] * 999)
            for typed in (b"begin\nend", b"begin\nundo\nend"):
                with self.assertRaises(Busy):
                    node.type(typed)
            slots += node.type(b"undo")
            self.go_on(node)
            await slots[-1].answer()
            self.assertEqual(await self.ask(node, "undo"), ["ok 1002.1", "end 1"])
        self.assertEqual(len(self.typed()), 1002)

    async def test_one_that_hangs_is_ended_all_the_same(self):
        with mock.patch("page.node.FAREWELL", 0.2):
            node = await self.stopped()
            self.assertEqual(await node.quit(), -signal.SIGKILL)
