"""The lines of a gesture: what refers to what, and when each is typed."""

import asyncio
import unittest

from page.batch import MOST_TOGETHER, Batch, head_of, parts_of, references, with_ids
from page.lines import Refused


class Slot:
    """The place of an answer that the test gives."""

    def __init__(self, line):
        self.line, self.lines, self.cut, self.whole = line, [], False, asyncio.get_running_loop().create_future()

    async def settled(self):
        await self.whole

    def give(self, *answer):
        self.lines, self.cut = [line.encode() for line in answer], not answer
        self.whole.set_result(None)


class Desk:
    """Types as a desk does. `pieces` has what was typed at once, and `slots` has where its answers are awaited."""

    site = 1

    def __init__(self, clock=0):
        self.slots, self.pieces, self.now, self.asked = [], [], clock, 0

    def type(self, lines):
        made = [Slot(line.decode()) for line in lines]
        self.slots += made
        self.pieces += [slot.line.split("\n") for slot in made]
        return made

    async def clock(self):
        self.asked += 1
        return self.now


class References(unittest.TestCase):
    def test_whole_words_outside_labels(self):
        rows = {
            "fill @1 none": [1],
            "group @1 2.1 @12": [1, 12],
            "  move   @3  1 2": [3],
            "create rect 0 0 1 1 @1 is a word of the label": [],
            "create rect 0 0 1 1": [],
            "text @2 @1 and @2": [2],
            " text  @2": [2],
            "text @2 ": [2],
            "raise x@1": [],
            "raise @1x": [],
            "raise @0": [],
            "raise @01": [],
            "raise @": [],
            "raise @123456": [],
            "raise 1.1": [],
            "create rect 0 0 @1": [1],
        }
        for line, wanted in rows.items():
            self.assertEqual(references(line), wanted, line)

    def test_ids_take_their_places_and_labels_stay(self):
        self.assertEqual(with_ids("group @1 @11 @1", {1: "5.1", 11: "6.2"}), "group 5.1 6.2 5.1")
        self.assertEqual(with_ids("text @1  @1 a  b ", {1: "5.1"}), "text 5.1  @1 a  b ")
        self.assertEqual("text @1  a"[: head_of("text @1  a")], "text @1")

    def test_what_is_no_text_refers_to_nothing(self):
        for wrong in (None, 5, ["raise @1"], {"@1": 1}):
            self.assertEqual(references(wrong), [])


class Parts(unittest.TestCase):
    def test_edits_that_follow_each_other_are_together_and_nothing_else(self):
        rows = [
            ([], []),
            (["raise 1.1"], [[0]]),
            (["raise 1.1", " lower 2.1", "text 1.1 undo"], [[0, 1, 2]]),
            (["undo", "undo", "redo"], [[0], [1], [2]]),
            (["raise 1.1", "focus 1.1", "raise 1.1", "raise 2.1", "undo", "quit", None], [[0], [1], [2, 3], [4], [5], [6]]),
        ]
        for texts, wanted in rows:
            self.assertEqual(parts_of(texts), wanted, texts)

    def test_more_than_a_node_takes_are_several_in_a_row(self):
        self.assertEqual([len(part) for part in parts_of(["raise 1.1"] * (2 * MOST_TOGETHER + 1))], [MOST_TOGETHER, MOST_TOGETHER, 1])
        self.assertEqual([len(part) for part in parts_of(["raise 1.1"] * MOST_TOGETHER)], [MOST_TOGETHER])


class Typing(unittest.IsolatedAsyncioTestCase):
    def setUp(self):
        self.desk = Desk()

    def begin(self, *texts):
        self.batch = Batch(texts, self.desk)
        return asyncio.create_task(self.run_batch())

    async def run_batch(self):
        await self.batch.type_all()
        return await self.batch.all_answers()

    async def rest(self):
        for _ in range(10):
            await asyncio.sleep(0)

    async def give(self, *answers):
        """Answers what was typed first and isn't answered yet: a gesture by what is said of each line."""
        await self.rest()
        slot = next(slot for slot in self.desk.slots if not slot.whole.done())
        is_gesture = slot.line.startswith("begin")
        slot.give(*answers, *([f"end {len(answers)}"] if is_gesture and answers else []))
        await self.rest()

    async def test_a_line_alone_is_no_gesture(self):
        run = self.begin("raise 1.1")
        await self.give("ok 1.1")
        self.assertEqual((await run, self.desk.pieces), (["ok 1.1"], [["raise 1.1"]]))
        self.assertEqual(self.batch.replies, [(b"raise", ["ok 1.1"])])

    async def test_several_are_one_gesture(self):
        names = [f"raise {clock}.1" for clock in range(1, 501)]
        run = self.begin(*names)
        await self.rest()
        self.assertEqual(self.desk.pieces, [["begin", *names, "end"]])
        await self.give(*["refused: NoObject" if at == 7 else f"ok {at}.1" for at in range(500)])
        answers = await run
        self.assertEqual((answers[7], answers[8], len(answers)), ("refused: NoObject", "ok 8.1", 500))
        self.assertEqual((len(self.batch.taken), self.batch.taken[7]), (499, ("8.1", "raise 9.1")))
        self.assertEqual((len(self.batch.replies), self.batch.replies[0][0], self.desk.asked), (1, b"begin", 0))

    async def test_more_than_a_node_takes_as_one_are_typed_before_any_answer(self):
        run = self.begin(*["raise 1.1"] * (MOST_TOGETHER + 2))
        await self.rest()
        self.assertEqual([len(piece) for piece in self.desk.pieces], [MOST_TOGETHER + 2, 4])
        await self.give(*(f"ok {clock}.1" for clock in range(MOST_TOGETHER)))
        await self.give("ok 900.1", "refused: NoObject")
        self.assertEqual((await run)[-3:], ["ok 511.1", "ok 900.1", "refused: NoObject"])
        self.assertEqual([len(reply) for _, reply in self.batch.replies], [MOST_TOGETHER + 1, 3])

    async def test_ids_that_are_needed_are_foretold(self):
        self.desk = Desk(clock=40)
        run = self.begin("create rect 0 0 1 1", "create rect 9 9 1 1", "fill @1 none", "group @2 @1", "raise 7.1")
        await self.rest()
        wanted = ["create rect 0 0 1 1", "create rect 9 9 1 1", "fill 41.1 none", "group 42.1 41.1", "raise 7.1"]
        self.assertEqual(self.desk.pieces, [["begin", *wanted, "end"]])
        answers = [f"ok {clock}.1" for clock in range(41, 46)]
        await self.give(*answers)
        self.assertEqual((await run, self.batch.texts, self.batch.is_astray), (answers, wanted, False))
        self.assertEqual(self.batch.verbs, {b"create", b"fill", b"group", b"raise"})

    async def test_ids_of_an_earlier_part_are_waited_for(self):
        many = ["raise 1.1"] * (MOST_TOGETHER - 1)
        run = self.begin("create rect 0 0 1 1", *many, "fill @1 none")
        await self.rest()
        self.assertEqual(len(self.desk.pieces), 1)
        await self.give("ok 5.1", *(f"ok {clock}.1" for clock in range(6, MOST_TOGETHER + 5)))
        self.assertEqual(self.desk.pieces[1:], [["fill 5.1 none"]])
        await self.give("ok 800.1")
        self.assertEqual(((await run)[-1], self.desk.asked), ("ok 800.1", 0))

    async def test_of_what_isn_t_typed_no_clock_is_foretold(self):
        run = self.begin("create rect 0 0 1 1", "text 1.1 a\nb", "create rect 9 9 1 1", "fill @3 none", "raise @2")
        await self.rest()
        self.assertEqual(self.desk.pieces, [["begin", "create rect 0 0 1 1", "create rect 9 9 1 1", "fill 2.1 none", "end"]])
        await self.give("ok 1.1", "ok 2.1", "ok 3.1")
        self.assertEqual(await run, ["ok 1.1", "refused: BadLabel", "ok 2.1", "ok 3.1", "refused: NoObject"])

    async def test_where_a_refusal_leads_no_line_astray_the_rest_is_done(self):
        run = self.begin("group 7.1 8.1", "group 9.1 10.1", "group @1 @2")
        await self.give("refused: NoObject", "ok 1.1", "refused: NoObject")
        self.assertEqual(await run, ["refused: NoObject", "ok 1.1", "refused: NoObject"])
        self.assertEqual((len(self.desk.pieces), self.batch.is_astray), (1, False))

    async def test_what_a_refusal_led_astray_is_taken_back_at_once(self):
        # The fill was meant for the first one.
        run = self.begin("move 9.1 0 0", "create rect 0 0 1 1", "create rect 9 9 1 1", "fill @2 none", "raise 9.1")
        await self.give("refused: NoObject", "ok 1.1", "ok 2.1", "ok 3.1", "refused: TooFar")
        self.assertEqual(await run, ["refused: NoObject"] * 4 + ["refused: TooFar"])
        self.assertEqual(self.desk.pieces[1:], [["undo"]])
        self.assertEqual((self.batch.taken, self.batch.replies, self.batch.is_astray), ([], [], True))

    async def test_an_undo_has_an_answer_of_several_lines(self):
        run = self.begin("undo", "undo")
        await self.give("ok 4.1", "ok 5.1", "end 2")
        await self.give("refused: NothingBack")
        self.assertEqual(await run, ["ok 4.1\nok 5.1\nend 2", "refused: NothingBack"])
        self.assertEqual(self.batch.taken, [("4.1", "undo"), ("5.1", "undo")])
        self.assertEqual(self.batch.replies, [(b"undo", ["ok 4.1", "ok 5.1", "end 2"]), (b"undo", ["refused: NothingBack"])])

    async def test_a_note_makes_nothing_to_refer_to(self):
        run = self.begin("focus 1.1", "raise @1")
        await self.give("noted 1")
        self.assertEqual(await run, ["noted 1", "refused: NoObject"])

    async def test_later_lines_and_itself_are_left_to_the_node(self):
        run = self.begin("raise @1", "raise @3", "raise 1.1")
        await self.give("refused: BadId", "refused: BadId", "ok 3.1")
        self.assertEqual(await run, ["refused: BadId", "refused: BadId", "ok 3.1"])
        self.assertEqual(self.desk.pieces, [["begin", "raise @1", "raise @3", "raise 1.1", "end"]])

    async def test_what_is_no_line_isn_t_typed(self):
        run = self.begin("raise 1.1\nquit", "quit", None, "show", "begin", "end", "raise 1.1", "text 1.1 " + "a" * 1100)
        await self.give("ok 1.1")
        wanted = ["refused: BadLabel", *["refused: UnknownCommand"] * 5, "ok 1.1", "refused: LongLine"]
        self.assertEqual(await run, wanted)
        self.assertEqual(self.desk.pieces, [["raise 1.1"]])

    async def test_an_end_before_the_answer_is_no_ok(self):
        run = self.begin("raise 1.1", "focus 2.1", "raise 2.1", "raise 3.1")
        await self.give("ok 4.1")
        await self.give("noted 1")
        await self.give()
        self.assertEqual(await run, ["ok 4.1", "noted 1", "unanswered", "unanswered"])
        self.assertTrue(self.batch.is_cut)
        self.assertEqual(self.batch.replies, [(b"raise", ["ok 4.1"]), (b"focus", ["noted 1"])])

    async def test_an_ended_node_answers_nothing_ok(self):
        def refuse(_=None):
            raise Refused("Ended")

        for what in ("type", "clock"):
            setattr(self.desk, what, refuse)
            self.assertEqual(await self.begin("create rect 0 0 1 1", "fill @1 none"), ["refused: Ended"] * 2)

    async def test_a_thousand_that_each_need_the_one_before(self):
        run = self.begin("create rect 0 0 1 1", *[f"text @{index} x" for index in range(1, 1000)])
        while not run.done():
            await asyncio.sleep(0)
            for slot in self.desk.slots:
                if not slot.whole.done():
                    count = slot.line.count("\n") - 1
                    slot.give(*(f"ok {self.desk.now + at}.1" for at in range(1, count + 1)), f"end {count}")
                    self.desk.now += count
        self.assertEqual((await run)[-1], "ok 1000.1")
        self.assertEqual(self.batch.texts[-1], "text 999.1 x")
        self.assertEqual(len(self.desk.pieces), 2)
