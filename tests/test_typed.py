"""Lines that are typed at a node, their answers, and what it keeps and sends of them."""

from tests.nodes import answered
from tests.program import DONE, LINE_LIMIT, Case
from tests.spelled import PLAIN, chain, frame, label, log, rechecked, square
from tests.tables import dialogues
from tests.worked import FRAME

# A blank line has no answer, one CR at the end of a line is none of it, and nothing is read behind `quit`.
NOTED = [
    ("who", "end 0\n"),
    ("name Ada", "noted 1\n"),
    ("", ""),
    ("  \r", ""),
    ("focus 1.1", "noted 2\n"),
    ("who", "who 1 Ada focus 1.1\nend 1\n"),
    (" create  text 0 0 10 10  a \r", "ok 1.1\n"),
    ("focus -\r", "noted 3\n"),
    ("who", "who 1 Ada focus -\nend 1\n"),
    ("show", "text 1.1 in - at 0 0 size 10 10 stroke 000000 fill none width 1 text  a \nend 1\n"),
    ("quit x", "refused: WrongCount\n"),
    (" quit ", ""),
]

RECT = square((1, 2), 1)
DELETE = ((2, 2), 2, ("delete", (1, 2)))
RESTORE = ((3, 2), 3, ("restore", (1, 2), ("rect", 0, 0, 10, 10, 0, None, 1, *PLAIN, "", None, None, False, ("high", (1, 2)))))

# The line faults of docs/LINES.md, section 4, each with its example.
FAULTS = [
    ("paint", "UnknownCommand"), ("Show", "UnknownCommand"), ("create rect 0 0 1", "WrongCount"),
    ("create rect 0 0 1 ", "WrongCount"), ("create Rect 0 0 1 1", "BadKind"), ("create rect 0 x 1 1", "BadNumber"),
    ("create rect 0 0 1 +1", "BadNumber"), ("create rect 0 0 1 0000000000001", "BadNumber"),
    ("create rect 0 0 1 1 a\tb", "BadLabel"), ("delete", "WrongCount"), ("delete 1", "BadId"), ("delete 1.1 1.1", "WrongCount"),
    ("ungroup x", "BadId"), ("raise 0.1", "BadId"), ("lower 1.17", "BadId"), ("move 1.1 5", "WrongCount"),
    ("move 1.17 5 5", "BadId"), ("move 1.1 5 1000000001", "BadNumber"), ("resize 1.1", "WrongCount"),
    ("resize 0.1 1 1", "BadId"), ("resize 1.1 1 1000001", "BadNumber"), ("stroke 1.1", "WrongCount"),
    ("stroke x 000000", "BadId"), ("stroke 1.1 none", "BadColour"), ("fill 1.1", "WrongCount"), ("fill x none", "BadId"),
    ("fill 1.1 NONE", "BadColour"), ("width 1.1", "WrongCount"), ("width x 1", "BadId"), ("width 1.1 65", "BadNumber"),
    ("text", "WrongCount"), ("text 9.17 a", "BadId"), ("group 1.1", "WrongCount"), ("group 1.1 x", "BadId"),
    ("focus", "WrongCount"), ("focus x", "BadId"), ("name A B", "WrongCount"), ("name AAAAAAAAAAAAAAAAA", "BadLabel"),
    ("show 1", "WrongCount"), ("status 1", "WrongCount"), ("who 1", "WrongCount"), ("undo 1", "WrongCount"),
    ("redo 1", "WrongCount"), ("begin 1", "WrongCount"), ("end 1", "WrongCount"), ("end", "NoGesture"), ("Begin", "UnknownCommand"),
    ("Redo", "UnknownCommand"), ("redo", "NothingBack"),
    ("poll 1", "WrongCount"), ("quit x", "WrongCount"), ("undo", "NothingBack"), ("raise 9.1", "NoObject"),
    ("text 9.16", "NoObject"),
]


class Typed(Case):
    def expect_text(self, typed, printed, status=DONE):
        node = answered((1, 1), typed)
        self.assertEqual((node.text, node.status), (f"ready 1 of 1\n{printed}", status), typed[:100])

    def test_each_line_has_its_answer(self):
        for name, _, typed, printed in dialogues("typed.txt"):
            with self.subTest(name):
                self.expect_text(typed, printed)
        self.expect_text("".join(f"{line}\n" for line, _ in NOTED), "".join(answer for _, answer in NOTED))

    # A blank line is none of them. Behind them a line is refused whatever it is, but for one that ends the gesture or the run.
    def test_a_gesture_has_at_most_512_lines(self):
        edit, full = "create rect 0 0 10 10\n", "refused: GestureFull\n"
        oks = "".join(f"ok {clock}.1\n" for clock in range(1, 513))
        for behind, printed in [
            ("end\n", f"{oks}end 512\n"),
            (" \nend\n", f"{oks}end 512\n"),
            (f"{edit}show\npaint\n{'x' * 1_025}\nend 1\nbegin\nend\nstatus\n", f"{oks}{6 * full}end 518\nheld 512 kept 0 line 512 clock 512\n"),
            (f"{edit}quit\nend\n", ""),
        ]:
            self.expect_text(f"begin\n{edit * 512}{behind}", printed)

    # Of 1,025 gestures of several edits the first one stays.
    def test_the_last_1024_gestures_are_taken_back(self):
        made = "create rect 0 0 10 10\n" + "begin\nmove 1.1 1 1\nmove 1.1 2 2\nend\n" * 1_024
        typed = made + "raise 1.1\n" + "undo\n" * 1_025 + "status\n"
        node = answered((1, 1), typed)
        counts = [line for line in node.text.splitlines() if line.startswith("end ")]
        self.assertEqual(counts, ["end 2"] * 1_024 + ["end 1"] + ["end 2"] * 1_023)
        self.assertEqual(node.text.splitlines()[-2:], ["refused: NothingBack", "held 4097 kept 0 line 4097 clock 4097"])

    def test_each_fault_of_a_line_has_its_refusal(self):
        self.expect_text(
            "".join(f"{line}\n" for line, _ in FAULTS) + "status\n",
            "".join(f"refused: {why}\n" for _, why in FAULTS) + "held 0 kept 0 line 0 clock 0\n",
        )

    def test_nothing_is_answered_behind_quit_and_the_last_line_needs_no_lf(self):
        for typed, printed in [
            ("", ""),
            ("quit\nshow\n", ""),
            ("quit", ""),
            ("show", "end 0\n"),
            ("show\n\r", "end 0\n"),
            ("paint", "refused: UnknownCommand\n"),
        ]:
            self.expect_text(typed, printed)

    # A letter of two bytes is the last: the labels have 501 and 500 bytes. A line feed is typed as two, and counts as one.
    def test_a_typed_label_has_at_most_500_bytes(self):
        for letters, answer in [(499, "refused: BadLabel\n"), (498, "ok 1.1\n")]:
            self.expect_text(f"create text 0 0 10 10 {'a' * letters}é\n", answer)
        for typed, answer in [("\\n" * 500, "ok 1.1\n"), ("\\n" * 500 + "a", "refused: BadLabel\n"), ("\\\\" * 500, "ok 1.1\n")]:
            self.expect_text(f"create text 0 0 10 10 {typed}\n", answer)

    # A label of no UTF-8 is refused, and the next line is read.
    def test_a_typed_label_is_a_text(self):
        for text in [b"\xff", b"\xc3", b"\xed\xa0\x80", b"a\x00", b"\xc2\x9f"]:
            self.expect_text(b"create text 0 0 10 10 " + text + b"\nstatus\n", "refused: BadLabel\nheld 0 kept 0 line 0 clock 0\n")

    # A CR is one of the 65,536 bytes, and none of the 1,024.
    def test_a_line_that_is_too_long_is_refused_or_ends_the_run(self):
        for letters, end, status, line in [
            (1_024, "\n", DONE, "refused: UnknownCommand"),
            (1_024, "\r\n", DONE, "refused: UnknownCommand"),
            (1_025, "\n", DONE, "refused: LongLine"),
            (65_536, "\n", DONE, "refused: LongLine"),
            (65_536, "", DONE, "refused: LongLine"),
            (65_536, "\r\n", LINE_LIMIT, "line limit"),
            (65_537, "", LINE_LIMIT, "line limit"),
            (65_537, "\nshow\n", LINE_LIMIT, "line limit"),
        ]:
            self.expect_text("a" * letters + end, f"{line}\n", status)

    def test_spaces_are_a_blank_line_up_to_1024(self):
        self.expect_text(" " * 1_024 + "\n", "")
        self.expect_text(" " * 1_025 + "\n", "refused: LongLine\n")


class Kept(Case):
    def second_of_three(self, typed):
        return answered((2, 3), typed)

    def journal(self, *events):
        return log(events, site=2, sites=3)

    def test_an_edit_is_journalled_and_sent_to_each_other_site(self):
        node = self.second_of_three("create rect 0 0 10 10\n")
        self.assertEqual((node.text, node.status), ("ready 2 of 3\nok 1.2\n", DONE))
        self.assertEqual(node.journal, self.journal(RECT))
        self.assertEqual(node.frames, {1: [FRAME], 3: [rechecked(FRAME, [(10, 3)])]})

    def test_an_undo_and_a_redo_are_events_like_any_other(self):
        node = self.second_of_three("create rect 0 0 10 10\nundo\nundo\nredo\nredo\n")
        nothing = "refused: NothingBack\n"
        self.assertEqual(node.text, f"ready 2 of 3\nok 1.2\nok 2.2\nend 1\n{nothing}ok 3.2\nend 1\n{nothing}")
        events = [RECT, DELETE, RESTORE]
        self.assertEqual(node.journal, self.journal(*events))
        self.assertEqual(node.frames, {to: [frame(events[:count], to=to) for count in (1, 2, 3)] for to in (1, 3)})

    # One frame goes to each other site behind it, with as many of its first events as fit, 40 of 28 bytes, and none before its end.
    # A gesture of which no event fits behind these sends nothing.
    def test_a_gesture_is_journalled_as_a_whole_and_sent_behind_its_end(self):
        edits = "create rect 0 0 10 10\n" * 50
        events = [square((clock, 2), clock) for clock in range(1, 53)]
        node = self.second_of_three(f"begin\n{edits}raise 9.1\nend\nbegin\n{edits[:44]}end\n")
        oks = ["".join(f"ok {clock}.2\n" for clock in part) for part in (range(1, 51), range(51, 53))]
        self.assertEqual(node.text, f"ready 2 of 3\n{oks[0]}refused: NoObject\nend 51\n{oks[1]}end 2\n")
        self.assertEqual(node.journal, self.journal(*events))
        self.assertEqual(node.frames, {to: [frame(events[:40], to=to, count=50, clock=50, check=chain(events[:50]))] for to in (1, 3)})
        node = self.second_of_three(f"begin\n{edits}poll\nquit\n")
        self.assertEqual((node.text, node.sent, node.journal), ("ready 2 of 3\n", 0, self.journal()))

    # A refused line, a note and a line that only prints send nothing, and neither is journalled. Nor does a gesture of such lines.
    def test_lines_without_an_event_send_nothing(self):
        node = self.second_of_three("name Ada\nfocus 1.1\nwho\nshow\nstatus\nraise 1.1\nbegin\nraise 1.1\nshow\nend\n")
        self.assertEqual((node.status, node.sent, node.journal), (DONE, 0, self.journal()))

    def test_a_poll_sends_the_note(self):
        node = self.second_of_three("name Ada\nfocus 1.1\npoll\n")
        self.assertEqual(node.text, "ready 2 of 3\nnoted 1\nnoted 2\npolled 0\n")
        self.assertEqual(node.frames, {to: [frame(to=to, note=2, focus=(1, 1), name=b"Ada")] for to in (1, 3)})

    def test_a_long_label_is_journalled(self):
        node = answered((1, 1), f"create text 0 0 10 10 {'é' * 100}\n")
        self.assertEqual(node.journal, log([((1, 1), 1, ("create", "text", 0, 0, 10, 10, "é" * 100))], sites=1))
        self.assertIn(label("é" * 100), node.journal)

    # Each byte of the number of a session is in the journal and in the frames.
    def test_a_session_is_that_of_the_words(self):
        for session in (0, 0x01020304, 0xFFFFFFFF):
            node = answered((2, 2), "create rect 0 0 10 10\n", session=session)
            self.assertEqual(node.journal, log([RECT], site=2, session=session))
            self.assertEqual(node.frames, {1: [frame([RECT], session=session)]})
