"""The journal of a node: a log that the other commands read, and that a node goes on from."""

from tests.nodes import answered, replayed
from tests.program import BAD_LOG, DONE, OTHER_JOURNAL, Case
from tests.spelled import changed, frame, log, square
from tests.worked import RECT

OWN_RECT = RECT.format("1.1", "{}") + "end 1\n"
OTHERS_RECT = RECT.format("1.2", "0 0")

# A rect of the own site, its move, a rect of another site, which comes late, and the delete of the own rect.
TYPED = "create rect 0 0 10 10\nmove 1.1 5 5\npoll\ndelete 1.1\n"
JOURNAL = log([
    square((1, 1), 1),
    ((2, 1), 2, ("move", (1, 1), 5, 5)),
    square((1, 2), 1),
    ((3, 1), 3, ("delete", (1, 1))),
])
# The lengths at which that journal is a whole log, with what is printed of it.
FRONTS = {
    11: "end 0\n",
    44: OWN_RECT.format("0 0"),
    74: OWN_RECT.format("5 5"),
    107: RECT.format("1.1", "5 5") + OTHERS_RECT + "end 2\n",
    129: OTHERS_RECT + "end 1\n",
    130: OTHERS_RECT + "end 1\n",
}

# The log of session 7, site 1 of 2, with a rect of site 2. Its closing gate stands at 44, behind its check.
ONE = log([square((1, 2), 1)])
# What is typed at a node that goes on from it, and what is printed.
LINES = "status\ncreate rect 0 0 10 10\nstatus\n"
TEXT = "ready 1 of 2\nheld 1 kept 0 line 1 clock 1\nok 2.1\nheld 2 kept 1 line 1 clock 2\n"
# A rect of site 1 behind that, at its open gate, with a closing gate behind it.
OWN = log([square((2, 1), 1)])[11:]


class Journals(Case):
    def test_a_journal_is_a_log_of_what_is_held(self):
        node = answered((1, 2), TYPED, [frame([square((1, 2), 1)])])
        self.assertEqual(node.text, "ready 1 of 2\nok 1.1\nok 2.1\necho 1.2 applied create rect 0 0 10 10\npolled 1\nok 3.1\n")
        self.assertEqual(node.journal, JOURNAL)
        self.expect(["upgrade"], node.journal, DONE, JOURNAL)

    def test_each_front_of_a_journal_is_a_log_or_is_short(self):
        self.expect_all([
            (["replay"], JOURNAL[:length], DONE if length in FRONTS else BAD_LOG,
             FRONTS.get(length, f"bad log at {length}: Short\n"))
            for length in range(len(JOURNAL) + 1)
        ])


class GoneOn(Case):
    def test_rows_of_journals(self):
        self.assertEqual(answered((1, 2), "poll\n", [frame([square((1, 2), 1)])]).journal, ONE)
        for session, contents, status, text in [
            (7, ONE, DONE, "ready 1 of 2\nheld 1 kept 0 line 1 clock 1\n"),
            (8, ONE, OTHER_JOURNAL, "other journal\n"),
            (7, ONE[:44], BAD_LOG, "bad log at 44: Short\n"),
            (7, ONE[:43], BAD_LOG, "bad log at 43: Short\n"),
            (8, ONE[:44], BAD_LOG, "bad log at 44: Short\n"),
            (7, b"", BAD_LOG, "bad log at 0: Short\n"),
            # Another site, another number of sites, versions one and two, no log, an event that is bad.
            (7, changed(ONE, [(9, 2)]), OTHER_JOURNAL, "other journal\n"),
            (7, changed(ONE, [(10, 3)]), OTHER_JOURNAL, "other journal\n"),
            (7, changed(ONE, [(4, 1)]), OTHER_JOURNAL, "other journal\n"),
            (7, changed(ONE, [(4, 2)]), OTHER_JOURNAL, "other journal\n"),
            (7, changed(ONE, [(0, 0)]), BAD_LOG, "bad log at 0: Magic\n"),
            (7, changed(ONE, [(22, 5)]), BAD_LOG, "bad log at 22: Field\n"),
            # Another x, another check, and gates that are neither open nor closed; a fault comes before another session.
            (7, changed(ONE, [(26, 1)]), BAD_LOG, "bad log at 40: Check\n"),
            (8, changed(ONE, [(43, 0)]), BAD_LOG, "bad log at 40: Check\n"),
            (7, changed(ONE, [(11, 0xC2)]), BAD_LOG, "bad log at 11: Behind\n"),
            (7, changed(ONE, [(44, 0x80)]), BAD_LOG, "bad log at 44: Behind\n"),
        ]:
            node = answered((1, 2), "status\n", contents=contents, session=session)
            self.assertEqual((node.text, node.status), (text, status), (session, len(contents)))
            self.assertEqual((node.journal, node.sent), (contents, 0), (session, len(contents)))

    def test_what_stood_behind_the_closing_gate_stays(self):
        for behind in (0, 1, 33, 40):
            contents = ONE + b"\x09" * behind
            node = answered((1, 2), LINES, contents=contents)
            self.assertEqual((node.text, node.status), (TEXT, DONE), behind)
            self.assertEqual(node.journal, ONE[:44] + OWN + b"\x09" * (behind - 33), behind)

    # An append that was torn: the event behind a closing gate was never there, whatever a crash left of its bytes.
    def test_what_a_crash_left_is_gone_on_from(self):
        for left in [b"\0" * 34, b"\xC3" * 34, b"\xFF" * 34, OWN[1:] + b"\0", b""]:
            node = answered((1, 2), "status\n", contents=log([]) + left)
            self.assertEqual((node.text, node.status), ("ready 1 of 2\nheld 0 kept 0 line 0 clock 0\n", DONE), left)

    def test_a_node_that_goes_on_is_as_before_but_for_its_notes(self):
        before = answered((1, 2), "create rect 0 0 10 10\nname Ada\n")
        again = answered((1, 2), "undo\nwho\nname Ada\nshow\ndelete 1.1\n", contents=before.journal)
        shown = OWN_RECT.format("0 0")
        self.assertEqual(again.text, f"ready 1 of 2\nrefused: NothingBack\nend 0\nnoted 1\n{shown}ok 2.1\n")
        self.assertEqual(replayed(again.journal), "end 0\n")
