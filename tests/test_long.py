"""A journal of 50,000 edits on a real file, and journals beyond a MiB: what is in them, and what a replay of them shows."""

from random import Random

from tests.drawing import Typist
from tests.nodes import Node, answered, free_addresses, replayed, room
from tests.program import DONE, Case, run_program
from tests.spelled import log

EDITS = 50_000
MEBIBYTE = 1 << 20


class Long(Case):
    def test_a_journal_of_50000_edits(self):
        typist = Typist(Random(7))
        while len(typist.events) < EDITS:
            typist.edit()
        drawing, journal = typist.drawing.text(), log(typist.events, sites=1)
        self.assertGreater(len(journal), MEBIBYTE)
        lines = [line for each in typist.typed for line in each.lines]
        node = answered((1, 1), "".join(f"{line}\n" for line in [*lines, "show"]))
        self.assertEqual(node.status, DONE)
        answers = "".join(f"{line}\n" for each in typist.typed for line in each.answers)
        self.expect_same(node.text, f"ready 1 of 1\n{answers}{drawing}")
        self.expect_same(node.journal, journal)
        self.expect_same(replayed(node.journal), drawing)
        self.expect_same(run_program(["upgrade"], node.journal).printed, journal)
        again = answered((1, 1), "show\nstatus\n", contents=node.journal)
        count = len(typist.events)
        held = f"held {count} kept 0 line {count} clock {count}\n"
        self.expect_same(again.text, f"ready 1 of 1\n{drawing}{held}")

    def expect_same(self, found, wanted):
        """Without the whole of two long texts in the report."""
        if found != wanted:
            at = next((at for at, (one, other) in enumerate(zip(found, wanted)) if one != other), min(len(found), len(wanted)))
            self.fail(f"other at {at}: {found[at : at + 100]!r} and not {wanted[at : at + 100]!r}")

    # On a disk, where a sync is one.
    def test_a_journal_on_a_disk(self):
        typist = Typist(Random(8))
        for _ in range(300):
            typist.edit()
        with room(on_disk=True) as folder, Node(1, free_addresses(1), folder / "j") as node:
            self.assertTrue(node.is_ready())
            count = 0
            for each in typist.typed[:50]:
                self.assertEqual(node.ask("\n".join(each.lines)), each.answers)
                count += each.count
                self.assertEqual((folder / "j").read_bytes(), log(typist.events[:count], sites=1))
            _, status, _ = node.end("".join(f"{line}\n" for each in typist.typed[50:] for line in each.lines).encode())
            self.assertEqual((status, (folder / "j").read_bytes()), (DONE, log(typist.events, sites=1)))
