"""Status 8: each command in little memory, over an input that takes more."""

import os
import resource
from functools import cache

from tests.nodes import free_addresses, node_words, room
from tests.program import DONE, NO_MEMORY, Case, run_program
from tests.spelled import label, log, number, signed, square, stamp
from tests.test_formats import VOTES, cards
from tests.worked import TIE, TIE_SNAPSHOT

MIB = 1 << 20
# A build that doesn't start in so much can't be tested so.
MOST = 64 * MIB
# What a run gets besides what it needs over a small input: room for some thousand events at most.
BESIDES = MIB
EDITS = 50_000
LABEL = "x" * 200
CREATE = f"create rect 0 0 10 10 {LABEL}\n"
ANSWERS = "".join(f"ok {clock}.1\n" for clock in range(1, EDITS + 1))


def run_within(size, words, given=b""):
    """Runs the program in an address space of that size, in bytes, and without the large pages that a caller may ask for."""

    def limit():
        resource.setrlimit(resource.RLIMIT_AS, (size, size))

    return run_program(words, given, preexec_fn=limit, env={"PATH": os.environ["PATH"]})


def least(is_enough):
    """The least whole number of MiB, in bytes, that is enough; nothing where the most isn't."""
    low, high = 0, MOST // MIB
    if not is_enough(MOST):
        return None
    while high - low > 1:
        middle = (low + high) // 2
        low, high = (low, middle) if is_enough(middle * MIB) else (middle, high)
    return high * MIB


@cache
def many_events():
    """A log of some hundred thousand creates, by eight sites."""
    return log([square((clock, site), clock) for clock in range(1, 40_001) for site in range(1, 9)], sites=8)


def many_cards():
    """A log of all the cards that a site can make."""
    rest = b"\x01\x01" + label("x" * 32)
    return cards([number(clock, 6) + b"\x01" + number(clock, 2) + rest for clock in range(1, 65_536)])


def many_objects():
    """A snapshot of all the rects that two sites can make, which have the sure clocks of their last ones."""
    ids = [(clock, site) for clock in range(1, 65_536) for site in (1, 2)]
    look = b"\x01" + signed(0, 0, 10, 10) + bytes.fromhex("00000000 FFFFFFFF 01 00 00 FFFFFFFF 64 0000 00") + label(LABEL) + bytes.fromhex("00 00 00 01")
    known = (number(65_535, 2) + number(65_535, 6)) * 2
    objects = b"".join(stamp(id) + look + stamp(id) for id in ids)
    return TIE_SNAPSHOT[:11] + known + number(len(ids), 4) + objects + number(0, 4)


class Memory(Case):
    def expect_no_memory(self, small, large, besides=BESIDES):
        """Two runs, each a function of the size of its address space: in what the first one needs, and so much besides, the second
        one ends with 8, and says so."""
        size = least(lambda size: small(size).status == DONE)
        if not size:
            self.skipTest(f"this build doesn't start in {MOST // MIB} MiB")
        ended = large(size + besides)
        self.assertEqual(ended.status, NO_MEMORY, ended.text[-100:])
        self.assertRegex(ended.said.decode(), r"^groupdesign: out of memory[^\n]*\n$")
        return ended

    def expect_of_input(self, words, small, large, **options):
        runs = [lambda size, given=given: run_within(size, words, given) for given in (small, large)]
        return self.expect_no_memory(*runs, **options)

    def test_what_reads_all_first_prints_nothing(self):
        rows = [(f"replay --format {format}", TIE, many_events()) for format in ("text", "json", "events")]
        rows += [("upgrade", TIE, many_events()), ("snapshot", TIE, many_events()), ("board", VOTES, many_cards())]
        rows += [("view", TIE_SNAPSHOT, many_objects())]
        for words, small, large in rows:
            with self.subTest(words):
                self.assertEqual(self.expect_of_input(words.split(), small, large).printed, b"")

    def test_a_rehearsal_has_answered_the_lines_before(self):
        ended = self.expect_of_input(["rehearse", "--sites", "1"], b"", (f"at 1 {CREATE}" * EDITS).encode())
        self.assertTrue(ended.text and ANSWERS.startswith(ended.text), ended.text[-100:])

    def test_a_churn_prints_nothing(self):
        runs = [lambda size, steps=steps: run_within(size, ["churn", "--seed", "1", "--steps", steps]) for steps in ("0", "10000")]
        self.assertEqual(self.expect_no_memory(*runs, besides=0).printed, b"")

    # Its journal holds what was answered, and one edit more at most.
    def test_a_node_keeps_the_edits_that_it_answered(self):
        def run_node(size, lines, *flags):
            if not flags:
                journal.unlink(missing_ok=True)
            return run_within(size, node_words(1, free_addresses(1), journal, *flags), lines.encode())

        with room() as folder:
            journal = folder / "j"
            ended = self.expect_no_memory(lambda size: run_node(size, "poll\n"), lambda size: run_node(size, CREATE * EDITS))
            front = "ready 1 of 1\n"
            self.assertTrue(len(ended.text) > len(front) and (front + ANSWERS).startswith(ended.text), ended.text[-100:])
            again = run_program(node_words(1, free_addresses(1), journal, "--resume"), b"status\n")
            answered = ended.text.count("ok ")
            self.assertIn(int(again.text.splitlines()[1].split()[1]), (answered, answered + 1))

    # It isn't ready then, and the journal is as it was.
    def test_a_node_that_goes_on_from_a_long_journal_leaves_it(self):
        long = log([((clock, 1), clock, ("create", "rect", 0, 0, 10, 10, LABEL)) for clock in range(1, EDITS + 1)], sites=1)
        with room() as folder:
            (folder / "short").write_bytes(log([square((1, 1), 1)], sites=1))
            (folder / "long").write_bytes(long)
            runs = [
                lambda size, name=name: run_within(size, node_words(1, free_addresses(1), folder / name, "--resume"))
                for name in ("short", "long")
            ]
            self.assertEqual(self.expect_no_memory(*runs).text, "")
            self.assertTrue((folder / "long").read_bytes() == long)
