"""Rehearsals: what is typed, line by line, and what is printed of it."""

from tests.program import DONE, LINE_LIMIT, Case
from tests.tables import dialogues


def rehearse(sites):
    return ["rehearse", "--sites", str(sites)]


class Rehearsals(Case):
    def test_dialogues(self):
        self.expect_all([
            (rehearse(sites), typed.encode(), DONE, printed) for _, sites, typed, printed in dialogues("rehearsals.txt")
        ])

    # A blank line has no answer, and nothing is read behind `quit`.
    def test_a_rehearsal_quits(self):
        typed = b"quit now\n\n  \r\nat 1 status\n  quit \r\nat 1 show\n"
        self.expect(rehearse(1), typed, DONE, "refused: WrongCount\nheld 0 kept 0 line 0 clock 0\n")

    # The last line has no LF.
    def test_the_last_line_needs_no_end(self):
        typed = b"at 1 create rect 0 0 10 10\nsend 1 2\ndeliver 1"
        self.expect(rehearse(2), typed, DONE, "ok 1.1\nmail 1\necho 1.1 applied create rect 0 0 10 10\ndelivered 1\n")

    def test_there_are_a_hundred_thousand_lines_at_most(self):
        lines = b"\n" * 100_000
        self.expect_all([
            (rehearse(1), lines, DONE, ""),
            (rehearse(1), lines + b"x", LINE_LIMIT, "line limit\n"),
            (rehearse(1), lines + b"quit\n", LINE_LIMIT, "line limit\n"),
        ])

    # The faults of `at S COMMAND`, in their order.
    def test_faults_of_lines(self):
        rows = [
            ("at", "WrongCount"), ("at 1", "WrongCount"), ("at x paint", "UnknownCommand"), ("at 1 poll", "UnknownCommand"),
            ("at 1 quit x", "UnknownCommand"), ("at 1 at 1 show", "UnknownCommand"), ("show", "UnknownCommand"),
            ("at x show 1", "WrongCount"), ("at x move a b c", "BadNumber"), ("at 1 move a b c", "BadId"),
            ("send 0 1", "BadNumber"), ("at 17 show", "BadNumber"), ("deliver -1", "BadNumber"),
        ]
        typed = "".join(f"{line}\n" for line, _ in rows)
        self.expect(rehearse(2), typed.encode(), DONE, "".join(f"refused: {why}\n" for _, why in rows))
