"""Many calls, and many events that were trimmed, behind which the process has no more memory than before."""

import unittest

from groupdesign import Member, Refused

CALLS = 1_000_000
# So many edits are made before the other member hears of them, and so many times.
TOGETHER, ROUNDS = 60, 1_000
LEFT_KB = 1_000
# Pages that come and go.
ROOM_KB = 2_000


def used_kb() -> int:
    """The memory of this process."""
    with open("/proc/self/status") as status:
        return next(int(line.split()[1]) for line in status if line.startswith("VmRSS"))


def busy(mine: Member, other: Member, count: int) -> None:
    """So many calls that leave nothing."""
    frame = other.frame(1).data
    for turn in range(count // 10):
        for line in ("status", "move 9.9 1 1", "who"):
            try:
                mine.line(line)
            except Refused:
                pass
        mine.take(frame)
        mine.frame(2)
        mine.status()
        mine.note(2)
        mine.parted(2)
        mine.unwritten()
        mine.text()
        if turn % 500 == 0:
            with Member.open(mine.journal_head(), 1, 2, 7) as opened:
                opened.create("rect", 0, 0, 1, 1, "x" * 500)


def keep(member: Member) -> None:
    member.written(member.unwritten())


def draw_apart(pair: tuple[Member, Member], ids: tuple[str, str], rounds: int) -> None:
    """Each of the two makes edits that the other one hears late, and then both have all of them, and know it."""
    for turn in range(rounds):
        for member, id in zip(pair, ids):
            for step in range(TOGETHER):
                member.move(id, turn, step)
            keep(member)
        for _ in range(2):
            for mine, other, site in ((pair[0], pair[1], 2), (pair[1], pair[0], 1)):
                for data in list(mine.frames(site)):
                    other.take(data)
                keep(other)


class Leaks(unittest.TestCase):
    def test_what_is_trimmed_leaves_nothing(self) -> None:
        pair = Member(1, 2, session=7), Member(2, 2, session=7)
        ids = pair[0].create("rect", 0, 0, 1, 1), pair[1].create("rect", 0, 0, 1, 1)
        draw_apart(pair, ids, 40)
        before = used_kb()
        draw_apart(pair, ids, ROUNDS)
        self.assertEqual(pair[0].text(), pair[1].text())
        self.assertLess(pair[0].status().kept, 2 * TOGETHER)
        self.assertLess(used_kb() - before, LEFT_KB)

    def test_a_million_calls_leave_nothing(self) -> None:
        mine, other = Member(1, 2, session=7), Member(2, 2, session=7)
        mine.create("rect", 0, 0, 1, 1)
        mine.written(mine.unwritten())
        other.line("name Ben")
        busy(mine, other, 20_000)
        before = used_kb()
        busy(mine, other, CALLS)
        self.assertLess(used_kb() - before, ROOM_KB)
