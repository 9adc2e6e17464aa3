"""Journals: what is kept, and what goes on from it."""

import unittest
from pathlib import Path
from tempfile import TemporaryDirectory

from groupdesign import BadJournal, Journal, Member, OtherJournal, Records, Refused

# "GDOL", the version, session 7, site 1 of 2, and a closed gate.
HEADER = bytes.fromhex("47444F4C 07 00000007 01 02 00")


def put(journal: bytes, records: Records) -> bytes:
    """The journal with the records in their place."""
    return journal[: records.place] + records.data


class Bytes(unittest.TestCase):
    def setUp(self) -> None:
        self.mine = Member(1, 2, session=7)
        self.journal = self.mine.journal_head()

    def keep(self) -> None:
        records = self.mine.unwritten()
        self.journal = put(self.journal, records) if records.data else self.journal
        self.mine.written(records)

    def opened(self) -> Member:
        return Member.open(self.journal, 1, 2, session=7)

    def test_it_begins_with_the_head(self) -> None:
        self.assertEqual(self.journal, HEADER)
        self.assertEqual(self.opened().status().held, 0)

    def test_records_have_a_gate_in_front(self) -> None:
        self.mine.create("rect", 0, 0, 10, 10)
        place, data = self.mine.unwritten()
        self.assertEqual((place, data[0], data[-1], len(data)), (11, 0xC3, 0, 28 + 4 + 2))
        self.assertEqual(self.mine.unwritten(), (place, data))

    def test_it_goes_on(self) -> None:
        for number in range(20):
            self.mine.create("rect", number, 0, 10, 10)
            if number % 3 == 0:
                self.keep()
        self.keep()
        again = self.opened()
        self.assertEqual(again.text(), self.mine.text())
        self.assertEqual(again.events(self.journal).count('"op"'), 20)
        self.assertRaises(BadJournal, again.events, self.journal[:-1])
        self.assertRaises(Refused, again.undo)
        self.assertEqual(again.create("rect", 0, 0, 1, 1), "21.1")

    def test_records_of_others_are_in_it(self) -> None:
        other = Member(2, 2, session=7)
        other.create("rect", 0, 0, 10, 10)
        other.written(other.unwritten())
        self.mine.take(other.frame(1).data)
        self.keep()
        self.assertEqual(self.opened().text(), other.text())

    def test_a_cut_leaves_all_of_a_call_or_none(self) -> None:
        self.mine.create("rect", 0, 0, 10, 10)
        self.keep()
        before = self.journal
        self.mine.gesture(["move 1.1 1 1", "fill 1.1 00FF00"])
        place, data = self.mine.unwritten()
        for written in range(len(data)):
            left = before + data[1:][:written]
            self.assertEqual(Member.open(left, 1, 2, session=7).status().held, 1)
        self.keep()
        self.assertEqual(self.opened().status().held, 3)

    def test_what_is_no_journal(self) -> None:
        self.mine.create("rect", 0, 0, 10, 10)
        self.keep()
        for length in range(len(self.journal)):
            if length != len(HEADER):
                self.assertRaises(BadJournal, Member.open, self.journal[:length], 1, 2, 7)
        altered = bytearray(self.journal)
        altered[30] ^= 1
        self.assertRaises(BadJournal, Member.open, bytes(altered), 1, 2, 7)
        with self.assertRaises(BadJournal) as bad:
            Member.open(b"GDOX", 1, 2, 7)
        self.assertEqual(bad.exception.why, "bad log at 0: Magic")

    def test_what_is_anothers(self) -> None:
        for site, sites, session in [(2, 2, 7), (1, 3, 7), (1, 2, 8)]:
            self.assertRaises(OtherJournal, Member.open, self.journal, site, sites, session)


class Files(unittest.TestCase):
    def test_a_file_keeps_it(self) -> None:
        with TemporaryDirectory() as room:
            path = Path(room) / "mine.log"
            mine = Member(1, 2, session=7)
            with Journal(path, mine.journal_head()) as journal:
                for _ in range(3):
                    mine.create("rect", 0, 0, 10, 10)
                    journal.keep(mine)
            self.assertRaises(FileExistsError, Journal, path, b"")
            journal, kept = Journal.open(path)
            with journal:
                again = Member.open(kept, 1, 2, session=7)
                again.delete("2.1")
                journal.keep(again)
            self.assertEqual(Member.open(path.read_bytes(), 1, 2, session=7).text(), again.text())
