"""Members in Python: edits, gestures, frames, what they show, and what is refused."""

import threading
import unittest

from groupdesign import Closed, Member, NoSite, NotHere, Refused, Shape, Status, Unwritten, WrittenElse


def kept(member: Member) -> Member:
    """The member, that was told that all is kept."""
    member.written(member.unwritten())
    return member


def send(sender: Member, receiver: Member) -> list[str]:
    """What the receiver says of what it lacks."""
    said = [line for frame in kept(sender).frames(receiver.site) for line in receiver.take(frame)]
    kept(receiver)
    return said


def pair() -> tuple[Member, Member]:
    return Member(1, 2, session=7), Member(2, 2, session=7)


class Edits(unittest.TestCase):
    def test_edits_give_ids(self) -> None:
        with Member(1, 1, session=7) as mine:
            house, tree = mine.create("rect", 0, 0, 9, 9, "House"), mine.create("ellipse", 20, 0, 9, 9)
            self.assertEqual((house, tree, mine.connect(house, tree), mine.move(house, 5, 5)), ("1.1", "2.1", "3.1", "4.1"))
            self.assertEqual(mine.drawing()[house].at, (5, 5))
            together = mine.group(house, tree)
            self.assertEqual([item.inside for item in mine.drawing() if isinstance(item, Shape)], [together, together])
            mine.delete(house)
            self.assertNotIn(house, mine.drawing())

    def test_labels_are_any_text(self) -> None:
        mine = Member(1, 1, session=7)
        label = 'two\nlines, a \\ and "quotes", Grüße 🙂'
        made = mine.create("text", 0, 0, 9, 9, label)
        self.assertEqual(mine.drawing()[made].label, label)
        mine.label(made, "")
        self.assertEqual(mine.drawing()[made].label, "")

    def test_undo_and_redo(self) -> None:
        mine = Member(1, 1, session=7)
        made = mine.create("rect", 0, 0, 9, 9)
        before = mine.text()
        self.assertEqual(mine.gesture([f"move {made} 1 1", f"fill {made} 00FF00", "raise 9.9"]), ["ok 2.1", "ok 3.1", "refused: NoObject"])
        behind = mine.text()
        self.assertEqual(mine.undo(), ["4.1", "5.1"])
        self.assertEqual(mine.text(), before)
        self.assertEqual(mine.redo(), ["6.1", "7.1"])
        self.assertEqual(mine.text(), behind)

    def test_refusals_say_why_and_change_nothing(self) -> None:
        mine = Member(1, 1, session=7)
        for line, why in [("undo", "NothingBack"), ("paint", "UnknownCommand"), ("move 1.1 0 0", "NoObject"), ("x" * 1025, "LongLine")]:
            with self.assertRaises(Refused) as refused:
                mine.line(line)
            self.assertEqual(refused.exception.why, f"refused: {why}")
        self.assertEqual((mine.status(), mine.unwritten().data), (Status(0, 0, 0, 0, 0), b""))
        for line in ("show", "poll", "begin", "end", "quit"):
            self.assertRaises(NotHere, mine.line, line)

    def test_a_gesture_has_512_lines_at_most(self) -> None:
        mine = Member(1, 1, session=7)
        self.assertEqual(len(mine.gesture(["create rect 0 0 1 1"] * 512)), 512)
        self.assertEqual(mine.gesture(["raise 1.1"] * 514)[-3:], ["ok 1024.1", "refused: GestureFull", "refused: GestureFull"])
        self.assertEqual(mine.status().held, 1024)
        self.assertEqual(mine.gesture([]), [])


class Places(unittest.TestCase):
    def test_sites_that_there_are_not(self) -> None:
        for site, sites in [(0, 1), (2, 1), (1, 17), (17, 17), (256, 256), (-1, 3)]:
            self.assertRaises(NoSite, Member, site, sites, 7)
        mine = Member(1, 2, session=7)
        for call in (mine.frame, mine.note, mine.parted):
            for site in (0, 3, 17):
                self.assertRaises(NoSite, call, site)
        self.assertRaises(NoSite, mine.frame, 1)

    def test_a_closed_member(self) -> None:
        mine = Member(1, 1, session=7)
        mine.close()
        mine.close()
        for call in (mine.json, mine.text, mine.status, mine.unwritten, mine.undo, mine.journal_head):
            self.assertRaises(Closed, call)


class Frames(unittest.TestCase):
    def test_two_draw_together(self) -> None:
        ana, ben = pair()
        house = ana.create("rect", 0, 0, 100, 50, "House")
        self.assertEqual(send(ana, ben), ["echo 1.1 applied create rect 0 0 100 50 House"])
        ana.move(house, 10, 10)
        ben.edit(f"fill {house} FFCC00")
        send(ana, ben)
        send(ben, ana)
        self.assertEqual(ana.json(), ben.json())
        self.assertEqual(send(ana, ben), [])

    def test_nothing_is_told_before_it_is_kept(self) -> None:
        ana, ben = pair()
        ana.create("rect", 0, 0, 100, 50)
        self.assertRaises(Unwritten, ana.frame, 2)
        old = ana.unwritten()
        ana.create("rect", 0, 0, 100, 50)
        self.assertRaises(WrittenElse, ana.written, old)
        self.assertRaises(Unwritten, ana.frame, 2)
        self.assertEqual(len(send(ana, ben)), 2)

    def test_a_window_brings_many_events(self) -> None:
        ana, ben = pair()
        for _ in range(4):
            ana.gesture(["create rect 0 0 1 1"] * 500)
        for _ in range(4):
            send(ana, ben)
            send(ben, ana)
        self.assertEqual(ben.status().held, 2000)
        self.assertEqual(ana.text(), ben.text())

    def test_altered_frames_are_refused(self) -> None:
        ana, ben = pair()
        ana.create("rect", 0, 0, 1, 1)
        frame = kept(ana).frame(2).data
        before = ben.status()
        for place in range(len(frame)):
            altered = bytearray(frame)
            altered[place] ^= 1 << place % 8
            self.assertRaises(Refused, ben.take, bytes(altered))
            self.assertRaises(Refused, ben.take, frame[:place])
        self.assertRaises(Refused, ben.take, frame + b"\0")
        self.assertRaises(Refused, ben.take, bytes(8193))
        self.assertRaises(Refused, ana.take, frame)
        self.assertEqual(ben.status(), before)

    def test_notes(self) -> None:
        ana, ben = pair()
        self.assertIsNone(ben.note(1))
        ana.line("name Ana")
        send(ana, ben)
        self.assertEqual(ben.note(1), (1, "Ana", None))
        house = ana.create("rect", 0, 0, 1, 1)
        ana.line(f"focus {house}")
        send(ana, ben)
        self.assertEqual(ben.note(1), (2, "Ana", "1.1"))
        self.assertEqual(ben.line("who"), ["who 1 Ana focus 1.1", "end 1"])

    def test_who_tells_other_events_is_left(self) -> None:
        ana, ben = pair()
        head = ana.journal_head()
        ana.create("rect", 0, 0, 1, 1)
        send(ana, ben)
        other = Member.open(head, 1, 2, session=7)
        other.create("line", 0, 0, 1, 1)
        for why in ("parted from 1 at 1", ""):
            with self.assertRaises(Refused) as refused:
                send(other, ben)
            self.assertEqual(refused.exception.why, why)
        self.assertEqual((ben.parted(1), ben.status().parted, ana.parted(2)), (1, 1, None))


class Threads(unittest.TestCase):
    def test_threads_share_a_member(self) -> None:
        mine = Member(1, 1, session=7)
        threads = [threading.Thread(target=lambda: [mine.create("rect", 0, 0, 1, 1) for _ in range(500)]) for _ in range(8)]
        for thread in threads:
            thread.start()
        for thread in threads:
            thread.join()
        self.assertEqual((mine.status().held, len(mine.drawing())), (4000, 4000))
