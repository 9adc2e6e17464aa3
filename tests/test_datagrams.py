"""A node that is sent datagram after datagram: the worked frame with each other byte in each place, and the longest."""

from tests.echoes import applied, echoes
from tests.nodes import answered, started
from tests.program import DONE, Case
from tests.read import frame_events
from tests.spelled import CHECKSUM, GREATEST_CLOCK, OPEN, PLAIN, chain, changed, checked, crc32c, frame, little, log, number, rechecked
from tests.spelled import record, square
from tests.test_frames import AT_ONCE, HEAD_CHECK, PARTED, TAKEN, bad, line_of, noticed, places, retold
from tests.worked import CHECK, EVENT, FRAME

BODY = EVENT + 10
SIXTEEN, FARTHEST = b"sixteen-letters!", 1_000_000_000


def numbered(bodies):
    """For each body the worked frame and its event where that has it behind its tag, is numbered in turn, and has that clock; and the
    check of all events up to it."""
    rows, check = [], 0
    for turn, body in enumerate(bodies, 1):
        clock = number(turn, 6)
        event = clock + FRAME[EVENT + 6 : EVENT + 7] + number(turn, 2) + FRAME[EVENT + 9 : BODY] + body
        check = crc32c(event, check)
        front = FRAME[:13] + number(turn, 2) + clock + little(check) + FRAME[HEAD_CHECK + CHECKSUM : EVENT]
        rows.append((checked(front + event), event + little(check)))
    return rows


class Datagrams(Case):
    def polled(self, node, peer, datagrams):
        """What a node prints of these datagrams, but for the ends of its polls."""
        lines = []
        for first in range(0, len(datagrams), AT_ONCE):
            part = datagrams[first : first + AT_ONCE]
            for datagram in part:
                peer.send(node, datagram)
            *found, last = node.ask("poll")
            self.assertEqual(last, f"polled {len(part)}")
            lines += found
            peer.received()
        return lines

    def test_each_other_byte_in_each_place_is_noticed(self):
        rows = [(at, value) for at, was in enumerate(FRAME) for value in range(256) if value != was]
        with started((1, 2)) as (node, peers):
            self.assertTrue(node.is_ready())
            lines = self.polled(node, peers[2], [changed(FRAME, [row]) for row in rows])
            for row, line in zip(rows, lines, strict=True):
                self.assertEqual(line, noticed(row[0], len(FRAME)), row)
            self.assertEqual(node.ask("show"), ["end 0"])

    # The frame was taken before. So each changed one with its checksum is refused, with its line, or brings nothing new.
    def test_each_other_byte_in_each_place_with_its_checksum(self):
        rows = [(at, value) for at in places() for value in range(256) if value != FRAME[at]]
        checks = [(at, value) for at in range(HEAD_CHECK, HEAD_CHECK + CHECKSUM) for value in range(256) if value != FRAME[at]]
        told = {row: line_of(*row) for row in rows}
        refused = [row for row in rows if told[row] != TAKEN]
        taken = [row for row in rows if told[row] == TAKEN]
        with started((1, 2)) as (node, peers):
            self.assertTrue(node.is_ready())
            self.assertEqual(self.polled(node, peers[2], [FRAME]), [applied(square((1, 2), 1))])
            lines = self.polled(node, peers[2], [retold(row) for row in refused])
            for row, line in zip(refused, lines, strict=True):
                self.assertEqual(line, told[row], row)
            self.assertEqual(self.polled(node, peers[2], [rechecked(FRAME, [row]) for row in taken]), [])
            # Another check of one event is said once.
            self.assertEqual(self.polled(node, peers[2], [rechecked(FRAME, [row]) for row in checks]), [PARTED])
            self.assertEqual(node.ask("status"), ["held 1 kept 0 line 1 clock 1 parted 1"])
            self.assertEqual(node.journal.read_bytes(), log([square((1, 2), 1)]))

    def test_each_body_that_is_taken_is_journalled_as_it_came(self):
        bodies = [
            changed(FRAME, [(at, value)])[BODY:CHECK]
            for at in range(BODY, CHECK) for value in range(256)
            if value != FRAME[at] and line_of(at, value) == TAKEN
        ]
        pairs = numbered(bodies)
        with started((1, 2)) as (node, peers):
            self.assertTrue(node.is_ready())
            lines = self.polled(node, peers[2], [datagram for datagram, _ in pairs])
            self.assertEqual(lines, [applied(frame_events(datagram)[0]) for datagram, _ in pairs])
            events = b"".join(OPEN + event for _, event in pairs)
            self.assertTrue(node.journal.read_bytes() == log([], closed=False) + events + b"\0", "another journal")

    # An event of its own id, and a group that names one id twice.
    def test_ids_and_members_of_a_frame_are_in_order(self):
        datagrams = [
            frame([((1, 2), 1, ("delete", (1, 2)))]),
            frame([((2, 2), 1, ("group", ((1, 2), 0, 0), ((1, 2), 0, 0)))]),
        ]
        node = answered((1, 2), "poll\n", datagrams)
        printed = "frame refused: FutureId at 46\nframe refused: MemberOrder at 62\npolled 2\n"
        self.assertEqual((node.text, node.status), (f"ready 1 of 2\n{printed}", DONE))


class Longest(Case):
    # A group that is put back with a label of 200 bytes, in a group, with 32 ties to groups, whose echo is the longest that says
    # `applied`; and a rect whose label fills the frame. It has a name of 16 bytes and a focus. One that is a byte longer is refused, and
    # so is one that acknowledges what was never made. Of the other objects the longest that is put back has a label of 500 bytes.
    def test_the_longest_frame_is_taken(self):
        base = GREATEST_CLOCK - 108
        link, size = ((base + 99, 16), -FARTHEST, -FARTHEST), -1_000_000
        looks, ends = ("dashed", "both", 1_000_000, 100, 1_000, "middle"), ((base + 51, 16), (base + 52, 16))
        group, connector = [
            (kind, -FARTHEST, -FARTHEST, size, size, 0, 0, 64, *looks, "é" * count, ends, link, True, ("high", (base + 50, 16)))
            for kind, count in (("group", 100), ("connector", 250))
        ]
        ties = [((base + clock, 16), link) for clock in range(1, 33)]
        put_back = (base + 101, 16), 1, ("restore", (base + 50, 16), group, *ties)
        last = (base + 103, 16), 3, ("restore", (base + 50, 16), connector)
        of = {"clock": GREATEST_CLOCK, "note": 65_535, "focus": (GREATEST_CLOCK, 16), "name": SIXTEEN}
        of |= {"session": 2**32 - 1, "sender": 16, "count": 3}
        rects = [((base + 102, 16), 2, ("create", "rect", 0, 0, 10, 10, "a" * letters)) for letters in (85, 86)]
        # That the third one is still to come, both frames say by their count: so the clock of all is none up to which nothing comes.
        (longest, longer), event = [frame([put_back, rect], check=chain([put_back, rect, last]), **of) for rect in rects], record(*put_back)
        alone = frame([last], before=[put_back, rects[0]], **of)
        self.assertEqual((len(longest), len(longer), len(event), len(record(*last)), len(alone)), (1_200, 1_201, 1_031, 596, 652))
        self.assertEqual(event[:18], bytes.fromhex("FFFFFFFFFFF8 10 0001 0B FFFFFFFFFFC5 10 05"))
        self.assertEqual(event[-23:], bytes.fromhex("FFFFFFFFFFB3 10 01 FFFFFFFFFFF6 10 C4653600 C4653600"))
        events = [put_back, rects[0], last]
        datagrams = [frame(events[:2], held=65_535, check=chain(events), **of), longer, longest, alone]
        node = answered((1, 16), "poll\nwho\n", datagrams, sender=16, session=2**32 - 1)
        printed = echoes(*events)
        self.assertEqual(max(map(len, printed.encode().splitlines())), 2_715)
        who = "who 16 sixteen-letters! focus 281474976710655.16\nend 1\n"
        printed = f"frame refused: OverAck 65535 0\n{bad('Trailing', 1_200)}\n{printed}polled 4\n{who}"
        self.assertEqual((node.text, node.status), (f"ready 1 of 16\n{printed}", DONE))
        self.assertEqual(node.journal, log(events, sites=16, session=2**32 - 1))

    # The shortest events are of 17 bytes. A frame with one more is refused at their number, which fits into 1,200 bytes without a name.
    def test_most_events_are_taken(self):
        events = [((clock, 2), clock - 1, ("delete", (1, 1))) for clock in range(2, 70)]
        most, more = (frame(events[:count]) for count in (67, 68))
        self.assertEqual((len(most), len(more)), (1_179, 1_196))
        node = answered((1, 2), "poll\n", [more, most])
        printed = f"{bad('Field', 35)}\n{echoes(*events[:67])}polled 2\n"
        self.assertEqual((node.text, node.status), (f"ready 1 of 2\n{printed}", DONE))

    def acknowledged(self, node, peer, made):
        """The first frame of each poll that a node sends to a peer that has nothing since so many events, and acknowledges each."""
        sent, held = [], made
        while not sent or sent[-1][-1]:
            node.ask("status")
            peer.received()
            peer.send(node, frame(sender=1, to=2, held=held))
            self.assertEqual(node.ask("poll"), ["polled 1"])
            datagram = peer.received()[0]
            sent.append((datagram, frame_events(datagram)))
            held += len(sent[-1][-1])
        return sent[:-1], held

    # What was made before the groups is acknowledged, and so are the groups before all of them are taken back and made again. Two
    # groups of 32 members fit into a frame, four ends of such, and one such that is put back. An edit that doesn't fit behind older
    # ones sends nothing, and neither does an undo or a redo.
    def test_the_longest_groups_are_sent_and_put_back(self):
        ids = [[(clock, 2) for clock in range(first, first + 32)] for first in range(1, 257, 32)]
        groups = [
            ((256 + turn, 2), 256 + turn, ("group", *((id, 0, 0) for id in part))) for turn, part in enumerate(ids, 1)
        ]
        disbands, restores = [], []
        for turn, part in enumerate(ids):
            group = (257 + turn, 2)
            whole = ("group", 0, 0, 0, 0, 0, None, 1, *PLAIN, "", None, None, False, ("high", group))
            # The last one is taken back first.
            disbands.insert(0, ((272 - turn, 2), 272 - turn, ("disband", group, *((id, None) for id in part))))
            ties = [(id, (group, 0, 0)) for id in part]
            restores.append(((273 + turn, 2), 273 + turn, ("restore", group, whole, *ties)))
        of = {"note": 2, "focus": (256, 2), "name": SIXTEEN}
        with started((2, 2)) as (node, peers):
            self.assertTrue(node.is_ready())
            held = 0
            for clock in range(1, 257):
                self.assertEqual(node.ask("create rect 0 0 10 10"), [f"ok {clock}.2"])
            _, held = self.acknowledged(node, peers[1], held)
            self.assertEqual(held, 256)
            self.assertEqual([node.ask("name sixteen-letters!"), node.ask("focus 256.2")], [["noted 1"], ["noted 2"]])
            grouping = [f"group {' '.join(f'{clock}.{site}' for clock, site in part)}" for part in ids]
            before = [square((clock, 2), clock) for clock in range(1, 257)]
            for events, lines, fit, end, sizes in [
                (groups, grouping, 2, [], [1_038] * 4),
                (disbands, ["undo"] * 8, 4, ["end 1"], [1_152] * 2),
                (restores, ["redo"] * 8, 1, ["end 1"], [858] * 8),
            ]:
                for turn, line in enumerate(lines):
                    clock = events[turn][0][0]
                    self.assertEqual(node.ask(line), [f"ok {clock}.2", *end])
                    self.assertEqual(node.held(), clock)
                    # Of those that fit each sends the ones before it, too.
                    told = [frame(events[: turn + 1], before=before, **of)] if turn < fit else []
                    self.assertEqual(peers[1].received(), told, clock)
                sent, held = self.acknowledged(node, peers[1], held)
                parts = [events[first : first + fit] for first in range(0, 8, fit)]
                before += events
                told = [frame(part, check=chain(before), **of | {"count": held, "clock": held}) for part in parts]
                self.assertEqual([datagram for datagram, _ in sent], told)
                self.assertEqual([len(datagram) for datagram, _ in sent], sizes)
