"""What one site answers and sends: dialogues, frames that come to it, its limits, its notes, and what it goes on with."""

from tests.echoes import applied, echoes
from tests.nodes import answered, started
from tests.program import DONE, Case
from tests.spelled import GREATEST_CLOCK, chain, frame, log, rechecked, square
from tests.tables import dialogues
from tests.test_rehearsals import rehearse
from tests.worked import FRAME, RECT

MOST = 65_535
# As many edits can be taken back.
BACKS = 1_024
SQUARE = square((1, 2), 1)
SECOND, THIRD, FOURTH = (((clock, 2), clock, ("move", (1, 2), clock - 1, clock - 1)) for clock in (2, 3, 4))

# The frames of site 2 that have come to site 1, what is typed then, and what is printed.
FRAMES = [
    (
        [FRAME] * 3,
        "poll\nstatus\n",
        f"{echoes(SQUARE)}polled 3\nheld 1 kept 0 line 1 clock 1\n",
    ),
    (
        [frame([SQUARE]), frame([THIRD, FOURTH], before=[SQUARE, SECOND]), frame([SECOND, THIRD, FOURTH], before=[SQUARE])],
        "poll\nstatus\nshow\n",
        f"{echoes(SQUARE, SECOND, THIRD, FOURTH)}polled 3\n"
        f"held 4 kept 0 line 4 clock 4\n{RECT.format('1.2', '3 3')}end 1\n",
    ),
    # The first frame promises that nothing up to clock 8 is to come.
    (
        [frame([SQUARE, SECOND], clock=8), frame([((9, 2), 3, ("raise", (1, 2)))], before=[SQUARE, SECOND])],
        "poll\nstatus\n",
        f"{echoes(SQUARE, SECOND)}echo 9.2 applied raise 1.2\npolled 2\nheld 3 kept 0 line 9 clock 9\n",
    ),
    # No edit follows the greatest clock.
    (
        [frame([square((GREATEST_CLOCK, 2), 1)])],
        "poll\ncreate rect 0 0 1 1\nraise 9.1\nraise 9.17\nstatus\n",
        "echo 281474976710655.2 applied create rect 0 0 10 10\npolled 1\nrefused: ClockEnd\nrefused: ClockEnd\nrefused: BadId\n"
        "held 1 kept 0 line 281474976710655 clock 281474976710655\n",
    ),
    # The last edit has it, and nothing takes it back.
    (
        [frame([square((GREATEST_CLOCK - 1, 2), 1)])],
        "poll\nraise 281474976710654.2\ncreate rect 0 0 1 1\nundo\nundo\nredo\nstatus\n",
        "echo 281474976710654.2 applied create rect 0 0 10 10\npolled 1\nok 281474976710655.1\nrefused: ClockEnd\n"
        "refused: ClockEnd\nrefused: ClockEnd\nrefused: NothingBack\n"
        "held 2 kept 1 line 281474976710654 clock 281474976710655\n",
    ),
]

# Bytes of the worked frame that are changed, and the first fault that it has then: the session, the site that it is for, the
# sender and the site of its event, and what it acknowledges.
FAULTS = [
    ([(8, 8)], "Session"),
    ([(8, 8), (10, 2), (12, 1)], "Session"),
    ([(10, 2), (12, 1)], "NotForMe"),
    ([(9, 1), (42, 1), (12, 1)], "FromMe"),
    ([(9, 3), (42, 3), (12, 1)], "NoSuchSite"),
    ([(12, 1)], "OverAck 1 0"),
]

# A note's number, its name and the clock of its focus at site 1, which come in this order; and what is kept then.
NOTES = [
    ((0, "Zoe", 9), None),
    ((1, "Ada", 0), ("Ada", 0)),
    ((1, "Bob", 3), ("Ada", 0)),
    ((2, "Ada", 1), ("Ada", 1)),
    ((1, "Ada", 0), ("Ada", 1)),
    ((2, "", 0), ("Ada", 1)),
    ((7, "", 0), ("", 0)),
    ((65_535, "Eve", 2), ("Eve", 2)),
    ((65_535, "Ada", 1), ("Eve", 2)),
]


def who(site, name, clock):
    return f"who {site} {name or '-'} focus {f'{clock}.1' if clock else '-'}"


def noted(site, number, name, clock):
    """A frame of that site with a note, and nothing else."""
    return frame(sender=site, note=number, name=name.encode(), focus=(clock, 1) if clock else (0, 0))


class Sites(Case):
    def test_dialogues(self):
        self.expect_all([
            (rehearse(sites), typed.encode(), DONE, printed) for _, sites, typed, printed in dialogues("sites.txt")
        ])

    def expect_node(self, seat, datagrams, typed, printed):
        node = answered(seat, typed, datagrams)
        self.assertEqual((node.text, node.status), (f"ready {seat[0]} of {seat[1]}\n{printed}", DONE), typed)
        return node

    def test_frames_of_another_site(self):
        for datagrams, typed, printed in FRAMES:
            self.expect_node((1, 2), datagrams, typed, printed)

    def test_the_first_fault_of_a_frame_is_given(self):
        datagrams = [rechecked(FRAME, changes) for changes, _ in FAULTS]
        refused = "".join(f"frame refused: {why}\n" for _, why in FAULTS)
        self.expect_node((1, 2), datagrams, "poll\nstatus\n", f"{refused}polled 6\nheld 0 kept 0 line 0 clock 0\n")

    # The own place of a moved member is less by its group's, and the members of a group rise.
    def test_an_edit_is_journalled_as_it_was_judged(self):
        typed = ["create rect 5 6 20 10"] * 2 + ["group 2.1 1.1", "move 3.1 10 20", "create rect 5 6 20 10"]
        typed += ["move 1.1 12 23", "group 5.1 3.1"]
        shape = ("create", "rect", 5, 6, 20, 10, "")
        ops = [shape, shape, ("group", ((1, 1), 0, 0), ((2, 1), 0, 0)), ("move", (3, 1), 10, 20), shape]
        ops += [("move", (1, 1), 2, 3), ("group", ((3, 1), 0, 0), ((5, 1), 0, 0))]
        answers = "".join(f"ok {clock}.1\n" for clock in range(1, 8))
        node = self.expect_node((1, 1), [], "".join(f"{line}\n" for line in typed), answers)
        self.assertEqual(node.journal, log([((at, 1), at, op) for at, op in enumerate(ops, 1)], sites=1))


class Limits(Case):
    def expect_lines(self, sites, rows):
        """What site 1 of so many answers to each line."""
        typed = "".join(f"at 1 {line}\n" for line, _ in rows)
        self.expect(rehearse(sites), typed.encode(), DONE, "".join(f"{answer}\n" for _, answer in rows))

    def test_a_session_is_full(self):
        rows = [("create rect 0 0 10 10", "ok 1.1")]
        rows += [("move 1.1 5 5", f"ok {clock}.1") for clock in range(2, MOST + 1)]
        rows += [("redo", "refused: NothingBack")]
        rows += [(line, "refused: SessionFull") for line in ("raise 1.1", "raise 9.1", "undo")]
        self.expect_lines(1, [*rows, ("status", "held 65535 kept 0 line 65535 clock 65535")])

    def test_notes_end(self):
        rows = [("name Ada", f"noted {number}") for number in range(1, MOST + 1)]
        rows += [("name Bob", "refused: NoteEnd"), ("focus -", "refused: NoteEnd"), ("focus x", "refused: BadId")]
        self.expect_lines(2, [*rows, ("who", "who 1 Ada focus -\nend 1"), ("create rect 0 0 1 1", "ok 1.1")])

    # Of 1,025 edits the first one stays. What was taken back is done again up to the last one, and no further.
    def test_the_last_1024_edits_are_taken_back_and_done_again(self):
        rows = [("create rect 0 0 10 10", "ok 1.1")]
        rows += [(f"move 1.1 {place} 0", f"ok {place + 1}.1") for place in range(1, BACKS + 1)]
        for line, first, places in (("undo", BACKS + 2, range(BACKS)[::-1]), ("redo", 2 * BACKS + 2, range(1, BACKS + 1))):
            for turn, place in enumerate(places):
                rows += [(line, f"ok {first + turn}.1\nend 1")]
                rows += [("show", RECT.format("1.1", f"{place} 0") + "end 1")] * (turn % 100 == 0 or turn == BACKS - 1)
            rows += [(line, "refused: NothingBack")]
        self.expect_lines(1, rows)

    # What came before is forgotten by so many edits, and so is what could be done again, by the first of them.
    def test_an_edit_forgets_what_could_be_done_again(self):
        rows = [("create rect 0 0 10 10", "ok 1.1"), ("move 1.1 5 5", "ok 2.1"), ("undo", "ok 3.1\nend 1"), ("undo", "ok 4.1\nend 1")]
        rows += [("create rect 1 1 10 10", "ok 5.1"), ("redo", "refused: NothingBack"), ("undo", "ok 6.1\nend 1")]
        rows += [("undo", "refused: NothingBack")]
        self.expect_lines(1, [*rows, ("redo", "ok 7.1\nend 1"), ("show", RECT.format("5.1", "1 1") + "end 1")])


class Notes(Case):
    def test_the_first_of_the_greatest_number_is_kept(self):
        with started((1, 2)) as (node, peers):
            self.assertTrue(node.is_ready())
            for put, kept in NOTES:
                peers[2].send(node, noted(2, *put))
                self.assertEqual(node.ask("poll"), ["polled 1"])
                self.assertEqual(node.ask("who"), [who(2, *kept), "end 1"] if kept else ["end 0"], put)

    def test_each_site_has_a_note_of_its_own(self):
        with started((16, 16)) as (node, peers):
            self.assertTrue(node.is_ready())
            for site, peer in peers.items():
                note = frame(sender=site, to=16, note=site + 1, name=b"Ada", focus=(site, 1))
                peer.send(node, note)
            self.assertEqual(node.ask("poll"), ["polled 15"])
            self.assertEqual(node.ask("name Ada"), ["noted 1"])
            self.assertEqual(node.ask("focus 16.1"), ["noted 2"])
            self.assertEqual(node.ask("who"), [*(who(site, "Ada", site) for site in range(1, 17)), "end 16"])


class Told(Case):
    # A clock of a site counts once all of its events are here.
    def test_the_line_is_the_least_clock(self):
        gap, next, late = ((11, 1), 2, ("raise", (1, 2))), square((10, 1), 1), ((10, 1), 2, ("raise", (1, 2)))
        rows = [
            (1, frame(count=0, clock=9, sender=1, to=2), [], 0, "held 0 kept 0 line 0 clock 0"),
            (1, frame(count=1, clock=20, sender=1, to=2), [], 4, "held 4 kept 4 line 0 clock 4"),
            (3, frame(count=0, clock=12, sender=3, to=2), [], 0, "held 4 kept 0 line 4 clock 4"),
            (3, frame(count=0, clock=12, sender=3, to=2), [], 6, "held 10 kept 1 line 9 clock 10"),
            (1, frame([gap], sender=1, to=2), [], 0, "held 10 kept 1 line 9 clock 10"),
            (1, frame([next], sender=1, to=2), [applied(next)], 0, "held 11 kept 0 line 10 clock 10"),
            (1, frame([next], sender=1, to=2), [], 0, "held 11 kept 0 line 10 clock 10"),
            (1, frame([late], sender=1, to=2), ["event 10.1 refused: Backdated 10 10"], 0, "held 11 kept 0 line 10 clock 10"),
        ]
        with started((2, 3)) as (node, peers):
            self.assertTrue(node.is_ready())
            clock = 0
            for sender, datagram, echoes, edits, status in rows:
                peers[sender].send(node, datagram)
                self.assertEqual(node.ask("poll"), [*echoes, "polled 1"])
                for clock in range(clock + 1, clock + 1 + edits):
                    self.assertEqual(node.ask("create rect 0 0 10 10"), [f"ok {clock}.2"])
                self.assertEqual(node.ask("status"), [status])

    # Of its 60 events each other site gets as many of the first that it hasn't got as fit, whatever it said before: of 28 bytes each
    # those are 40. What doesn't fit isn't sent when it is made.
    def test_each_site_is_sent_what_it_lacks(self):
        events = [square((clock, 1), clock) for clock in range(1, 61)]
        rows = [(2, 2, 2), (2, 25, 25), (3, 1, 1), (2, 13, 25), (3, 49, 49), (2, 60, 60)]
        with started((1, 3)) as (node, peers):
            self.assertTrue(node.is_ready())
            for clock in range(1, 61):
                self.assertEqual(node.ask("create rect 0 0 10 10"), [f"ok {clock}.1"])
                # It sends behind its answer, and in front of the next one.
                node.ask("status")
                for site, peer in peers.items():
                    told = [frame(events[:clock], sender=1, to=site)] if clock <= 40 else []
                    self.assertEqual(peer.received(), told, clock)
            for site, said, known in rows:
                node.ask("status")
                peers[site].received()
                peers[site].send(node, frame(sender=site, held=said))
                self.assertEqual(node.ask("poll"), ["polled 1"])
                starts = range(known, max(known + 1, 60), 40)
                told = [frame(events[start:][:40], sender=1, to=site, count=60, clock=60, check=chain(events)) for start in starts]
                self.assertEqual(peers[site].received(), told * len(told), (site, said))
            peers[2].send(node, frame(held=61))
            self.assertEqual(node.ask("poll"), ["frame refused: OverAck 61 60", "polled 1"])

    # Of 45 moves each, to site 2 alone, since of site 3 nothing came.
    def test_a_window_has_24_frames_and_8_of_them_once_more(self):
        moves = [((clock, 1), clock, ("move", (1, 1), clock, 0)) for clock in range(2, 1202)]
        events = [square((1, 1), 1), *moves]
        head = {"sender": 1, "count": 1201, "clock": 1201, "check": chain(events)}
        told = {to: [frame(events[start:][:45], to=to, **head) for start in range(0, 1080, 45)] for to in (2, 3)}
        with started((1, 3)) as (node, peers):
            self.assertTrue(node.is_ready())
            self.assertEqual(node.ask("create rect 0 0 10 10"), ["ok 1.1"])
            for start in range(0, 1200, 400):
                lines = [f"move 1.1 {clock} 0" for ((clock, _), _, _) in moves[start : start + 400]]
                node.ask("\n".join(["begin", *lines, "end"]))
            node.ask("status")
            for peer in peers.values():
                peer.received()
            peers[2].send(node, frame(held=0))
            self.assertEqual(node.ask("poll"), ["polled 1"])
            self.assertEqual(peers[2].received(), [*told[2], *told[2][:8]])
            self.assertEqual(peers[3].received(), told[3][:1])

    # Older events fill the frame for site 2, and site 3 has got them. An edit goes to site 3 alone, and the next poll sends the older
    # ones. A delete is short enough to go to both.
    def test_an_edit_goes_where_it_fits(self):
        labels = ["a" * 200] * 5
        events = [((1, 1), 1, ("create", "rect", 0, 0, 10, 10, "ab"))]
        events += [((clock, 1), clock, ("text", (1, 1), label)) for clock, label in enumerate(labels, 2)]
        moved, deleted = ((7, 1), 7, ("move", (1, 1), 5, 5)), ((7, 1), 7, ("delete", (1, 1)))
        for line, last, told in [
            ("move 1.1 5 5", moved, {2: [], 3: [moved]}),
            ("delete 1.1", deleted, {2: [*events, deleted], 3: [deleted]}),
        ]:
            with started((1, 3)) as (node, peers):
                self.assertTrue(node.is_ready())
                node.ask("create rect 0 0 10 10 ab")
                for label in labels:
                    node.ask(f"text 1.1 {label}")
                peers[3].send(node, frame(sender=3, held=6))
                self.assertEqual(node.ask("poll"), ["polled 1"])
                for peer in peers.values():
                    peer.received()
                self.assertEqual(node.ask(line), ["ok 7.1"])
                check = chain([*events, last])
                self.assertEqual(node.held(), 7)
                for to, peer in peers.items():
                    self.assertEqual(peer.received(), [frame(told[to], sender=1, to=to, check=check)] if told[to] else [], (line, to))
                self.assertEqual(node.ask("poll"), ["polled 0"])
                polled = {2: told[2] or events, 3: [last]}
                for to, peer in peers.items():
                    self.assertEqual(peer.received(), [frame(polled[to], sender=1, to=to, count=7, clock=7, check=check)], (line, to))
