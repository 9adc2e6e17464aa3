"""What a node goes on with: a journal closed at each gate, cut at each length, of another one, and as a crash leaves it."""

from tests.echoes import applied
from tests.nodes import answered, started
from tests.program import BAD_LOG, DONE, OTHER_JOURNAL, Case, at_a_time
from tests.spelled import CLOSED, OPEN, changed, checked_records, frame, log, square

# A rect of site 1 and an ellipse of site 2, in session 7 of two sites, kept by site 1. The gates stand at 11,
# at 44 and at 77, and the checks at 40 and at 73.
EVENTS = [
    ((1, 1), 1, ("create", "rect", 5, 5, 10, 10, "")),
    ((2, 2), 1, ("create", "ellipse", 0, 0, 20, 20, "")),
]
LOG = log(EVENTS)
GATES = [11, 44, 77]
# Where the site stands that goes on at each gate.
STATUSES = ["held 0 kept 0 line 0 clock 0", "held 1 kept 1 line 0 clock 1", "held 2 kept 0 line 2 clock 2"]
# The turn and the clock of its next event there.
NEXT = [(1, 1), (2, 2), (2, 3)]


def closed_at(gate, closing, behind=b""):
    return LOG[:gate] + bytes([closing]) + behind


# What a crash leaves where the record of an event, or the gate in front of it, was being written behind so many events: what
# stands in the range of that write, and of how many events it is then the log. A gate is one byte, which is there or isn't.
def torn(count):
    front, gate = LOG[: GATES[count]], LOG[GATES[count] : GATES[count] + 1]
    (event,) = checked_records(EVENTS[count : count + 1], EVENTS[:count])
    assert gate == OPEN
    rows = [(front + CLOSED + bytes([fill]) * (len(event) + 1), count) for fill in (0, 0xC3, 0xFF)]
    rows += [(front + CLOSED + event + CLOSED, count)]
    rows += [(front + OPEN + event + CLOSED, count + 1)]
    return rows


# The same where both events were being written behind one gate: they are there together, or neither is.
def torn_together():
    together = OPEN.join(checked_records(EVENTS))
    front = LOG[: GATES[0]]
    rows = [(front + CLOSED + together[:cut] + bytes([fill]) * (len(together) - cut), 0) for cut in range(0, 66, 7) for fill in (0, 0xC3)]
    rows += [(front + CLOSED + together + CLOSED, 0), (front + OPEN + together + CLOSED, 2)]
    return rows


class Resumed(Case):
    def expect_resumed(self, rows):
        """Each journal, and how many of the events it has. Each node adds an event there, and leaves what stood behind."""
        nodes = at_a_time(answered, [((1, 2), "status\ncreate rect 0 0 10 10\n", (), 2, contents) for contents, _ in rows])
        for (contents, held), node in zip(rows, nodes):
            turn, clock = NEXT[held]
            text = f"ready 1 of 2\n{STATUSES[held]}\nok {clock}.1\n"
            self.assertEqual((node.text, node.status), (text, DONE), contents.hex())
            whole = log([*EVENTS[:held], square((clock, 1), turn)])
            self.assertEqual(node.journal, whole + contents[len(whole) :], contents.hex())

    def test_a_log_goes_on_at_its_closing_gate(self):
        self.expect_resumed([
            (closed_at(gate, 0, behind), held)
            for held, gate in enumerate(GATES)
            for behind in (b"", LOG[gate + 1 :])
        ])

    # Before any event, between both, and behind the last.
    def test_a_gate_that_is_neither_open_nor_closed_is_refused(self):
        self.expect_refused([
            (closed_at(gate, value, LOG[gate + 1 :]), BAD_LOG, f"bad log at {gate}: Behind\n")
            for gate in GATES
            for value in (1, 0x43, 0x80, 0xC2, 0xC7, 0xFF)
        ])

    def test_what_a_crash_left_of_an_append_is_gone_on_from(self):
        self.expect_resumed(torn(0) + torn(1))

    def test_what_a_crash_left_of_a_gesture_is_gone_on_from(self):
        self.expect_resumed(torn_together())

    def expect_refused(self, rows):
        """Each journal, and how its node ends and what it prints. It is left as it is."""
        nodes = at_a_time(answered, [((1, 2), "status\n", (), 2, contents) for contents, _, _ in rows])
        for (contents, status, text), node in zip(rows, nodes):
            self.assertEqual((node.text, node.status, node.journal), (text, status, contents), contents.hex())

    def test_a_log_of_another_header_is_other(self):
        places = [(4, 1), (4, 2), (8, 8), (9, 2), (10, 3)]
        self.expect_refused([(changed(LOG, [place]), OTHER_JOURNAL, "other journal\n") for place in places])

    # The log, and that of another session.
    def test_a_log_that_was_cut_is_short(self):
        self.expect_refused([
            (given[:length], BAD_LOG, f"bad log at {length}: Short\n")
            for given in (LOG, changed(LOG, [(8, 8)]))
            for length in range(len(LOG))
        ])

    def test_a_log_with_a_fault_is_bad_there(self):
        self.expect_refused([
            (changed(LOG, [(place, byte)]), BAD_LOG, f"bad log at {at}: {why}\n")
            for place, byte, at, why in [
                (0, ord("X"), 0, "Magic"), (4, 4, 4, "Version"), (10, 1, 51, "NoSite"), (53, 2, 52, "Turn"),
                (26, 6, 40, "Check"), (42, 0, 40, "Check"), (71, 21, 73, "Check"), (76, 1, 73, "Check"),
            ]
        ])


SHAPE = ("create", "rect", 10, 20, 30, 40, "")
LINE = "rect {} in - at 10 20 size 30 40 stroke 000000 fill none width 1\n"
# What site 1 of three holds, in its order: what site 3 made comes behind what it is before.
HELD = [
    ((1, 1), 1, SHAPE), ((1, 2), 1, SHAPE), ((2, 2), 2, ("raise", (1, 2))), ((3, 1), 2, ("raise", (1, 1))),
    ((1, 3), 1, SHAPE), ((3, 3), 2, ("raise", (1, 2))),
]
TYPED = "show\nstatus\nraise 1.3\nstatus\n"
ANSWERS = (
    f"{LINE.format('1.3')}{LINE.format('1.1')}{LINE.format('1.2')}end 3\n"
    "held 6 kept 2 line 2 clock 3\nok 4.1\nheld 7 kept 3 line 2 clock 4\n"
)
RAISE = ((4, 1), 3, ("raise", (1, 3)))
# What it tells the others then: of site 2 it holds two events, and so of site 3.
TOLD = {to: [frame([HELD[0], HELD[3], RAISE], sender=1, to=to, held=2)] for to in (2, 3)}


class Begun(Case):
    def test_a_site_goes_on_with_what_it_held(self):
        with started((1, 3)) as (node, peers):
            self.assertTrue(node.is_ready())
            self.assertEqual(node.ask("create rect 10 20 30 40"), ["ok 1.1"])
            peers[2].send(node, frame(HELD[1:3]))
            self.assertEqual(node.ask("poll"), [*map(applied, HELD[1:3]), "polled 1"])
            self.assertEqual(node.ask("raise 1.1"), ["ok 3.1"])
            peers[3].send(node, frame(HELD[4:], sender=3))
            self.assertEqual(node.ask("poll"), [*map(applied, HELD[4:]), "polled 1"])
            held = node.journal.read_bytes()
            self.assertEqual(held, log(HELD, sites=3))
            for peer in peers.values():
                peer.received()
            printed, status, _ = node.end(TYPED.encode())
            self.assertEqual((printed, status), (ANSWERS, DONE))
            self.assertEqual({to: peer.received() for to, peer in peers.items()}, TOLD)
        again = answered((1, 3), TYPED, contents=held)
        self.assertEqual((again.text, again.status), (f"ready 1 of 3\n{ANSWERS}", DONE))
        self.assertEqual(again.frames, TOLD)

    # No other site is to have the events of one that is alone. And no site writes a log such as the second one, whose own
    # clock would be above all that it holds.
    def test_logs_that_no_site_of_two_writes(self):
        for sites, events, typed, printed in [
            (
                1,
                [square((4, 1), 1)],
                "show\nstatus\nraise 4.1\nstatus\n",
                "rect 4.1 in - at 0 0 size 10 10 stroke 000000 fill none width 1\nend 1\n"
                "held 1 kept 0 line 4 clock 4\nok 5.1\nheld 2 kept 0 line 5 clock 5\n",
            ),
            (
                2,
                [square((5, 2), 1), square((1, 1), 1)],
                "show\nstatus\nraise 1.1\nstatus\n",
                "rect 1.1 in - at 0 0 size 10 10 stroke 000000 fill none width 1\n"
                "rect 5.2 in - at 0 0 size 10 10 stroke 000000 fill none width 1\nend 2\n"
                "held 2 kept 0 line 5 clock 5\nok 6.1\nheld 3 kept 1 line 5 clock 6\n",
            ),
        ]:
            node = answered((1, sites), typed, contents=log(events, sites=sites))
            self.assertEqual((node.text, node.status), (f"ready 1 of {sites}\n{printed}", DONE))
