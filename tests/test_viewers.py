"""Snapshots with kept events: which logs leave one, each fault of one, cuts, and what a viewer of one takes."""

from tests.program import BAD_LOG, BAD_VIEW, DONE, Case
from tests.spelled import changed, frame, item, log, number, record, square, stamp
from tests.worked import ELLIPSE_LINE, TIE, TIE_SNAPSHOT
from tests.test_snapshots import MOVE

# The shapes of the tie where the ellipse has the clock 2: site 2 has the sure clock 1, so the ellipse's event is kept.
LATER = changed(TIE, [(46, 2)])
LATER_SNAPSHOT = bytes.fromhex(
    "47444F53 03 00000007 01 02 0001 000000000002 0001 000000000001"
    "00000001 00000000000102 01 00000005 00000005 0000000A 0000000A 00000000 FFFFFFFF 01 00 00 FFFFFFFF 64 0000 00 00 00 00 00 01 00000000000102"
    "00000001 00000000000201 0001 01 02 00000000 00000000 00000014 00000014 00"
)
# The ellipse of the tie alone, and two kept events of site 2 above the line, which is 1: it was deleted twice.
KEPT = bytes.fromhex(
    "47444F53 03 00000007 01 02 0001 000000000001 0002 000000000003"
    "00000001 00000000000101 02 00000000 00000000 00000014 00000014 00000000 FFFFFFFF 01 00 00 FFFFFFFF 64 0000 00 00 00 00 00 01 00000000000101"
    "00000002 00000000000202 0001 02 00000000000101 00000000000302 0002 02 00000000000101"
)
# In KEPT the first kept event is a group of one member, twice.
GROUPED = KEPT[:90] + record((2, 2), 1, ("group", ((1, 1), 0, 0), ((1, 1), 0, 0)))


def bad(at, why):
    return f"bad view at {at}: {why}\n"


def rect(id, rank, *shape):
    """A rect of a snapshot without a label, on top since that event. Behind its id stand its place and its size."""
    places = b"".join(number(value, 4) for value in shape)
    return stamp(id) + b"\x01" + places + bytes.fromhex("00000000 FFFFFFFF 01 00 00 FFFFFFFF 64 0000 00 00 00 00 00 01") + stamp(rank)


def snapshot(known, objects, kept):
    """That of site 1 of session 7: of each site a count and a sure clock, then objects and events."""
    front = b"GDOS\x03\0\0\0\x07\x01" + number(len(known), 1)
    front += b"".join(number(count, 2) + number(sure, 6) for count, sure in known)
    events = b"".join(record(*event) for event in kept)
    return front + number(len(objects), 4) + b"".join(objects) + number(len(kept), 4) + events


class Written(Case):
    def test_events_above_the_line_are_kept(self):
        drawn = ("create", "rect", 10, 20, 30, 40, "")
        raised = ((2, 1), 2, ("raise", (1, 1)))
        objects = [rect(id, id, 10, 20, 30, 40) for id in ((1, 1), (1, 2))]
        self.assertEqual((len(LATER_SNAPSHOT), len(KEPT)), (118, 124))
        self.expect_all([
            (["snapshot"], LATER, DONE, LATER_SNAPSHOT),
            (["snapshot"], log([((1, 1), 1, drawn), ((1, 2), 1, drawn), raised]), DONE,
             snapshot([(2, 2), (1, 1)], objects, [raised])),
            (["snapshot"], TIE[:32], BAD_LOG, "bad log at 32: Short\n"),
            (["snapshot"], changed(TIE, [(18, 3)]), BAD_LOG, "bad log at 18: NoSite\n"),
        ])


class Faults(Case):
    def expect_bad(self, rows):
        """Each row: a snapshot, a place and the byte that is put there, and the fault and its place."""
        self.expect_all([
            (["view"], changed(given, [(place, byte)]), BAD_VIEW, bad(at, why)) for given, place, byte, at, why in rows
        ])

    def test_the_first_fault_is_found(self):
        self.expect_bad([(TIE_SNAPSHOT, *row) for row in [
            (0, 0x48, 0, "Magic"),
            (4, 1, 4, "Version"),
            (4, 2, 4, "Version"),
            (10, 0, 10, "Field"),
            (10, 17, 10, "Field"),
            (38, 7, 38, "Field"),
            (63, 0, 63, "Field"),
            (64, 3, 64, "Field"),
            (74, 203, 74, "Field"),
            (75, 2, 75, "Field"),
            (76, 2, 76, "Field"),
            (92, 1, 86, "Order"),
            (144, 1, 141, "Field"),
        ]])

    def test_the_first_fault_of_kept_events_is_found(self):
        self.expect_bad([(KEPT, *row) for row in [
            (95, 1, 90, "Bound"),
            (95, 4, 90, "Bound"),
            (96, 3, 90, "Bound"),
            (98, 3, 90, "Bound"),
            (98, 0, 97, "Field"),
            (99, 18, 99, "Field"),
            (105, 3, 100, "FutureId"),
            (112, 2, 107, "Order"),
        ]])
        self.expect(["view"], GROUPED, BAD_VIEW, bad(116, "MemberOrder"))

    def test_a_snapshot_that_is_cut_is_short_at_its_end(self):
        self.expect_all([(["view"], KEPT[:length], BAD_VIEW, bad(length, "Short")) for length in range(len(KEPT))])

    def test_items_that_are_none(self):
        self.expect_all([
            (["view"], TIE_SNAPSHOT + b"\x04\xB1", BAD_VIEW, bad(145, "Long")),
            (["view"], TIE_SNAPSHOT + item(MOVE)[:12], BAD_VIEW, bad(157, "Short")),
        ])


# Site 1 drew 1.1, which lies below the line, and raised it at clock 2.
DRAWN = snapshot([(2, 2), (0, 1)], [rect((1, 1), (1, 1), 0, 0, 10, 10)], [((2, 1), 2, ("raise", (1, 1)))])
SHOWN = "rect 1.1 in - at 0 0 size 10 10 stroke 000000 fill none width 1\nend 1\n"


def raised(clock, site, turn):
    return frame([((clock, site), turn, ("raise", (1, 1)))], sender=site, to=16)


# What comes, frame after frame, and what is printed of each: a repeat, and what stands behind a gap, have no line.
TAKEN = [
    (raised(4, 2, 1), "echo 4.2 applied raise 1.1\n"),
    (raised(4, 2, 1), ""),
    (raised(9, 2, 3), ""),
    (raised(4, 2, 2), "event 4.2 refused: Backdated 4 4\n"),
    (raised(3, 1, 3), "echo 3.1 dropped by 4.2 raise 1.1\n"),
    (raised(5, 1, 4), "echo 5.1 applied raise 1.1\n"),
    (frame(sender=2, to=16, count=1, clock=6), ""),
    (raised(6, 2, 2), "event 6.2 refused: Backdated 6 6\n"),
    (raised(7, 2, 2), "echo 7.2 applied raise 1.1\n"),
]


class Viewers(Case):
    def test_a_viewer_takes_what_arrives(self):
        items, lines = b"".join(item(datagram) for datagram, _ in TAKEN), "".join(line for _, line in TAKEN)
        self.expect_all([(["view"], DRAWN, DONE, SHOWN), (["view"], DRAWN + items, DONE, lines + SHOWN)])

    def test_kept_events_are_applied(self):
        alone = KEPT[:86] + bytes(4)
        self.expect_all([(["view"], KEPT, DONE, "end 0\n"), (["view"], alone, DONE, ELLIPSE_LINE + "end 1\n")])
