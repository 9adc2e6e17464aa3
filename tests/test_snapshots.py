"""Snapshots, and who looks on: the worked ones, one with each byte changed, and frames and faults behind one."""

from tests.program import BAD_LOG, BAD_VIEW, DONE, LINE_LIMIT, Case, at_a_time, run_program
from tests.spelled import body_of, changed, checked, frame, item, rechecked
from tests.test_changes import CHANGES
from tests.worked import ELLIPSE_LINE, RECT_LINE, TIE, TIE_SNAPSHOT, TIE_TEXT

# A frame of session 7 from site 2 to site 1, with the count 2 and the clock 2: the event 2.2, its second, moves 1.1 to 7 8.
MOVE = frame([((2, 2), 2, ("move", (1, 1), 7, 8))])
MOVED = "echo 2.2 applied move 1.1 7 8\n"
MOVED_TEXT = MOVED + ELLIPSE_LINE.replace("at 0 0", "at 7 8") + RECT_LINE + "end 2\n"


def stream(*datagrams):
    """The worked snapshot, and these items behind it."""
    return TIE_SNAPSHOT + b"".join(map(item, datagrams))


class Snapshots(Case):
    def test_a_log_is_handed_on_without_its_history(self):
        self.expect(["snapshot"], TIE, DONE, TIE_SNAPSHOT)
        self.expect(["snapshot"], TIE[:41], BAD_LOG, "bad log at 41: Short\n")

    # The log of site 2: the snapshot is that of the site that the header names.
    def test_a_snapshot_is_of_its_site(self):
        self.expect(["snapshot"], changed(TIE, [(9, 2)]), DONE, changed(TIE_SNAPSHOT, [(9, 2)]))

    def test_a_snapshot_shows_its_drawing(self):
        self.expect(["view"], TIE_SNAPSHOT, DONE, TIE_TEXT)
        self.expect(["view"], TIE_SNAPSHOT[:144], BAD_VIEW, "bad view at 144: Short\n")
        self.expect(["view"], b"", BAD_VIEW, "bad view at 0: Short\n")

    def test_a_frame_is_taken_once_for_whomever_it_is(self):
        other = rechecked(MOVE, [(10, 16), (11, 255)])
        self.expect_all([(["view"], stream(*items), DONE, MOVED_TEXT) for items in ([MOVE], [MOVE, MOVE], [other])])

    # No frame; one in which a bit was changed; one of another session; one from site 3 without events; an event behind a gap; and
    # one whose clock is that of the first event of its site.
    def test_a_frame_that_brings_nothing_leaves_the_drawing(self):
        self.expect_all([
            (["view"], stream(datagram), DONE, line + TIE_TEXT)
            for datagram, line in [
                (b"", "frame refused: Short at 0\n"),
                (changed(MOVE, [(56, 6)]), "frame refused: Check at 61\n"),
                (rechecked(MOVE, [(8, 8)]), "frame refused: Session\n"),
                (checked(changed(body_of(MOVE), [(9, 3), (35, 0)])[:36]), "frame refused: NoSuchSite\n"),
                (rechecked(MOVE, [(14, 3), (44, 3)]), ""),
                (rechecked(MOVE, [(41, 1)]), "event 1.2 refused: Backdated 1 1\n"),
            ]
        ])

    # A frame without events says that nothing up to its clock is to come, where all that it counts is held, and else nothing.
    def test_a_beat_counts_where_all_before_it_is_held(self):
        late = frame([((9, 2), 2, ("move", (1, 1), 7, 8))])
        moved = MOVED_TEXT.replace("echo 2.2", "echo 9.2")
        self.expect_all([
            (["view"], stream(frame(count=1, clock=9), late), DONE, "event 9.2 refused: Backdated 9 9\n" + TIE_TEXT),
            (["view"], stream(frame(count=1, clock=8), late), DONE, moved),
            (["view"], stream(frame(count=2, clock=9), late), DONE, moved),
        ])

    # A length is cut, or above that of any frame, or no item is behind it; and the same behind an item.
    def test_the_first_fault_of_the_items_is_found(self):
        self.expect_all([
            (["view"], stream(*items) + rest, BAD_VIEW, text)
            for items, rest, text in [
                ([], b"\x04", "bad view at 146: Short\n"),
                ([], b"\x04\xB1\0", "bad view at 145: Long\n"),
                ([], b"\x04\xB0", "bad view at 147: Short\n"),
                ([MOVE], b"\0", MOVED + "bad view at 213: Short\n"),
                ([MOVE], b"\0\x02\x01", MOVED + "bad view at 215: Short\n"),
                ([MOVE], b"\xFF\xFF", MOVED + "bad view at 212: Long\n"),
            ]
        ])

    def test_there_are_a_million_items_at_most(self):
        items, lines = TIE_SNAPSHOT + b"\0\0" * 1_000_000, "frame refused: Short at 0\n" * 1_000_000
        runs = at_a_time(run_program, [(["view"], items), (["view"], items + b"\0")])
        for ended, status, last in zip(runs, (DONE, LINE_LIMIT), (TIE_TEXT, "line limit\n")):
            self.assertEqual((ended.status, len(ended.printed)), (status, 26_000_000 + len(last)))
            self.assertTrue(ended.text == lines + last, "other lines")


# What comes of a snapshot: `None` where its drawing is printed, else what is printed.
def bad(at, why):
    return f"bad view at {at}: {why}\n"


def field(at, is_in_range):
    return None if is_in_range else bad(at, "Field")


def own_site(value):
    """The site, of which there are two."""
    return None if value in (1, 2) else bad(10 if 3 <= value <= 16 else 9, "Field")


def sites(value):
    """The number of sites. What is known of each takes 8 bytes, so that with more of them the number of objects is read further
    on: of three it is too great, of six it is `FFFFFFFF`; and of ten it is an id's end and a kind."""
    return bad({3: 35, 6: 59, 10: 91}.get(value, 10), "Field")


def place(at, byte, value):
    """A byte of a place, which is from -1,000,000,000 to 1,000,000,000."""
    return field(at, not (byte == 0 and 59 < value < 197))


def size(at, byte, value):
    """A byte of a size, which is from -1,000,000 to 1,000,000."""
    return field(at, value == 0 if byte == 0 else value < 16 if byte == 1 else True)


def label(at, value):
    """The length of the label, in front of that many bytes, which have control characters among them."""
    if value > 202:
        return bad(at, "Field")
    # Above 200 it has a second byte, which is 0 here.
    return bad(len(TIE_SNAPSHOT), "Short") if value > len(TIE_SNAPSHOT) - at - 1 else bad(at + 1, "Field")


def seen_object(at, offset, value):
    """A byte of an object, so many behind the first one that isn't of its id."""
    match offset:
        case 0:
            # A connector without ends, of which the flag is 00; and no kind.
            return field(at + 37, False) if value == 6 else field(at, 1 <= value <= 5)
        case 1 | 5:
            return place(at, 0, value)
        case 9 | 13:
            return size(at, 0, value)
        case 10 | 14:
            return size(at - 1, 1, value)
        case 17:
            return field(at, False)
        case 21:
            # The fill, which is none.
            return field(at, value == 0)
        case 22 | 23 | 24:
            return field(at - (offset - 21), False)
        case 25:
            return field(at, 1 <= value <= 64)
        case 26:
            return field(at, value <= 2)
        case 27 | 35:
            # The heads, and where the lines of the label begin.
            return field(at, value <= 3)
        case 28 | 29 | 30 | 31:
            # The round, which is as the kind has it.
            return field(at - (offset - 28), False)
        case 32:
            return field(at, 1 <= value <= 100)
        case 33:
            return field(at, value <= 3)
        case 36:
            return label(at, value)
        case 37 | 38:
            # The flags of ends and of a link, whose first end and whose group would be of the site 0.
            return field(at + 7 if value == 1 else at, False)
        case 39 | 40:
            return field(at, value <= 1)
        case 46:
            return field(at - 5, value != 0)
        case 47:
            return field(at, 1 <= value <= 16)
    return None


def first_id(at, value):
    """A byte of the first object's id, which is below the second one's."""
    if at == 36 and value == 0:
        return bad(31, "Field")
    return bad(37, "Field") if at == 37 and not 1 <= value <= 16 else bad(86, "Order")


def second_id(at, value):
    return field(86, value != 0) if at == 91 else field(92, 1 <= value <= 16) if at == 92 else None


def objects(at, value):
    """A byte of the number of objects, which is the number of all events. With none, what stands behind it is a frame of a byte,
    and an item that is cut."""
    return "frame refused: Short at 1\nbad view at 145: Short\n" if at == 30 and value == 0 else bad(27, "Field")


def count(at, value):
    """A byte of how many events a site made. With fewer there are too many objects."""
    return bad(27, "Field") if at % 8 == 4 and value == 0 else None


def told(at, value):
    """What is printed of the worked snapshot where that byte has that value, which is another one."""
    if at < 9:
        return bad(0, "Magic") if at < 4 else bad(4, "Version") if at == 4 else None
    if at < 11:
        return own_site(value) if at == 9 else sites(value)
    if at < 31:
        return objects(at, value) if at > 26 else count(at, value) if at in (11, 12, 19, 20) else None
    if at < 86:
        return first_id(at, value) if at < 38 else seen_object(at, at - 38, value)
    if at < 141:
        return second_id(at, value) if at < 93 else seen_object(at, at - 93, value)
    return bad(141, "Field")


class ChangedSnapshots(Case):
    # Of a drawing the last line is looked at alone.
    def test_a_snapshot_with_a_changed_byte_is_bad_or_shown(self):
        rows = [(at, was ^ change) for at, was in enumerate(TIE_SNAPSHOT) for change in CHANGES]
        runs = at_a_time(run_program, [(["view"], changed(TIE_SNAPSHOT, [row])) for row in rows])
        for (at, value), ended in zip(rows, runs):
            line = told(at, value)
            if line is None:
                self.assertEqual((ended.text[-6:], ended.status), ("end 2\n", DONE), (at, value))
            else:
                self.assertEqual((ended.text, ended.status), (line, BAD_VIEW), (at, value))
