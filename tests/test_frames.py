"""A node's frames on their way to another node: cut, with each bit changed, and made of other bytes with their checksum."""

import random
from contextlib import ExitStack

from tests.echoes import applied, echoes
from tests.nodes import answered, started
from tests.program import DONE, Case, at_a_time
from tests.read import frame_events
from tests.spelled import CHECKSUM, OPEN, body_of, changed, checked, crc32c, little, log, rechecked, square
from tests.test_changes import CHANGES
from tests.worked import CHECK, EVENT, FRAME

# It is taken, and its event is applied.
TAKEN = "taken"
# It shows that its one event is another than the one whose check it has, and brings nothing.
PARTED = "parted from 2 at 1"
# The place of that check in a frame.
HEAD_CHECK = 21
# The bytes of a frame, and its events, are at most so many.
MOST, MOST_EVENTS = 1_200, 67


def bad(why, at):
    return f"frame refused: {why} at {at}"


def field(at, is_in_range):
    return TAKEN if is_in_range else bad("Field", at)


def disorder():
    return bad("Disorder", EVENT)


def is_site(value):
    return 1 <= value <= 16


def overack(count):
    """It acknowledges so many events of a site that has made none."""
    return f"frame refused: OverAck {count} 0"


def count_of_events(value):
    """The number of events, in front of one."""
    if value == 0:
        return bad("Trailing", EVENT)
    return bad("Short", CHECK) if value <= MOST_EVENTS else bad("Field", 35)


def front(at, value):
    """What comes of a byte of the frame in front of its event."""
    match at:
        case 0 | 1 | 2 | 3:
            return bad("Magic", 0)
        case 4:
            return bad("Version", 4)
        case 5 | 6 | 7 | 8:
            return "frame refused: Session"
        case 9:
            return disorder() if is_site(value) else bad("Field", 9)
        case 10:
            return "frame refused: NotForMe" if is_site(value) else bad("Field", 10)
        case 11:
            return overack(256 * value)
        case 12:
            return overack(value)
        case 14 | 20:
            # The last byte of the count or of the clock, both of which are 1 for the event.
            return TAKEN if value else disorder()
        case 27 | 28 | 29 | 30 | 31 | 32:
            # A focus has a clock and a site, or neither.
            return bad("Field", 33)
        case 33:
            return bad("Field", 27)
        case 34:
            # The length of the name, in front of bytes of which the first is a control character.
            return bad("Field", 35 if value <= 16 else 34)
        case 35:
            return count_of_events(value)
    return TAKEN


def tag(value):
    """The tag. What stands behind it is no id, and no group of two."""
    return bad("Field", 46 if value == 7 else 52 if 2 <= value <= 17 else 45)


def event(at, value):
    """What comes of a byte of the event."""
    match at:
        case 36 | 37 | 38 | 39 | 40 | 43:
            return disorder()
        case 41 | 44:
            # The last byte of the clock or the number: either is 1, and none is above 1 here.
            return disorder() if value else bad("Field", at - 5 if at == 41 else 43)
        case 42:
            return disorder() if is_site(value) else bad("Field", 42)
        case 45:
            return tag(value)
        case 46:
            return field(46, 1 <= value <= 4)
        case 47 | 51:
            # A place is from C4653600 to 3B9ACA00, and a size from FFF0BDC0 to 000F4240.
            return field(at, value <= 0x3B or value >= 0xC5)
        case 55 | 59:
            return field(at, value == 0)
        case 56 | 60:
            return field(at - 1, value <= 0x0F)
        case 63:
            # The length of the label, behind which nothing stands.
            return bad("Short", CHECK) if value <= 202 else bad("Field", 63)
    return TAKEN


def retold(change):
    """The worked frame with that change, the check of its event as it is then, and the checksum."""
    body = changed(body_of(FRAME), [change])
    return checked(body[:HEAD_CHECK] + little(crc32c(body[EVENT:])) + body[HEAD_CHECK + CHECKSUM :])


def places():
    """The places in front of the checksum but those of the check of the event."""
    return [at for at in range(CHECK) if not HEAD_CHECK <= at < HEAD_CHECK + CHECKSUM]


def line_of(at, value):
    """What is printed of the worked frame where that byte, which is none of the check of its event, has that value, which is
    another one, and that check and the checksum are right."""
    return front(at, value) if at < EVENT else event(at, value)


def noticed(at, length):
    """What is printed of a frame of so many bytes where that byte alone is another."""
    return bad("Magic", 0) if at < 4 else bad("Version", 4) if at == 4 else bad("Check", length - 4)


def received(datagram, typed="poll\n"):
    """What site 1 of 2 does of a datagram."""
    return answered((1, 2), typed, [datagram])


class Frames(Case):
    def expect_received(self, rows):
        """Each datagram, and the line that is printed of it. What was taken is journalled, and nothing else is."""
        for (datagram, line), node in zip(rows, at_a_time(received, [(datagram,) for datagram, _ in rows])):
            printed = applied(frame_events(datagram)[0]) if line == TAKEN else line
            self.assertEqual((node.text, node.status), (f"ready 1 of 2\n{printed}\npolled 1\n", DONE), datagram.hex())
            event = body_of(datagram)[EVENT:] if line == TAKEN else b""
            event = OPEN + event + little(crc32c(event)) if event else b""
            self.assertEqual(node.journal, log([], closed=False) + event + b"\0", datagram.hex())

    def test_the_frame_of_a_node_is_the_worked_one(self):
        self.assertEqual(answered((2, 2), "create rect 0 0 10 10\n").frames, {1: [FRAME]})
        self.expect_received([(FRAME, TAKEN)])
        self.assertEqual(received(FRAME).journal, log([square((1, 2), 1)]))

    # The checksum is that of RFC 3720: the check value of the catalogues, and the bytes of its appendix.
    def test_the_checksum_is_the_published_one(self):
        for given, check in [
            (b"123456789", 0xE3069283),
            (bytes(32), 0x8A9136AA),
            (b"\xFF" * 32, 0x62A8AB43),
            (bytes(range(32)), 0x46DD794E),
            (bytes(range(32))[::-1], 0x113FDB5C),
        ]:
            self.assertEqual(crc32c(given), check)

    def test_a_changed_byte_is_noticed(self):
        rows = [(at, was ^ change) for at, was in enumerate(FRAME) for change in CHANGES]
        self.expect_received([(changed(FRAME, [(at, value)]), noticed(at, len(FRAME))) for at, value in rows])

    # Bits that change within four bytes in a row.
    def test_a_changed_row_is_noticed(self):
        rows = [changed(FRAME, [(at + each, FRAME[at + each] ^ 0x5A) for each in range(4)]) for at in range(5, len(FRAME) - 3)]
        self.expect_received([(each, bad("Check", CHECK)) for each in rows])

    def test_a_changed_byte_with_its_checksum_is_refused_or_taken(self):
        rows = [(at, FRAME[at] ^ change) for at in places() for change in CHANGES]
        self.expect_received([(retold(row), line_of(*row)) for row in rows])

    # The check of the event is another one, or the event is.
    def test_another_event_than_the_one_that_is_checked_shows_a_parting(self):
        rows = [(at, FRAME[at] ^ change) for at in range(HEAD_CHECK, HEAD_CHECK + CHECKSUM) for change in CHANGES]
        events = [(at, FRAME[at] ^ change) for at in range(EVENT, CHECK) for change in CHANGES]
        rows += [row for row in events if line_of(*row) == TAKEN]
        self.expect_received([(rechecked(FRAME, [row]), PARTED) for row in rows])

    # The version; the sender; the site of the event, its count, its clock and its number; its kind; its width, to one more than
    # the greatest; the length of its label; and a byte that is added.
    def test_the_place_of_a_fault_is_that_of_its_field(self):
        self.expect_received([
            (rechecked(FRAME, changes), bad(why, at))
            for changes, why, at in [
                ([(4, 1)], "Version", 4),
                ([(4, 2)], "Version", 4),
                ([(9, 0x11)], "Field", 9),
                ([(42, 1)], "Disorder", 36),
                ([(13, 0), (14, 0)], "Disorder", 36),
                ([(20, 0)], "Disorder", 36),
                ([(43, 0), (44, 0)], "Field", 43),
                ([(46, 5)], "Field", 46),
                ([(56, 0x0F), (57, 0x42), (58, 0x41)], "Field", 55),
                ([(63, 1)], "Short", CHECK),
            ]
        ] + [(checked(body_of(FRAME) + b"\0"), bad("Trailing", CHECK))])

    def test_a_frame_that_is_cut_is_short_or_has_another_checksum(self):
        rows = [(FRAME[:length], bad("Short", length)) for length in range(5)]
        rows += [(FRAME[:length], bad("Check", length - 4)) for length in range(5, len(FRAME))]
        self.expect_received(rows + [(checked(FRAME[:length]), bad("Short", length)) for length in range(5, CHECK)])

    # The magic, the version, the length, the checksum and then the rest are judged, in this order.
    def test_the_length_is_judged_behind_the_version(self):
        body = body_of(FRAME)
        fits, long = bytes(MOST - len(FRAME)), bytes(MOST + 1 - len(FRAME))
        self.expect_received([
            (FRAME + fits, bad("Check", MOST - 4)),
            (checked(body + fits), bad("Trailing", CHECK)),
            (FRAME + long, bad("Trailing", MOST)),
            (checked(body + long), bad("Trailing", MOST)),
            (FRAME + bytes(8_192 - len(FRAME)), bad("Trailing", MOST)),
            (changed(FRAME + long, [(4, 2)]), bad("Version", 4)),
            (changed(FRAME + long, [(0, 0), (4, 2)]), bad("Magic", 0)),
            (FRAME + bytes(8_193 - len(FRAME)), "frame refused: TooLong"),
        ])


# Events of each kind of operation between them, a name and a focus, as they are typed at site 2; the last two have what undos and
# redos make.
SESSIONS = [
    "name Bob\nfocus 1.2\ncreate rect 0 0 10 10 café\ncreate line 5 5 -5 5\nmove 1.2 -7 1000000000\nresize 1.2 20 30\n"
    "stroke 1.2 00AB0C\nfill 1.2 none\nwidth 2.2 64\ntext 2.2 b\n",
    "create rect 0 0 10 10\ncreate ellipse 5 5 5 5\ngroup 1.2 2.2\nfill 1.2 FF8000\nungroup 3.2\nraise 1.2\nlower 1.2\n"
    "delete 2.2\n",
    "create rect 0 0 10 10 a\ncreate ellipse 5 5 5 5 b\ngroup 1.2 2.2\nungroup 3.2\nundo\nundo\nredo\nundo\n",
    "create rect 0 0 10 10 a\nraise 1.2\nundo\nredo\ndelete 1.2\nundo\nlower 1.2\nundo\n",
]
# So many datagrams of some hundred bytes wait at a socket.
AT_ONCE = 64
# So many bits are flipped of the frames of a longer session, each by itself.
FLIPS = 2_000


def usual_lines(draw):
    """Lines of somebody who makes shapes with and without words, moves them, writes on them, takes back, and polls."""
    for turn in range(1, 120):
        id, place = f"{draw.randrange(1, turn + 1)}.2", f"{draw.randrange(1_000)} {draw.randrange(1_000)}"
        made = f"create {draw.choice(['rect', 'ellipse', 'line', 'text'])} {place} 80 40 {'words ' * draw.randrange(30)}"
        yield draw.choice([made, f"move {id} {place}", f"text {id} some words", f"fill {id} DAE6FF", f"raise {id}", "undo", "name Bob", f"focus {id}", "poll"])
    yield "poll"


class Flips(Case):
    # A node sends frames, of which each bit is changed, and then they come as they were sent: both show the same.
    def test_each_changed_bit_of_a_session_is_noticed(self):
        for typed in SESSIONS:
            with ExitStack() as stack:
                one, to_one = stack.enter_context(started((1, 2)))
                two, to_two = stack.enter_context(started((2, 2)))
                self.assertTrue(one.is_ready() and two.is_ready())
                for line in typed.splitlines():
                    two.ask(line)
                drawn = two.ask("show")
                sent = to_two[1].received()[-1]
                flips = [(at, changed(sent, [(at, sent[at] ^ 1 << bit)])) for at in range(len(sent)) for bit in range(8)]
                self.assertGreater(len(flips), 1_500)
                for first in range(0, len(flips), AT_ONCE):
                    part = flips[first : first + AT_ONCE]
                    for _, datagram in part:
                        to_one[2].send(one, datagram)
                    lines = [noticed(at, len(sent)) for at, _ in part]
                    self.assertEqual(one.ask("poll"), [*lines, f"polled {len(part)}"])
                self.assertEqual(one.ask("status"), ["held 0 kept 0 line 0 clock 0"])
                to_one[2].send(one, sent)
                self.assertEqual(one.ask("poll"), [*echoes(*frame_events(sent)).splitlines(), "polled 1"])
                self.assertEqual(one.ask("show"), drawn)

    # One bit of each, of frames without an event, with one, with some, and of full ones.
    def test_flipped_bits_of_a_longer_session_are_noticed(self):
        draw = random.Random(7)
        with ExitStack() as stack:
            one, to_one = stack.enter_context(started((1, 2)))
            two, to_two = stack.enter_context(started((2, 2)))
            self.assertTrue(one.is_ready() and two.is_ready())
            sent = to_two[1].received()
            for line in usual_lines(draw):
                two.ask(line)
                sent += to_two[1].received()
            self.assertGreater(max(map(len, sent)), 1_100)
            self.assertGreater(len({len(each) for each in sent}), 12)
            for _ in range(0, FLIPS, 50):
                lines = []
                for _ in range(50):
                    datagram, bit = draw.choice(sent), draw.randrange(8)
                    at = draw.randrange(len(datagram))
                    to_one[2].send(one, changed(datagram, [(at, datagram[at] ^ 1 << bit)]))
                    lines.append(noticed(at, len(datagram)))
                self.assertEqual(one.ask("poll"), [*lines, f"polled {len(lines)}"])
            self.assertEqual(one.ask("status"), ["held 0 kept 0 line 0 clock 0"])
            self.assertEqual(one.ask("who"), ["end 0"])
