"""What comes over a node's link, and what it prints, journals and sends then."""

from concurrent.futures import ThreadPoolExecutor
from threading import Event

from tests.echoes import echoes
from tests.nodes import answered, started
from tests.program import DONE, Case
from tests.spelled import GREATEST_CLOCK, body_of, changed, checked, frame, log, rechecked, square
from tests.worked import EVENT, FRAME

RECT = square((1, 2), 1)


def moved(clock, turn, id, place):
    return (clock, 2), turn, ("move", id, place, place)


SECOND, THIRD, FOURTH = (moved(clock, clock, (1, 2), clock - 1) for clock in (2, 3, 4))

# The frame of site 1, which holds one event of site 2.
ANSWER = frame(sender=1, to=2, held=1, clock=1)

# The datagrams that have come, what is typed then, and what is printed.
TURNS = [
    # The second frame lacks an event, which the third one has.
    (
        [frame([RECT]), frame([THIRD, FOURTH], before=[RECT, SECOND]), frame([SECOND, THIRD, FOURTH], before=[RECT])],
        "poll\nstatus\n",
        echoes(RECT, SECOND, THIRD, FOURTH) + "polled 3\nheld 4 kept 0 line 4 clock 4\n",
    ),
    # The first frame promises that nothing up to clock 9 is to come.
    (
        [frame([RECT, SECOND], clock=9), frame([((9, 2), 3, ("raise", (1, 2)))], before=[RECT, SECOND])],
        "poll\nstatus\n",
        echoes(RECT, SECOND) + "event 9.2 refused: Backdated 9 9\npolled 2\nheld 2 kept 0 line 2 clock 2\n",
    ),
    # The greatest clock.
    (
        [frame([square((GREATEST_CLOCK, 2), 1)])],
        "poll\ncreate rect 0 0 1 1\n",
        echoes(square((GREATEST_CLOCK, 2), 1)) + "polled 1\nrefused: ClockEnd\n",
    ),
    # The first frame promises what the second one breaks.
    (
        [frame(clock=GREATEST_CLOCK), frame([RECT])],
        "poll\ncreate rect 0 0 1 1\nstatus\n",
        "event 1.2 refused: Backdated 1 281474976710655\npolled 2\nok 1.1\nheld 1 kept 0 line 1 clock 1\n",
    ),
    # The rect is moved twice here, and in between there.
    (
        [frame([moved(2, 1, (1, 1), 90)])],
        "create rect 0 0 10 10\nmove 1.1 50 50\nmove 1.1 60 60\npoll\nstatus\n",
        "ok 1.1\nok 2.1\nok 3.1\necho 2.2 dropped by 3.1 move 1.1 90 90\npolled 1\nheld 4 kept 1 line 2 clock 3\n",
    ),
]

# The front of the worked frame, which has no events.
BEAT = frame(count=1, clock=1, before=[RECT])


class Arrivals(Case):
    def expect_poll(self, datagrams, typed, printed, sites=2):
        node = answered((1, sites), typed, datagrams)
        self.assertEqual((node.text, node.status), (f"ready 1 of {sites}\n{printed}", DONE))
        return node

    def test_a_frame_that_comes_three_times_is_taken_once(self):
        node = self.expect_poll([FRAME] * 3, "poll\nquit\n", echoes(RECT) + "polled 3\n")
        self.assertEqual((node.journal, node.frames), (log([RECT]), {2: [ANSWER]}))

    def test_events_are_taken_in_turn_above_the_sure_clock(self):
        for datagrams, typed, printed in TURNS:
            self.expect_poll(datagrams, typed, printed)

    # An empty datagram is no pause: what came behind it is read by the same poll.
    def test_what_is_no_frame_for_the_node_is_refused(self):
        datagrams = [
            b"",
            checked(body_of(FRAME) + b"\0"),
            changed(FRAME, [(0, 0)]),
            changed(FRAME, [(8, 8)]),
            rechecked(FRAME, [(8, 8)]),
            rechecked(FRAME, [(12, 1)]),
            bytes(8193),
        ]
        printed = (
            "frame refused: Short at 0\nframe refused: Trailing at 64\nframe refused: Magic at 0\nframe refused: Check at 64\n"
            "frame refused: Session\nframe refused: OverAck 1 0\nframe refused: TooLong\npolled 7\nheld 0 kept 0 line 0 clock 0\n"
        )
        node = self.expect_poll(datagrams, "poll\nstatus\nquit\n", printed)
        self.assertEqual(node.sent, 1)

    # In the first rows two things are wrong, of which the first one that is looked at is printed: the session, the site that
    # the frame is for, the own number as that of the sender, a sender that there isn't, and what was never made as acknowledged.
    def test_the_first_cause_of_a_refused_frame_is_printed(self):
        for changes, why in [
            ([(8, 8), (10, 2)], "Session"),
            ([(9, 1), (10, 2)], "NotForMe"),
            ([(9, 1), (12, 1)], "FromMe"),
            ([(9, 3), (12, 1)], "NoSuchSite"),
            ([(11, 255), (12, 255)], "OverAck 65535 0"),
            ([(11, 1), (12, 0)], "OverAck 256 0"),
        ]:
            self.assertEqual(len(body_of(BEAT)), EVENT)
            self.expect_poll([rechecked(BEAT, changes)], "poll\n", f"frame refused: {why}\npolled 1\n")

    # As many datagrams of no byte wait at a socket as a poll takes, and more come while it takes them.
    def test_a_poll_takes_256_datagrams_at_most(self):
        with started((1, 2)) as (node, peers), ThreadPoolExecutor(1) as pool:
            self.assertTrue(node.is_ready())
            for _ in range(256):
                peers[2].send(node, b"")
            is_over = Event()

            def go_on():
                while not is_over.is_set():
                    peers[2].send(node, b"")

            more = pool.submit(go_on)
            answer = node.ask("poll")
            is_over.set()
            more.result()
            self.assertEqual(answer, ["frame refused: Short at 0"] * 256 + ["polled 256"])

    # A pause ends a poll, and is none.
    def test_a_poll_ends_at_a_pause(self):
        with started((1, 2)) as (node, peers):
            self.assertTrue(node.is_ready())
            for count in (65, 1, 0):
                for _ in range(count):
                    peers[2].send(node, b"")
                self.assertEqual(node.ask("poll"), ["frame refused: Short at 0"] * count + [f"polled {count}"])

    def test_a_datagram_of_8192_bytes_is_read(self):
        printed = "frame refused: Magic at 0\nframe refused: TooLong\npolled 2\n"
        self.expect_poll([bytes(8192), bytes(8193)], "poll\n", printed)
