"""When frames go out."""

import unittest

from carrier.frames import CHECKSUM, crc32c
from carrier.pace import BETWEEN, FIRST, GONE, LONGEST, Pace


class Paces(unittest.TestCase):
    def sent_within(self, pace, first, last, frame=b"same", step=0.25):
        """The times, in steps, at which a frame that the node sends again and again goes out."""
        count = round((last - first) / step)
        return [first + step * each for each in range(count) if pace.takes([frame], first + step * each)]

    def test_new_frames_go_at_once_to_who_is_there(self):
        pace = Pace()
        self.assertTrue(pace.hear(0.0))
        for count in range(5):
            self.assertTrue(pace.takes([b"%d" % count], 0.0))

    def test_the_same_frame_goes_ever_more_seldom(self):
        pace = Pace()
        pace.hear(0.0)
        times = []
        for second in range(0, 60, 5):
            pace.hear(float(second))
            times += self.sent_within(pace, float(second), float(second + 5))
        gaps = [later - earlier for earlier, later in zip(times, times[1:])]
        self.assertEqual(gaps[:3], [FIRST, 2 * FIRST, 4 * FIRST])
        self.assertEqual(gaps, sorted(gaps))
        self.assertEqual(set(gaps[4:]), {LONGEST})

    def test_a_frame_with_another_clock_alone_can_wait(self):
        def made(clock=1, ack=0, count=1, events=b""):
            head = b"GDOF\x03" + bytes(4) + b"\1\2" + ack.to_bytes(2, "big") + count.to_bytes(2, "big")
            body = head + clock.to_bytes(6, "big") + CHECKSUM.pack(crc32c(bytes(count))) + bytes(10) + bytes([1]) + events
            return body + CHECKSUM.pack(crc32c(body))

        pace = Pace()
        pace.hear(0.0)
        self.assertTrue(pace.takes([made()], 0.0))
        self.assertEqual([pace.takes([made(clock=2 + step)], step / 100) for step in range(50)], [[]] * 50)
        self.assertTrue(pace.takes([made(clock=99)], BETWEEN))
        # An acknowledgement, or an event, doesn't.
        self.assertTrue(pace.takes([made(clock=99, ack=1)], BETWEEN))
        self.assertTrue(pace.takes([made(clock=99, ack=1, events=b"event")], BETWEEN))
        self.assertFalse(pace.takes([made(clock=100, ack=1, count=2, events=b"event")], BETWEEN))

    def test_who_isn_t_there_gets_one_now_and_then_however_they_differ(self):
        pace = Pace()
        sent = [second for second in range(60) if pace.takes([b"%d" % second], float(second))]
        self.assertEqual(sent, [0, 10, 20, 30, 40, 50])

    # Of a window who isn't there is sent the first frame alone, and who is there all of them, and again where one of them is new.
    def test_the_frames_of_a_poll_go_together(self):
        pace = Pace()
        self.assertEqual(pace.takes([b"one", b"two"], 0.0), [b"one"])
        pace.hear(1.0)
        self.assertEqual(pace.takes([b"one", b"two"], 1.0), [b"one", b"two"])
        self.assertEqual(pace.takes([b"one", b"two"], 1.5), [])
        later = [b"one" * 20, b"three" * 20]
        self.assertEqual(pace.takes(later, 1.5), later)
        # The next poll takes no frame, and sends the first one alone; the one behind it takes one again.
        self.assertEqual(pace.takes(later[:1], 1.6), [])
        self.assertEqual(pace.takes(later, 1.7), [])

    def test_who_comes_is_sent_all_anew(self):
        pace = Pace()
        self.assertFalse(pace.is_here(0.0))
        self.assertTrue(pace.takes([b"a"], 0.0))
        self.assertFalse(pace.takes([b"a"], 1.0))
        self.assertTrue(pace.hear(1.0))
        self.assertTrue(pace.takes([b"a"], 1.0))
        self.assertFalse(pace.hear(2.0))
        self.assertFalse(pace.takes([b"a"], 1.5))
        self.assertTrue(pace.is_here(2.0 + GONE - 0.1))
        self.assertFalse(pace.is_here(2.0 + GONE))
        self.assertTrue(pace.hear(2.0 + GONE))
        pace.leave()
        self.assertFalse(pace.is_here(2.0 + GONE))
