"""When frames for a seat go out: with something new at once, and the same again ever more seldom."""

# Seconds until the same frames go out again: at first, and at most. A seat that isn't there is only sent one so often.
FIRST, LONGEST = 1.0, 10.0
# Where a frame says how many events its seat has, its clock, and the check of these. One that has nothing else new but its checksum
# tells a seat what it may be sure of, which can wait so long.
BEAT, CHECKSUM, BETWEEN = slice(13, 25), 4, 0.5
# A seat that said nothing for so many seconds isn't there.
GONE = 2.5 * LONGEST


def news_of(window):
    """What of frames goes out at once where it is new: acknowledgement, note and events."""
    return [frame[: BEAT.start] + frame[BEAT.stop : -CHECKSUM] for frame in window]


class Pace:
    """What was sent to one seat, and when it was heard. All times are seconds of one clock that is handed in."""

    def __init__(self):
        self.window, self.sent_at, self.due_at, self.pause, self.heard_at = [], float("-inf"), float("-inf"), FIRST, None

    def is_here(self, now):
        """Whether the seat was heard lately."""
        return self.heard_at is not None and now - self.heard_at < GONE

    def hear(self, now):
        """Something came from the seat. Says whether it wasn't there before: then it is sent all anew."""
        is_new = not self.is_here(now)
        self.heard_at = now
        if is_new:
            self.again()
        return is_new

    def leave(self):
        """The seat said goodbye."""
        self.heard_at = None

    def again(self):
        """What was sent may be lost: the next frames go out at once."""
        self.window, self.due_at, self.pause = [], float("-inf"), FIRST

    def takes(self, window, now):
        """Those of a poll's frames that go out now: all, none, or the first one alone where the seat isn't there. They have then
        been sent."""
        # A poll that took no frame sends but the first of them.
        last = self.window[: len(window)]
        is_new = news_of(window) != news_of(last) or (window != last and now - self.sent_at >= BETWEEN)
        if self.is_here(now) and is_new:
            self.pause = FIRST
        elif now >= self.due_at:
            self.pause = min(2 * self.pause, LONGEST) if self.is_here(now) else LONGEST
        else:
            return []
        self.window, self.sent_at, self.due_at = window, now, now + self.pause
        return window if self.is_here(now) else window[:1]
