"""The gestures of a site: which of its own events are one, and which of the events in its journal wait for the rest of theirs."""


class Gestures:
    """The gestures since this program started. Each is a batch of lines, and batches are answered in the order in which they
    were typed, so that no other event of this site lies between those of one."""

    def __init__(self):
        # Of each gesture of several edits the clocks of the first and the last one.
        self.whole = []
        self.under_way, self.answered, self.waiting = 0, 0, []

    def begin(self):
        """Takes that a batch is typed from now on."""
        self.under_way += 1

    def see(self, place, clock):
        """Takes an own event that stands at this place among all events."""
        if self.under_way and clock > self.answered:
            self.waiting.append((place, clock))

    def end(self, clocks, is_cut):
        """Takes that a batch is over, with the clocks of the edits that were answered. Where the node has ended before it had
        answered all, what it took besides is in its journal. Gives the new gesture, or none."""
        self.under_way -= 1
        found = sorted({*clocks, *(clock for _, clock in self.waiting)}) if is_cut else clocks
        self.answered = max(self.answered, *found[-1:], 0)
        self.waiting = [each for each in self.waiting if each[1] > self.answered] if self.under_way else []
        if len(found) < 2:
            return None
        self.whole.append([found[0], found[-1]])
        return self.whole[-1]

    def told(self, count):
        """How many of so many events can be told: those in front of the first one whose gesture isn't whole."""
        return self.waiting[0][0] if self.waiting else count
