"""What happened at a desk: a list for people, in which what is said again and again stands once."""

import re
from collections import deque

# So much of what happened is kept for pages that come later.
MOST_NEWS = 200
# How many seconds lie between two tellings of the same saying.
SAY_EVERY = 5
DIGITS = re.compile(r"\d+")


class News:
    """The last entries. An entry with `what` "said" has a `count`: how often the node said that, or the same with other
    numbers in it."""

    def __init__(self):
        self.entries = deque(maxlen=MOST_NEWS)
        # What was said, by itself without numbers: its entry, when it was told last, and with which count.
        self.said = {}

    def take(self, entries, now):
        """Takes entries, and gives those that are to be told at once."""
        told = [each for each in (self.one(entry, now) for entry in entries) if each]
        return told

    def one(self, entry, now):
        if entry["what"] != "said":
            self.entries.append(entry)
            return entry
        key = DIGITS.sub("#", entry["line"])
        if key not in self.said:
            self.said[key] = [{**entry, "count": 1}, now, 1]
            self.entries.append(self.said[key][0])
            return self.said[key][0]
        self.said[key][0].update(line=entry["line"], count=self.said[key][0]["count"] + 1)
        return None

    def due(self, now):
        """The sayings whose counts have grown since they were told, and whose time has come."""
        due = [each for each in self.said.values() if each[0]["count"] > each[2] and now - each[1] >= SAY_EVERY]
        for each in due:
            each[1:] = [now, each[0]["count"]]
        return [{**entry, "again": True} for entry, _, _ in due]
