"""All events of a desk in the order in which they were accepted, with the times at which they were seen here."""

import os
import time
from pathlib import Path

from page.audience import packed
from page.journal import BadJournal, Journal

# A newcomer is told so many events in one message.
PART = 2_000
# Outcomes that wait for their events; the oldest go, where a journal can't be read.
MOST_OUTCOMES = 10_000


class TimesFile:
    """The file beside a journal with a line for each event that was seen: its id, and milliseconds since 1970."""

    def __init__(self, journal):
        self.path = Path(f"{journal}.times")

    def read(self):
        """The times by ids. What is no line of such a file is passed over."""
        times = {}
        try:
            text = self.path.read_text(encoding="ascii", errors="replace")
        except OSError:
            return times
        for line in text.split("\n"):
            name, _, moment = line.partition(" ")
            if name and moment.isascii() and moment.isdigit() and len(moment) <= 15:
                times[name] = int(moment)
        return times

    def append(self, names, moment):
        """Adds the time at which events were seen. Where it can't be written, nothing says when they came later on."""
        text = "".join(f"{name} {moment}\n" for name in names)
        try:
            with open(os.open(self.path, os.O_RDWR | os.O_CREAT | os.O_APPEND, 0o600), "r+b") as file:
                file.write(self.after_a_cut(file) + text.encode())
        except OSError:
            pass

    @staticmethod
    def after_a_cut(file):
        """A line end, where a write that broke off left none."""
        size = file.seek(0, os.SEEK_END)
        if not size:
            return b""
        file.seek(size - 1)
        return b"" if file.read(1) == b"\n" else b"\n"


class History:
    """The events of a journal, each as JSON: what it is, `seen`, and of one that came as an echo in this run what came of it."""

    def __init__(self, journal, seen=lambda place, event, is_new: None):
        """`seen` is called for each event, with its place among all, counted from 0, and whether it came since the start."""
        self.journal, self.times = Journal(journal), TimesFile(journal)
        self.seen, self.events, self.outcomes, self.fault = seen, [], {}, None

    def begin(self):
        """Takes what the journal has at the start. When that came, only the file of times knows."""
        times = self.times.read()
        for event in self.read_on():
            self.keep(event, times.get(event["id"]), is_new=False)

    def came(self, news):
        """Puts down what came of an event that the journal will have."""
        self.outcomes[news["event"]] = {
            "came": news["what"],
            **{key: news[key] for key in ("by", "count") if key in news},
        }
        if len(self.outcomes) > MOST_OUTCOMES:
            del self.outcomes[next(iter(self.outcomes))]

    def go_on(self):
        """Takes what came to the journal since."""
        moment = int(time.time() * 1000)
        events = self.read_on()
        for event in events:
            self.keep(event, moment, is_new=True)
        if events:
            self.times.append([event["id"] for event in events], moment)

    def read_on(self):
        try:
            return self.journal.read_on()
        except (BadJournal, OSError) as fault:
            self.fault = str(fault)
            return []

    def keep(self, event, moment, is_new):
        outcome = self.outcomes.pop(event["id"], {})
        self.events.append(packed({**event, "seen": moment, **outcome}))
        self.seen(len(self.events) - 1, event, is_new)

    def messages(self, desk, first, end):
        """The texts that tell the events from one number to another; at least one, so that a newcomer hears where there are none."""
        for start in range(first, max(end, first + 1), PART):
            events = ",".join(self.events[start : min(end, start + PART)])
            yield f'{{"is":"history","desk":{desk},"from":{start},"events":[{events}]}}'
