"""The records of a journal by seats, with a chain of digests of each: what heads sign and members hand on.

D_0 = SHA-256("groupdesign feed", session, seat), and D_k = SHA-256(D_(k-1), record k as it stands in a log of version three).
"""

import hashlib
import struct
from array import array

from carrier.frames import crc32c
from page.journal import CHECK, GATE, HEADER, event_at

DIGEST = 32
# What reading bytes that are no whole record raises.
FAULTS = (KeyError, UnicodeDecodeError, IndexError, struct.error)


def first_digest(session, seat):
    """The digest of a seat that has no record."""
    return hashlib.sha256(b"groupdesign feed" + session + bytes([seat])).digest()


def next_digest(digest, record):
    return hashlib.sha256(digest + record).digest()


def records_of(data):
    """The records that stand one behind the other, each with its event. Raises one of `FAULTS` where they aren't that alone."""
    at = 0
    while at < len(data):
        event, end = event_at(data, at)
        yield event, data[at:end]
        at = end


class Feed:
    """One seat's records: where each stands, the digests, and the checks."""

    def __init__(self, first):
        self.checks = array("I", [0])
        self.digests, self.places, self.lengths, self.clock = bytearray(first), array("Q"), array("H"), 0

    @property
    def count(self):
        return len(self.places)

    def digest(self, count):
        """The digest of the first so many records."""
        return bytes(self.digests[DIGEST * count : DIGEST * (count + 1)])

    def check(self, count):
        """The check of the first so many records, as frames and journals have it."""
        return self.checks[count]

    def add(self, place, record, clock):
        self.checks.append(crc32c(record, self.checks[-1]))
        self.digests += next_digest(self.digest(self.count), record)
        self.places.append(place)
        self.lengths.append(len(record))
        self.clock = clock


class Feeds:
    """The feeds of all seats of a journal that a node goes on writing."""

    def __init__(self, journal, session, seats):
        self.journal, self.place = journal, 0
        self.feeds = {seat: Feed(first_digest(session, seat)) for seat in range(1, seats + 1)}

    def __getitem__(self, seat):
        return self.feeds[seat]

    def counts(self):
        """How many records of each seat there are, in the seats' order."""
        return [feed.count for feed in self.feeds.values()]

    def read_on(self):
        """Takes what came to the journal, and gives the seats that have more now. Nothing where it can't be read."""
        try:
            with open(self.journal, "rb") as file:
                file.seek(self.place)
                data = file.read()
        except OSError:
            return set()
        at = 0 if self.place else HEADER
        grown = set()
        while at < len(data) and data[at] == GATE:
            try:
                event, end = event_at(data, at + 1)
            except FAULTS:
                # Its bytes aren't all there, or the file is none of a node, which then says so.
                break
            if end + CHECK > len(data):
                break
            feed = self.feeds.get(event["site"])
            if feed is None or event["seq"] != feed.count + 1:
                break
            feed.add(self.place + at + 1, data[at + 1 : end], event["clock"])
            grown.add(event["site"])
            at = end + CHECK
        self.place += at if len(data) >= at else 0
        return grown

    def records(self, seat, first, last):
        """The bytes of the records of a seat from one number to another. Raises `OSError` where they can't be read."""
        feed, parts = self.feeds[seat], []
        with open(self.journal, "rb") as file:
            for number in range(first, last + 1):
                file.seek(feed.places[number - 1])
                parts.append(file.read(feed.lengths[number - 1]))
        return parts
