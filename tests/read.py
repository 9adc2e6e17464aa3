"""Events that are read from logs and frames, from docs/FORMATS.md alone: only what is sound is handed to this."""

from tests.spelled import (
    ALIGNS, CHECKSUM, DASHES, HEADS, HEIGHTS, LOOKS, NO_FILL, OBJECT_KINDS, STYLES, TAGS, VERSION, VERSION_BYTES, header,
)

NAMES = {tag: name for name, tag in TAGS.items() if name not in STYLES}
KIND_NAMES = {byte: name for name, byte in OBJECT_KINDS.items()}
HEIGHT_NAMES = {byte: name for name, byte in HEIGHTS.items()}
DASH_NAMES, HEADS_NAMES, ALIGN_NAMES = ({byte: name for name, byte in table.items()} for table in (DASHES, HEADS, ALIGNS))
STYLE_NAMES = {byte: name for name, byte in STYLES.items()}
RESTYLE = 5
# The place of the events in a frame without a name, and that of the length of the name.
EVENTS, NAME = 36, 34


class Reader:
    """Bytes and a place in them."""

    def __init__(self, given, at=0):
        self.given, self.at = given, at

    def take(self, size):
        self.at += size
        return self.given[self.at - size : self.at]

    def number(self, size, signed=False):
        return int.from_bytes(self.take(size), "big", signed=signed)

    def signed(self, count):
        return tuple(self.number(4, signed=True) for _ in range(count))

    def stamp(self):
        return self.number(6), self.number(1)

    def label(self):
        size = self.number(1)
        return self.take(size if size <= 200 else 201 + (size - 201) * 256 + self.number(1)).decode()

    def fill(self):
        value = self.number(4)
        return None if value == NO_FILL else value

    def link(self):
        return (self.stamp(), *self.signed(2)) if self.number(1) else None

    def rank(self):
        return HEIGHT_NAMES[self.number(1)], self.stamp()

    def look(self, name):
        """A part of a look."""
        match name:
            case "stroke":
                return self.number(4)
            case "fill" | "round":
                return self.fill()
            case "dash":
                return DASH_NAMES[self.number(1)]
            case "heads":
                return HEADS_NAMES[self.number(1)]
            case "size":
                return self.number(2) or None
            case "align":
                return ALIGN_NAMES[self.number(1)]
            case _:
                return self.number(1)

    def ends(self):
        return (self.stamp(), self.stamp()) if self.number(1) else None

    def whole(self):
        """An object without its id."""
        front = KIND_NAMES[self.number(1)], *self.signed(4), *(self.look(name) for name in LOOKS), self.label()
        return *front, self.ends(), self.link(), bool(self.number(1)), self.rank()

    def ties(self):
        return [(self.stamp(), self.link()) for _ in range(self.number(1))]

    def op(self):
        tag = self.number(1)
        if tag == TAGS["create"]:
            return "create", KIND_NAMES[self.number(1)], *self.signed(4), self.label()
        if tag == TAGS["group"]:
            return "group", *((self.stamp(), *self.signed(2)) for _ in range(self.number(1)))
        if tag == TAGS["connect"]:
            return "connect", self.stamp(), self.stamp(), self.label()
        id = self.stamp()
        if tag == RESTYLE:
            name = STYLE_NAMES[self.number(1)]
            return name, id, self.fill() if name == "fill" else self.number(4)
        return NAMES[tag], id, *self.rest(NAMES[tag])

    def rest(self, name):
        """What stands behind the id of an operation that works on one object."""
        match name:
            case "move" | "resize":
                return self.signed(2)
            case "text":
                return [self.label()]
            case "style":
                return [{name: self.look(name) for name in LOOKS if self.number(1)}]
            case "reconnect":
                return [self.stamp(), self.stamp()]
            case "restore":
                return [self.whole(), *self.ties()]
            case "disband":
                return self.ties()
            case "rerank":
                return [self.rank()]
            case _:
                return []

    def event(self):
        return self.stamp(), self.number(2), self.op()


def events_of(log):
    """The events of a log, each its stamp, its number and its operation."""
    reader, events, has_checks = Reader(log, len(header())), [], log[4] == VERSION_BYTES[VERSION]
    while reader.take(1) == b"\xC3":
        events.append(reader.event())
        reader.take(CHECKSUM * has_checks)
    return events


def places_of(journal):
    """The places of the gates of a log of version three, the closing one too, and those of its checks."""
    reader, gates, checks = Reader(journal, len(header())), [len(header())], []
    while reader.take(1) == b"\xC3":
        reader.event()
        checks.append(reader.at)
        reader.take(CHECKSUM)
        gates.append(reader.at)
    return gates, checks


def frame_events(datagram):
    """The events of a frame."""
    reader = Reader(datagram, EVENTS - 1 + datagram[NAME])
    return [reader.event() for _ in range(reader.number(1))]
