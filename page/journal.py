"""The events of a journal, read on from the byte where the last reading stopped (docs/FORMATS.md, sections 1 and 9)."""

import struct
from struct import Struct

HEADER = 11
GATE = 0xC3
# The versions of a log, each by its byte.
VERSIONS = {1: 1, 2: 2, 7: 3}
# From that version on so many bytes of a check stand behind each event.
CHECKED, CHECK = 3, 4
KINDS = {1: "rect", 2: "ellipse", 3: "line", 4: "text"}
OBJECT_KINDS = {**KINDS, 5: "group", 6: "connector"}
DASHES = {0: "solid", 1: "dashed", 2: "dotted"}
HEADS = {0: "none", 1: "end", 2: "start", 3: "both"}
ALIGNS = {0: None, 1: "start", 2: "middle", 3: "end"}
HEIGHTS = {0: "low", 1: "high"}
NO_FILL = 0xFFFFFFFF
# A record begins with its clock in 6 bytes, its site, its number and its tag. An id is a clock of 6 bytes and a site.
STAMP, HEAD, TWO, FOUR, SHIFTS = Struct(">HIB"), Struct(">HIBHB"), Struct(">ii"), Struct(">iiii"), Struct(">HIBii")
# What an object of a restore begins with: its kind, place, size and look.
LOOK = Struct(">BiiiiIIBBBIBHB")
# A length of a label has two bytes above that.
SHORT_LABEL, LONG_LABEL = 200, 202
BODY = HEAD.size


class BadJournal(Exception):
    """A file is no log, or has something in it that no log has. Its text says where."""


def clock_of(high, low):
    return (high << 32) | low


def name_at(data, place):
    """The id that stands at a place, as it is printed."""
    high, low, site = STAMP.unpack_from(data, place)
    return f"{clock_of(high, low)}.{site}"


def length_at(data, place):
    """The length of a label at a place, and the place behind it."""
    first = data[place]
    if first <= SHORT_LABEL:
        return first, place + 1
    if first > LONG_LABEL:
        raise KeyError(first)
    return SHORT_LABEL + 1 + (first - SHORT_LABEL - 1) * 256 + data[place + 1], place + 2


def label_at(data, place):
    """The label whose length stands at a place, and the place behind it."""
    length, at = length_at(data, place)
    end = at + length
    if end > len(data):
        raise IndexError
    return data[at:end].decode(), end


def colour(number):
    return f"{number:06X}"


def fill_of(number):
    return None if number == NO_FILL else colour(number)


def looks_of(dash, heads, rounding, opacity, letters, align):
    """What of a look isn't as it is made, in the words of a drawing's JSON."""
    looks = {
        "dash": DASHES[dash] if dash else None,
        "heads": HEADS[heads] if heads else None,
        "round": None if rounding == NO_FILL else rounding,
        "opacity": None if opacity == 100 else opacity,
        "letters": letters or None,
        "align": ALIGNS[align],
    }
    return {name: value for name, value in looks.items() if value is not None}


def ends_at(data, place):
    """The ends whose flag stands at a place, if there are any, and the place behind them."""
    return (both_at(data, place + 1), place + 15) if data[place] else ({}, place + 1)


def both_at(data, place):
    return {"from": name_at(data, place), "to": name_at(data, place + 7)}


def shift_at(data, place):
    """An id and a shift, which stand at a place."""
    high, low, site, dx, dy = SHIFTS.unpack_from(data, place)
    return {"dx": dx, "dy": dy, "id": f"{clock_of(high, low)}.{site}"}


def link_at(data, place):
    """The link whose flag stands at a place, or none, and the place behind it."""
    return (shift_at(data, place + 1), place + 1 + SHIFTS.size) if data[place] else (None, place + 1)


def rank_at(data, place):
    return {HEIGHTS[data[place]]: name_at(data, place + 1)}, place + 1 + STAMP.size


def ties_at(data, place):
    """The ties whose number stands at a place, and the place behind them."""
    ties, at = [], place + 1
    for _ in range(data[place]):
        name = name_at(data, at)
        link, at = link_at(data, at + STAMP.size)
        ties.append({"id": name, "link": link})
    return ties, at


def create(data, place):
    x, y, w, h = FOUR.unpack_from(data, place + 1)
    label, end = label_at(data, place + 17)
    return {"op": "create", "h": h, "kind": KINDS[data[place]], "label": label, "w": w, "x": x, "y": y}, end


def plain(op):
    return lambda data, place: ({"op": op, "target": name_at(data, place)}, place + 7)


def pair(op, first, second):
    def read(data, place):
        one, other = TWO.unpack_from(data, place + 7)
        return {"op": op, "target": name_at(data, place), first: one, second: other}, place + 15

    return read


def restyle(data, place):
    what, value = data[place + 7], int.from_bytes(data[place + 8 : place + 12], "big")
    if place + 12 > len(data):
        raise IndexError
    styles = {1: ("stroke", colour(value)), 2: ("fill", fill_of(value)), 3: ("width", value)}
    name, content = styles[what]
    return {"op": "restyle", "target": name_at(data, place), name: content}, place + 12


def retext(data, place):
    label, end = label_at(data, place + 7)
    return {"op": "retext", "target": name_at(data, place), "label": label}, end


def group(data, place):
    end = place + 1 + SHIFTS.size * data[place]
    return {"op": "group", "members": [shift_at(data, at) for at in range(place + 1, end, SHIFTS.size)]}, end


# The parts of a style: how many bytes each has, and what they say.
STYLES = (
    ("stroke", 4, colour),
    ("fill", 4, fill_of),
    ("width", 1, int),
    ("dash", 1, DASHES.__getitem__),
    ("heads", 1, HEADS.__getitem__),
    ("round", 4, lambda number: None if number == NO_FILL else number),
    ("opacity", 1, int),
    ("letters", 2, lambda number: number or None),
    ("align", 1, ALIGNS.__getitem__),
)


def style(data, place):
    looks, at = {}, place + STAMP.size
    for name, size, said in STYLES:
        is_set, at = data[at], at + 1
        if is_set:
            if at + size > len(data):
                raise IndexError
            looks[name] = said(int.from_bytes(data[at : at + size], "big"))
            at += size
    return {"op": "restyle", "target": name_at(data, place), **looks}, at


def connect(data, place):
    label, end = label_at(data, place + 2 * STAMP.size)
    return {"op": "connect", **both_at(data, place), "label": label}, end


def reconnect(data, place):
    return {"op": "reconnect", "target": name_at(data, place), **both_at(data, place + STAMP.size)}, place + 3 * STAMP.size


def restore(data, place):
    kind, x, y, w, h, stroke, fill, width, *marks = LOOK.unpack_from(data, place + STAMP.size)
    label, at = label_at(data, place + STAMP.size + LOOK.size)
    ends, at = ends_at(data, at)
    link, at = link_at(data, at)
    dissolved = bool(data[at])
    rank, at = rank_at(data, at + 1)
    ties, end = ties_at(data, at)
    look = {"stroke": colour(stroke), "fill": fill_of(fill), "width": width, **looks_of(*marks), "label": label}
    whole = {
        "kind": OBJECT_KINDS[kind], "at": [x, y], "size": [w, h], **look, **ends, "link": link, "dissolved": dissolved, "rank": rank
    }
    return {"op": "restore", "target": name_at(data, place), **whole, "ties": ties}, end


def disband(data, place):
    ties, end = ties_at(data, place + STAMP.size)
    return {"op": "disband", "target": name_at(data, place), "ties": ties}, end


def rerank(data, place):
    rank, end = rank_at(data, place + STAMP.size)
    return {"op": "rerank", "target": name_at(data, place), "rank": rank}, end


READERS = {
    1: create,
    2: plain("delete"),
    3: pair("move", "x", "y"),
    4: pair("resize", "w", "h"),
    5: restyle,
    6: retext,
    7: group,
    8: plain("ungroup"),
    9: plain("raise"),
    10: plain("lower"),
    11: restore,
    12: disband,
    13: rerank,
    14: plain("reopen"),
    15: style,
    16: connect,
    17: reconnect,
}


def event_at(data, place):
    """The event whose record stands at a place, and the place behind it. Raises what tells that bytes are missing, or are
    other ones than an event has."""
    high, low, site, number, tag = HEAD.unpack_from(data, place)
    deed, end = READERS[tag](data, place + BODY)
    clock = clock_of(high, low)
    return {"id": f"{clock}.{site}", "clock": clock, "site": site, "seq": number, **deed}, end


class Journal:
    """A log that a node goes on writing. No byte is read twice but the closed gate, where the next event will stand."""

    def __init__(self, path):
        self.path, self.place, self.version, self.fault = path, 0, None, None

    def read_on(self):
        """The events that came since the last call, in their order; none where there is no file yet. Raises `BadJournal`,
        then and from then on, where the file is no log."""
        if self.fault:
            raise self.fault
        try:
            with open(self.path, "rb") as file:
                file.seek(self.place)
                data = file.read()
        except FileNotFoundError:
            return []
        try:
            return self.take(data)
        except BadJournal as fault:
            self.fault = fault
            raise

    def take(self, data):
        """The events of the bytes that stand where the last reading stopped."""
        at = 0 if self.version else self.header(data)
        events = []
        while at is not None and at < len(data) and data[at] == GATE:
            try:
                event, end = event_at(data, at + 1)
            except (KeyError, UnicodeDecodeError):
                raise BadJournal(f"no event stands at {self.place + at + 1}") from None
            except (IndexError, struct.error):
                # Its bytes aren't all there: it is read when they are.
                break
            if self.version >= CHECKED:
                end += CHECK
            if end > len(data):
                break
            events.append(event)
            at = end
        self.place += at or 0
        return events

    def header(self, data):
        """The place behind the header, or none where it isn't whole yet."""
        if len(data) < HEADER:
            return None
        if data[:4] != b"GDOL" or data[4] not in VERSIONS:
            raise BadJournal("it is no log")
        self.version = VERSIONS[data[4]]
        return HEADER
