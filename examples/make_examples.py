#!/usr/bin/env python3
"""Writes the logs of this folder, and the input of the stored run of crates/groupdesign, where their bytes aren't there yet.

A log is a header, then each event behind an open gate, then a closed gate. Numbers are big-endian.

    header   the letters GDOL; version 1, 2 or 3 (1 byte: 01, 02 or 07); the number of the session, which all its sites share (4);
             the site that keeps the log (1); how many sites there are (1)
    gate     C3: an event follows; 00, or the end of the file: the log ends (before version 3 any byte but C3
             ends it)
    event    stamp (7); its number among the events of its site (2); tag (1); a body, which the tag tells
    stamp    clock (6); site (1)

    tag 1    create: kind (1: rect, ellipse, line or text as 1 to 4); x, y, width and height (4 each, signed);
             the length of the label (1: at most 64 in version 1, 200 in later ones; a longer label, up to 500,
             which version 3 has, is in none of these); the label
    tag 2    delete: the stamp of the event that made the object, which is the object's id (7)
    tag 3    move: id (7); x and y (4 each, signed)
    tag 4    resize: id (7); width and height (4 each, signed)
    tag 5    restyle: id (7); what is set (1: stroke, fill or width as 1 to 3); its value (4: a colour, a fill of none
             as FFFFFFFF, or a width)
    tag 6    retext: id (7); the length of the label (1); the label
    tag 7    group: how many members (1: 2 to 32); for each its id (7), and its shift in x and y (4 each, signed)
    tag 8    ungroup: id (7)
    tag 9    raise: id (7)
    tag 10   lower, since version 2: id (7)
    tag 11   restore, since version 3: id (7); an object; ties
    tag 12   disband, since version 3: id (7); ties
    tag 13   rerank, since version 3: id (7); rank
    tag 14   reopen, since version 3: id (7)
    tag 15   style, since version 3: id (7); of each of the nine looks below 0 (1), or 1 (1) and what is set
    tag 16   connect, since version 3: the ids of the two ends (7 each); the length of the label (1); the label
    tag 17   reconnect, since version 3: id (7); the ids of the two ends (7 each)
    object   kind (1: group as 5, connector as 6); x, y, width and height (4 each, signed); the looks; the length of the label (1);
             the label; ends as 0 (1), or 1 (1) and the ids of both (7 each); link; whether it is dissolved (1); rank
    looks    stroke and fill (4 each); width (1); dash (1: solid, dashed or dotted as 0 to 2); heads (1: none, end, start
             or both as 0 to 3); round (4: FFFFFFFF as the kind has it); opacity (1: of 100); how high the letters are (2: 0
             as the kind has it); align (1: as the kind has it, start, middle or end as 0 to 3)
    ties     how many (1: at most 32); for each its id (7) and its link
    link     none as 0 (1); or 1 (1), the id of a group (7), and the shift in x and y (4 each, signed)
    rank     low or high as 0 or 1 (1); a stamp (7)

A log of cards has the letters GDOB and version 1, and other events behind the number:

    tag 1    add: column (1); the length of the title (1); the title
    tag 2    title: id (7); the length of the title (1); the title
    tag 3    column: id (7); column (1)
    tag 4    vote: id (7)
    tag 5    remove: id (7)
"""

from pathlib import Path
from struct import pack

HERE = Path(__file__).resolve().parent
# The input of the run that is stored with the program.
STORED_INPUT = HERE.parent / "crates/groupdesign/stdin"
RECT, ELLIPSE, LINE, TEXT, GROUP = 1, 2, 3, 4, 5
STROKE, FILL, WIDTH = 1, 2, 3
NONE = 0xFFFFFFFF
# The looks of a shape as it is made, and of each look how it is spelled, in their order.
MADE = {"stroke": 0, "fill": NONE, "width": 1, "dash": 0, "heads": 0, "round": NONE, "opacity": 100, "letters": 0, "align": 0}
LOOKS_SPELLED = dict(zip(MADE, (">I", ">I", ">B", ">B", ">B", ">I", ">B", ">H", ">B")))
# The byte of each version of a log.
VERSION_BYTES = {1: 1, 2: 2, 3: 7}
OPEN, CLOSED = b"\xC3", b"\x00"


def fallen(register):
    """A register behind eight bits."""
    for _ in range(8):
        register = register >> 1 ^ (0x82F63B78 if register & 1 else 0)
    return register


FALLEN = [fallen(byte) for byte in range(256)]


def crc32c(given, check=0):
    """The check of what has that check, with these bytes behind it."""
    register = check ^ 0xFFFFFFFF
    for byte in given:
        register = FALLEN[(register ^ byte) & 0xFF] ^ register >> 8
    return register ^ 0xFFFFFFFF


def stamp(clock, site):
    return clock.to_bytes(6, "big") + bytes([site])


def labelled(label):
    text = label.encode()
    return bytes([len(text)]) + text


def create(kind, x, y, width, height, label=""):
    return bytes([1, kind]) + pack(">iiii", x, y, width, height) + labelled(label)


def delete(clock, site):
    return b"\x02" + stamp(clock, site)


def move(clock, site, x, y):
    return b"\x03" + stamp(clock, site) + pack(">ii", x, y)


def resize(clock, site, width, height):
    return b"\x04" + stamp(clock, site) + pack(">ii", width, height)


def restyle(clock, site, what, value):
    return b"\x05" + stamp(clock, site) + pack(">BI", what, value)


def retext(clock, site, label):
    return b"\x06" + stamp(clock, site) + labelled(label)


def group(*members):
    """A group of members, each (clock, site) or (clock, site, shift in x, shift in y), by rising id."""
    return bytes([7, len(members)]) + b"".join(
        stamp(clock, site) + pack(">ii", *(shift or (0, 0))) for clock, site, *shift in members)


def ungroup(clock, site):
    return b"\x08" + stamp(clock, site)


def raise_up(clock, site):
    return b"\x09" + stamp(clock, site)


def lower(clock, site):
    return b"\x0A" + stamp(clock, site)


def link_to(group):
    """A link to a group without a shift, or none."""
    return b"\0" if group is None else b"\1" + stamp(*group) + pack(">ii", 0, 0)


def tied(ties):
    """Ties, each an id and a group or none, by rising id."""
    return bytes([len(ties)]) + b"".join(stamp(*id) + link_to(group) for id, group in ties)


def whole(kind, x, y, width, height, rank, label=""):
    """An object of the usual look, in no group, with a high rank."""
    look = b"".join(pack(LOOKS_SPELLED[name], value) for name, value in MADE.items())
    front = bytes([kind]) + pack(">iiii", x, y, width, height) + look + labelled(label)
    return front + b"\0" + link_to(None) + b"\0\1" + stamp(*rank)


def restore(clock, site, object, *ties):
    return b"\x0B" + stamp(clock, site) + object + tied(ties)


def disband(clock, site, *ties):
    return b"\x0C" + stamp(clock, site) + tied(ties)


def rerank(clock, site, rank):
    """A high rank."""
    return b"\x0D" + stamp(clock, site) + b"\1" + stamp(*rank)


def reopen(clock, site):
    return b"\x0E" + stamp(clock, site)


def style(clock, site, **looks):
    """Several looks at once, or one that restyle can't set."""
    parts = [b"\1" + pack(spelled, looks[name]) if name in looks else b"\0" for name, spelled in LOOKS_SPELLED.items()]
    return b"\x0F" + stamp(clock, site) + b"".join(parts)


def connect(start, end, label=""):
    return b"\x10" + stamp(*start) + stamp(*end) + labelled(label)


def reconnect(clock, site, start, end):
    return b"\x11" + stamp(clock, site) + stamp(*start) + stamp(*end)


def add_card(column, title):
    return bytes([1, column]) + labelled(title)


def title_card(clock, site, title):
    return b"\x02" + stamp(clock, site) + labelled(title)


def put_card(clock, site, column):
    return b"\x03" + stamp(clock, site) + bytes([column])


def vote(clock, site):
    return b"\x04" + stamp(clock, site)


def remove_card(clock, site):
    return b"\x05" + stamp(clock, site)


def header(drawing, site, sites, version=1, magic=b"GDOL"):
    return magic + bytes([VERSION_BYTES[version]]) + pack(">I", drawing) + bytes([site, sites])


def log(drawing, site, sites, events, version=1, magic=b"GDOL"):
    """The bytes of a log. An event is (clock, site, what it does); its number and its check are counted here."""
    counts, checks, parts = {}, {}, [header(drawing, site, sites, version, magic)]
    for clock, by, what in events:
        counts[by] = counts.get(by, 0) + 1
        event = stamp(clock, by) + pack(">H", counts[by]) + what
        parts.append(OPEN + event)
        if version == 3:
            checks[by] = crc32c(event, checks.get(by, 0))
            parts.append(pack("<I", checks[by]))
    return b"".join(parts) + CLOSED


TWO_EVENTS = [
    (1, 2, create(RECT, 5, 5, 10, 10)),
    (1, 1, create(ELLIPSE, 0, 0, 20, 20)),
]
TWO_SHAPES = log(7, 1, 2, TWO_EVENTS)

# The longest label that there is. A log of version 1 can't have it.
LONG_LABEL = log(7, 1, 1, [
    (1, 1, create(RECT, 0, 0, 900, 20, "0123456789" * 20)),
], version=2)

# What `snapshot` makes of two-shapes: what is known of both sites, and the two objects, each with its rank.
TWO_SHAPES_SNAPSHOT = (
    b"GDOS" + b"\x03" + pack(">I", 7) + bytes([1, 2])
    + 2 * (pack(">H", 1) + (1).to_bytes(6, "big"))
    + pack(">I", 2)
    + stamp(1, 1) + whole(ELLIPSE, 0, 0, 20, 20, (1, 1)) + stamp(1, 2) + whole(RECT, 5, 5, 10, 10, (1, 2))
    + pack(">I", 0)
)

# A frame of site 2 to site 1, with its second event, which moves the ellipse; the check of both its events, and the frame's checksum.
MOVE = stamp(2, 2) + pack(">H", 2) + move(1, 1, 7, 8)
BOTH = crc32c(stamp(1, 2) + pack(">H", 1) + TWO_EVENTS[0][2] + MOVE)
MOVED_BODY = (
    b"GDOF" + b"\x03" + pack(">I", 7) + bytes([2, 1]) + pack(">HH", 0, 2) + (2).to_bytes(6, "big") + pack("<I", BOTH) + bytes(2 + 7 + 1)
    + b"\x01" + MOVE
)
MOVED = MOVED_BODY + pack("<I", crc32c(MOVED_BODY))
TWO_SHAPES_VIEW = TWO_SHAPES_SNAPSHOT + pack(">H", len(MOVED)) + MOVED

# Site 1 keeps the log. It hears of a title before the card that it is of, and of a vote after that card is gone.
CARDS = log(7, 1, 2, [
    (1, 1, add_card(1, "Ship")),
    (2, 2, title_card(2, 1, "All hands")),
    (2, 1, add_card(2, "Crew")),
    (3, 1, vote(1, 1)),
    (4, 1, title_card(2, 1, "Hands")),
    (5, 1, remove_card(1, 1)),
    (6, 1, add_card(1, "Sails")),
    (3, 2, vote(1, 1)),
    (4, 2, vote(2, 1)),
    (7, 2, put_card(2, 1, 1)),
], magic=b"GDOB")

# Site 3 only watches. It hears all of site 2 first, and then all of site 1.
EFFECTS_BEFORE_CAUSES = log(7, 3, 3, [
    (4, 2, create(ELLIPSE, 160, 0, 80, 40, "End")),
    (5, 2, move(1, 1, -20, 0)),
    (6, 2, delete(3, 1)),
    (7, 2, raise_up(2, 1)),
    (1, 1, create(RECT, 0, 0, 100, 40, "Start")),
    (2, 1, create(LINE, 100, 20, 60, 0)),
    (3, 1, create(TEXT, 0, 60, 200, 20, "draft")),
    (4, 1, move(1, 1, 40, 40)),
    (8, 1, move(4, 2, 170, 0)),
])

# Site 1 keeps the log, and hears site 2 late.
LOOKS = log(7, 1, 2, [
    (1, 1, create(RECT, 0, 0, 120, 60, "Plan")),
    (2, 1, create(LINE, 0, 80, 120, 0)),
    (3, 1, restyle(1, 1, STROKE, 0x00AB0C)),
    (4, 1, restyle(1, 1, FILL, 0x336699)),
    (5, 1, create(ELLIPSE, 140, 0, 60, 60)),
    (6, 1, retext(1, 1, "Café")),
    (4, 2, restyle(1, 1, FILL, 0xFFE0A0)),
    (5, 2, restyle(2, 1, WIDTH, 64)),
    (6, 2, resize(2, 1, -120, 40)),
    (7, 2, create(TEXT, 0, 140, 200, 20, "draft")),
    (8, 1, delete(7, 2)),
    (8, 2, restyle(5, 1, FILL, 0x336699)),
    (9, 2, resize(7, 2, 300, 20)),
    (10, 1, restyle(5, 1, FILL, NONE)),
    (10, 2, restyle(5, 1, WIDTH, 3)),
])

# A roof within a house, and two birds. Site 2 lifts the roof, dissolves its group, deletes the birds' group, and
# raises the wall within the house.
HOUSE = log(7, 1, 2, [
    (1, 1, create(RECT, 0, 40, 100, 60, "Wall")),
    (2, 1, create(LINE, 0, 40, 50, -40)),
    (3, 1, create(LINE, 50, 0, 50, 40)),
    (4, 1, group((2, 1), (3, 1))),
    (5, 1, group((1, 1), (4, 1))),
    (6, 1, move(5, 1, 200, 10)),
    (7, 1, create(RECT, 240, 80, 20, 30, "Door")),
    (5, 2, move(4, 1, 0, -5)),
    (6, 2, ungroup(4, 1)),
    (8, 1, create(ELLIPSE, 300, -40, 30, 30, "Sun")),
    (9, 1, create(ELLIPSE, 10, -30, 5, 5)),
    (10, 1, create(ELLIPSE, 20, -30, 5, 5)),
    (11, 1, group((9, 1), (10, 1))),
    (12, 2, delete(11, 1)),
    (13, 2, raise_up(1, 1)),
])

# Site 1 moves a group while site 2 dissolves it. Then both sites group its members again, where they see them stand.
REGROUPED = log(7, 1, 2, [
    (1, 1, create(RECT, 0, 0, 10, 10)),
    (2, 1, create(RECT, 20, 0, 10, 10)),
    (3, 1, group((1, 1), (2, 1))),
    (4, 1, move(3, 1, 5, 7)),
    (4, 2, ungroup(3, 1)),
    (5, 1, group((1, 1, 5, 7), (2, 1, 5, 7))),
    (5, 2, group((1, 1, 5, 7), (2, 1, 5, 7))),
])

# Site 2 comes late. Of the two that are lowered the one that is lowered last lies at the bottom.
LOWERED = log(7, 1, 2, [
    (1, 1, create(RECT, 40, 40, 60, 60, "House")),
    (2, 1, create(ELLIPSE, 120, 10, 30, 30, "Sun")),
    (3, 1, create(RECT, 0, 0, 200, 100, "Sky")),
    (4, 1, lower(3, 1)),
    (5, 1, raise_up(1, 1)),
    (6, 1, lower(3, 1)),
    (4, 2, create(RECT, 0, 90, 200, 30, "Ground")),
    (5, 2, lower(4, 2)),
], version=2)

# What site 1 makes, it takes back from 9.1 on, and does two of it again. Site 2 comes late: its raise is covered, so is its fill, by
# a delete, and its move finds no group. What is put back has none of it.
TAKEN_BACK = log(7, 1, 2, [
    (1, 1, create(RECT, 0, 0, 40, 40, "Hull")),
    (2, 1, create(ELLIPSE, 60, 0, 40, 40, "Mast")),
    (3, 1, group((1, 1), (2, 1))),
    (4, 1, create(RECT, 0, 60, 100, 20, "Sea")),
    (5, 1, lower(4, 1)),
    (6, 1, delete(3, 1)),
    (7, 1, restore(3, 1, whole(GROUP, 0, 0, 0, 0, (3, 1)))),
    (8, 1, ungroup(3, 1)),
    (9, 1, reopen(3, 1)),
    (10, 1, rerank(4, 1, (4, 1))),
    (11, 1, delete(4, 1)),
    (12, 1, disband(3, 1, ((1, 1), None), ((2, 1), None))),
    (13, 1, restore(3, 1, whole(GROUP, 0, 0, 0, 0, (3, 1)), ((1, 1), (3, 1)), ((2, 1), (3, 1)))),
    (14, 1, restore(4, 1, whole(RECT, 0, 60, 100, 20, (4, 1), "Sea"))),
    (4, 2, raise_up(4, 1)),
    (5, 2, restyle(4, 1, FILL, 0x336699)),
    (12, 2, move(3, 1, 10, 0)),
], version=3)

# Site 2 comes late. Its fill is covered by a later one, and its group takes 2.1 before 4.1 does.
LATE_GROUP = log(7, 1, 2, [
    (1, 1, create(RECT, 0, 0, 10, 10, 'The "A"')),
    (2, 1, create(RECT, 20, 0, 10, 10)),
    (3, 1, raise_up(1, 1)),
    (4, 1, group((1, 1), (2, 1))),
    (5, 1, move(4, 1, 5, 5)),
    (6, 1, restyle(1, 1, FILL, 0xFFCC00)),
    (1, 2, create(ELLIPSE, 40, 0, 10, 10, "C:\\Café")),
    (2, 2, restyle(1, 1, FILL, 0x336699)),
    (3, 2, group((1, 2), (2, 1))),
])

# A chart of who tells whom, by site 1. Site 2 comes late: the style of it has a part that nobody sets later, and one that is covered;
# the box that it moves takes its connectors along; and with the box that it deletes both connectors of that are hidden, until one is
# given another end.
ORGANISATION = log(7, 1, 2, [
    (1, 1, create(RECT, 100, 0, 120, 40, "Captain\nand owner")),
    (2, 1, create(RECT, 0, 100, 100, 40, "Deck")),
    (3, 1, create(RECT, 120, 100, 100, 40, "Galley")),
    (4, 1, create(RECT, 240, 100, 100, 40, "Engine")),
    (5, 1, connect((1, 1), (2, 1))),
    (6, 1, connect((1, 1), (3, 1), "on\nSundays")),
    (7, 1, connect((3, 1), (4, 1))),
    (8, 1, style(6, 1, stroke=0x336699, dash=1, heads=3)),
    (9, 1, style(1, 1, fill=0xFFE0A0, width=3, round=8)),
    (10, 1, style(1, 1, letters=18, align=1)),
    (11, 1, connect((1, 1), (4, 1))),
    (12, 1, delete(11, 1)),
    (5, 2, style(1, 1, width=2, opacity=80)),
    (6, 2, create(ELLIPSE, 20, 200, 60, 40, "Cook")),
    (7, 2, move(2, 1, -20, 120)),
    (13, 2, delete(3, 1)),
    (14, 2, reconnect(6, 1, (1, 1), (6, 2))),
], version=3)


def stored_run():
    """A log that takes more than one read of 64 KiB, and ends with the last byte of its last event and no closed gate.

    Site 3 keeps it, and hears all of site 2 before all of site 1, which makes the shapes."""
    shapes = [(clock, 1) for clock in range(1, 5)]
    events = [(clock, 2, retext(*shapes[(clock - 1) % 4], f"{clock} ".ljust(64, "."))) for clock in range(5, 805)]
    events += [
        (1, 1, create(RECT, 0, 0, 100, 40)),
        (2, 1, create(ELLIPSE, 0, 0, 60, 30)),
        (3, 1, create(LINE, 0, 0, 80, 0)),
        (4, 1, create(TEXT, 0, 0, 200, 20)),
    ]
    events += [(clock, 1, move(*shapes[(clock - 1) % 4], clock, -clock)) for clock in range(5, 45)]
    events += [(45, 1, raise_up(1, 1)), (46, 1, restyle(3, 1, WIDTH, 64))]
    return log(7, 3, 3, events)[:-len(CLOSED)]


# What isn't a log of a drawing.
OTHERS = {
    "two-shapes.snapshot": TWO_SHAPES_SNAPSHOT,
    "two-shapes.view": TWO_SHAPES_VIEW,
    "cards.board": CARDS,
}
EXAMPLES = {
    "two-shapes": TWO_SHAPES,
    # What upgrade makes of it.
    "two-shapes-3": log(7, 1, 2, TWO_EVENTS, version=3),
    "long-label": LONG_LABEL,
    "effects-before-causes": EFFECTS_BEFORE_CAUSES,
    "looks": LOOKS,
    "house": HOUSE,
    "regrouped": REGROUPED,
    "lowered": LOWERED,
    "taken-back": TAKEN_BACK,
    "organisation": ORGANISATION,
    "late-group": LATE_GROUP,
    "empty": log(7, 1, 1, []),
    # The end of the file ends a log as a closed gate does.
    "empty-without-gate": header(7, 1, 1),
    # Its first event has lost its end.
    "cut": TWO_SHAPES[:32],
}

def write_changed(path, content):
    """Leaves a file alone that has these bytes: one that is written anew makes a build stale."""
    if not path.exists() or path.read_bytes() != content:
        path.write_bytes(content)


def main():
    for name, content in EXAMPLES.items():
        write_changed(HERE / f"{name}.log", content)
    for name, content in OTHERS.items():
        write_changed(HERE / name, content)
    write_changed(STORED_INPUT, stored_run())


if __name__ == "__main__":
    main()
