"""The bytes of logs, events, frames and items, written from docs/FORMATS.md alone."""

GREATEST_CLOCK = (1 << 48) - 1
KINDS = {"rect": 1, "ellipse": 2, "line": 3, "text": 4}
TAGS = {"create": 1, "delete": 2, "move": 3, "resize": 4, "stroke": 5, "fill": 5, "width": 5, "text": 6}
TAGS |= {"group": 7, "ungroup": 8, "raise": 9, "lower": 10, "restore": 11, "disband": 12, "rerank": 13, "reopen": 14}
TAGS |= {"style": 15, "connect": 16, "reconnect": 17}
STYLES = {"stroke": 1, "fill": 2, "width": 3}
# What an object of a restore is: a shape, a group or a connector.
OBJECT_KINDS = KINDS | {"group": 5, "connector": 6}
DASHES = {"solid": 0, "dashed": 1, "dotted": 2}
HEADS = {"none": 0, "end": 1, "start": 2, "both": 3}
ALIGNS = {None: 0, "start": 1, "middle": 2, "end": 3}
HEIGHTS = {"low": 0, "high": 1}
# The newest version of each format, and the byte of each version of a log.
VERSION, VERSION_BYTES = 3, {1: 1, 2: 2, 3: 7}
NO_FILL = 0xFFFFFFFF
OPEN, CLOSED = b"\xC3", b"\0"
# That of CRC-32C, 1EDC6F41, from its lowest bit to its highest.
POLYNOMIAL = 0x82F63B78
CHECKSUM = 4


def number(value, size):
    return value.to_bytes(size, "big", signed=value < 0)


def signed(*values):
    """Numbers of four bytes."""
    return b"".join(number(value, 4) for value in values)


def stamp(id):
    """A stamp or an id: a clock and a site."""
    clock, site = id
    return number(clock, 6) + number(site, 1)


def label(text):
    text = text.encode() if isinstance(text, str) else text
    if len(text) <= 200:
        return number(len(text), 1) + text
    return number(201 + (len(text) - 201) // 256, 1) + number((len(text) - 201) % 256, 1) + text


# How each part of a look is spelled.
LOOKS = {
    "stroke": lambda value: number(value, 4),
    "fill": lambda value: number(NO_FILL if value is None else value, 4),
    "width": lambda value: number(value, 1),
    "dash": lambda value: number(DASHES[value], 1),
    "heads": lambda value: number(HEADS[value], 1),
    "round": lambda value: number(NO_FILL if value is None else value, 4),
    "opacity": lambda value: number(value, 1),
    "size": lambda value: number(value or 0, 2),
    "align": lambda value: number(ALIGNS[value], 1),
}


# The looks behind the width of a shape as it is made.
PLAIN = "solid", "none", None, 100, None, None


def looks(given):
    """What is set of a look, by the names of the parts."""
    return b"".join(b"\1" + spell(given[name]) if name in given else b"\0" for name, spell in LOOKS.items())


def ends(given):
    """The ends of a connector, or none."""
    return b"\0" if given is None else b"\1" + stamp(given[0]) + stamp(given[1])


def link(given):
    """The link of an object: a group and the shift in it, or none."""
    return b"\0" if given is None else b"\1" + stamp(given[0]) + signed(*given[1:])


def rank(height, id):
    return number(HEIGHTS[height], 1) + stamp(id)


def whole(kind, x, y, w, h, stroke, fill, width, dash, heads, round, opacity, size, align, text, between, to, is_dissolved, given):
    """All of an object but its id."""
    parts = zip(LOOKS.values(), (stroke, fill, width, dash, heads, round, opacity, size, align))
    look = b"".join(spell(value) for spell, value in parts)
    front = number(OBJECT_KINDS[kind], 1) + signed(x, y, w, h) + look + label(text)
    return front + ends(between) + link(to) + number(is_dissolved, 1) + rank(*given)


def ties(given):
    """Ids, each with the link that its object is given."""
    return number(len(given), 1) + b"".join(stamp(id) + link(to) for id, to in given)


def body(op, *given):
    """What stands behind the tag of an operation, which is a name and what it asks for."""
    match op:
        case "create":
            kind, x, y, w, h, text = given
            return number(KINDS[kind], 1) + signed(x, y, w, h) + label(text)
        case "move" | "resize":
            return stamp(given[0]) + signed(*given[1:])
        case "stroke" | "fill" | "width":
            value = NO_FILL if given[1] is None else given[1]
            return stamp(given[0]) + number(STYLES[op], 1) + number(value, 4)
        case "text":
            return stamp(given[0]) + label(given[1])
        case "style":
            return stamp(given[0]) + looks(given[1])
        case "connect":
            return stamp(given[0]) + stamp(given[1]) + label(given[2])
        case "reconnect":
            return stamp(given[0]) + stamp(given[1]) + stamp(given[2])
        case "group":
            return number(len(given), 1) + b"".join(stamp(id) + signed(dx, dy) for id, dx, dy in given)
        case "restore":
            return stamp(given[0]) + whole(*given[1]) + ties(given[2:])
        case "disband":
            return stamp(given[0]) + ties(given[1:])
        case "rerank":
            return stamp(given[0]) + rank(*given[1])
        case _:
            return stamp(given[0])


def record(id, turn, op):
    """An event: its stamp, its number among those of its site, and its operation."""
    return stamp(id) + number(turn, 2) + number(TAGS[op[0]], 1) + body(*op)


def header(session=7, site=1, sites=2, version=VERSION, magic=b"GDOL"):
    return magic + number(VERSION_BYTES[version], 1) + number(session, 4) + number(site, 1) + number(sites, 1)


def checks(events, behind=()):
    """For each event, where these stand before them all, the check of its site's events up to it."""
    found, of_sites = [], {}
    for event in [*behind, *events]:
        site = event[0][1]
        of_sites[site] = crc32c(record(*event), of_sites.get(site, 0))
        found.append(of_sites[site])
    return found[len(behind) :]


def chain(events):
    """The check of the events of one site, from its first one on."""
    return crc32c(b"".join(record(*event) for event in events))


def little(check):
    """A check of four bytes, the lowest first."""
    return check.to_bytes(CHECKSUM, "little")


def checked_records(events, behind=()):
    """What stands behind the gate of each event in a log of version three, where these events stand before them."""
    return [record(*event) + little(check) for event, check in zip(events, checks(events, behind))]


def log(events, closed=True, **of):
    """A log of these events, each a stamp, a number and an operation. In version three its check stands behind each."""
    events, has_checks = list(events), of.get("version", VERSION) == 3
    records = checked_records(events) if has_checks else [record(*event) for event in events]
    return header(**of) + b"".join(OPEN + each for each in records) + (CLOSED if closed else b"")


def square(id, turn):
    """A rect at 0 0, of size 10 10, without a label."""
    return id, turn, ("create", "rect", 0, 0, 10, 10, "")


def fallen(register):
    """A register behind eight bits."""
    for _ in range(8):
        register = register >> 1 ^ (POLYNOMIAL if register & 1 else 0)
    return register


FALLEN = [fallen(byte) for byte in range(256)]


def crc32c(given, check=0):
    """The CRC-32C of bytes, or, of what has that check, with them behind it."""
    register = check ^ 0xFFFFFFFF
    for byte in given:
        register = FALLEN[(register ^ byte) & 0xFF] ^ register >> 8
    return register ^ 0xFFFFFFFF


def checked(body):
    """A frame: what stands in front of its checksum, and that."""
    return body + little(crc32c(body))


def body_of(datagram):
    """A frame without its checksum."""
    return datagram[:-CHECKSUM]


def frame(
    events=(), sender=2, to=1, held=0, count=None, clock=None, note=0, focus=(0, 0), name=b"", session=7, before=(), check=None
):
    """A frame. Its count and its clock are those of its last event, where none are given, and its check is that of the events
    before its own ones and of these."""
    count = count if count is not None else events[-1][1] if events else 0
    clock = clock if clock is not None else events[-1][0][0] if events else 0
    front = b"GDOF" + number(VERSION, 1) + number(session, 4) + number(sender, 1) + number(to, 1) + number(held, 2) + number(count, 2)
    front += number(clock, 6) + little(chain([*before, *events]) if check is None else check) + number(note, 2) + stamp(focus) + number(len(name), 1) + name
    return checked(front + number(len(events), 1) + b"".join(record(*event) for event in events))


def item(datagram):
    """A frame behind a snapshot, with its length in front."""
    return number(len(datagram), 2) + datagram


def changed(given, changes):
    """These bytes with others in some places, each a place and a byte."""
    given = bytearray(given)
    for at, byte in changes:
        given[at] = byte
    return bytes(given)


def rechecked(datagram, changes):
    """A frame with other bytes in some places in front of its checksum, and the checksum of these."""
    return checked(changed(body_of(datagram), changes))
