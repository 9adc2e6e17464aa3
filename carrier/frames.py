"""Frames (docs/FORMATS.md, 8) that a carrier hands its own node in the name of a seat whose signed records it has."""

import struct

MAGIC = b"GDOF\x03"
# Magic and version, session, from, to, acknowledgement, count, clock. Behind it stand the check of the sender's records, no note, no
# focus and no name, and behind the records the checksum.
HEAD, NOTHING, CHECKSUM = struct.Struct(">5sIBBHHHI"), bytes(10), struct.Struct("<I")
COUNT = slice(13, 15)
# The records of a frame have at most so many bytes.
ROOM = 1_144
# A clock above which nothing more comes.
LAST_CLOCK = 2**48 - 1
# That of CRC-32C, 1EDC6F41, from its lowest bit to its highest.
POLYNOMIAL = 0x82F63B78


def fallen(register):
    """A register behind eight bits."""
    for _ in range(8):
        register = register >> 1 ^ (POLYNOMIAL if register & 1 else 0)
    return register


FALLEN = [fallen(byte) for byte in range(256)]


def crc32c(given, check=0):
    """The CRC-32C of what has that check, with these bytes behind it."""
    register = check ^ 0xFFFFFFFF
    for byte in given:
        register = FALLEN[(register ^ byte) & 0xFF] ^ register >> 8
    return register ^ 0xFFFFFFFF


def frame(session, sender, to, records, count, clock, check):
    """A frame with records that fit. It acknowledges nothing, and `count` and `clock` say up to where it speaks, and `check` is that of
    the sender's records up to there."""
    head = HEAD.pack(MAGIC, session, sender, to, 0, count, clock >> 32, clock & 0xFFFFFFFF)
    body = head + CHECKSUM.pack(check) + NOTHING + bytes([len(records)]) + b"".join(records)
    return body + CHECKSUM.pack(crc32c(body))


def fitting(records, first):
    """Behind which record a frame ends whose first one is at that place: as many are in it as fit, and one at least."""
    room, end = ROOM - len(records[first]), first + 1
    while end < len(records) and len(records[end]) <= room:
        room -= len(records[end])
        end += 1
    return end


def frames(session, sender, to, first, records, clocks, check):
    """The frames of records that are numbered from `first` on, with their clocks. `check` is that of the records before them."""
    at = 0
    while at < len(records):
        end = fitting(records, at)
        check = crc32c(b"".join(records[at:end]), check)
        yield frame(session, sender, to, records[at:end], first + end - 1, clocks[end - 1], check)
        at = end


def count_of(frame):
    """The number of the last record up to which a frame speaks."""
    return int.from_bytes(frame[COUNT], "big")


def head_of(frame):
    """What all frames have in common that a node sends to one seat in one poll."""
    return frame[: HEAD.size + CHECKSUM.size]


def closing(session, sender, to, count, check):
    """A frame that says that a seat has so many records, which have that check, and never more."""
    return frame(session, sender, to, [], count, LAST_CLOCK, check)
