"""Bytes of logs, as docs/FORMATS.md has them."""

import struct

from carrier.frames import CHECKSUM, crc32c


def stamp(clock, site):
    return clock.to_bytes(6, "big") + bytes([site])


def record(clock, site, number, tag, body):
    return stamp(clock, site) + number.to_bytes(2, "big") + bytes([tag]) + body


def create(clock, site, number, label=b"", place=(0, 0)):
    return record(clock, site, number, 1, struct.pack(">Biiii", 1, *place, 10, 10) + bytes([len(label)]) + label)


def move(clock, site, number, target, place=(1, 2)):
    return record(clock, site, number, 3, stamp(*target) + struct.pack(">ii", *place))


def disband(clock, site, number, target, member):
    """What takes a group away, and its one member out of it."""
    return record(clock, site, number, 12, stamp(*target) + b"\1" + stamp(*member) + b"\0")


def log(records, session=7, site=1, sites=16):
    gated, checks = b"", {}
    for each in records:
        checks[each[6]] = crc32c(each, checks.get(each[6], 0))
        gated += b"\xc3" + each + CHECKSUM.pack(checks[each[6]])
    return b"GDOL\x07" + session.to_bytes(4, "big") + bytes([site, sites]) + gated + b"\0"
