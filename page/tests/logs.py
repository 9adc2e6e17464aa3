"""Logs for tests, written as docs/FORMATS.md, sections 1 and 6, has them."""

import struct

from carrier.frames import CHECKSUM, crc32c

# The byte of the newest version.
NEWEST = 7
KINDS = {"rect": 1, "ellipse": 2, "line": 3, "text": 4}


def header(session=7, site=1, sites=2, version=NEWEST):
    return b"GDOL" + struct.pack(">BIBB", version, session, site, sites)


def stamp(name):
    clock, site = (int(part) for part in name.split("."))
    return clock.to_bytes(6, "big") + bytes([site])


def record(name, number, tag, body):
    """The record of an event: its stamp, its number among those of its site, its tag and its body."""
    return stamp(name) + struct.pack(">HB", number, tag) + body


def create(name, number, kind, x, y, w, h, label=""):
    text = label.encode()
    return record(name, number, 1, struct.pack(">Biiii", KINDS[kind], x, y, w, h) + bytes([len(text)]) + text)


def log(head, *records, gate=b"\x00"):
    """A log of records, with its closing gate. In version three the check of its site's records stands behind each."""
    checks, gated = {}, []
    for each in records:
        site = each[6]
        checks[site] = crc32c(each, checks.get(site, 0))
        gated.append(b"\xc3" + each + (CHECKSUM.pack(checks[site]) if head[4] == NEWEST else b""))
    return head + b"".join(gated) + gate


def large(count, session=7, site=1, sites=2, columns=100, step=30, size=20):
    """A log in which the first site made many rects in rows, each with the last digit of its number as its label."""
    places = [(index % columns * step, index // columns * step) for index in range(count)]
    made = [
        create(f"{index + 1}.1", index + 1, "rect", x, y, size, size, str(index % 10)) for index, (x, y) in enumerate(places)
    ]
    return log(header(session, site, sites), *made)
