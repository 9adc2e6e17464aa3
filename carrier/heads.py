"""Signed heads: how many records a seat has, and the digest of them. Who has a head can judge records that anybody hands on."""

import struct
from dataclasses import dataclass

from cryptography.exceptions import InvalidSignature
from cryptography.hazmat.primitives.asymmetric.ed25519 import Ed25519PublicKey

from carrier.roster import SEATS

# Magic and version, the first bytes of the roster's digest, seat, count, clock, digest.
BODY = struct.Struct(">5s4sBHHI32s")
MAGIC = b"GDOH\x01"
SIGNATURE = 64
SIZE = BODY.size + SIGNATURE


@dataclass(frozen=True)
class Head:
    """`data` are its bytes as they were signed and sent."""

    seat: int
    count: int
    clock: int
    digest: bytes
    data: bytes


def signed(roster, key, seat, count, clock, digest):
    """The bytes of a head. `key` is the seat's for signatures."""
    body = BODY.pack(MAGIC, roster.digest[:4], seat, count, clock >> 32, clock & 0xFFFFFFFF, digest)
    return body + key.sign(signed_text(roster, body))


def signed_text(roster, body):
    """What is signed: the body, bound to the whole roster."""
    return b"groupdesign head" + roster.digest + body


def head_of(roster, data):
    """The head that bytes are, or nothing where they are none that its seat has signed."""
    if len(data) != SIZE:
        return None
    body = bytes(data[: BODY.size])
    magic, name, seat, count, high, low, digest = BODY.unpack(body)
    if magic != MAGIC or name != roster.digest[:4] or not 1 <= seat <= SEATS:
        return None
    try:
        key = Ed25519PublicKey.from_public_bytes(roster.signing_key(seat))
        key.verify(bytes(data[BODY.size :]), signed_text(roster, body))
    except (InvalidSignature, ValueError):
        return None
    return Head(seat, count, (high << 32) | low, digest, bytes(data))


class Heads:
    """What is known of the heads of all seats, next to what the own journal has."""

    def __init__(self, roster, feeds):
        """`newest` are the heads of most records, and `proved` the newest ones whose records are all here, by seats. `liars` are
        seats of which two heads, or a head and records that they sent, don't agree."""
        self.roster, self.feeds = roster, feeds
        self.newest, self.proved, self.liars = {}, {}, set()

    def take(self, data):
        """Takes the bytes of a head, and gives the head, or nothing where they are none."""
        known = [each for each in self.newest.values() if each.data == data]
        head = known[0] if known else head_of(self.roster, data)
        if head and not known:
            before = self.newest.get(head.seat)
            if before and before.count == head.count and before.digest != head.digest:
                self.liars.add(head.seat)
            if before is None or head.count > before.count:
                self.newest[head.seat] = head
            self.judge(head)
        return head

    def judge(self, head):
        """Holds a head against the records that are here."""
        feed = self.feeds[head.seat]
        if head.count > feed.count:
            return
        if feed.digest(head.count) != head.digest:
            self.liars.add(head.seat)
        elif head.seat not in self.proved or head.count > self.proved[head.seat].count:
            self.proved[head.seat] = head

    def grow(self, seats):
        """Records of some seats came to the journal."""
        for seat in seats:
            if seat in self.newest:
                self.judge(self.newest[seat])

    def missing(self):
        """The seats of which not all records are here that they have signed."""
        return [seat for seat, head in self.newest.items() if head.count > self.feeds[seat].count and seat not in self.liars]
