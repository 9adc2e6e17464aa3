"""What a seat leaves with the broker for those who only look on: its signed records, in pieces, sealed for them.

Nobody does so until the founder has made a link for them: then the founder's statement with their key lies at the broker.
"""

import struct
import time
from dataclasses import dataclass

from cryptography.exceptions import InvalidSignature
from cryptography.hazmat.primitives.asymmetric.ed25519 import Ed25519PublicKey

from carrier.broker import topic
from carrier.feeds import FAULTS, records_of
from carrier.files import BadFile, Founder
from carrier.heads import SIZE, head_of, signed
from carrier.keys import KEY, Keys, public_bytes
from carrier.sealing import WATCH, WATCHERS

# Magic and version, the first bytes of the roster's digest, the key of those who look on.
BODY = struct.Struct(f">5s4s{KEY}s")
MAGIC = b"GDOW\x01"
STATEMENT = BODY.size + 64
# Behind the head in a piece: the number of its first record, and the length of the name.
REST = struct.Struct(">HB")
# So many bytes of records a piece has at most, but for a single longer one.
MOST_PIECE = 8_000
# How often the founder's wish is looked for, and so many pieces are left at one look.
LOOK, AT_ONCE = 1.0, 16


def signed_text(roster, body):
    return b"groupdesign watched" + roster.digest + body


def statement(roster, founder, key):
    """The bytes with which the founder says what the public key for agreeing is of those who look on."""
    body = BODY.pack(MAGIC, roster.digest[:4], key)
    return body + founder.sign(signed_text(roster, body))


def key_of(roster, data):
    """The public key in a statement, or nothing where the founder hasn't signed it."""
    if len(data) != STATEMENT:
        return None
    body = bytes(data[: BODY.size])
    magic, name, key = BODY.unpack(body)
    if magic != MAGIC or name != roster.digest[:4]:
        return None
    try:
        Ed25519PublicKey.from_public_bytes(roster.founder).verify(bytes(data[BODY.size :]), signed_text(roster, body))
    except (InvalidSignature, ValueError):
        return None
    return key


@dataclass(frozen=True)
class Piece:
    """Records of one seat, the first of which has the number `first`, up to the last one of a head, and the seat's name."""

    head: object
    first: int
    name: str
    records: list

    @property
    def data(self):
        name = self.name.encode()
        return self.head.data + REST.pack(self.first, len(name)) + name + b"".join(self.records)


def piece_of(roster, data):
    """The piece that bytes are, or nothing where they are none."""
    head = head_of(roster, data[:SIZE])
    if head is None or len(data) < SIZE + REST.size:
        return None
    first, length = REST.unpack_from(data, SIZE)
    start = SIZE + REST.size + length
    try:
        records = list(records_of(data[start:]))
    except FAULTS:
        return None
    numbers = [(event["site"], event["seq"]) for event, _ in records]
    if not records or numbers != [(head.seat, number) for number in range(first, head.count + 1)]:
        return None
    name = data[start - length : start].decode(errors="replace")
    return Piece(head, first, name, [record for _, record in records])


class Ends:
    """Where the pieces of a feed end: the number of the last record of each, but of the last piece, which grows."""

    def __init__(self, feed):
        self.feed, self.ends, self.looked, self.size = feed, [], 0, 0

    def up_to(self, count):
        """The numbers of the first and the last record of each piece, where there are so many records."""
        for place in range(self.looked, count):
            length = self.feed.lengths[place]
            if self.size and self.size + length > MOST_PIECE:
                self.ends.append(place)
                self.size = 0
            self.size += length
        self.looked = max(self.looked, count)
        ends = [end for end in self.ends if end < count] + [count] if count else []
        return [(before + 1, end) for before, end in zip([0, *ends], ends)]


class Watched:
    """What one carrier leaves for those who only look on."""

    def __init__(self, carrier, standing, journal):
        """It is made before the connection, since what the broker keeps comes but once."""
        self.carrier, self.standing, self.journal = carrier, standing, journal
        # Gives what the person at the seat is called.
        self.name = lambda: ""
        self.roster, self.seat, self.feed = carrier.seat.roster, carrier.seat.seat, standing.feeds[carrier.seat.seat]
        # The founder's statement and the key in it; what was left since the connection was made, by the number of the piece.
        self.said, self.key, self.left, self.ends = b"", None, {}, Ends(self.feed)
        self.is_founder, self.can_make, self.looked_at = Founder.path(journal).exists(), False, float("-inf")
        carrier.keepers["watched"] = lambda words, data: self.take(data)
        carrier.changes.append(self.change)
        standing.looks.append(self.look)

    def take(self, data):
        """Takes what the broker keeps."""
        key = None if self.key else key_of(self.roster, data)
        if key is not None:
            try:
                self.carrier.seals.seal_for_watchers(self.roster, self.carrier.keys, key)
            except ValueError:
                return
            self.said, self.key = bytes(data), key

    def change(self, up, fault):
        """The connection was made or lost: the broker may have lost what was left with it."""
        self.left.clear()
        self.publish()

    def publish(self):
        if self.is_founder and self.said:
            self.carrier.broker.publish(topic(self.roster.session, "watched"), self.said, keep=True)

    def look(self):
        """Leaves what is new. A seat that may say nothing leaves nothing."""
        now = time.monotonic()
        if self.is_founder and self.key is None and now - self.looked_at >= LOOK:
            self.looked_at = now
            self.wish()
        if self.key is not None and self.carrier.broker.up and self.carrier.runs() and self.standing.told:
            self.leave(self.ends.up_to(self.standing.told))

    def wish(self):
        """Says what key those who look on have, where the founder has made a link for them."""
        try:
            founder = Founder.read(self.journal)
        except (BadFile, OSError):
            return
        self.can_make = bool(founder.watch)
        if founder.is_watched:
            key = public_bytes(Keys(founder.watch).exchange)
            self.take(statement(self.roster, Keys(founder.seed).signing, key))
            self.publish()

    def leave(self, pieces):
        """Leaves some of the pieces that the broker hasn't, the last one first: who looks on sees what is new."""
        name, last = self.name(), len(pieces) - 1
        wanted = {number: (end, name if number == last else None) for number, (_, end) in enumerate(pieces)}
        due = [number for number in reversed(wanted) if self.left.get(number) != wanted[number]]
        for number in due[:AT_ONCE]:
            first, end = pieces[number]
            if not self.leave_piece(number, first, end, name):
                return
            self.left[number] = wanted[number]

    def leave_piece(self, number, first, end, name):
        """Leaves one piece, and says whether that went."""
        try:
            records = self.standing.feeds.records(self.seat, first, end)
        except OSError:
            # The journal can't be read now: the next look may do better.
            return False
        data = signed(self.roster, self.carrier.keys.signing, self.seat, end, 0, self.feed.digest(end))
        content = Piece(head_of(self.roster, data), first, name, records).data
        sealed = self.carrier.seals.seal(WATCHERS, WATCH, content)
        return self.carrier.broker.publish(topic(self.roster.session, "watch", self.seat, number), sealed, keep=True)
