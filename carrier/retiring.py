"""Seats that were left for good: the founder signs up to where their edits go, and nobody waits for them any more.

What the founder signs is a seat that has signed the same head itself: so whoever misses records up to there can be given them.
"""

import base64
import struct
import time
from dataclasses import dataclass
from pathlib import Path

from cryptography.exceptions import InvalidSignature
from cryptography.hazmat.primitives.asymmetric.ed25519 import Ed25519PublicKey

from carrier.broker import topic
from carrier.files import BadFile, Founder
from carrier.keys import Keys
from carrier.roster import SEATS

# Magic and version, the first bytes of the roster's digest, seat, count, digest of the records.
BODY = struct.Struct(">5s4sBH32s")
# What the founder signs of a seat, and what a seat signs of itself.
MAGIC, OWN_MAGIC = b"GDOX\x01", b"GDOX\x02"
SIZE = BODY.size + 64
# How often the founder's wishes are looked for.
LOOK = 1.0
# So many seconds a seat that leaves has to tell all what it drew last.
TELLS = 2.0
OWN = (
    "this seat was retired by the founder: nobody hears it any more, and nothing is sent or taken. What is drawn here stays on this "
    "machine. Ask for a link to another seat"
)
LEFT = (
    "this seat was retired by itself: nobody hears it any more, and nothing is sent or taken. What is drawn here stays on this "
    "machine. Ask for a link to another seat"
)
BEYOND = "seat {seat} was retired, and {count} of its edits are known here alone: this drawing differs from the others' in them"


@dataclass(frozen=True)
class Retired:
    """A seat that has so many records, with this digest, and never more."""

    seat: int
    count: int
    digest: bytes
    data: bytes

    @property
    def is_by_itself(self):
        return self.data.startswith(OWN_MAGIC)


def signed_text(roster, body):
    word = b"retired" if body.startswith(MAGIC) else b"leaving"
    return b"groupdesign " + word + roster.digest + body


def retire(roster, key, seat, count, digest, magic=MAGIC):
    """The bytes that the founder signs, or with `OWN_MAGIC` the seat itself, with its key."""
    body = BODY.pack(magic, roster.digest[:4], seat, count, digest)
    return body + key.sign(signed_text(roster, body))


def retired_of(roster, data):
    """What bytes say that the founder has signed, or the seat of itself, or nothing where they are none of that."""
    if len(data) != SIZE:
        return None
    body = bytes(data[: BODY.size])
    magic, name, seat, count, digest = BODY.unpack(body)
    if magic not in (MAGIC, OWN_MAGIC) or name != roster.digest[:4] or not 1 <= seat <= SEATS:
        return None
    try:
        key = Ed25519PublicKey.from_public_bytes(roster.founder if magic == MAGIC else roster.signing_key(seat))
        key.verify(bytes(data[BODY.size :]), signed_text(roster, body))
    except (InvalidSignature, ValueError):
        return None
    return Retired(seat, count, digest, bytes(data))


def leaving_file(journal):
    """The file that says that the seat beside a journal leaves for good."""
    return Path(f"{journal}.leaving")


class Retiring:
    """The retired seats of a carrier's session."""

    def __init__(self, carrier, standing, journal):
        self.carrier, self.standing, self.journal, self.roster = carrier, standing, journal, carrier.seat.roster
        self.gone, self.shown, self.looked_at, self.is_founder = {}, set(), float("-inf"), Founder.path(journal).exists()
        carrier.keepers["retired"] = lambda words, data: self.take(data)
        carrier.keepers["left"] = lambda words, data: self.take(data)
        carrier.changes.append(lambda up, fault: self.publish())
        standing.looks.append(self.look)

    @property
    def is_own(self):
        """Whether the own seat was retired."""
        return self.carrier.seat.seat in self.gone

    def take(self, data):
        """Takes what the broker keeps: statements one behind the other. What neither the founder nor the seat itself has signed is
        passed over."""
        for at in range(0, len(data), SIZE):
            found = retired_of(self.roster, data[at : at + SIZE])
            if found and found.seat not in self.gone:
                self.gone[found.seat] = found
                self.carrier.bar(found.seat)

    def ready(self):
        """The retired seats all of whose records are here, with how many these are."""
        held = {seat: self.standing.feeds[seat].count for seat in self.gone}
        return {seat: held[seat] for seat, said in self.gone.items() if held[seat] >= said.count}

    def look(self):
        """Does what the founder has wished for since, and says what doesn't fit."""
        now = time.monotonic()
        if now - self.looked_at >= LOOK:
            self.looked_at = now
            if self.is_founder:
                self.wish()
            self.leave()
        for seat, held in self.ready().items():
            if held > self.gone[seat].count and seat not in self.shown:
                self.shown.add(seat)
                self.carrier.say(BEYOND.format(seat=seat, count=held - self.gone[seat].count))
        if self.is_own and "own" not in self.shown:
            self.shown.add("own")
            self.carrier.runs = lambda: False
            self.carrier.say(self.why)

    def wish(self):
        """Retires the seats that the founder's file names, as soon as all is here that they have signed."""
        try:
            founder = Founder.read(self.journal)
        except (BadFile, OSError):
            return
        before = len(self.gone)
        for text in founder.retired.values():
            self.take(base64.b64decode(text) if text else b"")
        for seat in [seat for seat, text in founder.retired.items() if not text]:
            head, feed = self.standing.heads.proved.get(seat), self.standing.feeds[seat]
            count = head.count if head else 0
            if feed.count == count and seat not in self.standing.heads.missing():
                data = retire(self.roster, Keys(founder.seed).signing, seat, count, feed.digest(count))
                Founder.note_retired(self.journal, seat, base64.b64encode(data).decode())
                self.take(data)
        if len(self.gone) > before:
            self.publish()

    @property
    def why(self):
        """Why the own seat is heard no more."""
        return LEFT if self.gone[self.carrier.seat.seat].is_by_itself else OWN

    def leave(self):
        """Retires the own seat, where that is wished for, as soon as it has signed all that it drew."""
        seat, standing = self.carrier.seat.seat, self.standing
        count = standing.feeds[seat].count
        is_told = standing.told == count and time.monotonic() - standing.told_at >= TELLS
        if self.is_own or not is_told or not self.carrier.runs() or not leaving_file(self.journal).exists():
            return
        data = retire(self.roster, self.carrier.keys.signing, seat, count, standing.feeds[seat].digest(count), OWN_MAGIC)
        # What the broker keeps comes back, and says at the next start that the seat has left.
        if self.carrier.broker.publish(topic(self.roster.session, "left", seat), data, keep=True):
            self.take(data)

    def publish(self):
        """Leaves all of the founder's statements with the broker."""
        signed = [said.data for _, said in sorted(self.gone.items()) if not said.is_by_itself]
        if self.is_founder and signed:
            data = b"".join(signed)
            self.carrier.broker.publish(topic(self.roster.session, "retired"), data, keep=True)
