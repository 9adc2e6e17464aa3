"""A roster: what all seats of a session know of one another. It never changes, and its digest names it."""

import hashlib
from dataclasses import dataclass
from functools import cached_property

from page.names import BadName, name_of

SEATS = 16
SESSION, KEY, PAIR = 16, 32, 64
MAGIC = b"GDOR\x01"


class BadRoster(Exception):
    """Bytes are no roster, or a name is none. The text says why."""


@dataclass(frozen=True)
class Roster:
    """The session's 16 random bytes, its name, the founder's key for signatures, and for each seat from 1 its key for
    agreeing and its key for signatures, 64 bytes together."""

    session: bytes
    name: str
    founder: bytes
    seats: tuple

    def __post_init__(self):
        try:
            good = name_of(self.name) == self.name != ""
        except BadName:
            good = False
        if not good:
            raise BadRoster("a session has a name of 1 to 64 bytes in one line")
        sizes = [len(self.session), len(self.founder), len(self.seats), *map(len, self.seats)]
        if sizes != [SESSION, KEY, SEATS] + [PAIR] * SEATS or len(set(self.seats)) != SEATS:
            raise BadRoster("a roster has 16 seats with keys of their own")

    @cached_property
    def data(self):
        """The roster as bytes (carrier/README.md)."""
        name = self.name.encode()
        return MAGIC + self.session + bytes([len(name)]) + name + self.founder + b"".join(self.seats)

    @cached_property
    def digest(self):
        """The SHA-256 of its bytes, which a link and each seal name."""
        return hashlib.sha256(self.data).digest()

    @property
    def number(self):
        """The number of the session that the nodes use."""
        return int.from_bytes(self.digest[:4], "big")

    def exchange_key(self, seat):
        """The public key of a seat for agreeing."""
        return self.seats[seat - 1][:KEY]

    def signing_key(self, seat):
        """The public key of a seat for signatures."""
        return self.seats[seat - 1][KEY:]


def roster_of(data):
    """The roster that bytes are. Raises `BadRoster`."""
    place = len(MAGIC) + SESSION
    if data[: len(MAGIC)] != MAGIC or len(data) <= place:
        raise BadRoster("these bytes are no roster")
    session, length = data[len(MAGIC) : place], data[place]
    name, keys = data[place + 1 : place + 1 + length], data[place + 1 + length :]
    if len(keys) != KEY + PAIR * SEATS:
        raise BadRoster("a roster has another length")
    try:
        text = name.decode()
    except UnicodeDecodeError:
        raise BadRoster("the name in a roster is no text") from None
    seats = tuple(keys[at : at + PAIR] for at in range(KEY, len(keys), PAIR))
    return Roster(session, text, keys[:KEY], seats)
