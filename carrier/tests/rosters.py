"""A roster of 16 seats with known secrets."""

import functools

from carrier.keys import Keys, public_bytes
from carrier.roster import SEATS, Roster

SESSION = bytes(range(16))
SEEDS = {seat: bytes([seat]) * 32 for seat in range(1, SEATS + 1)}
FOUNDER = bytes([99]) * 32
WATCH = bytes([98]) * 32


@functools.cache
def roster_with(name="Oak", session=SESSION, seats=None):
    """The roster of the known secrets, or of other public keys."""
    publics = seats or tuple(Keys(SEEDS[seat]).public for seat in SEEDS)
    return Roster(session, name, public_bytes(Keys(FOUNDER).signing), publics)
