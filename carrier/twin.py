"""Whether a seat is in use at two places at once: who connects says so to the same seat, and who is there already answers."""

import hmac
import os

from carrier.keys import derived

HELLO, HERE = b"\1", b"\2"
ID, MAC = 8, 32
NOBODY = bytes(ID)


class Twin:
    """One run of a seat, among all that have its secret. A message is a kind, the id of who sends it, the id of who is answered or
    zeros, and HMAC-SHA256 of that."""

    def __init__(self, seed):
        self.key, self.id = derived(seed, b"groupdesign twin"), os.urandom(ID)

    def message(self, kind, other=NOBODY):
        body = kind + self.id + other
        return body + hmac.digest(self.key, body, "sha256")

    def hello(self):
        """What is said at each connection."""
        return self.message(HELLO)

    def take(self, data):
        """What a message means: `own` where it is the own hello, `later` where another run is there already and answers, or the
        bytes of the answer to another run that comes. Nothing where it is none of that."""
        body, mac = data[:-MAC], data[-MAC:]
        if len(data) != 1 + 2 * ID + MAC or not hmac.compare_digest(mac, hmac.digest(self.key, body, "sha256")):
            return None
        kind, sender, other = body[:1], body[1 : 1 + ID], body[1 + ID :]
        if sender == self.id:
            return "own" if kind == HELLO else None
        if kind == HELLO:
            return self.message(HERE, sender)
        return "later" if other == self.id else None
