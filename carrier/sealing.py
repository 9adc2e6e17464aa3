"""Seals: what one seat says to another is for that one alone, and surely from the seat that it names.

A sealed message (carrier/README.md, 3) is a head of 12 bytes, a nonce of 12 random bytes, and the content under AES-256-GCM with
the head as its further data. Each direction of each pair of seats has a key of its own, so nothing of one passes for another's.
"""

import os
import struct

from cryptography.exceptions import InvalidTag
from cryptography.hazmat.primitives.asymmetric.x25519 import X25519PublicKey
from cryptography.hazmat.primitives.ciphers.aead import AESGCM

from carrier.keys import derived
from carrier.roster import SEATS

# Magic and version, what the content is, the first bytes of the roster's digest, from, to.
HEAD = struct.Struct(">5sB4sBB")
MAGIC = b"GDOE\x01"
NONCE, TAG = 12, 16
# What a content is.
FRAME, WANT, GIVE, PRESENCE, WATCH = 1, 2, 3, 4, 5
KINDS = (FRAME, WANT, GIVE, PRESENCE, WATCH)
# Who only looks on has this number in the place of a seat's.
WATCHERS = 0
# So many bytes a content has at most.
MOST = 65_000


class Seals:
    """The seals of one seat of a roster, or of those who only look on."""

    def __init__(self, roster, seat, keys):
        """`keys` are those of that seat. Raises `ValueError` where a key of the roster is none to agree with."""
        self.seat, self.id = seat, roster.digest[:4]
        self.sending, self.receiving = {}, {}
        for other in range(1, SEATS + 1):
            if other != seat:
                shared = keys.exchange.exchange(X25519PublicKey.from_public_bytes(roster.exchange_key(other)))
                self.sending[other] = self.cipher(shared, roster, seat, other)
                self.receiving[other] = self.cipher(shared, roster, other, seat)

    def seal_for_watchers(self, roster, keys, key):
        """From now on seals for those who only look on, whose public key for agreeing is given. Raises `ValueError` where it is
        none to agree with."""
        shared = keys.exchange.exchange(X25519PublicKey.from_public_bytes(key))
        self.sending[WATCHERS] = self.cipher(shared, roster, self.seat, WATCHERS)

    @staticmethod
    def cipher(shared, roster, sender, receiver):
        """The cipher of one direction, bound to the session, the roster and both seats."""
        info = b"groupdesign seal" + roster.digest + bytes([sender, receiver])
        return AESGCM(derived(shared, info, salt=roster.session))

    def seal(self, to, kind, content):
        """A content sealed for another seat. Its length is at most `MOST`, else `ValueError`."""
        if len(content) > MOST:
            raise ValueError("a content is too long")
        head, nonce = HEAD.pack(MAGIC, kind, self.id, self.seat, to), os.urandom(NONCE)
        return head + nonce + self.sending[to].encrypt(nonce, content, head)

    def opened(self, sender, data):
        """The kind and the content of what a seat sealed for this one, or nothing where it isn't that."""
        if not HEAD.size + NONCE + TAG <= len(data) <= HEAD.size + NONCE + TAG + MOST or sender not in self.receiving:
            return None
        head, kind = bytes(data[: HEAD.size]), data[len(MAGIC)]
        if kind not in KINDS or head != HEAD.pack(MAGIC, kind, self.id, sender, self.seat):
            return None
        nonce, rest = data[HEAD.size : HEAD.size + NONCE], data[HEAD.size + NONCE :]
        try:
            return kind, self.receiving[sender].decrypt(bytes(nonce), bytes(rest), head)
        except InvalidTag:
            return None
