"""Keys and seals, against vectors of others: X25519 of RFC 7748 (6.1), HKDF of RFC 5869 (A.1)."""

import hashlib
import hmac
import types
import unittest

from cryptography.hazmat.primitives.asymmetric.x25519 import X25519PrivateKey
from cryptography.hazmat.primitives.ciphers.aead import AESGCM

from carrier.keys import Keys, derived
from carrier.sealing import FRAME, MOST, PRESENCE, WANT, Seals
from carrier.tests.rosters import SEEDS, roster_with

# RFC 7748, 6.1: the private key of one, the public key of the other, and what they share.
ALICE = bytes.fromhex("77076d0a7318a57d3c16c17251b26645df4c2f87ebc0992ab177fba51db92c2a")
BOB = bytes.fromhex("de9edb7d7b7dc1b4d35b61c2ece435373f8343c85b78674dadfc7e146f882b4f")
SHARED = bytes.fromhex("4a5d9d5ba4ce2de1728e3bf480350f25e07e21c947d19e3376f09b3c1e161742")
FIRST = b"GDOF\x03 a frame"


def hkdf(secret, salt, info):
    """The first 32 bytes of RFC 5869 as it stands there."""
    middle = hmac.new(salt, secret, hashlib.sha256).digest()
    return hmac.new(middle, info + b"\x01", hashlib.sha256).digest()


class KeysOfASeat(unittest.TestCase):
    def test_derived_is_rfc_5869(self):
        salt, info = bytes(range(13)), bytes(range(0xF0, 0xFA))
        made = derived(bytes([0x0B]) * 22, info, salt, 42).hex()
        self.assertEqual(made, "3cb25f25faacd57a90434f64d0362f2a2d2d0a90cf1a5a4c5db02d56ecc4c5bf34007208d5b887185865")

    def test_a_secret_makes_the_same_keys_again_and_another_makes_others(self):
        one, again, other = Keys(SEEDS[1]), Keys(SEEDS[1]), Keys(SEEDS[2])
        self.assertEqual((one.public, one.password), (again.public, again.password))
        parts = {one.public[:32], one.public[32:], other.public[:32], other.public[32:], one.password, other.password}
        self.assertEqual(len(parts), 6)
        self.assertEqual([len(one.public), len(one.password)], [64, 32])
        for bad in (b"", bytes(31), bytes(33)):
            with self.assertRaises(ValueError):
                Keys(bad)


class Sealed(unittest.TestCase):
    def setUp(self):
        self.roster = roster_with()
        self.seals = {seat: Seals(self.roster, seat, Keys(SEEDS[seat])) for seat in (1, 2, 3)}

    def test_the_bytes_are_those_that_the_page_says(self):
        """Seat 1 has Alice's key and seat 2 Bob's: what is sealed opens with a key made of the secret in the RFC."""
        seats = list(self.roster.seats)
        seats[1] = BOB + seats[1][32:]
        roster = roster_with(seats=tuple(seats))
        keys = types.SimpleNamespace(exchange=X25519PrivateKey.from_private_bytes(ALICE))
        sealed = Seals(roster, 1, keys).seal(2, WANT, b"content")
        digest = hashlib.sha256(roster.data).digest()
        self.assertEqual(sealed[:12], b"GDOE\x01\x02" + digest[:4] + b"\x01\x02")
        key = hkdf(SHARED, roster.session, b"groupdesign seal" + digest + b"\x01\x02")
        self.assertEqual(AESGCM(key).decrypt(sealed[12:24], sealed[24:], sealed[:12]), b"content")

    def test_who_it_is_for_opens_it_and_nobody_else(self):
        for kind, content in ((FRAME, FIRST), (PRESENCE, b""), (WANT, bytes(MOST))):
            sealed = self.seals[1].seal(2, kind, content)
            self.assertEqual(len(sealed), len(content) + 40)
            self.assertEqual(self.seals[2].opened(1, sealed), (kind, content))
            for seat, sender in ((2, 3), (2, 2), (2, 17), (2, 0), (3, 1), (3, 2), (1, 2), (1, 1)):
                self.assertIsNone(self.seals[seat].opened(sender, sealed))
        with self.assertRaises(ValueError):
            self.seals[1].seal(2, FRAME, bytes(MOST + 1))

    def test_each_change_of_a_bit_and_each_cut_is_refused(self):
        sealed = self.seals[1].seal(2, FRAME, FIRST)
        for place in range(len(sealed)):
            for bit in range(8):
                changed = bytearray(sealed)
                changed[place] ^= 1 << bit
                self.assertIsNone(self.seals[2].opened(1, bytes(changed)), (place, bit))
            self.assertIsNone(self.seals[2].opened(1, sealed[:place]))
        self.assertIsNone(self.seals[2].opened(1, sealed + b"\0"))

    def test_nothing_of_it_is_in_clear_and_no_two_are_the_same(self):
        one, two = (self.seals[1].seal(2, FRAME, FIRST) for _ in range(2))
        self.assertNotEqual(one[12:24], two[12:24])
        self.assertNotIn(FIRST[:4], one)

    def test_another_session_or_roster_with_the_same_keys_is_another(self):
        sealed = self.seals[1].seal(2, FRAME, FIRST)
        seats = list(self.roster.seats)
        seats[8] = Keys(bytes([200]) * 32).public
        for other in (roster_with(session=bytes(16)), roster_with(name="Elm"), roster_with(seats=tuple(seats))):
            reader = Seals(other, 2, Keys(SEEDS[2]))
            self.assertIsNone(reader.opened(1, sealed))
            # Also where the roster's first bytes are made to be the same.
            reader.id = self.roster.digest[:4]
            self.assertIsNone(reader.opened(1, sealed))

    def test_a_key_that_agrees_with_nobody_is_refused(self):
        seats = list(self.roster.seats)
        seats[4] = bytes(32) + seats[4][32:]
        with self.assertRaises(ValueError):
            Seals(roster_with(seats=tuple(seats)), 1, Keys(SEEDS[1]))
