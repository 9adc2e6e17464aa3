"""The keys of one seat, all made from one secret of 32 bytes."""

import base64
import os

from cryptography.hazmat.primitives.asymmetric.ed25519 import Ed25519PrivateKey
from cryptography.hazmat.primitives.asymmetric.x25519 import X25519PrivateKey
from cryptography.hazmat.primitives.hashes import SHA256
from cryptography.hazmat.primitives.kdf.hkdf import HKDF
from cryptography.hazmat.primitives.serialization import Encoding, PublicFormat

SEED = KEY = 32


def new_seed():
    """A secret of 32 random bytes."""
    return os.urandom(SEED)


def derived(secret, info, salt=None, length=KEY):
    """So many bytes by HKDF-SHA256 (RFC 5869) from a secret."""
    return HKDF(algorithm=SHA256(), length=length, salt=salt, info=info).derive(secret)


def public_bytes(key):
    """The 32 bytes of the public half of a key."""
    return key.public_key().public_bytes(Encoding.Raw, PublicFormat.Raw)


class Keys:
    """What one secret stands for: a key to agree on others with (X25519), one to sign with (Ed25519), and a password."""

    def __init__(self, seed):
        """`seed` has 32 bytes, else `ValueError`."""
        if len(seed) != SEED:
            raise ValueError(f"a secret has {SEED} bytes")
        self.exchange = X25519PrivateKey.from_private_bytes(derived(seed, b"groupdesign exchange"))
        self.signing = Ed25519PrivateKey.from_private_bytes(derived(seed, b"groupdesign signing"))
        self.password = base64.urlsafe_b64encode(derived(seed, b"groupdesign password", length=24)).decode()

    @property
    def public(self):
        """Both public keys, 64 bytes: the one for agreeing, then the one for signatures."""
        return public_bytes(self.exchange) + public_bytes(self.signing)
