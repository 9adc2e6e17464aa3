"""How a broker shows that it is the right one: its certificate, as a link names it."""

import hashlib
import ssl
from dataclasses import dataclass

from cryptography import x509
from cryptography.hazmat.primitives.serialization import Encoding

# Any authority that this machine trusts; the one certificate with a digest; an authority whose certificate the link holds.
SYSTEM, EXACT, AUTHORITY = 0, 1, 2
PATIENCE = 15


class BadTrust(Exception):
    """A broker isn't the one that a link names. The text says why, and what to do."""


@dataclass(frozen=True)
class Trust:
    """`data` is nothing, the SHA-256 of a certificate, or an authority's certificate in DER, by the kind."""

    kind: int
    data: bytes = b""

    def __post_init__(self):
        good = {SYSTEM: not self.data, EXACT: len(self.data) == 32, AUTHORITY: 0 < len(self.data) < 4096}
        if not good.get(self.kind, False):
            raise BadTrust("a link names no certificate of a broker")


def exact(certificate):
    """Trust in one certificate, given in DER."""
    return Trust(EXACT, hashlib.sha256(certificate).digest())


def authority(pem):
    """Trust in the authority of a file in PEM. Raises `BadTrust`."""
    try:
        if pem.count("BEGIN CERTIFICATE") != 1:
            raise ValueError
        return Trust(AUTHORITY, x509.load_pem_x509_certificate(pem.encode()).public_bytes(Encoding.DER))
    except ValueError:
        raise BadTrust("the file behind --ca has no certificate in PEM, or more than one") from None


def fetched(trust, host, port):
    """The certificate in DER that connections to a broker are judged by, or nothing for `SYSTEM`. For `EXACT` it is asked of the
    broker, and has the digest. Raises `BadTrust`, and `OSError` where the broker isn't reached. It waits for up to 15 s."""
    if trust.kind != EXACT:
        return trust.data
    shown = ssl.PEM_cert_to_DER_cert(ssl.get_server_certificate((host, port), timeout=PATIENCE))
    if hashlib.sha256(shown).digest() != trust.data:
        raise BadTrust(
            f"the broker at {host}:{port} has another certificate than the one that the link names: "
            "somebody is in between, or the session was founded anew. Ask for a new link"
        )
    return shown


def context(trust, certificate):
    """How TLS is spoken to a broker. `certificate` is what `fetched` gave."""
    made = ssl.create_default_context(cadata=certificate or None)
    made.minimum_version = ssl.TLSVersion.TLSv1_2
    if trust.kind == EXACT:
        # The one certificate is the right one, whatever name it has.
        made.check_hostname = False
        # Nor does it matter what an authority would have put into it.
        made.verify_flags &= ~ssl.VERIFY_X509_STRICT
    if trust.kind != SYSTEM:
        # An authority in the middle of a chain will do.
        made.verify_flags |= ssl.VERIFY_X509_PARTIAL_CHAIN
    return made


def meaning_of(fault):
    """What a fault of a connection means, in plain words."""
    if isinstance(fault, ssl.SSLCertVerificationError):
        if fault.verify_code == 10:
            return "the broker's certificate has expired: who runs the broker makes a new one"
        return f"the broker's certificate isn't the one that the link names ({fault.verify_message})"
    if isinstance(fault, ssl.SSLError):
        return f"the broker speaks no TLS as it should ({fault.reason or fault})"
    return getattr(fault, "strerror", None) or str(fault) or "it doesn't answer"
