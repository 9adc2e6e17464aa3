"""The certificate of a broker of one's own: it signs itself, and links name it by its digest."""

import datetime

from cryptography import x509
from cryptography.hazmat.primitives.asymmetric import ec
from cryptography.hazmat.primitives.hashes import SHA256
from cryptography.hazmat.primitives.serialization import Encoding, NoEncryption, PrivateFormat
from cryptography.x509.oid import NameOID

DAYS = 3_650
# Clocks of people's machines differ.
EARLIER = datetime.timedelta(days=2)


def made(host, days=DAYS):
    """A new certificate for a host, good for so many days from now: in DER, in PEM, and its key in PEM."""
    key = ec.generate_private_key(ec.SECP256R1())
    name = x509.Name([x509.NameAttribute(NameOID.COMMON_NAME, "groupdesign broker")])
    now = datetime.datetime.now(datetime.timezone.utc).replace(tzinfo=None)
    first, last = min(now, now + datetime.timedelta(days=days)) - EARLIER, now + datetime.timedelta(days=days)
    builder = x509.CertificateBuilder(name, name, key.public_key(), x509.random_serial_number(), first, last)
    builder = builder.add_extension(x509.BasicConstraints(ca=False, path_length=None), critical=True)
    builder = builder.add_extension(x509.SubjectAlternativeName([x509.DNSName(ascii_of(host))]), critical=False)
    signed = builder.sign(key, SHA256())
    private = key.private_bytes(Encoding.PEM, PrivateFormat.PKCS8, NoEncryption())
    return signed.public_bytes(Encoding.DER), signed.public_bytes(Encoding.PEM), private


def ascii_of(host):
    """A host as certificates spell it. Nobody compares it: links name the whole certificate."""
    try:
        return host.strip("[]").encode("idna").decode()
    except UnicodeError:
        return "broker.invalid"
