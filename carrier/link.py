"""Links: what one person is handed to sit down at one seat. All of it stands behind `#`, where no browser sends it on."""

import base64
import binascii
import struct
from dataclasses import dataclass

from carrier.broker import Account
from carrier.keys import SEED
from carrier.roster import SEATS, SESSION
from carrier.sealing import WATCHERS
from carrier.trust import BadTrust, Trust
from page.addresses import BadAddress, parts_of

SCHEME = "groupdesign:#"
# Version, seat, session, secret of the seat, digest of the roster, kind and length of the trust.
HEAD = struct.Struct(f">BB{SESSION}s{SEED}s32sBH")
# The first version, and the one whose links have an account at the broker, for all members alike.
VERSION, WITH_ACCOUNT = 1, 2
MOST_LETTERS = 8192


class BadLink(Exception):
    """A text is no link. Its own text says why."""


@dataclass(frozen=True)
class Link:
    """`digest` is the roster's; `broker` is HOST:PORT. The seat of a link for those who only look on is 0."""

    seat: int
    session: bytes
    seed: bytes
    digest: bytes
    trust: Trust
    broker: str
    account: Account = None

    @property
    def text(self):
        """The link as people are handed it."""
        trust, version = self.trust, WITH_ACCOUNT if self.account else VERSION
        head = HEAD.pack(version, self.seat, self.session, self.seed, self.digest, trust.kind, len(trust.data))
        words = [self.account.user.encode(), self.account.password.encode()] if self.account else []
        data = head + trust.data + b"".join(bytes([len(word)]) + word for word in words) + self.broker.encode()
        return SCHEME + base64.urlsafe_b64encode(data + checksum(data)).rstrip(b"=").decode()


def checksum(data):
    """Four bytes by which a link that was cut or mistyped is known."""
    return struct.pack(">I", binascii.crc32(data))


def first_word(data):
    """The bytes whose length stands in front of them, and those behind. Raises `IndexError` where there are none."""
    return data[1 : 1 + data[0]], data[1 + data[0] :]


def link_of(text):
    """The link that a text is. Raises `BadLink`."""
    text = text.strip().strip("'\"<>")
    if not text.startswith(SCHEME) or len(text) > MOST_LETTERS:
        raise BadLink(f"a link begins with {SCHEME} and is one line")
    word = text[len(SCHEME) :]
    try:
        data = base64.b64decode(word + "=" * (-len(word) % 4), altchars=b"-_", validate=True)
    except (binascii.Error, ValueError):
        raise BadLink("the link has letters that no link has: copy all of it once more") from None
    if len(data) < HEAD.size + 4 or checksum(data[:-4]) != data[-4:]:
        raise BadLink("the link is cut or changed: copy all of it once more")
    version, seat, session, seed, digest, kind, length = HEAD.unpack_from(data)
    if version not in (VERSION, WITH_ACCOUNT) or not WATCHERS <= seat <= SEATS:
        raise BadLink("the link is of another version of groupdesign")
    trust, rest, account = data[HEAD.size : HEAD.size + length], data[HEAD.size + length : -4], None
    try:
        if version == WITH_ACCOUNT:
            (user, rest), (password, rest) = (found := first_word(rest)), first_word(found[1])
            account = Account(user.decode(), password.decode())
        host, port = parts_of(rest.decode())
        return Link(seat, session, seed, digest, Trust(kind, trust), f"{host}:{port}", account)
    except (ValueError, IndexError, BadAddress, BadTrust) as why:
        raise BadLink(f"the link names no broker that can be had: {why}") from None
