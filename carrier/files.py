"""The files beside a journal that hold secrets. Only their user may read them."""

import base64
import contextlib
import fcntl
import json
import os
import stat
from dataclasses import dataclass, field
from pathlib import Path

from carrier.broker import Account
from carrier.roster import SEATS, BadRoster, Roster, roster_of
from carrier.trust import BadTrust, Trust


class BadFile(Exception):
    """A file of secrets can't be used. The text says why, and what to do."""


def text_of(data):
    return base64.b64encode(data).decode()


def data_of(text):
    return base64.b64decode(text, validate=True)


def write_private(path, text):
    """Writes a file anew, of mode 0600 and whole or not at all, also over a loss of power. Raises `OSError`."""
    path = Path(path)
    new = path.with_name(f"{path.name}.new")
    with contextlib.suppress(FileNotFoundError):
        new.unlink()
    with open(os.open(new, os.O_WRONLY | os.O_CREAT | os.O_EXCL, 0o600), "w", encoding="utf-8") as file:
        file.write(text)
        file.flush()
        os.fsync(file.fileno())
    os.replace(new, path)
    folder = os.open(path.parent, os.O_RDONLY)
    try:
        os.fsync(folder)
    finally:
        os.close(folder)


def read_private(path):
    """The text of a file that is this user's and that nobody else may read. Raises `BadFile`, and `OSError`."""
    with open(path, encoding="utf-8") as file:
        state = os.fstat(file.fileno())
        if state.st_uid != os.geteuid():
            raise BadFile(f"{path} belongs to another user")
        if stat.S_IMODE(state.st_mode) & 0o077:
            raise BadFile(f"{path} can be read by others: its keys may be known. chmod 600 {path} if they aren't")
        try:
            return file.read()
        except UnicodeDecodeError:
            raise BadFile(f"{path} isn't a file of groupdesign") from None


@contextlib.contextmanager
def fields_of(path):
    """The fields of a file of JSON. A field that is missing or of another kind is a `BadFile`."""
    try:
        yield json.loads(read_private(path))
    except (ValueError, KeyError, TypeError, AttributeError, BadRoster, BadTrust) as why:
        raise BadFile(f"{path} isn't a file of groupdesign, or was changed ({why})") from None


@dataclass
class Seat:
    """What a carrier needs of one seat. `certificate` is what connections to the broker are judged by, in DER; `listen` says
    that the broker runs here, beside the journal; `begun` that there was a journal; `keep` that it has no page. `account` is the
    one that all members have at the broker, where each hasn't its own."""

    seat: int
    seed: bytes
    roster: Roster
    broker: str
    trust: Trust
    certificate: bytes
    listen: bool = False
    begun: bool = False
    keep: bool = False
    account: Account = None

    @staticmethod
    def path(journal):
        return Path(f"{journal}.seat")

    def write(self, journal):
        """Keeps it beside a journal. Raises `OSError`."""
        fields = {
            "seat": self.seat,
            "seed": text_of(self.seed),
            "roster": text_of(self.roster.data),
            "broker": self.broker,
            "trust": self.trust.kind,
            "trusted": text_of(self.trust.data),
            "certificate": text_of(self.certificate),
            "listen": self.listen,
            "begun": self.begun,
            "keep": self.keep,
            "account": [self.account.user, self.account.password] if self.account else None,
        }
        write_private(self.path(journal), json.dumps(fields, indent=1) + "\n")

    @classmethod
    def read(cls, journal):
        """The one beside a journal. Raises `BadFile`, and `FileNotFoundError` where there is none."""
        with fields_of(cls.path(journal)) as fields:
            number = fields["seat"]
            if type(number) is not int or not 1 <= number <= SEATS:
                raise ValueError("the seat")
            trust = Trust(fields["trust"], data_of(fields["trusted"]))
            roster, seed = roster_of(data_of(fields["roster"])), data_of(fields["seed"])
            certificate, flags = data_of(fields["certificate"]), [fields[name] is True for name in ("listen", "begun", "keep")]
            account = Account(*fields["account"]) if fields.get("account") else None
            return cls(number, seed, roster, str(fields["broker"]), trust, certificate, *flags, account)


@dataclass
class Founder:
    """What only the founder has: the secret that retires seats, the secrets of seats that nobody was handed yet, and by their
    numbers the seats that are retired, with what was signed of them, or with an empty text where that isn't done yet. `watch`
    is the secret of those who only look on, which a session has that was founded since there are such, and `is_watched` whether
    a link for them was made."""

    seed: bytes
    free: dict = field(default_factory=dict)
    retired: dict = field(default_factory=dict)
    watch: bytes = b""
    is_watched: bool = False

    @staticmethod
    def path(journal):
        return Path(f"{journal}.founder")

    def write(self, journal):
        """Keeps it beside the founder's journal. Raises `OSError`."""
        free = {str(seat): text_of(seed) for seat, seed in self.free.items()}
        retired = {str(seat): text for seat, text in self.retired.items()}
        fields = {"seed": text_of(self.seed), "free": free, "retired": retired}
        fields.update({"watch": text_of(self.watch), "watched": self.is_watched})
        write_private(self.path(journal), json.dumps(fields, indent=1) + "\n")

    @classmethod
    def read(cls, journal):
        """The one beside a journal. Raises `BadFile`, and `FileNotFoundError` where there is none."""
        with fields_of(cls.path(journal)) as fields:
            free = {int(seat): data_of(seed) for seat, seed in fields["free"].items()}
            retired = {int(seat): str(text) for seat, text in fields["retired"].items()}
            watch = data_of(fields.get("watch", ""))
            return cls(data_of(fields["seed"]), free, retired, watch, fields.get("watched") is True)

    @classmethod
    def take(cls, journal):
        """A seat that nobody was handed, and its secret, which the file then has no more. Nothing where none is left."""
        with cls.changing(journal) as found:
            if not found.free:
                return None
            seat = min(found.free)
            return seat, found.free.pop(seat)

    @classmethod
    def let_watch(cls, journal):
        """The secret of those who only look on, or nothing where the session has none. It is put down that there are some."""
        with cls.changing(journal) as found:
            found.is_watched = bool(found.watch)
            return found.watch

    @classmethod
    def note_retired(cls, journal, seat, text=""):
        """Puts down that a seat is to be retired, or what was signed of it."""
        with cls.changing(journal) as found:
            found.free.pop(seat, None)
            found.retired[seat] = text or found.retired.get(seat, "")

    @classmethod
    @contextlib.contextmanager
    def changing(cls, journal):
        """The one beside a journal, which is written again behind what is done with it. One program does that at a time."""
        with open(os.open(f"{cls.path(journal)}.lock", os.O_RDWR | os.O_CREAT, 0o600), "w", encoding="utf-8") as lock:
            fcntl.flock(lock, fcntl.LOCK_EX)
            found = cls.read(journal)
            yield found
            found.write(journal)
