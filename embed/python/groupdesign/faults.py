"""Why a call did nothing: an exception for each cause."""


class Fault(Exception):
    """A call that did nothing, or of which nothing is left."""


class Closed(Fault):
    """The member was closed."""


class Spent(Fault):
    """Memory ran out in the midst of an earlier call: close the member, and open it anew from its journal."""


class NoMemory(Fault, MemoryError):
    """Memory ran out. The member is as it was, unless its next call says that it is spent."""


class Refused(Fault):
    """The line or the datagram is refused. `why` is the text, as `refused: NoObject`, and empty of a datagram of a site from which the
    member has parted before."""

    def __init__(self, why: str) -> None:
        super().__init__(why)
        self.why = why


class NotHere(Fault):
    """The line is blank, or `show`, `poll`, `begin`, `end` or `quit`, which members in memory don't take: there are methods for these."""


class Unwritten(Fault):
    """There are events of which the member wasn't told that they are kept, so that it tells nobody anything."""


class WrittenElse(Fault):
    """What was said to be written isn't what is unwritten now."""


class NoSite(Fault, ValueError):
    """The session has no such site, or it is the member's own."""


class BadJournal(Fault, ValueError):
    """The bytes are no journal. `why` is the text, as `bad log at 12: Short`."""

    def __init__(self, why: str) -> None:
        super().__init__(why)
        self.why = why


class OtherJournal(Fault, ValueError):
    """The journal is of another session, another site, another number of sites or an older version."""
