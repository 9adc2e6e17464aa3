"""A member of a session, in memory."""

import ctypes
import threading
from collections.abc import Callable, Iterable, Iterator
from ctypes import byref, c_uint16, c_uint64
from types import TracebackType
from typing import NamedTuple, NoReturn

from . import library
from .drawing import Drawing
from .faults import (
    BadJournal,
    Closed,
    Fault,
    NoMemory,
    NoSite,
    NotHere,
    OtherJournal,
    Refused,
    Spent,
    Unwritten,
    WrittenElse,
)
from .library import LIBRARY, Handle, Noted, Standing

# The most frames of a window, as a node sends them.
WINDOW = 24
# Where a frame has how many own events its sender made.
COUNT = slice(13, 15)

Call = Callable[..., int]

_FAULTS: dict[int, tuple[type[Fault], str]] = {
    library.EMPTY: (Closed, "the member is closed"),
    library.SPENT: (Spent, "memory ran out in an earlier call: open the member anew from its journal"),
    library.NO_MEMORY: (NoMemory, "memory ran out"),
    library.NOT_HERE: (NotHere, "members in memory don't take this line: there are methods for it"),
    library.UNWRITTEN: (Unwritten, "events are unwritten: keep them, and call written"),
    library.NOT_THESE: (WrittenElse, "other records are unwritten by now"),
    library.NO_SITE: (NoSite, "no such site"),
    library.OTHER_JOURNAL: (OtherJournal, "the journal is another one's"),
}


class Frame(NamedTuple):
    """A frame for another site, and how many events of this one that site holds once it took all up to it."""

    data: bytes
    behind: int


class Records(NamedTuple):
    """Bytes that the journal lacks, and where they go in it."""

    place: int
    data: bytes


class Status(NamedTuple):
    """Where a member stands: events held, those that may still be reordered, line, clock, and from how many sites it has parted."""

    held: int
    kept: int
    line: int
    clock: int
    parted: int


class Note(NamedTuple):
    """What a user said of itself: its number, the name, and the id of the object that it looks at."""

    number: int
    name: str | None
    focus: str | None


def _fault(answer: int) -> NoReturn:
    kind, text = _FAULTS.get(answer, (Fault, f"the answer {answer}"))
    raise kind(text)


class Member:
    """Site `site` of a session of `sites`, with the number `session`. It is closed by `close`, at the end of a `with`, or with its
    last use. Threads may share it: one call at a time goes in."""

    def __init__(self, site: int, sites: int, session: int) -> None:
        """A new member, which holds no event."""
        self._begin(site, sites, session)
        answer = LIBRARY.gd_new(byref(self._handle), *self._place())
        if answer < 0:
            _fault(answer)

    @classmethod
    def open(cls, journal: bytes, site: int, sites: int, session: int) -> "Member":
        """The member that goes on from a journal's bytes. `BadJournal` or `OtherJournal` where it can't."""
        member = cls.__new__(cls)
        member._begin(site, sites, session)
        why, needed = ctypes.create_string_buffer(library.WHY_BYTES), c_uint64()
        answer = LIBRARY.gd_open(
            byref(member._handle), journal, len(journal), *member._place(), why, len(why), byref(needed)
        )
        if answer == library.BAD_JOURNAL:
            raise BadJournal(why.raw[: needed.value].decode().strip())
        if answer < 0:
            _fault(answer)
        return member

    def _begin(self, site: int, sites: int, session: int) -> None:
        self._handle, self._lock = Handle(), threading.Lock()
        self._buffer, self._needed = ctypes.create_string_buffer(4096), c_uint64()
        if not (1 <= site <= sites <= 16 and 0 <= session < 1 << 32):
            raise NoSite(f"no site {site} of {sites} in a session {session}")
        self.site, self.sites, self.session = site, sites, session

    def _place(self) -> tuple[int, int, int]:
        return self.site, self.sites, self.session

    # Edits.

    def line(self, line: str) -> list[str]:
        """Carries out a typed line, as docs/LINES.md has them, and returns the lines of the reply. `Refused` where it is refused."""
        with self._lock:
            return self._replies(LIBRARY.gd_line, line.encode())

    def gesture(self, lines: Iterable[str]) -> list[str]:
        """Carries out several lines, which are undone together, and returns a reply for each that isn't blank, `refused: WHY` among
        them."""
        with self._lock:
            return self._replies(LIBRARY.gd_gesture, "".join(f"{line}\n" for line in lines).encode())[:-1]

    def edit(self, line: str) -> str:
        """Carries out an edit, and returns the id of its event: of a `create`, a `connect` or a `group` also that of what it made."""
        return self.line(line)[0].removeprefix("ok ")

    def create(self, kind: str, x: int, y: int, w: int, h: int, label: str = "") -> str:
        """Makes a `rect`, an `ellipse`, a `line` or a `text`, and returns its id."""
        return self.edit(f"create {kind} {x} {y} {w} {h} {_typed(label)}")

    def connect(self, start: str, end: str, label: str = "") -> str:
        """Makes a connector between two shapes, and returns its id."""
        return self.edit(f"connect {start} {end} {_typed(label)}")

    def group(self, *members: str) -> str:
        """Makes a group of 2 to 32 objects, and returns its id."""
        return self.edit(" ".join(["group", *members]))

    def move(self, id: str, x: int, y: int) -> str:
        """Has an object shown at a place."""
        return self.edit(f"move {id} {x} {y}")

    def label(self, id: str, label: str) -> str:
        """Gives a shape or a connector that label."""
        return self.edit(f"text {id} {_typed(label)}")

    def delete(self, id: str) -> str:
        """Takes an object away."""
        return self.edit(f"delete {id}")

    def undo(self) -> list[str]:
        """Takes the last gesture back, and returns the ids of the events that do it."""
        return _ids(self.line("undo"))

    def redo(self) -> list[str]:
        """Does the last gesture again that was taken back, and returns the ids of the events that do it."""
        return _ids(self.line("redo"))

    # Others.

    def take(self, datagram: bytes) -> list[str]:
        """Takes a datagram of another site as it came, and returns an `echo` for each event that was taken. `Refused` where it is no
        frame, none for this member, or of a site from which this one parts, or has parted."""
        with self._lock:
            return self._replies(LIBRARY.gd_take, datagram)

    def frame(self, to: int, behind: int = 0) -> Frame:
        """A frame for another site, with the own events behind what it has acknowledged, and behind the first `behind`, as many as
        fit. `Unwritten` while there is anything that isn't kept."""
        with self._lock:
            return self._frame(to, behind)

    def _frame(self, to: int, behind: int) -> Frame:
        if not 0 < to <= self.sites:
            raise NoSite(f"no site {to}")
        reached = c_uint16(behind)
        answer = LIBRARY.gd_frame(byref(self._handle), to, byref(reached), *self._out(library.FRAME_BYTES))
        return Frame(self._taken(answer), reached.value)

    def frames(self, to: int) -> Iterator[bytes]:
        """A window for another site: the frame for it, and at most 23 further ones while own events are left."""
        behind = 0
        for _ in range(WINDOW):
            data, behind = self.frame(to, behind)
            yield data
            if behind >= int.from_bytes(data[COUNT], "big"):
                return

    # The journal.

    def journal_head(self) -> bytes:
        """What the journal of a new member begins with."""
        with self._lock:
            return self._written_by(LIBRARY.gd_journal_head)

    def unwritten(self) -> Records:
        """What the journal lacks, and where it goes. Keep all but the first byte behind the place, sync, and then the first byte."""
        with self._lock:
            place = c_uint64()
            data = self._written_by(LIBRARY.gd_unwritten, byref(place))
            return Records(place.value, data)

    def written(self, records: Records) -> None:
        """Tells the member that the journal has these records. `WrittenElse` where there are others by now."""
        with self._lock:
            self._done(LIBRARY.gd_written(byref(self._handle), len(records.data)))

    # What it shows.

    def drawing(self) -> Drawing:
        """The drawing of all events that the member holds."""
        return Drawing.read(self.json())

    def json(self) -> str:
        """The drawing, as a line of JSON."""
        with self._lock:
            return self._said(LIBRARY.gd_json(byref(self._handle))).decode()

    def text(self) -> str:
        """The drawing, as a line for each object and `end K`."""
        with self._lock:
            return self._said(LIBRARY.gd_text(byref(self._handle))).decode()

    def events(self, journal: bytes) -> str:
        """The events of the member's journal, as a line of JSON. `BadJournal` or `OtherJournal` where it isn't that."""
        with self._lock:
            answer = LIBRARY.gd_events(byref(self._handle), journal, len(journal))
            if answer == library.BAD_JOURNAL:
                raise BadJournal(self._written_by(LIBRARY.gd_said).decode().strip())
            return self._said(answer).decode()

    def snapshot(self) -> bytes:
        """The drawing without its history, as `groupdesign view` reads it."""
        with self._lock:
            return self._said(LIBRARY.gd_snapshot(byref(self._handle)))

    def status(self) -> Status:
        """Where the member stands."""
        with self._lock:
            standing = Standing()
            self._done(LIBRARY.gd_status(byref(self._handle), byref(standing)))
            return Status(standing.held, standing.kept, standing.line, standing.clock, standing.parted)

    def note(self, site: int) -> Note | None:
        """The newest note of a site's user, or None."""
        with self._lock:
            noted = Noted()
            answer = LIBRARY.gd_note(byref(self._handle), site, byref(noted))
            if answer == library.NO_NOTE:
                return None
            name = self._said(answer).decode()
            focus = f"{noted.clock}.{noted.site}" if noted.site else None
            return Note(noted.number, name or None, focus)

    def parted(self, site: int) -> int | None:
        """At which count of a site's events this member has parted from it, or None."""
        with self._lock:
            answer = LIBRARY.gd_parted(byref(self._handle), site)
            return None if answer == library.NOT_PARTED else self._done(answer)

    # Its end.

    def close(self) -> None:
        """Frees the member. Each later call is `Closed`, but another `close`, which does nothing."""
        with self._lock:
            LIBRARY.gd_free(byref(self._handle))

    def __enter__(self) -> "Member":
        return self

    def __exit__(self, kind: type[BaseException] | None, fault: BaseException | None, trace: TracebackType | None) -> None:
        self.close()

    def __del__(self) -> None:
        if hasattr(self, "_handle"):
            LIBRARY.gd_free(byref(self._handle))

    # Calls of the library.

    def _done(self, answer: int) -> int:
        if answer < 0:
            _fault(answer)
        return answer

    def _out(self, room: int) -> tuple[ctypes.Array[ctypes.c_char], int, object]:
        """A buffer with that room, and where the call says how much it needs."""
        if len(self._buffer) < room:
            self._buffer = ctypes.create_string_buffer(max(room, 2 * len(self._buffer)))
        return self._buffer, len(self._buffer), byref(self._needed)

    def _taken(self, answer: int) -> bytes:
        """What the call wrote to the buffer."""
        return ctypes.string_at(self._buffer, self._done(answer))

    def _written_by(self, call: Call, *given: object) -> bytes:
        """What a call writes, in a buffer that it has room in."""
        answer = call(byref(self._handle), *given, *self._out(0))
        if answer == library.ROOM:
            answer = call(byref(self._handle), *given, *self._out(self._needed.value))
        return self._taken(answer)

    def _said(self, answer: int) -> bytes:
        """What the member says, where the call before it answered so many bytes."""
        if self._done(answer) == 0:
            return b""
        return self._taken(LIBRARY.gd_said(byref(self._handle), *self._out(answer)))

    def _replies(self, call: Call, given: bytes) -> list[str]:
        """The lines that a call has the member say. `Refused` where they are a refusal."""
        answer = call(byref(self._handle), given, len(given))
        if answer == library.REFUSED:
            raise Refused(self._written_by(LIBRARY.gd_said).decode().strip())
        return self._said(answer).decode().splitlines()


def _typed(label: str) -> str:
    """A label as it is typed."""
    return label.replace("\\", "\\\\").replace("\n", "\\n")


def _ids(replies: list[str]) -> list[str]:
    return [line.removeprefix("ok ") for line in replies[:-1]]
