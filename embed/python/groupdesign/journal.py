"""A journal in a file, written so that a crash at any moment leaves all records of a call or none."""

import os
from pathlib import Path

from .member import Member, Records


class Journal:
    """A journal's file, open for writing. It is closed by `close`, or at the end of a `with`."""

    def __init__(self, path: str | Path, head: bytes) -> None:
        """A new file with the head of a journal. `FileExistsError` where there is one."""
        self._file = os.open(path, os.O_RDWR | os.O_CREAT | os.O_EXCL, 0o600)
        self._put(0, head)
        _sync_folder(Path(path).resolve().parent)

    @classmethod
    def open(cls, path: str | Path) -> tuple["Journal", bytes]:
        """The file that is there, and its bytes, which `Member.open` takes."""
        journal = cls.__new__(cls)
        journal._file = os.open(path, os.O_RDWR)
        os.fsync(journal._file)
        return journal, Path(path).read_bytes()

    def keep(self, member: Member) -> None:
        """Writes what the journal lacks, and tells the member."""
        records = member.unwritten()
        if records.data:
            self._append(records)
            member.written(records)

    def _append(self, records: Records) -> None:
        """All behind the gate first, and then the gate."""
        self._put(records.place + 1, records.data[1:])
        self._put(records.place, records.data[:1])

    def _put(self, place: int, data: bytes) -> None:
        while data:
            count = os.pwrite(self._file, data, place)
            place, data = place + count, data[count:]
        os.fsync(self._file)

    def close(self) -> None:
        """Closes the file."""
        os.close(self._file)

    def __enter__(self) -> "Journal":
        return self

    def __exit__(self, *fault: object) -> None:
        self.close()


def _sync_folder(folder: Path) -> None:
    number = os.open(folder, os.O_RDONLY | os.O_DIRECTORY)
    try:
        os.fsync(number)
    finally:
        os.close(number)
