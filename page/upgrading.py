"""A journal that an older program kept, written anew in the version that a node goes on from."""

import os
import subprocess
from pathlib import Path

# A log begins with four letters and the byte of its version, which of an older one is its number (docs/FORMATS.md, section 1).
MAGIC, OLDER = b"GDOL", (1, 2)


def version_of(journal):
    """The version of a log, or None where the file isn't one of a version that is older than the newest."""
    with open(journal, "rb") as file:
        start = file.read(5)
    return start[4] if len(start) == 5 and start[:4] == MAGIC and start[4] in OLDER else None


def synced(path):
    """Has what stands in a file, or in a folder, be on the disk."""
    handle = os.open(path, os.O_RDONLY)
    try:
        os.fsync(handle)
    finally:
        os.close(handle)


def upgrade(program, journal):
    """Writes a journal of an older version anew in the newest one, and keeps the old one beside it, with `.v` and its version
    behind its name. Where it isn't older, or no whole log, all stays as it is: a node says what is wrong with it."""
    journal = Path(journal)
    version = version_of(journal)
    if version is None:
        return
    new, old = Path(f"{journal}.new"), Path(f"{journal}.v{version}")
    with open(journal, "rb") as source, open(new, "wb", opener=private) as goal:
        done = subprocess.run([program, "upgrade"], stdin=source, stdout=goal, stderr=subprocess.DEVNULL)
    if done.returncode != 0:
        new.unlink()
        return
    synced(new)
    if not old.exists():
        os.link(journal, old)
    os.replace(new, journal)
    synced(journal.parent)


def private(path, flags):
    return os.open(path, flags, 0o600)
