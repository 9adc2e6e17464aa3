"""groupdesign: members of a shared drawing, in memory.

    from groupdesign import Member

    ana, ben = Member(1, 2, session=7), Member(2, 2, session=7)
    ana.create("rect", 0, 0, 100, 50, "House")
    ana.written(ana.unwritten())
    ben.take(ana.frame(2).data)
    print(ben.drawing().text)

A `Member` takes the edits of its user, gives frames for the other sites and takes theirs, in any order and as often as they come.
It opens no file and no socket. What it does is proved; embed/README.md has the whole of it.
"""

from .drawing import Connector, Drawing, Group, Item, Looks, Shape
from .faults import (
    BadJournal,
    Closed,
    Fault,
    NoMemory,
    NoSite,
    NotHere,
    OtherJournal,
    Refused,
    Spent,
    Unwritten,
    WrittenElse,
)
from .journal import Journal
from .member import Frame, Member, Note, Records, Status

__all__ = [
    "BadJournal",
    "Closed",
    "Connector",
    "Drawing",
    "Fault",
    "Frame",
    "Group",
    "Item",
    "Journal",
    "Looks",
    "Member",
    "NoMemory",
    "NoSite",
    "NotHere",
    "Note",
    "OtherJournal",
    "Records",
    "Refused",
    "Shape",
    "Spent",
    "Status",
    "Unwritten",
    "WrittenElse",
]
