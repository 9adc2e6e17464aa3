"""Typed lines and printed ones: what a page may have typed, where an answer ends, what a shown line says.

Nothing here judges a drawing. docs/LINES.md has the lines, and the node alone says what becomes of them.
"""

import re

MOST_BYTES = 1024
EDITS = frozenset(
    b"create connect reconnect delete move resize stroke fill width dash heads round opacity size align style text group ungroup"
    b" raise lower undo redo".split()
)
# Those that take the last gesture back, or do it again.
TURNS = frozenset([b"undo", b"redo"])
NOTES = frozenset([b"name", b"focus"])
# How the last line of an answer begins, by the first word of what was typed. Any other has one line.
LAST = {
    b"poll": (b"polled ", b"link fault "),
    b"show": (b"end ",),
    b"who": (b"end ",),
    b"begin": (b"end ",),
    **dict.fromkeys(TURNS, (b"end ", b"refused: ")),
}
ECHOES = ("applied", "dropped", "reworked")
# An echo: its event, what came of that, and its operation in words.
ECHO = re.compile(r"echo (\S+) (?:applied|dropped by (\S+)|reworked (\d+)) (.*)", re.DOTALL)


class Refused(Exception):
    """A line isn't typed. Its text is the name that the node gives to such a fault."""


def first_word(line):
    """The first word of a line of bytes, or none. A space is the one byte that parts words."""
    return next((word for word in line.split(b" ") if word), b"")


def typed(text):
    """The bytes of the one line that `text` is, without its LF. Raises `Refused` where it is more than one line, or none
    of those that a page may have typed: an edit, an undo, a redo, a name or a focus."""
    if not isinstance(text, str):
        raise Refused("UnknownCommand")
    # A lone half of a pair of surrogates has no bytes in UTF-8.
    if "\n" in text or "\r" in text or any("\ud800" <= letter <= "\udfff" for letter in text):
        raise Refused("BadLabel")
    line = text.encode()
    if len(line) > MOST_BYTES:
        raise Refused("LongLine")
    if first_word(line) not in EDITS | NOTES:
        raise Refused("UnknownCommand")
    return line


def last_of(typed_lines):
    """How the last line of the answer begins to a typed line, or to the lines of a gesture."""
    return LAST.get(first_word(typed_lines.partition(b"\n")[0]), (b"",))


# How a label on a line is written: a line feed as a backslash and an n, a backslash as two of them.
ESCAPED = re.compile(r"\\(.)", re.DOTALL)
# The looks that a line has only where they aren't as they are made, and how they are called in the JSON of a drawing.
LOOKS = {"dash": "dash", "heads": "heads", "round": "round", "opacity": "opacity", "size": "letters", "align": "align"}
NUMBERS = frozenset(["round", "opacity", "size"])


def label_of(text):
    """The label that stands on a line so."""
    return ESCAPED.sub(lambda found: "\n" if found[1] == "n" else found[1], text) if "\\" in text else text


def item_of(line):
    """What a line of `show` says of an object, with the keys that the JSON of a drawing has."""
    head, has_label, label = line.partition(" text ")
    words = head.split(" ")
    # The kind may be `text` too, which no space stands in front of.
    item = {"kind": words[0], "id": words[1], "in": None if words[3] == "-" else words[3]}
    if words[0] == "connector":
        item["from"], item["to"], at = words[5], words[7], 8
    else:
        item["at"], at = [int(words[5]), int(words[6])], 7
    if words[0] == "group":
        return item
    if words[0] != "connector":
        item["size"], at = [int(words[8]), int(words[9])], 10
    item["stroke"] = words[at + 1]
    item["fill"] = None if words[at + 3] == "none" else words[at + 3]
    item["width"] = int(words[at + 5])
    for name, value in zip(words[at + 6 :: 2], words[at + 7 :: 2]):
        item[LOOKS[name]] = int(value) if name in NUMBERS else value
    item["label"] = label_of(label) if has_label else ""
    return item


def note_of(line):
    """What a line of `who` says of a site's note."""
    _, site, name, _, focus = line.split(" ")
    return {"site": int(site), "name": None if name == "-" else name, "focus": None if focus == "-" else focus}


def notes_of(answer):
    """The notes that the answer to `who` tells."""
    return [note_of(line) for line in answer if line.startswith("who ")]


def parted_of(answer):
    """From whom the node has parted, by the answer to `who`: these sites."""
    return [int(line.split(" ")[2]) for line in answer if line.startswith("parted from ")]


def is_older(line):
    """Whether a line of a poll's answer says that others know of own edits that the node hasn't."""
    return line.startswith("frame refused: OverAck ")


def standing_of(line):
    """What the answer to `status` says: how many events are held and kept, the line, the clock, and, where there are any, from how
    many the node has parted."""
    words = line.split(" ")
    return {name: int(number) for name, number in zip(words[::2], words[1::2])}


def news_of(line):
    """What a line of a poll's answer says, for the list of what happened: an echo, with its operation, or a line as it is."""
    found = ECHO.fullmatch(line)
    if found is None:
        return {"what": "said", "line": line}
    event, by, count, done = found.groups()
    if by:
        return {"what": "dropped", "event": event, "by": by, "line": done}
    if count:
        return {"what": "reworked", "event": event, "count": int(count), "line": done}
    return {"what": "applied", "event": event, "line": done}


def datagrams_of(line):
    """How many datagrams a poll took, by the last line of its answer."""
    return int(line.split(" ")[-1])


# What an end of the node means, by its status (docs/FORMATS.md, section 5).
MEANINGS = {
    0: "it was told to end, or its input ended",
    2: "its words ask for no command",
    3: "the drawing's file (the journal) can't be read, so it can't go on from it",
    4: "a read of its input failed",
    5: "a write of its answers failed",
    6: "the drawing's file (the journal) failed: a new one was there already, one to go on from wasn't, or its disk has no room",
    7: "it can't use the network: the address may be taken, or isn't one of this machine",
    8: "memory ran out",
    9: "it has answered as much as it does in one run",
    11: "the drawing's file (the journal) is of another session, person or number of people",
    13: "its words couldn't be had",
    70: "the program isn't built, and the build failed",
}


def meaning_of(status):
    """What the status of a node's end means, in plain words."""
    if status < 0:
        return f"it was ended by signal {-status}"
    return MEANINGS.get(status, "a status that the program never has")
