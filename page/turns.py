"""What an undo takes back and a redo does again: whole gestures of a page. Each is one gesture of the node, or several in a row where
it has more edits than that takes as one."""

from typing import NamedTuple

from page.lines import TURNS

# As many gestures does a node take back, and so many it does again.
MOST_BACKS = 1_024
# A name that a page gives a gesture has at most so many characters.
MOST_NAME = 100
NOTHING = "refused: NothingBack"


class Gesture(NamedTuple):
    """What a page calls it, and the clocks of the events of each gesture of the node."""

    name: str
    parts: list

    def told(self):
        return {"name": self.name, "lines": len(self.parts), "first": self.parts[0][0], "last": self.parts[-1][-1]}


class Turns:
    """The gestures that are done and those that were taken back since the node started, the newest last. There is no half of one:
    what the node has forgotten a part of can't be taken back."""

    def __init__(self):
        # How often they have changed: what was told later counts.
        self.undos, self.redos, self.number = [], [], 0

    def end(self, name, replies, is_astray=False):
        """Takes what was typed of a gesture, each by its first word, with the lines of its answer; and whether something was taken
        back at once, by an undo that nobody asked for. Says whether anything has changed."""
        done = [(verb, clocks_of(reply)) for verb, reply in replies]
        undone, redone = ([clocks for each, clocks in done if each == verb and clocks] for verb in (b"undo", b"redo"))
        made = [clocks for verb, clocks in done if verb not in TURNS and clocks]
        has_nothing = {verb for verb, reply in replies if reply == [NOTHING]}
        if made:
            self.undos = kept([*self.undos, Gesture(name, made)])
        if made or is_astray:
            self.redos = []
        turned(self.undos, self.redos, undone)
        turned(self.redos, self.undos, redone)
        if b"undo" in has_nothing:
            self.undos = []
        if b"redo" in has_nothing:
            self.redos = []
        is_new = bool(made or undone or redone or has_nothing or is_astray)
        self.number += is_new
        return is_new

    def forget(self):
        """A node that goes on from its journal takes nothing back."""
        self.undos, self.redos, self.number = [], [], self.number + 1

    def told(self):
        """What is next of each, or none."""
        undo, redo = (due[-1].told() if due else None for due in (self.undos, self.redos))
        return {"number": self.number, "undo": undo, "redo": redo}


def clocks_of(reply):
    """The clocks of the events that were made."""
    return [int(line[3:].partition(".")[0]) for line in reply if line.startswith("ok ")]


def turned(due, other, parts):
    """Takes as many gestures of the node as these from the newest ones that are due to the others, as one gesture."""
    if not parts:
        return
    name, left = "", len(parts)
    while left > 0 and due:
        name, gone = due.pop()
        if len(gone) > left:
            due.append(Gesture(name, gone[:-left]))
        left -= len(gone)
    other.append(Gesture(name, parts))


def kept(gestures):
    """The newest of these gestures, as many as the node can take back whole."""
    left = MOST_BACKS
    for at in reversed(range(len(gestures))):
        left -= len(gestures[at].parts)
        if left < 0:
            return gestures[at + 1 :]
    return gestures
