"""The drawing as a node showed it last, and what a later one has that is different."""

from bisect import bisect_left
from itertools import compress, count
from operator import ne

from page.lines import item_of


def steady_of(places):
    """The indices of a longest part of distinct numbers that rises, in their order."""
    ends, tails, behind = [], [], [None] * len(places)
    for index, place in enumerate(places):
        length = bisect_left(ends, place)
        if length == len(ends):
            ends.append(place)
            tails.append(index)
        else:
            ends[length], tails[length] = place, index
        behind[index] = tails[length - 1] if length else None
    steady, index = [], tails[-1] if tails else None
    while index is not None:
        steady.append(index)
        index = behind[index]
    return steady[::-1]


def id_of(line):
    """The id in a line of `show`."""
    return line.split(b" ", 2)[1].decode()


def common(one, other):
    """How many of the first lines are the same."""
    return next(compress(count(), map(ne, one, other)), min(len(one), len(other)))


def placed(before, after, bottom):
    """The fewest ids to be put elsewhere on the way from one order to another, each with the one that it stands behind, or
    `bottom` for the first."""
    place = {name: index for index, name in enumerate(before)}
    stayed = [name for name in after if name in place]
    steady = {stayed[index] for index in steady_of([place[name] for name in stayed])}
    behind = [bottom, *after]
    return [[name, behind[index]] for index, name in enumerate(after) if name not in steady]


class Picture:
    """The lines of a drawing as bytes, in the order in which they were printed. No two of them are of one object."""

    def __init__(self):
        self.lines = []

    def whole(self):
        """All items in their order."""
        return {"items": [item_of(line.decode(errors="replace")) for line in self.lines], "gone": [], "order": []}

    def take(self, shown):
        """Takes the answer to `show`, with its last line, and says what it has that is different: items that are new or
        changed, ids that are gone, and which stand behind which others now, to be put there one after the other.
        Lines that are the same as before at both ends aren't looked into."""
        before, self.lines = self.lines, shown[:-1]
        first = common(before, self.lines)
        last = common(before[:first - 1 if first else None:-1], self.lines[:first - 1 if first else None:-1])
        bottom = id_of(self.lines[first - 1]) if first else None
        return difference(before[first : len(before) - last], self.lines[first : len(self.lines) - last], bottom)


def difference(before, after, bottom):
    """What is different between two lists of lines, both of which stand behind the same object, or at the bottom."""
    known = frozenset(before)
    changed = [line for line in after if line not in known]
    old, new = [id_of(line) for line in before], [id_of(line) for line in after]
    stays = frozenset(new)
    return {
        "items": [item_of(line.decode(errors="replace")) for line in changed],
        "gone": [name for name in old if name not in stays],
        "order": [] if old == new else placed(old, new, bottom),
    }
