"""Who is called what, points where and has selected what: it travels beside the frames, sealed, and is kept nowhere.

A content is a JSON object of at most 8,000 bytes: `at` is a number that rises from one to the next, also over runs; then `name`,
a text of at most 64 bytes; `point`, two numbers of the board or null; `selection`, at most 64 ids; or `bye`, true, where a seat
goes.
"""

import json
import math
import re
import time

from carrier.sealing import PRESENCE
from page.audience import message, packed
from page.names import BadName, name_of

MOST_BYTES, MOST_IDS, FARTHEST = 8_000, 64, 1e10
ID = re.compile(r"[0-9]{1,15}\.[0-9]{1,2}")
# Seconds between two contents, and until what hasn't changed is said again.
BETWEEN, AGAIN = 0.05, 30.0


def point_of(value):
    """A place of the board, or none. Raises `ValueError` where it is neither."""
    if value is None:
        return None
    if not isinstance(value, list) or len(value) != 2 or any(type(each) not in (int, float) for each in value):
        raise ValueError("a point has two numbers")
    if not all(math.isfinite(each) and abs(each) <= FARTHEST for each in value):
        raise ValueError("a point is too far out")
    return [round(each, 1) for each in value]


def ids_of(value):
    """A list of ids. Raises `ValueError` where it is none."""
    if not isinstance(value, list) or len(value) > MOST_IDS:
        raise ValueError(f"a selection has at most {MOST_IDS} ids")
    if not all(isinstance(each, str) and ID.fullmatch(each) for each in value):
        raise ValueError("a selection has ids")
    return value


def read(content):
    """What a seat says of itself: `at` and either `bye` or `name`, `point` and `selection`. Nothing where it is none of that."""
    try:
        fields = json.loads(content) if len(content) <= MOST_BYTES else None
        if type(fields["at"]) is not int or fields["at"] < 0:
            return None
        if fields.get("bye") is True:
            return {"at": fields["at"], "bye": True}
        said = {"name": name_of(fields["name"]), "point": point_of(fields["point"]), "selection": ids_of(fields["selection"])}
        return {"at": fields["at"], **said}
    except (ValueError, KeyError, TypeError, AttributeError, RecursionError, BadName):
        return None


class Presence:
    """What this seat says of itself, and the others of themselves. `send` sends a content to a seat; `tell` tells pages."""

    def __init__(self, send, tell, now=time.monotonic):
        """`now` gives seconds."""
        self.send, self.tell, self.now = send, tell, now
        self.name, self.point, self.selection = "", None, []
        self.others, self.latest = {}, {}
        self.said, self.said_at, self.newcomers = None, -math.inf, set()

    # Of this seat.

    def take_page(self, asked):
        """A page points somewhere, or has selected something else. Raises `ValueError` where it asks for neither."""
        self.point, self.selection = point_of(asked.get("point")), ids_of(asked.get("selection"))

    def come(self, seat):
        """A seat has come, and is told at the next look."""
        self.newcomers.add(seat)

    def look(self, here, name):
        """Says what has changed to those who are here, at most each 0.05 s, and forgets who isn't."""
        self.name = name
        now = self.now()
        for seat in [each for each in self.others if each not in here]:
            self.forget(seat)
        if now - self.said_at < BETWEEN:
            return
        fields = {"name": self.name, "point": self.point, "selection": self.selection}
        is_due = fields != self.said or now - self.said_at >= AGAIN
        goals = set(here) if is_due else self.newcomers & set(here)
        self.newcomers -= goals
        if goals:
            self.say(goals, fields)
            self.said_at = now
            if is_due:
                self.said = fields

    def say(self, goals, fields):
        content = packed({"at": time.time_ns() // 1_000_000, **fields}).encode()
        for seat in goals:
            self.send(seat, PRESENCE, content)

    def leave(self, here):
        """Says goodbye."""
        self.say(here, {"bye": True})

    # Of the others.

    def take(self, seat, content):
        """A seat said something of itself; what is older than what it said before is passed over. Says whether it said goodbye."""
        said = read(content)
        if said is None or said["at"] <= self.latest.get(seat, -1):
            return False
        self.latest[seat] = said.pop("at")
        if "bye" in said:
            self.forget(seat)
            return True
        before = self.others.get(seat, {"name": None, "point": None, "selection": None})
        self.others[seat] = said
        if said["point"] != before["point"]:
            self.tell("pointer", site=seat, point=said["point"])
        if (said["name"], said["selection"]) != (before["name"], before["selection"]):
            self.tell("presence", **self.fields(seat))
        return False

    def fields(self, seat):
        said = self.others[seat]
        return {"site": seat, "name": said["name"] or None, "selection": said["selection"], "gone": False}

    def forget(self, seat):
        if self.others.pop(seat, None) is not None:
            self.tell("pointer", site=seat, point=None)
            self.tell("presence", site=seat, name=None, selection=[], gone=True)

    def names(self):
        """The names that others gave, by seats."""
        return {seat: said["name"] for seat, said in self.others.items() if said["name"]}

    def opening(self, desk):
        """What a page that comes is told."""
        for seat in self.others:
            yield message("presence", desk=desk, **self.fields(seat))
