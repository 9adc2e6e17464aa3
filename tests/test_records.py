"""Logs of single records, of drawings and of cards: written again, cut by a byte, as JSON, and event after event."""

from tests.program import BAD_LOG, DONE, Case
from tests.spelled import PLAIN, log, number, square, stamp
from tests.test_formats import cards

LABEL = "a label"
OPS = [
    ("create", "ellipse", 1, -2, 3, 4, LABEL),
    ("text", (1, 2), LABEL),
    ("group", ((1, 2), 5, -6), ((2, 2), 5, -6)),
    ("delete", (1, 2)),
    ("move", (1, 2), 1, -2),
    ("resize", (1, 2), 3, 4),
    ("stroke", (1, 2), 0x123456),
    ("ungroup", (1, 2)),
    ("raise", (1, 2)),
    ("lower", (1, 2)),
    ("restore", (1, 2), ("ellipse", 1, -2, 3, -4, 0xAB0C, None, 64, *PLAIN, LABEL, None, ((2, 2), 5, -6), False, ("low", (3, 1)))),
    ("restore", (1, 2), ("group", 1, -2, 0, 0, 0, None, 1, *PLAIN, "", None, None, True, ("high", (1, 2))), ((1, 1), None), ((2, 1), ((2, 2), 5, -6))),
    ("disband", (1, 2), ((1, 1), None), ((2, 1), ((2, 2), 5, -6))),
    ("rerank", (1, 2), ("high", (8, 16))),
    ("reopen", (1, 2)),
]

# A group within a group, and what is in them.
NESTED = log([
    square((1, 1), 1),
    square((2, 1), 2),
    ((3, 1), 3, ("group", ((1, 1), 0, 0), ((2, 1), 0, 0))),
    square((4, 1), 4),
    ((5, 1), 5, ("group", ((3, 1), 0, 0), ((4, 1), 0, 0))),
    ((6, 1), 6, ("move", (3, 1), -3, 4)),
])
RECT_JSON = (
    '{{"at":[{}],"fill":null,"id":"{}","in":"{}","kind":"rect","label":"","size":[10,10],"stroke":"000000","width":1}}'
)
NESTED_JSON = [
    '{"at":[0,0],"id":"5.1","in":null,"kind":"group"}',
    '{"at":[-3,4],"id":"3.1","in":"5.1","kind":"group"}',
    RECT_JSON.format("-3,4", "1.1", "3.1"),
    RECT_JSON.format("-3,4", "2.1", "3.1"),
    RECT_JSON.format("0,0", "4.1", "5.1"),
]
LINE = log([((1, 1), 1, ("create", "line", 5, -6, 7, -8, 'a"b\\é'))])
LINE_EVENTS = (
    '[{"clock":1,"h":-8,"kind":"line","label":"a\\"b\\\\é","op":"create","seq":1,"site":1,"w":7,"x":5,"y":-6}]\n'
)

# What undos and redos make, as event 9.1, and its further keys in front of those that come last.
TIES_JSON = '"ties":[{"id":"1.1","link":null},{"id":"2.1","link":{"dx":5,"dy":-6,"id":"2.2"}}]'
TURNED = list(zip(OPS[-5:], [
    '"at":[1,-2],"clock":9,"dissolved":false,"fill":null,"id":"1.2","kind":"ellipse","label":"a label",'
    '"link":{"dx":5,"dy":-6,"id":"2.2"},"op":"restore","rank":{"low":"3.1"},"seq":1,"site":1,"size":[3,-4],"stroke":"00AB0C",'
    '"ties":[],"width":64',
    '"at":[1,-2],"clock":9,"dissolved":true,"fill":null,"id":"1.2","kind":"group","label":"","link":null,"op":"restore",'
    '"rank":{"high":"1.2"},"seq":1,"site":1,"size":[0,0],"stroke":"000000",' + TIES_JSON + ',"width":1',
    '"clock":9,"id":"1.2","op":"disband","seq":1,"site":1,' + TIES_JSON,
    '"clock":9,"id":"1.2","op":"rerank","rank":{"high":"8.16"},"seq":1,"site":1',
    '"clock":9,"id":"1.2","op":"reopen","seq":1,"site":1',
]))


class Records(Case):
    def test_each_operation_is_written_as_it_was_read_and_is_short_without_all_of_its_check(self):
        for op in OPS:
            given = log([((9, 1), 1, op)])
            cut = given[:-2]
            self.expect_all([
                (["upgrade"], given, DONE, given),
                (["upgrade"], cut, BAD_LOG, f"bad log at {len(cut)}: Short\n"),
            ])

    def test_groups_and_events_as_json(self):
        self.expect_all([
            (["replay", "--format", "json"], NESTED, DONE, f"[{','.join(NESTED_JSON)}]\n"),
            (["replay", "--format", "events"], LINE, DONE, LINE_EVENTS),
            *((["replay", "--format", "events"], log([((9, 1), 1, op)]), DONE, f"[{{{keys}}}]\n") for op, keys in TURNED),
        ])


# The tags of what is done to a card, which is 1.1.
TAGS = {"add": 1, "title": 2, "column": 3, "vote": 4, "remove": 5}


def card_op(name, *given):
    """The bytes of an operation: a column and a title of an `add`, and what is set of a `title` or a `column`."""
    front = number(TAGS[name], 1) + (b"" if name == "add" else stamp((1, 1)))
    for each in given:
        front += number(len(each), 1) + each.encode() if isinstance(each, str) else number(each, 1)
    return front


def card_log(events):
    """A log of cards of these events, each a stamp and an operation, which are numbered site by site."""
    counts, records = {}, []
    for id, op in events:
        counts[id[1]] = counts.get(id[1], 0) + 1
        records.append(stamp(id) + number(counts[id[1]], 2) + card_op(*op))
    return cards(records)


SHIP = "card 1.1 column {} votes {} title {}\n"
# Histories of a board: each event with what comes of it, how many others are undone for that, and the cards then.
COUNTED = [
    ((1, 1), ("add", 1, "Ship"), "applied", 0, SHIP.format(1, 0, "Ship")),
    ((2, 1), ("vote",), "applied", 0, SHIP.format(1, 1, "Ship")),
    ((3, 1), ("vote",), "applied", 0, SHIP.format(1, 2, "Ship")),
    ((2, 2), ("vote",), "applied", 0, SHIP.format(1, 3, "Ship")),
]
DROPPED = [
    ((1, 1), ("add", 1, "Ship"), "applied", 0, SHIP.format(1, 0, "Ship")),
    ((3, 1), ("remove",), "applied", 0, ""),
    ((2, 2), ("vote",), "dropped", 0, ""),
]
REWORKED = [
    ((3, 2), ("title", "Sail"), "applied", 0, ""),
    ((1, 1), ("add", 2, "Ship"), "reworked", 1, SHIP.format(2, 0, "Sail")),
    ((4, 1), ("column", 3), "applied", 0, SHIP.format(3, 0, "Sail")),
]
DOCK, CREW = "card 2.1 column 1 votes 0 title Dock\n", "card 2.2 column 2 votes 0 title Crew\n"
SAIL = "card 1.2 column 1 votes 0 title Sail\n"
LISTED = [
    ((1, 1), ("add", 2, "Ship"), "applied", 0, SHIP.format(2, 0, "Ship")),
    ((2, 1), ("add", 1, "Dock"), "applied", 0, DOCK + SHIP.format(2, 0, "Ship")),
    ((1, 2), ("add", 1, "Sail"), "applied", 0, SAIL + DOCK + SHIP.format(2, 0, "Ship")),
    ((2, 2), ("add", 2, "Crew"), "applied", 0, SAIL + DOCK + SHIP.format(2, 0, "Ship") + CREW),
]


def fronts(history):
    """Each front of a history, with what a board of it prints."""
    for length in range(1, len(history) + 1):
        rows = history[:length]
        counts = [sum(row[2] == outcome for row in rows) for outcome in ("applied", "dropped", "reworked")]
        shown, undone = rows[-1][4], sum(row[3] for row in rows)
        words = "arrivals applied {} dropped {} reworked {} undone {}\n".format(*counts, undone)
        yield card_log([row[:2] for row in rows]), f"{shown}end {shown.count(chr(10))}\n{words}"


# Site 1 adds a card to column 2; site 2 puts it into column 16 and votes for it; site 1 takes it away before the vote.
SHIPPED = card_log([((1, 1), ("add", 2, "Ship")), ((2, 2), ("column", 16)), ((3, 2), ("vote",)), ((3, 1), ("remove",))])
RAISED = log([((2, 1), 1, ("raise", (1, 1)))], version=1)
NO_COLUMN = card_log([((1, 1), ("add", 0, ""))])[:23]
MAGIC = "bad log at 0: Magic\n"


class Cards(Case):
    def test_each_event_of_a_board_comes_to_its_outcome(self):
        for history in (COUNTED, DROPPED, REWORKED, LISTED):
            self.expect_all([(["board", "--counts"], given, DONE, text) for given, text in fronts(history)])

    def test_each_kind_of_log_is_read_as_itself(self):
        self.expect_all([
            (["board", "--counts"], SHIPPED, DONE, "end 0\narrivals applied 3 dropped 0 reworked 1 undone 1\n"),
            (["replay"], SHIPPED, BAD_LOG, MAGIC),
            (["board"], RAISED, BAD_LOG, MAGIC),
            (["replay"], RAISED, DONE, "end 0\n"),
            (["board"], NO_COLUMN, BAD_LOG, "bad log at 22: Field\n"),
            (["replay"], NO_COLUMN, BAD_LOG, MAGIC),
        ])
