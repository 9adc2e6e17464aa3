"""What becomes of a late event and of the later one behind it: each two operations on one object, and on two; and histories, event
after event."""

from collections import Counter

from tests.program import DONE, Case, run_program
from tests.spelled import PLAIN, log

# The order of the rows and columns of both tables. `hold` makes a group of which the object is a member, and `free` disbands one
# that has it; `regroup` restores the object and ties another one. `span` makes a connector that ends at the object, and `lead` leads
# another one to it; `style` sets a stroke and a dash.
DEEDS = "create delete move resize stroke fill width text group hold ungroup raise lower".split()
DEEDS += "restore regroup disband free rerank reopen connect span reconnect lead style dash".split()
# `i` where the two are independent on one object. What makes or takes it touches the whole of it, and of the others each touches
# a part of its own, but that the link is given by a hold and a free, the mark by an ungroup and a reopen, the rank by a raise,
# a lower and a rerank, the stroke by a style too, and the dash by a style and a dash. A span and a lead touch nothing of it.
INDEPENDENT = """
....................i.i..
....................i.i..
...iiiii.iiii...iii.iiiii
..i.iiii.iiii...iii.iiiii
..ii.iii.iiii...iii.iii.i
..iii.ii.iiii...iii.iiiii
..iiii.i.iiii...iii.iiiii
..iiiii..iiii...iii.iiiii
....................i.i..
..iiiiii..iii....ii.iiiii
..iiiiii.i.ii...ii..iiiii
..iiiiii.ii.....i.i.iiiii
..iiiiii.ii.....i.i.iiiii
....................i.i..
....................i.i..
....................i.i..
..iiiiii..iii....ii.iiiii
..iiiiii.ii.....i.i.iiiii
..iiiiii.i.ii...ii..iiiii
....................i.i..
iiiiiiiiiiiiiiiiiiiiiiiii
..iiiiii.iiii...iii.i.iii
iiiiiiiiiiiiiiiiiiiiiiiii
..ii.iii.iiii...iii.iii..
..iiiiii.iiii...iii.iii..
""".split()
# `c` where the row's, the later one, covers the column's on one object. What ties others is never covered.
COVERS = """
.........................
cccccccc..cccc...ccc.c.cc
..c......................
...c.....................
....c....................
.....c...................
......c..................
.......c.................
.........................
.........................
..........c.......c......
...........cc....c.......
...........cc....c.......
.........................
.........................
.........................
.........................
...........cc....c.......
..........c.......c......
.........................
.........................
.....................c...
.........................
....c..................cc
........................c
""".split()
# The object of the earlier event, its stamp where it doesn't make the object, and another object that it groups or ties.
OBJECT, EARLIER, BESIDE = (3, 1), (7, 1), (2, 3)
# The same of the later one.
LATER, BESIDE_LATER = (8, 2), (5, 4)
MAKERS = ("create", "group", "connect")
# All of an object but its id: a rect as it was made by this stamp, and a group, which alone may tie others.
WHOLE = "rect", 0, 0, 10, 10, 0, None, 1, *PLAIN, "", None, None, False, ("high", (1, 1))
TYING = "group", 0, 0, 0, 0, 0, None, 1, *PLAIN, "", None, None, False, ("high", (1, 1))


def event(deed, object, own, beside):
    """The stamp of an event, and what it does."""
    match deed:
        case "create":
            return object, (deed, "rect", 0, 0, 10, 10, "Start")
        case "group":
            return object, (deed, ((1, beside[1]), 0, 0), ((2, beside[1]), 0, 0))
        case "hold":
            return own, ("group", *((each, 0, 0) for each in sorted([object, beside])))
        case "move" | "resize":
            return own, (deed, object, 5, 5)
        case "stroke" | "fill" | "width":
            return own, (deed, object, 5)
        case "text":
            return own, (deed, object, "Begin")
        case "restore":
            return own, (deed, object, WHOLE)
        case "regroup":
            return own, ("restore", object, TYING, (beside, None))
        case "disband":
            return own, (deed, object, (beside, None))
        case "free":
            return own, ("disband", (6, beside[1]), *((each, None) for each in sorted([object, beside])))
        case "rerank":
            return own, (deed, object, ("low", (2, 1)))
        case "connect":
            return object, (deed, (1, beside[1]), (2, beside[1]), "Start")
        case "span":
            return own, ("connect", object, beside, "")
        case "reconnect":
            return own, (deed, object, beside, (1, beside[1]))
        case "lead":
            return own, ("reconnect", (6, beside[1]), beside, object)
        case "style":
            return own, (deed, object, {"stroke": 5, "dash": "dashed"})
        case "dash":
            return own, ("style", object, {deed: "dotted"})
        case _:
            return own, (deed, object)


def arriving(events):
    """A log of these events, each a stamp and an operation, which are numbered site by site."""
    turns = Counter()
    rows = []
    for id, op in events:
        turns[id[1]] += 1
        rows.append((id, turns[id[1]], op))
    return log(rows, sites=4)


def counts(applied=0, dropped=0, reworked=0, undone=0):
    return f"arrivals applied {applied} dropped {dropped} reworked {reworked} undone {undone}"


INDEPENDENTLY, COVERED, DEPENDENTLY = counts(applied=2), counts(applied=1, dropped=1), counts(applied=1, reworked=1, undone=1)


def become(mark, cover):
    return COVERED if cover == "c" else INDEPENDENTLY if mark == "i" else DEPENDENTLY


# Histories in the order in which their events arrive: each with what comes of it, and how many others are undone for that.
def square(id, x=0, kind="rect", size=10):
    return id, ("create", kind, x, 0, size, size, "")


A, B, C = (1, 1), (2, 1), (1, 2)
DROPPED = [
    (*square(A), "applied", 0),
    (B, ("move", A, 50, 50), "applied", 0),
    ((3, 1), ("move", A, 60, 60), "applied", 0),
    # It stands in front of the move at 3.1, and the drawing is not touched.
    ((2, 2), ("move", A, 90, 90), "dropped", 0),
    ((2, 3), ("delete", A), "reworked", 1),
], []
# The group at 3.2 takes 2.1, so the group at 4.1 depends on it, and the move of that group only through it.
THROUGH = [
    (*square(A), "applied", 0),
    (*square(B, 20), "applied", 0),
    ((3, 1), ("raise", A), "applied", 0),
    ((4, 1), ("group", (A, 0, 0), (B, 0, 0)), "applied", 0),
    ((5, 1), ("move", (4, 1), 5, 5), "applied", 0),
    (*square(C, 40), "applied", 0),
    ((3, 2), ("group", (C, 0, 0), (B, 0, 0)), "reworked", 2),
], [
    "group 3.2 in - at 0 0", "rect 1.2 in 3.2 at 40 0 size 10 10 stroke 000000 fill none width 1",
    "group 4.1 in - at 5 5", "rect 2.1 in 4.1 at 25 5 size 10 10 stroke 000000 fill none width 1",
    "rect 1.1 in 4.1 at 5 5 size 10 10 stroke 000000 fill none width 1",
]
RANKS = [
    (*square(A), "applied", 0),
    (*square(B, 0, "ellipse", 20), "applied", 0),
    ((5, 1), ("raise", A), "applied", 0),
    ((4, 2), ("raise", B), "applied", 0),
], [
    "ellipse 2.1 in - at 0 0 size 20 20 stroke 000000 fill none width 1",
    "rect 1.1 in - at 0 0 size 10 10 stroke 000000 fill none width 1",
]
# A late raise is covered by a lower, and a late lower by a raise.
LOWERED = [
    (*square(A), "applied", 0),
    ((3, 2), ("lower", A), "applied", 0),
    ((3, 1), ("raise", A), "dropped", 0),
    ((5, 1), ("raise", A), "applied", 0),
    ((4, 2), ("lower", A), "dropped", 0),
    ((4, 3), ("delete", A), "reworked", 1),
], []
# The delete finds nothing when it arrives, and then what the create would have made.
EFFECT_FIRST = [((3, 2), ("delete", A), "applied", 0), (*square(A), "dropped", 0)], []
# A delete and its undo. What comes late in front of the delete is covered, and what comes between the two finds nothing.
RESTORED = [
    (*square(A), "applied", 0),
    ((3, 1), ("delete", A), "applied", 0),
    ((5, 1), ("restore", A, WHOLE), "applied", 0),
    ((2, 2), ("move", A, 50, 60), "dropped", 0),
    ((4, 2), ("lower", A), "reworked", 1),
    ((6, 2), ("fill", A, 7), "applied", 0),
    ((4, 3), ("delete", A), "reworked", 2),
], ["rect 1.1 in - at 0 0 size 10 10 stroke 000000 fill 000007 width 1"]
# An undo that comes late is covered by the delete of another site, and so is a rank that is set back.
DELETED_AGAIN = [
    (*square(A), "applied", 0),
    ((3, 1), ("delete", A), "applied", 0),
    ((5, 2), ("delete", A), "applied", 0),
    ((4, 1), ("restore", A, WHOLE), "dropped", 0),
    ((4, 3), ("rerank", A, ("high", A)), "dropped", 0),
], []
# A group is taken back and made again, and both give its members their links, also one that another group took late.
GROUP = (3, 1)
GROUPED = "group", 0, 0, 0, 0, 0, None, 1, *PLAIN, "", None, None, False, ("high", GROUP)
DISBANDED = [
    (*square(A), "applied", 0),
    (*square(B, 20), "applied", 0),
    (GROUP, ("group", (A, 0, 0), (B, 0, 0)), "applied", 0),
    ((5, 1), ("disband", GROUP, (A, None), (B, None)), "applied", 0),
    (*square(C, 40), "applied", 0),
    ((4, 2), ("group", (A, 0, 0), (C, 0, 0)), "reworked", 1),
    ((6, 1), ("restore", GROUP, GROUPED, (A, (GROUP, 0, 0)), (B, (GROUP, 0, 0))), "applied", 0),
    ((5, 2), ("raise", A), "applied", 0),
    ((5, 3), ("raise", GROUP), "reworked", 1),
], [
    "group 3.1 in - at 0 0", "rect 2.1 in 3.1 at 20 0 size 10 10 stroke 000000 fill none width 1",
    "rect 1.1 in 3.1 at 0 0 size 10 10 stroke 000000 fill none width 1",
    "group 4.2 in - at 0 0", "rect 1.2 in 4.2 at 40 0 size 10 10 stroke 000000 fill none width 1",
]
# A mark and a rank that are set back cover what set them, and are covered.
SET_BACK = [
    (*square(A), "applied", 0),
    (*square(B, 20), "applied", 0),
    (GROUP, ("group", (A, 0, 0), (B, 0, 0)), "applied", 0),
    ((4, 1), ("ungroup", GROUP), "applied", 0),
    ((6, 1), ("reopen", GROUP), "applied", 0),
    ((5, 2), ("ungroup", GROUP), "dropped", 0),
    ((7, 1), ("raise", A), "applied", 0),
    ((9, 1), ("rerank", A, ("high", A)), "applied", 0),
    ((8, 2), ("lower", A), "dropped", 0),
    ((10, 3), ("lower", B), "applied", 0),
], [
    "group 3.1 in - at 0 0", "rect 2.1 in 3.1 at 20 0 size 10 10 stroke 000000 fill none width 1",
    "rect 1.1 in 3.1 at 0 0 size 10 10 stroke 000000 fill none width 1",
]
# Nothing of a connector hangs on its ends, and of two reconnects the later one leaves nothing of the other.
JOINED = (3, 1)
CONNECTED = [
    (*square(A), "applied", 0),
    (*square(B, 20), "applied", 0),
    (*square(C, 40), "applied", 0),
    ((4, 2), ("delete", A), "applied", 0),
    (JOINED, ("connect", A, B, ""), "applied", 0),
    ((3, 3), ("reconnect", JOINED, B, A), "applied", 0),
    ((6, 1), ("reconnect", JOINED, B, C), "applied", 0),
    ((5, 2), ("reconnect", JOINED, C, A), "dropped", 0),
    ((5, 3), ("style", JOINED, {"dash": "dashed"}), "applied", 0),
    ((5, 4), ("move", B, 30, 0), "applied", 0),
], [
    "rect 1.2 in - at 40 0 size 10 10 stroke 000000 fill none width 1",
    "rect 2.1 in - at 30 0 size 10 10 stroke 000000 fill none width 1",
    "connector 3.1 in - from 2.1 to 1.2 stroke 000000 fill none width 1 dash dashed heads end",
]
# Looks are covered where the later event sets all of them, are put before it where it sets some, and else don't meet it.
STYLED = [
    (*square(A), "applied", 0),
    ((4, 1), ("style", A, {"stroke": 0xFF0000, "dash": "dashed"}), "applied", 0),
    ((3, 2), ("stroke", A, 7), "dropped", 0),
    ((3, 3), ("style", A, {"stroke": 7, "opacity": 50}), "reworked", 1),
    ((3, 4), ("style", A, {"dash": "dotted"}), "dropped", 0),
    ((5, 2), ("style", A, {"round": 4}), "applied", 0),
    ((4, 3), ("width", A, 5), "applied", 0),
    ((4, 4), ("style", A, {"opacity": 20}), "applied", 0),
], ["rect 1.1 in - at 0 0 size 10 10 stroke FF0000 fill none width 5 dash dashed round 4 opacity 20"]
# A connector that is deleted is put back with the ends that it had.
PUT_BACK = "connector", 0, 0, 0, 0, 0, None, 1, "solid", "end", None, 100, None, None, "", (A, B), None, False, ("high", JOINED)
CUT_OFF = [
    (*square(A), "applied", 0),
    (*square(B, 20), "applied", 0),
    (JOINED, ("connect", A, B, ""), "applied", 0),
    ((6, 1), ("delete", JOINED), "applied", 0),
    ((5, 2), ("reconnect", JOINED, B, A), "dropped", 0),
    ((8, 1), ("restore", JOINED, PUT_BACK), "applied", 0),
    ((7, 2), ("reconnect", JOINED, B, A), "reworked", 1),
], [
    "rect 1.1 in - at 0 0 size 10 10 stroke 000000 fill none width 1",
    "rect 2.1 in - at 20 0 size 10 10 stroke 000000 fill none width 1",
    "connector 3.1 in - from 1.1 to 2.1 stroke 000000 fill none width 1 heads end",
]
HISTORIES = DROPPED, THROUGH, RANKS, LOWERED, EFFECT_FIRST, RESTORED, DELETED_AGAIN, DISBANDED, SET_BACK, CONNECTED, STYLED, CUT_OFF


class Relations(Case):
    def pairs(self, objects):
        """Each two operations, of which the later one arrives first and does something with one of these objects."""
        for row, later in enumerate(DEEDS):
            for column, earlier in enumerate(DEEDS):
                for object in objects:
                    first = event(earlier, OBJECT, EARLIER, BESIDE)
                    second = event(later, object, LATER, BESIDE_LATER)
                    # Events of one site come in their order.
                    if first[0] < second[0] and first[0][1] != second[0][1]:
                        yield (row, column), arriving([second, first])

    def test_two_operations_on_one_object(self):
        pairs = list(self.pairs([OBJECT]))
        # One that makes the object has the object's stamp: it is the later one of none.
        self.assertEqual(len(pairs), len(DEEDS) * (len(DEEDS) - len(MAKERS)))
        expected = [become(INDEPENDENT[row][column], COVERS[row][column]) for (row, column), _ in pairs]
        self.expect_last(pairs, expected)

    # Of the others one has the object's clock, and one its site.
    def test_two_operations_on_two_objects(self):
        pairs = list(self.pairs([(3, 2), (4, 1)]))
        self.expect_last(pairs, [INDEPENDENTLY] * len(pairs))

    def expect_last(self, pairs, expected):
        """Each log has to end with these counts."""
        for ((row, column), given), counts in zip(pairs, expected):
            ended = run_program(["replay", "--counts"], given)
            last = ended.text.splitlines()[-1] if ended.printed else ""
            self.assertEqual((ended.status, last), (DONE, counts), (DEEDS[column], "then", DEEDS[row]))

    def test_each_event_comes_to_its_outcome(self):
        for history, left in HISTORIES:
            for length in range(1, len(history) + 1):
                rows = history[:length]
                comes = Counter(outcome for _, _, outcome, _ in rows)
                ended = run_program(["replay", "--counts"], arriving([row[:2] for row in rows]))
                told = counts(**comes, undone=sum(undone for _, _, _, undone in rows))
                self.assertEqual((ended.status, ended.text.splitlines()[-1]), (DONE, told), rows)
            self.assertEqual(ended.text.splitlines()[:-2], left)
