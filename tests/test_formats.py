"""What `replay` prints in each format and with counts, and what `churn` and `board` print."""

from tests.program import BAD_LOG, DONE, Case, run_program
from tests.spelled import log, square
from tests.test_logs import labelled
from tests.test_words import NOTHING_CHURNED
from tests.worked import EFFECT_FIRST, EMPTY, RANKS, RANKS_TEXT, TIE, TIE_TEXT

TIE_JSON = (
    '[{"at":[0,0],"fill":null,"id":"1.1","in":null,"kind":"ellipse","label":"","size":[20,20],"stroke":"000000","width":1},'
    '{"at":[5,5],"fill":null,"id":"1.2","in":null,"kind":"rect","label":"","size":[10,10],"stroke":"000000","width":1}]\n'
)
TIE_EVENTS = (
    '[{"clock":1,"h":10,"kind":"rect","label":"","op":"create","seq":1,"site":2,"w":10,"x":5,"y":5},'
    '{"clock":1,"h":20,"kind":"ellipse","label":"","op":"create","seq":1,"site":1,"w":20,"x":0,"y":0}]\n'
)
EFFECT_FIRST_EVENTS = (
    '[{"clock":3,"id":"1.1","op":"delete","seq":1,"site":2},'
    '{"clock":1,"h":10,"kind":"rect","label":"","op":"create","seq":1,"site":1,"w":10,"x":0,"y":0}]\n'
)
RECT_JSON = (
    '[{{"at":[0,0],"fill":null,"id":"1.1","in":null,"kind":"rect","label":"{}","size":[10,10],"stroke":"000000","width":1}}]\n'
)
TIE_COUNTS = "arrivals applied 2 dropped 0 reworked 0 undone 0\n"

# A rect and two moves of it; then a move that the second one covers, and a delete that undoes that second one.
LATE_DELETE = log([
    square((1, 1), 1),
    ((2, 1), 2, ("move", (1, 1), 50, 50)),
    ((3, 1), 3, ("move", (1, 1), 60, 60)),
    ((2, 2), 1, ("move", (1, 1), 90, 90)),
    ((2, 3), 1, ("delete", (1, 1))),
], version=1, sites=3)

# Rects of two sites. Site 1 raises one of its own, groups both, and moves the group; then a group of site 2 comes that takes
# one of them, so that the later group and its move are undone.
LATE_GROUP = log([
    square((1, 1), 1),
    square((2, 1), 2),
    ((3, 1), 3, ("raise", (1, 1))),
    ((4, 1), 4, ("group", ((1, 1), 0, 0), ((2, 1), 0, 0))),
    ((5, 1), 5, ("move", (4, 1), 5, 5)),
    square((1, 2), 1),
    ((3, 2), 2, ("group", ((1, 2), 0, 0), ((2, 1), 0, 0))),
], version=1)
LATE_GROUP_TEXT = (
    "group 3.2 in - at 0 0\nrect 1.2 in 3.2 at 0 0 size 10 10 stroke 000000 fill none width 1\n"
    "group 4.1 in - at 5 5\nrect 2.1 in 4.1 at 5 5 size 10 10 stroke 000000 fill none width 1\n"
    "rect 1.1 in 4.1 at 5 5 size 10 10 stroke 000000 fill none width 1\nend 5\n"
)


class Formats(Case):
    def test_a_drawing_and_events_are_one_line_of_json(self):
        self.expect_all([
            (["replay", "--format", format], given, DONE, line)
            for format, given, line in [
                ("json", TIE, TIE_JSON),
                ("events", TIE, TIE_EVENTS),
                ("json", EMPTY, "[]\n"),
                ("events", EMPTY, "[]\n"),
                ("json", EFFECT_FIRST, "[]\n"),
                ("events", EFFECT_FIRST, EFFECT_FIRST_EVENTS),
            ]
        ])

    def test_counts_follow_what_is_printed(self):
        self.expect_all([
            (["replay", "--counts", "--format", "json"], TIE, DONE, TIE_JSON + TIE_COUNTS),
            (["replay", "--counts", "--format", "events"], TIE, DONE, TIE_EVENTS + TIE_COUNTS),
            (["replay", "--counts"], EMPTY, DONE, "end 0\narrivals applied 0 dropped 0 reworked 0 undone 0\n"),
            (["replay", "--counts"], TIE, DONE, TIE_TEXT + TIE_COUNTS),
            (["replay", "--counts"], RANKS, DONE, RANKS_TEXT + "arrivals applied 4 dropped 0 reworked 0 undone 0\n"),
            (["replay", "--counts"], EFFECT_FIRST, DONE, "end 0\narrivals applied 1 dropped 1 reworked 0 undone 0\n"),
            (["replay", "--counts"], LATE_DELETE, DONE, "end 0\narrivals applied 3 dropped 1 reworked 1 undone 1\n"),
            (["replay", "--counts"], LATE_GROUP, DONE,
             LATE_GROUP_TEXT + "arrivals applied 6 dropped 0 reworked 1 undone 2\n"),
        ])

    # Quotes and backslashes have a backslash in front of them, and nothing else has.
    def test_a_label_is_a_string_of_json(self):
        self.expect_all([
            (["replay", "--format", "json"], labelled(1, text.encode(), len(text.encode())), DONE, RECT_JSON.format(written))
            for text, written in [
                ("", ""),
                ('"', '\\"'),
                ("\\", "\\\\"),
                ('a"b\\c', 'a\\"b\\\\c'),
                ("é/ '<", "é/ '<"),
                ("\U0010FFFF", "\U0010FFFF"),
                ('\\"\\n', '\\\\\\"\\\\n'),
            ]
        ])

    def test_bytes_that_are_no_log_are_refused_in_each_format(self):
        self.expect_all([
            (["replay", "--format", format, "--counts"], TIE[:32], BAD_LOG, "bad log at 32: Short\n")
            for format in ("text", "json", "events")
        ])


# Site 3 makes a rect, which site 1 gets, and deletes it. Site 1 raises and moves it, and makes another one. Of two rounds the first one
# brings all to all.
SEVEN_STEPS = (
    "".join(f"site {site} held 5 kept 0 line 4 clock 4\n" for site in range(1, 5))
    + "edits 5 refused 0 sent 25 delivered 25 idle 0\narrivals applied 9 dropped 1 reworked 5 undone 7\nsame yes\n"
)
# Then site 1 connects the two.
EIGHT_STEPS = (
    "".join(f"site {site} held 6 kept 0 line 5 clock 5\n" for site in range(1, 5))
    + "edits 6 refused 0 sent 25 delivered 25 idle 0\narrivals applied 12 dropped 1 reworked 5 undone 7\nsame yes\n"
)
# Site 3 makes a rect, which site 2 gets, another one, and a group of both, which it connects to the first one. Site 2 moves and raises that.
GROUP_STEPS = (
    "".join(f"site {site} held 6 kept 0 line 4 clock 4\n" for site in range(1, 5))
    + "edits 6 refused 0 sent 25 delivered 25 idle 0\narrivals applied 16 dropped 0 reworked 2 undone 4\nsame yes\n"
)
# Four steps without anything to work on, three rects, and an undo that is refused.
IDLE_STEPS = (
    "".join(f"site {site} held 3 kept 0 line 1 clock 1\n" for site in range(1, 5))
    + "edits 3 refused 1 sent 24 delivered 24 idle 4\narrivals applied 9 dropped 0 reworked 0 undone 0\nsame yes\n"
)


def churn(seed, steps):
    return ["churn", "--seed", str(seed), "--steps", str(steps)]


class Churns(Case):
    # The draws were worked by section 11 of docs/FORMATS.md, and the steps by hand. No input is read.
    def test_few_steps(self):
        self.expect_all([
            (churn(1, 0), b"quit\n", DONE, NOTHING_CHURNED),
            (churn(224141972, 7), b"", DONE, SEVEN_STEPS),
            (churn(224141972, 8), b"", DONE, EIGHT_STEPS),
            (churn(168112386, 8), b"", DONE, GROUP_STEPS),
            (churn(2, 8), b"", DONE, IDLE_STEPS),
        ])

    def test_three_thousand_steps(self):
        first = run_program(churn(7, 3000))
        lines = first.text.splitlines()
        words = lines[4].split()
        self.assertEqual((first.status, len(lines), lines[-1]), (DONE, 7, "same yes"))
        self.assertLess(int(words[words.index("sent") + 1]), 1000)
        self.assertEqual(run_program(churn(7, 3000)).printed, first.printed)


def cards(records):
    return b"GDOB\x01\0\0\0\x07\x01\x02" + b"".join(b"\xC3" + each for each in records) + b"\0"


# Session 7 of two sites, kept by site 1: it adds the card Ship to column 1 and votes for it twice, and then a vote of site 2
# comes late.
VOTES = cards([
    b"\0\0\0\0\0\x01\x01\0\x01\x01\x01\x04Ship",
    b"\0\0\0\0\0\x02\x01\0\x02\x04\0\0\0\0\0\x01\x01",
    b"\0\0\0\0\0\x03\x01\0\x03\x04\0\0\0\0\0\x01\x01",
    b"\0\0\0\0\0\x02\x02\0\x01\x04\0\0\0\0\0\x01\x01",
])
VOTES_TEXT = "card 1.1 column 1 votes 3 title Ship\nend 1\n"
# The card is taken away, and then a vote for it comes late.
REMOVED = cards([
    b"\0\0\0\0\0\x01\x01\0\x01\x01\x01\x04Ship",
    b"\0\0\0\0\0\x03\x01\0\x02\x05\0\0\0\0\0\x01\x01",
    b"\0\0\0\0\0\x02\x02\0\x01\x04\0\0\0\0\0\x01\x01",
])
# A title comes before the card that it is of.
TITLED = cards([b"\0\0\0\0\0\x03\x02\0\x01\x02\0\0\0\0\0\x01\x01\x04Sail", b"\0\0\0\0\0\x01\x01\0\x01\x01\x02\x04Ship"])
# Three cards in two columns, one without a title.
COLUMNS = cards([
    b"\0\0\0\0\0\x01\x01\0\x01\x01\x10\x01a",
    b"\0\0\0\0\0\x01\x02\0\x01\x01\x02\x00",
    b"\0\0\0\0\0\x02\x01\0\x02\x01\x10\x01b",
    b"\0\0\0\0\0\x03\x01\0\x03\x03\0\0\0\0\0\x01\x01\x02",
])
COLUMNS_TEXT = (
    "card 1.1 column 2 votes 0 title a\ncard 1.2 column 2 votes 0\ncard 2.1 column 16 votes 0 title b\nend 3\n"
)


class Boards(Case):
    def test_cards_are_shown_by_column(self):
        self.expect_all([
            (["board", "--counts"], VOTES, DONE, VOTES_TEXT + "arrivals applied 4 dropped 0 reworked 0 undone 0\n"),
            (["board", "--counts"], REMOVED, DONE, "end 0\narrivals applied 2 dropped 1 reworked 0 undone 0\n"),
            (["board", "--counts"], TITLED, DONE,
             "card 1.1 column 2 votes 0 title Sail\nend 1\narrivals applied 1 dropped 0 reworked 1 undone 1\n"),
            (["board"], VOTES, DONE, VOTES_TEXT),
            (["board"], COLUMNS, DONE, COLUMNS_TEXT),
        ])

    # A log of a drawing; one that is cut; a column that is none; and another version.
    def test_a_log_of_no_cards_is_refused(self):
        self.expect_all([
            (["board"], TIE, BAD_LOG, "bad log at 0: Magic\n"),
            (["board"], VOTES[:30], BAD_LOG, "bad log at 30: Short\n"),
            (["board"], cards([b"\0\0\0\0\0\x01\x01\0\x01\x01\x11"])[:-1], BAD_LOG, "bad log at 22: Field\n"),
            (["board"], b"GDOB\x02\0\0\0\x07\x01\x02", BAD_LOG, "bad log at 4: Version\n"),
        ])

    # A log of cards is none of a drawing.
    def test_cards_are_no_drawing(self):
        self.expect_all([([word], VOTES, BAD_LOG, "bad log at 0: Magic\n") for word in ("replay", "upgrade", "snapshot")])
