"""Logs that are replayed: rows that were worked by hand, cuts, labels, groups, what an undo makes, and the three versions."""

from tests.program import BAD_LOG, DONE, Case
from tests.spelled import PLAIN, changed, crc32c, header, little, log, number, record, signed, square, stamp
from tests.worked import (
    CHECKED_TIE, EFFECT_FIRST, EMPTY, LOOK, LOOK_TEXT, RANKS, RANKS_TEXT, RECT, TIE, TIE_TEXT, tie_of,
)

SQUARE = "rect {} in {} at {} size 10 10 stroke 000000 fill none width 1{}\n"
# What each group has at 5 7: neither a size nor a look, nor a label.
GROUP = ("group", 5, 7, 0, 0, 0, None, 1, *PLAIN, "")


def bad_log(at, why="Field"):
    return f"bad log at {at}: {why}\n"


def rows_of(command, *rows):
    """Rows of one command, of a log and what is printed of it."""
    return [([command], given, BAD_LOG if text.startswith("bad log") else DONE, text) for given, text in rows]


class Logs(Case):
    def test_rows_worked_by_hand(self):
        lowered = changed(RANKS, [(4, 2), (79, 10), (85, 2)])
        self.expect_all(rows_of(
            "replay",
            (EMPTY, "end 0\n"),
            (EMPTY[:11], "end 0\n"),
            (EMPTY + b"\xff\xc3\0", "end 0\n"),
            (TIE, TIE_TEXT),
            (RANKS, RANKS_TEXT),
            # In version two the rect isn't raised, and the ellipse is lowered at clock 5.
            (lowered, RANKS_TEXT),
            (EFFECT_FIRST, "end 0\n"),
            (LOOK, LOOK_TEXT),
            # A lower is of version two, and what an undo makes of version three.
            (changed(RANKS, [(4, 1), (79, 10)]), bad_log(79)),
            (changed(RANKS, [(4, 2), (79, 11)]), bad_log(79)),
            (changed(RANKS, [(4, 2), (79, 14)]), bad_log(79)),
            (changed(RANKS, [(4, 7), (79, 15)]), bad_log(40, "Check")),
            # A third site in a session of two, a number that isn't next, and two events of one site with one clock.
            (changed(TIE, [(18, 3)]), bad_log(18, "NoSite")),
            (changed(TIE, [(20, 2)]), bad_log(19, "Turn")),
            (changed(TIE, [(47, 2), (49, 2)]), bad_log(41, "Backdated")),
        ))

    # The resize's width and height; what is set of the look; the stroke; the fill; the width; the label's length and its text,
    # in which é loses its second byte; and a fill that is none but for its last byte. Behind each byte that is changed and
    # its new value stands the place of the fault, which is the field's first byte.
    def test_a_field_out_of_range_is_bad(self):
        self.expect_all(rows_of("replay", *[
            (changed(LOOK, [(at, value)]), bad_log(place))
            for at, value, place in [
                (58, 0x7F, 58), (62, 1, 62), (84, 0, 84), (84, 4, 84), (85, 1, 85), (108, 1, 108), (131, 1, 131),
                (134, 0, 131), (134, 65, 131), (153, 65, 153), (154, 0x1F, 154), (158, ord("e"), 154), (181, 0xFE, 178),
            ]
        ]))

    # The faults of docs/FORMATS.md, section 6.
    def test_the_changed_logs_of_the_page(self):
        front = header(version=1)
        group = front + bytes.fromhex("C3 000000000003 01 0001 07")
        member = bytes.fromhex("000000000002 01 00000000 00000000")
        self.expect_all(rows_of(
            "replay",
            (changed(front, [(4, 4)]), bad_log(4, "Version")),
            (TIE[:32], bad_log(32, "Short")),
            (front + bytes.fromhex("C3 000000000001 01 0001 0A"), bad_log(21)),
            (group + b"\x01", bad_log(22)),
            (group + b"\x02" + member + member, bad_log(38, "MemberOrder")),
            (front + bytes.fromhex("C3 000000000002 01 0001 05 000000000001 01 01 01000000"), bad_log(30)),
            (front + bytes.fromhex("C3 000000000002 01 0001 04 000000000002 01 7F000000 00000000"), bad_log(22, "FutureId")),
        ))


class Cuts(Case):
    def expect_cuts(self, given, texts):
        """Each front of a log is Short at its end, but where it is whole."""
        fronts = [(given[:length], texts.get(length, bad_log(length, "Short"))) for length in range(len(given) + 1)]
        self.expect_all(rows_of("replay", *fronts))

    def test_a_log_is_whole_behind_a_record_and_nowhere_else(self):
        one = RECT.format("1.2", "5 5") + "end 1\n"
        self.expect_cuts(TIE, {11: "end 0\n", 40: one, 69: TIE_TEXT, 70: TIE_TEXT})

    # One operation of each tag, in the order 1, 1, 7, 3, 4, 5, 6, 9, 8, 2.
    def test_each_tag_is_whole_behind_its_body_and_nowhere_else(self):
        ops = [
            ("create", "rect", 0, 0, 10, 10, "a"),
            ("create", "ellipse", 20, 0, 10, 10, ""),
            ("group", ((1, 1), 1, 2), ((2, 1), 3, 4)),
            ("move", (3, 1), 100, 200),
            ("resize", (1, 1), 30, 40),
            ("stroke", (2, 1), 0xFF),
            ("text", (2, 1), "é"),
            ("raise", (1, 1)),
            ("ungroup", (3, 1)),
            ("delete", (2, 1)),
        ]
        nine = log([((at, 1), at, op) for at, op in enumerate(ops, 1)], version=1)
        rect = "rect 1.1 in {} at {} size {} stroke 000000 fill none width 1 text a\n"
        ellipse = "ellipse 2.1 in {} at {} size 10 10 stroke {} fill none width 1{}\n"
        group, moved = "group 3.1 in - at 0 0\n", "group 3.1 in - at 100 200\n"
        small, large = rect.format("3.1", "101 202", "10 10"), rect.format("3.1", "101 202", "30 40")
        plain, blue = ellipse.format("3.1", "123 204", "000000", ""), ellipse.format("3.1", "123 204", "0000FF", "")
        named = ellipse.format("3.1", "123 204", "0000FF", " text é")
        alone = rect.format("-", "101 202", "30 40")
        self.expect_cuts(nine, {
            11: "end 0\n",
            41: rect.format("-", "0 0", "10 10") + "end 1\n",
            70: rect.format("-", "0 0", "10 10") + ellipse.format("-", "20 0", "000000", "") + "end 2\n",
            112: group + rect.format("3.1", "1 2", "10 10") + ellipse.format("3.1", "23 4", "000000", "") + "end 3\n",
            138: moved + small + plain + "end 3\n",
            164: moved + large + plain + "end 3\n",
            187: moved + large + blue + "end 3\n",
            208: moved + large + named + "end 3\n",
            226: moved + named + large + "end 3\n",
            244: ellipse.format("-", "123 204", "0000FF", " text é") + alone + "end 2\n",
            262: alone + "end 1\n",
            263: alone + "end 1\n",
        })


def labelled(version, text, length):
    """A log of one rect whose label has these bytes, and says that it has so many. In version three a length above 200 has two."""
    above = number(201 + (length - 201) // 256, 1) + number((length - 201) % 256, 1) if version == 3 and length > 200 else None
    event = stamp((1, 1)) + number(1, 2) + b"\x01\x01" + signed(0, 0, 10, 10) + (above or number(length, 1)) + text
    return header(version=version, sites=1) + b"\xC3" + event + (little(crc32c(event)) if version == 3 else b"")


# The characters on both sides of each edge of the forbidden ones, the greatest of each length in UTF-8, and bytes that are no
# character: alone, cut, overlong, a surrogate, and past the last one.
LABELS = [
    ("00", False), ("0A", False), ("1F", False), ("20", True), ("7E", True), ("7F", False), ("C280", False), ("C29F", False),
    ("C2A0", True), ("DFBF", True), ("EFBFBF", True), ("F48FBFBF", True), ("F4908080", False), ("80", False), ("C3", False),
    ("C328", False), ("C1BF", False), ("E09FBF", False), ("ED9FBF", True), ("EDA080", False), ("F08FBFBF", False), ("FF", False),
]


class Labels(Case):
    def test_a_label_has_at_most_as_many_bytes_as_its_version_allows(self):
        rows = [(1, 0, True), (1, 1, True), (1, 64, True), (1, 65, False), (1, 255, False)]
        rows += [(2, 65, True), (2, 200, True), (2, 201, False), (2, 255, False)]
        rows += [(3, length, length <= 500) for length in (65, 200, 201, 202, 456, 457, 500, 501, 712)]
        self.expect_all(rows_of("replay", *[
            (labelled(version, b"a" * length, length), self.rect("a" * length) if is_good else bad_log(39))
            for version, length, is_good in rows
        ]))

    def rect(self, text):
        return SQUARE.format("1.1", "-", "0 0", f" text {text}" if text else "") + "end 1\n"

    # The first byte of a length is at most 202, and of the two the second is read first.
    def test_the_length_of_a_long_label_has_its_edges(self):
        given = labelled(3, b"a" * 500, 500)
        self.assertEqual(given[39:41], b"\xCA\x2B")
        self.expect_all([(["replay"], changed(given, [(39, byte)]), BAD_LOG, bad_log(39)) for byte in (203, 255)])
        self.expect(["replay"], given[:40], BAD_LOG, bad_log(40, "Short"))

    # It is printed in one line, where a backslash is two.
    def test_a_label_of_version_three_may_have_line_feeds(self):
        texts = [b"\n", b"a\nb", b"\\n", b"\n\\"]
        lines = ["\\n", "a\\nb", "\\\\n", "\\n\\\\"]
        self.expect_all(rows_of("replay", *[(labelled(3, text, len(text)), self.rect(line)) for text, line in zip(texts, lines)]))
        self.expect_all([(["replay"], labelled(version, b"a\nb", 3), BAD_LOG, bad_log(40)) for version in (1, 2)])

    def test_a_label_is_a_text_without_control_characters(self):
        self.expect_all(rows_of("replay", *[
            (labelled(1, text, len(text)), self.rect(text.decode()) if is_good else bad_log(40))
            for text, is_good in [(bytes.fromhex(digits), is_good) for digits, is_good in LABELS]
        ]))


def grouped(members, step):
    """A log of two squares in a group of so many members, of which only the first two are there. The clocks of the members rise
    by `step` from 1 on, and the group has the clock 100."""
    front = log([square((1, 1), 1), square((2, 1), 2)], version=1, closed=False)
    group = b"\xC3" + stamp((100, 1)) + number(3, 2) + b"\x07" + number(members, 1)
    return front + group + b"".join(stamp((1 + step * k, 1)) + signed(5, 7) for k in range(members))


class Groups(Case):
    # Two squares in a group, which site 1 moves and site 2 dissolves; then both sites group the squares again where they stand.
    def test_regrouping_moves_nothing(self):
        again = ("group", ((1, 1), 5, 7), ((2, 1), 5, 7))
        regrouped = log([
            square((1, 1), 1),
            ((2, 1), 2, ("create", "rect", 20, 0, 10, 10, "")),
            ((3, 1), 3, ("group", ((1, 1), 0, 0), ((2, 1), 0, 0))),
            ((4, 1), 4, ("move", (3, 1), 5, 7)),
            ((4, 2), 1, ("ungroup", (3, 1))),
            ((5, 1), 5, again),
            ((5, 2), 2, again),
        ], version=1)
        inside = SQUARE.format("1.1", "5.2", "5 7", "") + SQUARE.format("2.1", "5.2", "25 7", "")
        self.expect(["replay"], regrouped, DONE, f"group 5.1 in - at 0 0\ngroup 5.2 in - at 0 0\n{inside}end 4\n")

    # Four squares; 1.1 and 2.1 in the group 5.1, which is deleted; 3.1 and 4.1 in the group 6.1, which is dissolved; both groups
    # in the group 7.1. The groups 6.1 and 7.1 are moved, and 3.1 is raised.
    def test_deleted_and_dissolved_groups_are_seen_through(self):
        ops = [("create", "rect", x, 0, 10, 10, "") for x in range(4)] + [
            ("group", ((1, 1), 0, 0), ((2, 1), 0, 0)),
            ("group", ((3, 1), 10, 1), ((4, 1), 20, 2)),
            ("group", ((5, 1), 0, 0), ((6, 1), 100, 0)),
            ("move", (6, 1), 1000, 40),
            ("move", (7, 1), 10000, -100),
            ("delete", (5, 1)),
            ("ungroup", (6, 1)),
            ("raise", (3, 1)),
        ]
        nested = log([((at, 1), at, op) for at, op in enumerate(ops, 1)], version=1)
        inside = SQUARE.format("4.1", "7.1", "11123 -58", "") + SQUARE.format("3.1", "7.1", "11112 -59", "")
        self.expect(["replay"], nested, DONE, f"group 7.1 in - at 10000 -100\n{inside}end 3\n")

    # The group's record stands at 70, its number of members at 80, and its members, of 15 bytes each, from 81 on. Its own stamp
    # has the clock 100. Members that aren't there change nothing.
    def test_a_group_has_two_to_thirty_two_members_that_rise(self):
        both = SQUARE.format("1.1", "100.1", "5 7", "") + SQUARE.format("2.1", "100.1", "5 7", "")
        alone = SQUARE.format("1.1", "100.1", "5 7", "")
        whole, first = f"group 100.1 in - at 0 0\n{both}end 3\n", SQUARE.format("2.1", "-", "0 0", "")
        self.expect_all(rows_of("replay", *[
            (grouped(members, step), text)
            for members, step, text in [
                (0, 1, bad_log(80)),
                (1, 1, bad_log(80)),
                (2, 1, whole),
                (32, 1, whole),
                (33, 1, bad_log(80)),
                (255, 1, bad_log(80)),
                (2, 0, bad_log(96, "MemberOrder")),
                (2, 98, f"{first}group 100.1 in - at 0 0\n{alone}end 3\n"),
                (2, 99, bad_log(96, "FutureId")),
            ]
        ]))


# Two rects, a group of both and a move of it; the group is disbanded, put back as it was and dissolved, which is taken back; and
# then one of the rects, which was raised, lies where it lay.
TURNED = [
    square((1, 1), 1),
    ((2, 1), 2, ("create", "rect", 20, 0, 10, 10, "")),
    ((3, 1), 3, ("group", ((1, 1), 0, 0), ((2, 1), 0, 0))),
    ((4, 1), 4, ("move", (3, 1), 5, 7)),
    ((5, 1), 5, ("disband", (3, 1), ((1, 1), None), ((2, 1), None))),
    ((6, 1), 6, ("restore", (3, 1), (*GROUP, None, None, False, ("high", (3, 1))), ((1, 1), ((3, 1), 0, 0)), ((2, 1), ((3, 1), 0, 0)))),
    ((7, 1), 7, ("ungroup", (3, 1))),
    ((8, 1), 8, ("reopen", (3, 1))),
    ((9, 1), 9, ("raise", (1, 1))),
    ((10, 1), 10, ("rerank", (1, 1), ("low", (9, 1)))),
]
FIRST, SECOND = (f"rect {id} in {{}} at {{}} size 10 10 stroke 000000 fill none width 1\n" for id in ("1.1", "2.1"))
INSIDE = "group 3.1 in - at {}\n" + FIRST.replace("{}", "3.1", 1) + SECOND.replace("{}", "3.1", 1) + "end 3\n"
OUTSIDE = FIRST.replace("{}", "-", 1) + SECOND.replace("{}", "-", 1) + "end 2\n"
# What each event leaves, but for the first two.
LEFT = [
    INSIDE.format("0 0", "0 0", "20 0"), INSIDE.format("5 7", "5 7", "25 7"), OUTSIDE.format("0 0", "20 0"),
    INSIDE.format("5 7", "5 7", "25 7"), OUTSIDE.format("5 7", "25 7"), INSIDE.format("5 7", "5 7", "25 7"),
    f"group 3.1 in - at 5 7\n{SECOND.format('3.1', '25 7')}{FIRST.format('3.1', '5 7')}end 3\n",
    INSIDE.format("5 7", "5 7", "25 7"),
]


class TakenBack(Case):
    def test_each_event_leaves_what_it_says(self):
        logs = [log(TURNED[:count]) for count in range(3, len(TURNED) + 1)]
        self.expect_all(rows_of("replay", *zip(logs, LEFT)))

    # Of a restore the id is at 22, its object from 29 on: the label's length at 65, the flag of the ends at 66, of the link at 67, the
    # stamp of its group at 68; its number of ties is behind the rank, and each tie an id and a link.
    def test_each_field_of_a_restore_has_its_fault(self):
        whole = ("group", 1, 2, 3, 4, 0xAB0C, None, 64, *PLAIN, "", None, ((2, 1), 5, -6), False, ("high", (2, 1)))
        given = log([((9, 1), 1, ("restore", (1, 1), whole, ((3, 1), None), ((4, 1), ((5, 1), 7, -8))))])
        self.assertEqual((given[21], given[22:29], given[67:75], len(given)), (11, stamp((1, 1)), b"\1" + stamp((2, 1)), 129))
        self.expect_all([(["replay"], changed(given, [row[:2]]), BAD_LOG, bad_log(*row[2:])) for row in [
            (28, 17, 28, "Field"), (27, 9, 22, "FutureId"), (29, 0, 29, "Field"), (29, 7, 29, "Field"), (29, 6, 66, "Field"), (29, 1, 92, "Field"), (30, 0x7F, 30, "Field"),
            (46, 1, 46, "Field"), (50, 1, 50, "Field"), (54, 0, 54, "Field"), (54, 65, 54, "Field"), (55, 3, 55, "Field"),
            (56, 4, 56, "Field"), (57, 0, 57, "Field"), (61, 0, 61, "Field"), (61, 101, 61, "Field"), (62, 4, 62, "Field"),
            (64, 4, 64, "Field"), (65, 201, 65, "Field"), (66, 2, 66, "Field"),
            (67, 2, 67, "Field"), (74, 0, 74, "Field"), (73, 9, 68, "FutureId"), (73, 1, 68, "FutureId"), (75, 0x7F, 75, "Field"),
            (83, 2, 83, "Field"), (84, 2, 84, "Field"), (91, 17, 91, "Field"), (90, 9, 85, "FutureId"), (92, 33, 92, "Field"),
            (98, 9, 93, "FutureId"), (100, 2, 100, "Field"), (106, 3, 101, "MemberOrder"), (106, 9, 101, "FutureId"),
            (114, 4, 109, "FutureId"), (114, 9, 109, "FutureId"), (116, 0x7F, 116, "Field"),
        ]])
        self.expect(["replay"], given, DONE, "end 0\n")
        self.expect_cut(given)

    def test_a_disband_has_a_tie_at_least_and_a_rank_is_high_or_low(self):
        disband = log([((9, 1), 1, ("disband", (1, 1), ((3, 1), None)))])
        rerank = log([((9, 1), 1, ("rerank", (1, 1), ("low", (8, 16))))])
        self.expect_all([(["replay"], changed(given, [row[:2]]), BAD_LOG, bad_log(*row[2:])) for given, *row in [
            (disband, 29, 0, 29, "Field"), (disband, 29, 33, 29, "Field"), (disband, 35, 9, 30, "FutureId"),
            (rerank, 29, 2, 29, "Field"), (rerank, 35, 9, 30, "FutureId"), (rerank, 35, 0, 30, "Field"),
        ]])
        for given in (disband, rerank, log([((9, 1), 1, ("reopen", (1, 1)))])):
            self.expect(["replay"], given, DONE, "end 0\n")
            self.expect_cut(given)

    def expect_cut(self, given):
        """The record, which is the only one, is whole behind its check alone."""
        self.expect_all([(["replay"], given[:size], BAD_LOG, bad_log(size, "Short")) for size in range(12, len(given) - 1)])


class Versions(Case):
    def long_of(self, version):
        """The tie's log in that version, where the rect's label is 65 letters `a`."""
        rect, ellipse = ("create", "rect", 5, 5, 10, 10, "a" * 65), ("create", "ellipse", 0, 0, 20, 20, "")
        return log([((1, 2), 1, rect), ((1, 1), 1, ellipse)], version=version)

    def test_each_version_is_read_and_no_other(self):
        self.expect_all(
            rows_of("replay", *[(tie_of(version), TIE_TEXT) for version in (1, 2, 3)])
            + [([word], changed(tie, [(4, byte)]), BAD_LOG, bad_log(4, "Version"))
               for tie in (TIE, CHECKED_TIE) for byte in (0, 3, 4, 5, 6, 8, 0x87) for word in ("replay", "upgrade")]
        )

    def test_an_upgraded_log_has_the_version_three_its_checks_and_its_gate(self):
        self.expect_all([
            *((["upgrade"], tie_of(version), DONE, tie_of(3)) for version in (1, 2, 3)),
            (["upgrade"], TIE[:11], DONE, header() + b"\0"),
            (["upgrade"], TIE + b"behind", DONE, tie_of(3)),
            (["upgrade"], TIE[:-1] + b"\x01", DONE, tie_of(3)),
            (["upgrade"], TIE[:32], BAD_LOG, bad_log(32, "Short")),
        ])

    def test_a_long_label_is_of_version_two_and_three(self):
        rect = RECT.format("1.2", "5 5").rstrip("\n") + f" text {'a' * 65}\n"
        self.expect_all([
            (["replay"], self.long_of(1), BAD_LOG, bad_log(39)),
            (["upgrade"], self.long_of(1), BAD_LOG, bad_log(39)),
            *((["replay"], self.long_of(version), DONE, TIE_TEXT.replace(RECT.format("1.2", "5 5"), rect)) for version in (2, 3)),
        ])
