"""How many lines there may be, how many notes and edits a site makes, how deep a drawing may be, and how much may be shown."""

import resource

from tests.nodes import answered
from tests.program import DONE, LINE_LIMIT, Case, at_a_time, run_program
from tests.spelled import CLOSED, OPEN, header, log, number, record, square

MOST = 65_535
SQUARE = "rect {} in {} at {} size 10 10 stroke 000000 fill none width 1\n"


def filled(line, answer, last):
    """What is typed and printed where a line is typed as often as a site has notes or edits."""
    typed = f"{line}\n" * MOST + last
    return typed, "ready 1 of 1\n" + "".join(answer.format(number) for number in range(1, MOST + 1))


class Limits(Case):
    def expect_node(self, typed, printed, status=DONE):
        node = answered((1, 1), typed)
        self.assertEqual(node.status, status)
        self.assertTrue(node.text == printed, f"other lines: {node.text[:100]!r} .. {node.text[-100:]!r}")

    def test_there_are_a_million_lines_at_most(self):
        for end, status, text in [("", DONE, ""), ("x", LINE_LIMIT, "line limit\n"), ("quit\n", LINE_LIMIT, "line limit\n")]:
            self.expect_node("\n" * 1_000_000 + end, f"ready 1 of 1\n{text}", status)

    def test_a_site_makes_65535_notes(self):
        typed, printed = filled("focus -", "noted {}\n", "name Bob\nfocus 1.1\nwho\n")
        self.expect_node(typed, printed + "refused: NoteEnd\nrefused: NoteEnd\nwho 1 - focus -\nend 1\n")

    def test_a_site_makes_65535_edits(self):
        typed, printed = filled("create rect 0 0 10 10", "ok {}.1\n", "create rect 0 0 10 10\nundo\nredo\nraise 9.2\nstatus\n")
        full = "refused: SessionFull\n"
        self.expect_node(typed, f"{printed}{2 * full}refused: NothingBack\n{full}held 65535 kept 0 line 65535 clock 65535\n")

    # Its work doesn't grow with the events that are held: together it takes no longer than by itself.
    def test_many_shows_of_sixty_thousand_events(self):
        moves = "create rect 0 0 10 10\n" + "".join(f"move 1.1 {x} 0\n" for x in range(2, 60_001))
        oks = "ready 1 of 1\n" + "".join(f"ok {clock}.1\n" for clock in range(1, 60_001))
        shows, shown = "show\n" * 20_000, (SQUARE.format("1.1", "-", "{}") + "end 1\n") * 20_000
        alone = self.time_of("create rect 0 0 10 10\n" + shows, "ready 1 of 1\nok 1.1\n" + shown.replace("{}", "0 0"))
        alone += self.time_of(moves, oks)
        self.assertLess(self.time_of(moves + shows, oks + shown.replace("{}", "60000 0")), 2 * alone + 1)

    def time_of(self, typed, printed):
        """The processor time of a node that is typed this, in seconds."""
        before = resource.getrusage(resource.RUSAGE_CHILDREN).ru_utime
        self.expect_node(typed, printed)
        return resource.getrusage(resource.RUSAGE_CHILDREN).ru_utime - before


DEPTH = 50_000
LEAVES = 50_000


def nested():
    """A log of squares by site 1 and groups by site 2: the first two squares are in the first group, which is in the second group
    with the third square, and so on. Each group is shifted by 1 0 in the next one."""
    events = [square((1, 1), 1)]
    for depth in range(1, DEPTH + 1):
        clock = 2 * depth
        inner = ((1, 1), 0, 0) if depth == 1 else ((clock - 1, 2), 1, 0)
        events.append(square((clock, 1), depth + 1))
        events.append(((clock + 1, 2), depth, ("group", inner, ((clock, 1), 0, 0))))
    return log(events, version=1, closed=False)


def nested_text():
    """The groups from the outermost to the innermost, and then the squares from the innermost group to the outermost."""
    lines = []
    for x in range(DEPTH):
        clock = 2 * (DEPTH - x) + 1
        lines.append(f"group {clock}.2 in {f'{clock + 2}.2' if x else '-'} at {x} 0\n")
    lines.append(SQUARE.format("1.1", "3.2", f"{DEPTH - 1} 0"))
    lines += [SQUARE.format(f"{2 * depth}.1", f"{2 * depth + 1}.2", f"{DEPTH - depth} 0") for depth in range(1, DEPTH + 1)]
    return "".join(lines) + f"end {2 * DEPTH + 1}\n"


def tree():
    """A log of squares by sites 1 and 2, and of groups by site 3: each 32 squares are in a group, each 32 of these groups in
    another one, and so on up to the one group that holds them all."""
    level = [(number, site) for number in range(1, LEAVES + 1) for site in (1, 2)]
    events = [square(id, id[0]) for id in level]
    turn = 0
    for _ in range(4):
        above = []
        for first in range(0, len(level), 32):
            turn += 1
            above.append((LEAVES + turn, 3))
            events.append((above[-1], turn, ("group", *[(id, 0, 0) for id in level[first : first + 32]])))
        level = above
    return log(events, version=1, sites=3, closed=False)


def many(sites=10, turns=16_000):
    """A log of as many rects of each site, and the lines of these, by their stamps."""
    ids = [(clock, site) for clock in range(1, turns + 1) for site in range(1, sites + 1)]
    text = "".join(SQUARE.format(f"{clock}.{site}", "-", "0 0") for clock, site in ids) + f"end {len(ids)}\n"
    return log([square(id, id[0]) for id in ids], version=1, sites=sites), text


class Large(Case):
    # In the tree there are 3,125 groups of squares, 98 groups of these, 4 groups of these, and one of all.
    def test_deep_and_wide_drawings(self):
        deep, wide = at_a_time(run_program, [(["replay"], nested()), (["replay"], tree())])
        self.assertEqual((deep.status, wide.status), (DONE, DONE))
        self.assertTrue(deep.text == nested_text(), "other lines")
        self.assertTrue(wide.text.startswith("group 53228.3 in - at 0 0\n"), wide.text[:100])
        self.assertTrue(wide.text.endswith("\nend 103228\n"), wide.text[-100:])

    def test_more_than_a_hundred_thousand_events(self):
        given, text = many()
        ended = run_program(["replay"], given)
        self.assertEqual(ended.status, DONE)
        self.assertTrue(ended.text == text, "other lines")

    # A square, and moves of it in stamp order by all sites, as many as a log may have. So want of memory is said of no log of
    # drawings because of its length alone.
    def test_the_most_events_of_a_log(self):
        create, move = record(*square((1, 1), 1)), record((1, 1), 1, ("move", (1, 1), 7, 8))[9:]
        events = [create]
        for clock in range(1, MOST + 1):
            stamp, turn = number(clock, 6), number(clock, 2)
            events += [stamp + number(site, 1) + turn + move for site in range(1, 17) if (clock, site) != (1, 1)]
        given = header(sites=16, version=2) + OPEN + OPEN.join(events) + CLOSED
        counts = f"arrivals applied {16 * MOST} dropped 0 reworked 0 undone 0\n"
        ended = run_program(["replay", "--counts"], given)
        self.assertEqual((ended.text, ended.status), (SQUARE.format("1.1", "-", "7 8") + "end 1\n" + counts, DONE))
