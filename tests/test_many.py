"""Tens of thousands of events that are kept: late ones among them, and what is let go of them as the line rises."""

from tests.nodes import room, started
from tests.program import DONE, Case, run_program
from tests.spelled import frame, log, square
from tests.worked import RECT

# Numbers of events, and the places among them at which three events of other sites come late: in the first row, at its ends and
# behind it, in the first block of rows and in later ones.
ROWS = [
    (0, [0]), (1, [1]), (511, [0]), (512, [0, 256, 512]), (513, [511]), (1_100, [512, 600, 1_024]), (1_536, [1_536]),
    (33_000, [300, 32_766]), (70_000, [32_000]),
]
# How many events of each of two sites a node keeps, up to which clock nothing is to come from site 3, and what is kept then. The
# sites take turns, so that the events at each clock but the last are two.
EACH = 35_000
LINES = [0, 1, 128, 256, 257, 8_200, 16_384, 16_500, 34_999]


def in_turn(count):
    """The stamps of so many events of sites 1 and 2."""
    return [(4 * (place + 1), 1 + place % 2) for place in range(count)]


def late_at(places):
    """Those of events of sites 3 to 5 in front of each of these places."""
    return [(4 * place + 1, site) for place in places for site in (3, 4, 5)]


def numbered(stamps):
    """Squares with these stamps, each with its number among those of its site."""
    turns = {}
    for stamp in stamps:
        turns[stamp[1]] = turns.get(stamp[1], 0) + 1
        yield square(stamp, turns[stamp[1]])


class Many(Case):
    def test_late_events_stand_in_their_places(self):
        for count, places in ROWS:
            stamps = in_turn(count) + late_at(places)
            lines = [RECT.format(f"{clock}.{site}", "0 0") for clock, site in sorted(stamps)]
            text = "".join(lines) + f"end {len(lines)}\narrivals applied {len(lines)} dropped 0 reworked 0 undone 0\n"
            ended = run_program(["replay", "--counts"], log(numbered(stamps), sites=5))
            self.assertEqual(ended.status, DONE, count)
            self.assertTrue(ended.text == text, count)

    # Behind each line an event of site 3 comes, which stands in front of all that is kept.
    def test_what_is_behind_the_line_is_let_go(self):
        stamps = [(clock, site) for clock in range(1, EACH + 1) for site in (1, 2)]
        with room() as folder:
            (folder / "j").write_bytes(log(numbered(stamps), sites=3))
            with started((1, 3), "--resume", journal=folder / "j") as (node, peers):
                self.assertTrue(node.is_ready())
                made = []
                for turn, line in enumerate(LINES):
                    peers[3].send(node, frame(sender=3, count=turn, clock=line, before=made))
                    self.assertEqual(node.ask("poll"), ["polled 1"])
                    held, kept = 2 * EACH + turn, 2 * (EACH - line)
                    self.assertEqual(node.ask("status"), [f"held {held} kept {kept} line {line} clock {EACH}"])
                    event = square((line + 1, 3), turn + 1)
                    peers[3].send(node, frame([event], sender=3, clock=line + 1, before=made))
                    made.append(event)
                    self.assertEqual(node.ask("poll"), [f"echo {line + 1}.3 applied create rect 0 0 10 10", "polled 1"])
                    self.assertEqual(node.ask("status")[0].split()[3], str(kept - 2))
                shown = node.ask("show")
        late = [(line + 1, 3) for line in LINES]
        lines = [RECT.format(f"{clock}.{site}", "0 0")[:-1] for clock, site in sorted(stamps + late)]
        self.assertTrue(shown == [*lines, f"end {len(lines)}"])
