"""What is seen at once while one draws, before anything is typed, and what the other one sees of who draws."""

from page.tests.browse_board import WithBoard
from page.tests.browser import Page
from page.tests.places import wait_for

# Keeps the words that are painted over the board, and the dashes of lines.
SPY = """
window.painted = [];
const { c } = ed.overlay.pen;
for (const [name, kept] of [['fillText', (text) => text], ['setLineDash', (dash) => dash.join(' ')]]) {
  const paint = CanvasRenderingContext2D.prototype[name];
  c[name] = function (...given) { window.painted.push(kept(given[0])); return paint.apply(this, given); };
}
"""


class Seen(WithBoard):
    def setUp(self):
        super().setUp()
        self.page = self.one
        self.page.do(f"if (!window.painted) {{ {SPY} }}; ed.setTool('select'); window.painted.length = 0")

    def painted(self, words):
        """Whether words stand over the board, or a line is dashed so."""
        return self.page.ask("window.painted.includes(arguments[0])", words)

    def test_the_size_stands_at_what_is_made_and_resized(self):
        for key in ("r", "o"):
            self.page.press(key)
            self.page.press_at((300, 300), (350, 330), (420, 360))
            wait_for(lambda: self.painted("120 × 60"))
            self.assertEqual(self.page.ids(), [])
            self.typed_by(self.page, self.page.release)
            self.page.do("window.painted.length = 0")
            self.clear()
        (name,) = self.make(self.page, "create rect 300 200 100 60", select=True)
        self.page.press_at((405, 265), (430, 290), (455, 305))
        wait_for(lambda: self.painted("150 × 100"))
        self.assertEqual(self.page.ask("ed.model.byId.get(arguments[0]).w", name), 100)
        self.assert_typed(self.page, self.page.release, f"resize {name} 150 100")

    def test_what_is_made_snaps_and_shows_to_what(self):
        self.make(self.page, "create rect 300 200 100 60")
        self.page.press("r")
        self.page.press_at((500, 300), (550, 330), (597, 403))
        self.page.move_to((597, 403))
        self.assertEqual(len(self.page.ask("ed.ghosts")), 1)
        lines = self.typed_by(self.page, self.page.release)
        self.assertEqual(lines[0].split()[1:4], ["rect", "500", "300"])
        self.assertIsNone(self.page.ask("ed.ghosts"))

    def test_a_band_and_what_it_takes_are_seen(self):
        (rect,) = self.make(self.page, "create rect 300 200 100 60")
        self.page.press_at((250, 150), (260, 160), (450, 300))
        self.assertEqual([self.page.ask("ed.band"), self.page.selected()], [{"x0": 250, "y0": 150, "x1": 450, "y1": 300}, [rect]])
        self.assert_typed(self.page, self.page.release)
        self.assertIsNone(self.page.ask("ed.band"))

    def test_a_group_that_was_entered_has_a_dashed_frame(self):
        one, two, group = self.make(self.page, "create rect 300 200 100 60", "create rect 500 200 100 60", "group @1 @2")
        self.page.click_twice((330, 200))
        wait_for(lambda: self.painted("4 4"))

    def test_copies_are_seen_faint_and_what_is_copied_stays(self):
        (rect,) = self.make(self.page, "create rect 300 200 100 60", "fill @1 DAE6FF", select=True)
        self.page.hold("alt")
        self.page.press_at((350, 230), (370, 250), (450, 330))
        self.assertEqual(self.page.ask("ed.ghosts.map((ghost) => [ghost.box.x0, ghost.faint])"), [[400, True]])
        self.assertEqual(self.page.ask("ed.model.over.size"), 0)
        (create, _) = self.typed_by(self.page, self.page.release)
        self.page.let_go("alt")
        self.assertEqual(create, "create rect 400 300 100 60")

    def test_small_shapes_have_one_handle(self):
        (rect,) = self.make(self.page, "create rect 300 200 14 14", select=True)
        self.assertEqual(self.page.ask("ed.overlay.handlesOf(20, 20)"), ["se"])
        self.assert_typed(self.page, lambda: self.page.drag((319, 219), (339, 239), hold=["ctrl"]), f"resize {rect} 34 34")

    def test_proportions_and_directions_are_kept_with_shift(self):
        (rect,) = self.make(self.page, "create rect 300 200 100 60", select=True)
        self.assert_typed(self.page, lambda: self.page.drag((405, 230), (505, 230), hold=["ctrl", "shift"]), f"resize {rect} 200 120", f"move {rect} 300 170")
        self.clear()
        (line,) = self.make(self.page, "create line 300 200 100 0", select=True)
        # To the next of 24 directions, by a hair from 30 degrees.
        self.assert_typed(self.page, lambda: self.page.drag((400, 200), (472, 302), hold=["shift"]), f"resize {line} 173 100")

    def test_a_drag_with_the_text_tool_says_how_wide_the_text_is(self):
        def write():
            self.page.press("t")
            self.page.drag((400, 300), (600, 360))
            self.page.write("Words that are wider than what was drawn for them")
            self.page.click((900, 600))

        (create, *_) = self.typed_by(self.page, write)
        self.assertEqual(create.split()[:5], ["create", "text", "400", "300", "200"])

    def test_who_leaves_looks_at_nothing_any_more(self):
        (rect,) = self.make(self.two, "create rect 300 200 100 60")
        seen = "ed.people.others().flatMap((seat) => [...seat.selection])"
        self.two.do("ed.selection.set([arguments[0]], null)", rect)
        wait_for(lambda: self.one.ask(seen) == [rect])
        self.two.driver.get("about:blank")
        wait_for(lambda: self.one.ask(seen) == [])
        self.two.driver.get(self.runs[1].address)
        self.pages[1] = type(self).two = Page(self.two.driver)
        self.wait_until_same()
