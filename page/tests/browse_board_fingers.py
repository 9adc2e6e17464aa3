"""Each gesture of the board by fingers, over two nodes: the lines that the node took."""

from page.tests.browse_board import WithBoard
from page.tests.browse_board_touch import way
from page.tests.browse_connectors import DOTS
from page.tests.places import wait_for

MENU = "document.querySelector('[role=menu]:not([hidden])') !== null"


class Fingers(WithBoard):
    def setUp(self):
        super().setUp()
        self.page = self.one

    def swipe(self, begin, end):
        self.page.swipe(*way(begin, end))

    def view(self):
        return self.page.ask("[ed.camera.x, ed.camera.y, ed.camera.zoom]")

    def test_tools_are_tapped_and_draw(self):
        rows = [
            ("rect", (300, 200), (450, 300), "rect 300 200 150 100"), ("ellipse", (450, 300), (300, 200), "ellipse 300 200 150 100"),
            ("line", (300, 200), (360, 320), "line 300 200 60 120"),
        ]
        for tool, begin, end, made in rows:
            self.clear()
            self.page.tap_on(f"[data-tool={tool}]")
            self.assertEqual(self.page.ask("ed.tool"), tool)
            (name,) = self.made_by(lambda: self.swipe(begin, end), f"create {made}")
            self.assertEqual(self.page.selected(), [name])

    def made_by(self, act, create):
        """What an act made by this line, and others for its style."""
        lines = self.typed_by(self.page, act)
        self.assertEqual(lines[0], create)
        return self.page.selected()

    def test_a_tap_makes_a_usual_one(self):
        for tool, made in (("rect", "rect 320 260 160 80"), ("ellipse", "ellipse 320 260 160 80"), ("line", "line 320 300 160 0")):
            self.clear()
            self.page.tap_on(f"[data-tool={tool}]")
            self.made_by(lambda: self.page.swipe((400, 300)), f"create {made}")

    def test_the_hand_moves_the_view_by_one_finger(self):
        (rect,) = self.make(self.page, "create rect 600 400 300 200", "fill @1 DAE6FF")
        self.page.tap_on("[data-tool=hand]")
        self.assert_typed(self.page, lambda: self.swipe((700, 500), (640, 460)))
        self.assertEqual(self.view(), [60, 40, 1])
        self.page.tap_on("[data-tool=select]")
        self.assert_seen(rect, x=600, y=400)

    def test_a_tap_selects_and_one_beside_all_selects_nothing(self):
        rect, line = self.make(self.page, "create rect 300 200 100 60", "create line 300 400 100 100")
        # Fingers are wide: an edge and a line count from 14 pixels on.
        for place, wanted in (((288, 230), [rect]), ((700, 600), []), ((340, 460), [line]), ((700, 600), [])):
            self.assert_typed(self.page, lambda: self.page.swipe(place))
            self.assertEqual(self.page.selected(), wanted)

    def test_a_finger_on_paper_draws_a_band(self):
        rect, oval = self.make(self.page, "create rect 300 200 100 60", "create ellipse 500 200 100 60")
        self.assert_typed(self.page, lambda: self.swipe((250, 150), (650, 300)))
        self.assertEqual(self.page.selected(), [rect, oval])

    def test_a_drag_snaps_and_goes_along_at_the_windows_edge(self):
        third = self.make(self.page, *(f"create rect {x} 300 80 60" for x in (200, 320, 480)), *(f"fill @{at} DAE6FF" for at in (1, 2, 3)))[2]
        self.assert_typed(self.page, lambda: self.swipe((520, 330), (483, 334)), f"move {third} 440 300")
        self.page.swipe((900, 600))
        width = self.page.ask("innerWidth")
        self.page.touch("touchStart", (480, 330))
        for place in ((700, 500), (900, 500), (width - 3, 500)):
            self.page.touch("touchMove", place)
        wait_for(lambda: self.page.ask("ed.camera.x") > 60)
        self.page.touch("touchMove", (width - 3, 500), after=0.3)
        (line,) = self.typed_by(self.page, lambda: self.page.touch("touchEnd", after=0.02))
        self.assertGreater(int(line.split()[2]), width - 40)

    def test_handles_resize_also_from_beside_them(self):
        rows = [
            ((512, 332), (552, 372), ["resize {} 240 160"]), ((512, 260), (532, 260), ["resize {} 220 120"]),
            ((288, 188), (268, 168), ["resize {} 220 140", "move {} 280 180"]),
        ]
        for begin, end, lines in rows:
            self.clear()
            (rect,) = self.make(self.page, "create rect 300 200 200 120", select=True)
            self.assert_typed(self.page, lambda: self.swipe(begin, end), *(line.format(rect) for line in lines))

    def test_a_connector_is_drawn_from_a_dot_and_its_end_dragged(self):
        first, second, third = self.make(self.page, *(f"create rect {x} 300 80 80" for x in (200, 450, 700)))
        self.page.do("ed.selection.set([arguments[0]], null); ed.focusBoard()", first)
        self.settled(self.page)
        dot = self.page.do(DOTS)[1]
        (connect, _) = self.typed_by(self.page, lambda: self.swipe(dot, (490, 340)))
        self.assertEqual(connect, f"connect {first} {second}")
        (name,) = self.page.selected()
        self.assert_typed(self.page, lambda: self.swipe((452, 346), (740, 340)), f"reconnect {name} {first} {third}")

    def test_the_ends_of_a_line_are_dragged(self):
        (line,) = self.make(self.page, "create line 300 200 100 50", select=True)
        self.assert_typed(self.page, lambda: self.swipe((400, 250), (450, 300)), f"resize {line} 150 100")
        # A finger beside an end takes it along, and not to itself.
        self.assert_typed(self.page, lambda: self.swipe((290, 210), (310, 190)), f"resize {line} 130 120", f"move {line} 320 180")

    def test_a_text_is_written_made_larger_and_wrapped(self):
        self.page.tap_on("[data-tool=text]")
        self.page.swipe((400, 300))
        wait_for(lambda: self.page.ask("ed.editing"))
        self.page.write("Some words to wrap")
        self.made_text(lambda: self.page.swipe((900, 600)))
        (name,) = self.page.ids("text")
        self.page.swipe((410, 300))
        self.assertEqual(self.page.selected(), [name])
        was = self.page.item(name)
        side = (was["x"] + was["w"] + 5, round(was["y"] + was["h"] / 2))
        self.typed_by(self.page, lambda: self.swipe(side, (was["x"] + was["w"] // 2, side[1])))
        self.assertGreaterEqual(self.page.item(name)["h"], 2 * was["h"] - 1)
        self.typed_by(self.page, lambda: self.page.tap_on("#zoom [data-run=undo]"))
        corner = (was["x"] + was["w"] + 5, was["y"] + was["h"] + 5)
        self.typed_by(self.page, lambda: self.swipe(corner, (corner[0] + was["w"], corner[1] + was["h"])))
        self.assertEqual(self.page.item(name)["font"], 2 * was["font"])

    def made_text(self, act):
        (create, *_) = self.typed_by(self.page, act)
        self.assertTrue(create.startswith("create text "), create)
        return create

    def test_a_drag_with_the_text_tool_says_how_wide_the_text_is(self):
        self.page.tap_on("[data-tool=text]")
        self.swipe((400, 300), (600, 360))
        wait_for(lambda: self.page.ask("ed.editing"))
        self.page.write("Words that are wider than what was drawn for them")
        create = self.made_text(lambda: self.page.swipe((900, 600)))
        self.assertEqual(create.split()[2:5], ["400", "300", "200"])

    def test_two_taps_edit_a_shape_and_enter_a_group(self):
        one, two, group = self.make(self.page, "create rect 300 200 200 120 Before", "create rect 600 200 200 120", "group @1 @2", "fill @1 DAE6FF", "fill @2 DAE6FF")
        self.page.tap_twice((400, 260))
        self.assertEqual([self.page.selected(), self.page.ask("ed.selection.scope")], [[one], group])
        self.page.tap_twice((400, 260))
        wait_for(lambda: self.page.ask("ed.editing"))
        self.page.write("After")
        self.assert_typed(self.page, lambda: self.page.swipe((900, 600)), f"text {one} After")

    def test_the_menu_of_a_long_press_is_tapped(self):
        below, above = self.make(self.page, "create rect 300 200 200 120", "fill @1 DAE6FF", "create rect 350 250 200 120", "fill @3 FFF2AE")
        self.page.long_press((320, 220), lambda: self.page.ask(MENU))
        self.assertEqual(self.page.selected(), [below])
        # The finger that opened it chooses nothing until it has been up for a moment.
        wait_for(lambda: not self.page.ask("ed.menu.isDeaf"))
        labels = "[...document.querySelectorAll('[role=menuitem]')].map((each) => each.querySelector('span').textContent)"
        at = self.page.ask(labels).index("Bring to front")
        row = "[...document.querySelectorAll('[role=menuitem]')][arguments[0]]"
        self.page.do(f"{row}.id = 'to-front'", at)
        self.assert_typed(self.page, lambda: self.page.tap_on("#to-front"), f"raise {below}")
        self.assertEqual(self.page.ids(), [above, below])

    def test_undo_and_redo_are_tapped(self):
        (rect,) = self.make(self.page, "create rect 300 200 200 120", "fill @1 DAE6FF")
        self.assert_typed(self.page, lambda: self.swipe((400, 260), (500, 360)), f"move {rect} 400 300")
        self.assert_typed(self.page, lambda: self.page.tap_on("#zoom [data-run=undo]"), f"move {rect} 300 200")
        self.assert_typed(self.page, lambda: self.page.tap_on("#zoom [data-run=redo]"), f"move {rect} 400 300")

    def test_the_history_is_tapped_and_back_to_now(self):
        (rect,) = self.make(self.page, "create rect 300 200 200 120", "fill @1 DAE6FF")
        count = self.page.ask("ed.node.events.length")
        box = self.page.ask("(b => [b.left, b.top + b.height / 2, b.width])(document.querySelector('#history input').getBoundingClientRect())")
        self.assert_typed(self.page, lambda: self.page.swipe((round(box[0] + box[2] / 2), round(box[1]))))
        at = wait_for(lambda: self.page.ask("ed.history.at"))
        self.assertTrue(0 < at < count, (at, count))
        self.page.tap_on(".now")
        wait_for(lambda: self.page.ask("ed.history.at") is None)
        self.assert_seen(rect, fill="DAE6FF")

    def test_the_menu_of_the_file_is_tapped(self):
        (rect,) = self.make(self.page, "create rect 300 200 200 120 First")
        self.page.tap_on("#file button")
        wait_for(lambda: self.page.ask(MENU))
        self.page.do("[...document.querySelectorAll('[role=menuitem]')].find((each) => each.textContent.startsWith('List of objects')).id = 'to-list'")
        self.page.tap_on("#to-list")
        wait_for(lambda: self.page.ask("!ed.objects.closed"))
        self.page.rest()
        self.page.tap_on(f"[id='object-{rect}']")
        self.assertEqual(self.page.selected(), [rect])
        self.page.tap_on("#objects .panel-head button")
        self.assertTrue(self.page.ask("ed.objects.closed"))
