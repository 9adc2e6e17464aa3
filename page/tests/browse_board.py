"""What people do on the board with a mouse and keys, over two nodes: for each gesture the lines that its node took, and what
the other one sees."""

from selenium.webdriver.common.keys import Keys

from page.tests.browser import WithTwoPages
from page.tests.places import wait_for


class WithBoard(WithTwoPages):
    """Coordinates are of the board, which is shown at 100 % from its place 0 0 on."""

    def setUp(self):
        self.clear()

    def make(self, page, *lines, select=False):
        """Types lines without a gesture, and gives the ids of what they make, which both pages show then."""
        script = """
        const [lines, done] = arguments;
        const names = lines.map((line, at) => /^(create|group)/.test(line) ? `~${ed.edits.batches + 1}.${at + 1}` : null);
        ed.edits.do('made', lines).then(() => done(names.filter(Boolean).map((name) => ed.edits.idOf(name))));
        """
        ids = page.driver.execute_async_script(script, list(lines))
        wait_for(lambda: all(set(ids) <= set(each.ids()) for each in self.pages))
        self.settled(page)
        page.do("ed.selection.set(arguments[0], null); ed.focusBoard()", ids if select else [])
        return ids

    def assert_typed(self, page, act, *lines):
        self.assertEqual(self.typed_by(page, act), list(lines))

    def assert_seen(self, name, **wanted):
        """Both pages show an object so."""
        for page in self.pages:
            wait_for(lambda: (item := page.item(name)) and {key: item[key] for key in wanted} == wanted)


class Making(WithBoard):
    def test_shapes_are_drawn_by_dragging(self):
        rows = [
            ("r", (300, 200), (450, 300), ("ctrl",), "rect 300 200 150 100"),
            ("2", (450, 300), (300, 200), ("ctrl",), "rect 300 200 150 100"),
            ("o", (300, 200), (420, 260), ("ctrl", "shift"), "ellipse 300 200 120 120"),
            ("o", (300, 200), (280, 260), ("ctrl", "shift"), "ellipse 240 200 60 60"),
            ("r", (400, 300), (450, 320), ("ctrl", "alt"), "rect 350 280 100 40"),
            ("l", (300, 200), (350, 320), (), "line 300 200 50 120"),
            ("l", (300, 200), (400, 205), ("shift",), "line 300 200 100 0"),
        ]
        for key, begin, end, hold, made in rows:
            with self.subTest(made=made):
                self.clear()
                lines = self.typed_by(self.one, lambda: self.one.draw(key, begin, end, hold=hold))
                (name,) = self.one.selected()
                self.assertEqual(lines, [f"create {made}", f"width {name} 2"])
                self.assertEqual(self.one.ask("ed.tool"), "select")
                self.assert_seen(name, width=2)
        self.one.picture("board-drawn")

    def test_a_click_makes_a_usual_one(self):
        for key, made in (("r", "rect 320 260 160 80"), ("o", "ellipse 320 260 160 80"), ("l", "line 320 300 160 0")):
            self.clear()
            self.one.press(key)
            (create, _) = self.typed_by(self.one, lambda: self.one.click((400, 300)))
            self.assertEqual(create, f"create {made}")

    def test_a_kept_tool_stays(self):
        self.one.do("ed.setTool('rect', true)")
        for x in (300, 450):
            self.typed_by(self.one, lambda: self.one.drag((x, 300), (x + 60, 340), hold=["ctrl"]))
        self.assertEqual(self.one.ask("ed.tool"), "rect")
        self.assertEqual(len(self.one.ids("rect")), 2)
        self.one.press(Keys.ESCAPE)
        self.assertEqual(self.one.ask("ed.tool"), "select")

    def test_a_text_is_written_where_one_clicks(self):
        def write():
            self.one.press("t")
            self.one.click((400, 300))
            self.one.write("Two  words")
            self.one.press(Keys.ENTER, hold=["ctrl"])

        (create, *_) = self.typed_by(self.one, write)
        self.assertRegex(create, r"^create text 400 2\d\d \d+ \d+ Two  words$")
        # A double click on paper writes too, and a blank text is none.
        self.assert_typed(self.one, lambda: (self.one.click_twice((700, 500)), self.one.write("   "), self.one.click((900, 600))))
        (create,) = self.typed_by(self.one, lambda: (self.one.click_twice((700, 500)), self.one.write("here"), self.one.click((900, 600))))
        self.assertIn("here", create)

    def test_what_is_made_has_the_style_that_was_chosen(self):
        self.one.do("Object.assign(ed.style, {stroke: 'D92D20', fill: 'FFF2AE', width: 4})")
        lines = self.typed_by(self.one, lambda: self.one.draw("r", (300, 200), (400, 300)))
        (name,) = self.one.selected()
        self.assertEqual(lines[1:], [f"style {name} stroke D92D20 fill FFF2AE width 4"])
        self.one.do("Object.assign(ed.style, {stroke: '000000', fill: null, width: 2})")


class Moving(WithBoard):
    def test_what_is_dragged_is_moved_by_one_line_for_each(self):
        rect, oval = self.make(self.one, "create rect 300 200 100 60", "fill @1 DAE6FF", "create ellipse 500 200 100 60", "fill @3 DAE6FF")
        self.assert_typed(self.one, lambda: self.one.drag((350, 230), (390, 260), hold=["ctrl"]), f"move {rect} 340 230")
        self.assert_seen(rect, x=340, y=230)
        self.one.press("a", hold=["ctrl"])
        act = lambda: self.one.drag((550, 230), (570, 330), hold=["ctrl"])
        self.assert_typed(self.one, act, f"move {rect} 360 330", f"move {oval} 520 300")
        # Shift keeps to one axis.
        act = lambda: self.one.drag((550, 330), (560, 380), hold=["ctrl", "shift"])
        self.assert_typed(self.one, act, f"move {rect} 360 380", f"move {oval} 520 350")
        self.assert_seen(oval, x=520, y=350)

    def test_it_snaps_to_edges_and_equal_gaps_unless_ctrl_is_down(self):
        first, second, third = self.make(self.one, *(f"create rect {x} 300 80 60" for x in (200, 320, 480)))
        self.assertEqual(len({first, second, third}), 3)
        self.one.click((200, 330))
        self.assert_typed(self.one, lambda: self.one.press(Keys.ESCAPE))
        # The third goes to a gap of 40 behind the second, and to the second's top.
        act = lambda: self.one.drag((480, 330), (440, 330), (443, 334))
        self.assert_typed(self.one, act, f"move {third} 440 300")
        # Beside the handle in the middle of the side.
        act = lambda: self.one.drag((440, 315), (444, 319), (453, 329), hold=["ctrl"])
        self.assert_typed(self.one, act, f"move {third} 453 314")

    def test_the_guides_are_seen_while_dragging(self):
        self.make(self.one, "create rect 200 300 80 60", "fill @1 FFFFFF", "create rect 320 300 80 60", "fill @3 FFFFFF", "create rect 480 300 80 60", "fill @5 FFFFFF")
        self.one.press_at((520, 330), (500, 332), (483, 334))
        self.assertEqual([round(each["gap"]) for each in self.one.ask("ed.guides") if "gap" in each], [40, 40])
        self.one.picture("board-snapped")
        self.one.release()

    def test_alt_and_drag_makes_copies(self):
        rect, text = self.make(self.one, "create rect 300 200 100 60 A", "fill @1 DAE6FF", "create text 450 200 60 26 b")
        self.one.press("a", hold=["ctrl"])
        lines = self.typed_by(self.one, lambda: self.one.drag((350, 250), (360, 400), hold=["alt", "ctrl"]))
        first, second = self.one.selected()
        self.assertNotIn(first, (rect, text))
        self.assertEqual(lines, ["create rect 310 350 100 60 A", f"fill {first} DAE6FF", "create text 460 350 60 26 b"])
        self.assert_seen(second, label="b")

    def test_arrows_in_a_row_are_one_gesture(self):
        (rect,) = self.make(self.one, "create rect 300 200 100 60", select=True)

        def nudge():
            self.one.keys_at_once("ArrowRight", "ArrowRight", "ArrowUp", "Shift+ArrowDown")
            wait_for(lambda: self.one.item(rect)["y"] != 200)

        self.assert_typed(self.one, nudge, f"move {rect} 302 209")
        self.assert_typed(self.one, lambda: self.one.press("z", hold=["ctrl"]), f"move {rect} 300 200")

    def test_arrows_are_typed_at_once_where_something_else_is_done(self):
        rect, other = self.make(self.one, "create rect 300 200 100 60", "fill @1 DAE6FF", "create rect 500 200 100 60", "fill @3 DAE6FF")
        self.one.click((350, 230))
        self.assert_typed(self.one, lambda: (self.one.press(Keys.ARROW_RIGHT), self.one.click((550, 230))), f"move {rect} 301 200")
        self.assertEqual(self.one.selected(), [other])
        act = lambda: (self.one.press(Keys.ARROW_DOWN), self.one.press("z", hold=["ctrl"]))
        self.assert_typed(self.one, act, f"move {other} 500 201", f"move {other} 500 200")

    def test_the_view_goes_along_at_the_windows_edge(self):
        (rect,) = self.make(self.one, "create rect 300 200 100 60", "fill @1 DAE6FF")
        width = self.one.ask("innerWidth")
        self.one.press_at((350, 230), (900, 230), (width - 3, 230))
        wait_for(lambda: self.one.ask("ed.camera.x") > 60)
        lines = self.typed_by(self.one, self.one.release)
        self.assertEqual(len(lines), 1)
        self.assertGreater(int(lines[0].split()[2]), width)
        self.assert_seen(rect, y=200)


class Resizing(WithBoard):
    def test_each_handle_types_what_changes(self):
        rows = [
            ((405, 265), (425, 275), ("ctrl",), ["resize {} 120 70"]), ((405, 230), (435, 230), ("ctrl",), ["resize {} 130 60"]),
            ((350, 265), (350, 285), ("ctrl",), ["resize {} 100 80"]), ((295, 195), (275, 175), ("ctrl",), ["resize {} 120 80", "move {} 280 180"]),
            ((350, 195), (350, 165), ("ctrl",), ["resize {} 100 90", "move {} 300 170"]), ((295, 230), (305, 230), ("ctrl",), ["resize {} 90 60", "move {} 310 200"]),
            ((405, 265), (505, 275), ("ctrl", "shift"), ["resize {} 200 120"]), ((405, 265), (415, 275), ("ctrl", "alt"), ["resize {} 120 80", "move {} 290 190"]),
        ]
        for begin, end, hold, lines in rows:
            with self.subTest(begin=begin, hold=hold):
                self.clear()
                (rect,) = self.make(self.one, "create rect 300 200 100 60", select=True)
                self.assert_typed(self.one, lambda: self.one.drag(begin, end, hold=hold), *(line.format(rect) for line in lines))
        self.assert_seen(rect, w=120, h=80)

    def test_several_are_resized_together(self):
        first, second = self.make(self.one, "create rect 300 200 100 60", "create rect 500 200 100 60", select=True)
        act = lambda: self.one.drag((605, 265), (905, 265), hold=["ctrl"])
        self.assert_typed(self.one, act, f"resize {first} 200 60", f"resize {second} 200 60", f"move {second} 700 200")

    def test_the_ends_of_a_line_are_dragged(self):
        (line,) = self.make(self.one, "create line 300 200 100 50", select=True)
        self.assert_typed(self.one, lambda: self.one.drag((400, 250), (450, 300)), f"resize {line} 150 100")
        act = lambda: self.one.drag((300, 200), (310, 180))
        self.assert_typed(self.one, act, f"resize {line} 140 120", f"move {line} 310 180")

    def test_a_text_is_larger_by_its_corner_and_wraps_by_its_side(self):
        def write():
            self.one.click_twice((400, 300))
            self.one.write("Some words to wrap")
            self.one.press(Keys.ENTER, hold=["ctrl"])

        self.typed_by(self.one, write)
        (name,) = self.one.selected()
        was = self.one.item(name)
        corner, side = (was["x"] + was["w"] + 5, was["y"] + was["h"] + 5), (was["x"] + was["w"] + 5, was["y"] + was["h"] / 2)
        self.typed_by(self.one, lambda: self.one.drag(side, (was["x"] + was["w"] / 2, side[1]), hold=["ctrl"]))
        wrapped = self.one.item(name)
        self.assertEqual(wrapped["font"], was["font"])
        self.assertGreaterEqual(wrapped["h"], 2 * was["h"] - 1)
        self.typed_by(self.one, lambda: self.one.press("z", hold=["ctrl"]))
        self.typed_by(self.one, lambda: self.one.drag(corner, (corner[0] + was["w"], corner[1] + was["h"]), hold=["ctrl"]))
        self.assertEqual(self.one.item(name)["font"], 2 * was["font"])
        self.one.picture("board-text-larger")

    def test_small_shapes_are_dragged_and_not_resized(self):
        for size in (6, 8, 14):
            self.clear()
            (rect,) = self.make(self.one, f"create rect 400 300 {size} {size}", "fill @1 D92D20", select=True)
            middle = 400 + size / 2, 300 + size / 2
            lines = self.typed_by(self.one, lambda: self.one.drag(middle, (middle[0] + 40, middle[1]), hold=["ctrl"]))
            self.assertEqual([line.split()[0] for line in lines], ["move"], size)

    def test_alt_and_arrows_resize(self):
        (rect,) = self.make(self.one, "create rect 300 200 100 60", select=True)
        lines = self.typed_by(self.one, lambda: self.one.press(Keys.ARROW_RIGHT, hold=["alt"]))
        self.assertEqual(lines[-1], f"resize {rect} 101 60")


class Selecting(WithBoard):
    def test_clicks_shift_and_bands(self):
        rect, oval, line = self.make(self.one, "create rect 300 200 100 60", "create ellipse 500 200 100 60", "create line 300 400 100 100")
        rows = [
            (lambda: self.one.click((300, 230)), [rect]), (lambda: self.one.click((650, 500)), []), (lambda: self.one.click((550, 200)), [oval]),
            (lambda: self.one.click((300, 230), hold=["shift"]), [oval, rect]), (lambda: self.one.click((550, 200), hold=["shift"]), [rect]),
            (lambda: self.one.press(Keys.ESCAPE), []), (lambda: self.one.click((350, 450)), [line]), (lambda: self.one.drag((280, 180), (420, 280)), [rect]),
            (lambda: self.one.drag((480, 180), (620, 280), hold=["shift"]), [rect, oval]), (lambda: self.one.drag((350, 390), (420, 430)), []),
            (lambda: self.one.press("a", hold=["ctrl"]), [rect, oval, line]),
        ]
        for index, (act, wanted) in enumerate(rows):
            act()
            self.assertEqual(sorted(self.one.selected()), sorted(wanted), index)

    def test_a_band_in_an_unfilled_frame_selects_what_is_in_it(self):
        frame, inner = self.make(self.one, "create rect 200 150 600 400", "create rect 300 250 80 60")
        self.assert_typed(self.one, lambda: self.one.drag((250, 200), (420, 340)))
        self.assertEqual(self.one.selected(), [inner])
        self.one.click((200, 300))
        self.assertEqual(self.one.selected(), [frame])
        # Its inside is paper also while it is selected.
        self.assert_typed(self.one, lambda: self.one.drag((250, 200), (420, 340)))
        self.assertEqual(self.one.selected(), [inner])

    def test_groups_are_entered_and_left(self):
        first, second, group = self.make(self.one, "create rect 300 200 100 60", "create rect 500 200 100 60", "group @1 @2")
        # At an edge, beside the handles.
        self.one.click((330, 200))
        self.assertEqual(self.one.selected(), [group])
        self.one.click_twice((330, 200))
        self.assertEqual([self.one.selected(), self.one.ask("ed.selection.scope")], [[first], group])
        self.assert_typed(self.one, lambda: self.one.drag((300, 240), (310, 260), hold=["ctrl"]), f"move {first} 310 220")
        self.one.press(Keys.ESCAPE)
        self.assertEqual([self.one.selected(), self.one.ask("ed.selection.scope")], [[group], None])
        act = lambda: self.one.drag((500, 230), (520, 250), hold=["ctrl"])
        self.assert_typed(self.one, act, f"move {group} 20 20")
        self.assert_seen(second, x=520, y=220)
        self.assertEqual(len(set(self.one.ids())), 3)

    def test_what_is_looked_at_is_told_to_the_other_one(self):
        (rect,) = self.make(self.one, "create rect 300 200 100 60")
        self.one.click((300, 230))
        seen = "ed.people.others().flatMap((seat) => [...seat.selection])"
        wait_for(lambda: self.two.ask(seen) == [rect])
        self.two.picture("board-looked-at")
        self.one.press(Keys.ESCAPE)
        wait_for(lambda: self.two.ask(seen) == [])


class Arranging(WithBoard):
    def test_restack_align_spread_group_delete(self):
        a, b, c = self.make(self.one, "create rect 300 200 100 60", "create rect 420 230 100 60", "create rect 700 260 100 60", select=True)
        rows = [
            ("]", (), [f"raise {a}", f"raise {b}", f"raise {c}"]), ("[", (), [f"lower {c}", f"lower {b}", f"lower {a}"]),
            ("w", ("alt",), [f"move {b} 420 200", f"move {c} 700 200"]), ("h", ("alt", "shift"), [f"move {b} 500 200"]),
            ("d", ("alt",), [f"move {a} 700 200", f"move {b} 700 200"]), ("z", ("ctrl",), [f"move {b} 500 200", f"move {a} 300 200"]),
        ]
        for key, hold, lines in rows:
            self.assert_typed(self.one, lambda: self.one.press(key, hold=hold), *lines)
        self.assertEqual(self.one.ids(), [a, b, c])
        self.one.press("a", hold=["ctrl"])
        (line,) = self.typed_by(self.one, lambda: self.one.press("g", hold=["ctrl"]))
        self.assertEqual(line, f"group {a} {b} {c}")
        (group,) = self.one.selected()
        self.assert_typed(self.one, lambda: self.one.press("g", hold=["ctrl", "shift"]), f"ungroup {group}")
        self.assertEqual(sorted(self.one.selected()), sorted([a, b, c]))
        self.assert_typed(self.one, lambda: self.one.press(Keys.DELETE), f"delete {a}", f"delete {b}", f"delete {c}")
        wait_for(lambda: not self.two.ids())

    def test_lower_and_raise_keep_the_order_of_several(self):
        names = self.make(self.one, *(f"create rect {300 + 30 * at} 200 60 60" for at in range(4)))
        self.one.do("ed.selection.set(arguments[0], null)", [names[1], names[0]])
        self.typed_by(self.one, lambda: self.one.press("]"))
        self.assertEqual(self.wait_until_same() and self.one.ids(), [names[2], names[3], names[0], names[1]])
        self.typed_by(self.one, lambda: self.one.press("["))
        self.assertEqual(self.wait_until_same() and self.one.ids(), names)

    def test_40_are_grouped_by_nested_groups(self):
        names = self.make(self.one, *(f"create rect {200 + 20 * (at % 20)} {200 + 30 * (at // 20)} 10 10" for at in range(40)), select=True)
        lines = self.typed_by(self.one, lambda: self.one.press("g", hold=["ctrl"]))
        self.assertEqual([len(line.split()) - 1 for line in lines], [32, 8, 2])
        (group,) = self.one.selected()
        self.assertEqual(self.one.ask("ed.model.leaves(arguments[0]).length", group), 40)
        lines = self.typed_by(self.one, lambda: self.one.press("z", hold=["ctrl"]))
        self.assertEqual([line.split()[0] for line in lines], ["disband"] * 3)
        self.assertEqual(set(self.one.ids()), set(names))

    def test_duplicate(self):
        first, second, group = self.make(self.one, "create rect 300 200 100 60", "create rect 500 200 100 60", "group @1 @2")
        self.one.do("ed.selection.set([arguments[0]], null)", group)
        lines = self.typed_by(self.one, lambda: self.one.press("d", hold=["ctrl"]))
        self.assertEqual(lines[:2], ["create rect 320 220 100 60", "create rect 520 220 100 60"])
        self.assertEqual(lines[2].split()[0], "group")
        self.assertNotIn(self.one.selected()[0], (first, second, group))


class Viewing(WithBoard):
    def view(self):
        return self.one.ask("[ed.camera.x, ed.camera.y, ed.camera.zoom]")

    def test_pan_by_space_middle_button_hand_and_wheel(self):
        rows = [
            (lambda: self.one.drag((700, 500), (640, 460), button=1), [60, 40, 1]), (lambda: self.one.drag((700, 500), (640, 460), hold=[" "]), [60, 40, 1]),
            (lambda: (self.one.press("h"), self.one.drag((700, 500), (640, 460)), self.one.press("v")), [60, 40, 1]),
            (lambda: self.wheel(30, 50), [30, 50, 1]), (lambda: self.wheel(0, 50, "shift"), [50, 0, 1]),
        ]
        for index, (act, wanted) in enumerate(rows):
            self.one.home()
            self.assert_typed(self.one, act)
            self.assertEqual(self.view(), wanted, index)

    def wheel(self, dx, dy, *keys):
        script = """const [dx, dy, keys] = arguments;
        ed.board.dispatchEvent(new WheelEvent('wheel', {deltaX: dx, deltaY: dy, clientX: 400, clientY: 300, bubbles: true, cancelable: true,
          ctrlKey: keys.includes('ctrl'), shiftKey: keys.includes('shift')}))"""
        self.one.do(script, dx, dy, list(keys))

    def test_zoom_is_round_the_pointer_from_5_to_800_percent(self):
        self.one.home()
        self.wheel(0, -100, "ctrl")
        x, y, zoom = self.view()
        self.assertGreater(zoom, 1)
        self.assertAlmostEqual(x + 400 / zoom, 400, delta=0.01)
        self.assertAlmostEqual(y + 300 / zoom, 300, delta=0.01)
        for times, most in ((40, 8), (80, 0.05)):
            for _ in range(times):
                self.wheel(0, -100 if most > 1 else 100, "ctrl")
            self.assertEqual(self.view()[2], most)

    def test_all_that_is_pressed_is_drawn_at_its_place_at_any_zoom(self):
        for zoom in (0.5, 2):
            self.clear()
            self.one.home(zoom)
            lines = self.typed_by(self.one, lambda: self.one.draw("r", (300, 160), (340, 200)))
            self.assertEqual(lines[0], "create rect 300 160 40 40")


class LeavingOff(WithBoard):
    def test_escape_and_blur_leave_no_trace(self):
        (rect,) = self.make(self.one, "create rect 300 200 100 60", "fill @1 DAE6FF", select=True)
        ends = [lambda: self.one.press(Keys.ESCAPE), lambda: self.one.do("dispatchEvent(new Event('blur'))")]
        begins = [lambda: self.one.press_at((350, 230), (380, 260), (400, 280)), lambda: self.one.press_at((405, 265), (430, 290), (450, 300))]
        for begin in begins:
            for end in ends:
                self.one.do("ed.selection.set([arguments[0]], null)", rect)
                begin()
                self.assertNotEqual(self.one.ask("[...ed.model.over.keys()]"), [])
                self.assert_typed(self.one, lambda: (end(), self.one.release()))
                self.assertEqual(self.one.ask("[ed.model.over.size, ed.busy]"), [0, None])
        self.assert_seen(rect, x=300, y=200, w=100, h=60)
        self.one.press("r")
        self.one.press_at((600, 300), (640, 340), (660, 360))
        self.assert_typed(self.one, lambda: (self.one.press(Keys.ESCAPE), self.one.release()))
        self.assertEqual(self.one.ids(), [rect])

    def test_keys_do_nothing_in_a_drag(self):
        (rect,) = self.make(self.one, "create rect 300 200 100 60", "fill @1 DAE6FF", select=True)

        def drag_and_type():
            self.one.press_at((350, 230), (380, 260), (390, 280))
            self.one.press(Keys.DELETE)
            self.one.press("z", hold=["ctrl"])
            self.one.press("r")
            self.one.hold("ctrl")
            self.one.move_to((400, 290))
            self.one.release()
            self.one.let_go("ctrl")

        self.assert_typed(self.one, drag_and_type, f"move {rect} 350 260")
        self.assertEqual(self.one.ask("ed.tool"), "select")
