"""Each gesture of the board that has keys, by keys alone, over two nodes: the lines that the node took."""

from selenium.webdriver.common.keys import Keys

from page.tests.browse_board import WithBoard
from page.tests.places import wait_for


class ByKeys(WithBoard):
    def setUp(self):
        super().setUp()
        self.page = self.one
        self.page.do("Object.assign(ed.style, { stroke: '000000', fill: null, width: 2 })")

    def view(self):
        return self.page.ask("[ed.camera.x, ed.camera.y, ed.camera.zoom]")

    def middle(self):
        return self.page.ask("[Math.round(innerWidth / 2), Math.round(innerHeight / 2)]")

    def test_each_tool_makes_one_in_the_middle(self):
        x, y = self.middle()
        rows = [("r", f"rect {x - 80} {y - 40} 160 80"), ("o", f"ellipse {x - 80} {y - 40} 160 80"), ("l", f"line {x - 80} {y} 160 0")]
        for key, made in rows:
            self.clear()
            (create, width) = self.typed_by(self.page, lambda: self.page.press(key, Keys.ENTER))
            (name,) = self.page.selected()
            self.assertEqual([create, width], [f"create {made}", f"width {name} 2"])
            self.assertEqual(self.page.ask("ed.tool"), "select")

    def test_a_text_is_written_in_the_middle(self):
        def write():
            self.page.press("t", Keys.ENTER)
            self.page.write("By keys")
            self.page.press(Keys.ENTER, hold=["ctrl"])

        x, _ = self.middle()
        (create, *_) = self.typed_by(self.page, write)
        self.assertRegex(create, rf"^create text {x} \d+ \d+ \d+ By keys$")

    def test_arrows_move_the_view_where_nothing_is_selected(self):
        rows = [(Keys.ARROW_RIGHT, (), [50, 0]), (Keys.ARROW_DOWN, ("shift",), [50, 200]), (Keys.ARROW_LEFT, (), [0, 200]), (Keys.ARROW_UP, ("shift",), [0, 0])]
        for key, hold, place in rows:
            self.assert_typed(self.page, lambda: self.page.press(key, hold=hold))
            self.assertEqual(self.view(), [*place, 1])

    def test_keys_zoom_and_fit(self):
        self.make(self.page, "create rect 3000 2000 400 200", "create rect 5000 4000 400 200")
        self.page.press("+")
        self.assertAlmostEqual(self.view()[2], 1.25)
        self.page.press("-", "-")
        self.assertAlmostEqual(self.view()[2], 0.8)
        self.page.press("0", hold=["ctrl"])
        self.assertEqual(self.view()[2], 1)
        self.page.press("1", hold=["shift"])
        wait_for(lambda: self.page.ask("(b => b.x0 < 3000 && b.x1 > 5400 && b.y0 < 2000 && b.y1 > 4200)(ed.camera.box())"))
        self.page.press(".")
        self.page.press("2", hold=["shift"])
        wait_for(lambda: self.page.ask("(b => b.x0 > 2500 && b.x0 < 3000 && b.x1 > 3400 && b.x1 < 5000)(ed.camera.box())"))

    def test_objects_are_walked_through_and_groups_entered_and_left(self):
        one, two, three, group = self.make(self.page, "create rect 300 200 100 60", "create rect 500 200 100 60", "create rect 700 200 100 60", "group @1 @2")
        for key, wanted in ((".", three), (".", group), (".", three), (",", group)):
            self.page.press(key)
            self.assertEqual(self.page.selected(), [wanted])
        self.page.press(Keys.ENTER)
        self.assertEqual([self.page.selected(), self.page.ask("ed.selection.scope")], [[one], group])
        self.page.press(".")
        self.assertEqual(self.page.selected(), [two])
        self.assert_typed(self.page, lambda: self.page.press(Keys.ARROW_RIGHT), f"move {two} 501 200")
        self.page.press(Keys.ESCAPE)
        self.assertEqual([self.page.selected(), self.page.ask("ed.selection.scope")], [[group], None])
        self.page.press(Keys.ESCAPE)
        self.assertEqual(self.page.selected(), [])

    def test_several_are_resized(self):
        one, two = self.make(self.page, "create rect 300 200 100 60", "create line 500 200 -50 0", select=True)
        self.assert_typed(self.page, lambda: self.page.press(Keys.ARROW_DOWN, hold=["alt", "shift"]), f"resize {one} 100 70", f"resize {two} -50 10")

    def test_a_label_is_written(self):
        (name,) = self.make(self.page, "create rect 300 200 200 100", select=True)

        def write():
            self.page.press(Keys.ENTER)
            self.page.write("Label")
            self.page.press(Keys.ENTER, hold=["ctrl"])

        self.assert_typed(self.page, write, f"text {name} Label")

    def test_the_menu_opens_at_the_selection_and_goes_by_arrows(self):
        below, above = self.make(self.page, "create rect 300 200 100 60", "create rect 500 200 100 60")
        self.page.do("ed.selection.set([arguments[0]], null)", below)
        # The browser makes this event of the key of menus, and of Shift and F10.
        self.page.do("ed.board.dispatchEvent(new MouseEvent('contextmenu', { bubbles: true, cancelable: true }))")
        self.assertEqual(self.page.ask("document.activeElement.getAttribute('role')"), "menuitem")
        place = self.page.ask("(b => [b.left, b.top])(document.querySelector('.menu').getBoundingClientRect())")
        self.assertEqual([round(each) for each in place], [400, 200])
        words = "document.activeElement.textContent"
        for _ in range(20):
            if self.page.ask(words).startswith("Bring to front"):
                break
            self.page.press(Keys.ARROW_DOWN)
        self.assert_typed(self.page, lambda: self.page.press(Keys.ENTER), f"raise {below}")
        self.assertEqual(self.page.ask("document.activeElement.id"), "board")
        self.assertEqual(self.page.ids(), [above, below])

    def test_a_style_is_chosen_in_the_panel(self):
        (name,) = self.make(self.page, "create rect 300 200 100 60", select=True)
        self.page.do("document.querySelector('#style [aria-label=\"Fill Yellow\"]').focus()")
        self.assert_typed(self.page, lambda: self.page.press(Keys.ENTER), f"fill {name} FFF2AE")
        self.assertEqual(self.page.ask("document.activeElement.ariaLabel"), "Fill Yellow")

    def test_the_history_is_walked_through(self):
        names = [name for at in range(3) for name in self.make(self.page, f"create rect {300 + 120 * at} 200 100 60")]
        count = self.page.ask("ed.node.events.length")
        self.assert_typed(self.page, lambda: self.page.press(Keys.ARROW_LEFT, hold=["alt"]))
        self.assertEqual([self.page.ask("ed.history.at"), self.page.ids()], [count - 1, names[:2]])
        self.page.press(Keys.ARROW_LEFT, hold=["alt"])
        self.assertEqual(self.page.ids(), names[:1])
        self.page.press(Keys.ARROW_RIGHT, hold=["alt"])
        self.assertEqual(self.page.ids(), names[:2])
        self.assert_typed(self.page, lambda: self.page.press("n", hold=["alt"]))
        self.assertEqual([self.page.ask("ed.history.at"), self.page.ids()], [None, names])

    def test_late_events_are_walked_through(self):
        (name,) = self.make(self.page, "create rect 300 200 100 60")
        self.cut(2)
        for page, x in ((self.two, 340), (self.one, 320)):
            self.typed_by(page, lambda: page.do("ed.edits.do('m', [`move ${arguments[0]} ${arguments[1]} 200`, `raise ${arguments[0]}`])", name, x))
        self.cut()
        self.wait_until_same()
        page = wait_for(lambda: next((each for each in self.pages if each.ask("ed.history.lates().length")), None))
        page.press("l", hold=["alt"])
        at = page.ask("ed.history.at")
        self.assertTrue(page.ask("ed.node.events[arguments[0] - 1].late", at))
        self.assertTrue(page.find(".hist-card").is_displayed())
        page.press(Keys.ESCAPE)
        self.assertIsNone(page.ask("ed.history.at"))

    def test_copies_and_deletes(self):
        (name,) = self.make(self.page, "create rect 300 200 100 60 A", select=True)
        lines = self.typed_by(self.page, lambda: self.page.press("d", hold=["ctrl"]))
        (copy,) = self.page.selected()
        self.assertEqual(lines, ["create rect 320 220 100 60 A"])
        self.assert_typed(self.page, lambda: self.page.press(Keys.BACKSPACE), f"delete {copy}")
        self.assert_seen(name, label="A")

    def test_a_file_is_chosen_and_its_drawing_comes(self):
        # The browser's own window for files can't be used by tests.
        self.page.do("""
            const click = HTMLInputElement.prototype.click;
            HTMLInputElement.prototype.click = function () { this.type === 'file' ? window.chooser = this : click.call(this); };
        """)

        def choose():
            self.page.press("o", hold=["ctrl"])
            self.page.do("""
                const data = new DataTransfer();
                data.items.add(new File([arguments[0]], 'drawing.txt'));
                chooser.files = data.files;
                chooser.dispatchEvent(new Event('change'));
            """, "rect 1.1 in - at 0 0 size 50 40 stroke 000000 fill DAE6FF width 1 text A\nend 1\n")
            wait_for(self.page.ids)

        create, fill = self.typed_by(self.page, choose)
        self.assertRegex(create, r"^create rect -?\d+ -?\d+ 50 40 A$")
        self.assertEqual(fill.split()[::2], ["fill", "DAE6FF"])
