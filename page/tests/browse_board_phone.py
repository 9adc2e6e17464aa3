"""What fingers do on a phone by the bar at a selection, the sheet, the menus and the history, over two nodes: the lines that
the node took, what is marked, and that the sheet leaves what is selected in sight."""

from pathlib import Path

from page.tests.browse_board import WithBoard
from page.tests.browse_board_touch import way
from page.tests.browse_connectors import DOTS
from page.tests.browser import PHONE
from page.tests.places import wait_for

ROWS = "[...document.querySelectorAll('.menu:not([hidden]) [role=menuitem]')]"
# What is selected in the window, and what the sheet and the islands leave of that: x0, y0, x1, y1 of each.
IN_SIGHT = """
const box = ed.camera.boxToWindow(ed.model.boxOf(ed.selection.ids));
const sheet = document.querySelector('#style').getBoundingClientRect();
const isBelow = sheet.width > innerWidth - 2;
const top = Math.max(...['#file', '#faces'].map((each) => document.querySelector(each).getBoundingClientRect().bottom));
return [[box.x0, box.y0, box.x1, box.y1], [0, top, isBelow ? innerWidth : sheet.left, isBelow ? sheet.top : innerHeight]];
"""
VIEW = "[ed.camera.x, ed.camera.y, ed.camera.zoom]"
TABLET = (820, 1180)


class OnPhone(WithBoard):
    @classmethod
    def setUpClass(cls):
        super().setUpClass()
        cls.size(*PHONE)
        origin = cls.runs[0].address.rsplit("/", 2)[0]
        cls.one.driver.execute_cdp_cmd("Browser.grantPermissions", {"permissions": ["clipboardReadWrite", "clipboardSanitizedWrite"], "origin": origin})

    @classmethod
    def size(cls, width, height):
        metrics = {"width": width, "height": height, "deviceScaleFactor": 2, "mobile": True}
        cls.one.driver.execute_cdp_cmd("Emulation.setDeviceMetricsOverride", metrics)
        cls.one.driver.execute_cdp_cmd("Emulation.setTouchEmulationEnabled", {"enabled": True, "maxTouchPoints": 5})
        wait_for(lambda: cls.one.ask("innerWidth") == width)

    def setUp(self):
        super().setUp()
        self.page = self.one
        self.page.do("ed.sheet(false)")

    def tap(self, place):
        self.page.swipe(place)

    def tap_row(self, title):
        """Taps a row of the menu that is open, once that hears."""
        wait_for(lambda: self.page.ask(f"!ed.menu.isDeaf && {ROWS}.some((each) => each.querySelector('span').textContent === arguments[0])", title))
        self.page.do(f"{ROWS}.find((each) => each.querySelector('span').textContent === arguments[0]).id = 'to-tap'", title)
        self.page.tap_on("#to-tap")

    def open_menu_at(self, place):
        self.page.long_press(place, lambda: self.page.ask(f"{ROWS}.length > 0"))

    def open_sheet(self):
        self.page.tap_on("#quick [aria-label=Style]")
        wait_for(lambda: self.page.ask("document.body.dataset.sheet === '1'"))
        self.rest()

    def rest(self):
        """Waits until the view has gone where it goes."""
        wait_for(lambda: self.page.ask("!ed.camera.goal || ed.camera.goal.x === ed.camera.x && ed.camera.goal.y === ed.camera.y"))
        self.page.rest()

    def tap_in_sheet(self, label):
        self.page.tap_on(f"#style [aria-label='{label}']")


class Arranging(OnPhone):
    def three(self):
        return self.make(self.page, "create rect 60 200 60 40", "create rect 150 230 60 40", "create rect 300 260 60 40", select=True)

    def test_align_spread_and_order_in_the_sheet(self):
        a, b, c = self.three()
        self.open_sheet()
        self.page.picture("phone-sheet-arrange")
        rows = [
            ("Align top", [f"move {b} 150 200", f"move {c} 300 200"]), ("Spread evenly across", [f"move {b} 180 200"]),
            ("Align right", [f"move {a} 300 200", f"move {b} 300 200"]), ("Bring to front", [f"raise {a}", f"raise {b}", f"raise {c}"]),
            ("Send to back", [f"lower {c}", f"lower {b}", f"lower {a}"]),
        ]
        for label, lines in rows:
            self.assert_typed(self.page, lambda: self.tap_in_sheet(label), *lines)
        self.assert_seen(a, x=300, y=200)

    def test_a_connector_is_drawn_from_a_dot_and_a_handle_still_resizes(self):
        rect, other = self.make(self.page, "create rect 100 200 80 60", "create rect 100 420 80 60")
        self.tap((140, 200))
        self.assertEqual(self.page.selected(), [rect])
        self.rest()
        # From beside a handle a finger resizes, though a dot is behind it.
        self.assert_typed(self.page, lambda: self.page.swipe(*way((140, 278), (140, 308))), f"resize {rect} 80 90")
        self.settled(self.page)
        dot = self.page.do(DOTS)[2]
        self.page.picture("phone-dots")
        (connect, _) = self.typed_by(self.page, lambda: self.page.swipe(*way(dot, (140, 450))))
        self.assertEqual(connect, f"connect {rect} {other}")
        self.page.picture("phone-connector")

    def test_group_ungroup_duplicate_and_delete_in_the_sheet(self):
        a, b, c = self.three()
        self.open_sheet()
        self.assert_typed(self.page, lambda: self.tap_in_sheet("Group"), f"group {a} {b} {c}")
        (group,) = self.page.selected()
        self.assert_typed(self.page, lambda: self.tap_in_sheet("Ungroup"), f"ungroup {group}")
        lines = self.typed_by(self.page, lambda: self.tap_in_sheet("Duplicate"))
        self.assertEqual(lines, ["create rect 80 220 60 40", "create rect 170 250 60 40", "create rect 320 280 60 40"])
        copies = self.page.selected()
        self.assert_typed(self.page, lambda: self.tap_in_sheet("Delete"), *(f"delete {name}" for name in copies))
        self.assertEqual(self.page.ids(), [a, b, c])
        self.assertEqual(self.page.ask("document.body.dataset.sheet"), "")

    def test_the_bar_at_the_selection(self):
        a, b, c = self.three()
        self.assert_typed(self.page, lambda: self.page.tap_on("#quick [data-run=group]"), f"group {a} {b} {c}")
        (group,) = self.page.selected()
        self.assert_typed(self.page, lambda: self.page.tap_on("#quick [data-run=ungroup]"), f"ungroup {group}")
        self.assert_typed(self.page, lambda: self.page.tap_on("#quick [data-run=delete]"), f"delete {a}", f"delete {b}", f"delete {c}")
        self.assert_typed(self.page, lambda: self.page.tap_on(".banner .quiet"), f"restore {c}", f"restore {b}", f"restore {a}")
        self.assertEqual(self.page.ids(), [a, b, c])

    def test_a_style_is_chosen(self):
        a, _, c = self.three()
        self.open_sheet()
        self.assert_typed(self.page, lambda: self.tap_in_sheet("Fill Yellow"), *(f"fill {name} FFF2AE" for name in self.page.selected()))
        self.page.do("ed.selection.set([arguments[0]], null)", c)
        self.assert_typed(self.page, lambda: self.tap_in_sheet("Width: Bold"), f"width {c} 8")
        self.assert_seen(a, fill="FFF2AE", width=1)

    def test_a_group_is_entered_and_left(self):
        a, b, group = self.make(self.page, "create rect 60 200 100 60", "create rect 220 200 100 60", "group @1 @2", "fill @1 DAE6FF", "fill @2 DAE6FF")
        for leave in ((200, 500), (200, 500)):
            self.page.tap_twice((110, 230))
            self.assertEqual([self.page.selected(), self.page.ask("ed.selection.scope")], [[a], group])
            self.tap(leave)
            self.assertEqual([self.page.selected(), self.page.ask("ed.selection.scope")], [[], None])
        self.assert_typed(self.page, lambda: self.page.swipe(*way((110, 230), (130, 250))), f"move {group} 20 20")
        self.assert_seen(b, x=240, y=220)


class Sight(OnPhone):
    def assert_in_sight(self):
        (x0, y0, x1, y1), (left, top, right, bottom) = self.page.do(IN_SIGHT)
        self.assertTrue(left <= x0 and top <= y0 and x1 <= right and y1 <= bottom, self.page.do(IN_SIGHT))

    def test_the_sheet_leaves_what_is_selected_in_sight_and_the_view_goes_back(self):
        for size, places in ((PHONE, ((120, 560), (60, 330))), (TABLET, ((640, 300), (620, 900)))):
            self.size(*size)
            for x, y in places:
                self.clear()
                self.make(self.page, f"create rect {x} {y} 140 80 Here", "fill @1 DAE6FF", select=True)
                before = self.page.ask(VIEW)
                self.open_sheet()
                self.assert_in_sight()
                self.page.picture(f"sheet-{size[0]}-{x}-{y}")
                self.page.tap_on(".sheet-close")
                wait_for(lambda: self.page.ask(VIEW) == before)
        self.size(*PHONE)

    def test_what_is_large_is_shown_smaller_and_what_was_in_sight_stays(self):
        self.make(self.page, "create rect 40 150 300 420", "fill @1 DAE6FF", select=True)
        self.open_sheet()
        self.assert_in_sight()
        self.assertLess(self.page.ask("ed.camera.zoom"), 1)
        self.page.tap_on(".sheet-close")
        wait_for(lambda: self.page.ask(VIEW) == [0, 0, 1])
        self.clear()
        self.make(self.page, "create rect 60 130 80 60", "fill @1 DAE6FF", select=True)
        self.open_sheet()
        self.assertEqual(self.page.ask(VIEW), [0, 0, 1])

    def test_a_view_that_was_moved_meanwhile_stays(self):
        self.make(self.page, "create rect 120 560 140 80", "fill @1 DAE6FF", select=True)
        self.open_sheet()
        self.page.fingers(way((100, 130), (100, 160)), way((200, 130), (200, 160)))
        moved = self.page.ask(VIEW)
        self.page.tap_on(".sheet-close")
        self.rest()
        self.assertEqual(self.page.ask(VIEW), moved)

    def test_another_selection_is_brought_into_sight_too(self):
        _, below = self.make(self.page, "create rect 60 130 80 60", "create rect 120 560 140 80", "fill @1 DAE6FF")
        self.page.do("ed.selection.set([ed.model.items[0].id], null)")
        self.open_sheet()
        self.page.do("ed.selection.set([arguments[0]], null)", below)
        self.rest()
        self.assert_in_sight()

    def test_how_it_looks_light_and_dark(self):
        self.make(self.page, "create rect 60 300 140 80 Draft", "fill @1 DAE6FF", "create ellipse 220 520 120 90 Done", "fill @3 D3F2DB", select=True)
        for theme in ("light", "dark"):
            self.page.do("ed.setTheme(arguments[0])", theme)
            self.open_sheet()
            self.page.picture(f"phone-in-sight-{theme}")
            self.page.tap_on(".sheet-close")
            self.rest()
        self.page.do("ed.setTheme('light')")


class Clipboard(OnPhone):
    def test_copy_cut_paste_and_duplicate_from_the_menu(self):
        (rect,) = self.make(self.page, "create rect 100 200 120 80 Word", "fill @1 DAE6FF")
        self.open_menu_at((160, 240))
        self.page.picture("phone-menu")
        self.assert_typed(self.page, lambda: self.tap_row("Copy"))
        wait_for(lambda: self.page.said() == "Copied 1 object")
        self.open_menu_at((200, 500))
        lines = self.typed_by(self.page, lambda: (self.tap_row("Paste"), wait_for(lambda: len(self.page.ids()) == 2)))
        (copy,) = self.page.selected()
        # Where the finger was.
        self.assertEqual(lines, ["create rect 140 460 120 80 Word", f"fill {copy} DAE6FF"])
        self.open_menu_at((200, 500))
        self.assert_typed(self.page, lambda: (self.tap_row("Cut"), wait_for(lambda: len(self.page.ids()) == 1)), f"delete {copy}")
        self.open_menu_at((160, 240))
        lines = self.typed_by(self.page, lambda: self.tap_row("Duplicate"))
        self.assertEqual(lines[0], "create rect 120 220 120 80 Word")
        self.assert_seen(rect, label="Word")


class Files(OnPhone):
    def test_a_picture_is_exported_and_a_drawing_imported_from_the_menu(self):
        self.make(self.page, "create rect 100 200 120 80 Word", "fill @1 DAE6FF")
        folder = Path(self.room) / "saved"
        folder.mkdir()
        self.page.driver.execute_cdp_cmd("Browser.setDownloadBehavior", {"behavior": "allow", "downloadPath": str(folder)})
        self.page.tap_on("#file button")
        self.tap_row("Export as SVG")
        (file,) = wait_for(lambda: [each for each in folder.iterdir() if each.name.endswith(".svg") and each.stat().st_size])
        self.assertIn('data-label="Word"', file.read_text(encoding="utf-8"))
        # The system's own window for files can't be used by tests.
        self.page.do("""
            const click = HTMLInputElement.prototype.click;
            HTMLInputElement.prototype.click = function () { this.type === 'file' ? window.chooser = this : click.call(this); };
        """)
        self.page.tap_on("#file button")
        self.tap_row("Import a file")

        def choose():
            self.page.do("""
                const data = new DataTransfer();
                data.items.add(new File([arguments[0]], 'drawing.svg'));
                chooser.files = data.files;
                chooser.dispatchEvent(new Event('change'));
            """, file.read_text(encoding="utf-8"))
            wait_for(lambda: len(self.page.ids()) == 2)

        create, fill = self.typed_by(self.page, choose)
        self.assertRegex(create, r"^create rect -?\d+ -?\d+ 120 80 Word$")
        self.assertEqual(fill.split()[::2], ["fill", "DAE6FF"])


class Past(OnPhone):
    def test_the_history_is_dragged_stepped_and_played(self):
        names = [name for at in range(3) for name in self.make(self.page, f"create rect {60 + 90 * at} 200 60 40")]
        count = wait_for(lambda: self.page.ask("ed.node.events.at(-1)?.id === arguments[0] && ed.node.events.length", names[-1]))
        x, y, width = self.page.ask("(b => [b.left, b.top + b.height / 2, b.width])(document.querySelector('#history input').getBoundingClientRect())")
        places = way((x + width - 2, y), (x + width / 2, y))
        self.assert_typed(self.page, lambda: self.page.swipe(*places))
        at = wait_for(lambda: self.page.ask("ed.history.at"))
        self.assertTrue(0 < at < count, (at, count))
        self.page.picture("phone-past")
        self.page.do("ed.history.go(arguments[0])", count - 1)
        self.page.tap_on(".hist-card [aria-label='One step back']")
        self.assertEqual([self.page.ask("ed.history.at"), self.page.ids()], [count - 2, names[:1]])
        self.page.tap_on(".hist-card [aria-label='One step on']")
        self.assertEqual([self.page.ask("ed.history.at"), self.page.ids()], [count - 1, names[:2]])
        self.page.tap_on("#history .tool")
        wait_for(lambda: self.page.ask("ed.history.at") is None and self.page.ids() == names)

    def test_late_events_are_marked_shown_and_walked_through(self):
        (name,) = self.make(self.page, "create rect 100 200 120 80 Word", "fill @1 DAE6FF")
        self.wait_until_same()
        self.cut(2)
        self.typed_by(self.two, lambda: self.two.do("ed.edits.do('m', [`move ${arguments[0]} 140 260`])", name))
        # This one's clock goes further, so that the other one's move lies before its own.
        for x in (110, 120, 130):
            self.typed_by(self.one, lambda: self.one.do("ed.edits.do('m', [arguments[0]])", f"move {name} {x} 200"))
        wait_for(lambda: self.page.banners().startswith("Offline"))
        self.cut()
        self.wait_until_same()
        wait_for(lambda: "before" in self.page.banners())
        self.page.picture("phone-late")
        (late,) = self.page.ask("ed.history.lates()")
        self.assertEqual(self.page.text(".late-count span"), "1")
        self.page.tap_on("#banners .quiet")
        self.assertEqual(self.page.ask("ed.history.at"), late)
        self.assertRegex(self.page.text(".hist-late"), "Came late|came late|changes nothing")
        self.page.picture("phone-late-card")
        self.page.tap_on(".hist-card .primary")
        wait_for(lambda: self.page.ask("ed.history.at") is None)
        self.page.tap_on(".late-count")
        self.assertEqual(self.page.ask("ed.history.at"), late)
        self.page.tap_on(".hist-card .primary")
        self.assert_seen(name, x=130, y=200)
