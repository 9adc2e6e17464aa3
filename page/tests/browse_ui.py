"""The islands: where they are, the tools, undo, zoom, and the style of what is selected, by mouse and keyboard."""

import unittest

from selenium.webdriver.common.keys import Keys

from page.tests.browser import Page, Run, browser
from page.tests.places import wait_for

# What is written at a place of the window: the island that lies there, or the board.
ISLAND_AT = "document.elementFromPoint(arguments[0], arguments[1]).closest('.island, #board, dialog')?.id"


class WithOnePage(unittest.TestCase):
    """A page over one node of its own."""

    WORDS = ("--demo", "1")

    @classmethod
    def setUpClass(cls):
        cls.run_of_draw = Run(*cls.WORDS, addresses=2)
        cls.addClassCleanup(cls.run_of_draw.end)
        cls.driver = browser()
        cls.addClassCleanup(cls.driver.quit)
        cls.driver.get(cls.run_of_draw.addresses[1])
        cls.page = Page(cls.driver)

    def setUp(self):
        self.page.do("""
            if (ed.editing) ed.editor.close();
            ed.history.toNow(); document.querySelectorAll('dialog[open]').forEach((each) => each.close());
            ed.menu.close(); ed.roster.close(); ed.setTool('select'); ed.selection.clear(); ed.banner(null);
            if (!document.querySelector('#objects').classList.contains('away')) ed.objects.toggle(false);
            ed.edits.do('clear', ed.model.items.filter((i) => !i.parent).map((i) => `delete ${i.id}`));
            Object.assign(ed.style, { stroke: '000000', fill: null, width: 2 });
        """)
        wait_for(lambda: not self.page.ids() and self.page.is_settled())
        self.page.home()
        self.page.do("ed.focusBoard()")

    def made(self, *lines):
        """Objects that are made by lines, from bottom to top."""
        before = len(self.page.ids())
        self.page.do("ed.edits.do('made', arguments[0])", list(lines))
        creates = sum(line.startswith("create") for line in lines)
        wait_for(lambda: self.page.is_settled() and len(self.page.ids()) >= before + creates)
        return [name for name in self.page.ids() if self.page.item(name)["kind"] != "group"][-creates:]

    def item(self, name):
        wait_for(self.page.is_settled)
        return self.page.item(name)

    def choose(self, *names):
        self.page.do("ed.selection.set(arguments[0], null)", list(names))

    def press_button(self, label):
        """Clicks on the one button of that name that is seen."""
        shown = lambda: [each for each in self.page.all(f'[aria-label="{label}"]') if each.is_displayed()]
        (found,) = wait_for(shown)
        found.click()


class Tools(WithOnePage):
    def test_the_window_is_the_board_and_the_islands_are_where_they_belong(self):
        size = self.page.ask("[innerWidth, innerHeight]")
        for x, y, name in ((30, 30, "file"), (size[0] / 2, 30, "tools"), (size[0] - 40, 30, "faces"), (30, size[1] - 30, "zoom"),
                           (size[0] - 40, size[1] - 30, "aid"), (size[0] / 2, size[1] / 2, "board"), (20, 200, "board")):
            self.assertEqual(self.page.ask(ISLAND_AT, x, y), name)
        self.assertEqual(self.page.ask("document.documentElement.scrollWidth - innerWidth"), 0)

    def test_a_tool_is_chosen_by_click_key_and_place_of_the_key_and_keys_go_on_to_the_board(self):
        page = self.page
        for tool in ("rect", "ellipse", "line", "text", "hand", "select"):
            page.find(f"[data-tool={tool}]").click()
            self.assertEqual(page.ask("ed.tool"), tool)
            self.assertEqual(page.ask("document.activeElement.id"), "board")
        for key, tool in (("r", "rect"), ("o", "ellipse"), ("e", "ellipse"), ("l", "line"), ("t", "text"), ("h", "hand"), ("v", "select"),
                          ("2", "rect"), ("4", "ellipse"), ("6", "line"), ("8", "text"), ("1", "select"), ("к", "rect"), ("м", "select")):
            code = {"к": "KeyR", "м": "KeyV"}.get(key)
            if code:
                page.do("document.activeElement.dispatchEvent(new KeyboardEvent('keydown', {key: arguments[0], code: arguments[1], bubbles: true}))", key, code)
            else:
                page.press(key)
            self.assertEqual(page.ask("ed.tool"), tool, key)
            self.assertEqual(page.ask("document.querySelector('#tools [aria-pressed=true]').dataset.tool"), tool)

    def test_a_tool_that_was_clicked_twice_stays(self):
        page = self.page
        box = page.find("[data-tool=ellipse]").rect
        page.click_twice_at(box["x"] + box["width"] / 2, box["y"] + box["height"] / 2)
        self.assertTrue(page.ask("ed.lockTool"))
        for x in (200, 400):
            page.drag((x, 200), (x + 60, 260), hold=("ctrl",))
        self.assertEqual(page.ask("ed.tool"), "ellipse")
        self.assertEqual(len(page.ids("ellipse")), 2)
        page.press(Keys.ESCAPE)
        self.assertEqual(page.ask("ed.tool"), "select")

    def test_undo_and_redo_say_what_they_take_back(self):
        page = self.page
        self.made("create rect 100 100 50 50")
        undo = page.find("#zoom [data-run=undo]")
        self.assertTrue(undo.is_enabled())
        self.assertIn("made", undo.get_attribute("data-tip"))
        undo.click()
        wait_for(lambda: not page.ids())
        redo = page.find("#zoom [data-run=redo]")
        wait_for(redo.is_enabled)
        redo.click()
        wait_for(lambda: len(page.ids()) == 1)

    def test_zoom_and_fit(self):
        page = self.page
        self.made("create rect 3000 2000 500 400")
        page.find("#zoom [data-run=zoomIn]").click()
        self.assertEqual(page.text(".zoomtext"), "125 %")
        page.press("0", hold=["ctrl"])
        self.assertEqual(page.text(".zoomtext"), "100 %")
        page.find("#zoom [data-run=fit]").click()
        inside = "(() => { const b = ed.model.all(), c = ed.camera.box(); return b.x0 > c.x0 && b.x1 < c.x1 && b.y0 > c.y0 && b.y1 < c.y1; })()"
        wait_for(lambda: page.ask(inside))

    def test_one_far_object_hides_nothing(self):
        page = self.page
        self.made(*(f"create rect {100 * each} 100 60 60" for each in range(4)), "create rect 200000000 0 50 50")
        page.do("ed.fit()")
        seen = "ed.model.items.filter((i) => { const c = ed.camera.box(); return i.box.x0 > c.x0 && i.box.x1 < c.x1; }).length"
        wait_for(lambda: page.ask(seen) == 4)
        self.assertIn("1 object lies far away", page.banners())
        page.find(".banner .quiet").click()
        wait_for(lambda: page.ask("ed.camera.box().x0") > 100_000_000)


class Style(WithOnePage):
    def test_the_panel_shows_what_is_selected_and_where_it_differs(self):
        page = self.page
        one, two = self.made("create rect 100 100 80 60", "stroke @1 D92D20", "fill @1 FFF2AE", "width @1 4", "create ellipse 300 100 80 60", "width @5 4")
        self.choose(one)
        chosen = "[...document.querySelectorAll('#style [aria-pressed=true]')].map((each) => each.ariaLabel)"
        self.assertEqual(page.ask(chosen), ["Stroke Red", "Fill Yellow", "Width: Medium"])
        self.assertEqual(page.find(".num").get_attribute("value"), "4")
        self.assertEqual(page.text("#style h2"), "Rectangle")
        self.choose(one, two)
        mixed = "['stroke', 'fill', 'width'].filter((part) => !document.querySelector(`.row-${part} .mixed`).hidden)"
        self.assertEqual(page.ask(mixed), ["stroke", "fill"])
        self.assertEqual(page.ask(chosen), ["Width: Medium"])
        self.assertEqual(page.text("#style h2"), "2 objects")
        page.picture("style-mixed")

    def test_a_choice_is_one_gesture_with_a_line_for_each_shape_that_differs(self):
        page = self.page
        one, two, three = self.made("create rect 100 100 80 60", "fill @1 FFF2AE", "create ellipse 300 100 80 60", "create line 300 300 80 60")
        events = page.ask("ed.node.events.length")
        self.choose(one, two, three)
        self.press_button("Fill Yellow")
        wait_for(lambda: page.ask("ed.node.events.length") == events + 1)
        self.assertEqual([self.item(each)["fill"] for each in (one, two, three)], ["FFF2AE", "FFF2AE", None])
        self.press_button("Stroke Blue")
        wait_for(lambda: page.ask("ed.node.events.length") == events + 4)
        page.press("z", hold=["ctrl"])
        wait_for(lambda: {self.item(each)["stroke"] for each in (one, two, three)} == {"000000"})
        self.choose(one)
        self.press_button("Fill None")
        wait_for(lambda: self.item(one)["fill"] is None)

    def test_a_typed_width_goes_to_what_is_selected(self):
        page = self.page
        (one,) = self.made("create rect 100 100 80 60", "width @1 7")
        self.choose(one)
        field = page.find(".num")
        for typed, kept in (("1", 1), ("65", 1), ("x", 1), ("64", 64)):
            field.clear()
            field.send_keys(typed, Keys.TAB)
            wait_for(lambda: self.item(one)["width"] == kept)
            wait_for(lambda: field.get_attribute("value") == str(kept))

    def test_own_colours_are_kept_as_recently_used(self):
        page = self.page
        (one,) = self.made("create rect 100 100 80 60")
        self.choose(one)
        page.do("""
            const field = document.querySelector('.row-stroke input[type=color]');
            field.value = '#12ab34'; field.dispatchEvent(new Event('change'));
        """)
        wait_for(lambda: self.item(one)["stroke"] == "12AB34")
        recent = page.find('.row-stroke .recent [data-value="12AB34"]')
        self.press_button("Stroke Ink")
        wait_for(lambda: self.item(one)["stroke"] == "000000")
        recent.click()
        wait_for(lambda: self.item(one)["stroke"] == "12AB34")
        self.assertEqual(recent.get_attribute("aria-pressed"), "true")

    def test_one_begins_to_choose_a_colour_of_ones_own_from_what_is_seen(self):
        page = self.page
        one, two, three = self.made("create rect 100 100 80 60", "stroke @1 D92D20", "fill @1 12AB34", "create rect 300 100 80 60", "create line 300 300 9 9")
        begin = "['stroke', 'fill'].map((part) => document.querySelector(`.row-${part} input[type=color]`).value)"
        shown = "['stroke', 'fill'].map((part) => ed.model.byId.get(arguments[0])[part])"
        seen = "getComputedStyle(document.querySelector(`.row-stroke [data-value='${arguments[0]}']`)).backgroundColor"
        rgb = lambda colour: f"rgb({', '.join(str(int(colour[at : at + 2], 16)) for at in (1, 3, 5))})"
        # Where there is no fill, the paper is seen: the board of the tokens.
        for theme, paper in (("light", "#fafaf8"), ("dark", "#15181d")):
            page.do("ed.setTheme(arguments[0])", theme)
            self.choose(one)
            stroke, fill = page.ask(begin)
            self.assertEqual((rgb(stroke), fill), (page.ask(seen, "D92D20"), "#12ab34"))
            self.choose(two)
            stroke, fill = page.ask(begin)
            self.assertEqual((rgb(stroke), fill), (page.ask(seen, "000000"), paper))
            self.choose(three, one, two)
            self.assertEqual(page.ask(begin)[1], "#12ab34")
        page.do("ed.setTheme('light')")
        self.assertEqual(page.ask(shown, one), ["D92D20", "12AB34"])

    def test_the_next_shape_gets_what_was_chosen_before_it(self):
        page = self.page
        page.press("r")
        self.press_button("Stroke Green")
        self.press_button("Width: Bold")
        page.drag((300, 300), (400, 380), hold=("ctrl",))
        (name,) = wait_for(page.ids)
        self.assertEqual((self.item(name)["stroke"], self.item(name)["width"]), ("258750", 8))

    def test_align_spread_group_and_order(self):
        page = self.page
        one, two, three = self.made("create rect 100 100 80 60", "create rect 230 150 80 60", "create rect 500 220 80 60")
        self.choose(one, two, three)
        self.press_button("Align top")
        wait_for(lambda: [self.item(each)["y"] for each in (one, two, three)] == [100, 100, 100])
        self.press_button("Spread evenly across")
        wait_for(lambda: self.item(two)["x"] == 300)
        self.choose(one, two)
        self.press_button("Bring to front")
        wait_for(lambda: page.ids() == [three, one, two])
        self.press_button("Send to back")
        wait_for(lambda: page.ids() == [one, two, three])
        self.choose(one, two)
        self.press_button("Group")
        wait_for(lambda: self.item(one)["parent"] is not None)
        self.press_button("Ungroup")
        wait_for(lambda: self.item(one)["parent"] is None)

    def test_forty_are_grouped_as_groups(self):
        page = self.page
        names = self.made(*(f"create rect {20 * each} 100 10 10" for each in range(40)))
        self.choose(*names)
        page.press("g", hold=["ctrl"])
        wait_for(lambda: page.is_settled() and len(page.ids("group")) == 3 and len(page.selected()) == 1)
        self.assertEqual(page.ask("ed.model.leavesOf(ed.selection.ids).length"), 40)
        page.press("z", hold=["ctrl"])
        wait_for(lambda: not page.ids("group"))
