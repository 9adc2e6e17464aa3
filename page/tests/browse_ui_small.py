"""Small windows and fingers: a tablet, a phone, and 320 pixels; and how the page looks, light and dark, at each width."""

import time

from page.tests.browse_ui import WithOnePage
from page.tests.browser import PHONE
from page.tests.places import wait_for

SIZES = {"desktop": (1440, 900), "tablet": (820, 1180), "phone": PHONE, "narrow": (320, 640)}
LEAST = 44
# What can be pressed and is seen: its name, its size, and whether it leaves the window.
TARGETS = """
return [...document.querySelectorAll('button, input:not([type=file]), [role=treeitem], label.swatch, summary, a')].filter((each) =>
  each.checkVisibility({ checkOpacity: true, checkVisibilityCSS: true }) && !each.closest('.away, .unseen, .skip') && !each.closest('label.swatch input, .lane') && each.getBoundingClientRect().width > 1
).map((each) => {
  const box = each.getBoundingClientRect();
  return [each.ariaLabel || each.textContent || each.className, Math.round(box.width), Math.round(box.height), box.right > innerWidth + 1 || box.left < -1];
});
"""
DRAWING = [
    "create rect 80 170 170 84 Draft the spec", "stroke @1 2563EB", "fill @1 DAE6FF", "width @1 2",
    "create rect 330 170 170 84 Review", "stroke @5 2563EB", "fill @5 DAE6FF", "width @5 2",
    "create ellipse 590 157 150 110 All agreed?", "stroke @9 B98500", "fill @9 FFF2AE", "width @9 2",
    "create line 250 212 80 0", "create line 500 212 90 0",
    "create text 80 60 470 40 Launch of the spring release",
    "create rect 80 330 176 64 תיעוד בעברית (test)!",
]


class Small(WithOnePage):
    def size(self, name, theme="light", is_touch=True):
        width, height = SIZES[name]
        metrics = {"width": width, "height": height, "deviceScaleFactor": 2 if name != "desktop" else 1, "mobile": is_touch}
        self.driver.execute_cdp_cmd("Emulation.setDeviceMetricsOverride", metrics)
        self.driver.execute_cdp_cmd("Emulation.setTouchEmulationEnabled", {"enabled": is_touch, "maxTouchPoints": 5} if is_touch else {"enabled": False})
        wait_for(lambda: self.page.ask("innerWidth") == width)
        self.page.do("ed.setTheme(arguments[0])", theme)

    def tearDown(self):
        self.page.do("ed.sheet(false); ed.roster.close(); ed.history.toNow(); ed.menu.close()")
        self.size("desktop", is_touch=False)

    def test_all_targets_are_large_enough_and_nothing_leaves_the_window(self):
        page = self.page
        names = self.made(*DRAWING)
        acts = (
            ("board", "ed.fit()"), ("selected", "ed.selection.set([arguments[0]], null)"), ("sheet", "ed.sheet(true)"),
            ("people", "ed.sheet(false); ed.roster.open()"), ("name", "ed.roster.rename()"), ("objects", "ed.roster.close(); ed.objects.toggle(true)"),
            ("menu", "ed.objects.toggle(false); document.querySelector('#file button').click()"), ("past", "ed.menu.close(); ed.history.step(-1)"),
            ("help", "ed.history.toNow(); ed.help.open()"), ("palette", "document.querySelector('.help').close(); ed.palette.open()"),
            ("closed", "document.querySelector('.palette').close(); ed.selection.clear()"),
        )
        for name in ("tablet", "phone", "narrow"):
            self.size(name)
            for what, act in acts:
                page.do(act, names[0])
                page.rest()
                targets = page.do(TARGETS)
                self.assertGreater(len(targets), 5)
                small = [each for each in targets if each[1] < LEAST - 4.5 * (name == "narrow") or each[2] < LEAST]
                self.assertEqual(small, [], f"{name} {what}")
                self.assertEqual([each for each in targets if each[3]], [], f"{name} {what}")
                self.assertLessEqual(page.ask("document.documentElement.scrollWidth - innerWidth"), 0)
                page.picture(f"{name}-{what}")

    def test_the_quick_bar_stands_at_the_selection_and_does_what_it_says(self):
        page = self.page
        self.size("phone")
        (one,) = self.made("create rect 100 300 120 80")
        page.do("ed.camera.set(0, 0, 1)")
        self.assertFalse(page.find("#quick").is_displayed())
        self.choose(one)
        self.assertTrue(page.find("#quick").is_displayed())
        box = page.ask("(b => [b.left, b.right, b.bottom])(document.querySelector('#quick').getBoundingClientRect())")
        self.assertTrue(box[0] >= 0 and box[1] <= 390 and box[2] < 300)
        page.find("#quick [data-run=duplicate]").click()
        wait_for(lambda: page.is_settled() and len(page.ids()) == 2)
        page.find("#quick [data-run=delete]").click()
        wait_for(lambda: page.ids() == [one])

    def test_a_group_is_dissolved_from_the_quick_bar(self):
        page = self.page
        self.size("phone")
        one, two = self.made("create rect 40 300 90 80", "create rect 180 300 90 80")
        page.do("ed.camera.set(0, 0, 1)")
        self.choose(one, two)
        acts = "[...document.querySelectorAll('#quick [data-run]')].filter((each) => !each.hidden).map((each) => each.dataset.run)"
        self.assertEqual(page.ask(acts), ["duplicate", "front", "group", "delete"])
        page.find("#quick [data-run=group]").click()
        wait_for(lambda: page.is_settled() and len(page.ids("group")) == 1)
        self.assertEqual(page.ask(acts), ["edit", "duplicate", "front", "ungroup", "delete"])
        page.picture("phone-group")
        page.find("#quick [data-run=ungroup]").click()
        wait_for(lambda: page.is_settled() and not page.ids("group"))

    def test_a_phone_has_buttons_to_zoom_and_fit(self):
        page = self.page
        self.size("phone")
        self.made("create rect 3000 2000 500 400")
        page.do("ed.camera.set(0, 0, 1)")
        page.find("#zoom [data-run=zoomIn]").click()
        self.assertEqual(page.ask("ed.camera.zoom"), 1.25)
        page.find("#zoom [data-run=zoomOut]").click()
        self.assertEqual(page.ask("ed.camera.zoom"), 1)
        page.find("#zoom [data-run=fit]").click()
        inside = "(() => { const b = ed.model.all(), c = ed.camera.box(); return b.x0 > c.x0 && b.x1 < c.x1 && b.y0 > c.y0 && b.y1 < c.y1; })()"
        wait_for(lambda: page.ask(inside))
        # The bar above a selection, however low that lies, leaves them free.
        self.choose(*page.ids())
        page.do("ed.camera.set(2900, 1500, 1)")
        touching = "(([a, b]) => a.bottom > b.top && a.right > b.left)(['#quick', '.lens'].map((each) => document.querySelector(each).getBoundingClientRect()))"
        wait_for(lambda: page.find("#quick").is_displayed())
        self.assertFalse(page.ask(touching))

    def test_the_style_is_a_sheet_that_opens_and_closes(self):
        page = self.page
        self.size("phone")
        (one,) = self.made("create rect 100 200 120 80")
        self.choose(one)
        seen = "document.querySelector('#style').checkVisibility({ checkOpacity: true, checkVisibilityCSS: true })"
        self.assertFalse(page.ask(seen))
        page.find("#quick [aria-label=Style]").click()
        wait_for(lambda: page.ask(seen))
        self.assertLessEqual(page.ask("document.querySelector('#style').offsetHeight / innerHeight"), 0.63)
        self.press_button("Fill Green")
        wait_for(lambda: self.item(one)["fill"] == "D3F2DB")
        page.find(".sheet-close").click()
        wait_for(lambda: not page.ask(seen))

    def test_fingers_draw_pan_and_pinch_and_a_second_one_calls_a_shape_off(self):
        page = self.page
        for name in ("phone", "tablet"):
            self.size(name)
            page.do("ed.camera.set(0, 0, 1); ed.setTool('rect')")
            self.page.swipe((100, 300), (110, 320), (150, 350), (180, 380))
            (one,) = wait_for(page.ids)
            self.assertEqual(page.ask("ed.tool"), "select")
            wait_for(page.is_settled)
            events = page.ask("ed.node.events.length")
            page.do("ed.selection.clear()")
            self.page.touch("touchStart", (100, 450))
            self.page.touch("touchStart", (100, 450), (200, 450))
            for step in range(1, 6):
                self.page.touch("touchMove", (100 - 6 * step, 450 + 10 * step), (200 + 6 * step, 450 + 10 * step))
            self.page.touch("touchEnd")
            zoom, top = page.ask("[ed.camera.zoom, ed.camera.y]")
            self.assertTrue(1.4 < zoom < 1.8, zoom)
            page.do("ed.camera.set(0, 0, 1); ed.setTool('rect')")
            self.page.touch("touchStart", (60, 500))
            self.page.touch("touchMove", (90, 530))
            self.page.touch("touchStart", (90, 530), (200, 600))
            self.page.touch("touchMove", (60, 500), (230, 630))
            self.page.touch("touchEnd")
            page.do("ed.setTool('select')")
            self.assertEqual(page.ask("ed.node.events.length"), events)
            page.do("ed.edits.do('x', ['delete ' + arguments[0]])", one)
            wait_for(lambda: not page.ids() and page.is_settled())

    def test_a_long_press_opens_the_menu_and_letting_go_chooses_nothing(self):
        page = self.page
        self.size("phone")
        (one,) = self.made("create rect 100 300 120 80", "fill @1 FFF2AE")
        page.do("ed.camera.set(0, 0, 1); ed.selection.clear()")
        # However long the finger stays.
        page.long_press((150, 340), lambda: not page.ask("document.querySelector('.menu').hidden"), stays=0.6)
        time.sleep(0.3)
        self.assertFalse(page.ask("document.querySelector('.menu').hidden"))
        self.assertEqual(page.ids(), [one])
        page.picture("phone-long-press")

    def test_two_taps_write(self):
        page = self.page
        self.size("phone")
        page.do("ed.camera.set(0, 0, 1)")
        page.tap_twice((150, 400))
        wait_for(lambda: page.ask("ed.editing"))
        page.write("Tapped")
        self.page.swipe((300, 600))
        (name,) = wait_for(lambda: page.ids("text"))
        self.assertEqual(self.item(name)["label"], "Tapped")

    def test_how_it_looks_light_and_dark_at_each_width(self):
        page = self.page
        names = self.made(*DRAWING)
        for name in SIZES:
            for theme in ("light", "dark"):
                self.size(name, theme, is_touch=name != "desktop")
                page.do("ed.selection.clear(); ed.camera.wasShown = false; ed.fit()")
                page.rest()
                page.picture(f"look-{name}-{theme}")
                self.choose(names[0], names[2])
                page.rest()
                page.picture(f"look-{name}-{theme}-selected")
                self.assertLessEqual(page.ask("document.documentElement.scrollWidth - innerWidth"), 0)

    def test_nothing_went_wrong_in_the_browser(self):
        self.assertEqual(self.page.errors(), [])
