"""A demonstration of two: a pane for each site, the link between them, and the picture of the README."""

import base64
import os
import unittest

from page.draw import ROOT
from page.tests.browser import UNHURRIED, Page, Run, browser
from page.tests.places import wait_for

SETTLE = "const [field, value] = arguments; field.value = value; field.dispatchEvent(new Event('input')); field.dispatchEvent(new Event('change'));"
WIDER = "return document.documentElement.scrollWidth - document.documentElement.clientWidth"
PICTURE = (1560, 860)
PLAN = [
    "create text 40 40 330 36 Launch of the spring release",
    "create rect 40 130 150 76 Draft the spec", "stroke @2 2563EB", "fill @2 DAE6FF", "width @2 2",
    "create rect 270 130 150 76 Review", "stroke @6 2563EB", "fill @6 DAE6FF", "width @6 2",
    "create ellipse 500 118 150 100 All agreed?", "stroke @10 B98500", "fill @10 FFF2AE", "width @10 2",
    "create line 190 168 80 0", "stroke @14 6B7280", "width @14 2",
    "create line 420 168 80 0", "stroke @17 6B7280", "width @17 2",
    "create rect 40 290 380 190", "stroke @20 6B7280", "width @20 2",
    "create text 60 304 160 26 Before the date",
    "create rect 60 350 160 52 Docs in 3 languages", "stroke @24 6B7280", "fill @24 FFFFFF", "width @24 2",
    "create rect 60 414 160 52 תיעוד בעברית (test)!", "stroke @28 6B7280", "fill @28 FFFFFF", "width @28 2",
    "create rect 250 350 150 116 Who writes the notes?", "stroke @32 7C3AED", "fill @32 E9DFFF", "width @32 2",
    "create rect 500 320 150 76 Ship it", "stroke @36 258750", "fill @36 D3F2DB", "width @36 4",
    "create line 575 218 0 102", "stroke @40 258750", "width @40 2",
]


class Pane(Page):
    """The page of one site in its pane."""

    def __init__(self, driver, number):
        self.number = number
        self.driver = driver
        wait_for(lambda: self.ask("document.body?.dataset.ready"))
        self.do(UNHURRIED)

    def ask(self, expression, *given):
        self.enter()
        return super().ask(expression, *given)

    def do(self, script, *given):
        self.enter()
        return super().do(script, *given)

    def enter(self):
        self.driver.switch_to.default_content()
        self.driver.switch_to.frame(self.number - 1)

    def make(self, *lines):
        self.do("ed.edits.do('made', arguments[0])", list(lines))
        wait_for(self.is_settled)

    def named(self, label):
        return self.ask("ed.model.items.find((i) => i.label === arguments[0]).id", label)


class Demonstration(unittest.TestCase):
    @classmethod
    def setUpClass(cls):
        cls.run_of_draw = Run("--demo", "2", addresses=3)
        cls.addClassCleanup(cls.run_of_draw.end)
        cls.driver = browser(f"--window-size={PICTURE[0]},{PICTURE[1]}", "--force-device-scale-factor=1")
        cls.addClassCleanup(cls.driver.quit)
        cls.emulate("light", *PICTURE)
        cls.driver.get(cls.run_of_draw.address)
        wait_for(lambda: len(cls.driver.find_elements("css selector", "iframe")) == 2)
        cls.panes = [Pane(cls.driver, number) for number in (1, 2)]

    @classmethod
    def emulate(cls, scheme, width, height):
        cls.driver.execute_cdp_cmd("Emulation.setEmulatedMedia", {"features": [{"name": "prefers-color-scheme", "value": scheme}]})
        metrics = {"width": width, "height": height, "deviceScaleFactor": 1, "mobile": False}
        cls.driver.execute_cdp_cmd("Emulation.setDeviceMetricsOverride", metrics)

    def outside(self, selector):
        self.driver.switch_to.default_content()
        return self.driver.find_elements("css selector", selector)

    def wait_until_same(self):
        def is_same():
            return all(pane.is_settled() for pane in self.panes) and self.panes[0].shown() == self.panes[1].shown()

        wait_for(is_same)

    def test_1_one_is_cut_off_both_draw_and_all_comes_together(self):
        one, two = self.panes
        for pane, name in ((one, "Ada"), (two, "Bob")):
            pane.do("ed.node.setName(arguments[0])", name)
        one.make(*PLAN)
        self.wait_until_same()
        for pane in self.panes:
            pane.do("ed.fit()")
        self.outside(".pane .switch")[1].click()
        wait_for(lambda: self.outside(".pane.is-cut"))
        self.edit_apart(one, two)
        wait_for(lambda: "Offline: 5 edits wait here" in two.banners())
        wait_for(lambda: "Offline" in one.banners())
        one.picture("demo-cut-off")
        self.outside(".pane .switch")[1].click()
        self.wait_until_same()
        wait_for(lambda: two.banners().startswith("Together again: "))
        wait_for(lambda: not self.outside(".pane.is-cut"))
        repaired = {each.ask("ed.history.lates().length") for each in self.panes}
        self.assertNotEqual(repaired, {0})
        self.show_repair(one, two)
        one.picture("demo-repaired")
        if os.environ.get("PAGE_PICTURE"):
            self.make_picture()
        for pane in self.panes:
            pane.do("ed.history.toNow(); ed.banner(null)")

    def edit_apart(self, one, two):
        """Two who can't see each other edit the same: what Ada groups and deletes, Bob has moved and filled."""
        review, docs, notes, ship = (one.named(label) for label in ("Review", "Docs in 3 languages", "Who writes the notes?", "Ship it"))
        two.make(f"move {review} 270 110", f"fill {docs} FFE6C9", f"move {ship} 500 350", f"text {notes} Bob writes the notes", f"fill {ship} FFF2AE")
        one.make(f"group {docs} {notes}", f"fill {docs} D3F2DB", f"move {review} 270 150", f"delete {ship}")
        one.do("ed.selection.set([arguments[0]], null)", review)

    def show_repair(self, one, two):
        """In the second pane the card of an event that was repaired; in the first one what it looks like now."""
        best = """
            const { events } = ed.node;
            const at = events.findLastIndex((e) => e.late?.what === 'reworked');
            ed.history.goTo((at < 0 ? events.findLastIndex((e) => e.late?.what === 'dropped') : at) + 1);
        """
        pane = two if two.ask("ed.history.lates().length") else one
        # The card says what the banner did.
        pane.do("ed.banner(null)")
        pane.do(best)
        wait_for(lambda: pane.find(".hist-card").is_displayed())
        self.assertRegex(pane.text(".hist-card"), "Came late|came late|changes nothing")
        pane.do("document.activeElement.blur(); ed.focusBoard()")

    def make_picture(self):
        """The picture of the README: small, and of the page alone."""
        self.driver.switch_to.default_content()
        clip = {"x": 0, "y": 0, "width": PICTURE[0], "height": PICTURE[1], "scale": 0.8}
        taken = self.driver.execute_cdp_cmd("Page.captureScreenshot", {"format": "png", "clip": clip})
        (ROOT / "docs/page.png").write_bytes(base64.b64decode(taken["data"]))

    def test_2_sliders_lose_double_and_delay_and_each_page_shows_them(self):
        one, two = self.panes
        values = {"loss": 40, "twice": 30, "delay": 300}
        for name, value in values.items():
            (field,) = self.outside(f"[name={name}]")
            self.driver.execute_script(SETTLE, field, value)
        shown = lambda: [each.text for each in self.outside("#controls output")]
        wait_for(lambda: shown() == ["40 %", "30 %", "300 ms"])
        wait_for(lambda: two.ask("ed.node.link") == {**values, "cut": []})
        before = len(two.ids())
        one.make("create rect 700 40 40 40")
        two.make("create ellipse 700 100 40 40")
        self.wait_until_same()
        self.assertEqual(len(one.ids()), before + 2)
        for name in values:
            (field,) = self.outside(f"[name={name}]")
            self.driver.execute_script(SETTLE, field, 0)
        wait_for(lambda: shown() == ["0 %", "0 %", "0 ms"])

    def test_3_a_site_has_a_window_of_its_own_with_the_link_in_an_island(self):
        self.driver.switch_to.default_content()
        self.assertEqual([each.get_attribute("href") for each in self.outside(".pane-head a")], self.run_of_draw.addresses[1:])
        self.driver.get(self.run_of_draw.addresses[2])
        page = Page(self.driver)
        self.assertTrue(page.find("#link").is_displayed())
        page.find("#link .switch").click()
        wait_for(lambda: page.ask("ed.node.link.cut") == [2])
        # Nothing else is said for a moment longer.
        self.assertRegex(page.text(".state-words"), "^Offline")
        wait_for(lambda: page.find("#link .switch").get_attribute("aria-checked") == "true")
        page.find("#link .switch").click()
        wait_for(lambda: page.ask("ed.node.link.cut") == [])
        self.driver.get(self.run_of_draw.address)
        wait_for(lambda: len(self.outside("iframe")) == 2)
        for pane in self.panes:
            wait_for(lambda: pane.ask("document.body.dataset.ready"))
            self.assertFalse(pane.find("#link").is_displayed())

    def test_4_it_is_there_dark_and_light_wide_and_narrow(self):
        for scheme in ("light", "dark"):
            for width, height in (PICTURE, (360, 1200)):
                self.emulate(scheme, width, height)
                self.driver.get(self.run_of_draw.address)
                wait_for(lambda: len(self.outside("iframe")) == 2)
                for pane in self.panes:
                    wait_for(lambda: pane.ask("document.body.dataset.ready"))
                self.driver.switch_to.default_content()
                self.assertLessEqual(self.driver.execute_script(WIDER), 0)
                self.driver.switch_to.default_content()
                self.panes[0].picture(f"demo-{scheme}-{width}")
        self.emulate("light", *PICTURE)

    def test_5_nothing_went_wrong_in_the_browser(self):
        self.assertEqual([each for each in self.driver.get_log("browser") if each["level"] == "SEVERE"], [])
