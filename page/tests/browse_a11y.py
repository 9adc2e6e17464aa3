"""What assistive technology is told, and what can be done by keys alone; contrast, forced colours, less motion."""

from selenium.webdriver.common.keys import Keys

from page.tests.browse_ui import WithOnePage
from page.tests.counting import counted
from page.tests.places import wait_for

# Pairs of colours of the page's tokens: text needs 4.5 to 1, marks 3 to 1 (WCAG 2, 1.4.3 and 1.4.11).
TEXTS = """text surface|soft surface|muted surface|soft raised|text hover|muted board|text pressed|soft pressed|on-accent accent|
on-accent accent-strong|accent-text surface|accent-text accent-soft|late surface|late late-soft|warn warn-soft|surface text|
surface late|soft surface|text board""".replace("\n", "").split("|")
MARKS = "line-strong surface|accent board|focus surface|focus board|good surface|guide board|late board|muted lane|late surface|warn surface".split("|")
CONTRASTS = """
const pen = document.createElement('canvas').getContext('2d', { willReadFrequently: true });
const style = getComputedStyle(document.documentElement);
const light = (name) => {
  pen.fillStyle = style.getPropertyValue('--' + name).trim();
  pen.fillRect(0, 0, 1, 1);
  const parts = [...pen.getImageData(0, 0, 1, 1).data].slice(0, 3).map((v) => v / 255);
  const [r, g, b] = parts.map((v) => (v <= 0.04045 ? v / 12.92 : ((v + 0.055) / 1.055) ** 2.4));
  return 0.2126 * r + 0.7152 * g + 0.0722 * b;
};
return arguments[0].map((pair) => {
  const [one, other] = pair.split(' ').map(light).sort((a, b) => b - a);
  return [pair, (one + 0.05) / (other + 0.05)];
});
"""
# The same of each text that is seen, on the ground that it stands on.
SEEN_TEXTS = """
const linear = (v) => (v <= 0.04045 ? v / 12.92 : ((v + 0.055) / 1.055) ** 2.4);
const parts = (colour) => colour.match(/[\\d.]+/g).map(Number);
const light = (rgb) => { const [r, g, b] = rgb.map((v) => linear(v / 255)); return 0.2126 * r + 0.7152 * g + 0.0722 * b; };
const groundOf = (element) => {
  for (let each = element; each; each = each.parentElement) {
    const colour = parts(getComputedStyle(each).backgroundColor);
    if ((colour[3] ?? 1) > 0.9) return colour.slice(0, 3);
  }
  return parts(getComputedStyle(document.body).backgroundColor);
};
const hasText = (element) => [...element.childNodes].some((node) => node.nodeType === 3 && node.textContent.trim());
return [...document.body.querySelectorAll('*')].filter((each) => hasText(each) && each.checkVisibility({ checkOpacity: true, checkVisibilityCSS: true }))
  .filter((each) => !each.closest('[disabled], [aria-disabled=true], .unseen, .skip, noscript')).map((element) => {
    const style = getComputedStyle(element);
    const [one, other] = [light(parts(style.color).slice(0, 3)), light(groundOf(element))].sort((a, b) => b - a);
    return [element.outerHTML.slice(0, 70), parseFloat(style.fontSize), (one + 0.05) / (other + 0.05)];
  });
"""


class Accessibility(WithOnePage):
    def tree(self):
        """What the accessibility tree has: for each node its role, its name and what else is said."""
        found = self.driver.execute_cdp_cmd("Accessibility.getFullAXTree", {})["nodes"]
        nodes = [each for each in found if not each.get("ignored")]
        value = lambda each, key: each.get(key, {}).get("value", "")
        return [(value(each, "role"), value(each, "name"), {one["name"]: one["value"].get("value") for one in each.get("properties", [])}) for each in nodes]

    def test_the_board_is_named_by_what_is_there_and_what_is_selected(self):
        page = self.page
        one, two = self.made("create rect 100 100 80 60 Hello", "create ellipse 300 100 80 60")
        label = "document.getElementById('board').ariaLabel"
        page.do("ed.rested()")
        self.assertEqual(page.ask(label), "Board, 2 objects")
        self.choose(one)
        self.assertEqual(page.ask(label), "Board, 2 objects, Rectangle “Hello”, by You")
        self.choose(one, two)
        self.assertEqual(page.ask(label), "Board, 2 objects, 2 selected")
        self.assertIn(("application", "Board, 2 objects, 2 selected"), [(role, name) for role, name, _ in self.tree()])

    def test_all_objects_stand_in_a_tree_also_while_the_drawer_is_closed(self):
        page = self.page
        self.made("create rect 100 100 80 60 Hello", "create ellipse 300 100 80 60", "create line 500 100 80 60", "group @1 @2")
        page.do("ed.selection.clear()")
        items = lambda: [(name, kept.get("level"), kept.get("selected")) for role, name, kept in self.tree() if role == "treeitem"]
        wanted = [("Group of 2, by You", 1), ("Ellipse, by You", 2), ("Rectangle “Hello”, by You", 2), ("Line, by You", 1)]
        wait_for(lambda: [each[:2] for each in items()] == wanted)
        self.assertIn("tree", [role for role, _, _ in self.tree()])
        self.assertEqual(page.ask("document.querySelector('[role=tree]').tabIndex"), -1)
        self.choose(*page.ids("line"))
        wait_for(lambda: [each[0] for each in items() if each[2]] == ["Line, by You"])

    def test_a_large_drawing_costs_the_tree_nothing_while_one_draws(self):
        page = self.page
        page.do("ed.edits.do('many', Array.from({ length: 3000 }, (_, at) => `create rect ${(at % 60) * 20} ${Math.floor(at / 60) * 20} 10 10`))")
        wait_for(lambda: page.is_settled() and len(page.ids()) == 3000)
        with counted(self.driver) as runs:
            page.do("""
                for (let turn = 0; turn < 20; turn += 1) {
                  ed.selection.ids = new Set([ed.model.items[turn].id]);
                  ed.objects.update();
                }
            """)
        # It is made anew when the drawing rests, and not at each of the twenty.
        self.assertLess(max(runs.values()), 5 * 3000)
        count = "document.querySelector('[role=treeitem]')?.getAttribute('aria-setsize')"
        wait_for(lambda: page.ask(count) == "3000")
        self.assertLessEqual(page.ask("document.querySelectorAll('[role=treeitem]').length"), 300)
        # The keys go through all of them, also beyond the rows that are there.
        page.press("O", hold=["ctrl", "shift"])
        page.press(Keys.END)
        wait_for(lambda: page.selected() == [page.ids()[0]])
        self.assertEqual(page.ask("document.querySelector('[role=treeitem][aria-selected=true]').getAttribute('aria-posinset')"), "3000")
        page.press(Keys.ESCAPE)

    def test_period_and_comma_walk_and_bring_into_view(self):
        page = self.page
        one, two = self.made("create rect 100 100 80 60 First", "create rect 9000 100 80 60 Second")
        page.do("ed.selection.clear(); ed.focusBoard()")
        page.press(".")
        self.assertEqual(page.selected(), [one])
        wait_for(lambda: page.said() == "Rectangle “First”, by You. 1 of 2")
        page.press(".")
        self.assertEqual(page.selected(), [two])
        wait_for(lambda: page.ask("ed.camera.box().x0") > 5000)
        page.press(",")
        self.assertEqual(page.selected(), [one])

    def test_a_diagram_is_drawn_by_keys_alone(self):
        page = self.page
        page.press("k", hold=["ctrl"])
        page.write("rectangle" + Keys.ENTER)
        self.assertEqual(page.ask("ed.tool"), "rect")
        page.press(Keys.ENTER)
        (one,) = wait_for(page.ids)
        page.press(Keys.ARROW_RIGHT, Keys.ARROW_RIGHT)
        page.press(Keys.ARROW_DOWN, hold=["shift"])
        middle = page.ask("[Math.round(innerWidth / 2), Math.round(innerHeight / 2)]")
        wait_for(lambda: (self.item(one)["x"], self.item(one)["y"]) == (middle[0] - 80 + 2, middle[1] - 40 + 10))
        page.press(Keys.ARROW_RIGHT, hold=["alt"])
        wait_for(lambda: (self.item(one)["w"], self.item(one)["h"]) == (161, 80))
        page.press(Keys.ENTER)
        wait_for(lambda: page.ask("ed.editing"))
        page.write("By keys")
        page.press(Keys.ENTER, hold=["ctrl"])
        wait_for(lambda: self.item(one)["label"] == "By keys")
        self.assertEqual(page.ask("document.activeElement.id"), "board")

    def test_each_toolbar_is_one_stop_and_arrows_walk_in_it(self):
        page = self.page
        self.made("create rect 100 100 80 60")
        page.do("ed.selection.clear(); ed.focusBoard()")
        stops = []
        where = "(a => a.closest('[role=toolbar], #history, #file, #faces, #link, #style')?.id ?? a.id ?? a.className)(document.activeElement)"
        # Once around, from the board to the board.
        while "board" not in stops and len(stops) < 30:
            page.press(Keys.TAB)
            stops.append(page.ask(where))
        for bar in ("tools", "zoom", "aid", "board"):
            self.assertEqual(stops.count(bar), 1, stops)
        page.do("document.querySelector('#tools [tabindex=\"0\"]').focus()")
        first = page.ask("document.activeElement.dataset.tool")
        page.press(Keys.ARROW_RIGHT)
        self.assertNotEqual(page.ask("document.activeElement.dataset.tool"), first)
        page.press(Keys.ARROW_LEFT)
        self.assertEqual(page.ask("document.activeElement.dataset.tool"), first)

    def test_all_that_is_pressed_or_filled_in_has_a_name_and_no_name_is_there_twice(self):
        page = self.page
        self.made("create rect 100 100 80 60")
        nameless = """
            [...document.querySelectorAll('button, input, textarea, [role=application], [role=toolbar], [role=tree], dialog')]
              .filter((each) => !(each.ariaLabel || each.getAttribute('aria-label') || each.textContent.trim() || each.labels?.length))
              .map((each) => each.outerHTML.slice(0, 90))
        """
        self.assertEqual(page.ask(nameless.strip()), [])
        bars = page.ask("[...document.querySelectorAll('[role=toolbar], [role=group][aria-label]')].map((each) => each.ariaLabel)")
        named = [each for each in bars if not each.startswith("Used")]
        self.assertEqual(len(set(named)), len(named))
        twice = page.ask("(ids => ids.filter((id, at) => ids.indexOf(id) !== at))([...document.querySelectorAll('[id]')].map((each) => each.id))")
        self.assertEqual(twice, [])

    def test_each_edit_is_said(self):
        page = self.page
        page.draw("r", (300, 300), (400, 380))
        wait_for(lambda: "rectangle" in page.said().lower())
        page.press(Keys.DELETE)
        wait_for(lambda: page.said() == "Deleted a rectangle")
        (name,) = self.made("create rect 300 300 80 60")
        self.choose(name)
        page.press(Keys.ARROW_LEFT)
        wait_for(lambda: page.said().startswith("Moved"))
        page.press("z", hold=["ctrl"])
        wait_for(lambda: page.said().startswith("Undid: Moved"))

    def test_colours_have_contrast_light_and_dark(self):
        page = self.page
        self.made("create rect 300 300 80 60", "create ellipse 500 300 80 60", "fill @2 FFF2AE")
        for theme in ("light", "dark"):
            page.do("ed.setTheme(arguments[0])", theme)
            for pairs, least in ((TEXTS, 4.5), (MARKS, 3)):
                low = [each for each in page.do(CONTRASTS, pairs) if each[1] < least]
                self.assertEqual(low, [], theme)
            for act in ("ed.selection.set(ed.model.items.map((i) => i.id), null)", "ed.roster.open()", "ed.help.open()",
                        "document.querySelector('.help').close(); ed.palette.open()", "document.querySelector('.palette').close(); ed.history.step(-1)"):
                page.do(act)
                page.do("document.getAnimations().forEach((each) => each.finish())")
                seen = page.do(SEEN_TEXTS)
                self.assertGreater(len(seen), 5)
                self.assertEqual([each for each in seen if each[2] < 4.5], [], f"{theme} {act}")
            page.picture(f"a11y-{theme}")
            page.do("ed.roster.close(); ed.history.toNow()")
        page.do("ed.setTheme('light')")

    def test_forced_colours_show_what_is_chosen_and_what_cannot_be_done(self):
        page = self.page
        self.made("create rect 300 300 80 60")
        self.driver.execute_cdp_cmd("Emulation.setEmulatedMedia", {"features": [{"name": "forced-colors", "value": "active"}]})
        self.choose(*page.ids())
        look = "(s => [s.backgroundColor, s.color])(getComputedStyle(document.querySelector(arguments[0])))"
        self.assertNotEqual(page.ask(look, "[data-tool=select]"), page.ask(look, "[data-tool=hand]"))
        self.assertNotEqual(page.ask(look, "#zoom [data-run=redo]")[1], page.ask(look, "#zoom [data-run=fit]")[1])
        page.picture("forced-colours")
        self.driver.execute_cdp_cmd("Emulation.setEmulatedMedia", {"features": []})

    def test_less_motion_is_kept(self):
        page = self.page
        self.made("create rect 5000 5000 80 60")
        self.driver.execute_cdp_cmd("Emulation.setEmulatedMedia", {"features": [{"name": "prefers-reduced-motion", "value": "reduce"}]})
        page.do("ed.fit()")
        self.assertTrue(page.ask("(b => b.x0 < 5000 && b.x1 > 5000)(ed.camera.box())"))
        self.driver.execute_cdp_cmd("Emulation.setEmulatedMedia", {"features": []})

    def test_the_policy_of_content_was_never_broken(self):
        self.assertEqual(self.page.errors(), [])
