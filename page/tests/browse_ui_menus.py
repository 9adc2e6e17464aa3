"""Menus, the palette, the help, the list of objects, and what an empty board says."""

from selenium.webdriver.common.keys import Keys

from page.tests.browse_ui import WithOnePage
from page.tests.places import wait_for


class Menus(WithOnePage):
    def test_the_palette_finds_commands_and_objects(self):
        page = self.page
        self.made("create rect 3000 100 80 60 Needle in a haystack")
        page.press("k", hold=["ctrl"])
        page.write("needle")
        self.assertEqual(page.text(".palette-row[aria-selected=true] .palette-title"), "Needle in a haystack")
        page.write(Keys.ENTER)
        wait_for(lambda: len(page.selected()) == 1)
        wait_for(lambda: page.ask("ed.camera.box().x1") > 3000)
        page.press("k", hold=["ctrl"])
        page.write("zoom to 100")
        page.write(Keys.ENTER)
        self.assertFalse(page.ask("document.querySelector('.palette').open"))
        page.press("k", hold=["ctrl"])
        page.write("qqqq")
        self.assertIn("Nothing has these words", page.text("#palette-list"))
        page.write(Keys.ESCAPE)

    def test_who_would_invite_somebody_is_told_how(self):
        page = self.page
        told = "Who draws here was set when this drawing was started. For one to which a link invites people, start it with: ./draw --found"
        page.find(".faces").click()
        self.assertIn(told, page.text(".pop"))
        page.press(Keys.ESCAPE)
        page.press("k", hold=["ctrl"])
        page.write("invite")
        page.write(Keys.ENTER)
        self.assertEqual(page.banners(), told)

    def test_a_right_click_opens_a_menu_of_what_can_be_done(self):
        page = self.page
        (one,) = self.made("create rect 300 300 120 80", "fill @1 FFF2AE")
        page.click((350, 340), button=2)
        titles = "[...document.querySelectorAll('.menu [role=menuitem] span')].map((each) => each.textContent)"
        self.assertEqual(page.selected(), [one])
        self.assertIn("Duplicate", page.ask(titles))
        self.assertNotIn("Ungroup", page.ask(titles))
        page.press(Keys.ARROW_DOWN, Keys.ARROW_UP, Keys.ESCAPE)
        self.assertTrue(page.ask("document.querySelector('.menu').hidden"))
        self.assertEqual(page.ask("document.activeElement.id"), "board")
        page.click((350, 340), button=2)
        [each for each in page.all(".menu button") if each.text.startswith("Delete")][0].click()
        wait_for(lambda: not page.ids())
        page.click((800, 500), button=2)
        self.assertIn("Select all", page.ask(titles))
        page.press(Keys.ESCAPE)

    def test_the_menu_of_the_file_and_the_help(self):
        page = self.page
        page.find("#file button").click()
        self.assertEqual(page.find("#file button").get_attribute("aria-expanded"), "true")
        titles = page.ask("[...document.querySelectorAll('.menu [role=menuitem] span')].map((each) => each.textContent)")
        for title in ("Import a file", "Export as SVG", "Export as PNG", "Export as PDF", "Print", "Save as lines", "Save as JSON", "Save the whole file with its history (journal)", "Your name"):
            self.assertIn(title, titles)
        page.picture("menu")
        page.press(Keys.ESCAPE)
        page.press("?")
        self.assertTrue(page.ask("document.querySelector('.help').open"))
        self.assertIn("Ctrl+Shift+Z", page.text(".help"))
        page.picture("help")
        page.press(Keys.ESCAPE)
        self.assertFalse(page.ask("document.querySelector('.help').open"))

    def test_saving_offers_pictures_first(self):
        page = self.page
        self.made("create rect 100 100 80 60")
        page.press("s", hold=["ctrl"])
        titles = page.ask("[...document.querySelectorAll('.menu [role=menuitem] span')].map((each) => each.textContent)")
        pictures = ["Export as SVG", "Export as PNG", "Export as PDF"]
        self.assertEqual(titles, [*pictures, "Save the whole file with its history (journal)", "Save as JSON", "Save as lines", "Save the list of all edits (events)"])
        self.assertEqual(page.text(".menu .fine"), "All is kept already, in person-1.log")
        self.assertEqual(page.ask("document.activeElement.textContent"), "Export as SVG")
        page.picture("save")
        page.press(Keys.ESCAPE)
        self.assertTrue(page.ask("document.querySelector('.menu').hidden"))

    def test_what_the_program_lacks_is_no_button(self):
        page = self.page
        titles = page.ask("[...document.querySelectorAll('button:not([hidden])')].map((each) => each.ariaLabel ?? each.textContent)")
        for word in ("Arrow", "forward", "backward", "Restore", "Watch"):
            self.assertEqual([each for each in titles if word.lower() in each.lower()], [], word)

    def test_the_list_of_objects(self):
        page = self.page
        one, two = self.made("create rect 100 100 80 60 First", "create ellipse 1800 100 80 60 Second")
        page.press("O", hold=["ctrl", "shift"])
        rows = "[...document.querySelectorAll('[role=treeitem] span')].map((each) => each.textContent)"
        wait_for(lambda: page.ask(rows) == ["Second", "First"])
        page.find("#objects .field").send_keys("fir")
        wait_for(lambda: page.ask(rows) == ["First"])
        page.find("#objects .field").send_keys(Keys.BACKSPACE * 3)
        wait_for(lambda: len(page.ask(rows)) == 2)
        page.find(f'[data-id="{two}"]').click()
        self.assertEqual(page.selected(), [two])
        wait_for(lambda: page.ask("ed.camera.box().x1") > 1880)
        page.picture("objects")
        page.press(Keys.ARROW_DOWN)
        self.assertEqual(page.selected(), [one])
        page.press(Keys.DELETE)
        wait_for(lambda: page.ids() == [two])
        page.press(Keys.ESCAPE)
        self.assertEqual(page.ask("document.activeElement.id"), "board")

    def test_an_empty_board_says_how_to_begin(self):
        page = self.page
        page.do("ed.rested()")
        self.assertTrue(page.find("#empty").is_displayed())
        self.assertIn("pick a tool", page.text("#empty"))
        # It speaks of nothing that isn't there yet.
        self.assertNotIn("below", page.text("#empty"))
        page.picture("empty")
        self.made("create rect 100 100 80 60")
        self.assertFalse(page.find("#empty").is_displayed())
