"""What the page says lies beside what one does: banners, tips and the card of the history, and icons that stand in one row."""

from selenium.webdriver.common.keys import Keys

from page.tests.browse_board import WithBoard
from page.tests.browser import PHONE
from page.tests.places import wait_for

RECT = "(({left, top, right, bottom, width, height}) => ({left, top, right, bottom, width, height}))(document.querySelector('%s').getBoundingClientRect())"
OPACITY = "Number(getComputedStyle(document.querySelector('#banners')).opacity)"


class Notices(WithBoard):
    def tearDown(self):
        self.one.do("ed.patience = 300; ed.banner(null)")

    def box(self, selector):
        return self.one.ask(RECT % selector)

    def meets(self, one, other):
        one, other = self.box(one), self.box(other)
        return one["left"] < other["right"] and other["left"] < one["right"] and one["top"] < other["bottom"] and other["top"] < one["bottom"]

    def test_a_banner_stands_where_the_pointer_is_not(self):
        page = self.one
        for place, is_low in (((720, 400), False), ((720, 120), True), ((100, 120), False)):
            page.move_to(place)
            page.do("ed.banner({ text: 'Some words that are told for a while', action: 'Show' })")
            page.rest()
            box = self.box(".banner")
            self.assertEqual(box["top"] > 400, is_low, place)
            self.assertFalse(box["left"] < place[0] < box["right"] and box["top"] < place[1] < box["bottom"])
            for each in ("#tools", "#history", "#zoom", "#aid"):
                self.assertFalse(self.meets(".banner", each), each)
            page.picture(f"ui-banner-{'low' if is_low else 'high'}")
            page.do("ed.banner(null)")

    def test_a_banner_lies_beside_the_panels(self):
        page = self.one
        (rect,) = self.make(page, "create rect 300 400 100 60", select=True)
        size = page.driver.get_window_size()
        self.addCleanup(page.driver.set_window_size, size["width"], size["height"])
        page.driver.set_window_size(960, 800)
        page.do("ed.banner({ text: 'Together again: 12 edits by Ben are in now, 5 of them before 3 of yours, and so on', action: 'Show' })")
        page.rest()
        self.assertFalse(self.meets(".banner", "#style"))
        page.picture("ui-banner-narrow")

    def test_a_gesture_sees_through_a_banner_and_escape_takes_it_away(self):
        page = self.one
        page.move_to((200, 500))
        page.do("ed.banner({ text: 'Some words that are told for a while' })")
        self.make(page, "create rect 300 300 200 120", "fill @1 DAE6FF")
        page.press_at((400, 360), (560, 200), (720, 110))
        wait_for(lambda: page.ask(OPACITY) < 0.3)
        page.picture("ui-banner-gesture")
        page.release()
        self.settled(page)
        wait_for(lambda: page.ask(OPACITY) == 1)
        page.press(Keys.ESCAPE)
        self.assertIn("Some words", page.banners())
        page.press(Keys.ESCAPE)
        self.assertEqual(page.banners(), "")

    def test_what_stays_is_soon_a_few_words_that_one_can_draw_through(self):
        page = self.one
        size = page.driver.get_window_size()
        self.addCleanup(page.driver.set_window_size, size["width"], size["height"])
        page.driver.set_window_size(1000, 800)
        wait_for(lambda: page.ask("innerWidth") == 1000 and page.text(".state-words") == "Connected")
        page.rest()
        page.move_to((200, 500))
        page.do("ed.patience = 0.05; ed.focusBoard()")
        self.cut(1)
        # Beside the button of an empty board one draws as anywhere.
        acts = self.box(".empty-acts")
        place = (acts["left"] + 10, acts["top"] + 10)
        page.draw("r", place, (place[0] + 60, place[1] + 50))
        wait_for(lambda: page.banners().startswith("Offline, "))
        lines = self.typed_by(page, lambda: page.draw("r", (480, 70), (540, 120)))
        self.assertEqual(lines[0], "create rect 480 70 60 50")
        # It goes on to count, in as few words.
        wait_for(lambda: page.banners() == "Offline, 4 edits wait")
        self.assertLess(self.box(".banner")["width"], 240)
        page.picture("ui-banner-small")
        # The island of the file says it where it has room for words.
        page.driver.set_window_size(size["width"], size["height"])
        wait_for(lambda: not page.find(".banner").is_displayed())
        self.assertIn("Offline, 4 edits wait", page.text("#file"))
        self.cut()
        wait_for(lambda: "Offline" not in page.banners())

    def test_on_a_phone_a_banner_covers_no_tools(self):
        page = self.one
        size = page.driver.get_window_size()
        self.addCleanup(page.driver.set_window_size, size["width"], size["height"])
        page.driver.execute_cdp_cmd("Emulation.setDeviceMetricsOverride", {"width": PHONE[0], "height": PHONE[1], "deviceScaleFactor": 2, "mobile": True})
        self.addCleanup(page.driver.execute_cdp_cmd, "Emulation.clearDeviceMetricsOverride", {})
        for pointer in ("null", "{ px: 200, py: 100, x: 200, y: 100 }"):
            page.do(f"ed.pointer = {pointer}; ed.banner({{ text: 'Together again: 12 edits by Ben are in now, 5 of them before 3 of yours', action: 'Show' }})")
            page.rest()
            for each in ("#tools", "#history", "#zoom", "#file", "#faces", ".lens"):
                self.assertFalse(self.meets(".banner", each), (pointer, each))
            page.picture(f"ui-banner-phone-{'high' if pointer == 'null' else 'low'}")
            page.do("ed.banner(null)")
        # Nor the bar of what is selected, which may come later.
        (name,) = self.make(page, "create rect 120 150 100 60")
        page.do("ed.pointer = null; ed.banner({ text: 'Some words that are told for a while' })")
        page.do("ed.selection.set([arguments[0]])", name)
        page.rest()
        self.assertTrue(page.find("#quick").is_displayed())
        self.assertFalse(self.meets(".banner", "#quick"))
        page.picture("ui-banner-phone-quick")

    def test_a_tip_of_the_history_goes_where_its_card_comes_and_leaves_nothing(self):
        page = self.one
        self.make(page, "create rect 300 200 100 60", "move @1 320 220", "move @1 340 240")
        lane = self.box(".lane")
        middle = (lane["left"] + lane["width"] / 2, lane["top"] + lane["height"] / 2)
        page.move_to((middle[0] - 40, middle[1]), middle)
        wait_for(lambda: page.find(".hist-tip").is_displayed())
        page.click(middle)
        wait_for(lambda: page.find(".hist-card").is_displayed())
        self.assertFalse(page.find(".hist-tip").is_displayed())
        page.move_to((middle[0] + 60, middle[1]))
        self.assertFalse(page.find(".hist-tip").is_displayed())
        # An edit is told by who made it and when, and not by its number in the file.
        more = page.text(".hist-more")
        self.assertRegex(more, r"^Edits? .*of \d+ · .*\d\d:\d\d.* · your \d+(st|nd|rd|th) edit$")
        page.picture("ui-history-card")
        page.press(Keys.ESCAPE)
        page.rest()
        self.assertFalse(page.find(".hist-card").is_displayed())
        self.assertFalse(page.find(".hist-tip").is_displayed())

    def test_a_tip_goes_once_its_button_was_pressed(self):
        page = self.one
        tip = "getComputedStyle(document.querySelector('#tools [data-tool=\"rect\"]'), '::before').content"
        box = self.box("#tools [data-tool=\"rect\"]")
        place = (box["left"] + 18, box["top"] + 18)
        page.move_to((place[0], place[1] + 300), place)
        wait_for(lambda: "Rectangle" in page.ask(tip))
        page.click(place)
        self.assertEqual(page.ask(tip), "none")
        page.move_to((500, 400), place)
        wait_for(lambda: "Rectangle" in page.ask(tip))
        page.press(Keys.ESCAPE)

    def test_icons_that_align_stand_in_one_row(self):
        page = self.one
        self.make(page, "create rect 300 200 100 60", "create rect 500 300 100 60", "create rect 400 400 90 60", select=True)
        page.rest()
        tops = page.ask("[...document.querySelectorAll('.for-many .tool')].map((each) => each.getBoundingClientRect().top)")
        self.assertEqual((len(tops), len(set(tops))), (8, 1))
        sizes = page.ask("[...document.querySelectorAll('.for-many .tool')].map((each) => each.getBoundingClientRect().width)")
        self.assertGreaterEqual(min(sizes), 24)
        page.picture("ui-align")
