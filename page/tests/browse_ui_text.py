"""Text in place: it grows, nothing that was typed is lost, and letters of every kind go."""

import time

from selenium.webdriver.common.keys import Keys

from page.tests.browse_ui import WithOnePage
from page.tests.places import wait_for

FIELD = ".label-field"
OPEN = "!document.querySelector('.label-field').hidden"


class Text(WithOnePage):
    def write_at(self, place, text):
        """Double clicks at a place and writes, without an end."""
        self.page.click_twice(place)
        wait_for(lambda: self.page.ask(OPEN))
        self.page.write(text)

    def test_a_double_click_on_paper_writes_and_a_click_elsewhere_keeps_it(self):
        page = self.page
        self.write_at((400, 300), "Hello")
        page.click((800, 600))
        (name,) = wait_for(lambda: page.ids("text"))
        item = self.item(name)
        self.assertEqual((item["label"], item["stroke"]), ("Hello", "000000"))
        self.assertFalse(page.ask(OPEN))
        self.assertGreater(item["w"], 20)

    def test_nothing_is_made_of_blanks_and_a_text_made_blank_goes(self):
        page = self.page
        self.write_at((400, 300), "   ")
        page.click((800, 600))
        self.assertEqual(page.ids(), [])
        (name,) = self.made("create text 300 300 100 26 Hello")
        self.choose(name)
        page.press(Keys.ENTER)
        page.write(Keys.BACKSPACE)
        page.click((800, 600))
        wait_for(lambda: not page.ids())

    def test_a_shape_grows_with_its_text(self):
        page = self.page
        (name,) = self.made("create rect 300 300 120 40")
        self.choose(name)
        page.press(Keys.ENTER)
        page.write("This text wraps in its shape, and makes it grow to more lines than it had")
        grown = page.ask("(b => b.y1 - b.y0)(ed.model.at(arguments[0]).box)", name)
        self.assertGreater(grown, 80)
        page.picture("text-grows")
        page.press(Keys.ENTER, hold=["ctrl"])
        wait_for(lambda: self.item(name)["label"].startswith("This text"))
        self.assertEqual(self.item(name)["h"], grown)
        page.press("z", hold=["ctrl"])
        wait_for(lambda: (self.item(name)["label"], self.item(name)["h"]) == ("", 40))

    def test_a_text_of_501_bytes_is_never_lost(self):
        page = self.page
        (name,) = self.made("create rect 300 200 400 200")
        for text, over in (("x" * 501, "1 byte too many"), ("я" * 270, "40 bytes too many")):
            self.choose(name)
            page.press(Keys.ENTER)
            page.do("const f = document.querySelector('.label-field'); f.value = arguments[0]; f.dispatchEvent(new Event('input'))", text)
            self.assertEqual(page.text(".label-count"), over)
            page.click((900, 600))
            self.assertTrue(page.ask(OPEN))
            page.press(Keys.ENTER, hold=["ctrl"])
            self.assertTrue(page.ask(OPEN))
            self.assertEqual(page.find(FIELD).get_attribute("value"), text)
            self.assertEqual(page.find(FIELD).get_attribute("aria-invalid"), "true")
            page.picture("text-too-long")
            # It goes once it fits.
            page.do("const f = document.querySelector('.label-field'); f.value = arguments[0]; f.dispatchEvent(new Event('input'))", text[:90])
            page.click((900, 600))
            wait_for(lambda: self.item(name)["label"] == text[:90])
            wait_for(lambda: not page.ask(OPEN))

    def test_a_click_that_ends_a_text_is_never_the_second_of_two(self):
        page = self.page
        one, two = self.made("create rect 300 200 100 60", "create rect 500 200 100 60")
        began = time.time()
        for at, name in enumerate((one, two)):
            self.choose(name)
            page.press(Keys.ENTER)
            page.write(f"Text {at}")
            # Both at one place, and 100 ms apart by their own times.
            page.click_by_time(900, 600, began + 0.1 * at)
            wait_for(lambda: self.item(name)["label"] == f"Text {at}")
            self.assertFalse(page.ask(OPEN))
        # The first of two may end one: who clicks twice beside a text writes there.
        self.choose(one)
        page.press(Keys.ENTER)
        page.write("Again")
        page.click_twice((900, 600))
        wait_for(lambda: page.ask(OPEN))
        self.assertEqual((self.item(one)["label"], page.ask("ed.editing")), ("Again", "~new"))
        page.press(Keys.ESCAPE)
        self.assertEqual(len(page.ids()), 2)

    def test_bytes_left_are_told_when_there_are_few(self):
        page = self.page
        self.write_at((300, 300), "x" * 459)
        self.assertFalse(page.find(".label-count").is_displayed())
        page.write("x")
        self.assertEqual(page.text(".label-count"), "40 bytes left")
        # Where nothing is written, nothing is made.
        page.do("document.querySelector('.label-field').value = ''")
        page.press(Keys.ESCAPE)
        self.assertFalse(page.ids())

    def test_escape_keeps_what_was_written(self):
        page = self.page
        (name,) = self.made("create rect 300 300 200 80 Before")
        self.choose(name)
        page.press(Keys.ENTER)
        page.write("After")
        page.press(Keys.ESCAPE)
        self.assertFalse(page.ask(OPEN))
        self.assertEqual(page.ask("document.activeElement.id"), "board")
        wait_for(lambda: self.item(name)["label"] == "After")

    def test_a_double_click_in_the_middle_of_an_empty_shape_writes_its_label(self):
        page = self.page
        (name,) = self.made("create rect 300 300 200 120")
        page.click_twice((390, 350))
        page.write("Inside" + Keys.ESCAPE)
        wait_for(lambda: self.item(name)["label"] == "Inside")
        # Away from the middle a shape without a fill is paper.
        (other,) = self.made("create rect 300 500 200 120")
        page.click_twice((330, 600))
        page.write("Beside" + Keys.ESCAPE)
        wait_for(lambda: len(page.ids()) == 3)
        self.assertEqual(self.item(other)["label"], "")

    def test_the_field_goes_with_the_view(self):
        page = self.page
        (name,) = self.made("create rect 300 300 200 80 Word")
        self.choose(name)
        page.press(Keys.ENTER)
        centre = "(b => [b.left + b.width / 2, b.top + b.height / 2].map(Math.round))(document.querySelector('.label-field').getBoundingClientRect())"
        near = lambda found, wanted: all(abs(one - other) <= 2 for one, other in zip(found, wanted))
        self.assertTrue(near(page.ask(centre), (400, 340)))
        page.do("ed.camera.set(100, 50, 1)")
        self.assertTrue(near(page.ask(centre), (300, 290)))
        page.do("ed.camera.set(100, 50, 2)")
        self.assertTrue(near(page.ask(centre), (600, 580)))
        page.do("ed.camera.set(0, 0, 1)")
        page.press(Keys.ESCAPE)

    def test_lines_are_kept_and_right_to_left_runs_so(self):
        page = self.page
        for text in ("one\ntwo", "שלום, עולם (test)!", "🙂👩‍👩‍👧 山田"):
            (name,) = self.made("create rect 300 300 300 80")
            self.choose(name)
            page.press(Keys.ENTER)
            page.do("const f = document.querySelector('.label-field'); f.value = arguments[0]; f.dispatchEvent(new Event('input'))", text)
            direction = page.ask("getComputedStyle(document.querySelector('.label-field')).direction")
            self.assertEqual(direction, "rtl" if text.startswith("ש") else "ltr")
            page.click((900, 600))
            wait_for(lambda: self.item(name)["label"] == text)
            page.do("ed.edits.do('x', ['delete ' + arguments[0]])", name)
            wait_for(lambda: not page.ids())

    def test_keys_that_a_method_of_input_uses_end_nothing(self):
        page = self.page
        self.write_at((300, 300), "に")
        for key in ("Escape", "Enter", "Tab"):
            page.do("document.activeElement.dispatchEvent(new KeyboardEvent('keydown', {key: arguments[0], isComposing: true, ctrlKey: true, bubbles: true}))", key)
        self.assertTrue(page.ask(OPEN))
        page.click((900, 600))
        wait_for(lambda: page.ids("text"))

    def begin_in(self, *lines):
        """Makes a shape, opens its field, and gives its name."""
        (name,) = self.made(*lines)
        self.choose(name)
        self.page.press(Keys.ENTER)
        return name

    def test_what_is_written_into_a_shape_that_went_is_kept(self):
        page = self.page
        name = self.begin_in("create rect 300 300 200 80")
        page.write("Precious")
        page.do("ed.edits.do('gone', ['delete ' + arguments[0]])", name)
        wait_for(lambda: not page.ids())
        # It is said where one writes, and one can go on.
        wait_for(lambda: page.find(".label-note").is_displayed())
        self.assertIn("deleted a rectangle. Your words become a text of their own", page.text(".label-note"))
        page.write("!")
        page.picture("text-of-what-went")
        page.click((900, 600))
        (made,) = wait_for(lambda: page.ids("text"))
        # It stands where the shape stood, as high as a text is and no higher.
        text = self.item(made)
        self.assertEqual(text["label"], "Precious!")
        self.assertLess(text["h"], 30)
        self.assertAlmostEqual(text["x"] + text["w"] / 2, 400, delta=8)
        self.assertAlmostEqual(text["y"] + text["h"] / 2, 340, delta=2)

    def test_what_is_written_into_a_shape_that_went_can_be_left_out(self):
        page = self.page
        name = self.begin_in("create rect 300 300 200 80")
        page.write("Unwanted")
        page.do("ed.edits.do('gone', ['delete ' + arguments[0]])", name)
        wait_for(lambda: page.find(".label-note").is_displayed())
        page.find(".label-note .quiet").click()
        self.assertFalse(page.ask(OPEN))
        self.assertEqual(page.ids(), [])


class Clipboard(WithOnePage):
    def test_what_is_copied_is_text_of_show_and_comes_back(self):
        page = self.page
        one, two = self.made("create rect 100 100 80 60 A label", "fill @1 FFF2AE", "create line 200 100 80 60", "group @1 @3")
        (group,) = page.ids("group")
        self.choose(group)
        text = page.ask("ed.clipboard.text()")
        self.assertEqual(text.split("\n")[-2:], ["end 3", ""])
        self.assertEqual([line.split()[0] for line in text.split("\n")[:3]], ["group", "rect", "line"])
        self.assertIn("fill FFF2AE width 1 text A label", text)
        page.do("ed.pointer = { x: 600, y: 400 }; ed.clipboard.put(arguments[0])", text)
        wait_for(lambda: page.is_settled() and len(page.ids("group")) == 2)
        (new,) = [name for name in page.ids("group") if name != group]
        members = page.ask("ed.model.members.get(arguments[0]).map((id) => ed.model.byId.get(id).label)", new)
        self.assertEqual(members, ["A label", ""])
        wait_for(lambda: page.selected() == [new])

    def test_keys_copy_cut_and_paste(self):
        page = self.page
        (one,) = self.made("create rect 100 100 80 60")
        self.choose(one)
        events = """
            const data = new DataTransfer();
            document.activeElement.dispatchEvent(new ClipboardEvent(arguments[0], { clipboardData: data, bubbles: true, cancelable: true }));
            return data.getData('text/plain');
        """
        copied = page.do(events, "copy")
        self.assertTrue(copied.startswith("rect "))
        self.assertEqual(page.do(events, "cut"), copied)
        wait_for(lambda: not page.ids())
        page.do("""
            const data = new DataTransfer();
            data.setData('text/plain', arguments[0]);
            document.activeElement.dispatchEvent(new ClipboardEvent('paste', { clipboardData: data, bubbles: true, cancelable: true }));
        """, copied)
        wait_for(lambda: len(page.ids("rect")) == 1)

    def test_other_text_becomes_a_text_and_a_long_one_several(self):
        page = self.page
        page.do("ed.clipboard.put(arguments[0])", "Just words\nin two lines")
        (name,) = wait_for(lambda: page.ids("text"))
        self.assertEqual(self.item(name)["label"], "Just words\nin two lines")
        page.do("ed.clipboard.put(arguments[0])", "word " * 250)
        wait_for(lambda: page.is_settled() and len(page.ids("text")) == 4)
        labels = [page.item(each)["label"] for each in page.ids("text")[1:]]
        self.assertEqual(" ".join(labels).split(), ["word"] * 250)

    def test_what_is_pasted_again_at_one_place_stands_beside_the_last_one(self):
        page = self.page
        (one,) = self.made("create rect 100 100 80 60 Twin")
        self.choose(one)
        page.press("c", hold=["ctrl"])
        page.move_to((600, 400))

        def pasted():
            count = len(page.ids())
            page.press("v", hold=["ctrl"])
            wait_for(lambda: len(page.ids()) == count + 1 and page.is_settled())
            return tuple(page.item(page.ids()[-1])[part] for part in "xy")

        self.assertEqual([pasted() for _ in range(3)], [(560, 370), (580, 390), (600, 410)])
        page.picture("ui-pasted-thrice")
        # At another place, and where the last one was taken back, it stands at the pointer.
        page.move_to((300, 500))
        self.assertEqual(pasted(), (260, 470))
        page.press("z", hold=["ctrl"])
        wait_for(lambda: len(page.ids()) == 4 and page.is_settled())
        self.assertEqual(pasted(), (260, 470))
