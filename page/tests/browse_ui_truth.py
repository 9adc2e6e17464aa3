"""What is said where something isn't as it should be: nobody there, a node that ended or is silent, a bridge that went; and
the history, with late events and how they were repaired; names."""

import os
import signal
import subprocess

from selenium.webdriver.common.keys import Keys

from page.tests.browser import UNHURRIED, WithTwoPages
from page.tests.places import wait_for


def node_of(run):
    """The process of the node that a run of ./draw has started."""
    listed = subprocess.run(["ps", "-o", "pid=,args=", "--ppid", str(run.process.pid)], capture_output=True, text=True).stdout
    (found,) = [line.split()[0] for line in listed.splitlines() if " node " in line]
    return int(found)


class Truth(WithTwoPages):
    def setUp(self):
        self.clear()

    def make(self, page, *lines):
        page.do("ed.edits.do('made', arguments[0])", list(lines))
        self.settled(page)

    def state(self, page):
        return page.text(".state-words")

    def faces(self, page):
        """Who is here, as it is said."""
        return page.ask("document.querySelector('.faces').ariaLabel")

    def rename(self, page, name):
        """Gives a name, as one does it."""
        page.do("ed.roster.close()")
        page.find(".faces").click()
        # The list is filled anew as others come and go, so the button is found and clicked in one.
        page.do("[...document.querySelectorAll('.pop button')].find((each) => each.textContent === 'Rename').click()")
        # The driver has no keys for letters beyond the first 65,536.
        page.do("document.activeElement.value = arguments[0]", name)
        page.press(Keys.ENTER)

    def test_1_names_of_any_letters_are_shown_to_the_other_and_kept(self):
        one, two = self.one, self.two
        for name in ("Ada Lovelace", "Александра Коллонтай", "🙂🙂🙂🙂🙂"):
            self.rename(one, name)
            wait_for(lambda: f"{name}, you" in self.faces(one))
        self.rename(one, "x" * 65)
        self.assertIn("This name is 1 byte too long", one.text(".pop"))
        self.assertEqual(one.find(".pop .field").get_attribute("value"), "x" * 65)
        one.press(Keys.ESCAPE)
        self.rename(one, "Ada")
        self.rename(two, "Bob")
        wait_for(lambda: "Ada, here now" in self.faces(two))
        wait_for(lambda: "Bob, here now" in self.faces(one))

    def test_11_the_list_of_people_stays_what_it_is_under_the_pointer(self):
        page = self.one
        page.find(".faces").click()
        button = page.find(".pop button")
        heard = page.ask("ed.node.counted + ed.node.edits")
        self.make(self.two, "create rect 300 300 100 80")
        wait_for(lambda: page.ids() and page.ask("ed.node.counted + ed.node.edits") >= heard)
        page.do("ed.roster.update()")
        self.assertEqual(button.text, "Rename")
        button.click()
        self.assertIn("Your name", page.text(".pop"))
        page.press(Keys.ESCAPE)

    def test_2_who_selects_is_seen_there(self):
        self.make(self.one, "create rect 300 300 100 80")
        (name,) = self.one.ids()
        self.wait_until_same()
        self.one.do("ed.selection.set([arguments[0]], null)", name)
        wait_for(lambda: self.two.ask("[...ed.people.seats[0].selection]") == [name])
        self.two.find(".faces").click()
        self.assertIn("looks at rectangle", self.two.text(".pop"))
        self.two.picture("people")
        self.two.press(Keys.ESCAPE)

    def test_3_offline_is_said_with_what_waits_and_what_came_late_when_back(self):
        one, two = self.one, self.two
        self.make(one, "create rect 300 300 100 80 First", "create rect 500 300 100 80 Second", "create rect 700 300 100 80 Third")
        self.wait_until_same()
        wait_for(lambda: self.state(one) == "Connected")
        first, second, third = one.ids()
        self.cut(2)
        # The same is edited at both sides, so that what comes late has to be repaired.
        self.make(one, f"move {first} 310 320", f"fill {second} FFF2AE", f"move {third} 710 320")
        self.make(two, f"move {first} 330 340", f"fill {second} D3F2DB", f"delete {third}", "create ellipse 300 500 90 90 Mine")
        wait_for(lambda: two.banners() == "Offline: 4 edits wait here, safe on this machine")
        wait_for(lambda: one.banners() == "Offline: 3 edits wait here, safe on this machine")
        self.assertEqual(self.state(two), "Offline, 4 edits wait")
        self.assertIn("away", two.ask("document.querySelectorAll('.face')[0].className"))
        two.picture("offline")
        # What is said for a while stands beside what stays, and a number that goes up is no new banner.
        two.do("ed.banner({ text: 'For a while' }); window.kept = document.querySelector('#banners > *')")
        self.make(two, "create ellipse 500 500 90 90")
        wait_for(lambda: two.banners() == "Offline: 5 edits wait here, safe on this machineFor a while")
        self.assertTrue(two.ask("window.kept.isConnected"))
        two.do("ed.banner(null)")
        self.cut()
        self.wait_until_same()
        for page in self.pages:
            told = wait_for(lambda: (text := page.banners()).startswith("Together again: ") and text)
            self.assertRegex(told, r"^Together again: \d+ edits? by (Ada|Bob|Person [12]) (is|are) in now")
        lates = [text for page in self.pages if ", " in (text := page.banners())]
        self.assertRegex(lates[0], r"in now, (\d+ of them )?before \d+ of yours")
        wait_for(lambda: self.state(one) == self.state(two) == "Connected")
        self.lates_are_as_replayed()

    def lates_are_as_replayed(self):
        """The bar marks just the events that a replay of the journal had to repair."""
        for page, journal in zip((self.one, self.two), self.journals):
            program = os.environ["PAGE_PROGRAM"]
            with open(journal, "rb") as given:
                said = subprocess.run([program, "replay", "--counts"], stdin=given, capture_output=True, check=True, text=True).stdout
            words = said.strip().splitlines()[-1].split()
            counts = dict(zip(words[1::2], map(int, words[2::2])))
            marked = page.ask("ed.node.events.filter((e) => e.late && e.late.what !== 'applied').map((e) => e.late.what)")
            self.assertEqual(marked.count("dropped"), counts["dropped"])
            self.assertEqual(marked.count("reworked"), counts["reworked"])
            self.assertEqual(page.text(".late-count span"), str(len(marked)) if marked else "0")

    def test_4_the_history_shows_each_moment_and_how_a_late_event_was_repaired(self):
        self.test_3_offline_is_said_with_what_waits_and_what_came_late_when_back()
        page = max(self.one, self.two, key=lambda each: each.ask("ed.history.lates().length"))
        page.do("ed.banner(null)")
        page.find(".late-count").click()
        self.assertTrue(page.find(".hist-card").is_displayed())
        self.assertRegex(page.text(".hist-card"), "Came late|came late|changes nothing")
        self.assertRegex(page.text(".hist-more"), r"^Edit \d+ of \d+ · \d+:\d+:\d+.* · (your|\w+’s|Person \d’s) \d+(st|nd|rd|th) edit$")
        page.picture("history-card")
        events = page.ask("ed.node.events.length")
        # One can only look.
        page.press("r")
        page.drag((900, 200), (960, 260))
        page.press(Keys.DELETE)
        self.assertEqual(page.ask("ed.node.events.length"), events)
        self.assertIn("you look at the past", page.bubble())
        page.do("ed.history.go(0)")
        self.assertEqual(page.ids(), [])
        self.assertEqual(page.text(".hist-line"), "Before the first edit")
        page.press(Keys.ARROW_RIGHT, hold=["alt"])
        self.assertEqual(page.ask("ed.history.at"), 1)
        page.find('.hist-card [aria-label="One step on"]').click()
        self.assertEqual(page.ask("ed.history.at"), 2)
        page.find('.hist-card [aria-label="One step back"]').click()
        self.assertEqual(page.ask("ed.history.at"), 1)
        now = page.find(".now")
        now.click()
        self.assertFalse(page.find(".hist-card").is_displayed())
        wait_for(lambda: page.shown() == self.one.shown())
        self.assertIsNone(page.ask("ed.readOnly"))

    def test_41_who_deleted_what_the_other_one_moved_is_said_to_both(self):
        one, two = self.one, self.two
        self.make(one, "create rect 300 300 100 80 Start")
        (name,) = self.wait_until_same() and one.ids()
        self.cut(2)
        # What has the lower stamp goes first: the delete, so that the move behind it is on an object that is gone.
        self.make(two, f"delete {name}")
        self.make(one, "create rect 500 300 10 10", "delete @1", f"move {name} 310 320")
        # Each side has to know that it is cut off: who doesn't isn't together again.
        wait_for(lambda: "away" in one.ask("document.querySelectorAll('.face')[1].className"))
        wait_for(lambda: two.banners().startswith("Offline: 1 edit waits here"))
        self.cut()
        words = "deleted “Start” while you moved it, so the move changes nothing"
        wait_for(lambda: words in one.banners())
        one.picture("moved-and-deleted")
        one.find("#banners .quiet").click()
        self.assertIn("deleted it while you moved it, so the move changes nothing", one.text(".hist-late"))
        moved = one.ask("ed.node.events.findIndex((event) => event.op === 'move' && event.id === arguments[0]) + 1", name)
        one.do("ed.history.go(arguments[0])", moved)
        self.assertIn("deleted it while you moved it, so the move changes nothing", one.text(".hist-late"))
        one.picture("history-void")
        one.press(Keys.ESCAPE)
        wait_for(lambda: two.banners().startswith("Together again: 3 edits by"))
        self.wait_until_same()

    def test_42_a_gesture_is_one_step_of_the_keys_and_of_playing(self):
        one = self.one
        before = one.ask("ed.node.events.length")
        self.make(one, "create rect 300 300 100 80 First", "fill @1 FFF2AE", "create rect 500 300 100 80 Second")
        wait_for(lambda: one.ask("ed.node.events.length") == before + 3)
        self.make(one, *(f"move {name} {200 + 10 * at} 400" for at, name in enumerate(one.ids())))
        wait_for(lambda: one.ask("ed.node.events.length") == before + 5)
        shown = []
        for _ in range(2):
            one.press(Keys.ARROW_LEFT, hold=["alt"])
            shown.append((one.ask("ed.history.at"), one.text(".hist-line"), one.text(".hist-more").split(" · ")[0]))
        all = before + 5
        made = f"Edits {before + 1} to {before + 3} of {all}"
        self.assertEqual(shown, [(before + 3, "You made 2 objects", made), (before, shown[1][1], shown[1][2])])
        one.press(Keys.ARROW_RIGHT, Keys.ARROW_RIGHT, hold=["alt"])
        self.assertEqual((one.ask("ed.history.at"), one.text(".hist-line")), (all, "You moved 2 objects"))
        one.picture("history-gesture")
        one.press(Keys.ESCAPE)
        # A page that is opened anew knows it too.
        one.driver.refresh()
        wait_for(lambda: one.ask("document.body.dataset.ready && ed.node.events.length") == all)
        one.home()
        one.do("ed.history.go(arguments[0])", before)
        one.find("#history .tool").click()
        seen = "window.seen ??= []; if (ed.history.at !== window.seen.at(-1)) window.seen.push(ed.history.at); return ed.history.at"
        wait_for(lambda: one.do(seen) is None)
        self.assertLessEqual(set(one.ask("window.seen")), {before, before + 3, all, None})

    def test_43_what_the_other_one_deleted_is_put_back_from_the_history(self):
        one, two = self.one, self.two
        self.make(one, "create rect 300 300 100 80 Start", "fill @1 FFF2AE", "create rect 500 300 100 80", "group @1 @3", "create line 0 0 9 9")
        before = self.wait_until_same()
        (group,) = one.ids("group")
        self.make(two, f"delete {group}")
        wait_for(lambda: len(one.ids()) == 1)
        one.press(Keys.ARROW_LEFT, Keys.ARROW_RIGHT, hold=["alt"])
        self.assertRegex(one.text(".hist-line"), "deleted a group$")
        # It is lit where it was.
        self.assertEqual(one.ask("ed.overlay.flashing.list.map((each) => each.where)"), [{"x0": 300, "y0": 300, "x1": 600, "y1": 380}])
        one.picture("history-put-back")
        one.find(".hist-card > .quiet").click()
        self.assertIsNone(one.ask("ed.history.at"))
        wait_for(lambda: len(one.ids()) == 4 and one.is_settled())
        again = self.wait_until_same()
        look = lambda shown: sorted(line.partition(" at ")[2] for line in shown)
        self.assertEqual(look(again), look(before))
        self.assertEqual(one.selected(), one.ids("group"))

    def test_5_the_slider_goes_by_keys_and_tells_what_it_shows(self):
        self.make(self.one, "create rect 300 300 100 80 First", "move @1 310 300", "create rect 500 300 100 80 Second")
        page = self.one
        page.find("#history input").send_keys(Keys.ARROW_LEFT)
        at = page.ask("ed.history.at")
        self.assertEqual(at, page.ask("ed.node.events.length") - 1)
        self.assertRegex(page.find("#history input").get_attribute("aria-valuetext"), r"^Edit \d+ of \d+: You moved “First”")
        self.assertEqual(len(page.ids()), 1)
        page.press(Keys.ESCAPE)
        self.assertIsNone(page.ask("ed.history.at"))
        wait_for(lambda: len(page.ids()) == 2)

    def test_6_playing_walks_through_all_and_ends_now(self):
        page = self.one
        for each in range(5):
            self.make(page, f"create rect {100 + 30 * each} 300 20 20")
        page.do("ed.history.go(ed.node.events.length - 4)")
        page.find("#history .tool").click()
        self.assertEqual(page.find("#history .tool").get_attribute("aria-label"), "Pause")
        wait_for(lambda: page.ask("ed.history.at") is None)
        self.assertEqual(len(page.ids()), 5)

    def test_7_a_refusal_is_said_at_the_object(self):
        self.make(self.one, "create rect 300 300 100 80")
        (name,) = self.one.ids()
        self.one.do("ed.edits.do('x', ['move 9999.1 5 5'])")
        wait_for(lambda: self.one.bubble() == "Not done: it is gone, someone deleted it")
        self.one.picture("refused")
        box = self.one.ask("(b => [b.left, b.right, b.top])(document.querySelector('.bubble').getBoundingClientRect())")
        self.assertTrue(box[0] >= 0 and box[1] <= self.one.ask("innerWidth") and box[2] >= 0)

    def test_8_a_node_that_ended_is_started_again_and_the_name_is_there_still(self):
        page = self.one
        self.make(page, "create rect 300 300 100 80 Kept")
        self.rename(page, "Ada Byron")
        wait_for(lambda: "Ada Byron" in self.faces(page))
        os.kill(node_of(self.runs[0]), signal.SIGKILL)
        wait_for(lambda: "The program that keeps the drawing has ended" in page.banners())
        self.assertEqual(len(page.all("#banners .banner")), 1)
        self.assertEqual(self.state(page), "Ended")
        page.picture("node-ended")
        page.press("r")
        page.drag((900, 200), (960, 260))
        self.assertEqual(len(page.ids()), 1)
        self.assertIn("has ended, start it again", page.bubble())
        page.find("#banners .quiet").click()
        wait_for(lambda: "has ended" not in page.banners())
        page.press(Keys.ESCAPE)
        page.draw("r", (900, 200), (960, 260))
        wait_for(lambda: len(page.ids()) == 2)
        self.assertIn("Ada Byron", self.faces(page))
        wait_for(lambda: "Ada" in self.faces(self.two))
        self.wait_until_same()

    def test_80_what_is_said_for_a_while_goes_by_itself(self):
        page = self.one
        told = """
        ed.patience = 0.05;
        ed.banner({ text: "For a while", lasts: 6000 });
        ed.refuse([{ line: "clear", why: "NotVisible" }]);
        return ["#banners", "#bubbles"].map((each) => document.querySelector(each).textContent !== "")"""
        self.assertEqual(page.do(told), [True, True])
        wait_for(lambda: page.banners() == page.bubble() == "")
        page.do(UNHURRIED)

    def test_81_frames_of_another_session_are_said_once(self):
        page = self.one
        for count in (1, 9):
            page.do("ed.node.news.push({ what: 'said', line: 'frame refused: Session', count: arguments[0] })", count)
        wait_for(lambda: "edits are of another drawing" in page.banners())
        self.assertEqual(len(page.all("#banners .banner")), 1)
        page.do("ed.banner(null)")

    def test_9_a_node_that_is_silent_is_said(self):
        page = self.one
        node = node_of(self.runs[0])
        os.kill(node, signal.SIGSTOP)
        try:
            wait_for(lambda: page.banners() == "The program that keeps the drawing doesn’t answer. What you draw now waits until it does.")
            self.assertEqual(self.state(page), "No answer")
            page.draw("r", (300, 300), (400, 380))
            self.assertEqual(len(page.ids()), 1)
        finally:
            os.kill(node, signal.SIGCONT)
        wait_for(lambda: page.banners() == "")
        self.settled(page)
        self.wait_until_same()

    def test_x_a_bridge_that_went_is_said(self):
        page = self.two
        self.runs[1].end()
        wait_for(lambda: page.banners().startswith("./draw has ended. Start it again"))
        self.assertEqual(self.state(page), "No connection")
        self.assertEqual(page.find("#banners .quiet").text, "Try again")
        page.picture("bridge-gone")
        page.press("r")
        page.drag((900, 200), (960, 260))
        self.assertIn("no connection", page.bubble())
