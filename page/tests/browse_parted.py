"""One person's file is put back from an older copy: what both are told, for as long as it is so, and what they do then."""

from page.tests.browser import Page, WithTwoPages
from page.tests.places import wait_for

NOTICE = "You and Ben have parted: nothing more that Ben draws comes here."
OWN = "This isn’t your newest file: others have edits of yours that aren’t here. What you draw now doesn’t reach them."


class Parted(WithTwoPages):
    def again(self, site, contents=None):
        """Ends the run of a site and starts it again, with these contents of its journal; gives its page."""
        self.runs[site - 1].end()
        if contents is not None:
            self.journals[site - 1].write_bytes(contents)
        self.runs[site - 1] = self.start(site)
        self.drivers[site - 1].get(self.runs[site - 1].address)
        page = self.pages[site - 1] = Page(self.drivers[site - 1])
        self.one, self.two = self.pages
        # What the page that was left said of its bridge.
        page.errors()
        return page

    def draw(self, page, left):
        """Draws a square, and waits until the node has it."""
        before = len(page.ids())
        page.draw("r", (left, 300), (left + 80, 380))
        wait_for(lambda: len(page.ids()) > before)
        self.settled(page)

    def notice(self, page):
        """The words of the notice that stays, or nothing."""
        return page.text("#banners .banner.warn[data-stays] span")

    def people(self, page):
        """What the list of people says, which the button of the notice opens."""
        page.find("#banners .banner.warn .quiet").click()
        wait_for(lambda: page.find(".pop[aria-label=People]").is_displayed())
        page.rest()
        return page.find(".pop[aria-label=People]").text

    def test_who_goes_on_from_an_older_copy_and_all_others_are_told_what_to_do(self):
        for page, name in zip(self.pages, ("Ann", "Ben")):
            page.do("ed.node.setName(arguments[0])", name)
        self.draw(self.two, 200)
        self.wait_until_same()
        self.draw(self.one, 320)
        self.wait_until_same()
        copy = self.journals[1].read_bytes()
        self.draw(self.two, 440)
        self.wait_until_same()
        newest = self.journals[1].read_bytes()

        # Ben's node hears that the others know of more edits of his.
        two = self.again(2, copy)
        wait_for(lambda: self.notice(two) == OWN)
        two.picture("parted-own")
        self.assertIn("go on with your newest file, on one machine alone", self.people(two))
        two.picture("parted-own-advice")
        two.do("ed.roster.close()")

        # And once he has drawn, Ann's knows that his edits are others now. His don't come any more; hers do.
        self.draw(two, 560)
        one = self.one
        wait_for(lambda: self.notice(one) == NOTICE)
        one.picture("parted")
        people = self.people(one)
        self.assertIn("parted from you", people)
        self.assertIn("Ben has to begin anew, with the newest file and on one machine alone", people)
        one.picture("parted-advice")
        self.assertEqual(self.notice(one), "Parted from Ben")
        one.do("ed.roster.close()")
        one.rest()
        one.picture("parted-short")
        self.draw(two, 680)
        self.draw(one, 800)
        wait_for(lambda: len(two.ids()) == 5)
        self.assertEqual(len(one.ids()), 4)
        # It is said to who comes later too.
        one.driver.refresh()
        one.come()
        wait_for(lambda: self.notice(one) == NOTICE)

        # He goes on with the newest file, and both begin anew.
        self.again(2, newest)
        one = self.again(1)
        self.draw(self.two, 920)
        shown = self.wait_until_same()
        self.assertEqual(len(shown), 5)
        for page in self.pages:
            self.assertEqual(self.notice(page), "")
            self.assertEqual(page.errors(), [])
