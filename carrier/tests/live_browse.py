"""Two people in real browsers over a broker: one invites on the page, and the other draws with her."""

import importlib.util
import json
import shutil
import subprocess
import sys

from carrier.tests.runs import PROGRAM, free_port, why_not
from page.draw import ROOT
from page.tests.places import WithFolder, wait_for

LONG = 90


def why_no_browser():
    missing = [name for name in ("chromium", "chromedriver") if not shutil.which(name)]
    if not importlib.util.find_spec("selenium"):
        missing.append("selenium")
    return f"there is no {' and no '.join(missing)}" if missing else None


class Pages(WithFolder):
    def setUp(self):
        super().setUp()
        why = why_not() or why_no_browser()
        if why:
            self.skipTest(why)

    def begin(self, name, *words):
        """A run of ./draw and a page of it."""
        from page.tests.browser import Page, browser

        command = [sys.executable, str(ROOT / "draw"), *words, "--journal", str(self.folder / name), "--program", PROGRAM]
        run = subprocess.Popen(command, stdout=subprocess.PIPE, text=True)
        for end in (run.stdout.close, run.wait, run.terminate):
            self.addCleanup(end)
        address = run.stdout.readline().strip()
        driver = browser()
        self.addCleanup(driver.quit)
        driver.get(address)
        return Page(driver)

    def click(self, page, selector):
        page.find(selector).click()

    def seen(self, page, expression, wanted):
        """Waits until a page gives something."""
        wait_for(lambda: page.ask(expression) == wanted, LONG)

    def test_inviting_on_the_page_and_drawing_together(self):
        ana = self.begin("ana.log", "--found", "Oak", "--listen", f"127.0.0.1:{free_port()}")
        self.assertEqual(ana.ask("ed.people.seats.length"), 1)
        self.click(ana, "button[aria-label='Invite']")
        self.assertEqual(ana.ask("ed.node.carried.invites"), 15)
        self.click(ana, ".invite .primary")
        wait_for(lambda: ana.all(".invite .field"), LONG)
        link = ana.ask("document.querySelector('.invite .field').value")
        self.assertTrue(link.startswith("groupdesign:#"))
        # The link that was made is shown again, and takes no other seat.
        self.click(ana, "button[aria-label='Invite']")
        self.click(ana, "button[aria-label='Invite']")
        self.assertEqual(ana.ask("document.querySelector('.invite .field').value"), link)
        ana.do("ed.inviting.close()")
        ben = self.begin("ben.log", "--join", link)
        name = "Ben with a name of more than sixteen bytes"
        ben.do("ed.node.setName(arguments[0])", name)
        ana.do("ed.node.type(() => ['create rect 100 100 80 60 by Ana'])")
        self.seen(ben, "ed.model.items.map((each) => each.label).join()", "by Ana")
        ben.do("ed.node.type(() => ['create ellipse 300 100 80 60 by Ben'])")
        self.seen(ana, "ed.model.items.map((each) => each.label).join()", "by Ana,by Ben")
        self.seen(ana, "ed.people.seats.map((seat) => seat.name).join()", f"Person 1,{name}")
        self.seen(ana, "ed.people.seats.map((seat) => seat.here).join()", "true,true")
        self.seen(ana, "ed.node.carried.invites", 14)
        self.points_and_selections(ana, ben)
        logged = [entry for page in (ana, ben) for entry in page.driver.get_log("browser")]
        self.assertEqual([entry for entry in logged if entry["level"] == "SEVERE"], [])
        pictures = ROOT / "carrier/out/screenshots"
        pictures.mkdir(parents=True, exist_ok=True)
        ana.driver.save_screenshot(str(pictures / "together.png"))

    def points_and_selections(self, ana, ben):
        """Ben's pointer and what he selects are seen at Ana's, and go with him."""
        ben.do("ed.selection.set([ed.model.items[0].id])")
        where = json.loads(ben.ask("JSON.stringify(ed.model.items.map((each) => each.id))"))
        self.seen(ana, "[...ed.people.seats[1].selection].join()", where[0])
        ben.do("ed.board.dispatchEvent(new PointerEvent('pointermove', { clientX: 420, clientY: 350, bubbles: true }))")
        self.seen(ana, "JSON.stringify(ed.node.pointers.get(2))", "[420,350]")
        self.seen(ana, "document.querySelectorAll('.pointer').length", 1)
        ben.driver.get("about:blank")
        self.seen(ana, "document.querySelectorAll('.pointer').length", 0)




class Others(Pages):
    """People who have no seat of their own: who looks on, and guests of a host."""

    def printed(self, *words):
        """What a command prints."""
        command = [sys.executable, str(ROOT / "draw"), *words]
        return subprocess.run(command, check=True, capture_output=True, text=True).stdout.strip()

    def run_of(self, *words):
        """A run of ./draw without a journal among its first words, and the first words of the lines that it prints."""
        run = subprocess.Popen([sys.executable, str(ROOT / "draw"), *words, "--program", PROGRAM], stdout=subprocess.PIPE, text=True)
        for end in (run.stdout.close, run.wait, run.terminate):
            self.addCleanup(end)
        return run, lambda: run.stdout.readline().split(" ")[0].strip()

    def opened(self, address):
        """A browser with the page of that address, which may still have to come."""
        from page.tests.browser import browser

        driver = browser()
        self.addCleanup(driver.quit)
        driver.get(address)
        return driver

    def page(self, address):
        from page.tests.browser import Page

        return Page(self.opened(address))

    def shown(self, page, selector):
        return page.ask(f"getComputedStyle(document.querySelector({json.dumps(selector)})).display")

    def test_looking_on(self):
        ana = self.begin("ana.log", "--found", "Oak", "--listen", f"127.0.0.1:{free_port()}")
        ana.do("ed.node.type(() => ['create rect 100 100 80 60 by Ana'])")
        self.seen(ana, "ed.node.carried.watches", True)
        self.click(ana, "button[aria-label='Invite']")
        self.click(ana, ".invite .watch")
        wait_for(lambda: ana.all(".invite .field"), LONG)
        link = ana.ask("document.querySelector('.invite .field').value")
        self.assertEqual(link, self.printed("--invite", "--watch", "--journal", str(self.folder / "ana.log")))
        _, address = self.run_of("--watch", link)
        looker = self.page(address())
        self.seen(looker, "ed.model.items.map((each) => each.label).join()", "by Ana")
        self.seen(looker, "ed.readOnly", "this page only looks on")
        for selector in ("#tools", "#style", "#zoom [data-run='undo']", "button[aria-label='Invite']"):
            self.assertEqual(self.shown(looker, selector), "none", selector)
        # It is live, and keys and gestures change nothing.
        ana.do("ed.node.type(() => ['create ellipse 300 100 80 60 later'])")
        self.seen(looker, "ed.model.items.map((each) => each.label).join()", "by Ana,later")
        looker.do("ed.selection.set(ed.model.items.map((each) => each.id)); ed.edits.type?.(['delete 1.1'])")
        looker.do("ed.nudge(10, 0); ed.settle()")
        self.assertEqual(ana.ask("ed.model.items.length"), 2)
        self.seen(ana, "ed.node.carried.watched", True)
        logged = [entry for page in (ana, looker) for entry in page.driver.get_log("browser")]
        self.assertEqual([entry for entry in logged if entry["level"] == "SEVERE"], [])

    def test_guests_of_a_host(self):
        from page.tests.browser import Page

        given = ["--host", "2", "--at", "127.0.0.1:0", "--journal", str(self.folder / "host.log")]
        _, address = self.run_of(*given)
        addresses = [address(), address()]
        one, other = self.page(addresses[0]), self.page(addresses[1])
        one.do("ed.node.type(() => ['create rect 100 100 80 60 by one'])")
        self.seen(other, "ed.model.items.map((each) => each.label).join()", "by one")
        waiting = self.opened(addresses[1])
        banners = "return document.getElementById('banners')?.textContent ?? ''"
        wait_for(lambda: "one person at a time" in waiting.execute_script(banners), LONG)
        other.driver.get("about:blank")
        third = Page(waiting)
        self.seen(third, "ed.model.items.map((each) => each.label).join()", "by one")
        self.assertFalse(third.ask("document.getElementById('banners').textContent.includes('one person')"))
