"""A page of which a file doesn't come, as from a very busy machine: it says so, and comes by itself."""

from page.tests.browse_ui import WithOnePage
from page.tests.places import wait_for

WORDS = "document.querySelector('#loading')?.checkVisibility() ? document.querySelector('#loading').textContent : ''"
READY = "document.body?.dataset.ready"
LOADS = "sessionStorage.getItem('groupdesign.loads')"


class Loading(WithOnePage):
    def block(self, *files):
        self.driver.execute_cdp_cmd("Network.enable", {})
        self.driver.execute_cdp_cmd("Network.setBlockedURLs", {"urls": [f"*/{each}" for each in files]})

    def tearDown(self):
        self.block()
        self.page.do("sessionStorage.removeItem('groupdesign.loads')")
        self.driver.get(self.run_of_draw.addresses[1])
        self.page.come()
        # What was kept from coming was said as an error.
        self.page.errors()

    def test_a_page_without_one_of_its_files_is_loaded_again_until_it_is_whole(self):
        page = self.page
        for each in ("board/overlay.js", "main.js", "css/board.css"):
            self.block(each)
            self.driver.refresh()
            wait_for(lambda: page.ask(WORDS) == "A part of the page didn’t come. It is loaded again …")
            page.picture(f"loading-without-{each.replace('/', '-')}")
            self.block()
            wait_for(lambda: page.ask(f"{READY} && {LOADS} === null && !document.querySelector('#loading').checkVisibility()"))

    def test_where_it_never_comes_that_is_said_and_nothing_is_tried_for_good(self):
        page = self.page
        page.do("sessionStorage.setItem('groupdesign.loads', '5')")
        self.block("core/node.js")
        self.driver.refresh()
        wait_for(lambda: "Load it again, by your browser’s button or F5" in page.ask(WORDS))
        # One try more would have been counted by now.
        self.assertEqual(page.ask(LOADS), "5")

    def test_a_page_that_takes_long_says_so_and_not_that_the_board_is_empty(self):
        page = self.page
        self.made("create rect 100 100 80 60")
        # What the bridge tells is kept from the page.
        script = "window.WebSocket = class extends EventTarget {};"
        added = self.driver.execute_cdp_cmd("Page.addScriptToEvaluateOnNewDocument", {"source": script})
        self.driver.refresh()
        wait_for(lambda: page.ask("window.ed && Boolean(ed.gestures)"))
        self.assertEqual(page.ask(WORDS), "The board is loading …")
        page.picture("loading")
        self.assertFalse(page.find("#empty").is_displayed())
        self.driver.execute_cdp_cmd("Page.removeScriptToEvaluateOnNewDocument", added)
