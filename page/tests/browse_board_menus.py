"""What a mouse does by the menu of the board and by that of the file: the lines that the node took, and what lies in files."""

from pathlib import Path

from page.tests.browse_board import WithBoard
from page.tests.browse_board_phone import ROWS
from page.tests.places import wait_for

RIGHT = 2
NAMED = f"{ROWS}.find((each) => each.querySelector('span').textContent === arguments[0])"


class ByMouse(WithBoard):
    @classmethod
    def setUpClass(cls):
        super().setUpClass()
        origin = cls.runs[0].address.rsplit("/", 2)[0]
        cls.one.driver.execute_cdp_cmd("Browser.grantPermissions", {"permissions": ["clipboardReadWrite", "clipboardSanitizedWrite"], "origin": origin})

    def setUp(self):
        super().setUp()
        self.page = self.one

    def open_menu_at(self, place):
        self.page.click(place, button=RIGHT)
        wait_for(lambda: self.page.ask(f"{ROWS}.length > 0"))

    def click_row(self, title):
        """Clicks a row of the menu that is open, once that hears."""
        wait_for(lambda: self.page.ask(f"!ed.menu.isDeaf && Boolean({NAMED})", title))
        self.page.ask(NAMED, title).click()

    def test_copy_cut_paste_and_duplicate(self):
        (rect,) = self.make(self.page, "create rect 300 200 120 80 Word", "fill @1 DAE6FF")
        self.open_menu_at((360, 240))
        self.assert_typed(self.page, lambda: self.click_row("Copy"))
        wait_for(lambda: self.page.said() == "Copied 1 object")
        self.open_menu_at((600, 500))
        lines = self.typed_by(self.page, lambda: (self.click_row("Paste"), wait_for(lambda: len(self.page.ids()) == 2)))
        (copy,) = self.page.selected()
        # Where the pointer was.
        self.assertEqual(lines, ["create rect 540 460 120 80 Word", f"fill {copy} DAE6FF"])
        self.open_menu_at((600, 500))
        self.assert_typed(self.page, lambda: (self.click_row("Cut"), wait_for(lambda: len(self.page.ids()) == 1)), f"delete {copy}")
        self.open_menu_at((360, 240))
        lines = self.typed_by(self.page, lambda: self.click_row("Duplicate"))
        self.assertEqual(lines[0], "create rect 320 220 120 80 Word")
        self.assert_seen(rect, label="Word")

    def test_a_picture_is_exported(self):
        self.make(self.page, "create rect 300 200 120 80 Word", "fill @1 DAE6FF")
        folder = Path(self.room) / "saved"
        folder.mkdir()
        self.page.driver.execute_cdp_cmd("Browser.setDownloadBehavior", {"behavior": "allow", "downloadPath": str(folder)})
        self.page.find("#file button").click()
        self.click_row("Export as SVG")
        (file,) = wait_for(lambda: [each for each in folder.iterdir() if each.name.endswith(".svg") and each.stat().st_size])
        self.assertIn('data-label="Word"', file.read_text(encoding="utf-8"))
