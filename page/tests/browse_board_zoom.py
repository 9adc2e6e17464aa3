"""A zoom over so much that the last picture is stretched while it moves: what changes meanwhile is seen at once and in place, what
comes into view is there, and once it rests all is as when it is painted anew."""

from page.tests.browse_board import WithBoard
from page.tests.logs import large
from page.tests.places import wait_for

COLUMNS, ROWS, STEP, SIZE = 30, 20, 60, 40
FOREVER, SOON = 1_000_000_000, 120
RED, YELLOW = "D92D20", "FFF2AE"
AT_REST = "ed.scene.kept?.zoom === ed.camera.zoom && !ed.scene.damage.length && !ed.scene.job && !ed.scene.far.job && !ed.scene.isStale"
# The colours of the canvas at places of the board, in the frame that is shown now.
SEEN = """
const [places, done] = arguments;
requestAnimationFrame(() => requestAnimationFrame(() => done(places.map(([x, y]) => {
  const [left, top] = ed.camera.toWindow(x, y).map((each) => Math.round(each * devicePixelRatio));
  return [...ed.scene.c.getImageData(left, top, 1, 1).data].slice(0, 3).map((part) => part.toString(16).padStart(2, '0')).join('').toUpperCase();
}))));
"""
# How many pixels of the canvas differ from those of one that is painted anew.
COMPARE = """
const { scene } = ed;
const pixels = () => scene.c.getImageData(0, 0, scene.canvas.width, scene.canvas.height).data;
const was = pixels();
scene.isStale = true;
scene.draw(performance.now());
const now = pixels();
let count = 0;
for (let at = 0; at < now.length; at += 4) if (was[at] !== now[at] || was[at + 1] !== now[at + 1] || was[at + 2] !== now[at + 2]) count += 1;
return count;
"""


def name_of(column, row):
    return f"{row * COLUMNS + column + 1}.1"


def inside(column, row):
    """A place in an object, beside its label."""
    return column * STEP + 8, row * STEP + 8


class Zooming(WithBoard):
    @classmethod
    def prepare(cls):
        for site, journal in enumerate(cls.journals, 1):
            journal.write_bytes(large(COLUMNS * ROWS, site=site, columns=COLUMNS, step=STEP, size=SIZE))

    def setUp(self):
        page = self.one
        wait_for(lambda: all(len(each.ids()) == COLUMNS * ROWS for each in self.pages))
        page.do(f"ed.scene.restAfter = {SOON}; ed.selection.clear(); ed.camera.set(300, 200, 1)")
        wait_for(lambda: page.ask(AT_REST))
        page.do(f"ed.scene.restAfter = {FOREVER}")
        self.addCleanup(page.do, f"ed.scene.restAfter = {SOON}; ed.touch('scene')")

    def wheel(self, place, by, times=1):
        """Turns the wheel over a place of the board with Ctrl held."""
        x, y = self.one.at(place)
        for _ in range(times):
            event = {"type": "mouseWheel", "x": x, "y": y, "deltaX": 0, "deltaY": by, "modifiers": 2}
            self.one.driver.execute_cdp_cmd("Input.dispatchMouseEvent", event)

    def seen(self, *places):
        return self.one.driver.execute_async_script(SEEN, list(places))

    def rest(self):
        self.one.do(f"ed.scene.restAfter = {SOON}; ed.touch('overlay'); ed.camera.hear()")
        wait_for(lambda: self.one.ask(AT_REST))

    def test_what_changes_meanwhile_is_seen_at_once_and_in_place(self):
        page = self.one
        self.wheel((700, 500), -12, 2)
        wait_for(lambda: page.ask("ed.camera.zoom > 1.2 && ed.scene.isStretched"))
        self.assertEqual(page.ask("ed.scene.kept.zoom"), 1)
        # Another one fills a shape, and so does this page.
        self.two.do("ed.edits.do('f', [`fill ${arguments[0]} ${arguments[1]}`])", name_of(9, 7), YELLOW)
        wait_for(lambda: page.item(name_of(9, 7))["fill"] == YELLOW)
        page.do("ed.edits.do('f', [`fill ${arguments[0]} ${arguments[1]}`])", name_of(10, 7), RED)
        self.assertEqual(self.seen(inside(9, 7), inside(10, 7)), [YELLOW, RED])
        # A shape is dragged, and while the mouse is down the wheel goes on.
        x, y = inside(10, 7)
        begin, end = (x + 12, y + 12), (x + 12 + 3, y + 12 + 30)
        page.hold("ctrl")
        page.press_at(begin, (begin[0], begin[1] + 15), end)
        page.let_go("ctrl")
        self.wheel(end, -8)
        wait_for(lambda: page.ask("ed.model.shadow.size") == 1)
        shown = page.ask("(({x, y}) => [x, y])(ed.model.at(arguments[0]))", name_of(10, 7))
        self.assertGreater(shown[1], 7 * STEP + 20)
        paper, red = self.seen((10 * STEP + 8, 7 * STEP + 5), (shown[0] + 8, shown[1] + 8))
        self.assertEqual(red, RED)
        self.assertNotEqual(paper, RED)
        self.assertTrue(page.ask("ed.scene.isStretched && ed.scene.kept.zoom === 1"))
        page.picture("board-zooming")
        page.release()
        self.settled(page)
        (x, y) = (page.item(name_of(10, 7))[part] for part in "xy")
        self.assertEqual(self.seen((x + 8, y + 8)), [RED])
        # Once it rests it is sharp.
        self.rest()
        self.assertEqual(page.do(COMPARE), 0)
        page.picture("board-zoomed")

    def test_what_comes_into_view_is_there_before_it_is_sharp(self):
        page = self.one
        far = [(2, 2), (27, 3), (2, 17), (27, 17), (14, 18)]
        page.do("ed.edits.do('f', arguments[0])", [f"fill {name_of(*each)} {RED}" for each in far])
        self.settled(page)
        page.do("ed.scene.cost = 99; ed.scene.noteCost = () => {}")
        self.addCleanup(page.do, "delete ed.scene.noteCost; ed.scene.cost = 0")
        self.wheel((900, 600), 17, 3)
        wait_for(lambda: page.ask("ed.camera.zoom < 0.61"))
        self.assertEqual(page.ask("ed.scene.kept.zoom"), 1)
        self.assertFalse(page.ask("ed.scene.sheet.covers(ed.camera.box())"))
        self.assertEqual(self.seen(*(inside(*each) for each in far)), [RED] * len(far))
        page.picture("board-zooming-out")
        # A change out there is seen at once too.
        self.two.do("ed.edits.do('f', [`fill ${arguments[0]} ${arguments[1]}`])", name_of(*far[0]), YELLOW)
        wait_for(lambda: page.item(name_of(*far[0]))["fill"] == YELLOW)
        self.assertEqual(self.seen(inside(*far[0])), [YELLOW])
        self.rest()
        self.assertEqual(page.do(COMPARE), 0)

    def test_little_is_painted_sharp_all_along(self):
        page = self.one
        page.do(f"ed.scene.restAfter = {SOON}; ed.camera.set(300, 200, 4)")
        wait_for(lambda: page.ask(AT_REST))
        page.do(f"ed.scene.restAfter = {FOREVER}")
        self.wheel((360, 260), -8)
        wait_for(lambda: page.ask("ed.camera.zoom > 4.1 && ed.scene.wasSharp"))
        self.assertFalse(page.ask("ed.scene.isStretched"))
