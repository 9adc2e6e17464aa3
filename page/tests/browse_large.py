"""A drawing of 5,000 objects: what an edit and a frame cost the page, and that pictures are taken as differences. An edit's cost
is counted in what the page's modules run, and a frame's is compared with that of frames which paint all objects, so that a slow
or busy machine comes to the same end."""

from page.tests.browse_board import WithBoard
from page.tests.browser import processor_time
from page.tests.counting import counted
from page.tests.logs import large
from page.tests.places import wait_for

OBJECTS = 5000
FRAMES = 40
# A frame of a moving view takes at most this part of one that paints all objects, or so many milliseconds of processor time.
PART, FRAME = 0.5, 16
# What may look at each object or event behind an edit, and how often: the list of objects, the history's bar, and whether boxes
# meet, which is asked of all near a place.
LISTS = {"ui/objects.js", "ui/lane.js", "ui/history.js", "ui/deeds.js", "ui/arrivals.js", "core/node.js", "board/boxes.js"}
LOOKS = 8
# So often anything may look at each object behind a batch of many edits.
LOOKS_OF_MANY = 20
# Every frame paints all objects.
PAINT_ALL = """
ed.scene.draw = () => {
  ed.scene.painter.whole(ed.scene.c, { box: ed.model.all(), zoom: ed.camera.zoom });
  return false;
};
"""
PAINT_AS_BEFORE = "delete ed.scene.draw; ed.touch('scene')"
# The sheet shows all there is to show.
AT_REST = "!ed.scene.damage.length && !ed.scene.job && !ed.scene.isStale"
FLY = """
const [zooms, frames, done] = arguments;
const { camera } = ed;
let count = 0;
const step = () => {
  count += 1;
  if (zooms) camera.zoomAt(innerWidth / 2, innerHeight / 2, count % 20 < 10 ? 1.04 : 1 / 1.04);
  else camera.put(camera.x + (5 * Math.cos(count / 10)) / camera.zoom, camera.y + 3 / camera.zoom, camera.zoom);
  if (count < frames) requestAnimationFrame(step);
  else setTimeout(done, 300);
};
requestAnimationFrame(step);
"""


# Does edits, and waits without a look at each moment until the node has shown them.
DO = """
const [lines, done] = arguments;
const rest = () => (ed.edits.pending.layers.length ? setTimeout(rest, 100) : done());
ed.edits.do('done', lines).then(rest);
"""
# Waits until an object is at a place.
SEEN = """
const [name, x, done] = arguments;
const look = () => (ed.model.byId.get(name).x === x ? done() : setTimeout(look, 100));
look();
"""


class Large(WithBoard):
    @classmethod
    def prepare(cls):
        """Both sites hold the same shapes, which the first one made, before the pages are there."""
        for site, journal in enumerate(cls.journals, 1):
            journal.write_bytes(large(OBJECTS, site=site))

    def setUp(self):
        wait_for(lambda: all(page.ask("ed.model.items.length") == OBJECTS for page in self.pages))
        wait_for(lambda: all(page.ask("ed.node.events.length") >= OBJECTS for page in self.pages))
        for page in self.pages:
            page.do("ed.camera.wasShown = false; ed.fit()")
            wait_for(lambda: page.ask(f"ed.scene.kept?.zoom === ed.camera.zoom && {AT_REST}"))

    def spent(self, page, act):
        """The milliseconds of processor time that all processes of a page's browser took for an act."""
        before = processor_time(page.driver)
        act()
        return processor_time(page.driver) - before

    def report(self, what, took):
        print(f"        {OBJECTS} objects: {what}: {took:.1f} ms of processor time", flush=True)

    def flown(self, zooms):
        """The processor time of a frame, in milliseconds, while the view moves."""
        fly = self.one.driver.execute_async_script
        fly(FLY, zooms, FRAMES // 4)
        return self.spent(self.one, lambda: fly(FLY, zooms, FRAMES)) / FRAMES

    def test_a_frame_of_a_moving_view_paints_little(self):
        for zoom in (None, 1):
            for zooms in (False, True):
                self.one.do("ed.fit()") if zoom is None else self.one.home(zoom)
                took = self.flown(zooms)
                self.one.do(PAINT_ALL)
                whole = self.flown(zooms)
                self.one.do(PAINT_AS_BEFORE)
                what = f"{'zoom' if zooms else 'pan'} {'at 100 %' if zoom else 'with all in view'}"
                self.report(f"{what}, a frame that paints all: {whole:.1f}, as it is", took)
                self.assertLessEqual(took, max(FRAME, PART * whole), what)
        self.one.do("ed.fit()")
        self.one.picture("large")

    def test_an_edit_changes_what_it_is_about_and_nothing_else(self):
        for page in self.pages:
            page.do("window.before = new Map(ed.model.items.map((item) => [item.id, item])); ed.scene.wholes = 0;"
                    "const whole = ed.scene.paintSheet.bind(ed.scene); ed.scene.paintSheet = () => { ed.scene.wholes += 1; whole(); }")
        self.typed_by(self.one, lambda: self.one.do("ed.edits.do('m', ['move 7.1 3 3'])"))
        for page in self.pages:
            wait_for(lambda: page.item("7.1")["x"] == 3)
            self.assertEqual(page.ask("ed.model.items.filter((item) => window.before.get(item.id) !== item).map((item) => item.id)"), ["7.1"])
            wait_for(lambda: page.ask("ed.scene.damage.length") == 0)
            self.assertEqual(page.ask("ed.scene.wholes"), 0)

    def counts_of(self, page, act):
        """How often blocks of the page's modules ran until a page shows what an act did."""
        with counted(page.driver) as runs:
            act()
            wait_for(lambda: page.is_settled() and page.ask(AT_REST))
        self.assertTrue(runs, "nothing was counted")
        return runs

    def test_an_edit_costs_nothing_for_each_object(self):
        def show(goal):
            self.one.driver.execute_async_script(DO, [f"move 4850.1 {goal} 1440"])
            self.two.driver.execute_async_script(SEEN, "4850.1", goal)

        for goal, page in enumerate(self.pages * 2, 1500):
            # The box around all is asked of each object only where one at its edge has changed, which this one isn't.
            page.ask("ed.model.all()")
            runs = self.counts_of(page, lambda: show(goal))
            for (module, function, place), count in runs.items():
                most = LOOKS * OBJECTS if module in LISTS else OBJECTS * 9 // 10
                self.assertLessEqual(count, most, f"{function} of {module} at {place}")

    def test_with_500_changed_in_one_batch(self):
        ids = [f"{number}.1" for number in range(1001, 1501)]
        lines = [f"raise {name}" for name in ids[:3]] + [f"width {name} 3" for name in ids]
        counts = []
        act = lambda: counts.append(self.counts_of(self.one, lambda: self.one.driver.execute_async_script(DO, lines)))
        self.assertEqual(self.typed_by(self.one, act), lines)
        for (module, function, place), count in counts[0].items():
            self.assertLessEqual(count, LOOKS_OF_MANY * OBJECTS, f"{function} of {module} at {place}")
        self.assertEqual(self.one.ids()[-3:], ids[:3])
        self.assertEqual({self.one.item(name)["width"] for name in (ids[0], ids[250], ids[499])}, {3})
