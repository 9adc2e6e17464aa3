"""What is on the canvas: a change that is painted in its boxes alone looks as when all is painted."""

from page.tests.browse_board import WithBoard

# Does an edit or shows a preview, and compares the canvas with one that is painted anew: how many pixels differ at all, and by
# more than a little.
COMPARE = """
const [seed, rounds, done] = arguments;
let state = seed;
const draw = (below) => { state = (Math.imul(state, 1664525) + 1013904223) >>> 0; return Math.floor((state / 2 ** 32) * below); };
const { scene, model, edits } = ed;
const pixels = () => scene.c.getImageData(0, 0, scene.canvas.width, scene.canvas.height).data;
const frame = () => new Promise((seen) => requestAnimationFrame(() => requestAnimationFrame(seen)));
const shapes = () => model.items.filter((item) => item.kind !== 'group');
const change = (item) => [
  () => `move ${item.id} ${item.x + draw(200) - 100} ${item.y + draw(200) - 100}`, () => `fill ${item.id} ${draw(2) ? 'DAE6FF' : 'none'}`,
  () => `width ${item.id} ${1 + draw(12)}`, () => `raise ${item.id}`, () => `resize ${item.id} ${20 + draw(150)} ${20 + draw(100)}`, () => `text ${item.id} w${draw(99)} and more`,
][draw(6)]();
const patches = [];
const patch = scene.painter.patch.bind(scene.painter);
scene.painter.patch = (...given) => { patches.push(1); patch(...given); };
scene.isStale = true;
scene.draw(performance.now());
(async () => {
  const worst = { differ: 0, much: 0, patches: 0 };
  for (let round = 0; round < rounds; round += 1) {
    const item = shapes()[draw(shapes().length)];
    const isPreview = round % 3 === 2;
    if (isPreview) model.preview(new Map([[item.id, { x: item.x + draw(300) - 150, y: item.y + draw(300) - 150 }]]));
    else edits.do('changed', [change(item)]);
    await frame();
    const patched = pixels();
    scene.isStale = true;
    scene.draw(performance.now());
    const whole = pixels();
    let [differ, much] = [0, 0];
    for (let at = 0; at < whole.length; at += 4) {
      const by = Math.max(Math.abs(whole[at] - patched[at]), Math.abs(whole[at + 1] - patched[at + 1]), Math.abs(whole[at + 2] - patched[at + 2]));
      if (by) differ += 1;
      if (by > 24) much += 1;
    }
    worst.differ = Math.max(worst.differ, differ);
    worst.much = Math.max(worst.much, much);
    if (isPreview) model.preview(new Map());
  }
  worst.patches = patches.length;
  scene.painter.patch = patch;
  done(worst);
})();
"""
KINDS = ["rect", "ellipse", "line", "text"]


class Painting(WithBoard):
    def test_patches_look_as_a_whole_paint_does(self):
        places = [(index, 160 + index % 10 * 110, 120 + index // 10 * 90) for index in range(50)]
        self.make(self.one, *(f"create {KINDS[index % 4]} {x} {y} 90 60 Object {index}" for index, x, y in places))
        for zoom in (1, 0.6):
            self.one.home(zoom)
            self.one.do("ed.focusBoard()")
            found = self.one.driver.execute_async_script(COMPARE, 7, 30)
            self.settled(self.one)
            self.assertGreater(found["patches"], 20)
            # Of 1.1 million pixels: curves that are cut off are smoothed a little otherwise. A label has some 300.
            self.assertLess(found["differ"], 1000, found)
            self.assertLess(found["much"], 120, found)
