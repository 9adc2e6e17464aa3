// Snapping: to edges and middles within 6 pixels, and to equal gaps.

import assert from "node:assert/strict";
import { test } from "node:test";

import { snapped } from "../../static/board/snap.js";

const box = (x0, y0, x1, y1) => ({ x0, y0, x1, y1 });
const ACROSS = ["x0", "mid", "x1"];
const DOWN = ["y0", "mid", "y1"];
const both = (one, neighbours, reach = 6) => snapped(one, neighbours, reach, ACROSS, DOWN);

test("an edge goes to an edge within reach, and no further", () => {
  const other = box(0, 0, 50, 50);
  const rows = [[box(4, 200, 30, 240), -4], [box(6, 200, 140, 240), -6], [box(56.5, 200, 150, 240), 0], [box(53, 200, 153, 240), -3]];
  for (const [one, dx] of rows) assert.equal(both(one, [other]).dx, dx, JSON.stringify(one));
});

test("a middle goes to a middle, and the guide runs over both boxes", () => {
  const got = both(box(13, 200, 43, 240), [box(0, 0, 50, 50)]);
  assert.equal(got.dx, -3);
  assert.deepEqual(got.guides, [{ x0: 25, x1: 25, y0: 0, y1: 240 }]);
});

test("the nearest of two counts", () => {
  assert.equal(both(box(4, 200, 104, 240), [box(0, 0, 1, 50), box(5, 0, 6, 50)]).dx, 1);
});

test("a third box goes to where the gaps are equal: behind, before and between", () => {
  const [first, second] = [box(0, 0, 40, 40), box(60, 0, 100, 40)];
  const rows = [[box(123, 3, 150, 37), -3, 20], [box(-63, 3, -25, 37), 5, 20]];
  for (const [one, dx, gap] of rows) {
    const got = both(one, [first, second]);
    assert.equal(got.dx, dx);
    assert.deepEqual(got.guides.filter((guide) => guide.gap !== undefined).map((guide) => guide.gap), [gap, gap]);
  }
  const between = both(box(83, 3, 123, 37), [first, box(160, 0, 200, 40)]);
  assert.equal(between.dx, -3);
  assert.equal(between.guides[0].gap, 40);
});

test("what isn't beside the box makes no row", () => {
  const got = both(box(123, 203, 150, 237), [box(0, 0, 40, 40), box(60, 0, 100, 40)]);
  assert.equal(got.guides.filter((guide) => guide.gap !== undefined).length, 0);
});

test("lines that may not snap stay", () => {
  const got = snapped(box(4, 4, 44, 44), [box(0, 0, 10, 30)], 6, [], ["y0"]);
  assert.deepEqual([got.dx, got.dy], [0, -4]);
});
