// Boxes, segments and handles: what lies where, worked by hand.

import assert from "node:assert/strict";
import { test } from "node:test";

import "./board_stub.mjs";
import { around, boxOf, farFrom, has, lineMeets, meet, turned, within } from "../../static/board/boxes.js";

const box = (x0, y0, x1, y1) => ({ x0, y0, x1, y1 });

test("a box is the same from any corner", () => {
  for (const [x, y, w, h] of [[0, 0, 10, 5], [10, 0, -10, 5], [0, 5, 10, -5], [10, 5, -10, -5]]) {
    assert.deepEqual(boxOf(x, y, w, h), box(0, 0, 10, 5));
  }
});

test("boxes meet at their edges, and lie within themselves", () => {
  const one = box(0, 0, 10, 10);
  const rows = [
    [box(10, 10, 20, 20), true, false], [box(11, 0, 20, 10), false, false], [box(0, 0, 10, 10), true, true],
    [box(2, 2, 3, 3), true, true], [box(-5, 4, 15, 6), true, false],
  ];
  for (const [other, isMet, isWithin] of rows) {
    assert.equal(meet(one, other), isMet);
    assert.equal(within(other, one), isWithin);
  }
  assert.equal(has(one, 10, 0), true);
  assert.equal(has(one, 10.1, 0), false);
});

test("the box around none is none", () => {
  assert.equal(around([]), null);
  assert.equal(around([null, undefined]), null);
  assert.deepEqual(around([box(0, 5, 1, 6), null, box(-2, 0, 0, 9)]), box(-2, 0, 1, 9));
});

test("how far a place is from a segment", () => {
  const rows = [
    [5, 3, [0, 0, 10, 0], 3], [-3, 4, [0, 0, 10, 0], 5], [13, 4, [0, 0, 10, 0], 5], [3, 4, [0, 0, 0, 0], 5], [0, 0, [3, 3, 3, 3], Math.hypot(3, 3)],
  ];
  for (const [x, y, ends, far] of rows) assert.ok(Math.abs(farFrom(x, y, ends) - far) < 1e-9);
});

test("a segment meets a box where one of its places is in it", () => {
  const one = box(0, 0, 10, 10);
  const rows = [
    [[-5, 5, 15, 5], true], [[5, 5, 6, 6], true], [[-5, -5, 15, 15], true], [[-5, 8, 8, 21], false], [[-1, 12, 12, -1], true],
    [[-5, -1, 15, -1], false], [[5, -5, 5, -1], false], [[5, -5, 5, 0], true], [[11, 0, 11, 10], false], [[3, 3, 3, 3], true],
  ];
  for (const [ends, isMet] of rows) assert.equal(lineMeets(ends, one), isMet, String(ends));
});

test("a line is turned to the next of 24 directions, and stays as long", () => {
  assert.deepEqual(turned([0, 0], [100, 3]), [100, 0]);
  assert.deepEqual(turned([10, 10], [60, 62]), [61, 61]);
  assert.deepEqual(turned([0, 0], [-40, 9]), [-40, 11]);
  assert.deepEqual(turned([0, 0], [0, -50]), [0, -50]);
});
