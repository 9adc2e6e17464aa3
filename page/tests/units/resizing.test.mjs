// Handles: the box that a drag makes, and where the shapes in it stand then.

import assert from "node:assert/strict";
import { test } from "node:test";

import { plain } from "./board_stub.mjs";

const { inProportion, resizeLines, scaled, sizedText, stretched } = await import("../../static/board/resizing.js");
const { itemOf } = await import("../../static/board/items.js");

const box = (x0, y0, x1, y1) => ({ x0, y0, x1, y1 });
const FROM = box(0, 0, 100, 50);

test("each handle moves its own sides", () => {
  const rows = [
    ["nw", box(10, 20, 100, 50)], ["n", box(0, 20, 100, 50)], ["ne", box(0, 20, 110, 50)], ["e", box(0, 0, 110, 50)],
    ["se", box(0, 0, 110, 70)], ["s", box(0, 0, 100, 70)], ["sw", box(10, 0, 100, 70)], ["w", box(10, 0, 100, 50)],
  ];
  for (const [handle, to] of rows) assert.deepEqual(stretched(FROM, handle, 10, 20, false), to, handle);
});

test("with Alt the other side goes the other way", () => {
  assert.deepEqual(stretched(FROM, "se", 10, 20, true), box(-10, -20, 110, 70));
  assert.deepEqual(stretched(FROM, "nw", 10, 20, true), box(10, 20, 90, 30));
  assert.deepEqual(stretched(FROM, "w", 10, 20, true), box(10, 0, 90, 50));
});

test("in proportion the larger way counts, and the opposite corner stays", () => {
  assert.deepEqual(inProportion(FROM, "se", box(0, 0, 200, 60), false), box(0, 0, 200, 100));
  assert.deepEqual(inProportion(FROM, "nw", box(-100, 0, 100, 50), false), box(-100, -50, 100, 50));
  assert.deepEqual(inProportion(FROM, "e", box(0, 0, 200, 50), false), box(0, -25, 200, 75));
  assert.deepEqual(inProportion(FROM, "s", box(0, 0, 100, 100), false), box(-50, 0, 150, 100));
  assert.deepEqual(inProportion(FROM, "se", box(-50, -25, 150, 75), true), box(-50, -25, 150, 75));
});

test("shapes keep their part of the box; a rectangle that is turned over has no negative size, a line has", () => {
  const rect = itemOf(plain("1.1", "rect", 10, 10, 20, 20), 0);
  assert.deepEqual(scaled(rect, FROM, box(0, 0, 200, 100)), { x: 20, y: 20, w: 40, h: 40 });
  assert.deepEqual(scaled(rect, FROM, box(100, 0, 0, 50)), { x: 70, y: 10, w: 20, h: 20 });
  assert.deepEqual(scaled(rect, FROM, box(0, 0, 0, 0)), { x: 0, y: 0, w: 1, h: 1 });
  const line = itemOf(plain("2.1", "line", 10, 10, 20, -5), 0);
  assert.deepEqual(scaled(line, FROM, box(100, 0, 0, 50)), { x: 90, y: 10, w: -20, h: -5 });
});

test("a flat selection doesn't divide by its height", () => {
  const line = itemOf(plain("2.1", "line", 0, 5, 100, 0), 0);
  assert.deepEqual(scaled(line, box(0, 5, 100, 5), box(0, 5, 50, 5)), { x: 0, y: 5, w: 50, h: 0 });
});

test("a text is larger by its corner, and wraps by its side", () => {
  // Ten letters of 20 units are 100 wide here.
  const text = itemOf(plain("3.1", "text", 0, 0, 101, 26, { label: "aaaa bbbbb" }), 0);
  assert.equal(text.font, 20);
  assert.deepEqual(sizedText(text, "se", box(0, 0, 202, 52)), { x: 0, y: 0, w: 201, h: 52 });
  assert.deepEqual(sizedText(text, "e", box(0, 0, 60, 26)), { x: 0, y: 0, w: 60, h: 52 });
  assert.deepEqual(sizedText(text, "w", box(41, 0, 101, 26)), { x: 41, y: 0, w: 60, h: 52 });
});

test("lines are typed for what changed alone", () => {
  const leaves = [itemOf(plain("1.1", "rect", 0, 0, 10, 10), 0), itemOf(plain("2.1", "rect", 20, 0, 10, 10), 1)];
  const sizes = new Map([["1.1", { x: 0, y: 0, w: 20, h: 10 }], ["2.1", { x: 40, y: 0, w: 10, h: 10 }]]);
  assert.deepEqual(resizeLines(leaves, sizes), ["resize 1.1 20 10", "move 2.1 40 0"]);
});
