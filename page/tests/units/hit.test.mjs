// What is under the pointer, and what a band means.

import assert from "node:assert/strict";
import { test } from "node:test";

import { plain } from "./board_stub.mjs";

const { hits, itemAt } = await import("../../static/board/hit.js");
const { isMeant } = await import("../../static/board/selecting.js");
const { itemOf } = await import("../../static/board/items.js");
const { Model } = await import("../../static/board/model.js");

const item = (kind, x, y, w, h, more) => itemOf(plain("1.1", kind, x, y, w, h, more), 0);

test("where each kind of shape is hit, from near by 6", () => {
  const rect = item("rect", 0, 0, 100, 60);
  const filled = item("rect", 0, 0, 100, 60, { fill: "FFFFFF" });
  const oval = item("ellipse", 0, 0, 100, 60);
  const line = item("line", 0, 0, 100, 0, { width: 8 });
  const text = item("text", 0, 0, 100, 26, { label: "aa" });
  // An unfilled rectangle with a label in its middle, four letters of 8 units each.
  const labelled = item("rect", 0, 0, 100, 60, { label: "abcd" });
  // A filled one whose label is higher than it is: a line of 16 letters and room for two.
  const low = item("rect", 0, 0, 100, 10, { label: "abcd abcd abcd a", fill: "FFFFFF" });
  const rows = [
    [low, 50, -3, true], [low, 97, -10, false], [low, 50, 30, false], [low, 50, -14, true], [low, 60, 24, true],
    [rect, 50, 30, false], [rect, 3, 30, true], [rect, 50, 66, true], [rect, 50, 68, false], [rect, 8, 30, false],
    [filled, 50, 30, true], [filled, 107, 30, false],
    [oval, 50, 30, false], [oval, 3, 30, true], [oval, 3, 3, false], [oval, 50, 57, true],
    [line, 50, 9, true], [line, 50, 11, false], [line, 109, 0, true],
    [text, 90, 13, true], [text, 90, 30, false],
    [labelled, 50, 30, true], [labelled, 70, 30, false], [labelled, 50, 12, false],
  ];
  for (const [one, x, y, isHit] of rows) assert.equal(hits(one, x, y, 6), isHit, `${one.kind} ${x} ${y}`);
});

test("the topmost one counts, and an unfilled large one lets through", () => {
  const model = new Model();
  model.show([
    plain("1.1", "rect", 10, 10, 20, 20, { fill: "FF0000" }), plain("2.1", "rect", 0, 0, 200, 200), plain("3.1", "rect", 15, 15, 20, 20, { fill: "00FF00" }),
  ]);
  assert.equal(itemAt(model, 20, 20, 6).id, "3.1");
  assert.equal(itemAt(model, 12, 12, 1).id, "1.1");
  assert.equal(itemAt(model, 100, 100, 6), null);
  assert.equal(itemAt(model, 200, 100, 6).id, "2.1");
});

test("a band means what it touches, but not a shape that it lies in, nor a line or an ellipse that its box alone meets", () => {
  const frame = item("rect", 0, 0, 200, 200);
  const oval = item("ellipse", 0, 0, 200, 100);
  const rows = [
    [frame, { x0: 190, y0: 190, x1: 300, y1: 300 }, true], [frame, { x0: 200, y0: -50, x1: 300, y1: 0 }, true],
    [frame, { x0: 201, y0: -50, x1: 300, y1: 300 }, false], [item("text", 0, 0, 100, 26), { x0: 90, y0: 20, x1: 120, y1: 90 }, true],
    [oval, { x0: -50, y0: -50, x1: 10, y1: 10 }, false], [oval, { x0: -50, y0: -50, x1: 30, y1: 30 }, true],
    [oval, { x0: -5, y0: 45, x1: 1, y1: 55 }, true], [oval, { x0: 90, y0: 40, x1: 110, y1: 60 }, false],
    [oval, { x0: 1, y0: 1, x1: 100, y1: 50 }, true], [oval, { x0: -1, y0: -1, x1: 201, y1: 101 }, true],
    [frame, { x0: 50, y0: 50, x1: 100, y1: 100 }, false], [frame, { x0: 50, y0: 50, x1: 300, y1: 100 }, true],
    [frame, { x0: -1, y0: -1, x1: 201, y1: 201 }, true], [frame, { x0: 0, y0: 0, x1: 200, y1: 200 }, true],
    [item("line", 0, 0, 100, 100), { x0: 60, y0: 10, x1: 90, y1: 40 }, false],
    [item("line", 0, 0, 100, 100), { x0: 40, y0: 10, x1: 90, y1: 45 }, true],
  ];
  for (const [one, band, isIn] of rows) assert.equal(isMeant(one, band), isIn, JSON.stringify(band));
});
