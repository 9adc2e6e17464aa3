// The model: what is shown, in which order, by which boxes; differences against the whole.

import assert from "node:assert/strict";
import { test } from "node:test";

import { plain } from "./board_stub.mjs";

const { Model } = await import("../../static/board/model.js");

const ids = (model) => model.items.map((item) => item.id);
const box = (x0, y0, x1, y1) => ({ x0, y0, x1, y1 });

/** A group 9.1 of two rects, under a third one. */
const GROUPED = [
  plain("9.1", "group", 0, 0, 0, 0), plain("1.1", "rect", 0, 0, 10, 10, { parent: "9.1" }),
  plain("2.1", "rect", 30, 0, 10, 20, { parent: "9.1" }), plain("3.1", "rect", 100, 0, 10, 10),
];

test("a group's box is around its members, also in groups", () => {
  const model = new Model();
  model.show([plain("8.1", "group", 5, 5, 0, 0), ...GROUPED.map((each) => (each.id === "9.1" ? { ...each, parent: "8.1" } : each))]);
  assert.deepEqual(model.byId.get("9.1").box, box(0, 0, 40, 20));
  assert.deepEqual(model.byId.get("8.1").box, box(0, 0, 40, 20));
  model.patch(new Map([["2.1", { ...GROUPED[2], x: 60 }]]), null);
  assert.deepEqual(model.byId.get("8.1").box, box(0, 0, 70, 20));
  assert.deepEqual(model.leaves("8.1").map((leaf) => leaf.id).sort(), ["1.1", "2.1"]);
  assert.equal(model.owner(model.byId.get("1.1"), null).id, "8.1");
  assert.equal(model.owner(model.byId.get("1.1"), "8.1").id, "9.1");
  assert.equal(model.owner(model.byId.get("3.1"), "8.1"), null);
});

test("differences lead to what the whole is", () => {
  const model = new Model();
  model.show(GROUPED);
  const next = new Map(GROUPED.map((each) => [each.id, each]));
  /** Applies changes to the model and to the map, and compares the model with one that shows all anew. */
  const check = (changes) => {
    for (const [id, to] of changes) to ? next.set(id, to) : next.delete(id);
    model.patch(new Map(changes), null);
    const whole = new Model();
    whole.show([...next.values()]);
    assert.deepEqual(model.items, whole.items);
    assert.deepEqual([...model.members], [...whole.members]);
    assert.deepEqual(model.all(), whole.all());
  };
  check([["4.1", plain("4.1", "ellipse", 5, 5, 20, 20)]]);
  check([["1.1", { ...GROUPED[1], x: -50 }], ["3.1", { ...GROUPED[3], fill: "FF0000" }]]);
  check([["2.1", null]]);
  check([["9.1", null], ["1.1", { ...GROUPED[1], parent: null }]]);
  check([["4.1", null], ["5.1", plain("5.1", "line", 0, 0, 5, 5)]]);
  check([["1.1", null], ["3.1", null], ["5.1", null]]);
});

test("the box around all is kept as objects come, move and go", () => {
  const model = new Model();
  const made = (id, x, y) => [id, plain(id, "rect", x, y, 10, 10)];
  const check = (changes, wanted) => {
    model.patch(new Map(changes), null);
    assert.deepEqual(model.all(), wanted);
  };
  check([], null);
  check([made("1.1", 0, 0)], box(0, 0, 10, 10));
  check([made("2.1", 100, 50), made("3.1", 40, 20)], box(0, 0, 110, 60));
  check([made("3.1", 50, 20)], box(0, 0, 110, 60));
  check([made("3.1", 50, 70)], box(0, 0, 110, 80));
  check([made("3.1", 50, 30)], box(0, 0, 110, 60));
  check([made("3.1", -5, -5), made("1.1", 20, 20)], box(-5, -5, 110, 60));
  check([["2.1", null], ["3.1", { ...made("3.1", 0, 0)[1], kind: "line" }]], box(0, 0, 30, 30));
  check([["1.1", null], ["3.1", null]], null);
  check([made("4.1", 7, 8)], box(7, 8, 17, 18));
});

test("what is the same stays the same item, and only boxes that look different are told", () => {
  const model = new Model();
  model.show(GROUPED);
  const before = [...model.items];
  let told = [];
  model.hear = (boxes) => { told = boxes; };
  model.show(GROUPED.map((each) => ({ ...each })));
  assert.deepEqual(told, []);
  assert.ok(model.items.every((item, at) => item === before[at]));
  model.patch(new Map([["3.1", { ...GROUPED[3], x: 200 }]]), null);
  assert.deepEqual(told, [box(100, 0, 110, 10), box(200, 0, 210, 10)]);
});

test("a preview is over the drawing, and goes with its object", () => {
  const model = new Model();
  model.show(GROUPED);
  model.preview(new Map([["3.1", { x: 500 }]]));
  assert.deepEqual(model.boxOf(["3.1"]), box(500, 0, 510, 10));
  assert.equal(model.byId.get("3.1").x, 100);
  assert.deepEqual(model.visible(box(0, 0, 1000, 100)).map((item) => item.x), [0, 30, 500]);
  model.patch(new Map([["3.1", null]]), null);
  assert.equal(model.over.size, 0);
  assert.equal(model.shadow.size, 0);
});

test("an object that got its id is found by both names, at its height", () => {
  const model = new Model();
  model.show([plain("~1.1", "rect", 0, 0, 10, 10), GROUPED[3]]);
  model.preview(new Map([["~1.1", { x: 7 }]]));
  model.rename(new Map([["~1.1", "4.1"]]));
  assert.deepEqual(ids(model), ["4.1", "3.1"]);
  assert.equal(model.byId.get("~1.1"), model.byId.get("4.1"));
  assert.equal(model.at("4.1").x, 7);
});

test("the grid finds what a box meets, far, large and negative", () => {
  const model = new Model();
  const shapes = [plain("1.1", "rect", -3000, -3000, 10, 10), plain("2.1", "rect", -5000, -5000, 10000, 10000), plain("3.1", "rect", 511, 511, 2, 2)];
  model.show(shapes);
  const found = (area) => [...model.grid.query(area)].map((item) => item.id).sort();
  assert.deepEqual(found(box(-3001, -3001, -2999, -2999)), ["1.1", "2.1"]);
  assert.deepEqual(found(box(512, 512, 513, 513)), ["2.1", "3.1"]);
  assert.deepEqual(found(box(-9e8, -9e8, 9e8, 9e8)), ["1.1", "2.1", "3.1"]);
  model.patch(new Map([["3.1", null], ["1.1", null]]), null);
  assert.equal(model.grid.cells.size, 0);
});
