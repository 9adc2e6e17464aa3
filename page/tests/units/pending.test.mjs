// What was typed and isn't shown by the node yet: what each line will do, and how it goes when the node has it.

import assert from "node:assert/strict";
import { test } from "node:test";

import { plain } from "./board_stub.mjs";

const { Foresight, wordsOf } = await import("../../static/board/effects.js");
const { Model } = await import("../../static/board/model.js");
const { Layer, Pending } = await import("../../static/board/pending.js");
const { Picture } = await import("../../static/core/picture.js");

const shown = (id, kind, x, y, more = {}) => ({
  kind, id, in: null, at: [x, y], ...(kind === "group" ? {} : { size: [10, 10], stroke: "000000", fill: null, width: 1, label: "" }), ...more,
});
const FIRST = [shown("1.1", "rect", 0, 0), shown("9.2", "group", 0, 0), shown("2.1", "rect", 5, 5, { in: "9.2" }), shown("3.1", "rect", 6, 6, { in: "9.2" }), shown("4.1", "rect", 9, 9)];

function board(items = FIRST) {
  const picture = new Picture();
  const model = new Model();
  const pending = new Pending(picture, model, () => false);
  pending.pictured(picture.take({ whole: true, items, gone: [], order: [] }), 0, true);
  const type = (...lines) => {
    const foresight = new Foresight(model);
    lines.forEach((line, at) => foresight.take(line, `~1.${at + 1}`));
    const layer = new Layer(foresight.effects, foresight.turns);
    pending.add(layer);
    return layer;
  };
  const take = (difference, edits) => pending.pictured(picture.take({ whole: false, items: [], gone: [], order: [], ...difference }), edits, false);
  const see = () => model.items.map((item) => `${item.id}${item.parent ? ` in ${item.parent}` : ""} ${item.x} ${item.y}`);
  return { picture, model, pending, type, take, see };
}

test("the words of lines, and labels with spaces", () => {
  const rows = [
    ["create rect 1 2 3 4 a  b ", ["create", "rect", "1", "2", "3", "4"], "a  b "], ["create rect 1 2 3 4", ["create", "rect", "1", "2", "3", "4"], ""],
    ["text 1.1  @2", ["text", "1.1"], " @2"], ["text 1.1", ["text", "1.1"], ""], ["move 1.1 5 6", ["move", "1.1", "5", "6"], ""],
  ];
  for (const [line, words, label] of rows) {
    const got = wordsOf(line);
    assert.deepEqual([got.op, got.words, got.label], [words[0], words, label]);
  }
});

test("each line is shown before the node has it", () => {
  const rows = [
    [["move 1.1 50 60"], ["1.1 50 60", "9.2 0 0", "2.1 in 9.2 5 5", "3.1 in 9.2 6 6", "4.1 9 9"]],
    [["move 9.2 100 0"], ["1.1 0 0", "9.2 100 0", "2.1 in 9.2 105 5", "3.1 in 9.2 106 6", "4.1 9 9"]],
    [["delete 9.2"], ["1.1 0 0", "4.1 9 9"]],
    [["ungroup 9.2"], ["1.1 0 0", "2.1 5 5", "3.1 6 6", "4.1 9 9"]],
    [["raise 1.1"], ["9.2 0 0", "2.1 in 9.2 5 5", "3.1 in 9.2 6 6", "4.1 9 9", "1.1 0 0"]],
    [["lower 4.1", "lower 9.2"], ["9.2 0 0", "2.1 in 9.2 5 5", "3.1 in 9.2 6 6", "4.1 9 9", "1.1 0 0"]],
    [["raise 2.1"], ["1.1 0 0", "9.2 0 0", "3.1 in 9.2 6 6", "2.1 in 9.2 5 5", "4.1 9 9"]],
    [["group 1.1 4.1"], ["9.2 0 0", "2.1 in 9.2 5 5", "3.1 in 9.2 6 6", "~1.1 0 0", "1.1 in ~1.1 0 0", "4.1 in ~1.1 9 9"]],
    [["create rect 7 8 1 1 x", "move ~1.1 70 80"], ["1.1 0 0", "9.2 0 0", "2.1 in 9.2 5 5", "3.1 in 9.2 6 6", "4.1 9 9", "~1.1 70 80"]],
    [["move 77.1 5 5", "delete 77.1"], ["1.1 0 0", "9.2 0 0", "2.1 in 9.2 5 5", "3.1 in 9.2 6 6", "4.1 9 9"]],
  ];
  for (const [lines, wanted] of rows) {
    const { type, see } = board();
    type(...lines);
    assert.deepEqual(see(), wanted, lines.join("; "));
  }
});

test("styles are shown as they will be", () => {
  const { type, model } = board();
  type("stroke 1.1 aabbcc", "fill 1.1 ffffff", "width 1.1 9", "text 1.1 a b", "resize 1.1 -4 7");
  const { stroke, fill, width, label, w, h } = model.byId.get("1.1");
  assert.deepEqual([stroke, fill, width, label, w, h], ["AABBCC", "FFFFFF", 9, "a b", -4, 7]);
});

test("a refused line goes back at once, the others stay until a picture has them", () => {
  const { pending, type, take, see } = board();
  const layer = type("move 1.1 50 60", "move 4.1 70 80");
  pending.answered(layer, new Set([1]), new Map(), 1);
  assert.deepEqual([see()[0], see()[4]], ["1.1 50 60", "4.1 9 9"]);
  assert.equal(pending.layers.length, 1);
  take({ items: [shown("1.1", "rect", 51, 61)] }, 1);
  assert.equal(pending.layers.length, 0);
  assert.equal(see()[0], "1.1 51 61");
});

test("a picture from before doesn't take a preview away, and an answer that comes late does", () => {
  const { pending, type, take, see } = board();
  const layer = type("move 1.1 50 60");
  take({ items: [shown("4.1", "rect", 8, 8)] }, 0);
  assert.deepEqual([see()[0], see()[4]], ["1.1 50 60", "4.1 8 8"]);
  take({ items: [shown("1.1", "rect", 50, 60)] }, 1);
  assert.equal(pending.layers.length, 1);
  pending.answered(layer, new Set(), new Map(), 1);
  assert.equal(pending.layers.length, 0);
  assert.equal(see()[0], "1.1 50 60");
});

test("what is made has its name until the answer, its id then, and its height by the picture", () => {
  const { pending, type, take, see } = board([shown("1.1", "rect", 0, 0)]);
  const layer = type("create rect 7 8 10 10");
  assert.deepEqual(see(), ["1.1 0 0", "~1.1 7 8"]);
  pending.answered(layer, new Set(), new Map([["~1.1", "6.1"]]), 1);
  assert.deepEqual(see(), ["1.1 0 0", "6.1 7 8"]);
  // Another one's object with a greater stamp lies above it.
  take({ items: [shown("5.2", "rect", 1, 1)], order: [["5.2", "1.1"]] }, 0);
  take({ items: [shown("6.1", "rect", 7, 8)], order: [["6.1", "5.2"]] }, 1);
  assert.deepEqual(see(), ["1.1 0 0", "5.2 1 1", "6.1 7 8"]);
});

test("what another one made lies below what was made here, also where one picture is the first to have both", () => {
  const { pending, type, take, see } = board([shown("1.1", "rect", 0, 0)]);
  const layer = type("create rect 7 8 10 10");
  pending.answered(layer, new Set(), new Map([["~1.1", "6.1"]]), 1);
  take({ items: [shown("5.2", "rect", 1, 1), shown("6.1", "rect", 7, 8)], order: [["5.2", "1.1"], ["6.1", "5.2"]] }, 1);
  assert.deepEqual(see(), ["1.1 0 0", "5.2 1 1", "6.1 7 8"]);
});

test("an object that another one deletes is gone, whatever was to become of it", () => {
  const { type, take, see } = board();
  type("move 1.1 50 60");
  take({ gone: ["1.1"] }, 0);
  assert.equal(see()[0], "9.2 0 0");
});

test("a batch that is given up leaves no trace", () => {
  const { pending, type, see } = board();
  const before = see();
  pending.drop(type("move 9.2 50 60", "create rect 0 0 1 1", "raise 1.1", "delete 4.1", "group 1.1 9.2"));
  assert.deepEqual(see(), before);
});
