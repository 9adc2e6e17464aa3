// The sheet of styles: what is selected stays in sight beside it, and the view goes back when it is closed.

import "./ui_stub.mjs";
import assert from "node:assert/strict";
import test from "node:test";

const { Camera } = await import("../../static/board/camera.js");
const { Sheet } = await import("../../static/ui/sheet.js");

const PAD = { open: [76, 24, 520, 24], closed: [76, 24, 132, 24] };

/** A page of 390 by 844 with boxes of the board by ids, which goes without a glide. */
function phone(boxes) {
  globalThis.matchMedia = () => ({ matches: true, addEventListener() {} });
  globalThis.cancelAnimationFrame = () => {};
  document.body.dataset = {};
  const camera = Object.assign(new Camera(), { width: 390, height: 844 });
  const ed = {
    camera, tool: "select", selection: { ids: new Set() }, gestures: { act: null }, said: [],
    model: { boxOf: (ids) => boxes[[...ids][0]] ?? null },
    pad: () => (document.body.dataset.sheet === "1" ? PAD.open : PAD.closed),
    rested: () => sheet.update(), focusBoard() {}, banner: ({ text }) => ed.said.push(text),
  };
  const sheet = new Sheet(ed, { setAttribute() {} });
  const choose = (...ids) => {
    ed.selection.ids = new Set(ids);
    ed.rested();
  };
  return { ed, camera, sheet, choose };
}

const view = ({ x, y, zoom }) => [x, y, zoom];
const low = { x0: 120, y0: 560, x1: 260, y1: 640 };
const lower = { x0: 120, y0: 700, x1: 260, y1: 780 };
const high = { x0: 60, y0: 130, x1: 140, y1: 190 };
const large = { x0: 40, y0: 150, x1: 340, y1: 570 };

/** Whether a box lies between the islands and the sheet. */
const isInSight = (camera, box) => {
  const { x0, y0, x1, y1 } = camera.boxToWindow(box);
  return x0 >= 0 && x1 <= 390 && y0 > PAD.open[0] - 0.01 && y1 < 844 - PAD.open[2] + 0.01;
};

test("what the sheet would hide comes into sight, and the view goes back", () => {
  for (const box of [low, lower, large]) {
    const { camera, sheet, choose } = phone({ a: box });
    choose("a");
    sheet.turn(true);
    assert.ok(isInSight(camera, box), JSON.stringify(view(camera)));
    sheet.turn(false);
    assert.deepEqual(view(camera), [0, 0, 1]);
  }
});

test("what is in sight stays where it is", () => {
  const { camera, sheet, choose } = phone({ a: high });
  choose("a");
  sheet.turn(true);
  assert.deepEqual(view(camera), [0, 0, 1]);
});

test("another selection comes into sight once no finger is on it, and the view goes back to where it was first", () => {
  const { ed, camera, sheet, choose } = phone({ a: low, b: lower });
  choose("a");
  sheet.turn(true);
  const first = view(camera);
  ed.gestures.act = {};
  choose("b");
  assert.deepEqual(view(camera), first);
  ed.gestures.act = null;
  ed.rested();
  assert.ok(isInSight(camera, lower));
  choose();
  assert.equal(document.body.dataset.sheet, "");
  assert.deepEqual(view(camera), [0, 0, 1]);
});

test("a view that was moved by hand meanwhile stays", () => {
  const { camera, sheet, choose } = phone({ a: low });
  choose("a");
  sheet.turn(true);
  camera.pan(10, 20);
  const moved = view(camera);
  sheet.turn(false);
  assert.deepEqual(view(camera), moved);
});

test("where there is nothing to style that is said", () => {
  const { ed, sheet } = phone({});
  sheet.turn(true);
  assert.deepEqual([sheet.isOpen, ed.said], [false, ["Choose a shape, or a tool that makes one"]]);
});
