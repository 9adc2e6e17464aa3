// Lines: what printed ones say, and which ones make shapes and copies of them.

import assert from "node:assert/strict";
import { test } from "node:test";

import { plain } from "./board_stub.mjs";

const { bytesOf, isLabel, printed, readPrinted } = await import("../../static/core/lines.js");
const { copyLines, createLines, fitLabel } = await import("../../static/board/making.js");
const { shownColour, inkOn, luma } = await import("../../static/board/colours.js");
const { dirOf, lay, sizeOf } = await import("../../static/board/text.js");

test("printed lines are read, and printed again as they were", () => {
  const text = [
    "rect 1.1 in - at 0 -5 size 10 -20 stroke 000000 fill none width 1", "group 9.2 in - at 4 4",
    "text 12.16 in 9.2 at -1 2 size 3 4 stroke FF00AA fill FFFFFF width 64 text  a  b ", "ellipse 3.1 in 9.2 at 0 0 size 1 1 stroke 000000 fill none width 2 text one\u2028two",
  ];
  const items = readPrinted(`${text.join("\n")}\nend 4\n`);
  assert.deepEqual(items.map(printed), text);
  assert.equal(items[2].label, " a  b ");
  assert.equal(items[3].label, "one\u2028two");
});

test("what is no drawing isn't read", () => {
  const good = "rect 1.1 in - at 0 0 size 1 1 stroke 000000 fill none width 1";
  const rows = [
    "", "end 0", "hello", `${good}\nhello`, good.replace("width 1", "width 65"), good.replace("width 1", "width 0"), good.replace("000000", "00000"),
    good.replace("rect", "circle"), `${good} text ${"x".repeat(501)}`, `${good} text a\u0007b`, good.replace("1.1", "1"),
  ];
  for (const text of rows) assert.equal(readPrinted(text), null, text);
});

test("a label has at most 500 bytes, is cut between letters, and has no control characters", () => {
  const rows = [
    ["a\nb\r\nc", "a\nb\nc"], ["a\tb\u0085c", "a b c"], ["x".repeat(501), "x".repeat(500)], ["é".repeat(251), "é".repeat(250)],
    [`${"x".repeat(499)}é`, "x".repeat(499)], [`${"x".repeat(490)}👩‍👩‍👧`, "x".repeat(490)],
  ];
  for (const [text, wanted] of rows) {
    assert.equal(fitLabel(text), wanted);
    assert.ok(isLabel(fitLabel(text)) && bytesOf(fitLabel(text)) <= 500);
  }
});

test("a shape is made with the styles that aren't the first ones", () => {
  const rows = [
    [{}, ["create rect 1 2 3 4"]], [{ label: "a b" }, ["create rect 1 2 3 4 a b"]],
    [{ stroke: "FF0000", fill: "00FF00", width: 2 }, ["create rect 1 2 3 4", "style @7 stroke FF0000 fill 00FF00 width 2"]],
  ];
  for (const [more, lines] of rows) assert.deepEqual(createLines(7, plain("1.1", "rect", 1, 2, 3, 4, more)), lines);
});

test("copies have their groups, and lie over each other as the items do", () => {
  const items = [
    plain("9.1", "group", 0, 0, 0, 0), plain("8.1", "group", 0, 0, 0, 0, { parent: "9.1" }), plain("1.1", "rect", 0, 0, 1, 1, { parent: "8.1", width: 2 }),
    plain("2.1", "rect", 0, 0, 1, 1, { parent: "8.1" }), plain("3.1", "line", 0, 0, 1, 1, { parent: "9.1" }), plain("4.1", "rect", 5, 5, 1, 1),
  ];
  const { lines, made } = copyLines(items, 10, 20);
  assert.deepEqual(lines, [
    "create rect 10 20 1 1", "width @1 2", "create rect 10 20 1 1", "group @1 @3", "create line 10 20 1 1", "group @4 @5", "create rect 15 25 1 1",
  ]);
  assert.deepEqual([...made], [["1.1", 1], ["2.1", 3], ["8.1", 4], ["3.1", 5], ["9.1", 6], ["4.1", 7]]);
});

test("a connector is read, printed, and copied with both its ends", () => {
  const line = "connector 3.1 in - from 1.1 to 2.1 stroke 000000 fill none width 2 dash dashed heads both size 9 text a\\nb\\\\";
  const [joined] = readPrinted(line) ?? [];
  assert.deepEqual([joined.from, joined.to, joined.label, joined.looks], ["1.1", "2.1", "a\nb\\", { dash: "dashed", heads: "both", letters: 9 }]);
  assert.equal(printed(joined), line);
  const [one, two] = [plain("1.1", "rect", 0, 0, 1, 1), plain("2.1", "rect", 5, 0, 1, 1)];
  const style = "style @3 width 2 dash dashed heads both size 9";
  assert.deepEqual(copyLines([one, two, joined], 10, 0).lines, ["create rect 10 0 1 1", "create rect 15 0 1 1", "connect @1 @2 a\\nb\\\\", style]);
  assert.deepEqual(copyLines([one, joined], 0, 0).lines, ["create rect 0 0 1 1"]);
});

test("a group of which one member is copied is no group", () => {
  const { lines } = copyLines([plain("9.1", "group", 0, 0, 0, 0), plain("1.1", "rect", 0, 0, 1, 1, { parent: "9.1" }), plain("2.1", "rect", 0, 0, 1, 1)], 0, 0);
  assert.deepEqual(lines, ["create rect 0 0 1 1", "create rect 0 0 1 1"]);
});

test("colours: swatches by theme, others lifted on dark until they are seen", () => {
  assert.equal(shownColour("000000", false), "#1C2026");
  assert.equal(shownColour("000000", true), "#E7E9EC");
  assert.equal(shownColour("123456", false), "#123456");
  assert.ok(luma(shownColour("123456", true).slice(1)) >= 0.12);
  assert.equal(shownColour("FFFF00", true), "#FFFF00");
  // A label on a fill is read at 4.5 : 1 at least, with the stroke's colour where that is enough.
  assert.equal(inkOn({ stroke: "D92D20", fill: "D92D20", kind: "rect" }, false), "#F2F4F7");
  assert.equal(inkOn({ stroke: "000000", fill: "FFFFFF", kind: "rect" }, false), "#1C2026");
  assert.equal(inkOn({ stroke: "D92D20", fill: null, kind: "rect" }, false), "#D92D20");
});

test("text: where it breaks, which way it runs, and how large a text of a box is", () => {
  // Each letter is half as wide as the font is high.
  assert.deepEqual(lay("aaaa bbbb cc", 20, 95).lines, ["aaaa bbbb", "cc"]);
  assert.deepEqual(lay("aaaaaaaa", 20, 45).lines, ["aaaa", "aaaa"]);
  assert.deepEqual(lay("a\u2028\u2028b", 20).lines, ["a", "", "b"]);
  assert.equal(dirOf("(1) שלום test"), "rtl");
  assert.equal(dirOf("test שלום"), "ltr");
  assert.equal(sizeOf({ kind: "rect", label: "x", w: 500, h: 500 }), 16);
  for (const size of [8, 14, 20, 28, 40]) {
    const one = lay("aaaa bbbb", size);
    assert.equal(sizeOf({ kind: "text", label: "aaaa bbbb", w: Math.ceil(one.w) + 1, h: Math.round(one.h) }), size);
    const two = lay("aaaa bbbb", size, size * 2.5);
    assert.equal(sizeOf({ kind: "text", label: "aaaa bbbb", w: size * 2.5, h: Math.round(two.h) }), size);
  }
});
