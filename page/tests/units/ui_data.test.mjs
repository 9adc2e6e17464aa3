// Data of the islands: lines of groups, labels of long texts, rows of the tree, shared styles, what is read and written.

import "./ui_stub.mjs";
import assert from "node:assert/strict";
import { inflateSync } from "node:zlib";
import test from "node:test";

const { groupLines } = await import("../../static/ui/arrange.js");
const { labelsOf } = await import("../../static/ui/splitting.js");
const { labelOf } = await import("../../static/ui/editor.js");
const { rowsOf } = await import("../../static/ui/objects.js");
const { sharedValue } = await import("../../static/ui/style.js");
const { readJson } = await import("../../static/ui/reading_json.js");
const { asHex, chain, moved, parseTransform, IDENTITY } = await import("../../static/ui/svg_values.js");
const { encoded } = await import("../../static/ui/pdf_text.js");
const { PdfFile, numberText, textObject } = await import("../../static/ui/pdf_file.js");

const BREAK = "\n";

test("many objects are grouped as groups of at most 32", () => {
  const ids = (number) => Array.from({ length: number }, (_, at) => `${at + 1}.1`);
  assert.deepEqual(groupLines(ids(2)), ["group 1.1 2.1"]);
  assert.deepEqual(groupLines(ids(32)).length, 1);
  const lines = groupLines(ids(33));
  assert.equal(lines.length, 2);
  assert.equal(lines[0].split(" ").length, 33);
  assert.equal(lines[1], "group @1 33.1");
  const many = groupLines(ids(2000));
  for (const line of many) assert.ok(line.split(" ").length >= 3 && line.split(" ").length <= 33);
  // 2,000 are 63 groups (the last of 16), these 2 (32 and 31), and these one.
  assert.equal(many.length, 66);
  assert.equal(many.at(-1), "group @64 @65");
});

test("a long text is cut into labels, and no letter is lost", () => {
  const bytes = (text) => new TextEncoder().encode(text).length;
  const rows = ["short", "x".repeat(500), "x".repeat(501), "word ".repeat(250), "я".repeat(350), "👩‍👩‍👧".repeat(70), `a${BREAK}b`, `${"line ".repeat(75)}${BREAK}`.repeat(5)];
  const bare = (text) => text.replace(/[\s\u2028]/g, "");
  for (const text of rows) {
    const labels = labelsOf(text);
    for (const label of labels) assert.ok(bytes(label) <= 500);
    assert.equal(bare(labels.join("")), bare(text));
  }
  assert.deepEqual(labelsOf(`a${BREAK}b`), [`a${BREAK}b`]);
  assert.deepEqual(labelsOf("x".repeat(501)), ["x".repeat(500), "x"]);
  assert.deepEqual(labelsOf("👩‍👩‍👧".repeat(28)), ["👩‍👩‍👧".repeat(27), "👩‍👩‍👧"]);
  assert.deepEqual(labelsOf("  "), []);
  assert.equal(labelOf("a\r\nb\nc\td"), `a${BREAK}b${BREAK}c d`);
});

test("the tree has the topmost first, and a group above its members", () => {
  const item = (id, kind, parent) => ({ id, kind, parent });
  const items = [item("1.1", "rect", null), item("5.1", "group", null), item("2.1", "rect", "5.1"), item("6.1", "group", "5.1"), item("3.1", "line", "6.1"), item("4.1", "text", "6.1")];
  const model = { items, byId: new Map(items.map((each) => [each.id, each])), members: new Map([["5.1", ["2.1", "6.1"]], ["6.1", ["3.1", "4.1"]]]) };
  const rows = rowsOf(model).map(({ item: each, level, place, size }) => [each.id, level, place, size]);
  assert.deepEqual(rows, [["5.1", 1, 1, 2], ["6.1", 2, 1, 2], ["4.1", 3, 1, 2], ["3.1", 3, 2, 2], ["2.1", 2, 2, 2], ["1.1", 1, 2, 2]]);
});

test("a style is shared where all that have the part agree", () => {
  const shape = (kind, stroke, fill, width) => ({ kind, stroke, fill, width });
  const shapes = [shape("rect", "000000", null, 2), shape("ellipse", "000000", "FFFFFF", 2), shape("text", "FF0000", null, 1), shape("line", "000000", null, 2)];
  assert.equal(sharedValue(shapes, "width"), 2);
  assert.equal(sharedValue(shapes, "stroke"), undefined);
  assert.equal(sharedValue(shapes, "fill"), undefined);
  assert.equal(sharedValue([shapes[0], shapes[3]], "fill"), null);
});

test("JSON of the program is read, and nothing else", () => {
  const line = '[{"at":[0,0],"fill":null,"id":"1.1","in":null,"kind":"ellipse","label":"","size":[20,20],"stroke":"000000","width":1},{"at":[5,5],"id":"2.1","in":null,"kind":"group"},{"at":[5,5],"fill":"FF0000","id":"1.2","in":"2.1","kind":"rect","label":"a \\"b\\"","size":[10,10],"stroke":"000000","width":64}]';
  assert.deepEqual(readJson(line).map((each) => [each.kind, each.id, each.parent, each.x, each.w, each.fill, each.width, each.label]), [
    ["ellipse", "1.1", null, 0, 20, null, 1, ""], ["group", "2.1", null, 5, 0, null, 1, ""], ["rect", "1.2", "2.1", 5, 10, "FF0000", 64, 'a "b"'],
  ]);
  const wrong = ["[]", "{}", "[1]", "nonsense", line.replace('"width":64', '"width":65'), line.replace("FF0000", "red"), line.replace('"rect"', '"star"'), line.replace("[10,10]", "[10]")];
  for (const each of wrong) assert.equal(readJson(each), null);
});

test("colours and transforms of SVG", () => {
  const colours = [["#abc", "AABBCC"], ["#a1b2c3", "A1B2C3"], ["#A1B2C3ff", "A1B2C3"], ["rgb(255, 0, 16)", "FF0010"], ["rgb(300 0 0)", "FF0000"], [" Teal ", "008080"], ["none", null], ["url(#x)", null]];
  for (const [value, hex] of colours) assert.equal(asHex(value), hex);
  const transforms = [
    ["translate(3)", [4, 1]], ["translate(3, 4)", [4, 5]], ["translate(1 1) scale(2)", [3, 3]], ["scale(2 3) translate(1,1)", [4, 6]],
    ["matrix(2 0 0 3 10 20)", [12, 23]], ["", [1, 1]], ["rotate(0)", [1, 1]],
  ];
  for (const [text, place] of transforms) assert.deepEqual(moved(parseTransform(text), 1, 1), place);
  for (const text of ["rotate(45)", "skewX(3)", "matrix(1 1 -1 1 0 0)", "translate(x)"]) assert.equal(parseTransform(text), null);
  assert.deepEqual(chain(IDENTITY, parseTransform("translate(3,4)")), { sx: 1, sy: 1, x: 3, y: 4 });
});

test("letters of Helvetica, and those that it hasn't", () => {
  assert.deepEqual(encoded("A b"), { hex: "412062", width: 1.501 });
  assert.deepEqual(encoded("é€—"), { hex: "e98097", width: 2.112 });
  for (const text of ["שלום", "😀", "山", "\u2028"]) assert.equal(encoded(text), null);
});

test("a file of PDF has a table with the place of each object", async () => {
  const file = new PdfFile();
  const catalogue = file.reserve();
  const stream = await file.stream("/Kind /Test", new TextEncoder().encode("0 0 m 1 1 l S"));
  const info = file.add(`/Title ${textObject("Ж")}`);
  file.fill(catalogue, `/Type /Catalog /Test ${stream} 0 R`);
  const bytes = Buffer.concat(file.bytes(catalogue, info));
  const text = bytes.toString("latin1");
  assert.match(text, /^%PDF-1\.7\n/);
  const table = Number(/startxref\n(\d+)\n%%EOF\n$/.exec(text)[1]);
  assert.ok(text.slice(table).startsWith("xref\n0 4\n0000000000 65535 f \n"));
  const places = [...text.slice(table).matchAll(/(\d{10}) 00000 n \n/g)].map((each) => Number(each[1]));
  assert.equal(places.length, 3);
  places.forEach((place, index) => assert.ok(text.slice(place).startsWith(`${index + 1} 0 obj\n`)));
  const length = Number(/\/Length (\d+)/.exec(text)[1]);
  const at = text.indexOf("stream\n") + 7;
  assert.equal(inflateSync(bytes.subarray(at, at + length)).toString(), "0 0 m 1 1 l S");
  assert.ok(text.includes("/Title <feff0416>"));
  assert.deepEqual([1.23456, -0.0001, 5, 1e-9].map(numberText), ["1.235", "0", "5", "0"]);
});
