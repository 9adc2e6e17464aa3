// Gestures, and taking them back: whole gestures, each by one line, or by several where it was as many at the node. That is a fake, which
// keeps what is typed until the test answers it, and what can be taken back as the bridge tells it.

import assert from "node:assert/strict";
import { test } from "node:test";

import "./board_stub.mjs";

const { Edits } = await import("../../static/board/edits.js");
const { hearing } = await import("../../static/board/hearing.js");
const { Model } = await import("../../static/board/model.js");
const { Pending } = await import("../../static/board/pending.js");
const { Selection } = await import("../../static/board/selection.js");
const { Lost } = await import("../../static/core/node.js");
const { Picture } = await import("../../static/core/picture.js");
const { eventOf, History } = await import("../../static/core/history.js");

const rect = (id, x = 0, y = 0) => ({ kind: "rect", id, in: null, at: [x, y], size: [10, 10], stroke: "000000", fill: null, width: 1, label: "" });

const MOST_TOGETHER = 512;

/** What the bridge tells of gestures that are done and taken back, by the lines of each batch and their answers. */
class Turns {
  constructor() {
    this.undo = [];
    this.redo = [];
    this.number = 0;
  }

  take(name, lines, answers) {
    const done = answers.filter((answer) => answer.startsWith("ok "));
    const clocks = done.flatMap((answer) => [...answer.matchAll(/^ok (\d+)/gm)].map((found) => Number(found[1])));
    if (!clocks.length) return;
    this.number += 1;
    const [verb] = lines;
    const isTurn = verb === "undo" || verb === "redo";
    const gesture = { name, lines: isTurn ? done.length : Math.ceil(lines.length / MOST_TOGETHER), edits: clocks.length, first: clocks[0], last: clocks.at(-1) };
    if (!isTurn) [this.undo, this.redo] = [[...this.undo, gesture], []];
    else this.turn(verb === "undo" ? this.undo : this.redo, verb === "undo" ? this.redo : this.undo, gesture);
  }

  /** Takes as many lines from the newest gesture that is due as were done. */
  turn(due, other, gesture) {
    const was = due.pop();
    if (was.lines > gesture.lines) due.push({ ...was, lines: was.lines - gesture.lines });
    other.push({ ...gesture, name: was.name });
  }

  /** How many edits the line at a place of these has, of a gesture that is taken back or done again. */
  editsOf(verb, at) {
    const due = (verb === "undo" ? this.undo : this.redo).at(-1);
    return due.lines === 1 ? due.edits : at ? MOST_TOGETHER : due.edits - (due.lines - 1) * MOST_TOGETHER;
  }

  told() {
    return { number: this.number, undo: this.undo.at(-1) ?? null, redo: this.redo.at(-1) ?? null };
  }
}

/** A page without a window. */
function page(...items) {
  const picture = new Picture();
  const model = new Model();
  const pending = new Pending(picture, model, () => false);
  const told = { refused: [], banners: [], said: [] };
  const nothing = () => {};
  const history = new History();
  const turns = new Turns();
  const type = (lines, name) => {
    last = last.then(() => {
      const made = lines();
      return made.length ? new Promise((done, fail) => typed.push({ lines: made, name, done, fail })) : { answers: [], edits };
    });
    return last;
  };
  const node = { type, history, turns: turns.told(), site: 1, get events() { return history.events; } };
  const ed = {
    model, node, selection: new Selection(model), readOnly: null, settle: nothing, rested: nothing, stacks: nothing, history: { update: nothing },
    people: { name: (site) => ["", "You", "Ana", "Bob"][site] },
    refuse: (list) => told.refused.push(...list), banner: (banner) => told.banners.push(banner.text), say: (text) => told.said.push(text),
  };
  let last = Promise.resolve();
  const typed = [];
  ed.edits = new Edits(ed, pending);
  let edits = 0;
  let clock = 100;
  const ear = hearing(ed, pending);
  Object.assign(globalThis.document, { body: { dataset: {} } });
  Object.assign(ed, { fit: nothing, camera: { put: nothing } });
  const show = (items, gone = [], order = []) => ear.picture(picture.take({ whole: false, items, gone, order }), edits, false, false);
  pending.pictured(picture.take({ whole: true, items, gone: [], order: [] }), 0, true);
  const rest = () => new Promise((later) => setImmediate(later));
  /** Gives the lines that were typed first, and answers them: each with a new stamp, or as it says. */
  const answer = async (...says) => {
    await rest();
    const batch = typed.shift();
    if (!batch) return null;
    const one = () => {
      edits += 1;
      clock += 1;
      return `ok ${clock}.1`;
    };
    const answers = batch.lines.map((line, at) => {
      if (says[at]) return says[at];
      if (line !== "undo" && line !== "redo") return one();
      const done = Array.from({ length: turns.editsOf(line, at) }, one);
      return [...done, `end ${done.length}`].join("\n");
    });
    turns.take(batch.name, batch.lines, answers);
    node.turns = turns.told();
    batch.done({ answers, edits });
    await rest();
    return batch.lines;
  };
  const note = (...events) => {
    for (const event of events) history.take(eventOf({ site: 1, ...event }, history.events.length));
    ear.events();
  };
  return { ed, ear, model, picture, pending, told, turns, typed, answer, show, note, rest };
}

const places = (model) => model.items.map((item) => `${item.id} ${item.x}`);
const looked = (id, x, more) => ({ ...rect(id, x), ...more });

test("a gesture of 40 is taken back by one line, and done again by one", async () => {
  const ids = Array.from({ length: 40 }, (_, at) => `${at + 1}.2`);
  const { ed, model, answer, show, typed, rest } = page(...ids.map((id) => rect(id)));
  ed.edits.do("Moved", ids.map((id) => `move ${id} 7 0`));
  await rest();
  assert.equal(typed[0].name, "Moved");
  assert.equal((await answer()).length, 40);
  ed.edits.undo();
  assert.deepEqual(await answer(), ["undo"]);
  // Nothing is foreseen: it is shown once the node shows it.
  assert.ok(model.items.every((item) => item.x === 7));
  show([]);
  assert.ok(model.items.every((item) => item.x === 0));
  ed.edits.redo();
  assert.deepEqual(await answer(), ["redo"]);
  ed.edits.undo();
  assert.deepEqual(await answer(), ["undo"]);
});

test("one that the node took as several gestures is taken back by as many lines", async () => {
  const many = Array.from({ length: 1025 }, (_, at) => rect(`${at + 1}.2`, at));
  const { ed, answer, told, show, note } = page(...many);
  ed.edits.do("Moved", many.map(({ id }) => `move ${id} 0 0`));
  assert.equal((await answer()).length, 1025);
  ed.edits.undo();
  assert.deepEqual(await answer(), ["undo", "undo", "undo"]);
  assert.deepEqual([told.said.at(-1), told.banners], ["Undid: Moved", []]);
  // All of what was taken back is selected.
  show([]);
  note(...many.map(({ id }, at) => ({ op: "move", target: id, x: at, y: 0, clock: 1126 + at })));
  assert.equal(ed.selection.ids.size, 1025);
  ed.edits.redo();
  assert.deepEqual(await answer(), ["redo", "redo", "redo"]);
});

test("gestures are taken back and done again one by one, whatever they did", async () => {
  const { ed, answer } = page(rect("1.2"), rect("2.2"));
  const gestures = { Moved: ["move 1.2 5 5", "move 2.2 5 5"], Raised: ["raise 1.2"], Grouped: ["group 1.2 2.2"], Deleted: ["delete 1.2", "delete 2.2"] };
  for (const [name, lines] of Object.entries(gestures)) {
    ed.edits.do(name, lines);
    await answer();
  }
  const went = [];
  for (const which of ["undo", "undo", "undo", "undo", "redo", "redo", "undo", "redo", "redo", "redo"]) {
    const name = ed.edits.due(which);
    ed.edits[which]();
    const lines = await answer();
    assert.deepEqual(lines, [which]);
    went.push(name);
  }
  assert.deepEqual(went, ["Deleted", "Grouped", "Raised", "Moved", "Moved", "Raised", "Raised", "Raised", "Grouped", "Deleted"]);
  assert.equal(ed.edits.due("redo"), null);
});

test("a new gesture forgets what could be done again", async () => {
  const { ed, answer, told, typed, rest } = page(rect("1.2"));
  ed.edits.do("Moved", ["move 1.2 5 5"]);
  await answer();
  ed.edits.undo();
  await answer();
  assert.equal(ed.edits.due("redo"), "Moved");
  ed.edits.do("Raised", ["raise 1.2"]);
  // At once, and not only when it is answered.
  assert.deepEqual([ed.edits.due("undo"), ed.edits.due("redo")], ["Raised", null]);
  ed.edits.redo();
  await answer();
  await rest();
  assert.equal(typed.length, 0);
  assert.equal(told.said.at(-1), "There is nothing to do again");
});

test("an undo right behind a gesture waits for that one's answers, and the next for its own", async () => {
  const { ed, answer } = page();
  ed.edits.do("Made", ["create rect 1 2 3 4", "width @1 2"]);
  ed.edits.do("Moved", ["move ~1.1 9 9"]);
  ed.edits.undo();
  assert.equal(ed.edits.due("redo"), "Moved");
  ed.edits.undo();
  ed.edits.redo();
  assert.deepEqual(await answer(), ["create rect 1 2 3 4", "width @1 2"]);
  assert.deepEqual(await answer(), ["move 101.1 9 9"]);
  assert.deepEqual(await answer(), ["undo"]);
  assert.deepEqual(await answer(), ["undo"]);
  assert.deepEqual(await answer(), ["redo"]);
  assert.deepEqual([ed.edits.due("undo"), ed.edits.due("redo")], ["Made", "Moved"]);
});

test("where nothing can be taken back that is said, and nothing is typed", async () => {
  const { ed, pending, told, typed, rest } = page(rect("1.2"));
  for (const [which, words] of [["undo", "There is nothing to undo"], ["redo", "There is nothing to do again"]]) {
    ed.edits[which]();
    await rest();
    assert.deepEqual([typed.length, told.said.at(-1), pending.layers.length], [0, words, 0]);
  }
  ed.readOnly = "you look at the past";
  ed.edits.undo();
  await rest();
  assert.equal(told.said.length, 2);
});

test("an undo that the node refuses is said once, and what it took of it is taken back", async () => {
  const { ed, answer, pending, show, told } = page(rect("1.2"));
  ed.edits.do("Moved", Array.from({ length: 1025 }, (_, at) => `move 1.2 ${1033 - at} 0`));
  await answer();
  ed.edits.undo();
  assert.deepEqual(await answer(null, "refused: SessionFull", "refused: SessionFull"), ["undo", "undo", "undo"]);
  assert.deepEqual(told.refused, [{ why: "SessionFull" }]);
  assert.deepEqual([told.said.at(-1), ed.edits.due("undo"), ed.edits.due("redo")], ["Undid: Moved", "Moved", "Moved"]);
  show([rect("1.2", 8)]);
  assert.equal(pending.layers.length, 0);
});

test("an undo that nobody heard can be done later", async () => {
  const { ed, answer, pending, told, typed, rest } = page(rect("1.2"));
  ed.edits.do("Moved", ["move 1.2 9 0"]);
  await answer();
  ed.edits.undo();
  await rest();
  typed.shift().fail(new Lost("Lost"));
  await rest();
  assert.deepEqual(told.refused, [{ why: "Lost" }]);
  assert.deepEqual([ed.edits.due("undo"), ed.edits.due("redo"), pending.layers.length], ["Moved", null, 1]);
});

const put = (id, more) => ({ op: "restore", target: id, kind: "rect", at: [0, 0], size: [10, 10], stroke: "000000", fill: null, width: 1, label: "", link: null, dissolved: false, rank: { high: id }, ties: [], ...more });

test("what was taken back is selected once it is shown", async () => {
  const { ed, answer, show, note } = page(rect("1.2"), rect("2.2", 5));
  ed.edits.do("Deleted", ["delete 1.2", "delete 2.2"]);
  await answer();
  show([], ["1.2", "2.2"]);
  note({ op: "delete", target: "1.2", clock: 101 }, { op: "delete", target: "2.2", clock: 102 });
  ed.edits.undo();
  await answer();
  assert.deepEqual([...ed.selection.ids], []);
  // The events may come behind the picture.
  show([rect("1.2"), rect("2.2", 5)]);
  assert.deepEqual([...ed.selection.ids], []);
  note(put("2.2", { clock: 103 }), put("1.2", { clock: 104 }));
  assert.deepEqual([...ed.selection.ids], ["2.2", "1.2"]);
  // Later ones select nothing any more.
  ed.selection.clear();
  note({ op: "move", target: "1.2", x: 1, y: 1, clock: 105, site: 2 });
  assert.deepEqual([...ed.selection.ids], []);
});

test("of a group that was taken back its members are selected, and within a group that was entered what is in it", async () => {
  const group = { kind: "group", id: "3.2", in: null, at: [0, 0] };
  const { ed, answer, show, note } = page(group, looked("1.2", 0, { in: "3.2" }), looked("2.2", 0, { in: "3.2" }));
  ed.selection.enter("3.2");
  ed.edits.do("Moved", ["move 1.2 9 0"]);
  await answer();
  ed.edits.undo();
  await answer();
  note({ op: "move", target: "1.2", x: 9, y: 0, clock: 101 }, { op: "move", target: "1.2", x: 0, y: 0, clock: 102 });
  show([looked("1.2", 0, { in: "3.2" })]);
  assert.deepEqual([[...ed.selection.ids], ed.selection.scope], [["1.2"], "3.2"]);
  ed.edits.do("Grouped", ["group 3.2 9.2"]);
  await answer();
  ed.edits.undo();
  await answer();
  note({ op: "disband", target: "3.2", ties: [{ id: "1.2", link: null }, { id: "2.2", link: null }], clock: 104 });
  show([rect("1.2"), rect("2.2")], ["3.2"]);
  assert.deepEqual([[...ed.selection.ids], ed.selection.scope], [["1.2", "2.2"], null]);
});

test("what others changed there since is said", async () => {
  const { ed, answer, show, note, told } = page(rect("1.2"), rect("2.2"));
  ed.edits.do("Moved", ["move 1.2 9 0", "move 2.2 9 0"]);
  await answer();
  note({ op: "move", target: "1.2", x: 9, y: 0, clock: 101 }, { op: "move", target: "2.2", x: 9, y: 0, clock: 102 });
  // Another part, and one that came before.
  note({ op: "restyle", target: "1.2", stroke: "FF0000", clock: 103, site: 3 });
  const undone = async (...events) => {
    ed.edits.undo();
    await answer();
    note(...events);
    show([rect("1.2"), rect("2.2")]);
    ed.edits.redo();
    await answer();
  };
  await undone({ op: "move", target: "2.2", x: 0, y: 0, clock: 103 }, { op: "move", target: "1.2", x: 0, y: 0, clock: 104 });
  assert.deepEqual(told.banners, []);
  note({ op: "move", target: "1.2", x: 9, y: 0, clock: 105 }, { op: "move", target: "2.2", x: 9, y: 0, clock: 106 });
  show([]);
  // Late ones count too: what is put back there is older.
  note({ op: "move", target: "2.2", x: 4, y: 4, clock: 90, site: 2 }, { op: "delete", target: "1.2", clock: 120, site: 3 });
  await undone({ op: "move", target: "2.2", x: 0, y: 0, clock: 107 }, { op: "move", target: "1.2", x: 0, y: 0, clock: 108 });
  assert.deepEqual(told.banners, ["Undone, without what Ana and Bob changed there since"]);
});

test("an offer to take something back goes with the next thing that is done, here or at another page", async () => {
  const { ed, ear, answer, turns } = page(rect("1.2"));
  const passed = [];
  const offer = (name) => {
    ed.edits.passed = () => passed.push(name);
  };
  ed.edits.do("Moved", ["move 1.2 9 0"]);
  await answer();
  offer("first");
  // What the bridge tells of the own gesture comes behind its answers.
  ear.stand("turns");
  assert.deepEqual(passed, []);
  ed.edits.undo();
  assert.deepEqual(passed, ["first"]);
  await answer();
  offer("second");
  turns.take("Moved there", ["move 1.2 8 0"], ["ok 200.1"]);
  ed.node.turns = turns.told();
  ear.stand("turns");
  assert.deepEqual(passed, ["first", "second"]);
  assert.deepEqual([ed.edits.due("undo"), ed.edits.due("redo")], ["Moved there", null]);
});

test("what is made is called by its id once that is known", async () => {
  const { ed, model, answer } = page();
  ed.edits.do("Made", ["create rect 1 2 3 4", "width @1 2"], (names) => [names[0]]);
  assert.deepEqual([...ed.selection.ids], ["~1.1"]);
  assert.deepEqual(await answer(), ["create rect 1 2 3 4", "width @1 2"]);
  assert.deepEqual([...ed.selection.ids], ["101.1"]);
  ed.edits.do("Grouped", ["group ~1.1 7.2", "group @1 8.2"]);
  assert.deepEqual(await answer(), ["group 101.1 7.2", "group @1 8.2"]);
  assert.ok(model.byId.has("104.1"));
});

test("a refused line goes back and says why", async () => {
  const { ed, model, answer, told } = page(rect("1.2"), rect("2.2"));
  ed.edits.do("Moved", ["move 1.2 9 0", "move 2.2 9 0"]);
  await answer("refused: NoObject");
  assert.deepEqual(told.refused, [{ line: "move 1.2 9 0", why: "NoObject" }]);
  assert.deepEqual(places(model), ["1.2 0", "2.2 9"]);
  // What was taken of it is one step of undo; a gesture of which nothing was taken is none.
  ed.edits.do("Tried", ["move 1.2 9 0"]);
  await answer("refused: NoObject");
  ed.edits.undo();
  assert.deepEqual(await answer(), ["undo"]);
  assert.equal(told.said.at(-1), "Undid: Moved");
});

test("a label that looks like a reference stays as it is typed", async () => {
  const { ed, answer } = page();
  ed.edits.do("Wrote", ["create text 0 0 5 5 @1 and 1.2", "text @1 see @1  1.2 "]);
  assert.deepEqual(await answer(), ["create text 0 0 5 5 @1 and 1.2", "text @1 see @1  1.2 "]);
  ed.edits.do("Wrote", ["text 101.1 @1"]);
  assert.deepEqual(await answer(), ["text 101.1 @1"]);
});

test("without a connection nothing is done, and that is said", async () => {
  const { ed, model, told, typed, rest } = page(rect("1.2"));
  ed.edits.do("Moved", ["move 1.2 9 0"]);
  assert.deepEqual(places(model), ["1.2 9"]);
  await rest();
  typed.shift().fail(new Lost("Lost"));
  await rest();
  assert.deepEqual(places(model), ["1.2 0"]);
  assert.deepEqual(told.refused, [{ line: "move 1.2 9 0", why: "Lost" }]);
  assert.equal(ed.edits.due("undo"), null);
});

test("what can't be drawn on takes nothing", async () => {
  const { ed, told, typed, rest } = page(rect("1.2"));
  ed.readOnly = "you look at the past";
  ed.edits.do("Moved", ["move 1.2 9 0"]);
  await rest();
  assert.equal(typed.length, 0);
  assert.deepEqual(told.refused, [{ why: "you look at the past" }]);
});
