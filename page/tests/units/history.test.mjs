// The fold of events against the program's own `replay`: the drawing behind any number of events, what came of late ones, and
// that a step back leaves what was there.

import assert from "node:assert/strict";
import { readdirSync, readFileSync } from "node:fs";
import { test } from "node:test";

import { shownOf } from "../../static/core/drawing.js";
import { eventOf, History } from "../../static/core/history.js";
import { countsOf, drawer, eventsOf, logOf, PROGRAM, randomEvents, replayed } from "./logs.mjs";

const EXAMPLES = new URL("../../../examples/", import.meta.url);
const skip = PROGRAM ? false : "there is no built program: set PAGE_PROGRAM";

/** An object of the drawing's JSON in the page's words. */
function plainOf({ id, kind, in: parent, at: [x, y] = [0, 0], size: [w, h] = [0, 0], stroke = "000000", fill = null, width = 1, label = "", from, to, ...rest }) {
  const { align, ...looks } = rest;
  return { id, kind, parent, x, y, w, h, stroke, fill, width, label, looks: align ? { ...looks, side: align } : looks, ...(from && { from, to }) };
}
const drawingOf = (log) => JSON.parse(replayed(log, "--format", "json")).map(plainOf);

function historyOf(told) {
  const history = new History();
  told.forEach((each, at) => history.take(eventOf(each, at)));
  return history;
}

/** Compares the fold of a log's events with what the program says. */
function check(log, name) {
  const told = eventsOf(log);
  const history = historyOf(told);
  assert.equal(history.events.length, told.length, name);
  assert.deepEqual(history.shownAt(history.events.length), drawingOf(log), name);
  const late = history.events.filter((event) => event.late);
  const count = (what) => late.filter((event) => event.late.what === what).length;
  const undone = late.reduce((sum, event) => sum + event.late.redone.length, 0);
  const counts = [told.length - count("dropped") - count("reworked"), count("dropped"), count("reworked"), undone];
  assert.deepEqual(counts, countsOf(log), `${name}: applied, dropped, reworked, undone`);
  return history;
}

test("the examples' logs", { skip }, () => {
  const says = (name) => readFileSync(new URL(name.replace(/log$/, "txt"), EXAMPLES), "utf8");
  const names = readdirSync(EXAMPLES).filter((name) => name.endsWith(".log") && !says(name).startsWith("bad log"));
  assert.ok(names.length > 5);
  for (const name of names) check(readFileSync(new URL(name, EXAMPLES)), name);
});

test("random logs of all operations, of which many events come late", { skip }, () => {
  for (let seed = 1; seed <= 12; seed += 1) {
    const sites = 2 + (seed % 4);
    const history = check(logOf(randomEvents(seed, 150, sites), sites), `seed ${seed}`);
    assert.ok(history.events.some((event) => event.late), `seed ${seed} has late events`);
  }
});

test("the drawing behind the first events is that of a log of these, in whatever order one steps", { skip }, () => {
  const history = historyOf(eventsOf(logOf(randomEvents(77, 120, 3), 3)));
  const raw = new Map(randomEvents(77, 120, 3).map((event) => [`${event.clock}.${event.site}`, event]));
  const draw = drawer(5);
  for (let turn = 0; turn < 12; turn += 1) {
    const goal = draw(history.events.length + 1);
    const prefix = history.events.slice(0, goal).map((event) => raw.get(event.stamp));
    assert.deepEqual(history.shownAt(goal), drawingOf(logOf(prefix, 3)), `behind ${goal}`);
  }
});

test("stepping back leaves each board as it was", () => {
  const history = new History();
  randomEvents(9, 200, 3).forEach((event, at) => history.take(eventOf(told(event), at)));
  const boards = history.events.map((_, at) => {
    history.goTo(at);
    return new Map(history.board);
  });
  history.goTo(history.events.length);
  for (let at = history.events.length - 1; at >= 0; at -= 1) {
    history.goTo(at);
    assert.deepEqual(history.board, boards[at]);
  }
});

test("a late event changes the past behind it alone, wherever one looks", () => {
  const events = randomEvents(31, 200, 2).map((event, at) => eventOf(told(event), at));
  const inOrder = [...events].sort((a, b) => a.clock - b.clock || a.site - b.site);
  const whole = new History();
  for (const event of inOrder) whole.take({ ...event, late: null });
  const history = new History();
  const draw = drawer(3);
  for (const event of events) {
    history.take(event);
    history.goTo(draw(history.events.length + 1));
  }
  history.goTo(history.events.length);
  whole.goTo(whole.events.length);
  assert.deepEqual(shownOf(history.board), shownOf(whole.board));
});

test("marks shorten the way and change nothing", () => {
  const history = new History();
  const count = 9000;
  history.take(eventOf({ op: "create", kind: "rect", x: 0, y: 0, w: 1, h: 1, label: "", clock: 1, site: 1 }, 0));
  for (let clock = 2; clock <= count; clock += 1) history.take(eventOf({ op: "move", target: "1.1", x: clock, y: -clock, clock, site: 1 }, clock - 1));
  for (const goal of [count, 1, 8192, 4097, 0, 8999, 2]) {
    const [shown] = history.shownAt(goal);
    assert.equal(shown?.x, goal === 0 ? undefined : goal === 1 ? 0 : goal);
  }
  assert.deepEqual([...history.marks.keys()], [4096, 8192]);
});

test("an event that is told twice is taken once", () => {
  const history = new History();
  const event = { op: "create", kind: "rect", x: 0, y: 0, w: 1, h: 1, label: "", clock: 1, site: 1 };
  history.take(eventOf(event, 0));
  history.take(eventOf(event, 0));
  assert.equal(history.events.length, 1);
});

const nameOf = (each) => `${each.clock}.${each.site}`;
const hexOf = (value) => (value === null ? null : value.toString(16).toUpperCase().padStart(6, "0"));
const toldLink = (link) => link && { id: nameOf(link), dx: link.dx, dy: link.dy };
const toldRank = (rank) => ({ [rank.height]: nameOf(rank) });

/** Looks with colours as the bridge tells them. */
const toldLooks = (looks) => Object.fromEntries(Object.entries(looks).map(([part, value]) => [part, part === "stroke" || part === "fill" ? hexOf(value) : value]));
const NEW = { dash: "solid", heads: "none", opacity: 100 };

/** The object of a random restore as the bridge tells it: what is as it is made is left out. */
function toldWhole({ x, y, w, h, stroke, fill, link, rank, from, to, ...rest }) {
  const told = Object.entries(rest).filter(([part, value]) => value !== null && NEW[part] !== value);
  const ends = from && { from: nameOf(from), to: nameOf(to) };
  return { ...Object.fromEntries(told), ...ends, at: [x, y], size: [w, h], stroke: hexOf(stroke), fill: hexOf(fill), link: toldLink(link), rank: toldRank(rank) };
}

/** An event of a random log as the bridge tells it. */
function told({ op, on, style, value, members, whole, ties, rank, looks, from, to, ...rest }) {
  return {
    ...rest, op: op === "style" ? "restyle" : op, ...(on && { target: nameOf(on) }), ...(style && toldLooks({ [style]: value })),
    ...(looks && toldLooks(looks)), ...(from && { from: nameOf(from), to: nameOf(to) }),
    ...(members && { members: members.map(({ dx, dy, ...id }) => ({ id: nameOf(id), dx, dy })) }), ...(whole && toldWhole(whole)),
    ...(ties && { ties: ties.map((tie) => ({ id: nameOf(tie), link: toldLink(tie.link) })) }), ...(rank && { rank: toldRank(rank) }),
  };
}
