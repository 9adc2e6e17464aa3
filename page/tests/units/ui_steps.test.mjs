// Steps of the history: gestures, where these are known.

import assert from "node:assert/strict";
import test from "node:test";

const { stepAt, stepFrom } = await import("../../static/ui/steps.js");

const events = (...stamps) => stamps.map((stamp) => ({ stamp, clock: Number(stamp.split(".")[0]), site: Number(stamp.split(".")[1]) }));
const stamps = (list) => list.map((event) => event.stamp);

test("an own gesture is one step, another one's events are a step each", () => {
  const node = { site: 1, events: events("1.1", "2.1", "3.1", "4.2", "5.2", "6.1", "7.1", "8.1"), gestures: [[1, 2], [6, 8]] };
  const walk = (from, by) => {
    const way = [from];
    while (stepFrom(node, way.at(-1), by) !== way.at(-1)) way.push(stepFrom(node, way.at(-1), by));
    return way;
  };
  assert.deepEqual(walk(0, 1), [0, 2, 3, 4, 5, 8]);
  assert.deepEqual(walk(8, -1), [8, 5, 4, 3, 2, 0]);
  // From the middle of one to its borders.
  assert.deepEqual([stepFrom(node, 7, 1), stepFrom(node, 7, -1), stepFrom(node, 1, 1), stepFrom(node, 1, -1)], [8, 5, 2, 0]);
  assert.deepEqual(stamps(stepAt(node, 2)), ["1.1", "2.1"]);
  assert.deepEqual(stamps(stepAt(node, 8)), ["6.1", "7.1", "8.1"]);
  assert.deepEqual([1, 3, 4, 7].map((k) => stamps(stepAt(node, k))), [["1.1"], ["3.1"], ["4.2"], ["7.1"]]);
  assert.deepEqual(stepAt(node, 0), []);
});

test("an event that came in between parts a gesture, and where none is known each event is a step", () => {
  const between = { site: 1, events: events("1.1", "2.1", "2.2", "3.1"), gestures: [[1, 3]] };
  assert.deepEqual([0, 2, 3].map((k) => stepFrom(between, k, 1)), [2, 3, 4]);
  const none = { site: 1, events: events("1.1", "2.1"), gestures: [] };
  assert.deepEqual([stepFrom(none, 0, 1), stepFrom(none, 2, -1), stepFrom(none, 2, 1), stepFrom(none, 0, -1)], [1, 1, 2, 0]);
});

test("what the deletes of a step took away, with all that was in it, as it was before the step", async () => {
  await import("./ui_stub.mjs");
  const { takenBy } = await import("../../static/ui/putting.js");
  const plain = (id, parent = null) => ({ id, parent });
  const before = [plain("9.1"), plain("8.1", "9.1"), plain("1.1", "8.1"), plain("2.1", "9.1"), plain("3.1"), plain("4.1")];
  const asked = [];
  const ed = { node: { itemsAt: (k) => (asked.push(k), before) } };
  const step = [{ op: "delete", id: "9.1" }, { op: "move", id: "3.1" }, { op: "delete", id: "4.1" }];
  assert.deepEqual(takenBy(ed, step, 20).map((each) => each.id), ["9.1", "8.1", "1.1", "2.1", "4.1"]);
  assert.deepEqual(asked, [17]);
  assert.deepEqual(takenBy(ed, [step[1]], 20), []);
});

test("a page that lost its connection knows the gestures with the first word of the bridge", async () => {
  await import("./ui_stub.mjs");
  globalThis.location = { href: "http://127.0.0.1:1/token/" };
  const { Node } = await import("../../static/core/node.js");
  const node = new Node(1);
  const hello = { is: "hello", desk: 1, site: 1, sites: 2, session: 7, demo: false, journal: "a.log", desks: [1], names: {} };
  const made = [1, 2, 3].map((clock) => ({ id: `${clock}.1`, clock, site: 1, op: "create", kind: "rect", x: 0, y: 0, w: 1, h: 1, label: "", seen: null }));
  node.take({ ...hello, gestures: [] });
  node.take({ is: "gestures", desk: 1, gestures: [[1, 3]] });
  node.take({ is: "history", desk: 1, from: 0, events: made });
  assert.deepEqual([stepFrom(node, 3, -1), stepFrom(node, 0, 1)], [0, 3]);
  // What else the bridge tells a page that comes again may take long.
  node.hear("lost", null);
  node.hear("open", null);
  node.take({ ...hello, gestures: [[1, 3]] });
  assert.deepEqual([stepFrom(node, 3, -1), stepFrom(node, 0, 1)], [0, 3]);
});
