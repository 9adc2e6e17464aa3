// What the page makes of a session over a broker: whose seats are taken, and what is said of the broker.

import assert from "node:assert/strict";
import "./ui_stub.mjs";
import { test } from "node:test";

const { People } = await import("../../static/core/people.js");
const { ago, seatWords, watchedWords, whatToCheck } = await import("../../static/ui/seating.js");
const { faultOf } = await import("../../static/ui/inviting.js");

/** A node of site 2 of 16, of which nothing is known but these. */
const nodeWith = (/** @type {any} */ fields) => ({
  site: 2, sites: 16, who: [], peers: [], names: {}, carried: null, selections: new Map(), connected: true, waiting: 0, ...fields,
});

const peopleOf = (/** @type {any} */ fields) => {
  const people = new People(/** @type {any} */ (nodeWith(fields)));
  people.update();
  return people;
};

const carried = { name: "Oak", broker: "h:1", up: true, fault: "", invites: 0, seats: [{ site: 5 }, { site: 1 }] };

test("without a broker each site has a seat, and over one those that somebody has", () => {
  assert.deepEqual(peopleOf({}).seats.map((seat) => seat.site), Array.from({ length: 16 }, (_, at) => at + 1));
  const people = peopleOf({ carried });
  assert.deepEqual(people.seats.map((seat) => [seat.site, seat.me]), [[1, false], [2, true], [5, false]]);
  assert.equal(people.name(9), "Person 9");
});

test("a selection that is told beside the notes comes before the focus, and goes with its seat", () => {
  const who = [{ site: 5, name: null, focus: "1.1" }, { site: 1, name: null, focus: "3.1" }];
  const peers = [{ site: 1, away: false, heard: 0, name: null }, { site: 5, away: false, heard: 0, name: null }];
  const selections = new Map([[5, new Set(["7.2", "8.2"])]]);
  const looked = (/** @type {any} */ fields) => peopleOf({ carried, who, peers, selections, ...fields }).seats.map((seat) => [...seat.selection]);
  assert.deepEqual(looked({}), [["3.1"], [], ["7.2", "8.2"]]);
  const away = peers.map((peer) => ({ ...peer, away: true }));
  assert.deepEqual(looked({ peers: away }), [[], [], []]);
});

test("a broker that isn't reached is said, with the reason where one is known", () => {
  assert.equal(faultOf(null), null);
  assert.equal(faultOf(carried), null);
  assert.match(String(faultOf({ ...carried, up: false })), /^The broker .* at h:1 isn’t reached\. You can/);
  assert.match(String(faultOf({ ...carried, up: false, fault: "it has expired" })), /isn’t reached: it has expired\. You can/);
  assert.match(String(faultOf({ ...carried, up: false }, true)), /^The broker .* at h:1 isn’t reached\. What is drawn now comes/);
});

test("members are told where others may look on", () => {
  assert.deepEqual([null, { ...carried, watched: false }].map(watchedWords), ["", ""]);
  assert.match(watchedWords({ ...carried, watched: true }), /may look on/);
});

test("what is said of a seat, and what to check where nobody is heard", () => {
  const seat = { site: 5, here: false, heard: null, missing: 0, lies: false };
  const words = (/** @type {any} */ fields) => seatWords({ ...carried, seats: [{ ...seat, ...fields }] }, 5);
  assert.equal(seatWords(null, 5), "");
  assert.equal(seatWords({ ...carried, seats: [] }, 5), "");
  assert.equal(words({}), "");
  assert.equal(words({ heard: 3, here: true }), "");
  assert.equal(words({ heard: 30, missing: 1 }), ", last heard 30 seconds ago, 1 edit not here yet");
  assert.match(words({ lies: true }), /different drawings/);
  assert.deepEqual([1, 89, 90, 5399, 5400, 7200].map(ago), [
    "1 second ago", "89 seconds ago", "2 minutes ago", "90 minutes ago", "2 hours ago", "2 hours ago",
  ]);
  const check = (/** @type {any} */ fields) => whatToCheck({ ...carried, seats: [seat], ...fields });
  assert.equal(whatToCheck(null), "");
  assert.equal(check({ seats: [{ ...seat, here: true }], up: false }), "");
  assert.match(check({ up: false }), /Is the broker .* at h:1 running/);
  assert.match(check({ seats: [] }), /invite somebody/);
  assert.match(check({}), /Does \.\/draw run at the others/);
});
