// Words: keys, states of the node, refusals, what late events are told as.

import "./ui_stub.mjs";
import assert from "node:assert/strict";
import test from "node:test";

const { chordOf } = await import("../../static/ui/keys.js");
const { COMMANDS } = await import("../../static/ui/commands.js");
const { keyText } = await import("../../static/ui/h.js");
const { stateOf, nameOf, strangerWords } = await import("../../static/ui/standing.js");
const { adviceOf, noticeOf, shortOf } = await import("../../static/ui/parting.js");
const { letterOf, stateOf: personState } = await import("../../static/ui/roster.js");
const { count, initialOf, plainWords, shortened } = await import("../../static/ui/words.js");
const { tellArrived } = await import("../../static/ui/arrivals.js");
const { deedOf, lossAmong, ordinalOf, repairOf, stepDeedOf, voidOf } = await import("../../static/ui/deeds.js");

test("a key goes by what it types where that is Latin, else by where it lies", () => {
  const none = { shiftKey: false, altKey: false, ctrlKey: false, metaKey: false };
  const rows = [
    [{ key: "r", code: "KeyR" }, "R"],
    [{ key: "к", code: "KeyR" }, "R"],
    [{ key: "я", code: "KeyZ", ctrlKey: true }, "Mod+Z"],
    [{ key: "Z", code: "KeyZ", ctrlKey: true, shiftKey: true }, "Mod+Shift+Z"],
    [{ key: "z", code: "KeyY", ctrlKey: true }, "Mod+Z"],
    [{ key: "å", code: "KeyA", altKey: true }, "Alt+A"],
    [{ key: "!", code: "Digit1", shiftKey: true }, "Shift+1"],
    [{ key: "?", code: "Slash", shiftKey: true }, "?"],
    [{ key: "+", code: "Equal", shiftKey: true }, "+"],
    [{ key: "[", code: "BracketLeft" }, "["],
    [{ key: "ü", code: "BracketLeft" }, "["],
    [{ key: "Delete", code: "Delete" }, "Delete"],
    [{ key: "ArrowLeft", code: "ArrowLeft", altKey: true }, "Alt+ArrowLeft"],
    [{ key: "z", code: "KeyZ", metaKey: true }, "Mod+Z"],
  ];
  for (const [event, chord] of rows) assert.equal(chordOf({ ...none, ...event }), chord);
});

test("no key stands for two commands, and each command has a name and an icon", () => {
  const keys = COMMANDS.flatMap((command) => command.keys);
  assert.equal(new Set(keys).size, keys.length);
  assert.equal(new Set(COMMANDS.map((command) => command.id)).size, COMMANDS.length);
  for (const command of COMMANDS) assert.ok(command.title && command.icon && command.group);
  assert.equal(keyText("Mod+Shift+Z"), "Ctrl+Shift+Z");
  assert.equal(keyText("Alt+ArrowLeft"), "Alt+←");
});

test("whose edits are others here than there, what that means and what to do", () => {
  const none = { sites: [], older: false }, one = { sites: [2], older: false }, two = { sites: [2, 3], older: false }, own = { sites: [], older: true };
  assert.equal(noticeOf(none, []), null);
  assert.deepEqual(adviceOf(none, [], false), []);
  assert.equal(noticeOf(one, ["Ben"]), "You and Ben have parted: nothing more that Ben draws comes here.");
  assert.equal(noticeOf(two, ["Ben", "Person 3"]), "You and Ben and Person 3 have parted: nothing more that they draw comes here.");
  assert.match(String(noticeOf(own, [])), /^This isn’t your newest file/);
  assert.match(String(noticeOf({ ...one, older: true }, ["Ben"])), /^This isn’t your newest file.* You and Ben have parted/);
  assert.equal(shortOf(one, ["Ben"]), "Parted from Ben");
  assert.equal(shortOf(own, []), "Not your newest file");
  const advice = adviceOf(two, ["Ben", "Cem"], false);
  assert.equal(advice.length, 2);
  assert.match(advice[0], /^Ben draws with a file that was put back.* Ben has to begin anew.* all begin a new drawing together\.$/);
  assert.match(adviceOf(one, ["Ben"], true)[0], /Ben needs a link to another place/);
  assert.match(adviceOf(own, [], true)[0], /^You draw with a file that was put back.* you need a link to another place/);
});

test("where the node stands, in words", () => {
  const fine = { connected: true, why: null, ended: null, silent: false, quiet: false, waiting: 0, others: 1, here: 1, wasHere: true };
  const rows = [
    [{}, "on", "Connected", null],
    [{ quiet: true }, "quiet", "Listening for others …", null],
    [{ quiet: true, waiting: 1 }, "waits", "1 edit waits for others", null],
    [{ waiting: 1 }, "waits", "1 edit waits for others", null],
    [{ waiting: 3 }, "waits", "3 edits wait for others", null],
    [{ others: 0, here: 0 }, "on", "You draw alone", null],
    [{ here: 0 }, "off", "Offline", "Offline: you can go on drawing"],
    [{ here: 0, waiting: 1 }, "off", "Offline, 1 edit waits", "Offline: 1 edit waits here, safe on this machine"],
    [{ here: 0, waiting: 1200 }, "off", "Offline, 1,200 edits wait", "Offline: 1,200 edits wait here, safe on this machine"],
    [{ here: 0, wasHere: false }, "alone", "Nobody else is here", null],
  ];
  for (const [other, kind, words, banner] of rows) assert.deepEqual(stateOf({ ...fine, ...other }), { kind, words, banner });
  assert.equal(stateOf({ ...fine, others: 0, here: 0, watcher: true }).kind, "watches");
  assert.doesNotMatch(String(stateOf({ ...fine, connected: false, watcher: true }).banner), /journal/);
  const lost = stateOf({ ...fine, connected: false, ended: { status: 5, meaning: "its journal failed", said: "" } });
  assert.equal(lost.kind, "lost");
  const whys = { ended: /^.\/draw has ended/, replaced: /^Another .\/draw/ };
  for (const [why, words] of Object.entries(whys)) assert.match(stateOf({ ...fine, connected: false, why }).banner, words);
  const ended = stateOf({ ...fine, ended: { status: 5, meaning: "its journal failed", said: "" } });
  assert.equal(ended.kind, "ended");
  assert.match(ended.banner, /its journal failed/);
  assert.equal(stateOf({ ...fine, silent: true }).kind, "silent");
  const strangers = [
    ["frame refused: Session", /another drawing/], ["frame refused: NotForMe", /same order/], ["frame refused: Short at 0", /Something else on the network/],
    ["frame refused: Check at 60", /damaged/], ["frame refused: OverAck 5 4", null],
    ["polled 1", null], ["echo 1.1 applied", null],
  ];
  for (const [line, words] of strangers) words ? assert.match(strangerWords(line), words) : assert.equal(strangerWords(line), null);
  assert.equal(nameOf("/drawings/spring plan.log"), "spring plan");
  assert.equal(nameOf(""), "Board");
});

test("where another person is, in words", () => {
  const seat = { site: 2, name: "Bob", me: false, here: true, away: null, selection: new Set() };
  const rows = [
    [{ away: false, perhaps: false, heard: 3 }, "here now"],
    [{ away: false, perhaps: true, heard: 3 }, "may be away"],
    [{ away: true, perhaps: false, heard: 3 }, "away"],
    [{ away: true, perhaps: false, heard: null }, "hasn’t come yet"],
  ];
  for (const [peer, words] of rows) assert.equal(personState(seat, peer), words);
  assert.equal(personState({ ...seat, me: true }, undefined), "you");
  assert.deepEqual([letterOf(seat), letterOf({ ...seat, name: "Person 2" }), letterOf({ ...seat, name: "Person 7" })], ["B", "2", "P"]);
});

test("counts, initials, refusals and long texts", () => {
  assert.deepEqual([count(1), count(2), count(1500, "edit")], ["1 object", "2 objects", "1,500 edits"]);
  assert.deepEqual(["ada", " Борис", "🙂 x", "山田", ""].map(initialOf), ["A", "Б", "🙂", "山", "?"]);
  assert.equal(plainWords("refused: NoObject"), "it is gone, someone deleted it");
  assert.equal(plainWords("something else"), "something else");
  assert.deepEqual([shortened("abc", 3), shortened("abcd", 3), shortened("🙂🙂🙂🙂", 3)], ["abc", "ab…", "🙂🙂…"]);
});

const event = (stamp, came, more = {}) => {
  const [clock, site] = stamp.split(".").map(Number);
  return { op: "move", id: "1.1", clock, site, stamp, came, time: null, late: null, ...more };
};
const late = (what, redone = [], by = null) => ({ behind: 2, what, redone, by });

test("what came in is told once, with whose edits the late ones came in before", () => {
  const lates = [event("5.2", 7, { late: late("reworked", ["5.3"]) }), event("6.2", 8, { late: late("dropped", [], "7.1") })];
  const events = [event("4.1", 0), lates[0], event("5.3", 1), event("6.1", 2), lates[1], event("7.1", 3)];
  const name = (site) => ["", "You", "Bob", "Chen"][site];
  const tell = (came, late, site, isBack, all = events) => tellArrived(came, late, all, site, name, isBack);
  assert.equal(tell(lates, lates, 1, true), "Together again: 2 edits by Bob are in now, before 2 of yours");
  assert.equal(tell(lates, lates, 4, false), "2 edits by Bob came late and are in now, before 3 later ones");
  const chen = event("6.3", 9, { late: late("dropped", [], "7.1") });
  assert.match(tell([...lates, chen], [...lates, chen], 1, false, [...events, chen]), /^3 edits by Bob and Chen came late/);
  const after = event("9.2", 9);
  assert.equal(tell([after], [], 1, true, [...events, after]), "Together again: 1 edit by Bob is in now");
  const mixed = "Together again: 3 edits by Bob are in now, 2 of them before 2 of yours";
  assert.equal(tell([...lates, after], lates, 1, true, [...events, after]), mixed);
});

/** What the words of the history ask of the page. */
function page(events) {
  return {
    node: { site: 1, events, history: { byStamp: new Map(events.map((each) => [each.stamp, each])) } },
    model: { byId: new Map() },
    people: { name: (site) => ["", "You", "Bob", "Chen"][site] },
  };
}

test("what an event did, and how it was repaired", () => {
  const made = [event("1.1", 0, { op: "create", kind: "rect", label: "A rather long label, and more of it" }), event("7.1", 1)];
  const ed = page(made);
  assert.deepEqual(deedOf(ed, event("6.2", 3)), { who: "Bob", what: "moved “A rather long label, an…”" });
  assert.deepEqual(deedOf(ed, event("6.2", 3, { op: "delete", id: "9.9" })), { who: "Bob", what: "deleted an object" });
  const grouped = event("6.2", 3, { op: "group", members: [{}, {}, {}] });
  assert.deepEqual(deedOf(ed, grouped), { who: "Bob", what: "grouped 3 objects" });
  assert.equal(repairOf(ed, event("6.2", 3)), "");
  const rows = [
    [late("applied"), /^Came late, behind 2 later edits, and touches none/],
    [late("dropped", [], "7.1"), /^Changed nothing: it came late, and later you moved it, which counts$/],
    [late("reworked", ["7.1"]), /^Came late: 1 later edit that depends on it was undone/],
    [late("reworked", ["7.1", "8.1"]), /^Came late: 2 later edits that depend on it were undone/],
  ];
  for (const [each, words] of rows) assert.match(repairOf(ed, event("6.2", 3, { late: each })), words);
});

test("which of someone's edits an event is", () => {
  const events = Array.from({ length: 23 }, (_, at) => event(`${at + 1}.2`, at));
  const own = event("30.1", 30);
  const ed = page([...events, own]);
  const words = (at) => ordinalOf(ed, events[at - 1]);
  assert.deepEqual([1, 2, 3, 4, 11, 12, 13, 21, 22, 23].map(words), ["1st", "2nd", "3rd", "4th", "11th", "12th", "13th", "21st", "22nd", "23rd"].map((each) => `Bob’s ${each} edit`));
  assert.equal(ordinalOf(ed, own), "your 1st edit");
});

test("what one deleted while another changed it is said so, by whichever event one looks at", () => {
  const made = event("1.1", 0, { op: "create", kind: "rect", label: "Start" });
  const moved = event("7.1", 1);
  const coloured = event("8.1", 2, { op: "stroke" });
  const gone = event("6.2", 3, { op: "delete", late: late("reworked", ["7.1", "8.1"]) });
  const ed = page([made, gone, moved, coloured]);
  assert.equal(repairOf(ed, gone), "Bob deleted it while you moved it, so the move changes nothing");
  assert.deepEqual(lossAmong(ed, [event("5.2", 9, { id: "2.2" }), gone]), {
    event: gone, words: "Bob deleted “Start” while you moved it, so the move changes nothing",
  });
  assert.equal(voidOf(ed, moved), "Bob deleted it while you moved it, so the move changes nothing");
  assert.equal(voidOf(ed, coloured), "Bob deleted it while you coloured it, so the colour changes nothing");
  assert.equal(voidOf(ed, made), "");
  ed.model.byId.set("1.1", {});
  assert.equal(voidOf(ed, moved), "");
  // The other way round: one's own delete covers what came late. That of a third one may have been made behind it.
  const own = event("9.1", 4, { op: "delete" });
  const third = event("9.3", 5, { op: "delete" });
  const wrote = (by) => event("6.2", 6, { op: "text", late: late("dropped", [], by) });
  const there = page([made, own, third]);
  assert.equal(repairOf(there, wrote("9.1")), "You deleted it while Bob wrote in it, so the text changes nothing");
  assert.equal(repairOf(there, wrote("9.3")), "Changed nothing: it came late, and later Chen deleted it");
  assert.equal(lossAmong(there, [event("6.2", 3, { id: "2.2", late: late("reworked", ["7.1"]) })]), null);
  // What came behind one's own delete is void too, and what another one deleted here isn't one's own.
  const moved2 = event("9.2", 7);
  assert.deepEqual(lossAmong(there, [moved2]), { event: moved2, words: "You deleted “Start” while Bob moved it, so the move changes nothing" });
  assert.equal(lossAmong(page([made, third]), [moved2]), null);
});

test("what a gesture did", () => {
  const create = (stamp, label = "") => event(stamp, 0, { op: "create", id: stamp, kind: "rect", label });
  const ed = page([create("1.1", "Start"), create("2.1")]);
  const rows = [
    [[create("1.1", "Start"), event("3.1", 0, { op: "fill" })], "made “Start”"],
    [[create("1.1"), create("2.1"), event("3.1", 0, { op: "group", id: "3.1", members: [{}, {}] })], "made 2 objects"],
    [[event("5.1", 0), event("6.1", 0, { id: "2.1" })], "moved 2 objects"],
    [[event("5.1", 0, { op: "resize" }), event("6.1", 0)], "resized “Start”"],
    [[event("5.1", 0, { op: "text" }), event("6.1", 0, { op: "resize" })], "wrote “Start”"],
    [[event("5.1", 0, { op: "fill" }), event("6.1", 0, { op: "stroke", id: "2.1" })], "changed 2 objects"],
  ];
  for (const [step, what] of rows) assert.deepEqual(stepDeedOf(ed, step), { who: "You", what });
});
