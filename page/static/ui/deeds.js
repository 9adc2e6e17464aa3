// What an event did and how it was repaired, in words.

import { count, oneLine, shortened } from "./words.js";

/** @typedef {import("../core/types.js").Event} Event */

const DEEDS = /** @type {Record<string, string>} */ ({
  create: "made", delete: "deleted", move: "moved", resize: "resized", stroke: "coloured", fill: "filled",
  width: "set the width of", text: "wrote", group: "grouped", ungroup: "dissolved", raise: "brought to the front",
  connect: "connected", reconnect: "connected anew", style: "styled", lower: "sent to the back", restore: "put back", disband: "took apart", rerank: "put back in its place", reopen: "made whole again",
});
const KINDS = /** @type {Record<string, string>} */ ({
  rect: "a rectangle", ellipse: "an ellipse", line: "a line", text: "a text", group: "a group", connector: "a connector",
});
const LONGEST = 24;

/**
 * Whether an event came late, and had others undone for it or no effect.
 * @param {Event} event
 */
export const isRepaired = (event) => event.late !== null && event.late.what !== "applied";

/**
 * The text that an object was given last, or undefined where it is the first one still.
 * @param {Ed} ed
 * @param {string} id
 */
function lastLabel({ node: { events } }, id) {
  for (let at = events.length - 1; at >= 0; at -= 1) {
    if (events[at].op === "text" && events[at].id === id) return /** @type {string} */ (events[at].value);
  }
  return undefined;
}

/**
 * An object in words: by its text where it has one, else by its kind.
 * @param {Ed} ed
 * @param {string} id
 */
export function objectName(ed, id) {
  const made = ed.node.history.byStamp.get(id);
  const item = ed.model.byId.get(id);
  const label = item ? item.label : lastLabel(ed, id) ?? made?.label;
  if (label) return `“${shortened(oneLine(label), LONGEST)}”`;
  const kind = item ? item.kind : made?.op === "group" ? "group" : made?.op === "connect" ? "connector" : made?.kind;
  return KINDS[kind ?? ""] ?? "an object";
}

/**
 * Who did the last event of a kind with one of these objects, as the beginning of a sentence.
 * @param {Ed} ed
 * @param {string} op
 * @param {string[]} ids
 */
function doerOf({ node, people }, op, ids) {
  const { events } = node;
  for (let at = events.length - 1; at >= 0; at -= 1) {
    if (events[at].op === op && ids.includes(events[at].id)) return people.name(events[at].site);
  }
  return "Someone";
}

/**
 * Who deleted an object.
 * @param {Ed} ed
 * @param {string[]} ids its own, and those of the groups that it was in
 */
export const deleterOf = (ed, ids) => doerOf(ed, "delete", ids);

/**
 * Who wrote the text of an object.
 * @param {Ed} ed
 * @param {string} id
 */
export const writerOf = (ed, id) => doerOf(ed, "text", [id]);

/**
 * Who did what.
 * @param {Ed} ed
 * @param {Event} event
 */
export function deedOf(ed, event) {
  const who = ed.people.name(event.site);
  const what = event.op === "group" ? count(event.members?.length ?? 0) : objectName(ed, event.id);
  return { who, what: `${DEEDS[event.op] ?? event.op} ${what}` };
}

/**
 * Who did what with a step of the history.
 * @param {Ed} ed
 * @param {Event[]} events those of one gesture, or one event; at least one
 */
export function stepDeedOf(ed, events) {
  const [first] = events;
  if (events.length === 1) return deedOf(ed, first);
  const who = ed.people.name(first.site);
  /** @param {string} op */
  const of = (op) => events.filter((event) => event.op === op);
  const told = ["create", "connect", "group", "restore", "delete", "text", "resize"].map(of).find((list) => list.length) ?? events;
  const { op } = told[0];
  const ids = new Set(told.map((event) => event.id));
  if (ids.size === 1) return deedOf(ed, told[0]);
  const isOne = told.every((event) => event.op === op);
  return { who, what: `${isOne ? DEEDS[op] : "changed"} ${count(ids.size)}` };
}

const NOUNS = /** @type {Record<string, string>} */ ({
  move: "move", resize: "new size", stroke: "colour", fill: "fill", width: "width", text: "text", group: "group", ungroup: "end of the group",
  connect: "connector", reconnect: "new end", style: "look", raise: "new order", lower: "new order", delete: "delete", disband: "end of the group", rerank: "old order", reopen: "old group",
});

const WITH_IT = /** @type {Record<string, string>} */ ({
  text: "wrote in it", raise: "brought it to the front", lower: "sent it to the back", restore: "put it back", disband: "took it apart",
  rerank: "put it back in its place", reopen: "made it whole again",
});

/**
 * Who did what with an object, as the middle of a sentence: `you moved it`.
 * @param {Ed} ed
 * @param {Event} event
 * @param {string} [it]
 */
function didIt(ed, { site, op }, it = "it") {
  const name = ed.people.name(site);
  return `${name === "You" ? "you" : name} ${WITH_IT[op] ?? `${DEEDS[op]} ${it}`}`;
}

/** @param {string} text */
const sentence = (text) => `${text[0].toUpperCase()}${text.slice(1)}`;

/**
 * What is said where one deleted what another one changed, and neither knew of the other.
 * @param {Ed} ed
 * @param {Event} gone the delete
 * @param {Event} change
 * @param {string} [it] what was deleted
 */
const lostWords = (ed, gone, change, it = "it") =>
  sentence(`${didIt(ed, gone, it)} while ${didIt(ed, change)}, so the ${NOUNS[change.op]} changes nothing`);

/**
 * Whether an event does nothing where its object isn't there, and it matters.
 * @param {Event | undefined} event
 */
const isChange = (event) => event !== undefined && event.op !== "delete" && NOUNS[event.op] !== undefined;

/**
 * What a delete that came late has made void, or nothing: the change of it.
 * @param {Ed} ed
 * @param {Event} event
 */
function voidedBy(ed, event) {
  if (event.op !== "delete" || event.late?.what !== "reworked") return null;
  const { byStamp } = ed.node.history;
  return event.late.redone.map((stamp) => byStamp.get(stamp)).find((each) => isChange(each) && each?.id === event.id) ?? null;
}

/**
 * How a late event was repaired, or nothing where it wasn't late.
 * @param {Ed} ed
 * @param {Event} event
 */
export function repairOf(ed, event) {
  const { late } = event;
  if (!late) return "";
  if (late.what === "applied") return `Came late, behind ${count(late.behind, "later edit")}, and touches none of them`;
  if (late.what === "dropped") {
    const by = late.by ? ed.node.history.byStamp.get(late.by) : null;
    if (!by) return "Changed nothing: it came late, and a later edit covers it";
    // A third one may have deleted it because of this very edit.
    if (by.op === "delete" && by.site === ed.node.site) return lostWords(ed, by, event);
    return `Changed nothing: it came late, and later ${didIt(ed, by)}${by.op === "delete" ? "" : ", which counts"}`;
  }
  const change = voidedBy(ed, event);
  if (change) return lostWords(ed, event, change);
  const redone = late.redone.length;
  const [depend, were, again] = redone === 1 ? ["depends", "was", "that one was"] : ["depend", "were", "they were"];
  const undone = `${count(redone, "later edit")} that ${depend} on it ${were} undone`;
  return `Came late: ${undone}, it was put in its place, and ${again} done again`;
}

/**
 * The first of others' events that met with a delete: it deleted what was changed here, or changed what was deleted here.
 * @param {Ed} ed
 * @param {Event[]} came
 * @returns {{event: Event, words: string} | null}
 */
export function lossAmong(ed, came) {
  const { events, site } = ed.node;
  const own = new Map(events.filter((event) => event.op === "delete" && event.site === site).map((event) => [event.id, event]));
  for (const event of came) {
    const gone = own.get(event.id);
    const change = voidedBy(ed, event);
    if (change) return { event, words: lostWords(ed, event, change, objectName(ed, event.id)) };
    // Where it is there it was put back.
    const isLost = gone && event.came > gone.came && isChange(event) && !ed.model.byId.has(event.id);
    if (isLost) return { event, words: lostWords(ed, gone, event, objectName(ed, event.id)) };
  }
  return null;
}

/**
 * Why an event changed nothing, where the object was deleted before, or nothing.
 * @param {Ed} ed it shows the drawing behind the event
 * @param {Event} event
 */
export function voidOf(ed, event) {
  if (!NOUNS[event.op] || event.op === "group" || isRepaired(event) || ed.model.byId.has(event.id)) return "";
  const { events } = ed.node;
  const before = events.slice(0, events.indexOf(event)).reverse();
  const gone = before.find((each) => each.op === "delete" && each.id === event.id);
  return gone ? lostWords(ed, gone, event) : "";
}

/** @param {number} number */
function ordinal(number) {
  const isTeen = number % 100 > 10 && number % 100 < 14;
  return `${number.toLocaleString("en")}${(!isTeen && ["", "st", "nd", "rd"][number % 10]) || "th"}`;
}

/**
 * Which of someone's edits an event is: `your 3rd edit`.
 * @param {Ed} ed
 * @param {Event} event
 */
export function ordinalOf(ed, event) {
  const { events } = ed.node;
  let number = 0;
  for (const each of events) {
    if (each.site === event.site) number += 1;
    if (each === event) break;
  }
  const name = ed.people.name(event.site);
  return `${name === "You" ? "your" : `${name}’s`} ${ordinal(number)} edit`;
}

/**
 * The time of day at which this machine saw an event, or nothing where that isn't known.
 * @param {Event} event
 */
export function timeOf(event) {
  if (event.time === null) return "";
  const seen = new Date(event.time);
  const isToday = seen.toDateString() === new Date().toDateString();
  const time = seen.toLocaleTimeString([], { hour: "2-digit", minute: "2-digit", second: "2-digit" });
  return isToday ? time : `${seen.toLocaleDateString()} ${time}`;
}
