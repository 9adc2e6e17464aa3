// All events of the session in stamp order, and the drawing behind any number of them. A step goes by applying or undoing
// events; marks are copies of the board on the way, so that a far step is short too.

import { apply, bodyOf, compareStamps, linkOf, rankOf, shownOf, undo } from "./drawing.js";
import { closure, covers } from "./relations.js";

/** @typedef {import("./types.js").Event} Event */
/** @typedef {import("./types.js").Late} Late */
/** @typedef {import("./drawing.js").Before} Before */
/** @typedef {import("./drawing.js").Board} Board */

const MARK_EVERY = 4096;

/** The parts of a look, as the bridge calls them and as the page does. @type {[string, string][]} */
const STYLES = [
  ["stroke", "stroke"], ["fill", "fill"], ["width", "width"], ["dash", "dash"], ["heads", "heads"], ["round", "round"],
  ["opacity", "opacity"], ["letters", "letters"], ["align", "side"],
];

/**
 * An event of the bridge, in the words of its line.
 * @param {any} told as `replay --format events` has it, but for the object's id, which is its `target` here
 * @param {number} came
 * @returns {Event}
 */
export function eventOf(told, came) {
  const { clock, site } = told;
  const stamp = `${clock}.${site}`;
  const late = /** @type {Late | null} */ (null);
  const base = { clock, site, stamp, id: told.target ?? stamp, time: told.seen ?? null, came, late };
  if (told.op === "retext") return { ...base, op: "text", value: told.label };
  if (told.op === "restyle") {
    const style = Object.fromEntries(STYLES.filter(([part]) => part in told).map(([part, name]) => [name, told[part]]));
    const names = Object.keys(style);
    const [only] = names;
    if (names.length === 1 && (only === "stroke" || only === "fill" || only === "width")) return { ...base, op: only, value: style[only] };
    return { ...base, op: "style", style };
  }
  const ties = told.ties?.map((/** @type {any} */ tie) => ({ id: tie.id, link: linkOf(tie.link) }));
  if (told.op === "connect") return { ...base, op: "connect", from: told.from, to: told.to, label: told.label };
  if (told.op === "reconnect") return { ...base, op: "reconnect", from: told.from, to: told.to };
  if (told.op === "restore") return { ...base, op: "restore", body: bodyOf(told), ties };
  if (told.op === "disband") return { ...base, op: "disband", ties };
  if (told.op === "rerank") return { ...base, op: "rerank", rank: rankOf(told.rank) };
  const { op, kind, x, y, w, h, label, members } = told;
  return { ...base, op, kind, x, y, w, h, label, members };
}

export class History {
  constructor() {
    /** @type {Event[]} in stamp order */
    this.events = [];
    /** @type {Board} behind the first `at` events */
    this.board = new Map();
    this.at = 0;
    /** @type {Before[]} what each event found, for as many as were ever passed */
    this.befores = [];
    /** @type {Map<number, Board>} */
    this.marks = new Map();
    /** @type {Map<string, Event>} */
    this.byStamp = new Map();
  }

  /**
   * Takes an event, wherever its stamp puts it, and says there what came of it.
   * @param {Event} event
   */
  take(event) {
    if (this.byStamp.has(event.stamp)) return;
    const at = this.placeOf(event);
    const behind = this.events.length - at;
    if (behind) event.late = this.outcome(event, at, behind);
    this.byStamp.set(event.stamp, event);
    if (behind) this.forget(at);
    this.events.splice(at, 0, event);
  }

  /** @param {Event} event */
  placeOf(event) {
    let at = this.events.length;
    while (at > 0 && compareStamps(event, this.events[at - 1]) < 0) at -= 1;
    return at;
  }

  /**
   * @param {Event} event
   * @param {number} at
   * @param {number} behind
   * @returns {Late}
   */
  outcome(event, at, behind) {
    const dependents = closure(event, this.events.slice(at));
    const late = { behind, redone: /** @type {string[]} */ ([]), by: /** @type {string | null} */ (null) };
    if (!dependents.length) return { ...late, what: "applied" };
    if (covers(dependents[0], event)) return { ...late, what: "dropped", by: dependents[0].stamp };
    return { ...late, what: "reworked", redone: dependents.map((each) => each.stamp) };
  }

  /**
   * Forgets what was found behind the first events, since another one comes there.
   * @param {number} at
   */
  forget(at) {
    if (this.at > at) this.goTo(at);
    this.befores.length = Math.min(this.befores.length, at);
    for (const mark of this.marks.keys()) if (mark > at) this.marks.delete(mark);
  }

  /**
   * Puts the board behind the first `goal` events.
   * @param {number} goal from 0 to the number of events
   */
  goTo(goal) {
    this.jump(goal);
    while (this.at > goal) {
      this.at -= 1;
      undo(this.board, this.befores[this.at]);
    }
    while (this.at < goal) {
      this.befores[this.at] = apply(this.board, this.events[this.at]);
      this.at += 1;
      if (this.at % MARK_EVERY === 0 && !this.marks.has(this.at)) this.marks.set(this.at, new Map(this.board));
    }
  }

  /**
   * Goes to the mark that is nearest to the goal, where that is nearer than the place at which it stands.
   * @param {number} goal
   */
  jump(goal) {
    let best = this.at;
    for (const mark of this.marks.keys()) if (Math.abs(mark - goal) < Math.abs(best - goal)) best = mark;
    if (best === this.at) return;
    this.board = new Map(this.marks.get(best));
    this.at = best;
  }

  /**
   * What the drawing shows behind the first `goal` events.
   * @param {number} goal
   * @returns {Plain[]}
   */
  shownAt(goal) {
    this.goTo(Math.max(0, Math.min(this.events.length, goal)));
    return shownOf(this.board);
  }
}
