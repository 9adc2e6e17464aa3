// What others' events did as they arrive: flashes where they are, and a banner where late ones had to be repaired.

import { isRepaired, lossAmong } from "./deeds.js";
import { count } from "./words.js";

/** @typedef {import("../core/types.js").Event} Event */

/** Events that come within so many milliseconds of each other are told in one banner. */
const REST = 700;
const MOST_TURNS = 8;
/** So many milliseconds behind the return the first of what was missed is there. */
const CATCHES_UP = 5000;
const BANNER_LASTS = 12_000;
const CALM_LASTS = 6000;
const FLASH = { plain: 1600, late: 4000 };
/** More flashes than these at once would say nothing. */
const MOST_FLASHES = 200;

/**
 * What is said of others' events that came in, some of them late.
 * @param {Event[]} came at least one
 * @param {Event[]} lates those of them that are told as late
 * @param {Event[]} events all events in stamp order
 * @param {number} site one's own
 * @param {(site: number) => string} nameOf
 * @param {boolean} isBack whether this machine was cut off until now
 */
export function tellArrived(came, lates, events, site, nameOf, isBack) {
  const told = isBack ? came : lates;
  const who = [...new Set(told.map((event) => nameOf(event.site)))];
  const names = who.length > 1 ? `${who.slice(0, -1).join(", ")} and ${who.at(-1)}` : who[0];
  const are = told.length === 1 ? "is" : "are";
  const all = count(told.length, "edit");
  const before = lates.length ? beforeWhat(lates, events, site) : "";
  if (!isBack) return `${all} by ${names} came late and ${are} in now, before ${before}`;
  const those = lates.length === came.length ? "" : `${lates.length.toLocaleString("en")} of them `;
  return `Together again: ${all} by ${names} ${are} in now${before && `, ${those}before ${before}`}`;
}

/**
 * What lies behind late events and was there before them, in words.
 * @param {Event[]} lates
 * @param {Event[]} events
 * @param {number} site
 */
function beforeWhat(lates, events, site) {
  const stamps = new Set(lates.map((late) => late.stamp));
  const first = events.findIndex((event) => stamps.has(event.stamp));
  const came = lates.reduce((least, late) => Math.min(least, late.came), Infinity);
  const behind = events.slice(first + 1).filter((event) => event.came < came);
  const own = behind.filter((event) => event.site === site).length;
  return own ? `${own.toLocaleString("en")} of yours` : count(behind.length, "later one");
}

export class Arrivals {
  /** @param {Ed} ed */
  constructor(ed) {
    this.ed = ed;
    this.since = Date.now();
    /** How many events had arrived when they were last looked at. */
    this.told = 0;
    /** @type {Event[]} others' events that weren't told of yet */
    this.came = [];
    this.timer = 0;
    this.isBack = false;
    this.kind = "on";
  }

  /**
   * Takes a change of the state of the node.
   * @param {string} kind
   */
  standing(kind) {
    // What came before this machine was cut off isn't what it missed.
    if (kind === "off" && this.kind !== "off" && this.came.length) this.tell();
    const isBackNow = kind !== "off" && this.kind === "off";
    this.isBack = kind !== "off" && (this.isBack || isBackNow);
    this.kind = kind;
    // Where nothing was missed, what comes later is nothing of that.
    if (isBackNow) setTimeout(() => (this.isBack &&= this.came.length > 0), CATCHES_UP);
  }

  /** Looks at the events that have arrived since. Those of before the page was opened are old. */
  update() {
    const { node } = this.ed;
    const fresh = node.events.filter((event) => event.came >= this.told && event.time !== null && event.time >= this.since);
    this.told = node.events.length;
    const others = fresh.filter((event) => event.site !== node.site);
    if (!others.length) return;
    if (this.ed.history.at === null) for (const event of others.slice(-MOST_FLASHES)) this.flash(event);
    this.came.push(...others);
    this.wait(0);
  }

  /** @param {Event} event */
  flash(event) {
    const { ed } = this;
    const isLate = isRepaired(event);
    const redone = event.late?.redone.length ?? 0;
    const text = isLate ? `${ed.people.name(event.site)}, came late${redone ? ` · ${count(redone, "edit")} redone` : ""}` : null;
    ed.overlay.flash([event.id], event.late?.what ?? "applied", text, isLate ? FLASH.late : FLASH.plain, null);
  }

  /**
   * Tells of late events once no more come. That this machine is back may be known a little later than what came.
   * @param {number} turns how often it has waited for that
   */
  wait(turns) {
    clearTimeout(this.timer);
    this.timer = setTimeout(() => (this.kind === "off" && turns < MOST_TURNS ? this.wait(turns + 1) : this.tell()), REST);
  }

  tell() {
    clearTimeout(this.timer);
    const { ed, came, isBack } = this;
    // Who draws with others at the same time has late ones all along. These are told of where they had to be repaired.
    const lates = came.filter((event) => event.late && (isBack || isRepaired(event)));
    this.came = [];
    this.isBack = false;
    const loss = lossAmong(ed, came);
    if (!lates.length && !loss && !(isBack && came.length)) return;
    const { events, site } = ed.node;
    const words = isBack || lates.length ? tellArrived(came, lates, events, site, (each) => ed.people.name(each), isBack) : null;
    const first = loss?.event ?? lates.find(isRepaired) ?? lates[0];
    const act = first ? { action: "Show", run: () => ed.history.goTo(ed.node.events.indexOf(first) + 1) } : {};
    const look = first ? { tone: "late", icon: "late" } : { tone: "calm", icon: "people" };
    const text = [words, loss?.words].filter(Boolean).join(". ");
    ed.banner({ ...look, ...act, text, lasts: first ? BANNER_LASTS : CALM_LASTS });
  }
}
