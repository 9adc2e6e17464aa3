// The node as the bridge tells of it: what the drawing shows, all events, who is here, and how it stands. Lines are typed to
// it in batches, of which the next goes out when the one before was answered.

import { eventOf, History } from "./history.js";
import { Picture } from "./picture.js";
import { Wire } from "./wire.js";

/** @typedef {import("./types.js").Event} Event */
/** @typedef {import("./types.js").End} End */
/** @typedef {import("./types.js").Standing} Standing */
/** @typedef {import("./types.js").Parted} Parted */
/** @typedef {import("./types.js").LinkSettings} LinkSettings */
/** @typedef {import("./types.js").Turns} Turns */
/** @typedef {import("./picture.js").Difference} Difference */
/** @typedef {{site: number, name: string | null, heard: number | null, away: boolean, perhaps: boolean}} Peer */
/** @typedef {{site: number, name: string | null, focus: string | null}} Note */
/** @typedef {{answers: string[], edits: number}} Answers */
/** @typedef {{message: any, done: (result: any) => void, fail: (why: Error) => void}} Asked */
/**
 * What a node tells. `picture`: what the drawing shows has changed; `events`: there are more events; `stand`: anything else.
 * @typedef {object} NodeEar
 * @property {(difference: Difference, edits: number, others: boolean, whole: boolean) => void} picture
 * @property {(events: Event[], isFirst: boolean) => void} events
 * @property {(what: string) => void} stand
 */

/** As many characters has what the lines of a batch are called. */
const MOST_NAME = 100;

/** An answer that never came, since the connection was lost. */
export class Lost extends Error {}

/**
 * Why there is no answer.
 * @param {unknown} fault
 */
export const whyOf = (fault) => (fault instanceof Lost ? "Lost" : /** @type {Error} */ (fault).message);

/**
 * Why an answer says that a line wasn't taken.
 * @param {string} answer
 */
export const refusalOf = (answer) => answer.replace(/^refused: /, "");

export class Node {
  /** @param {number | null} desk the number of the desk that the address of the page names */
  constructor(desk) {
    this.wire = new Wire(desk === null ? "socket" : `socket?desk=${desk}`, this);
    /** @type {NodeEar} */
    this.ear = { picture() {}, events() {}, stand() {} };
    this.picture = new Picture();
    this.history = new History();
    this.site = 0;
    this.sites = 1;
    this.session = 0;
    this.desk = desk ?? 1;
    this.demo = false;
    /** Whether the network between this page and the bridge can read along. */
    this.isOpenly = false;
    /** Whether this page only looks on. */
    this.watcher = false;
    this.journal = "";
    /** @type {number[]} */
    this.desks = [];
    /** @type {Record<string, string | null>} */
    this.names = {};
    this.connected = false;
    /** Whether the drawing was ever shown. */
    this.isReady = false;
    /** @type {End | null} */
    this.ended = null;
    /** Whether the node answers nothing. */
    this.silent = false;
    /** Whether it isn't sure that anything still comes from others. */
    this.quiet = false;
    this.waiting = 0;
    /** @type {Peer[]} */
    this.peers = [];
    /** @type {Note[]} */
    this.who = [];
    /** @type {Standing} */
    this.standing = { held: 0, kept: 0, line: 0, clock: 0 };
    /** @type {Parted} */
    this.parted = { sites: [], older: false };
    /** @type {LinkSettings | null} */
    this.link = null;
    /** What can be taken back and done again. @type {Turns} */
    this.turns = { number: 0, undo: null, redo: null };
    /** @type {[number, number][]} of own gestures of several edits the clocks of the first and the last one, by rising clocks */
    this.gestures = [];
    /** @type {import("./types.js").Carried | null} what is known of a session over a broker */
    this.carried = null;
    /** @type {Map<number, Set<string>>} what others have selected, by sites, where that is told beside the notes */
    this.selections = new Map();
    /** @type {Map<number, [number, number]>} where others point */
    this.pointers = new Map();
    /** @type {any[]} */
    this.news = [];
    this.edits = 0;
    this.counted = 0;
    /** @type {Map<number, Asked>} */
    this.asked = new Map();
    /** @type {Promise<unknown>} */
    this.last = Promise.resolve();
    this.expectsEvents = true;
  }

  start() {
    this.wire.open();
  }

  /** All events in stamp order. */
  get events() {
    return this.history.events;
  }

  /** Why there is no connection: the bridge has ended, another one has its place, or nothing is known. */
  get why() {
    return this.wire.why;
  }

  /** What the drawing shows behind the first `k` events. */
  itemsAt(/** @type {number} */ k) {
    return this.history.shownAt(k);
  }

  /**
   * Has lines typed as one batch, behind all batches from before. `lines` makes them when their turn has come.
   * @param {() => string[]} lines
   * @param {string} [name] what they are called together
   * @returns {Promise<Answers>} rejected with `Lost` where the connection was or got lost
   */
  type(lines, name = "") {
    const answered = this.last.then(() => {
      const made = lines();
      if (!made.length) return { answers: [], edits: this.edits };
      return this.ask(/** @type {any} */ ({ do: "batch", lines: made, name: [...name].slice(0, MOST_NAME).join("") }));
    });
    this.last = answered.catch(() => {});
    return answered;
  }

  /**
   * Has lines typed whose answers nobody waits for.
   * @param {string[]} lines
   */
  tell(lines) {
    this.counted += 1;
    this.wire.send({ do: "batch", lines, desk: this.desk, id: this.counted });
  }

  /**
   * @param {{do: string}} message
   * @returns {Promise<any>}
   */
  ask(message) {
    this.counted += 1;
    const id = this.counted;
    return new Promise((done, fail) => {
      this.asked.set(id, { message, done, fail });
      if (this.wire.send({ ...message, desk: this.desk, id })) return;
      this.asked.delete(id);
      fail(new Lost("Lost"));
    });
  }

  /** Starts a node again that has ended. */
  restart() {
    return this.ask({ do: "again" });
  }

  /** @param {string} name */
  setName(name) {
    return this.ask(/** @type {any} */ ({ do: "name", name }));
  }

  /**
   * Has a link made for one more person of a session over a broker.
   * @returns {Promise<{link: string, code: string[] | null}>}
   */
  invite() {
    return this.ask(/** @type {any} */ ({ do: "carried", what: "invite" }));
  }

  /**
   * Has the link made for those who only look on.
   * @returns {Promise<{link: string, code: string[] | null}>}
   */
  letWatch() {
    return this.ask(/** @type {any} */ ({ do: "carried", what: "watch" }));
  }

  /**
   * Tells the others of a session over a broker where this page points, and what is selected here. Nobody waits for an answer.
   * @param {[number, number] | null} point
   * @param {string[]} selection
   */
  point(point, selection) {
    if (this.watcher) return;
    this.counted += 1;
    this.wire.send({ do: "carried", what: "point", point, selection, desk: this.desk, id: this.counted });
  }

  /** @param {string | null} id */
  focus(id) {
    return this.type(() => [`focus ${id ?? "-"}`]);
  }

  /**
   * What is saved of the drawing, as text.
   * @param {"text" | "json" | "events" | "log"} form
   * @returns {Promise<string>}
   */
  save(form) {
    return this.ask(/** @type {any} */ ({ do: "save", form }));
  }

  /** @param {Partial<LinkSettings>} settings */
  setLink(settings) {
    return this.ask(/** @type {any} */ ({ do: "link", ...settings }));
  }

  /**
   * @param {import("./wire.js").What} what
   * @param {any} message
   */
  hear(what, message) {
    if (what === "message") {
      this.take(message);
      return;
    }
    this.connected = what === "open";
    if (what === "open") this.expectsEvents = true;
    else this.giveUp();
    this.ear.stand(what);
  }

  /** No answer comes any more. */
  giveUp() {
    const asked = [...this.asked.values()];
    this.asked.clear();
    for (const { fail } of asked) fail(new Lost("Lost"));
  }

  /** @param {any} told */
  take(told) {
    if (told.desk !== undefined && told.desk !== null && told.is !== "hello" && told.desk !== this.desk) return;
    const takers = /** @type {Record<string, (told: any) => void>} */ ({
      answers: () => {
        this.takeTurns(told.turns);
        this.reply(told.id, { answers: told.answers, edits: told.edits });
      },
      reply: () => this.reply(told.id, told.result, told.error),
      picture: () => this.takePicture(told),
      history: () => this.takeHistory(told),
    });
    if (takers[told.is]) {
      takers[told.is](told);
      return;
    }
    this.note(told);
    this.ear.stand(told.is);
  }

  /** @param {any} told */
  note(told) {
    const { is, ...rest } = told;
    if (is === "hello") this.greet(rest);
    else if (is === "who") this.who = rest.who;
    else if (is === "standing") this.standing = rest.standing;
    else if (is === "parted") this.parted = { sites: rest.sites, older: rest.older };
    else if (is === "peers") Object.assign(this, { peers: rest.peers, waiting: rest.waiting, quiet: rest.quiet, silent: rest.silent });
    else if (is === "news") this.news.push(...rest.news);
    else if (is === "gestures") this.gestures.push(...rest.gestures);
    else if (is === "turns") this.takeTurns(rest);
    else if (is === "end") this.ended = rest.end;
    else if (is === "begun") this.ended = null;
    else if (is === "carried") this.carried = rest;
    else if (is === "presence" && rest.gone) this.selections.delete(rest.site);
    else if (is === "presence") this.selections.set(rest.site, new Set(rest.selection));
    else if (is === "pointer" && rest.point) this.pointers.set(rest.site, rest.point);
    else if (is === "pointer") this.pointers.delete(rest.site);
    else if (is === "link") this.link = { loss: rest.loss, twice: rest.twice, delay: rest.delay, cut: rest.cut };
    if (this.news.length > 400) this.news.splice(0, this.news.length - 200);
  }

  /** @param {any} hello */
  greet(hello) {
    const { desk, site, sites, session, demo, journal, desks, names, gestures } = hello;
    Object.assign(this, { desk, site, sites, session, demo, journal, desks, gestures, names: names ?? {}, ended: null });
    this.turns = hello.turns ?? { number: 0, undo: null, redo: null };
    this.watcher = Boolean(hello.watcher);
    this.isOpenly = Boolean(hello.openly);
  }

  /**
   * An answer may overtake what was told before it.
   * @param {Turns} turns
   */
  takeTurns({ number, undo, redo }) {
    if (number > this.turns.number) this.turns = { number, undo, redo };
  }

  /**
   * @param {number} id
   * @param {any} result
   * @param {string} [error]
   */
  reply(id, result, error) {
    const asked = this.asked.get(id);
    if (!asked) return;
    this.asked.delete(id);
    if (error) asked.fail(new Error(error));
    else asked.done(result);
  }

  /** @param {any} told */
  takePicture(told) {
    const difference = this.picture.take(told);
    this.edits = told.edits;
    this.isReady = true;
    this.ear.picture(difference, told.edits, told.others, told.whole);
  }

  /** @param {any} told */
  takeHistory(told) {
    // A bridge that was begun again tells all events from the first on, which are there already.
    const events = told.events.map((/** @type {any} */ each, /** @type {number} */ index) => eventOf(each, told.from + index));
    const fresh = events.filter((/** @type {Event} */ event) => !this.history.byStamp.has(event.stamp));
    for (const event of fresh) this.history.take(event);
    this.ear.events(fresh, this.expectsEvents);
    this.expectsEvents = false;
  }
}
