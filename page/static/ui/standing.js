// Where the node stands, in words: in the island of the file always, and in a banner where someone has to know it.

import { CALLED } from "../core/called.js";
import { retell } from "./banners.js";
import { Parting } from "./parting.js";
import { count } from "./words.js";

/** @typedef {import("./file.js").FileIsland} FileIsland */

/**
 * What is known of the node and its peers.
 * @typedef {object} Facts
 * @property {boolean} connected whether the page is connected to the bridge
 * @property {"ended" | "replaced" | "taken" | null} why why it isn't, where that is known
 * @property {import("../core/types.js").End | null} ended
 * @property {boolean} silent whether the node has answered nothing for a while
 * @property {boolean} quiet whether nothing came from others for a moment
 * @property {number} waiting how many edits nobody else has confirmed
 * @property {number} others how many other sites there are
 * @property {number} here how many of these are here
 * @property {boolean} wasHere whether one of these was here before
 * @property {boolean} [watcher] whether this page only looks on
 */

/**
 * A state of the node: its kind, how it is said in a few words, and the banner that says it where there is one.
 * @typedef {object} State
 * @property {"on" | "waits" | "quiet" | "alone" | "off" | "silent" | "ended" | "lost" | "watches"} kind
 * @property {string} words
 * @property {string | null} banner
 */

const LOST = {
  ended: `${CALLED} has ended. Start it again, and open the address that it prints.`,
  replaced: `Another ${CALLED} runs here now. Open the address that it printed.`,
  taken: "Somebody else draws at this place already. A link is for one person at a time: it opens here once they are gone.",
  unknown: `No connection to ${CALLED}. If it has ended, start it again and open the address that it prints.`,
};

/** @param {number} waiting */
const waits = (waiting) => `${count(waiting, "edit")} ${waiting === 1 ? "waits" : "wait"}`;

/**
 * What is said of these facts.
 * @param {Facts} facts
 * @returns {State}
 */
export function stateOf({ connected, why, ended, silent, quiet, waiting, others, here, wasHere, watcher }) {
  if (!connected) {
    const kept = watcher || why === "taken" ? "" : " All edits until now are safe in the drawing’s file.";
    return { kind: "lost", words: why === "taken" ? "Taken" : "No connection", banner: `${LOST[why ?? "unknown"]}${kept}` };
  }
  if (watcher) return { kind: "watches", words: "You look on", banner: null };
  if (ended) {
    const meaning = ended.meaning ? `: ${ended.meaning}` : "";
    const banner = `The program that keeps the drawing has ended${meaning}. All edits until now are safe in its file.`;
    return { kind: "ended", words: "Ended", banner };
  }
  if (silent) {
    const banner = "The program that keeps the drawing doesn’t answer. What you draw now waits until it does.";
    return { kind: "silent", words: "No answer", banner };
  }
  if (!others) return { kind: "on", words: "You draw alone", banner: null };
  if (here && waiting) return { kind: "waits", words: `${waits(waiting)} for others`, banner: null };
  if (here && quiet) return { kind: "quiet", words: "Listening for others …", banner: null };
  // That all have all edits can't be known: what others draw now is on its way at best.
  if (here) return { kind: "on", words: "Connected", banner: null };
  if (!wasHere && !waiting) return { kind: "alone", words: "Nobody else is here", banner: null };
  const banner = waiting ? `Offline: ${waits(waiting)} here, safe on this machine` : "Offline: you can go on drawing";
  return { kind: "off", words: waiting ? `Offline, ${waits(waiting)}` : "Offline", banner };
}

const OPENLY = "This page isn’t encrypted: the network between here and the host can read along, and draw in your place.";
/** In milliseconds. */
const NEWS_EACH = 2000;
const TONES = /** @type {const} */ ({ lost: "warn", ended: "warn", silent: "warn", off: "calm" });
const WHY_NOT = /** @type {Record<string, string>} */ ({
  lost: `there is no connection to ${CALLED}`,
  ended: "the program that keeps the drawing has ended, start it again",
  watches: "this page only looks on",
});

/** Shows the state, and whether one can draw. `update` is called when anything of it has changed. */
export class StandingIsland {
  /**
   * @param {Ed} ed
   * @param {FileIsland} file
   * @param {{update: () => void}} link
   */
  constructor(ed, file, link) {
    this.ed = ed;
    this.file = file;
    this.link = link;
    this.parting = new Parting(ed);
    /** @type {State} */
    this.state = { kind: "on", words: "", banner: null };
    /** @type {HTMLElement | null} */
    this.banner = null;
    this.name = "";
    /** @type {Set<string>} what was said of strangers already */
    this.told = new Set();
    // What the node says of strangers comes alone, and changes nothing else that is shown.
    setInterval(() => tellStrangers(ed, this.told), NEWS_EACH);
  }

  update() {
    const { ed, file } = this;
    const next = stateOf(factsOf(ed));
    const isKind = next.kind === this.state.kind;
    const isOther = next.banner !== this.state.banner || !isKind;
    this.state = next;
    if (isOther) {
      // A number that goes up is no new banner.
      if (isKind && next.banner && this.banner?.isConnected) retell(this.banner, next.banner, next.words);
      else this.show();
      if (ed.history.at === null) ed.setReadOnly(this.readOnly());
    }
    if (ed.node.journal !== this.name) {
      this.name = ed.node.journal;
      file.showName(nameOf(this.name));
    }
    file.showState(next.kind, next.words);
    this.parting.update();
    ed.roster.update();
    this.link.update();
    ed.history.arrivals.standing(next.kind);
  }

  /** Says once that the network can read along, where it can. */
  warn() {
    if (!this.ed.node.isOpenly || this.told.has(OPENLY)) return;
    this.told.add(OPENLY);
    this.ed.banner({ text: OPENLY, tone: "warn" });
  }

  show() {
    const { kind, words, banner: text } = this.state;
    this.banner?.remove();
    this.banner = null;
    if (!text) return;
    const action = { lost: "Try again", ended: "Start it again" }[/** @type {string} */ (kind)];
    const tone = TONES[/** @type {keyof typeof TONES} */ (kind)];
    // What has a button has to be done before one can draw on.
    const short = action ? undefined : words;
    this.banner = this.ed.banner({ text, tone, icon: "offline", stays: true, short, action, run: () => this.again() });
  }

  /** Tries the connection, or starts the node again. */
  async again() {
    const { ed } = this;
    if (this.state.kind === "lost") {
      ed.node.wire.again();
      return;
    }
    try {
      await ed.node.restart();
    } catch (why) {
      ed.banner({ text: `It couldn’t be started: ${/** @type {Error} */ (why).message}`, tone: "warn" });
    }
  }

  /** The state in a few words. */
  inWords() {
    return this.state.words;
  }

  /** Why nothing can be drawn now, or null. */
  readOnly() {
    return WHY_NOT[this.state.kind] ?? null;
  }
}

/**
 * What a printed line says of frames that don't belong here, or null.
 * @param {string} line
 */
export function strangerWords(line) {
  const why = /^frame refused: (\w+)/.exec(line)?.[1];
  if (why === "Session") return "Somebody’s edits are of another drawing: did all start it with the same number behind --session?";
  if (why === "NotForMe" || why === "FromMe" || why === "NoSuchSite") {
    return "Somebody’s edits are meant for another person: did all start it with the addresses in the same order?";
  }
  // That is said, as long as it is so, by what it means.
  if (why === "OverAck") return null;
  if (why === "Check") return "Edits came damaged over the network. They are passed over, and come again";
  return why ? "Something else on the network sends data to this drawing’s address. It is passed over" : null;
}

/**
 * Says once what the node says of frames that don't belong here.
 * @param {Ed} ed
 * @param {Set<string>} told what was said already
 */
function tellStrangers(ed, told) {
  for (const { what, line } of ed.node.news) {
    const words = what === "said" ? strangerWords(line) : null;
    if (!words || told.has(words)) continue;
    told.add(words);
    ed.banner({ text: words, tone: "warn" });
  }
}

/**
 * The name of a board: that of its journal's file, without its ending.
 * @param {string} journal
 */
export const nameOf = (journal) => (journal.split("/").at(-1) ?? "").replace(/\.log$/, "") || "Board";

/**
 * @param {Ed} ed
 * @returns {Facts}
 */
function factsOf({ node }) {
  const { connected, why, ended, silent, quiet, waiting, peers, link, site, watcher } = node;
  // In a demonstration it is known at once who is cut off.
  const cut = new Set(link?.cut);
  const here = cut.has(site) ? 0 : peers.filter((peer) => !peer.away && !cut.has(peer.site)).length;
  const wasHere = peers.some((peer) => peer.heard !== null);
  return { connected, why, ended, silent, quiet, waiting, others: peers.length, here, wasHere, watcher };
}
