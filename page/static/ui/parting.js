// Where somebody's edits are others here than on that one's own machine: whose they are, what that means, and what to do. It stays
// for as long as the node says so.

import { retell } from "./banners.js";

/** @typedef {import("../core/types.js").Parted} Parted */

const BOTH = new Intl.ListFormat("en", { type: "conjunction" });
const OWN = "This isn’t your newest file: others have edits of yours that aren’t here. What you draw now doesn’t reach them.";
const OLD_FILE = "a file that was put back from an older copy, was begun anew, or is used at two places";

/**
 * What is said at once, or null.
 * @param {Parted} parted
 * @param {string[]} names those of the sites
 */
export function noticeOf({ sites, older }, names) {
  const from = sites.length ? `You and ${BOTH.format(names)} have parted: nothing more that ${names.length > 1 ? "they draw" : `${names[0]} draws`} comes here.` : "";
  return [older ? OWN : "", from].filter(Boolean).join(" ") || null;
}

/**
 * The same in a few words.
 * @param {Parted} parted
 * @param {string[]} names
 */
export const shortOf = ({ older }, names) => (older ? "Not your newest file" : `Parted from ${BOTH.format(names)}`);

/**
 * What it means and what to do: a few sentences for each who has parted.
 * @param {Parted} parted
 * @param {string[]} names
 * @param {boolean} isCarried whether a link can bring somebody to another place
 */
export function adviceOf({ older }, names, isCarried) {
  const lost = (/** @type {string} */ who) => (isCarried ? `Where that is lost, ${who} a link to another place in this drawing.` : "Where that is lost, all begin a new drawing together.");
  const own = `You draw with ${OLD_FILE}. End this, and go on with your newest file, on one machine alone. ${lost("you need")}`;
  const others = names.map((name) =>
    `${name} draws with ${OLD_FILE}, so some edits of ${name} are others there than here. All that is here stays. ${name} has to begin anew, `
    + `with the newest file and on one machine alone; then end this and start it again, too. ${lost(`${name} needs`)}`);
  return [...(older ? [own] : []), ...others];
}

/** Shows it, with a button that opens the list of people, which says what to do. */
export class Parting {
  /** @param {Ed} ed */
  constructor(ed) {
    this.ed = ed;
    this.shown = /** @type {string | null} */ (null);
    /** @type {HTMLElement | null} */
    this.banner = null;
  }

  get names() {
    return this.ed.node.parted.sites.map((site) => this.ed.people.name(site));
  }

  /** What the list of people says of it. */
  get advice() {
    return adviceOf(this.ed.node.parted, this.names, Boolean(this.ed.node.carried));
  }

  update() {
    const text = noticeOf(this.ed.node.parted, this.names);
    if (text === this.shown) return;
    this.shown = text;
    this.banner?.remove();
    const act = { action: "What to do", run: () => this.open() };
    this.banner = text ? this.ed.banner({ text, tone: "warn", icon: "offline", stays: true, ...act }) : null;
  }

  /** Opens the list. Who has read that needs but a few words from then on. */
  open() {
    const short = shortOf(this.ed.node.parted, this.names);
    if (this.banner) retell(this.banner, short, short);
    this.ed.roster.open();
  }
}
