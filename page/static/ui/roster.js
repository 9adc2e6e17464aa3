// People: their faces in the corner, and a list with who is here, who is away, what they look at, and one's own name.

import { calledOf } from "../core/people.js";
import { personColour } from "../board/colours.js";
import { h } from "./h.js";
import { howToInvite, seatWords, watchedWords, whatToCheck } from "./seating.js";
import { count, initialOf } from "./words.js";

/** @typedef {import("../core/types.js").Seat} Seat */

/** As many bytes as a name has at most. */
export const MOST_NAME = 64;
const encoder = new TextEncoder();

/** @param {string} text */
export const bytesIn = (text) => encoder.encode(text).length;

/** @typedef {{away: boolean, perhaps: boolean, heard: number | null} | undefined} Peer */

/**
 * What is said of a person beside the name.
 * @param {Seat} seat
 * @param {Peer} peer what is known of the site
 */
export function stateOf(seat, peer) {
  if (seat.me) return "you";
  if (!peer) return "";
  if (peer.away) return peer.heard === null ? "hasn’t come yet" : "away";
  return peer.perhaps ? "may be away" : "here now";
}

/**
 * What stands for a person in a circle: the first letter of the name, or a number while there is no name.
 * @param {Seat} seat
 */
export const letterOf = ({ site, name }) => (name === calledOf(site) ? String(site) : initialOf(name));

export class Roster {
  /**
   * @param {Ed} ed
   * @param {HTMLElement} host
   */
  constructor(ed, host) {
    this.ed = ed;
    this.host = host;
    this.kind = "";
    /** @type {HTMLElement | null} */
    this.opener = null;
    this.shown = "";
    /** What the open list says. */
    this.listed = "";
    this.pop = h("div", { class: "pop island", hidden: true, role: "dialog", "aria-label": "People" });
    document.body.append(this.pop);
    this.stack = h("button", {
      type: "button", class: "faces", "data-tip": "Who is here", "aria-haspopup": "dialog", "aria-label": "Who is here",
      onclick: () => (this.isOpen && this.kind === "people" ? this.close() : this.open()),
    });
    host.append(this.stack);
    document.addEventListener("pointerdown", (event) => {
      const target = /** @type {Node} */ (event.target);
      if (this.isOpen && !this.pop.contains(target) && !host.contains(target)) this.close();
    });
    this.pop.addEventListener("keydown", (event) => {
      if (event.key !== "Escape") return;
      event.stopPropagation();
      this.close();
      this.opener?.focus();
    });
  }

  get isOpen() {
    return !this.pop.hidden;
  }

  /** @param {number} site */
  colour(site) {
    return personColour(site, this.ed.scene.dark);
  }

  /** @param {Seat} seat */
  state(seat) {
    return stateOf(seat, this.ed.node.peers.find((peer) => peer.site === seat.site));
  }

  /** @param {Seat} seat */
  face(seat) {
    const props = { class: `face${seat.away ? " away" : ""}`, vars: { "--who": this.colour(seat.site) }, "aria-hidden": "true" };
    return h("span", props, letterOf(seat));
  }

  /** Shows who is here, where that isn't what is shown already. */
  update() {
    const { seats } = this.ed.people;
    const key = `${this.ed.scene.dark} ${seats.map((seat) => `${seat.site} ${seat.name} ${this.state(seat)}`).join("|")}`;
    if (key !== this.shown) {
      this.shown = key;
      const words = seats.map((seat) => `${seat.name}, ${this.state(seat)}`).join("; ");
      this.stack.setAttribute("aria-label", `Who is here: ${words}`);
      this.stack.replaceChildren(...seats.map((seat) => this.face(seat)));
    }
    if (this.isOpen && this.kind === "people") this.fill();
  }

  /** Opens the list of people. */
  open() {
    this.show("people");
    this.listed = "";
    this.fill();
    /** @type {HTMLElement | null} */ (this.pop.querySelector("button, input"))?.focus({ preventScroll: true });
  }

  /** @param {string} kind */
  show(kind) {
    this.kind = kind;
    this.opener = this.stack;
    this.pop.hidden = false;
  }

  close() {
    this.pop.hidden = true;
  }

  /** Fills the list, where it isn't filled with just that: who presses one of its buttons has to meet it again. */
  fill() {
    const { seats } = this.ed.people;
    const { carried, watcher, isOpenly } = this.ed.node;
    const more = watcher ? [] : [whatToCheck(carried), watchedWords(carried), isOpenly ? "The page isn’t encrypted." : ""];
    if (!watcher && !carried) more.push(howToInvite(carried));
    const { advice } = this.ed.standing.parting;
    const words = [this.ed.standing.inWords().replace(/[^…]$/, "$&."), ...more].filter(Boolean).join(" ");
    const looks = seats.map((seat) => [this.shown, this.looksAt(seat) ?? "", this.stateWords(seat)]);
    const key = JSON.stringify([words, advice, looks]);
    if (key === this.listed) return;
    this.listed = key;
    const focused = /** @type {HTMLElement | null} */ (document.activeElement)?.dataset?.site;
    const rows = seats.map((seat) => this.row(seat));
    const told = [...advice.map((/** @type {string} */ each) => h("p", { class: "advice", dir: "auto" }, each)), h("p", { class: "fine" }, words)];
    this.pop.replaceChildren(h("h2", {}, "People"), h("ul", { class: "seats" }, rows), ...told);
    if (focused) /** @type {HTMLElement | null} */ (this.pop.querySelector(`[data-site="${focused}"]`))?.focus();
  }

  /**
   * The object that another one looks at, where it is shown.
   * @param {Seat} seat
   */
  looksAt(seat) {
    return seat.me ? undefined : [...seat.selection].find((id) => this.ed.model.byId.has(id));
  }

  /** @param {Seat} seat */
  stateWords(seat) {
    const looks = this.looksAt(seat);
    const parted = this.ed.node.parted.sites.includes(seat.site) ? ", parted from you" : "";
    const state = this.state(seat) + seatWords(this.ed.node.carried, seat.site) + parted;
    return `${state}${looks ? `, looks at ${this.ed.short(looks)}` : ""}`;
  }

  /** @param {Seat} seat */
  row(seat) {
    const looks = this.looksAt(seat);
    const who = h("span", { class: "who" }, h("b", { dir: "auto" }, seat.name), h("small", {}, this.stateWords(seat)));
    const props = { type: "button", class: "quiet", "data-site": seat.site };
    const act = seat.me
      ? h("button", { ...props, onclick: () => this.rename() }, "Rename")
      : looks && h("button", { ...props, onclick: () => this.goTo(looks) }, "Go there");
    return h("li", { class: "seat" }, this.face(seat), who, act);
  }

  /** @param {string} id */
  goTo(id) {
    const box = this.ed.model.boxOf([id]);
    if (box) this.ed.camera.reveal(box, this.ed.pad());
    this.close();
    this.ed.focusBoard();
  }

  /** Asks for one's own name. */
  rename() {
    const me = this.ed.people.seats.find((seat) => seat.me);
    const field = h("input", { class: "field", "aria-label": "Your name", spellcheck: "false", autocomplete: "off", dir: "auto" });
    field.value = me && me.name !== calledOf(me.site) ? me.name : "";
    const note = h("p", { class: "fine", role: "status" }, "All others see it beside what you select and draw.");
    const save = h("button", { type: "submit", class: "primary" }, "Save");
    const form = h("form", { class: "rename" }, h("h2", {}, "Your name"), field, save, note);
    form.addEventListener("submit", (event) => {
      event.preventDefault();
      const over = bytesIn(field.value.trim()) - MOST_NAME;
      if (over > 0) note.textContent = `This name is ${count(over, "byte")} too long`;
      else this.give(field.value.trim());
    });
    this.show("name");
    this.pop.replaceChildren(form);
    field.focus();
    field.select();
  }

  /** @param {string} name */
  async give(name) {
    try {
      await this.ed.node.setName(name);
    } catch (why) {
      this.ed.refuse([{ why: /** @type {Error} */ (why).message }]);
    }
    this.close();
    this.update();
    this.ed.focusBoard();
  }
}
