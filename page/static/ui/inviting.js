// Inviting: a button beside the faces that has a link made for one more person, and shows it as a text and as a code for a camera.

import { CALLED } from "../core/called.js";
import { button, h } from "./h.js";
import { howToInvite } from "./seating.js";
import { count } from "./words.js";

/** @typedef {import("../core/types.js").Carried} Carried */
/** @typedef {import("./h.js").Child} Child */

/** The width of a module of the code, in CSS pixels. */
const MODULE = 4;
/** So many milliseconds it is said how people come here. */
const HOW_LASTS = 12_000;

/**
 * What is said of the broker where it isn't reached.
 * @param {Carried | null} carried
 * @param {boolean} [watcher] whether this page only looks on
 */
export function faultOf(carried, watcher = false) {
  if (!carried || carried.up) return null;
  const why = carried.fault ? `: ${carried.fault}` : "";
  return `The broker (the server that passes edits on) at ${carried.broker} isn’t reached${why}. ${watcher ? "What is drawn now comes later." : "You can draw all the same."}`;
}

/**
 * The code as a picture.
 * @param {string[]} rows a letter for each module, 1 where it is dark
 */
function pictureOf(rows) {
  const size = rows.length * MODULE;
  const made = h("canvas", { class: "code", role: "img", "aria-label": "The link as a code for a camera", width: size, height: size });
  const c = /** @type {CanvasRenderingContext2D} */ (made.getContext("2d"));
  c.fillStyle = "#fff";
  c.fillRect(0, 0, size, size);
  c.fillStyle = "#000";
  rows.forEach((row, y) => {
    for (let x = 0; x < row.length; x += 1) if (row[x] === "1") c.fillRect(x * MODULE, y * MODULE, MODULE, MODULE);
  });
  return made;
}

export class Inviting {
  /**
   * @param {Ed} ed
   * @param {HTMLElement} host
   */
  constructor(ed, host) {
    this.ed = ed;
    this.fault = /** @type {string | null} */ (null);
    /** @type {{link: string, code: string[] | null} | null} what was made last, for who closes it too early */
    this.made = null;
    /** @type {HTMLElement | null} */
    this.banner = null;
    this.pop = h("div", { class: "pop island invite", hidden: true, role: "dialog", "aria-label": "Invite" });
    document.body.append(this.pop);
    this.button = button("plus", "Invite", () => this.toggle(), { props: { hidden: true, "aria-haspopup": "dialog" } });
    host.prepend(this.button);
    document.addEventListener("pointerdown", (event) => {
      const target = /** @type {HTMLElement} */ (event.target);
      if (!this.pop.hidden && !this.pop.contains(target) && !host.contains(target)) this.close();
    });
    this.pop.addEventListener("keydown", (event) => {
      if (event.key !== "Escape") return;
      event.stopPropagation();
      this.close();
      this.button.focus();
    });
  }

  /** Shows the button where somebody can be invited, and says where the broker isn't reached. */
  update() {
    const { carried, watcher } = this.ed.node;
    this.button.hidden = !carried?.invites && !carried?.watches && !this.made;
    const fault = faultOf(carried, watcher);
    if (fault === this.fault) return;
    this.fault = fault;
    this.banner?.remove();
    this.banner = fault ? this.ed.banner({ text: fault, short: "The broker isn’t reached", tone: "calm", stays: true }) : null;
  }

  /** Opens the dialog where somebody can be invited, and says else how people come here. */
  ask() {
    if (!this.button.hidden) this.toggle();
    else this.ed.banner({ icon: "people", text: howToInvite(this.ed.node.carried), lasts: HOW_LASTS });
  }

  /** Opens or closes the dialog. A link that was made is shown again, since it takes a seat. */
  toggle() {
    if (!this.pop.hidden) this.close();
    else if (this.made) this.show(this.made);
    else this.offer();
  }

  /** @param {Child[]} parts */
  fill(...parts) {
    const left = this.ed.node.carried?.invites ?? 0;
    const rest = h("p", { class: "fine" }, `${count(left, "place is", "places are")} free.`);
    const watch = h("button", { type: "button", class: "quiet watch", onclick: () => this.letWatch(watch) }, "A link to look on");
    this.pop.replaceChildren(h("div", {}, h("h2", {}, "Invite one person"), parts, rest, this.ed.node.carried?.watches ? watch : null));
    this.pop.hidden = false;
  }

  offer() {
    const make = h("button", { type: "button", class: "primary", onclick: () => this.make(make) }, "Make a link");
    const isLeft = Boolean(this.ed.node.carried?.invites);
    this.fill(h("p", { class: "fine" }, "A link gives one person a place in this drawing, for good."), isLeft ? make : null);
    if (isLeft) make.focus();
  }

  /**
   * Has the link made for those who only look on, and shows it.
   * @param {HTMLButtonElement} pressed
   */
  async letWatch(pressed) {
    pressed.disabled = true;
    try {
      const { link, code } = await this.ed.node.letWatch();
      const note = h("p", { class: "fine", role: "status" },
        `For all who only look on: they see the drawing and draw nothing. They start with it: ${CALLED} --watch LINK. It can’t be taken back.`);
      this.pop.replaceChildren(h("div", {}, h("h2", {}, "A link to look on"), this.parts(link, code, note)));
    } catch (why) {
      this.close();
      this.ed.refuse([{ why: /** @type {Error} */ (why).message }]);
    }
  }

  /**
   * A link as a text with a button that copies it, as a code, and what is said of it.
   * @param {string} link
   * @param {string[] | null} code
   * @param {HTMLElement} note
   * @returns {Child[]}
   */
  parts(link, code, note) {
    const field = h("input", { class: "field", readonly: true, "aria-label": "The link", spellcheck: "false" });
    field.value = link;
    const copy = h("button", { type: "button", class: "primary", onclick: () => this.copy(link, field, note) }, "Copy the link");
    return [field, copy, code && pictureOf(code), note];
  }

  /**
   * Has a link made, and shows it.
   * @param {HTMLButtonElement} pressed
   */
  async make(pressed) {
    pressed.disabled = true;
    try {
      this.made = await this.ed.node.invite();
      this.show(this.made);
    } catch (why) {
      this.close();
      this.ed.refuse([{ why: /** @type {Error} */ (why).message }]);
    }
  }

  /** @param {{link: string, code: string[] | null}} made */
  show({ link, code }) {
    const note = h("p", { class: "fine", role: "status" },
      `For one person, once. Who has it can draw, so hand it over in a way that nobody else reads. They start with it: ${CALLED} --join LINK --journal FILE (FILE keeps the drawing there).`);
    const another = h("button", { type: "button", class: "quiet", onclick: () => this.make(another) }, "Make another link");
    this.fill(...this.parts(link, code, note), this.ed.node.carried?.invites ? another : null);
    const field = /** @type {HTMLInputElement} */ (this.pop.querySelector(".field"));
    field.focus();
    field.select();
  }

  /**
   * @param {string} link
   * @param {HTMLInputElement} field
   * @param {HTMLElement} note
   */
  async copy(link, field, note) {
    try {
      await navigator.clipboard.writeText(link);
      note.textContent = "Copied.";
    } catch {
      field.select();
      note.textContent = "The browser doesn’t let the link be copied: it is selected, press Ctrl+C.";
    }
  }

  close() {
    this.pop.hidden = true;
  }
}
