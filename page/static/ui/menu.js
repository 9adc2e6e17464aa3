// A menu of commands at a place of the window.

import { commandOf, run } from "./commands.js";
import { h, keyText } from "./h.js";
import { icon } from "./icons.js";

const MARGIN = 8;
/** For so many milliseconds behind the finger that opened a menu by a long press nothing is chosen by it. */
const DEAF_BEHIND = 100;

const ON_SELECTION = [
  ["cut", "copy", "paste", "duplicate", "delete"],
  ["edit", "group", "ungroup", "connect"],
  ["front", "back"],
  ["zoomSel", "copySvg", "copyPng"],
];
const ON_PAPER = [["paste", "all"], ["undo", "redo"], ["fit", "objects"], ["copySvg", "copyPng", "savePng"], ["histLate", "palette"]];

export class Menu {
  /** @param {Ed} ed */
  constructor(ed) {
    this.ed = ed;
    this.el = h("div", { class: "menu island", role: "menu", "aria-label": "Menu", hidden: true });
    /** @type {HTMLElement | null} */
    this.opener = null;
    this.isDeaf = false;
    /** The place of the board where it was opened, where there is one. @type {Place | null} */
    this.place = null;
    document.body.append(this.el);
    document.addEventListener("pointerdown", (event) => this.closeUnlessIn(/** @type {Node} */ (event.target)));
    this.el.addEventListener("keydown", (event) => this.key(event));
    ed.closePopups = () => this.close();
    ed.openMenu = (x, y, place = null) => {
      this.open(x, y, ed.selection.ids.size ? ON_SELECTION : ON_PAPER);
      this.place = place;
    };
  }

  get isOpen() {
    return !this.el.hidden;
  }

  /** @param {Node} target */
  closeUnlessIn(target) {
    if (this.isOpen && !this.el.contains(target) && !this.opener?.contains(target)) this.close();
  }

  /** @param {KeyboardEvent} event */
  key(event) {
    const rows = /** @type {HTMLElement[]} */ ([...this.el.querySelectorAll("[role=menuitem]:not(:disabled)")]);
    const at = rows.indexOf(/** @type {HTMLElement} */ (document.activeElement));
    const to = { ArrowDown: at + 1, ArrowUp: at - 1, Home: 0, End: rows.length - 1 }[event.key];
    if (to !== undefined) rows[(to + rows.length) % rows.length]?.focus();
    else if (event.key === "Escape" || event.key === "Tab") {
      this.close();
      (this.opener ?? this.ed.board).focus();
    } else return;
    event.preventDefault();
    event.stopPropagation();
  }

  /**
   * Opens the menu. Where it has no opener it leaves out what can't be done.
   * @param {number} x
   * @param {number} y
   * @param {string[][]} parts lists of ids of commands; a line stands between lists
   * @param {HTMLElement | null} [opener] the button that it belongs to
   * @param {string} [note] what stands above all
   */
  open(x, y, parts, opener = null, note = "") {
    const { ed } = this;
    this.opener = opener;
    this.place = null;
    this.el.replaceChildren(...(note ? [h("p", { class: "fine", role: "presentation" }, note)] : []));
    for (const ids of parts) {
      const rows = ids.map(commandOf).filter((command) => opener || command.when(ed));
      if (!rows.length) continue;
      if (this.el.children.length) this.el.append(h("div", { class: "menu-line", role: "separator" }));
      for (const command of rows) this.el.append(this.row(command));
    }
    this.el.hidden = false;
    opener?.setAttribute("aria-expanded", "true");
    if (ed.gestures.fingers.size) this.waitForFinger();
    this.el.style.left = `${Math.max(MARGIN, Math.min(x, innerWidth - this.el.offsetWidth - MARGIN))}px`;
    this.el.style.top = `${Math.max(MARGIN, Math.min(y, innerHeight - this.el.offsetHeight - MARGIN))}px`;
    const first = /** @type {HTMLElement | null} */ (this.el.querySelector("[role=menuitem]:not(:disabled)"));
    first?.focus({ preventScroll: true });
  }

  /** Takes nothing until the finger that opened it has gone up. */
  waitForFinger() {
    this.isDeaf = true;
    const hear = () => setTimeout(() => (this.isDeaf = false), DEAF_BEHIND);
    for (const type of ["pointerup", "pointercancel"]) addEventListener(type, hear, { capture: true, once: true });
  }

  /** @param {import("./commands.js").Command} command */
  row(command) {
    const { ed } = this;
    const act = () => {
      if (this.isDeaf) return;
      this.close();
      ed.focusBoard();
      // What is pasted from the menu comes where that was opened.
      if (this.place) ed.pointer = this.place;
      run(ed, command.id);
    };
    const props = { type: "button", role: "menuitem", tabIndex: -1, disabled: !command.when(ed), onclick: act };
    const key = command.keys.length > 0 && h("kbd", {}, keyText(command.keys[0]));
    return h("button", props, icon(command.icon, 18), h("span", {}, command.title), key);
  }

  close() {
    this.el.hidden = true;
    this.opener?.setAttribute("aria-expanded", "false");
  }
}
