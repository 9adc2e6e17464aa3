// What is said under the field of a text: how many bytes are left, and what another one did to its shape meanwhile.

import { h } from "./h.js";
import { icon } from "./icons.js";
import { count } from "./words.js";

const TOLD_FROM = 40;

export class Aside {
  /** @param {HTMLElement} host */
  constructor(host) {
    this.count = h("div", { class: "label-count", hidden: true, role: "status" });
    this.words = h("span", { dir: "auto" });
    this.note = h("div", { class: "label-note", hidden: true, role: "alert" }, icon("info", 16), this.words);
    this.el = h("div", { class: "label-aside" }, this.count, this.note);
    // The field keeps the keys, and isn't left by a press here.
    this.el.addEventListener("pointerdown", (event) => event.preventDefault());
    host.append(this.el);
  }

  /**
   * Says how many bytes are left where these are few, or too many.
   * @param {number} left
   */
  tell(left) {
    this.count.hidden = left > TOLD_FROM;
    this.count.textContent = left < 0 ? `${count(-left, "byte")} too many` : `${count(left, "byte")} left`;
    this.count.dataset.over = left < 0 ? "1" : "";
  }

  /**
   * Says what another one did.
   * @param {string} text
   * @param {string} [action] the words of a button
   * @param {() => void} [run] what it does
   */
  say(text, action, run) {
    this.words.textContent = text;
    this.note.querySelector("button")?.remove();
    if (action) this.note.append(h("button", { type: "button", class: "quiet", onclick: run }, action));
    this.note.hidden = false;
  }

  /**
   * @param {number} x
   * @param {number} y
   */
  place(x, y) {
    // What stands at the window's edge goes as far in as it needs to.
    const [w, high] = [this.el.offsetWidth, this.el.offsetHeight];
    const [left, top] = [Math.max(8, Math.min(x, innerWidth - w - 8)), Math.max(8, Math.min(y, innerHeight - high - 8))];
    this.el.style.transform = `translate(${left}px, ${top}px)`;
  }

  hide() {
    this.count.hidden = this.note.hidden = true;
  }
}
