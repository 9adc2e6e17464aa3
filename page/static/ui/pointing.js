// Where people point: this page tells the others of a session over a broker, and shows where they do.

import { personColour } from "../board/colours.js";
import { h } from "./h.js";

/** In milliseconds: how often is told where this one points, at most. */
const EACH = 50;
const MOST_IDS = 64;

export class Pointing {
  /** @param {Ed} ed */
  constructor(ed) {
    this.ed = ed;
    /** @type {[number, number] | null} in the window */
    this.at = null;
    this.told = "";
    /** @type {Map<number, {el: HTMLElement, tag: HTMLElement}>} */
    this.shown = new Map();
    this.layer = h("div", { class: "pointers", "aria-hidden": "true" });
    document.body.append(this.layer);
    ed.board.addEventListener("pointermove", (event) => {
      this.at = [event.clientX, event.clientY];
    });
    ed.board.addEventListener("pointerleave", () => {
      this.at = null;
    });
    addEventListener("pagehide", () => this.tell(null, []));
    setInterval(() => this.look(), EACH);
  }

  /** Tells where this one points, and what is selected here, where that has changed. */
  look() {
    const { node, camera, selection } = this.ed;
    if (!node.carried || !node.connected) return;
    const ids = [...selection.ids].filter((id) => !id.startsWith("~")).slice(0, MOST_IDS);
    this.tell(this.at && camera.toBoard(...this.at), ids);
  }

  /**
   * @param {[number, number] | null} point
   * @param {string[]} ids
   */
  tell(point, ids) {
    const rounded = /** @type {[number, number] | null} */ (point && point.map((each) => Math.round(each * 10) / 10));
    const key = JSON.stringify([rounded, ids]);
    if (key === this.told || !this.ed.node.carried) return;
    this.told = key;
    this.ed.node.point(rounded, ids);
  }

  /** Shows the pointers as they are told now. */
  update() {
    const { pointers } = this.ed.node;
    for (const [site, { el }] of this.shown) {
      if (pointers.has(site)) continue;
      el.remove();
      this.shown.delete(site);
    }
    for (const site of pointers.keys()) if (!this.shown.has(site)) this.add(site);
    this.place();
  }

  /** @param {number} site */
  add(site) {
    const tag = h("span", { dir: "auto" });
    const el = h("div", { class: "pointer" }, tag);
    this.layer.append(el);
    this.shown.set(site, { el, tag });
  }

  /** Puts the pointers where they belong in the window. */
  place() {
    const { node, camera, people, scene } = this.ed;
    for (const [site, { el, tag }] of this.shown) {
      const [x, y] = camera.toWindow(...(node.pointers.get(site) ?? [0, 0]));
      el.style.setProperty("--x", `${x}px`);
      el.style.setProperty("--y", `${y}px`);
      el.style.setProperty("--who", personColour(site, scene.dark));
      if (tag.textContent !== people.name(site)) tag.textContent = people.name(site);
    }
  }
}
