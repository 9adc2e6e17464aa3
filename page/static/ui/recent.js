// Colours of one's own that were used not long ago. They are kept by the browser.

import { FILLS, STROKES } from "../board/colours.js";
import { h } from "./h.js";

const MOST = 6;
const HEX = /^[0-9A-F]{6}$/;
const KNOWN = new Set([...STROKES, ...FILLS].map(([hex]) => hex));

export class Recent {
  /**
   * @param {"stroke" | "fill"} part
   * @param {(hex: string) => HTMLElement} make makes the button of a colour
   */
  constructor(part, make) {
    this.key = `groupdesign.recent.${part}`;
    this.make = make;
    this.el = h("div", { class: "swatches recent", role: "group", "aria-label": "Used not long ago", hidden: true });
    /** @type {string[]} */
    this.colours = this.kept();
    this.fill();
  }

  get swatches() {
    return /** @type {HTMLElement[]} */ ([...this.el.children]);
  }

  /** @returns {string[]} */
  kept() {
    try {
      const list = JSON.parse(localStorage.getItem(this.key) ?? "[]");
      return Array.isArray(list) ? list.filter((hex) => HEX.test(hex)).slice(0, MOST) : [];
    } catch {
      return [];
    }
  }

  /** @param {string} hex a swatch is there anyhow, and isn't added */
  add(hex) {
    if (KNOWN.has(hex) || this.colours[0] === hex) return;
    this.colours = [hex, ...this.colours.filter((each) => each !== hex)].slice(0, MOST);
    try {
      localStorage.setItem(this.key, JSON.stringify(this.colours));
    } catch {
      // They are there for this visit alone.
    }
    this.fill();
  }

  fill() {
    this.el.replaceChildren(...this.colours.map(this.make));
    this.el.hidden = !this.colours.length;
  }
}
