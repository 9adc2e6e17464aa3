// The part of the style panel for dashes, heads, corners, opacity and letters. A choice is typed as one `style` line for each
// shape that has another value.

import { h } from "./h.js";
import { count } from "./words.js";

/** @typedef {import("../core/types.js").Looks} Looks */
/** @typedef {"dash" | "heads" | "side"} Choice */
/** @typedef {"round" | "opacity" | "letters"} Figure */

/** How a line calls what a shape's looks have. */
const WORDS = { dash: "dash", heads: "heads", side: "align", round: "round", opacity: "opacity", letters: "size" };
/** @type {Record<Choice, [string, string, string[]]>} the name, what it is as it is made, and what may be chosen */
const CHOICES = {
  dash: ["Dash", "solid", ["solid", "dashed", "dotted"]],
  heads: ["Heads", "none", ["none", "end", "start", "both"]],
  side: ["Align", "", ["start", "middle", "end"]],
};
/** @type {Record<Figure, [string, number, number]>} the name, the least and the greatest */
const FIGURES = { round: ["Corners", 0, 1_000_000], opacity: ["Opacity", 1, 100], letters: ["Letters", 1, 1000] };
/** @type {Partial<Record<Choice | Figure, string[]>>} the kinds of which it is seen, where that isn't all of them */
const SEEN_OF = {
  dash: ["rect", "ellipse", "line", "connector"], heads: ["line", "connector"], side: ["rect", "ellipse", "text"], round: ["rect"],
  letters: ["rect", "ellipse", "text", "connector"],
};

/**
 * Whether a look is seen of a shape.
 * @param {Choice | Figure} part
 * @param {Item} shape
 */
const isSeenOf = (part, { kind }) => SEEN_OF[part]?.includes(kind) ?? true;

/**
 * The value that all these shapes share, where a part that isn't set has that of what is made; an empty text where they differ.
 * @param {Item[]} shapes
 * @param {keyof Looks} part
 * @param {string | number} made
 */
export function sharedLook(shapes, part, made) {
  const [first, ...others] = shapes.map((shape) => shape.looks?.[part] ?? made);
  return others.every((each) => each === first) ? first ?? "" : "";
}

export class Marks {
  /**
   * @param {Ed} ed
   * @param {HTMLElement} host
   */
  constructor(ed, host) {
    this.ed = ed;
    /** @type {Map<string, HTMLSelectElement>} */
    this.selects = new Map();
    /** @type {Map<string, HTMLInputElement>} */
    this.fields = new Map();
    /** @type {Map<Choice | Figure, HTMLElement>} */
    this.rows = new Map();
    const rows = [...Object.keys(CHOICES).map((part) => this.choice(/** @type {Choice} */ (part))), ...Object.keys(FIGURES).map((part) => this.figure(/** @type {Figure} */ (part)))];
    this.el = h("fieldset", { class: "style-row row-marks" }, h("legend", {}, "Looks"), ...rows);
    host.append(this.el);
  }

  /** @param {Choice} part */
  choice(part) {
    const [title, , values] = CHOICES[part];
    const options = [h("option", { value: "", disabled: true }, "–"), ...values.map((value) => h("option", { value }, value))];
    const select = /** @type {HTMLSelectElement} */ (h("select", { "aria-label": title }, ...options));
    select.addEventListener("change", () => this.set(part, select.value));
    this.selects.set(part, select);
    return this.row(part, title, select);
  }

  /** @param {Figure} part */
  figure(part) {
    const [title, least, most] = FIGURES[part];
    const field = /** @type {HTMLInputElement} */ (h("input", { class: "num", inputmode: "numeric", placeholder: "–", "aria-label": title, maxlength: 7 }));
    field.addEventListener("change", () => {
      const value = Number(field.value);
      if (field.value !== "" && Number.isInteger(value) && value >= least && value <= most) this.set(part, value);
      else this.update(this.ed.selection.shapes());
    });
    this.fields.set(part, field);
    return this.row(part, title, field);
  }

  /**
   * @param {Choice | Figure} part
   * @param {string} title
   * @param {HTMLElement} control
   */
  row(part, title, control) {
    const row = h("label", { class: "pair" }, h("span", {}, title), control);
    this.rows.set(part, row);
    return row;
  }

  /** @param {Item[]} shapes */
  update(shapes) {
    this.el.hidden = !shapes.length;
    for (const [part, row] of this.rows) row.hidden = !shapes.some((shape) => isSeenOf(part, shape));
    for (const [part, select] of this.selects) {
      select.value = String(sharedLook(shapes, /** @type {keyof Looks} */ (part), CHOICES[/** @type {Choice} */ (part)][1]));
    }
    for (const [part, field] of this.fields) {
      const value = sharedLook(shapes, /** @type {keyof Looks} */ (part), part === "opacity" ? 100 : "");
      if (document.activeElement !== field) field.value = String(value);
    }
  }

  /**
   * @param {Choice | Figure} part
   * @param {string | number} value
   */
  set(part, value) {
    const shapes = this.ed.selection.shapes().filter((shape) => isSeenOf(part, shape) && shape.looks?.[part] !== value);
    const lines = shapes.map((shape) => `style ${shape.id} ${WORDS[part]} ${value}`);
    if (lines.length) this.ed.edits.do(`Look of ${count(shapes.length)}`, lines);
  }
}
