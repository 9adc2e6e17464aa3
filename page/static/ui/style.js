// The style panel: what it shows is the style of what is selected, else what the next shape gets. Where values differ it
// says "Mixed". A choice is one batch, with a line for each shape that has another value.

import { FILLS, shownColour, STROKES } from "../board/colours.js";
import { commandButton } from "./aid.js";
import { commandOf } from "./commands.js";
import { button, h } from "./h.js";
import { icon } from "./icons.js";
import { Marks } from "./marks.js";
import { Recent } from "./recent.js";
import { count } from "./words.js";

/** @typedef {"stroke" | "fill" | "width"} Part */
/** @typedef {string | number | null} Value */
/**
 * @typedef {object} Row
 * @property {HTMLElement} el
 * @property {HTMLElement} mixed
 * @property {HTMLElement[]} choices buttons with a value each
 */

const WIDTHS = /** @type {[number, string][]} */ ([[2, "Thin"], [4, "Medium"], [8, "Bold"]]);
const MOST_WIDTH = 64;
/** What is seen through a shape without fill, light and dark. */
const PAPER = ["#fafaf8", "#15181d"];
const TITLES = { stroke: "Stroke", fill: "Fill", width: "Width" };
const NAMES = /** @type {Record<string, string>} */ ({ rect: "rectangle", ellipse: "ellipse", line: "line", text: "text" });
const ALIGN = ["alignL", "alignC", "alignR", "alignT", "alignM", "alignB", "distH", "distV"];

/**
 * Whether a kind of shape has a part that is drawn.
 * @param {Part} part
 * @param {string} kind
 */
const has = (part, kind) => (part === "fill" ? kind === "rect" || kind === "ellipse" : part === "stroke" || kind !== "text");

/**
 * The value that all these shapes share, or undefined where they differ.
 * @param {Item[]} shapes
 * @param {Part} part
 * @returns {Value | undefined}
 */
export function sharedValue(shapes, part) {
  const first = shapes.find((shape) => has(part, shape.kind));
  return shapes.every((shape) => shape[part] === first?.[part] || !has(part, shape.kind)) ? first?.[part] : undefined;
}

export class StylePanel {
  /**
   * @param {Ed} ed
   * @param {HTMLElement} host
   */
  constructor(ed, host) {
    this.ed = ed;
    this.host = host;
    this.title = h("h2", { class: "panel-title" });
    this.body = h("div", { class: "panel-body" });
    const close = button("close", "Close", () => ed.sheet(false), { class: "sheet-close small" });
    host.append(h("div", { class: "panel-head" }, this.title, close), this.body);
    this.rows = {
      stroke: this.colourRow("stroke", STROKES),
      fill: this.colourRow("fill", FILLS),
      width: this.widthRow(),
    };
    this.marks = new Marks(ed, this.body);
    this.arrange = this.arrangeRow();
    this.shown = "";
  }

  /**
   * @param {Part | "arrange"} part
   * @param {string} title
   * @param {...HTMLElement} children
   */
  row(part, title, ...children) {
    const mixed = h("span", { class: "mixed", hidden: true }, "Mixed");
    const el = h("fieldset", { class: `style-row row-${part}` }, h("legend", {}, title, mixed), children);
    this.body.append(el);
    return { el, mixed };
  }

  /**
   * @param {"stroke" | "fill"} part
   * @param {[string | null, string, ...any[]][]} list
   */
  colourRow(part, list) {
    const swatches = list.map(([hex, name]) => this.swatch(part, hex, name));
    const own = h("input", { type: "color", "aria-label": `${TITLES[part]}: own colour`, value: "#ffffff" });
    own.addEventListener("change", () => this.set(part, own.value.slice(1).toUpperCase()));
    const label = h("label", { class: "swatch own", "data-tip": "Own colour" }, own, icon("plus", 14));
    const recent = new Recent(part, (hex) => this.swatch(part, hex, `#${hex}`));
    const { el, mixed } = this.row(part, TITLES[part], h("div", { class: "swatches" }, ...swatches, label), recent.el);
    return { el, mixed, choices: swatches, own, label, recent };
  }

  /**
   * @param {"stroke" | "fill"} part
   * @param {string | null} hex
   * @param {string} name
   */
  swatch(part, hex, name) {
    return h("button", {
      type: "button", class: `swatch${hex === null ? " none" : ""}`, "data-value": hex ?? "none",
      "aria-label": `${TITLES[part]} ${name}`, "data-tip": name, onclick: () => this.set(part, hex),
    });
  }

  widthRow() {
    const choices = WIDTHS.map(([value, name], at) => h("button", {
      type: "button", "data-value": value, "aria-label": `Width: ${name}`, "data-tip": name,
      onclick: () => this.set("width", value),
    }, h("i", { class: `weight w${at}` })));
    const field = h("input", { class: "num", inputmode: "numeric", placeholder: "–", "aria-label": "Width in units", maxlength: 2 });
    field.addEventListener("change", () => this.typed(Number(field.value)));
    field.addEventListener("keydown", (event) => {
      const step = { ArrowUp: 1, ArrowDown: -1 }[event.key];
      if (step) {
        event.preventDefault();
        this.typed(Math.max(1, Math.min(MOST_WIDTH, (Number(field.value) || 1) + step)));
        field.value = String(this.ed.style.width);
      } else if (event.key === "Enter" || event.key === "Escape") this.ed.focusBoard();
    });
    const { el, mixed } = this.row("width", "Width", h("div", { class: "pair" }, h("div", { class: "seg" }, ...choices), field));
    return { el, mixed, choices, field };
  }

  /** @param {number} value what was typed as a width */
  typed(value) {
    if (Number.isInteger(value) && value >= 1 && value <= MOST_WIDTH) this.set("width", value);
    else this.update(true);
  }

  arrangeRow() {
    const buttons = (/** @type {string[]} */ ids) => ids.map((id) => commandButton(this.ed, id));
    const many = h("div", { class: "acts for-many" }, ...buttons(ALIGN));
    const orders = h("div", { class: "acts" }, ...buttons(["back", "front", "group", "ungroup", "duplicate", "delete"]));
    return { ...this.row("arrange", "Arrange", orders, many), many };
  }

  /** Where the keys go when the panel was opened as a sheet. */
  focus() {
    /** @type {HTMLElement | null} */ (this.body.querySelector("button:not(:disabled)"))?.focus({ preventScroll: true });
  }

  /**
   * The kinds of shapes that are styled: of what is selected, or of what the tool makes.
   * @param {Item[]} shapes
   */
  kinds(shapes) {
    if (shapes.length) return new Set(shapes.map((shape) => /** @type {string} */ (shape.kind)));
    return new Set(NAMES[this.ed.tool] ? [this.ed.tool] : []);
  }

  /** @param {boolean} [isAnew] whether it is shown anew even where nothing has changed */
  update(isAnew = false) {
    const { ed } = this;
    const isFree = !ed.readOnly && (!ed.busy || ed.busy === "resize");
    const shapes = isFree ? ed.selection.shapes() : [];
    const kinds = isFree ? this.kinds(shapes) : new Set();
    const isOn = kinds.size > 0;
    this.host.dataset.on = isOn ? "1" : "";
    document.body.dataset.styled = isOn ? "1" : "";
    if (!isOn) return;
    const { size } = ed.selection.ids;
    this.arrange.el.hidden = !size;
    this.arrange.many.hidden = size < 2;
    for (const each of /** @type {NodeListOf<HTMLButtonElement>} */ (this.body.querySelectorAll("[data-run]"))) {
      each.disabled = !commandOf(each.dataset.run ?? "").when(ed);
    }
    const values = this.values(shapes, kinds);
    const title = this.titleText();
    this.marks.update(shapes);
    const shown = JSON.stringify([title, [...kinds].sort(), values, ed.scene.dark]);
    if (shown === this.shown && !isAnew) return;
    this.shown = shown;
    this.title.textContent = title;
    for (const part of /** @type {Part[]} */ (Object.keys(this.rows))) this.show(part, values[part], kinds);
  }

  /**
   * What each part is, or undefined where they differ.
   * @param {Item[]} shapes
   * @param {Set<string>} kinds
   */
  values(shapes, kinds) {
    const { stroke, fill, width } = this.ed.style;
    if (!shapes.length) return /** @type {Record<Part, Value | undefined>} */ ({ stroke, fill, width });
    const parts = /** @type {Part[]} */ (["stroke", "fill", "width"]);
    const own = parts.filter((part) => [...kinds].some((kind) => has(part, kind)));
    const values = Object.fromEntries(own.map((part) => [part, sharedValue(shapes, part)]));
    return /** @type {Record<Part, Value | undefined>} */ (values);
  }

  /** What is styled, in words. */
  titleText() {
    const { ids } = this.ed.selection;
    if (!ids.size) return `New ${NAMES[this.ed.tool]}`;
    const [first] = ids.size === 1 ? this.ed.selection.list() : [];
    return first ? this.ed.kindName(first) : count(ids.size);
  }

  /**
   * @param {Part} part
   * @param {Value | undefined} value
   * @param {Set<string>} kinds
   */
  show(part, value, kinds) {
    const row = this.rows[part];
    row.el.hidden = ![...kinds].some((kind) => has(part, kind));
    row.mixed.hidden = value !== undefined;
    const choices = "recent" in row ? [...row.choices, ...row.recent.swatches] : row.choices;
    const shown = value === undefined ? null : String(value ?? "none");
    for (const each of choices) each.setAttribute("aria-pressed", String(each.dataset.value === shown));
    if ("field" in row && document.activeElement !== row.field) row.field.value = value === undefined ? "" : String(value);
    if ("own" in row) this.showColour(row, value, this.ed.selection.shapes().find((shape) => has(part, shape.kind))?.[part] ?? null);
  }

  /**
   * @param {StylePanel["rows"]["stroke"]} row
   * @param {Value | undefined} value
   * @param {Value} first the value of the first shape, where they differ
   */
  showColour(row, value, first) {
    const { dark } = this.ed.scene;
    for (const each of [...row.choices, ...row.recent.swatches]) {
      const hex = each.dataset.value ?? "none";
      if (hex !== "none") each.style.setProperty("--swatch", shownColour(hex, dark));
    }
    const hex = typeof value === "string" ? value : null;
    const isOwn = hex !== null && !row.choices.some((each) => each.dataset.value === hex);
    row.label.dataset.on = isOwn ? "1" : "";
    // One begins to choose from what is seen; where there is no fill, from the paper.
    const begin = value === undefined ? first : value;
    row.own.value = typeof begin === "string" ? shownColour(begin, dark).toLowerCase() : PAPER[dark ? 1 : 0];
    if (isOwn && hex) row.label.style.setProperty("--swatch", shownColour(hex, dark));
    else row.label.style.removeProperty("--swatch");
  }

  /**
   * Gives what is selected a value, and the next shape.
   * @param {Part} part
   * @param {Value} value
   */
  set(part, value) {
    const { ed } = this;
    Object.assign(ed.style, { [part]: value });
    if (part !== "width" && typeof value === "string") this.rows[part].recent.add(value);
    const shapes = ed.selection.shapes().filter((shape) => has(part, shape.kind) && shape[part] !== value);
    if (shapes.length) {
      ed.edits.do(`${TITLES[part]} of ${count(shapes.length)}`, shapes.map((shape) => `${part} ${shape.id} ${value ?? "none"}`));
    }
    this.update(true);
  }
}

