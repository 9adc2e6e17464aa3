// Shapes of an SVG: rect, ellipse, circle, line, text, and groups that are moved or scaled. What this page saved comes
// back as it was, with its groups and labels.

import { FILLS, shownColour, STROKES } from "../board/colours.js";
import { lay } from "../board/text.js";
import { isLabel } from "../core/lines.js";
import { labelOf } from "./editor.js";
import { labelsOf } from "./splitting.js";
import { asHex, chain, IDENTITY, moved, parseTransform } from "./svg_values.js";

/** @typedef {import("./svg_values.js").Transform} Transform */
/** @typedef {{stroke: string | null, fill: string | null, width: number, font: number, anchor: string}} Look */

/** @type {Look} */
const FIRST_LOOK = { stroke: null, fill: "000000", width: 1, font: 16, anchor: "start" };
const MOST = 20_000;
const UNREAD = "defs, symbol, clipPath, mask, marker, pattern, metadata, title, desc, style, script";

/** A colour as it is shown on light, and as it is stored. */
const STORED = new Map([...STROKES, ...FILLS].flatMap(([hex]) => (hex ? [[shownColour(hex, false).slice(1).toUpperCase(), hex]] : [])));

/**
 * The shapes of an SVG, and how many parts of it weren't taken; or null where it has none or is no SVG.
 * @param {string} text
 * @returns {{items: Plain[], left: number} | null}
 */
export function readSvg(text) {
  const root = new DOMParser().parseFromString(text, "image/svg+xml").documentElement;
  if (root.localName !== "svg") return null;
  const reader = new Reader();
  for (const child of root.children) reader.read(child, IDENTITY, FIRST_LOOK, null);
  return reader.items.length ? { items: reader.items, left: reader.left } : null;
}

class Reader {
  constructor() {
    /** @type {Plain[]} */
    this.items = [];
    this.count = 0;
    this.left = 0;
  }

  /** A name for an object, which is an id like any other. */
  fresh() {
    this.count += 1;
    return `${this.count}.1`;
  }

  /**
   * @param {Element} element
   * @param {Transform} outer
   * @param {Look} outerLook
   * @param {string | null} parent
   */
  read(element, outer, outerLook, parent) {
    if (element.matches(UNREAD)) return;
    const inner = parseTransform(element.getAttribute("transform") ?? "");
    if (!inner || this.count >= MOST) {
      this.left += 1;
      return;
    }
    const transform = chain(outer, inner);
    const look = lookOf(element, outerLook);
    const name = element.localName;
    if (name === "g" || name === "svg" || name === "a") this.group(element, transform, look, parent);
    else if (name === "text") this.text(element, transform, look, parent);
    else this.shape(element, transform, look, parent);
  }

  /**
   * @param {Element} element
   * @param {Transform} transform
   * @param {Look} look
   * @param {string | null} parent
   */
  group(element, transform, look, parent) {
    if (element.getAttribute("data-kind")) {
      this.own(element, transform, look, parent);
      return;
    }
    const id = this.fresh();
    const at = this.items.length;
    for (const child of element.children) this.read(child, transform, look, id);
    const members = this.items.filter((item) => item.parent === id);
    /** @type {Plain} */
    const group = { id, parent, kind: "group", x: 0, y: 0, w: 0, h: 0, stroke: "000000", fill: null, width: 1, label: "" };
    // One alone is no group.
    if (members.length > 1) this.items.splice(at, 0, group);
    else for (const member of members) member.parent = parent;
  }

  /**
   * A shape that this page saved, with its label.
   * @param {Element} element
   * @param {Transform} transform
   * @param {Look} look
   * @param {string | null} parent
   */
  own(element, transform, look, parent) {
    const at = this.items.length;
    for (const child of element.children) {
      if (!child.matches(".paper, text")) this.read(child, transform, look, parent);
    }
    const text = element.querySelector("text");
    if (!text) return;
    const label = ownLabel(text);
    const shape = this.items[at];
    if (shape) shape.label = label;
    else this.ownText(text, label, transform, parent);
  }

  /**
   * @param {Element} text
   * @param {string} label
   * @param {Transform} transform
   * @param {string | null} parent
   */
  ownText(text, label, transform, parent) {
    const box = (text.getAttribute("data-box") ?? "").split(" ").map(Number);
    if (box.length !== 4 || !box.every(Number.isFinite)) return;
    const [x, y] = moved(transform, box[0], box[1]);
    const stroke = asHex(`#${text.getAttribute("data-stroke") ?? ""}`) ?? "000000";
    this.items.push({
      id: this.fresh(), parent, kind: "text", x: Math.round(x), y: Math.round(y), label,
      w: Math.round(box[2] * transform.sx), h: Math.round(box[3] * transform.sy), stroke, fill: null, width: 1,
    });
  }

  /**
   * @param {Element} element
   * @param {Transform} transform
   * @param {Look} look
   * @param {string | null} parent
   */
  shape(element, transform, look, parent) {
    const number = (/** @type {string} */ name) => parseFloat(element.getAttribute(name) ?? "") || 0;
    const name = element.localName;
    /** @type {[number, number, number, number] | null} */
    let ends = null;
    if (name === "rect") ends = [number("x"), number("y"), number("x") + number("width"), number("y") + number("height")];
    else if (name === "line") ends = [number("x1"), number("y1"), number("x2"), number("y2")];
    else if (name === "circle" || name === "ellipse") {
      const [rx, ry] = name === "circle" ? [number("r"), number("r")] : [number("rx"), number("ry")];
      ends = [number("cx") - rx, number("cy") - ry, number("cx") + rx, number("cy") + ry];
    }
    if (!ends) {
      this.left += 1;
      return;
    }
    const [x0, y0] = moved(transform, ends[0], ends[1]).map(Math.round);
    const [x1, y1] = moved(transform, ends[2], ends[3]).map(Math.round);
    const kind = name === "circle" ? "ellipse" : /** @type {"rect" | "ellipse" | "line"} */ (name);
    if (kind !== "line" && (x0 === x1 || y0 === y1)) return;
    const fill = kind === "line" ? null : look.fill;
    const stroke = look.stroke ?? fill;
    if (!stroke) return;
    const width = Math.max(1, Math.min(64, Math.round(look.width * Math.abs(transform.sx))));
    this.items.push({ id: this.fresh(), parent, kind, x: x0, y: y0, w: x1 - x0, h: y1 - y0, stroke, fill, width, label: "" });
  }

  /**
   * @param {Element} element
   * @param {Transform} transform
   * @param {Look} look
   * @param {string | null} parent
   */
  text(element, transform, look, parent) {
    const first = element.querySelector("tspan");
    const number = (/** @type {string} */ name) => parseFloat(element.getAttribute(name) ?? first?.getAttribute(name) ?? "") || 0;
    const font = look.font * Math.abs(transform.sy);
    let [x, y] = moved(transform, number("x"), number("y"));
    y -= font;
    for (const label of labelsOf(labelOf(linesOf(element).join("\n")))) {
      const laid = lay(label, font);
      const left = x - (look.anchor === "middle" ? laid.w / 2 : look.anchor === "end" ? laid.w : 0);
      this.items.push({
        id: this.fresh(), parent, kind: "text", x: Math.round(left), y: Math.round(y), w: Math.ceil(laid.w) + 1, h: Math.round(laid.h),
        stroke: look.fill ?? look.stroke ?? "000000", fill: null, width: 1, label,
      });
      y += laid.h;
    }
  }
}

/**
 * The lines of a text: a part that has a place of its own begins one.
 * @param {Element} element
 */
function linesOf(element) {
  const lines = [""];
  for (const part of element.childNodes) {
    const isPlaced = part instanceof Element && ["x", "y", "dy"].some((name) => part.hasAttribute(name));
    if (isPlaced && lines[lines.length - 1].trim()) lines.push("");
    lines[lines.length - 1] += (part.textContent ?? "").replace(/\s+/g, " ");
  }
  return lines.map((line) => line.trim());
}

/**
 * The label that was saved, unless its letters were changed since.
 * @param {Element} text
 */
function ownLabel(text) {
  const kept = text.getAttribute("data-label") ?? "";
  const lines = [...text.querySelectorAll("tspan")].map((span) => span.textContent ?? "");
  const bare = (/** @type {string} */ each) => each.replace(/\s/g, "");
  if (isLabel(kept) && bare(kept) === bare(lines.join(""))) return kept;
  return labelsOf(labelOf(lines.join("\n")))[0] ?? "";
}

/**
 * How an element looks, by its own attributes, its style and what it stands in.
 * @param {Element} element
 * @param {Look} outer
 * @returns {Look}
 */
function lookOf(element, outer) {
  const style = new Map((element.getAttribute("style") ?? "").split(";").map((each) => {
    const at = each.indexOf(":");
    return [each.slice(0, at).trim(), each.slice(at + 1).trim()];
  }));
  const get = (/** @type {string} */ name) => style.get(name) ?? element.getAttribute(name);
  const colour = (/** @type {string} */ name, /** @type {string | null} */ was) => {
    const value = get(name);
    if (value === null || value === undefined || value === "inherit") return was;
    const hex = asHex(value);
    return hex && (STORED.get(hex) ?? hex);
  };
  return {
    stroke: colour("stroke", outer.stroke), fill: colour("fill", outer.fill),
    width: parseFloat(get("stroke-width") ?? "") || outer.width, font: parseFloat(get("font-size") ?? "") || outer.font,
    anchor: get("text-anchor") ?? outer.anchor,
  };
}

