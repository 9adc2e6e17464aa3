// The drawing as SVG: groups stand in groups, a shape and its text in one, with what a label says as it is.

import { around, boxOf, grown } from "../board/boxes.js";
import { inkOn, shownColour } from "../board/colours.js";
import { dashesOf, headsOf, roundOf, textBox } from "../board/paint.js";
import { FAMILY, LEADING } from "../board/text.js";

const SPACE = "http://www.w3.org/2000/svg";
const MARGIN = 16;
/** Readers of XML take 256 levels; groups that are deeper stand in the one at this level. */
const DEEPEST = 100;

/**
 * @param {string} tag
 * @param {Record<string, string | number | null>} attributes those that are null are left out
 * @param {...(Node | string)} children
 */
function element(tag, attributes, ...children) {
  const made = document.createElementNS(SPACE, tag);
  for (const [key, value] of Object.entries(attributes)) if (value !== null) made.setAttribute(key, String(value));
  made.append(...children);
  return made;
}

/** @param {number} value */
const short = (value) => Math.round(value * 100) / 100;

/**
 * The box of a picture of these items.
 * @param {Item[]} items
 * @returns {Box}
 */
export function pictureBox(items) {
  const boxes = items.filter((item) => item.kind !== "group").map((item) => grown(item.box, item.width / 2));
  return grown(around(boxes) ?? boxOf(0, 0, 100, 100), MARGIN);
}

/**
 * A picture of items as an SVG element.
 * @param {Item[]} items in paint order, a group in front of its members
 * @param {string} title
 */
export function svgOf(items, title) {
  const box = pictureBox(items);
  const [width, height] = [short(box.x1 - box.x0), short(box.y1 - box.y0)];
  const viewBox = [short(box.x0), short(box.y0), width, height].join(" ");
  const root = element("svg", { xmlns: SPACE, viewBox, width, height, "font-family": FAMILY }, element("title", {}, title));
  /** @type {Map<string, {element: Element, level: number}>} */
  const groups = new Map();
  for (const item of items) {
    const { element: host, level } = groups.get(item.parent ?? "") ?? { element: root, level: 0 };
    if (item.kind !== "group") {
      host.append(shapeOf(item));
      continue;
    }
    const made = level < DEEPEST ? element("g", { "data-id": item.id }) : host;
    if (made !== host) host.append(made);
    groups.set(item.id, { element: made, level: level + 1 });
  }
  return root;
}

/** @param {Item} item */
function shapeOf(item) {
  const shape = bareShape(item);
  const opacity = (item.looks?.opacity ?? 100) / 100;
  const attributes = { "data-id": item.id, "data-kind": item.kind, opacity: opacity < 1 ? opacity : null };
  const made = element("g", attributes, ...(shape ? [shape, ...headsOf(item).map((head) => headShape(item, head))] : []));
  if (item.label) made.append(...textOf(item));
  return made;
}

/**
 * @param {Item} item
 * @param {[number, number][]} head
 */
function headShape({ stroke, width }, head) {
  const points = head.map(([x, y]) => `${short(x)},${short(y)}`).join(" ");
  const look = { stroke: shownColour(stroke, false), "stroke-width": width, fill: "none", "stroke-linecap": "round" };
  return element("polyline", { class: "head", points, ...look });
}

/** @param {Item} item */
function bareShape(item) {
  const { kind, box, ends, stroke, fill, width } = item;
  const [w, h] = [box.x1 - box.x0, box.y1 - box.y0];
  const look = {
    stroke: shownColour(stroke, false), "stroke-width": width, fill: fill ? shownColour(fill, false) : "none",
    "stroke-dasharray": dashesOf(item)?.map(short).join(" ") ?? null,
  };
  if (kind === "rect") return element("rect", { x: box.x0, y: box.y0, width: w, height: h, rx: short(roundOf(item)), ...look });
  if (kind === "ellipse") return element("ellipse", { cx: box.x0 + w / 2, cy: box.y0 + h / 2, rx: w / 2, ry: h / 2, ...look });
  if (!ends) return null;
  return element("line", { x1: ends[0], y1: ends[1], x2: ends[2], y2: ends[3], ...look, fill: null, "stroke-linecap": "round" });
}

/**
 * The text of an item, and behind that of a line what it stands on.
 * @param {Item} item
 */
function textOf(item) {
  const text = textBox(item);
  const isCentred = item.align === "center";
  const x = isCentred ? (text.x0 + text.x1) / 2 : text.dir === "rtl" ? text.x1 : text.x0;
  const attributes = {
    "data-label": item.label, "data-box": [item.x, item.y, item.w, item.h].join(" "), "font-size": item.font,
    fill: inkOn(item, false), "text-anchor": isCentred ? "middle" : "start", direction: text.dir,
    "dominant-baseline": "central", "xml:space": "preserve", "data-stroke": item.stroke,
  };
  const lines = text.lines.map((line, at) => element("tspan", { x: short(x), y: short(text.y + (at + 0.5) * item.font * LEADING) }, line));
  const made = element("text", attributes, ...lines);
  if (!item.ends) return [made];
  const paper = { x: short(text.x0 - 5), y: short(text.y - 1), width: short(text.x1 - text.x0 + 10), height: short(text.h + 2) };
  return [element("rect", { class: "paper", ...paper, fill: "#FFFFFF" }), made];
}
