// What is under the pointer: topmost first. Unfilled shapes by their edge and their text, filled ones all over, text by its
// box, lines from near.

import { farFrom, grown, has } from "./boxes.js";
import { textBox } from "./paint.js";

/** @typedef {import("./model.js").Model} Model */

/** The widest stroke reaches so far out of a shape's box. */
const MOST_STROKE = 32;

/**
 * Whether an item is at a place.
 * @param {Item} item
 * @param {number} x
 * @param {number} y
 * @param {number} near how far beside a line or an edge still counts
 */
export function hits(item, x, y, near) {
  const edge = near + item.width / 2;
  if (!has(grown(item.ink, edge), x, y)) return false;
  if (item.kind === "text") return has(grown(item.box, near / 2), x, y);
  return isOnShape(item, x, y, edge) || isOnLabel(item, x, y);
}

/**
 * @param {Item} item
 * @param {number} x
 * @param {number} y
 * @param {number} edge
 */
function isOnShape(item, x, y, edge) {
  if (item.ends) return farFrom(x, y, item.ends) <= edge;
  if (item.kind === "rect") return has(grown(item.box, edge), x, y) && (Boolean(item.fill) || !has(grown(item.box, -edge), x, y));
  return isInEllipse(item, x, y, edge) && (Boolean(item.fill) || !isInEllipse(item, x, y, -edge));
}

/**
 * @param {Item} item
 * @param {number} x
 * @param {number} y
 * @param {number} by how much larger the ellipse is taken
 */
function isInEllipse({ box }, x, y, by) {
  const [w, h] = [(box.x1 - box.x0) / 2 + by, (box.y1 - box.y0) / 2 + by];
  if (w <= 0 || h <= 0) return false;
  return Math.hypot((x - (box.x0 + box.x1) / 2) / w, (y - (box.y0 + box.y1) / 2) / h) < 1;
}

/**
 * @param {Item} item
 * @param {number} x
 * @param {number} y
 */
function isOnLabel(item, x, y) {
  if (!item.label) return false;
  const text = textBox(item);
  const left = item.align === "left" ? text.x0 : (text.x0 + text.x1 - text.w) / 2;
  return x >= left && x <= left + text.w && y >= text.y && y <= text.y + text.h;
}

/**
 * The topmost item at a place.
 * @param {Model} model
 * @param {number} x
 * @param {number} y
 * @param {number} near
 * @returns {Item | null}
 */
export function itemAt(model, x, y, near) {
  const reach = near + MOST_STROKE;
  let best = null;
  for (const item of model.grid.query({ x0: x - reach, y0: y - reach, x1: x + reach, y1: y + reach })) {
    if ((!best || item.z > best.z) && hits(item, x, y, near)) best = item;
  }
  return best;
}
