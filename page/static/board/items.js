// Items: what the board shows of an object, made of what the node says of it.

import { around, boxOf, grown } from "./boxes.js";
import { boxOfEnds } from "./joins.js";
import { mostOf, sizeOf } from "./text.js";

/** @typedef {import("../core/types.js").Ends} Ends */

const SIDES = /** @type {Record<string, "left" | "center" | "right">} */ ({ start: "left", middle: "center", end: "right" });
/** So far a head reaches beside a line. */
const HEAD = 16;

/** Items by id. An object that has got its id by now is found by its former name too. */
export class Ids extends Map {
  constructor() {
    super();
    /** @type {Map<string, string>} */
    this.names = new Map();
  }

  /** @param {string} id */
  get(id) {
    return super.get(id) ?? super.get(this.names.get(id));
  }

  /** @param {string} id */
  has(id) {
    return super.has(id) || super.has(this.names.get(id));
  }
}

/**
 * An item of what the node says of an object.
 * @param {Plain} plain
 * @param {number} z
 * @param {Ends | null} [joined] the ends of a connector, as they are now
 * @returns {Item}
 */
export function itemOf(plain, z, joined = null) {
  const { id, kind, x, y, w, h, looks } = plain;
  const ends = kind === "line" ? /** @type {Ends} */ ([x, y, x + w, y + h]) : joined;
  const box = joined ? boxOfEnds(joined) : boxOf(x, y, w, h);
  const font = looks?.letters ?? sizeOf(plain);
  const usual = kind === "text" ? "left" : "center";
  const align = looks?.side ? SIDES[looks.side] : usual;
  return { ...plain, z, font, align, by: siteOf(id), box, ink: grown(inkOf(plain, box, font), looks?.heads ? HEAD : 0), ends };
}

/**
 * @param {Plain} plain
 * @param {Box} box
 * @param {number} font
 * @returns {Box}
 */
function inkOf({ kind, label }, box, font) {
  if (!label) return box;
  const most = mostOf(kind, label, font, box.x1 - box.x0);
  const [x, y] = [(box.x0 + box.x1) / 2, (box.y0 + box.y1) / 2];
  return around([box, { x0: x - most.w / 2, x1: x + most.w / 2, y0: y - most.h / 2, y1: y + most.h }]);
}

/** @param {string} id */
const siteOf = (id) => Number(id.slice(id.indexOf(".") + 1)) || 0;

/**
 * Whether nothing is different.
 * @param {Plain} a
 * @param {Plain} b
 */
export function isSame(a, b) {
  if (a === b) return true;
  const isThere = a.x === b.x && a.y === b.y && a.w === b.w && a.h === b.h && a.parent === b.parent && a.kind === b.kind;
  const isLike = a.stroke === b.stroke && a.fill === b.fill && a.width === b.width && a.label === b.label;
  return isThere && isLike && a.from === b.from && a.to === b.to && JSON.stringify(a.looks ?? {}) === JSON.stringify(b.looks ?? {});
}
