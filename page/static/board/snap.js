// Snapping: edges and middles of neighbours, and equal gaps. It proposes; Ctrl while dragging switches it off.

import { meet } from "./boxes.js";

/** @typedef {import("../core/types.js").Guide} Guide */
/** @typedef {"x0" | "x1" | "y0" | "y1"} Side */
/** @typedef {Side | "mid"} Line what of a box snaps */
/** @typedef {{low: Side, high: Side, crossLow: Side, crossHigh: Side, all: Line[]}} Axis */
/** @typedef {{by: number, at?: number, gap?: number, parts?: [number, number][]}} Offer how far a box goes, and why */
/** @typedef {{dx: number, dy: number, guides: Guide[]}} Snapped */

const REACH = 6;
const MOST_NEIGHBOURS = 250;
const MOST_IN_ROW = 40;

/** @type {Axis} */
const ACROSS = { low: "x0", high: "x1", crossLow: "y0", crossHigh: "y1", all: ["x0", "mid", "x1"] };
/** @type {Axis} */
const DOWN = { low: "y0", high: "y1", crossLow: "x0", crossHigh: "x1", all: ["y0", "mid", "y1"] };

/**
 * The place of an edge or the middle of a box.
 * @param {Box} box
 * @param {Axis} axis
 * @param {Line} line
 */
const lineOf = (box, axis, line) => (line === "mid" ? (box[axis.low] + box[axis.high]) / 2 : box[line]);

/** The nearest of several offers. */
class Nearest {
  /** @param {number} reach */
  constructor(reach) {
    this.reach = reach;
    /** @type {Offer | null} */
    this.best = null;
  }

  /** @param {Offer} offer */
  take(offer) {
    const far = Math.abs(offer.by);
    if (far <= this.reach && (!this.best || far < Math.abs(this.best.by) - 1e-6)) this.best = offer;
  }
}

/**
 * Offers to put lines of a box on lines of its neighbours.
 * @param {Nearest} nearest
 * @param {Box} box
 * @param {Axis} axis
 * @param {Line[]} lines
 * @param {Box[]} neighbours
 */
function offerEdges(nearest, box, axis, lines, neighbours) {
  const own = lines.map((line) => lineOf(box, axis, line));
  for (const other of neighbours) {
    for (const line of axis.all) {
      const at = lineOf(other, axis, line);
      for (const each of own) nearest.take({ by: at - each, at });
    }
  }
}

/**
 * Offers to put a box so that its gaps are those between its neighbours in a row.
 * @param {Nearest} nearest
 * @param {Box} box
 * @param {Axis} axis
 * @param {Box[]} neighbours
 */
function offerGaps(nearest, box, axis, neighbours) {
  const { low, high } = axis;
  const size = box[high] - box[low];
  const row = rowOf(box, axis, neighbours);
  for (let at = 0; at + 1 < row.length; at += 1) {
    const [first, second] = [row[at], row[at + 1]];
    const gap = second[low] - first[high];
    if (gap <= 1) continue;
    const between = /** @type {[number, number]} */ ([first[high], second[low]]);
    nearest.take({ by: second[high] + gap - box[low], gap, parts: [between, [second[high], second[high] + gap]] });
    nearest.take({ by: first[low] - gap - box[high], gap, parts: [[first[low] - gap, first[low]], between] });
    const half = (gap - size) / 2;
    if (half <= 0) continue;
    const parts = /** @type {[number, number][]} */ ([[first[high], first[high] + half], [second[low] - half, second[low]]]);
    nearest.take({ by: first[high] + half - box[low], gap: half, parts });
  }
}

/**
 * The neighbours beside a box that aren't much larger, in their order.
 * @param {Box} box
 * @param {Axis} axis
 * @param {Box[]} neighbours
 */
function rowOf(box, { low, high, crossLow, crossHigh }, neighbours) {
  const size = box[high] - box[low];
  /** @param {Box} other */
  const isBeside = (other) =>
    other[crossLow] < box[crossHigh] && other[crossHigh] > box[crossLow] && other[high] - other[low] < size * 4;
  return neighbours.filter(isBeside).sort((a, b) => a[low] - b[low]).slice(0, MOST_IN_ROW);
}

/**
 * The lines that show why a box stands where it does.
 * @param {Offer | null} offer
 * @param {Box} box where it stands
 * @param {Axis} axis
 * @param {Box[]} neighbours
 * @returns {Guide[]}
 */
function guidesOf(offer, box, axis, neighbours) {
  if (!offer) return [];
  const { low, high, crossLow, crossHigh } = axis;
  const middle = (box[crossLow] + box[crossHigh]) / 2;
  /**
   * @param {number} from
   * @param {number} to
   * @param {number} crossFrom
   * @param {number} crossTo
   */
  const guide = (from, to, crossFrom, crossTo) =>
    /** @type {any} */ ({ [low]: from, [high]: to, [crossLow]: crossFrom, [crossHigh]: crossTo });
  if (offer.parts) return offer.parts.map(([from, to]) => ({ ...guide(from, to, middle, middle), gap: offer.gap }));
  const met = neighbours.filter((other) => axis.all.some((line) => Math.abs(lineOf(other, axis, line) - offer.at) < 0.01));
  const from = Math.min(box[crossLow], ...met.map((other) => other[crossLow]));
  const to = Math.max(box[crossHigh], ...met.map((other) => other[crossHigh]));
  return [guide(offer.at, offer.at, from, to)];
}

/**
 * What a box snaps to among boxes.
 * @param {Box} box
 * @param {Box[]} neighbours
 * @param {number} reach
 * @param {Line[]} linesX which of its lines may snap across
 * @param {Line[]} linesY which of its lines may snap down
 * @returns {Snapped}
 */
export function snapped(box, neighbours, reach, linesX, linesY) {
  /**
   * @param {Axis} axis
   * @param {Line[]} lines
   */
  const offer = (axis, lines) => {
    const nearest = new Nearest(reach);
    offerEdges(nearest, box, axis, lines, neighbours);
    if (lines.length === axis.all.length) offerGaps(nearest, box, axis, neighbours);
    return nearest.best;
  };
  const across = offer(ACROSS, linesX);
  const down = offer(DOWN, linesY);
  const [dx, dy] = [across?.by ?? 0, down?.by ?? 0];
  const at = { x0: box.x0 + dx, x1: box.x1 + dx, y0: box.y0 + dy, y1: box.y1 + dy };
  return { dx, dy, guides: [...guidesOf(across, at, ACROSS, neighbours), ...guidesOf(down, at, DOWN, neighbours)] };
}

/**
 * What a dragged box snaps to: everything near in the window that isn't dragged itself.
 * @param {import("./model.js").Model} model
 * @param {import("./camera.js").Camera} camera
 * @param {Set<string>} moving
 */
export function snapper(model, camera, moving) {
  const view = camera.box();
  /** @type {Box[]} */
  const neighbours = [];
  for (const item of model.grid.query(view)) {
    if (neighbours.length === MOST_NEIGHBOURS) break;
    if (!moving.has(item.id) && !item.ends && meet(item.box, view)) neighbours.push(item.box);
  }
  return (/** @type {Box} */ box, linesX = ACROSS.all, linesY = DOWN.all) =>
    snapped(box, neighbours, REACH / camera.zoom, linesX, linesY);
}
