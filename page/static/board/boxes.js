// Boxes, and how far a place is from a line.

/**
 * The box of a place and a size, which may be below 0.
 * @param {number} x
 * @param {number} y
 * @param {number} w
 * @param {number} h
 * @returns {Box}
 */
export const boxOf = (x, y, w, h) => ({ x0: Math.min(x, x + w), y0: Math.min(y, y + h), x1: Math.max(x, x + w), y1: Math.max(y, y + h) });

/**
 * @param {Box} box
 * @param {number} by
 * @returns {Box}
 */
export const grown = (box, by) => ({ x0: box.x0 - by, y0: box.y0 - by, x1: box.x1 + by, y1: box.y1 + by });

/**
 * @param {Box} box
 * @param {number} dx
 * @param {number} dy
 * @returns {Box}
 */
export const shifted = (box, dx, dy) => ({ x0: box.x0 + dx, y0: box.y0 + dy, x1: box.x1 + dx, y1: box.y1 + dy });

/**
 * Whether two boxes have a place in common, their edges among them.
 * @param {Box} a
 * @param {Box} b
 */
export const meet = (a, b) => a.x0 <= b.x1 && b.x0 <= a.x1 && a.y0 <= b.y1 && b.y0 <= a.y1;

/**
 * Whether the first box lies in the second.
 * @param {Box} a
 * @param {Box} b
 */
export const within = (a, b) => a.x0 >= b.x0 && a.x1 <= b.x1 && a.y0 >= b.y0 && a.y1 <= b.y1;

/**
 * How much of the first box lies in the second, from 0 to 1.
 * @param {Box} a
 * @param {Box} b
 */
export function partOf(a, b) {
  const [w, h] = [Math.min(a.x1, b.x1) - Math.max(a.x0, b.x0), Math.min(a.y1, b.y1) - Math.max(a.y0, b.y0)];
  return (Math.max(0, w) * Math.max(0, h)) / ((a.x1 - a.x0) * (a.y1 - a.y0));
}

/**
 * Whether the first box lies in the second, and reaches none of its edges.
 * @param {Box} a
 * @param {Box} b
 */
export const inside = (a, b) => a.x0 > b.x0 && a.x1 < b.x1 && a.y0 > b.y0 && a.y1 < b.y1;

/**
 * @param {Box} box
 * @param {number} x
 * @param {number} y
 */
export const has = (box, x, y) => x >= box.x0 && x <= box.x1 && y >= box.y0 && y <= box.y1;

/**
 * The box around boxes; null around none.
 * @param {Iterable<Box | null | undefined>} boxes
 * @returns {Box | null}
 */
export function around(boxes) {
  let all = null;
  for (const box of boxes) {
    if (!box) continue;
    if (!all) all = { ...box };
    else grow(all, box);
  }
  return all;
}

/**
 * @param {Box} all
 * @param {Box} box
 */
function grow(all, box) {
  all.x0 = Math.min(all.x0, box.x0);
  all.y0 = Math.min(all.y0, box.y0);
  all.x1 = Math.max(all.x1, box.x1);
  all.y1 = Math.max(all.y1, box.y1);
}

/**
 * How far a place is from a segment.
 * @param {number} x
 * @param {number} y
 * @param {import("../core/types.js").Ends} ends
 */
export function farFrom(x, y, [x0, y0, x1, y1]) {
  const [dx, dy] = [x1 - x0, y1 - y0];
  const part = Math.max(0, Math.min(1, ((x - x0) * dx + (y - y0) * dy) / (dx * dx + dy * dy || 1)));
  return Math.hypot(x - x0 - part * dx, y - y0 - part * dy);
}

/**
 * Whether a segment has a place in a box.
 * @param {import("../core/types.js").Ends} ends
 * @param {Box} box
 */
export function lineMeets([x0, y0, x1, y1], box) {
  // What is left of the segment, from 0 to 1, once each side of the box has cut it.
  let [low, high] = [0, 1];
  const sides = [[x1 - x0, box.x0 - x0, box.x1 - x0], [y1 - y0, box.y0 - y0, box.y1 - y0]];
  for (const [along, near, far] of sides) {
    if (along === 0 && (near > 0 || far < 0)) return false;
    if (along === 0) continue;
    low = Math.max(low, Math.min(near / along, far / along));
    high = Math.min(high, Math.max(near / along, far / along));
  }
  return low <= high;
}

/**
 * Whether the edge of an ellipse has a place in a box.
 * @param {Box} oval the box around the ellipse
 * @param {Box} box
 */
export function ovalMeets(oval, box) {
  const [x, y] = [(oval.x0 + oval.x1) / 2, (oval.y0 + oval.y1) / 2];
  const [across, down] = [(oval.x1 - oval.x0) / 2 || 1, (oval.y1 - oval.y0) / 2 || 1];
  /**
   * How far a place is from the middle; the edge is 1 from it.
   * @param {number} toX
   * @param {number} toY
   */
  const far = (toX, toY) => Math.hypot((toX - x) / across, (toY - y) / down);
  const nearest = far(Math.max(box.x0, Math.min(box.x1, x)), Math.max(box.y0, Math.min(box.y1, y)));
  const farthest = Math.max(far(box.x0, box.y0), far(box.x1, box.y0), far(box.x0, box.y1), far(box.x1, box.y1));
  return nearest <= 1 && farthest >= 1;
}

/**
 * The place at which a line from a fixed place ends, turned to the next of 24 directions.
 * @param {[number, number]} from
 * @param {[number, number]} to
 * @returns {[number, number]}
 */
export function turned([x, y], [toX, toY]) {
  const step = Math.PI / 12;
  const angle = Math.round(Math.atan2(toY - y, toX - x) / step) * step;
  const length = Math.hypot(toX - x, toY - y);
  return [Math.round(x + length * Math.cos(angle)), Math.round(y + length * Math.sin(angle))];
}
