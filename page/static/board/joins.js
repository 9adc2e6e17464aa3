// Where connectors are: each from the border of the one end to the border of the other, wherever these are shown now.

import { around, boxOf } from "./boxes.js";

/** @typedef {import("../core/types.js").Ends} Ends */
/** @typedef {import("./model.js").Model} Model */

const { abs, hypot } = Math;
/** So far a connector stays away from its ends, in units of the board. */
const GAP = 4;

/** @param {Box} box */
const middleOf = ({ x0, y0, x1, y1 }) => /** @type {[number, number]} */ ([(x0 + x1) / 2, (y0 + y1) / 2]);

/**
 * The place on the border of an end at which the way from its middle to another place leaves it.
 * @param {{box: Box, kind: string}} end
 * @param {[number, number]} to
 * @returns {[number, number]}
 */
export function borderOf({ box, kind }, [toX, toY]) {
  const [x, y] = middleOf(box);
  const [dx, dy] = [toX - x, toY - y];
  const way = hypot(dx, dy);
  if (!way) return [x, y];
  const [w, h] = [(box.x1 - box.x0) / 2, (box.y1 - box.y0) / 2];
  const out = kind === "ellipse" ? 1 / hypot(dx / (w || 1), dy / (h || 1)) : Math.min(dx ? w / abs(dx) : Infinity, dy ? h / abs(dy) : Infinity);
  const part = Math.min(1, out + GAP / way);
  return [x + dx * part, y + dy * part];
}

/**
 * What an end is now: a shape, or a group with the box around all that is in it; null where it isn't shown.
 * @param {Model} model
 * @param {string} id
 */
export function endOf(model, id) {
  const item = model.at(id);
  if (!item || item.kind === "connector") return null;
  if (item.kind !== "group") return { box: item.box, kind: item.kind };
  const box = around(model.leaves(item.id).filter((leaf) => leaf.kind !== "connector").map((leaf) => model.at(leaf.id).box));
  return box && { box, kind: "group" };
}

/**
 * The two ends of a connector, as they are now; one that isn't shown is where the other is.
 * @param {Model} model
 * @param {{from?: string, to?: string}} plain
 * @returns {Ends}
 */
export function endsOf(model, { from, to }) {
  const [first, second] = [endOf(model, from), endOf(model, to)];
  if (!first || !second) {
    const [x, y] = first ? middleOf(first.box) : second ? middleOf(second.box) : [0, 0];
    return [x, y, x, y];
  }
  return [...borderOf(first, middleOf(second.box)), ...borderOf(second, middleOf(first.box))];
}

/**
 * The box around two ends.
 * @param {Ends} ends
 */
export const boxOfEnds = ([x0, y0, x1, y1]) => boxOf(x0, y0, x1 - x0, y1 - y0);

/**
 * The four places of a box from which a connector is drawn.
 * @param {Box} box
 * @returns {[number, number][]}
 */
export const dotsOf = ({ x0, y0, x1, y1 }) => [[(x0 + x1) / 2, y0], [x1, (y0 + y1) / 2], [(x0 + x1) / 2, y1], [x0, (y0 + y1) / 2]];
