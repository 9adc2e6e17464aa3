// Lines: one is drawn from end to end, and each end can be dragged. Shift turns to the next of 24 directions.

import { turned } from "./boxes.js";

/** @typedef {import("../core/types.js").Ends} Ends */
/** @typedef {import("./acts.js").Act} Act */
/** @typedef {import("./gestures.js").Gestures} Gestures */
/** @typedef {"start" | "end"} End */

/**
 * The place and the size of a line with these ends.
 * @param {[number, number]} from
 * @param {[number, number]} to
 */
export function lineOf([x0, y0], [x1, y1]) {
  const [x, y] = [Math.round(x0), Math.round(y0)];
  return { x, y, w: Math.round(x1) - x, h: Math.round(y1) - y };
}

/**
 * The lines that give a line another place and size.
 * @param {Item} item
 * @param {{x: number, y: number, w: number, h: number}} to
 */
export function endLines(item, to) {
  const lines = [];
  if (to.w !== item.w || to.h !== item.h) lines.push(`resize ${item.id} ${to.w} ${to.h}`);
  if (to.x !== item.x || to.y !== item.y) lines.push(`move ${item.id} ${to.x} ${to.y}`);
  return lines;
}

/**
 * The act of dragging an end of a line.
 * @param {Gestures} gestures
 * @param {End} end
 * @param {Item} item
 * @returns {Act}
 */
export function moveEnd(gestures, end, item) {
  const { ed } = gestures;
  const [x0, y0, x1, y1] = item.ends;
  const fixed = /** @type {[number, number]} */ (end === "start" ? [x1, y1] : [x0, y0]);
  // It is pressed from beside, above all by fingers, and goes as far as the pointer does.
  const [byX, byY] = end === "start" ? [x0 - gestures.pressed.x, y0 - gestures.pressed.y] : [x1 - gestures.pressed.x, y1 - gestures.pressed.y];
  let to = lineOf([x0, y0], [x1, y1]);
  return {
    begin: () => gestures.busy("end"),
    move: (at, event) => {
      const goal = /** @type {[number, number]} */ ([at.x + byX, at.y + byY]);
      const place = event.shiftKey ? turned(fixed, goal) : goal;
      to = end === "start" ? lineOf(place, fixed) : lineOf(fixed, place);
      ed.model.preview(new Map([[item.id, to]]));
    },
    drop: () => ed.edits.do("Moved an end", endLines(item, to)),
  };
}
