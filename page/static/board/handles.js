// Which handle of the selection is under the pointer.

import { has } from "./boxes.js";
import { HANDLES } from "./overlay.js";

/** @typedef {import("./overlay.js").Handle} Handle */
/** @typedef {{handle?: Handle, end?: "start" | "end", dot?: boolean, item?: Item}} Found */

const REACH = 8;
const REACH_TOUCH = 22;
const SIDE = 3;
const LEAST_SIDE = 64;

/** @type {Record<Handle, string>} */
export const CURSORS = { nw: "nwse", se: "nwse", ne: "nesw", sw: "nesw", n: "ns", s: "ns", e: "ew", w: "ew" };

/**
 * @param {Ed} ed
 * @param {Place} at
 * @param {PointerEvent} event
 * @returns {Found | null}
 */
export function handleAt(ed, at, event) {
  if (ed.readOnly || ed.editing) return null;
  const isTouch = event.pointerType === "touch";
  const reach = isTouch ? REACH_TOUCH : REACH;
  const frame = ed.overlay.frame();
  if (!frame) return endAt(ed, at, reach + 2);
  const knob = knobAt(ed, frame, at, reach);
  const away = nearestDot(ed, at);
  if (away <= reach && !(knob && awayFrom(frame, knob, at) <= away)) return { dot: true, item: ed.selection.list()[0] };
  const handle = knob ?? (isTouch ? null : sideAt(ed, frame, at));
  return handle && { handle };
}

/**
 * How far a handle is from a place.
 * @param {Box} frame
 * @param {Handle} handle
 * @param {Place} at
 */
function awayFrom({ x0, y0, x1, y1 }, handle, { px, py }) {
  const [atX, atY] = HANDLES[handle];
  return Math.hypot(px - x0 - (x1 - x0) * atX, py - y0 - (y1 - y0) * atY);
}

/**
 * @param {Ed} ed
 * @param {Box} frame
 * @param {Place} at
 * @param {number} reach
 */
function knobAt(ed, frame, at, reach) {
  const [w, h] = [frame.x1 - frame.x0, frame.y1 - frame.y0];
  // Inside the frame a handle reaches less, so that small shapes can still be dragged.
  const near = has(frame, at.px, at.py) ? Math.min(reach, Math.min(w, h) / 4) : reach;
  return ed.overlay.handlesOf(w, h).find((each) => awayFrom(frame, each, at) <= near) ?? null;
}

/**
 * How far the nearest of the dots is from which a connector is drawn.
 * @param {Ed} ed
 * @param {Place} at
 */
const nearestDot = (ed, { px, py }) => Math.min(...ed.overlay.dots().map(([x, y]) => Math.hypot(px - x, py - y)));

/**
 * The frame's sides are handles as a whole.
 * @param {Ed} ed
 * @param {Box} frame
 * @param {Place} at
 * @returns {Handle | null}
 */
function sideAt(ed, { x0, y0, x1, y1 }, { px, py }) {
  if (x1 - x0 < LEAST_SIDE || y1 - y0 < LEAST_SIDE) return null;
  const sides = ed.overlay.handlesOf(x1 - x0, y1 - y0);
  const [isAcross, isDown] = [px > x0 && px < x1, py > y0 && py < y1];
  /** @type {[Handle, boolean][]} */
  const tried = [
    ["n", isAcross && Math.abs(py - y0) < SIDE],
    ["s", isAcross && Math.abs(py - y1) < SIDE],
    ["w", isDown && Math.abs(px - x0) < SIDE],
    ["e", isDown && Math.abs(px - x1) < SIDE],
  ];
  return tried.find(([side, isThere]) => isThere && sides.includes(side))?.[0] ?? null;
}

/**
 * @param {Ed} ed
 * @param {Place} at
 * @param {number} reach
 * @returns {Found | null}
 */
function endAt(ed, at, reach) {
  const [id, other] = ed.selection.ids;
  const item = id && !other ? ed.model.at(id) : null;
  if (!item?.ends) return null;
  for (const end of /** @type {const} */ (["end", "start"])) {
    const first = end === "start" ? 0 : 2;
    const [x, y] = ed.camera.toWindow(item.ends[first], item.ends[first + 1]);
    if (Math.hypot(at.px - x, at.py - y) <= reach) return { end, item };
  }
  return null;
}
