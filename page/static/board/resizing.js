// Handles: the size of what is selected. Shift keeps the proportions, Alt the middle, Ctrl leaves snapping off.

import { counted, isFree } from "./acts.js";
import { HANDLES } from "./overlay.js";
import { snapper } from "./snap.js";
import { lay } from "./text.js";

/** @typedef {import("./acts.js").Act} Act */
/** @typedef {import("./gestures.js").Gestures} Gestures */
/** @typedef {import("./overlay.js").Handle} Handle */
/** @typedef {{x: number, y: number, w: number, h: number}} Sized */

const { abs, max, round, sign } = Math;
const LEAST_TEXT = 20;

/**
 * A box of which a handle was dragged.
 * @param {Box} box
 * @param {Handle} handle
 * @param {number} dx
 * @param {number} dy
 * @param {boolean} isAround whether the middle stays
 * @returns {Box}
 */
export function stretched(box, handle, dx, dy, isAround) {
  const [atX, atY] = HANDLES[handle];
  const to = { ...box };
  if (atX === 0) to.x0 += dx;
  else if (atX === 1) to.x1 += dx;
  if (atY === 0) to.y0 += dy;
  else if (atY === 1) to.y1 += dy;
  if (!isAround) return to;
  const [byX, byY] = [to.x0 - box.x0 + box.x1 - to.x1, to.y0 - box.y0 + box.y1 - to.y1];
  if (atX === 0) to.x1 -= byX;
  else if (atX === 1) to.x0 += byX;
  if (atY === 0) to.y1 -= byY;
  else if (atY === 1) to.y0 += byY;
  return to;
}

/**
 * A stretched box in the proportions of the box that it was.
 * @param {Box} box
 * @param {Handle} handle
 * @param {Box} to
 * @param {boolean} isAround
 * @returns {Box}
 */
export function inProportion(box, handle, to, isAround) {
  const [atX, atY] = HANDLES[handle];
  const [w, h] = [box.x1 - box.x0 || 1, box.y1 - box.y0 || 1];
  const [scaleX, scaleY] = [(to.x1 - to.x0) / w, (to.y1 - to.y0) / h];
  const isSide = atX === 0.5 || atY === 0.5;
  const scale = isSide ? abs(atX === 0.5 ? scaleY : scaleX) : max(abs(scaleX), abs(scaleY));
  const half = { x: isAround || atX === 0.5, y: isAround || atY === 0.5 };
  const across = along(box.x0, box.x1, scale * (isSide ? 1 : sign(scaleX) || 1), half.x, atX === 0);
  const down = along(box.y0, box.y1, scale * (isSide ? 1 : sign(scaleY) || 1), half.y, atY === 0);
  return { x0: across[0], x1: across[1], y0: down[0], y1: down[1] };
}

/**
 * A stretch that is scaled around its middle, its end or its beginning.
 * @param {number} low
 * @param {number} high
 * @param {number} scale
 * @param {boolean} isAround
 * @param {boolean} isFromEnd
 */
function along(low, high, scale, isAround, isFromEnd) {
  const size = (high - low) * scale;
  if (isAround) return [(low + high - size) / 2, (low + high + size) / 2];
  return isFromEnd ? [high - size, high] : [low, low + size];
}

/**
 * Where a shape of a box stands in another box, which may be turned over.
 * @param {Item} item
 * @param {Box} box
 * @param {Box} to
 * @returns {Sized}
 */
export function scaled(item, box, to) {
  const scaleX = (to.x1 - to.x0) / (box.x1 - box.x0 || 1);
  const scaleY = (to.y1 - to.y0) / (box.y1 - box.y0 || 1);
  const at = { x: round(to.x0 + (item.x - box.x0) * scaleX), y: round(to.y0 + (item.y - box.y0) * scaleY) };
  const [w, h] = [round(item.w * scaleX), round(item.h * scaleY)];
  if (item.kind === "line") return { ...at, w, h };
  const [x, y] = [w < 0 ? at.x + w : at.x, h < 0 ? at.y + h : at.y];
  return { x, y, w: max(1, abs(w)), h: max(1, abs(h)) };
}

/**
 * A text of another size: larger letters at a corner, other breaks of lines at a side.
 * @param {Item} item
 * @param {Handle} handle
 * @param {Box} to
 * @returns {Sized}
 */
export function sizedText(item, handle, to) {
  const isCorner = handle.length === 2;
  const scale = abs(to.x1 - to.x0) / (item.w || 1);
  const font = isCorner ? max(8, round(item.font * scale)) : item.font;
  const room = isCorner ? (item.w * font) / item.font + 1 : max(LEAST_TEXT, round(abs(to.x1 - to.x0)));
  const laid = lay(item.label || " ", font, room);
  const [w, h] = [isCorner ? Math.ceil(laid.w) + 1 : room, round(laid.h)];
  const [atX, atY] = HANDLES[handle];
  return { x: atX === 0 ? item.box.x1 - w : item.x, y: atY === 0 ? item.box.y1 - h : item.y, w, h };
}

/**
 * The lines that give shapes other places and sizes.
 * @param {Item[]} leaves
 * @param {Map<string, Sized>} sizes
 */
export function resizeLines(leaves, sizes) {
  const lines = [];
  for (const leaf of leaves) {
    const to = sizes.get(leaf.id);
    if (!to) continue;
    if (to.w !== leaf.w || to.h !== leaf.h) lines.push(`resize ${leaf.id} ${to.w} ${to.h}`);
    if (to.x !== leaf.x || to.y !== leaf.y) lines.push(`move ${leaf.id} ${to.x} ${to.y}`);
  }
  return lines;
}

/**
 * The act of dragging a handle.
 * @param {Gestures} gestures
 * @param {Handle} handle
 * @returns {Act}
 */
export function resizing(gestures, handle) {
  const { ed } = gestures;
  const leaves = ed.model.leavesOf(ed.selection.ids);
  const box = ed.model.boxOf(ed.selection.ids);
  const snap = snapper(ed.model, ed.camera, new Set(leaves.map((leaf) => leaf.id)));
  const text = leaves.length === 1 && leaves[0].kind === "text" ? leaves[0] : null;
  const [atX, atY] = HANDLES[handle];
  /** @type {Map<string, Sized>} */
  let sizes = new Map();
  /**
   * @param {Place} at
   * @param {MouseEvent} event
   */
  const boxAt = (at, event) => {
    const [dx, dy] = [at.x - gestures.pressed.x, at.y - gestures.pressed.y];
    const to = stretched(box, handle, dx, dy, event.altKey);
    ed.guides = null;
    if (event.shiftKey || (text && handle.length === 2)) return inProportion(box, handle, to, event.altKey);
    if (isFree(event)) return to;
    const got = snap(to, atX === 0.5 ? [] : [atX ? "x1" : "x0"], atY === 0.5 ? [] : [atY ? "y1" : "y0"]);
    ed.guides = got.guides;
    return stretched(box, handle, dx + got.dx, dy + got.dy, event.altKey);
  };
  return {
    begin: () => gestures.busy("resize"),
    move: (at, event) => {
      const to = boxAt(at, event);
      sizes = new Map(leaves.map((leaf) => [leaf.id, text ? sizedText(leaf, handle, to) : scaled(leaf, box, to)]));
      ed.model.preview(sizes);
    },
    drop: () => ed.edits.do(`Resized ${counted(leaves.length)}`, resizeLines(leaves, sizes)),
  };
}
