// What is meant at a place: the object under the pointer, a handle, the frame of the selection; and what is lit there.

import { has } from "./boxes.js";
import { CURSORS, handleAt } from "./handles.js";
import { itemAt } from "./hit.js";

/** @typedef {import("./gestures.js").Gestures} Gestures */

/** In pixels: how far beside a line still counts. */
const NEAR = 6;
const NEAR_TOUCH = 14;
/** An unfilled shape that is smaller, in pixels, can be dragged by its inside once it is selected. */
const BARE = 160;

/**
 * How far beside a line still counts, in units of the board.
 * @param {Ed} ed
 * @param {MouseEvent} event
 */
export const nearOf = (ed, event) =>
  (/** @type {PointerEvent} */ (event).pointerType === "touch" ? NEAR_TOUCH : NEAR) / ed.camera.zoom;

/**
 * The object that is meant at a place: in the group that was entered one of its members, else the outermost group.
 * @param {Ed} ed
 * @param {Place} at
 * @param {MouseEvent} event
 * @returns {Item | null}
 */
export function objectAt(ed, at, event) {
  const { model, selection } = ed;
  const item = itemAt(model, at.x, at.y, nearOf(ed, event));
  return item && (model.owner(item, selection.scope) ?? model.owner(item, null));
}

/**
 * Whether a place is in the frame around the selection, where that is dragged by its inside.
 * @param {Ed} ed
 * @param {Place} at
 */
export function isInFrame(ed, at) {
  const frame = ed.overlay.frame();
  return frame !== null && has(frame, at.px, at.py) && !isBare(ed);
}

/**
 * Whether the one selected shape is large, unfilled and without a text: it is dragged by its edge alone.
 * @param {Ed} ed
 */
function isBare(ed) {
  const [item, other] = ed.selection.list();
  if (!item || other || item.kind === "group" || item.kind === "text" || item.fill || item.label) return false;
  return Math.min(Math.abs(item.w), Math.abs(item.h)) * ed.camera.zoom > BARE;
}

/**
 * Shows what would happen here: the cursor, and what is lit.
 * @param {Gestures} gestures
 * @param {Place} at
 * @param {PointerEvent} event
 */
export function look(gestures, at, event) {
  const { ed, board } = gestures;
  if (event.pointerType === "touch") return;
  let cursor = "";
  let hover = null;
  if (ed.tool === "select" && !gestures.space) {
    const handle = handleAt(ed, at, event);
    const item = handle ? null : objectAt(ed, at, event);
    hover = item?.id ?? null;
    if (handle) cursor = handle.end || handle.dot ? "end" : CURSORS[handle.handle];
    else if ((item && !ed.readOnly) || (!item && isInFrame(ed, at))) cursor = "move";
  }
  light(ed, hover);
  if (board.dataset.cursor !== cursor) board.dataset.cursor = cursor;
}

/**
 * @param {Ed} ed
 * @param {string | null} hover the object that is lit
 */
export function light(ed, hover) {
  if (ed.hover === hover) return;
  ed.hover = hover;
  ed.touch("overlay");
}

/**
 * Opens the menu for what is under the pointer, which is selected then.
 * @param {Gestures} gestures
 * @param {MouseEvent} event
 */
export function openMenu(gestures, event) {
  const { ed } = gestures;
  // Asked for by a key, it stands at the selection.
  const box = !event.clientX && !event.clientY && ed.model.boxOf(ed.selection.ids);
  if (box) {
    ed.openMenu(...ed.camera.toWindow(box.x1, box.y0));
    return;
  }
  const at = gestures.at(event);
  const item = objectAt(ed, at, event);
  if (item && !ed.selection.ids.has(item.id)) ed.selection.set([item.id], item.parent);
  if (!item && !isInFrame(ed, at)) ed.selection.clear();
  ed.openMenu(at.px, at.py, at);
}
