// How large a text and its shape are while it is written.

import { lay, PAD, roomOf } from "../board/text.js";

/** As wide as a text grows before it wraps, and as the label of a line may be. */
export const WIDEST = 480;
const LINE_ROOM = 260;
const ELLIPSE_ROOM = 0.72;

/**
 * The box of an item with a text in it, or with a blank where there is none: a shape doesn't grow for that.
 * @param {Item} item
 * @param {string} text
 * @param {boolean} isAuto whether a text grows before it wraps
 * @returns {Box}
 */
export function fittedBox(item, text, isAuto) {
  if (item.ends) return item.box;
  if (item.kind === "text") {
    const laid = lay(text, item.font, isAuto ? WIDEST : Math.max(8, item.w));
    const width = isAuto ? Math.ceil(laid.w) + 1 : item.w;
    return { x0: item.x, y0: item.y, x1: item.x + width, y1: item.y + Math.round(laid.h) };
  }
  const { h: high } = lay(text, item.font, roomOf(item.kind, item.w));
  const need = Math.ceil(item.kind === "ellipse" ? high / ELLIPSE_ROOM + PAD : high + 2 * PAD);
  const box = { ...item.box };
  if (text !== " " && need > box.y1 - box.y0) box.y1 = box.y0 + need;
  return box;
}

/**
 * How wide the text of an item may be.
 * @param {Item} item
 * @param {Box} box
 */
export function roomIn(item, box) {
  if (item.ends) return LINE_ROOM;
  return item.kind === "text" ? box.x1 - box.x0 : roomOf(item.kind, box.x1 - box.x0);
}

/**
 * Where what was written in a shape stands as a text: around the same middle, as high as a text is.
 * @param {string} label
 * @param {number} font
 * @param {Box} box
 * @returns {Box}
 */
export function asTextBox(label, font, box) {
  const laid = lay(label, font, WIDEST);
  const [x0, y0] = [Math.round((box.x0 + box.x1 - laid.w) / 2), Math.round((box.y0 + box.y1 - laid.h) / 2)];
  return { x0, y0, x1: x0 + Math.ceil(laid.w) + 1, y1: y0 + laid.h };
}
