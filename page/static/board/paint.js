// How an item is painted on a canvas, by one function for the board, for PNG and for the ghosts of a drag.

import { inkOn, shownColour } from "./colours.js";
import { fontOf, lay, LEADING, roomOf } from "./text.js";

/** @typedef {{dark: boolean, paper: string, skip: string | null}} Look the theme, and whose label isn't painted */

/** In pixels: shapes below are left out, below are blocks, below have no round corners. */
const UNSEEN = 0.7;
const BLOCK = 4;
const SHARP = 24;
/** In pixels: letters below are left out, below are bars. */
const UNSEEN_TEXT = 1.6;
const BAR_TEXT = 4.5;

/**
 * How dashes and gaps are long, as parts of the width.
 * @type {Record<string, number[]>}
 */
const DASHES = { dashed: [4, 3], dotted: [0.1, 2.5] };
/** Below this width dashes are as long as at it. */
const LEAST_DASHED = 1.5;
/** How long a head is, and how far its sides turn off. */
const HEAD = 11;
const HEAD_TURN = 0.45;

/**
 * How round the corners of a rectangle are.
 * @param {number} w
 * @param {number} h
 */
export const radiusOf = (w, h) => Math.min(8, w / 4, h / 4);

/**
 * How round the corners of an item are.
 * @param {Item} item
 */
export function roundOf({ box, looks }) {
  const [w, h] = [box.x1 - box.x0, box.y1 - box.y0];
  return Math.min(looks?.round ?? radiusOf(w, h), w / 2, h / 2);
}

/**
 * How dashes and gaps of an item are long, in units of the board; null where its stroke is solid.
 * @param {Item} item
 */
export function dashesOf({ looks, width }) {
  return DASHES[looks?.dash ?? "solid"]?.map((part) => part * Math.max(width, LEAST_DASHED)) ?? null;
}

/**
 * The heads of an item: of each the end of one side, the tip, and the end of the other side.
 * @param {Item} item
 * @returns {[number, number][][]}
 */
export function headsOf({ ends, looks, width }) {
  if (!ends) return [];
  const [x0, y0, x1, y1] = ends;
  const heads = looks?.heads ?? "none";
  const made = [];
  if (heads === "end" || heads === "both") made.push(headOf(x0, y0, x1, y1, width));
  if (heads === "start" || heads === "both") made.push(headOf(x1, y1, x0, y0, width));
  return made.filter((head) => head.length);
}

/**
 * @param {number} x0
 * @param {number} y0
 * @param {number} x1
 * @param {number} y1
 * @param {number} width
 * @returns {[number, number][]}
 */
function headOf(x0, y0, x1, y1, width) {
  const way = Math.hypot(x1 - x0, y1 - y0);
  if (!way) return [];
  const size = Math.min(HEAD + width, way / 2);
  const turn = Math.atan2(y1 - y0, x1 - x0);
  const side = (/** @type {number} */ by) => /** @type {[number, number]} */ ([x1 - size * Math.cos(turn + by), y1 - size * Math.sin(turn + by)]);
  return [side(-HEAD_TURN), [x1, y1], side(HEAD_TURN)];
}

/**
 * Paints one item on a canvas that has the camera's transform.
 * @param {CanvasRenderingContext2D} c
 * @param {Item} item
 * @param {number} zoom
 * @param {Look} look
 */
export function paint(c, item, zoom, look) {
  const { box } = item;
  const size = Math.max(box.x1 - box.x0, box.y1 - box.y0) * zoom;
  if (size < UNSEEN) return;
  c.strokeStyle = shownColour(item.stroke, look.dark);
  c.lineWidth = Math.max(item.width, 0.6 / zoom);
  const alpha = c.globalAlpha;
  c.globalAlpha = alpha * ((item.looks?.opacity ?? 100) / 100);
  const dashes = dashesOf(item);
  if (dashes) c.setLineDash(dashes);
  if (item.ends) paintLine(c, item);
  else if (item.kind === "rect" || item.kind === "ellipse") paintShape(c, item, size, look.dark);
  else if (item.kind === "text" && item.fill) paintPaper(c, item, look.dark);
  if (dashes) c.setLineDash([]);
  if (item.ends) paintHeads(c, item);
  if (item.label && item.id !== look.skip) write(c, item, zoom, look);
  c.globalAlpha = alpha;
}

/**
 * The heads at the ends of a line.
 * @param {CanvasRenderingContext2D} c
 * @param {Item} item
 */
function paintHeads(c, item) {
  for (const [first, tip, second] of headsOf(item)) {
    c.beginPath();
    c.moveTo(...first);
    c.lineTo(...tip);
    c.lineTo(...second);
    c.stroke();
  }
}

/**
 * @param {CanvasRenderingContext2D} c
 * @param {Item} item
 * @param {number} size
 * @param {boolean} dark
 */
function paintShape(c, item, size, dark) {
  const { kind, box, fill, stroke } = item;
  const [w, h] = [box.x1 - box.x0, box.y1 - box.y0];
  if (size < BLOCK) {
    c.fillStyle = shownColour(fill ?? stroke, dark);
    c.fillRect(box.x0, box.y0, w, h);
    return;
  }
  c.beginPath();
  if (kind === "ellipse") c.ellipse(box.x0 + w / 2, box.y0 + h / 2, w / 2, h / 2, 0, 0, 2 * Math.PI);
  else if (size < SHARP) c.rect(box.x0, box.y0, w, h);
  else c.roundRect(box.x0, box.y0, w, h, roundOf(item));
  if (fill) {
    c.fillStyle = shownColour(fill, dark);
    c.fill();
  }
  c.stroke();
}

/**
 * @param {CanvasRenderingContext2D} c
 * @param {Item} item
 */
function paintLine(c, { ends }) {
  c.lineCap = "round";
  c.beginPath();
  c.moveTo(ends[0], ends[1]);
  c.lineTo(ends[2], ends[3]);
  c.stroke();
}

/**
 * What is behind a text that has a fill.
 * @param {CanvasRenderingContext2D} c
 * @param {Item} item
 * @param {boolean} dark
 */
function paintPaper(c, { box, fill }, dark) {
  c.fillStyle = shownColour(fill, dark);
  c.fillRect(box.x0, box.y0, box.x1 - box.x0, box.y1 - box.y0);
}

/**
 * Where the text of an item stands: its lines, the room from left to right, and its top.
 * @param {Item} item
 */
export function textBox(item) {
  const { box, kind } = item;
  const room = roomOf(kind, box.x1 - box.x0);
  const laid = lay(item.label || " ", item.font, room);
  const [x, y] = [(box.x0 + box.x1) / 2, (box.y0 + box.y1) / 2];
  if (kind === "text") return { ...laid, x0: box.x0, x1: box.x1, y: box.y0 };
  const half = item.ends ? laid.w / 2 : room / 2;
  return { ...laid, x0: x - half, x1: x + half, y: y - laid.h / 2 };
}

/**
 * @param {CanvasRenderingContext2D} c
 * @param {Item} item
 * @param {number} zoom
 * @param {Look} look
 */
function write(c, item, zoom, look) {
  const size = item.font * zoom;
  if (size < UNSEEN_TEXT) return;
  if (size < BAR_TEXT) {
    c.fillStyle = inkOn(item, look.dark);
    writeBars(c, item);
    return;
  }
  const text = textBox(item);
  if (item.ends) {
    c.fillStyle = look.paper;
    c.fillRect(text.x0 - 5, text.y - 1, text.x1 - text.x0 + 10, text.h + 2);
  }
  c.fillStyle = inkOn(item, look.dark);
  writeLetters(c, item, text);
}

/**
 * Lines that are too small to be read, as a bar each. How many there are goes by the number of letters alone.
 * @param {CanvasRenderingContext2D} c
 * @param {Item} item
 */
function writeBars(c, { kind, box, font, align, label }) {
  const room = roomOf(kind, box.x1 - box.x0);
  const length = label.length * font * 0.5;
  const count = Math.ceil(length / room);
  const w = Math.min(room, length / count);
  const left = align === "left" ? box.x0 : align === "right" ? box.x1 - w : (box.x0 + box.x1 - w) / 2;
  const top = kind === "text" ? box.y0 : (box.y0 + box.y1 - count * font * LEADING) / 2;
  const alpha = c.globalAlpha;
  c.globalAlpha = alpha * 0.45;
  for (let at = 0; at < count; at += 1) c.fillRect(left, top + (at + 0.35) * font * LEADING, w, font * 0.4);
  c.globalAlpha = alpha;
}

/**
 * @param {CanvasRenderingContext2D} c
 * @param {Item} item
 * @param {ReturnType<typeof textBox>} text
 */
function writeLetters(c, { font, align }, text) {
  const name = fontOf(font);
  if (c.font !== name) c.font = name;
  c.direction = text.dir;
  c.textBaseline = "middle";
  c.textAlign = align;
  const x = align === "left" ? text.x0 : align === "right" ? text.x1 : (text.x0 + text.x1) / 2;
  for (let at = 0; at < text.lines.length; at += 1) c.fillText(text.lines[at], x, text.y + (at + 0.53) * font * LEADING);
}
