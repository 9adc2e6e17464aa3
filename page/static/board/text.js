// Text: which way it runs, where its lines break, and how large its letters are.

import { BREAK, BREAKS } from "../core/lines.js";

/** @typedef {import("../core/types.js").Kind} Kind */
/** @typedef {{lines: string[], w: number, h: number, dir: "ltr" | "rtl"}} Laid */

export { BREAK };
export const FAMILY =
  '"Inter", "Segoe UI", "SF Pro Text", Roboto, "Helvetica Neue", "Liberation Sans", Arial, "Noto Sans", "Noto Color Emoji", "Apple Color Emoji", "Segoe UI Emoji", sans-serif';
export const PAD = 10;
export const LEADING = 1.3;
/** How large the letters in a shape are, and those of a new text. */
export const SHAPE_FONT = 16;
export const TEXT_FONT = 20;
const LEAST_FONT = 8;
const MOST_FONT = 400;
const LINE_ROOM = 260;
const MOST_KEPT = 30000;

/** @param {number} size */
export const fontOf = (size) => `${size}px ${FAMILY}`;

const pen = document.createElement("canvas").getContext("2d");
const pieces = new Intl.Segmenter(undefined, { granularity: "grapheme" });
/** @type {Map<string, Laid>} */
const kept = new Map();
const RTL = /^[^\p{L}]*[\u0590-\u08ff\ufb1d-\ufdff\ufe70-\ufefc]/u;

/**
 * Which way a text runs: as its first letter does.
 * @param {string} text
 */
export const dirOf = (text) => (RTL.test(text) ? "rtl" : "ltr");

/**
 * The lines of a text that may be `most` wide, with the width and the height of all.
 * @param {string} text
 * @param {number} size of the letters
 * @param {number} [most]
 * @returns {Laid}
 */
export function lay(text, size, most = Infinity) {
  const key = `${size}|${Math.round(most)}|${text}`;
  const known = kept.get(key);
  if (known) return known;
  pen.font = fontOf(size);
  /** @type {string[]} */
  const lines = [];
  for (const part of text.split(BREAKS)) lines.push(...wrapped(part, most));
  /** @type {Laid} */
  const laid = { lines, w: Math.max(1, ...lines.map(wide)), h: lines.length * size * LEADING, dir: dirOf(text) };
  if (kept.size > MOST_KEPT) kept.clear();
  kept.set(key, laid);
  return laid;
}

/** @param {string} text */
const wide = (text) => pen.measureText(text).width;

/**
 * @param {string} part a text without line breaks
 * @param {number} most
 */
function wrapped(part, most) {
  if (wide(part) <= most) return [part.trimEnd()];
  const lines = [];
  let line = "";
  for (const word of part.split(/(?<=\s)/u)) {
    if (line && wide((line + word).trimEnd()) > most) {
      lines.push(line.trimEnd());
      line = "";
    }
    line += word;
    if (wide(line.trimEnd()) > most) {
      const cut = cutWord(line, most);
      lines.push(...cut.slice(0, -1));
      line = cut[cut.length - 1];
    }
  }
  lines.push(line.trimEnd());
  return lines;
}

/**
 * The pieces of a word that is too wide for a line, between its letters.
 * @param {string} word
 * @param {number} most
 */
function cutWord(word, most) {
  const cut = [""];
  for (const { segment } of pieces.segment(word)) {
    const last = cut[cut.length - 1];
    if (last && wide(last + segment) > most) cut.push(segment);
    else cut[cut.length - 1] = last + segment;
  }
  return cut;
}

/**
 * How wide a text in a shape may be: what fits between its edges; a text of its own goes by its box.
 * @param {Kind} kind
 * @param {number} w
 */
export function roomOf(kind, w) {
  if (kind === "text") return Math.max(8, Math.abs(w));
  if (kind === "line" || kind === "connector") return LINE_ROOM;
  return Math.max(8, Math.abs(w) * (kind === "ellipse" ? 0.72 : 1) - 2 * PAD);
}

/**
 * How large the letters are. A shape's are all of one size. Those of a text are as large as its box has room for, so that
 * they grow with it.
 * @param {{kind: Kind, label: string, w: number, h: number}} item
 */
export function sizeOf({ kind, label, w, h }) {
  if (kind !== "text") return SHAPE_FONT;
  const height = Math.abs(h) + 1;
  const whole = inFonts(height / LEADING);
  // Most texts have one line, whose width goes with the size of its letters.
  if (!BREAKS.test(label) && wideAt(label, whole) <= roomOf("text", w)) return whole;
  return wrappedSize(label, w, height);
}

/** @param {number} size */
const inFonts = (size) => Math.max(LEAST_FONT, Math.min(MOST_FONT, Math.floor(size)));

/**
 * How wide a text is in one line, nearly.
 * @param {string} text
 * @param {number} size
 */
function wideAt(text, size) {
  const font = fontOf(TEXT_FONT);
  if (pen.font !== font) pen.font = font;
  return (wide(text) * size) / TEXT_FONT;
}

/**
 * The largest size in which a text that wraps has room.
 * @param {string} label
 * @param {number} w
 * @param {number} height
 */
function wrappedSize(label, w, height) {
  const room = roomOf("text", w);
  let [low, high] = [LEAST_FONT, inFonts(height / LEADING)];
  while (low < high) {
    const size = Math.ceil((low + high) / 2);
    if (lay(label, size, room).h <= height) low = size;
    else high = size - 1;
  }
  return low;
}

/** So wide is the widest letter, as a part of the size. */
const WIDEST = 1.1;

/**
 * As much room as a label can take, without a look at its letters.
 * @param {Kind} kind
 * @param {string} label
 * @param {number} font
 * @param {number} w of its shape
 */
export function mostOf(kind, label, font, w) {
  const room = roomOf(kind, w);
  const length = label.length * font * WIDEST;
  // A line may be less than half full where the next word had no room in it.
  const lines = Math.ceil((2 * length) / room) + label.split(BREAKS).length - 1;
  return { w: Math.min(room, length) + font, h: (length <= room ? label.split(BREAKS).length : lines) * font * LEADING };
}
