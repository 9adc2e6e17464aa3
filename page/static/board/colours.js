// Colours that are stored, by name, and how each is shown on a light and on a dark board.

/** @typedef {[string | null, string, string | null, string | null]} Swatch stored, its name, on light, on dark */

/** @type {Swatch[]} */
export const STROKES = [
  ["000000", "Ink", "1C2026", "E7E9EC"], ["6B7280", "Grey", "6B7280", "A3ABB8"], ["D92D20", "Red", "D92D20", "FF8177"],
  ["DB5A0B", "Orange", "DB5A0B", "FF9D5C"], ["B98500", "Yellow", "B98500", "EFBF45"], ["258750", "Green", "258750", "5CCB8A"],
  ["0B7F8C", "Teal", "0B7F8C", "4CC9D6"], ["2563EB", "Blue", "2563EB", "82ABFF"], ["7C3AED", "Violet", "7C3AED", "B99CFF"],
  ["C11574", "Pink", "C11574", "FF85C2"],
];
/** @type {Swatch[]} */
export const FILLS = [
  [null, "None", null, null], ["FFFFFF", "White", "FFFFFF", "262B33"], ["E9ECF0", "Grey", "E9ECF0", "333A44"],
  ["FFDFD9", "Red", "FFDFD9", "54302C"], ["FFE6C9", "Orange", "FFE6C9", "523A20"], ["FFF2AE", "Yellow", "FFF2AE", "4D4419"],
  ["D3F2DB", "Green", "D3F2DB", "214531"], ["CBEFF3", "Teal", "CBEFF3", "184650"], ["DAE6FF", "Blue", "DAE6FF", "263C66"],
  ["E9DFFF", "Violet", "E9DFFF", "3C2D61"],
];
/** A colour of one's own is lifted on a dark board until it is as light as this. */
const LEAST_LUMA = 0.12;
const READABLE = 4.5;

/** @type {Map<string | null, string | null>[]} */
const known = [new Map(), new Map()];
for (const [hex, , light, dark] of [...STROKES, ...FILLS]) {
  known[0].set(hex, light && `#${light}`);
  known[1].set(hex, dark && `#${dark}`);
}

/**
 * @param {string} hex
 * @param {number} at
 */
const part = (hex, at) => parseInt(hex.slice(at, at + 2), 16);

/** @param {number} value from 0 to 255 */
function linear(value) {
  const each = value / 255;
  return each <= 0.04045 ? each / 12.92 : ((each + 0.055) / 1.055) ** 2.4;
}

/**
 * The relative luminance of a colour, from 0 to 1.
 * @param {string} hex
 */
export const luma = (hex) => 0.2126 * linear(part(hex, 0)) + 0.7152 * linear(part(hex, 2)) + 0.0722 * linear(part(hex, 4));

/**
 * @param {string} hex
 * @param {number} share of white, from 0 to 1
 */
function lighter(hex, share) {
  const parts = [0, 2, 4].map((at) => Math.round(part(hex, at) + (255 - part(hex, at)) * share));
  return `#${parts.map((each) => each.toString(16).padStart(2, "0")).join("")}`;
}

/**
 * How a stored colour is shown. One that isn't a swatch is lifted on a dark board until it can be seen.
 * @param {string | null} hex
 * @param {boolean} dark
 */
export function shownColour(hex, dark) {
  const set = known[dark ? 1 : 0];
  const got = set.get(hex);
  if (got !== undefined) return got;
  let shown = `#${hex}`;
  for (let share = 0.15; dark && share < 1 && luma(shown.slice(1)) < LEAST_LUMA; share += 0.15) shown = lighter(hex, share);
  set.set(hex, shown);
  return shown;
}

/**
 * The colour of a label: that of the stroke, and on a fill what can be read there.
 * @param {{stroke: string, fill: string | null, kind: string, ends?: unknown}} item
 * @param {boolean} dark
 */
export function inkOn(item, dark) {
  const stroke = shownColour(item.stroke, dark);
  if (!item.fill || item.kind === "text" || item.ends) return stroke;
  const paper = luma(shownColour(item.fill, dark).slice(1));
  const pen = luma(stroke.slice(1));
  const contrast = (Math.max(paper, pen) + 0.05) / (Math.min(paper, pen) + 0.05);
  if (contrast >= READABLE) return stroke;
  return paper > 0.25 ? "#1C2026" : "#F2F4F7";
}

const PEOPLE = ["#4C5FD7", "#C2410C", "#0F766E", "#A21CAF", "#4D7C0F", "#B91C1C", "#0369A1", "#7E22CE"];
const PEOPLE_DARK = ["#A3AFFF", "#FF9D6B", "#4FD1C0", "#EE8CF5", "#A9D65C", "#FF8E8E", "#6CC5F5", "#CF9BFF"];

/**
 * The colour of a person.
 * @param {number} site from 1
 * @param {boolean} dark
 */
export const personColour = (site, dark) => (dark ? PEOPLE_DARK : PEOPLE)[(site - 1) % PEOPLE.length];
