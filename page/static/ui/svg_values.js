// Values of SVG: colours, and transforms that move and scale.

/** @typedef {{sx: number, sy: number, x: number, y: number}} Transform */

/** @type {Transform} */
export const IDENTITY = { sx: 1, sy: 1, x: 0, y: 0 };
const CALL = /(\w+)\s*\(([^)]*)\)/g;
const NAMES = /** @type {Record<string, string>} */ ({
  black: "000000", white: "FFFFFF", red: "FF0000", green: "008000", blue: "0000FF", yellow: "FFFF00", orange: "FFA500",
  purple: "800080", pink: "FFC0CB", gray: "808080", grey: "808080", cyan: "00FFFF", magenta: "FF00FF", brown: "A52A2A",
  navy: "000080", teal: "008080", lime: "00FF00", silver: "C0C0C0", maroon: "800000", olive: "808000",
});

/**
 * A point behind a transform.
 * @param {Transform} transform
 * @param {number} x
 * @param {number} y
 * @returns {[number, number]}
 */
export const moved = ({ sx, sy, x: dx, y: dy }, x, y) => [x * sx + dx, y * sy + dy];

/**
 * A transform within another one.
 * @param {Transform} outer
 * @param {Transform} inner
 * @returns {Transform}
 */
export function chain(outer, inner) {
  const [x, y] = moved(outer, inner.x, inner.y);
  return { sx: outer.sx * inner.sx, sy: outer.sy * inner.sy, x, y };
}

/**
 * What a `transform` attribute says, or null where it turns or slants.
 * @param {string} text
 * @returns {Transform | null}
 */
export function parseTransform(text) {
  let all = IDENTITY;
  for (const [, name, given] of text.matchAll(CALL)) {
    const next = one(name, given.split(/[\s,]+/).filter(Boolean).map(Number));
    if (!next) return null;
    all = chain(all, next);
  }
  return all;
}

/**
 * @param {string} name
 * @param {number[]} numbers
 * @returns {Transform | null}
 */
function one(name, numbers) {
  if (!numbers.every(Number.isFinite)) return null;
  const [a = 0, b, c, d, e, f] = numbers;
  if (name === "translate") return { sx: 1, sy: 1, x: a, y: b ?? 0 };
  if (name === "scale") return { sx: a, sy: b ?? a, x: 0, y: 0 };
  if (name === "matrix" && numbers.length === 6 && !b && !c) return { sx: a, sy: d, x: e, y: f };
  return (name === "rotate" || name === "skewX" || name === "skewY") && !a ? IDENTITY : null;
}

/**
 * A colour as RRGGBB, or null for none and for what isn't known.
 * @param {string} value `#rgb`, `#rrggbb`, `rgb(..)` or a common name
 */
export function asHex(value) {
  const text = value.trim().toLowerCase();
  if (NAMES[text]) return NAMES[text];
  const short = /^#([0-9a-f])([0-9a-f])([0-9a-f])$/.exec(text);
  if (short) return short.slice(1).map((digit) => digit + digit).join("").toUpperCase();
  const long = /^#([0-9a-f]{6})([0-9a-f]{2})?$/.exec(text);
  if (long) return long[1].toUpperCase();
  const parts = /^rgba?\(\s*(\d+)[\s,]+(\d+)[\s,]+(\d+)/.exec(text);
  if (!parts) return null;
  return parts.slice(1, 4).map((part) => Math.min(255, Number(part)).toString(16).padStart(2, "0")).join("").toUpperCase();
}
