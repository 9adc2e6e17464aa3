// A drawing as the program writes it in JSON: docs/FORMATS.md, section 10.

import { isLabel } from "../core/lines.js";

const SHAPES = new Set(["rect", "ellipse", "line", "text"]);
const COLOUR = /^[0-9A-F]{6}$/;

/**
 * @param {string} text
 * @returns {Plain[] | null}
 */
export function readJson(text) {
  try {
    const given = JSON.parse(text);
    if (!Array.isArray(given) || !given.length) return null;
    const items = given.map(itemOf);
    return items.every(Boolean) ? /** @type {Plain[]} */ (items) : null;
  } catch {
    return null;
  }
}

/** @param {unknown} value @returns {value is [number, number]} */
const isPair = (value) => Array.isArray(value) && value.length === 2 && value.every(Number.isInteger);

/**
 * @param {any} given
 * @returns {Plain | null}
 */
function itemOf(given) {
  if (!given || typeof given.id !== "string" || !isPair(given.at)) return null;
  const place = { id: given.id, parent: typeof given.in === "string" ? given.in : null, x: given.at[0], y: given.at[1] };
  if (given.kind === "group") return { ...place, kind: "group", w: 0, h: 0, stroke: "000000", fill: null, width: 1, label: "" };
  const { kind, size, stroke, fill, width, label } = given;
  const isLook = COLOUR.test(stroke) && (fill === null || COLOUR.test(fill)) && width >= 1 && width <= 64;
  if (!SHAPES.has(kind) || !isPair(size) || !isLook || typeof label !== "string" || !isLabel(label)) return null;
  return { ...place, kind, w: size[0], h: size[1], stroke, fill, width, label };
}
