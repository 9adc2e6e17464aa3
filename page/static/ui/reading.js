// What a text says of a drawing: printed lines, JSON of the program, or SVG.

import { readPrinted } from "../core/lines.js";
import { readJson } from "./reading_json.js";
import { readSvg } from "./reading_svg.js";

/** @typedef {import("../core/types.js").Plain} Drawn */

/**
 * The objects that a text describes, in paint order, and how many of its parts aren't any; or null where it describes none.
 * @param {string} text
 * @returns {{items: Drawn[], left: number} | null}
 */
export function readDrawing(text) {
  const given = text.trim();
  if (given.startsWith("<")) return readSvg(given);
  const items = given.startsWith("{") || given.startsWith("[") ? readJson(given) : readPrinted(given);
  return items && { items, left: 0 };
}
