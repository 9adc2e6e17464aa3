// A long text in parts that are labels each.

import { BREAK, bytesOf, MOST_LABEL } from "../core/lines.js";

const letters = new Intl.Segmenter(undefined, { granularity: "grapheme" });

/**
 * Cuts a text into labels, at its line breaks where that goes, then at spaces, then between letters. Nothing is left out
 * but the breaks and spaces at which it is cut.
 * @param {string} text with U+2028 for its line breaks
 * @returns {string[]}
 */
export function labelsOf(text) {
  /** @type {string[]} */
  const labels = [];
  let label = "";
  for (const line of text.split(BREAK)) {
    const longer = label ? `${label}${BREAK}${line}` : line;
    if (bytesOf(longer) <= MOST_LABEL) {
      label = longer;
      continue;
    }
    if (label.trim()) labels.push(label);
    const parts = wrapped(line);
    label = parts.pop() ?? "";
    labels.push(...parts);
  }
  if (label.trim()) labels.push(label);
  return labels;
}

/**
 * A line in parts, cut at spaces.
 * @param {string} line
 */
function wrapped(line) {
  /** @type {string[]} */
  const parts = [];
  let part = "";
  for (const word of line.split(/(?<= )/)) {
    if (bytesOf(part + word) <= MOST_LABEL) {
      part += word;
      continue;
    }
    if (part) parts.push(part.trimEnd());
    const pieces = chopped(word);
    part = pieces.pop() ?? "";
    parts.push(...pieces);
  }
  return [...parts, part];
}

/**
 * A word in parts, cut between letters.
 * @param {string} word
 */
function chopped(word) {
  /** @type {string[]} */
  const pieces = [];
  let piece = "";
  for (const { segment } of letters.segment(word)) {
    if (bytesOf(piece + segment) > MOST_LABEL) {
      pieces.push(piece);
      piece = "";
    }
    piece += segment;
  }
  return [...pieces, piece];
}
