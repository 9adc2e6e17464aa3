// What was written in a field becomes edits. Where these aren't done, the words are offered as a text of their own.

import { createLines } from "../board/edits.js";
import { escaped } from "../core/lines.js";
import { asTextBox } from "./fitting.js";
import { oneLine, shortened } from "./words.js";

/**
 * Makes a text.
 * @param {Ed} ed
 * @param {string} label
 * @param {Box} box
 */
export async function makeText(ed, label, box) {
  const size = { x: box.x0, y: box.y0, w: box.x1 - box.x0, h: box.y1 - box.y0 };
  const lines = createLines(1, { ...ed.styleFor("text"), ...size, kind: "text", label });
  if (!(await ed.edits.do("Wrote a text", lines, (ids) => [ids[0]]))) offer(ed, label, box, "The text wasn’t made");
}

/**
 * Gives an item another text, and the box that this needs.
 * @param {Ed} ed
 * @param {Item} item
 * @param {string} label
 * @param {Box} box
 */
export async function changeText(ed, item, label, box) {
  const lines = [`text ${item.id} ${escaped(label)}`];
  const [w, height] = [Math.round(box.x1 - box.x0), Math.round(box.y1 - box.y0)];
  const isSized = !item.ends && (w !== Math.abs(item.w) || height !== Math.abs(item.h));
  if (isSized) lines.push(`resize ${item.id} ${w} ${height}`);
  const [x, y] = [Math.round(box.x0), Math.round(box.y0)];
  if (isSized && (x !== item.x || y !== item.y)) lines.push(`move ${item.id} ${x} ${y}`);
  if ((await ed.edits.do("Changed a text", lines)) || !label) return;
  offer(ed, label, item.kind === "text" ? box : asTextBox(label, ed.styleFor("text").font, box), "The text wasn’t changed");
}

/**
 * Says that a text isn't where it was meant to be, with a button that puts it on the board.
 * @param {Ed} ed
 * @param {string} label
 * @param {Box} box
 * @param {string} why
 */
function offer(ed, label, box, why) {
  const text = `${why}. Yours is kept: “${shortened(oneLine(label), 60)}”`;
  ed.banner({ tone: "warn", text, action: "Put it on the board", run: () => makeText(ed, label, box) });
}
