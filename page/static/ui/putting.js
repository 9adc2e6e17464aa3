// What was deleted is put back from the history, whoever deleted it: as new objects that look as it did.

import { copyLines } from "../board/making.js";
import { count } from "./words.js";

/** @typedef {import("../core/types.js").Event} Event */

/**
 * These objects and all that is in them, in their order.
 * @param {Plain[]} plains each group before its members
 * @param {Set<string>} ids
 */
export function under(plains, ids) {
  const found = new Set(ids);
  return plains.filter((plain) => {
    if (plain.parent !== null && found.has(plain.parent)) found.add(plain.id);
    return found.has(plain.id);
  });
}

/**
 * What the deletes of a step took away, from bottom to top.
 * @param {Ed} ed
 * @param {Event[]} step
 * @param {number} at how many events are shown
 * @returns {Plain[]}
 */
export function takenBy(ed, step, at) {
  const gone = new Set(step.filter((event) => event.op === "delete").map((event) => event.id));
  return gone.size ? under(ed.node.itemsAt(at - step.length), gone) : [];
}

/**
 * Makes objects anew, now.
 * @param {Ed} ed
 * @param {Plain[]} plains each group before its members
 */
export function putBack(ed, plains) {
  const ids = new Set(plains.map((plain) => plain.id));
  const tops = plains.filter((plain) => !ids.has(plain.parent ?? ""));
  const { lines, made } = copyLines(plains, 0, 0);
  ed.history.toNow();
  ed.edits.do(`Put back ${count(tops.length)}`, lines, (names) => tops.map((top) => names[(made.get(top.id) ?? 0) - 1]));
  const box = ed.model.boxOf(ed.selection.ids);
  if (box) ed.camera.reveal(box, ed.pad());
}
