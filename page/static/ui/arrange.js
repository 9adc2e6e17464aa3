// What is done with several objects at once, each as one batch of lines: align, spread, group, ungroup, duplicate.

import { styleOf } from "../board/connecting.js";
import { copyLines } from "../board/edits.js";
import { connectLines } from "../board/making.js";
import { objectName } from "./deeds.js";
import { count } from "./words.js";

/** @typedef {"x0" | "y0"} Low */

/** As many objects as a group takes. */
const MOST_MEMBERS = 32;
/** For so many milliseconds a delete is offered to be taken back. */
const UNDO_LASTS = 7000;

/** How far a box goes, within the box around all, for each way to align. */
const WAYS = /** @type {Record<string, {name: string, by: (box: Box, all: Box) => [number, number]}>} */ ({
  alignL: { name: "left", by: (box, all) => [all.x0 - box.x0, 0] },
  alignC: { name: "at the centre", by: (box, all) => [(all.x0 + all.x1 - box.x0 - box.x1) / 2, 0] },
  alignR: { name: "right", by: (box, all) => [all.x1 - box.x1, 0] },
  alignT: { name: "at the top", by: (box, all) => [0, all.y0 - box.y0] },
  alignM: { name: "at the middle", by: (box, all) => [0, (all.y0 + all.y1 - box.y0 - box.y1) / 2] },
  alignB: { name: "at the bottom", by: (box, all) => [0, all.y1 - box.y1] },
});

/**
 * The selected objects, each with its box.
 * @param {Ed} ed
 */
const boxed = (ed) => ed.selection.list().map((item) => ({ item, box: /** @type {Box} */ (ed.model.boxOf([item.id])) }));

/**
 * The line that moves an object, or nothing where it stays.
 * @param {Item} item
 * @param {number} dx
 * @param {number} dy
 */
function moved(item, dx, dy) {
  const [x, y] = [Math.round(item.x + dx), Math.round(item.y + dy)];
  return x === item.x && y === item.y ? [] : [`move ${item.id} ${x} ${y}`];
}

/**
 * Aligns what is selected.
 * @param {Ed} ed
 * @param {string} way one of `alignL`, `alignC`, `alignR`, `alignT`, `alignM`, `alignB`
 */
export function align(ed, way) {
  const all = ed.model.boxOf(ed.selection.ids);
  if (!all) return;
  const { name, by } = WAYS[way];
  const list = boxed(ed);
  ed.edits.do(`Aligned ${count(list.length)} ${name}`, list.flatMap(({ item, box }) => moved(item, ...by(box, all))));
}

/**
 * Spreads what is selected, so that all gaps are the same. The first and the last stay.
 * @param {Ed} ed
 * @param {"x" | "y"} along
 */
export function spread(ed, along) {
  const [low, high] = along === "x" ? /** @type {const} */ (["x0", "x1"]) : /** @type {const} */ (["y0", "y1"]);
  const list = boxed(ed).sort((a, b) => a.box[low] - b.box[low]);
  const sizes = list.reduce((sum, { box }) => sum + box[high] - box[low], 0);
  const end = Math.max(...list.map(({ box }) => box[high]));
  const gap = (end - list[0].box[low] - sizes) / (list.length - 1);
  let at = list[0].box[low];
  const lines = [];
  for (const { item, box } of list) {
    const by = at - box[low];
    lines.push(...moved(item, along === "x" ? by : 0, along === "y" ? by : 0));
    at += box[high] - box[low] + gap;
  }
  ed.edits.do(`Spread ${count(list.length)} evenly`, lines);
}

/**
 * The lines that group these objects, as groups of groups where there are more than one takes.
 * @param {string[]} ids
 */
export function groupLines(ids) {
  /** @type {string[]} */
  const lines = [];
  let level = ids;
  while (level.length > 1) {
    /** @type {string[]} */
    const next = [];
    for (let at = 0; at < level.length; at += MOST_MEMBERS) {
      const part = level.slice(at, at + MOST_MEMBERS);
      if (part.length > 1) lines.push(`group ${part.join(" ")}`);
      next.push(part.length > 1 ? `@${lines.length}` : part[0]);
    }
    level = next;
  }
  return lines;
}

/** @param {Ed} ed */
export function group(ed) {
  const ids = ed.selection.list().map((item) => item.id);
  ed.edits.do(`Grouped ${count(ids.length)}`, groupLines(ids), (made) => [made.at(-1)]);
}

/** @param {Ed} ed */
export function ungroup(ed) {
  const groups = ed.selection.list().filter((item) => item.kind === "group");
  const members = groups.flatMap((each) => ed.model.members.get(each.id) ?? []);
  const name = groups.length === 1 ? "Dissolved a group" : `Dissolved ${groups.length} groups`;
  ed.edits.do(name, groups.map((each) => `ungroup ${each.id}`), () => members);
}

/**
 * A connector from the object that was selected first to the other one.
 * @param {Ed} ed
 */
export function connect(ed) {
  const [from, to] = ed.selection.ids;
  ed.edits.do("Connected two objects", connectLines(1, from, to, styleOf(ed)), (made) => [made[0]]);
}

/**
 * The selected objects and all in them, in painted order.
 * @param {Ed} ed
 */
export function withMembers({ model, selection }) {
  /** @param {Item | undefined} item */
  const isPicked = (item) => {
    for (let at = item; at; at = model.byId.get(at.parent ?? "")) if (selection.ids.has(at.id)) return true;
    return false;
  };
  const own = new Set(model.items.filter(isPicked).map(({ id }) => id));
  // A connector goes along where both its ends do.
  const isJoined = (/** @type {Item} */ item) => item.kind === "connector" && own.has(item.from ?? "") && own.has(item.to ?? "");
  return model.items.filter((item) => own.has(item.id) || isJoined(item));
}

/** @param {Ed} ed */
export function duplicate(ed) {
  const tops = ed.selection.list();
  const { lines, made } = copyLines(withMembers(ed), 20, 20);
  ed.edits.do(`Duplicated ${count(tops.length)}`, lines, (ids) => tops.map((top) => ids[(made.get(top.id) ?? 0) - 1]));
}

/**
 * Deletes what is selected, and offers to take that back, for as long as it is the last thing that was done.
 * @param {Ed} ed
 */
export async function remove(ed) {
  const { edits } = ed;
  const ids = ed.selection.list().map((item) => item.id);
  const name = `Deleted ${ids.length === 1 ? objectName(ed, ids[0]) : count(ids.length)}`;
  const { number } = ed.node.turns;
  await edits.do(name, ids.map((id) => `delete ${id}`));
  if (edits.typing || ed.node.turns.number === number || edits.due("undo") !== name) return;
  const banner = ed.banner({
    text: ed.node.sites > 1 ? `${name} for everybody` : name, icon: "trash", action: "Undo", key: "Mod+Z", lasts: UNDO_LASTS,
    run: () => (ed.readOnly ? ed.refuse([{ why: ed.readOnly }]) : edits.undo()),
  });
  edits.passed = () => banner?.remove();
}

/**
 * Goes into the selected group, or edits the text of the selected shape.
 * @param {Ed} ed
 */
export function enter(ed) {
  const [item] = ed.selection.list();
  if (item.kind !== "group") {
    ed.editor.open(item.id);
    return;
  }
  const [first] = ed.model.members.get(item.id) ?? [];
  ed.selection.enter(item.id);
  if (first) ed.selection.set([first]);
  ed.say("Entered the group");
}

/** @param {Ed} ed */
export function selectAll(ed) {
  const { items } = ed.model;
  ed.selection.set(items.filter((item) => item.parent === ed.selection.scope).map((item) => item.id));
  ed.say(`${count(ed.selection.ids.size)} selected`);
}
