// Where one looks, and what is chosen: to fit all, to walk through the objects, to leave off, and to only look.

import { count } from "./words.js";
import { around } from "../board/boxes.js";
import { LEAST } from "../board/camera.js";

const SLIM = 720;
const MEDIUM = 900;
const CARD = 118;

/**
 * Puts `pad`, `fit`, `walk`, `escape`, `focusBoard` and `setReadOnly` on `ed`.
 * @param {Ed} ed
 */
export function makeView(ed) {
  ed.pad = () => padOf(ed);
  ed.fit = () => fit(ed);
  ed.walk = (step) => walk(ed, step);
  ed.escape = () => escape(ed);
  ed.focusBoard = () => ed.board.focus({ preventScroll: true });
  ed.setReadOnly = (why) => {
    ed.readOnly = why;
    document.body.dataset.readonly = why ? "1" : "";
    ed.rested();
  };
}

/** @typedef {[number, number, number, number]} Pad */

/**
 * What the islands take at the top, right, bottom and left, in pixels.
 * @param {Ed} ed
 * @returns {Pad}
 */
function padOf(ed) {
  const { dataset } = document.body;
  const isSlim = innerWidth < SLIM;
  const isSheet = innerWidth <= MEDIUM && dataset.sheet === "1";
  const { offsetWidth, offsetHeight } = ed.stylePanel.host;
  const panel = innerWidth > MEDIUM && dataset.styled === "1" ? 232 : isSheet && !isSlim ? offsetWidth + 24 : 24;
  const drawer = dataset.drawer === "1" && !isSlim ? 276 : 24;
  const bottom = isSlim && isSheet ? offsetHeight + 16 : (isSlim ? 132 : 92) + (ed.history.at !== null ? CARD : 0);
  return [isSlim ? 76 : 84, panel, bottom, drawer];
}

/**
 * Shows all. Where that can't be at the smallest zoom, what lies around the middle of all, and says how many lie elsewhere.
 * @param {Ed} ed
 */
function fit(ed) {
  const pad = /** @type {Pad} */ (ed.pad().map((each) => each + 16));
  const all = ed.model.all();
  if (!all) return;
  const width = (ed.camera.width - pad[1] - pad[3]) / LEAST;
  const height = (ed.camera.height - pad[0] - pad[2]) / LEAST;
  if (all.x1 - all.x0 <= width && all.y1 - all.y0 <= height) {
    ed.camera.fit(all, pad);
    return;
  }
  const shapes = ed.model.items.filter((item) => item.kind !== "group");
  const [middleX, middleY] = [middle(shapes.map((item) => item.box.x0)), middle(shapes.map((item) => item.box.y0))];
  /** @param {Item} item */
  const isNear = ({ box }) => Math.abs(box.x0 - middleX) < width / 2 && Math.abs(box.y0 - middleY) < height / 2;
  const far = shapes.filter((item) => !isNear(item));
  ed.camera.fit(around(shapes.filter(isNear).map((item) => item.box)) ?? all, pad);
  const text = far.length === 1 ? "1 object lies far away" : `${count(far.length)} lie far away`;
  ed.banner({ text, action: "Go there", run: () => ed.camera.fit(far[0].box, pad), lasts: 8000 });
}

/** @param {number[]} values */
const middle = (values) => values.sort((a, b) => a - b)[Math.floor(values.length / 2)];

/**
 * Selects the next object, or the one before, brings it into view and says what it is.
 * @param {Ed} ed
 * @param {number} step
 */
function walk(ed, step) {
  const list = ed.model.items.filter((item) => item.parent === ed.selection.scope);
  if (!list.length) return;
  const at = list.findIndex((item) => ed.selection.ids.has(item.id));
  const next = list[(at + step + (at < 0 && step < 0 ? 1 : 0) + list.length) % list.length];
  ed.selection.set([next.id]);
  const box = ed.model.boxOf([next.id]);
  if (box) ed.camera.reveal(box, ed.pad());
  ed.say(`${ed.describe(next)}. ${list.indexOf(next) + 1} of ${list.length}`);
}

/**
 * Leaves off what is most in front: a gesture, a list of people, the past, a tool, a group, the selection, what is said.
 * @param {Ed} ed
 */
function escape(ed) {
  const { selection } = ed;
  if (ed.gestures.cancel()) ed.say("Left off");
  else if (ed.roster.isOpen) ed.roster.close();
  else if (document.body.dataset.sheet === "1") ed.sheet(false);
  else if (ed.history.at !== null) ed.history.toNow();
  else if (ed.tool !== "select") ed.setTool("select");
  else if (selection.scope) leaveGroup(ed, selection.scope);
  else if (selection.ids.size) selection.clear();
  else ed.banner(null);
}

/**
 * @param {Ed} ed
 * @param {string} scope
 */
function leaveGroup(ed, scope) {
  ed.selection.set([scope], ed.model.byId.get(scope)?.parent ?? null);
  ed.say("Left the group");
}
