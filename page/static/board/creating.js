// Tools that make something: shapes, lines and texts.

import { nearOf } from "./aim.js";
import { boxOf, turned } from "./boxes.js";
import { isFree } from "./acts.js";
import { lineOf } from "./ends.js";
import { itemAt } from "./hit.js";
import { createLines } from "./making.js";
import { itemOf } from "./items.js";
import { snapper } from "./snap.js";
import { LEADING } from "./text.js";

/** @typedef {import("../core/types.js").ShapeKind} ShapeKind */
/** @typedef {import("./acts.js").Act} Act */
/** @typedef {import("./gestures.js").Gestures} Gestures */

const { abs, max, round, sign } = Math;
/** What a click makes. */
const USUAL = { w: 160, h: 80 };
const LEAST_TEXT = 40;
/** A drag that is shorter makes nothing. */
const LEAST = 2;

/**
 * Makes a shape, and selects it.
 * @param {Ed} ed
 * @param {ShapeKind} kind
 * @param {{x: number, y: number, w: number, h: number}} at
 */
function make(ed, kind, at) {
  const name = { rect: "Made a rectangle", ellipse: "Made an ellipse", line: "Made a line", text: "Wrote a text" }[kind];
  const lines = createLines(1, { ...ed.styleFor(kind), label: "", kind, ...at });
  ed.edits.do(name, lines, (names) => [names[0]]);
  if (!ed.lockTool) ed.setTool("select");
}

/**
 * What is seen while a shape is being made.
 * @param {Ed} ed
 * @param {ShapeKind} kind
 * @param {{x: number, y: number, w: number, h: number}} at
 */
const ghostOf = (ed, kind, at) => itemOf({ ...ed.styleFor(kind), id: "new", parent: null, label: "", kind, ...at }, 0);

/**
 * The act of drawing a rectangle or an ellipse. Shift makes it square, Alt draws from the middle, a click makes a usual one.
 * @param {Gestures} gestures
 * @param {Place} from
 * @returns {Act}
 */
export function creating(gestures, from) {
  const { ed } = gestures;
  const kind = /** @type {ShapeKind} */ (ed.tool);
  const snap = snapper(ed.model, ed.camera, new Set());
  let at = { x: 0, y: 0, w: 0, h: 0 };
  /**
   * How far the pointer went, as the keys say.
   * @param {Place} to
   * @param {MouseEvent} event
   */
  const wayTo = (to, event) => {
    const [dx, dy] = [to.x - from.x, to.y - from.y];
    ed.guides = null;
    if (event.shiftKey) {
      const size = max(abs(dx), abs(dy));
      return [size * (sign(dx) || 1), size * (sign(dy) || 1)];
    }
    if (isFree(event)) return [dx, dy];
    const got = snap(boxOf(from.x, from.y, dx, dy), [dx < 0 ? "x0" : "x1"], [dy < 0 ? "y0" : "y1"]);
    ed.guides = got.guides;
    return [dx + got.dx, dy + got.dy];
  };
  return {
    begin: () => {
      gestures.busy("create");
      ed.selection.clear();
    },
    move: (to, event) => {
      const [dx, dy] = wayTo(to, event);
      at = rounded(event.altKey ? boxOf(from.x - dx, from.y - dy, 2 * dx, 2 * dy) : boxOf(from.x, from.y, dx, dy));
      ed.ghosts = [ghostOf(ed, kind, at)];
    },
    drop: () => {
      if (at.w >= LEAST || at.h >= LEAST) make(ed, kind, { ...at, w: max(1, at.w), h: max(1, at.h) });
    },
    click: () => make(ed, kind, { x: round(from.x - USUAL.w / 2), y: round(from.y - USUAL.h / 2), ...USUAL }),
  };
}

/** @param {Box} box */
function rounded(box) {
  const [x, y] = [round(box.x0), round(box.y0)];
  return { x, y, w: round(box.x1) - x, h: round(box.y1) - y };
}

/**
 * The act of drawing a line.
 * @param {Gestures} gestures
 * @param {Place} from
 * @returns {Act}
 */
export function drawingLine(gestures, from) {
  const { ed } = gestures;
  const start = /** @type {[number, number]} */ ([from.x, from.y]);
  let at = lineOf(start, start);
  return {
    begin: () => {
      gestures.busy("create");
      ed.selection.clear();
    },
    move: (to, event) => {
      const end = event.shiftKey ? turned(start, [to.x, to.y]) : /** @type {[number, number]} */ ([to.x, to.y]);
      at = lineOf(start, end);
      ed.ghosts = [ghostOf(ed, "line", at)];
    },
    drop: () => make(ed, "line", at),
    click: () => make(ed, "line", { x: round(from.x - USUAL.w / 2), y: round(from.y), w: USUAL.w, h: 0 }),
  };
}

/**
 * The act of writing: a click begins a text there or edits that of a shape, a drag says how wide the text is.
 * @param {Gestures} gestures
 * @param {Place} from
 * @param {PointerEvent} event
 * @returns {Act}
 */
export function writing(gestures, from, event) {
  const { ed } = gestures;
  const item = itemAt(ed.model, from.x, from.y, nearOf(ed, event));
  const over = () => {
    if (!ed.lockTool) ed.setTool("select");
  };
  return {
    begin: () => gestures.busy("create"),
    move: (at) => {
      ed.band = boxOf(from.x, from.y, at.x - from.x, at.y - from.y);
    },
    drop: () => {
      const { x, y, w } = rounded(ed.band);
      over();
      ed.editor.openNew(x, y, max(LEAST_TEXT, w));
    },
    click: () => {
      over();
      if (item && !item.ends) {
        ed.selection.set([item.id], item.parent);
        ed.editor.open(item.id);
      } else ed.editor.openNew(round(from.x), round(from.y - (ed.styleFor("text").font * LEADING) / 2));
    },
  };
}
