// Dragging what is selected: snapped to neighbours, copied while Alt is down. And moving it by arrows.

import { shifted } from "./boxes.js";
import { counted, isFree, moveLines } from "./acts.js";
import { copyLines } from "./making.js";
import { snapper } from "./snap.js";

/** @typedef {import("../core/types.js").Change} Change */
/** @typedef {import("../core/types.js").Ends} Ends */
/** @typedef {import("./acts.js").Act} Act */
/** @typedef {import("./gestures.js").Gestures} Gestures */

const { abs, round } = Math;

/**
 * @param {Item[]} leaves
 * @param {number} dx
 * @param {number} dy
 * @returns {Map<string, Change>}
 */
const movedBy = (leaves, dx, dy) =>
  new Map(leaves.filter(({ kind }) => kind !== "connector").map((leaf) => [leaf.id, { x: leaf.x + dx, y: leaf.y + dy }]));

/**
 * @param {Item} item
 * @param {number} dx
 * @param {number} dy
 * @returns {Item}
 */
function ghostOf(item, dx, dy) {
  const ends = item.ends && /** @type {Ends} */ (item.ends.map((place, index) => place + (index % 2 ? dy : dx)));
  return { ...item, box: shifted(item.box, dx, dy), ends };
}

/**
 * The act of dragging what is selected.
 * @param {Gestures} gestures
 * @returns {Act}
 */
export function dragging(gestures) {
  const { ed } = gestures;
  /** @type {Drag | null} */
  let drag = null;
  return {
    begin: () => {
      if (ed.readOnly) {
        ed.refuse([{ why: ed.readOnly }]);
        gestures.act = {};
      } else drag = new Drag(gestures);
    },
    move: (at, event) => drag?.move(at, event),
    drop: (_, event) => drag?.drop(event),
  };
}

class Drag {
  /** @param {Gestures} gestures */
  constructor(gestures) {
    const { ed } = gestures;
    this.ed = ed;
    this.gestures = gestures;
    this.from = gestures.pressed;
    this.tops = ed.selection.list();
    this.leaves = ed.model.leavesOf(ed.selection.ids);
    this.box = ed.model.boxOf(ed.selection.ids);
    this.snap = snapper(ed.model, ed.camera, new Set(this.leaves.map((leaf) => leaf.id)));
    this.dx = 0;
    this.dy = 0;
    gestures.busy("move");
  }

  /**
   * @param {Place} at
   * @param {MouseEvent} event
   */
  move(at, event) {
    const { ed, gestures } = this;
    this.goTo(at, event);
    gestures.showBusy(event.altKey ? "copy" : "move");
    if (event.altKey) {
      if (ed.model.over.size) ed.model.preview(new Map());
      ed.ghosts = this.leaves.map((leaf) => ({ ...ghostOf(leaf, this.dx, this.dy), faint: true }));
    } else {
      ed.ghosts = null;
      ed.model.preview(movedBy(this.leaves, this.dx, this.dy));
    }
  }

  /**
   * @param {Place} at
   * @param {MouseEvent} event
   */
  goTo(at, event) {
    let [dx, dy] = [at.x - this.from.x, at.y - this.from.y];
    if (event.shiftKey && abs(dx) > abs(dy)) dy = 0;
    else if (event.shiftKey) dx = 0;
    this.ed.guides = null;
    if (!isFree(event)) {
      const got = this.snap(shifted(this.box, dx, dy), event.shiftKey && !dx ? [] : undefined, event.shiftKey && !dy ? [] : undefined);
      dx += got.dx;
      dy += got.dy;
      this.ed.guides = got.guides;
    }
    this.dx = round(dx);
    this.dy = round(dy);
  }

  /** @param {MouseEvent} event */
  drop(event) {
    const { ed, tops, dx, dy } = this;
    if (!dx && !dy) return;
    if (event.altKey) this.copy();
    else ed.edits.do(`Moved ${counted(tops.length)}`, moveLines(tops, dx, dy));
  }

  copy() {
    const { ed, tops } = this;
    const ids = new Set(tops.map((top) => top.id));
    const items = ed.model.items.filter((item) => ed.model.isUnder(item, ids));
    const { lines, made } = copyLines(items, this.dx, this.dy);
    ed.edits.do(`Copied ${counted(tops.length)}`, lines, (names) => tops.map((top) => names[made.get(top.id) - 1]));
  }
}

const REST = 350;

/** Arrows in a row are one gesture: shown at once, and typed when they rest. */
export class Nudge {
  /** @param {Ed} ed */
  constructor(ed) {
    this.ed = ed;
    /** @type {Set<string> | null} what is being moved */
    this.ids = null;
    this.dx = 0;
    this.dy = 0;
    this.timer = 0;
  }

  /**
   * @param {number} dx
   * @param {number} dy
   */
  move(dx, dy) {
    const { ed } = this;
    if (ed.readOnly) {
      ed.refuse([{ why: ed.readOnly }]);
      return;
    }
    if (!this.ids) Object.assign(this, { ids: new Set(ed.selection.ids), dx: 0, dy: 0 });
    this.dx += dx;
    this.dy += dy;
    ed.model.preview(movedBy(ed.model.leavesOf(this.ids), this.dx, this.dy));
    clearTimeout(this.timer);
    this.timer = setTimeout(() => this.settle(), REST);
  }

  /** Settles where something else is selected now. */
  check() {
    const { ids } = this.ed.selection;
    if (this.ids && (ids.size !== this.ids.size || [...ids].some((id) => !this.ids.has(id)))) this.settle();
  }

  /** @param {Map<string, string>} names the ids of what was made */
  rename(names) {
    if (this.ids) this.ids = new Set([...this.ids].map((id) => names.get(id) ?? id));
  }

  settle() {
    const { ed, ids, dx, dy } = this;
    if (!ids) return;
    clearTimeout(this.timer);
    this.ids = null;
    ed.model.preview(new Map());
    const items = [...ids].map((id) => ed.model.byId.get(id)).filter(Boolean);
    if (!items.length || (!dx && !dy)) return;
    const what = items.length === 1 ? ed.kindName(items[0]).toLowerCase() : counted(items.length);
    ed.edits.do(`Moved ${what} to ${items[0].x + dx}, ${items[0].y + dy}`, moveLines(items, dx, dy));
  }
}
