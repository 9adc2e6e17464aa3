// The tool that selects: a click, a band, a drag of what is selected, a handle, an end of a line.

import { isInFrame, nearOf, objectAt } from "./aim.js";
import { boxOf, lineMeets, meet, ovalMeets, within } from "./boxes.js";
import { counted } from "./acts.js";
import { connecting, reconnecting } from "./connecting.js";
import { moveEnd } from "./ends.js";
import { handleAt } from "./handles.js";
import { itemAt } from "./hit.js";
import { dragging } from "./moving.js";
import { resizing } from "./resizing.js";

/** @typedef {import("./acts.js").Act} Act */
/** @typedef {import("./gestures.js").Gestures} Gestures */

/**
 * The act that a press with the tool begins.
 * @param {Gestures} gestures
 * @param {Place} at
 * @param {PointerEvent} event
 * @returns {Act}
 */
export function selecting(gestures, at, event) {
  const { ed } = gestures;
  const handle = handleAt(ed, at, event);
  if (handle?.dot) return connecting(gestures, handle.item);
  if (handle?.end) return (handle.item.kind === "connector" ? reconnecting : moveEnd)(gestures, handle.end, handle.item);
  if (handle) return resizing(gestures, handle.handle);
  const item = objectAt(ed, at, event);
  if (!item && !isInFrame(ed, at)) return banding(gestures, at, event);
  const was = item !== null && ed.selection.ids.has(item.id);
  if (item && event.shiftKey) return toggling(gestures, item, was);
  if (item && !was) ed.selection.set([item.id], item.parent);
  return {
    ...dragging(gestures),
    click: () => {
      if (item && was && ed.selection.ids.size > 1) ed.selection.set([item.id]);
    },
    double: (place) => openAt(gestures, item ?? ed.selection.list()[0], place, event),
  };
}

/**
 * A press with Shift: a click adds an object or takes it out, a drag adds it and moves all.
 * @param {Gestures} gestures
 * @param {Item} item
 * @param {boolean} was
 * @returns {Act}
 */
function toggling(gestures, item, was) {
  const { selection } = gestures.ed;
  const drag = dragging(gestures);
  return {
    ...drag,
    begin: (at, event) => {
      if (!was) selection.toggle(item.id);
      drag.begin(at, event);
    },
    click: () => selection.toggle(item.id),
  };
}

/**
 * A double click: a group is entered, the text of a shape is edited.
 * @param {Gestures} gestures
 * @param {Item | undefined} target
 * @param {Place} at
 * @param {PointerEvent} event
 */
function openAt(gestures, target, at, event) {
  const { ed } = gestures;
  if (!target || ed.readOnly) return;
  if (target.kind !== "group") {
    ed.editor.open(target.id);
    return;
  }
  const leaf = itemAt(ed.model, at.x, at.y, nearOf(ed, event));
  const inner = leaf && ed.model.owner(leaf, target.id);
  ed.selection.set(inner ? [inner.id] : [], target.id);
  ed.say("Entered the group");
}

/**
 * Whether a band means an item: what it touches, be it with a corner. A shape that has the whole band inside isn't meant, nor
 * a line or an ellipse that only its box meets.
 * @param {Item} item
 * @param {Box} band
 */
export function isMeant(item, band) {
  if (item.ends) return lineMeets(item.ends, band);
  if (item.kind === "ellipse") return ovalMeets(item.box, band);
  return meet(item.box, band) && (!within(band, item.box) || within(item.box, band));
}

/**
 * A band over what is to be selected; a click beside all selects nothing, and a second one writes.
 * @param {Gestures} gestures
 * @param {Place} from
 * @param {PointerEvent} event
 * @returns {Act}
 */
function banding(gestures, from, event) {
  const { ed } = gestures;
  const { model, selection } = ed;
  const before = event.shiftKey ? [...selection.ids] : [];
  const { scope } = selection;
  return {
    begin: () => gestures.busy("band"),
    move: (at) => {
      ed.band = boxOf(from.x, from.y, at.x - from.x, at.y - from.y);
      const ids = new Set(before);
      for (const item of model.grid.query(ed.band)) {
        const owner = isMeant(item, ed.band) ? model.owner(item, scope) : null;
        if (owner) ids.add(owner.id);
      }
      selection.set(ids);
    },
    drop: () => ed.say(selection.ids.size ? `${counted(selection.ids.size)} selected` : "Nothing selected"),
    click: () => {
      if (!event.shiftKey) selection.clear();
    },
    double: (at) => {
      const shape = wordlessAt(ed, at);
      if (shape) ed.editor.open(shape.id);
      else if (!ed.readOnly) ed.editor.openNew(Math.round(at.x), Math.round(at.y));
    },
  };
}

/**
 * The smallest unfilled shape without words in whose middle a place is: what is written there is meant for it.
 * @param {Ed} ed
 * @param {Place} at
 * @returns {Item | undefined}
 */
function wordlessAt({ model, selection }, at) {
  const size = (/** @type {Item} */ { box }) => (box.x1 - box.x0) * (box.y1 - box.y0);
  const found = [...model.grid.query(boxOf(at.x, at.y, 0, 0))].filter(
    (item) => isBox(item) && !item.fill && !item.label && item.parent === selection.scope && isInMiddle(item, at),
  );
  return found.sort((one, other) => size(one) - size(other))[0];
}

/** @param {Item} item */
const isBox = ({ kind }) => kind === "rect" || kind === "ellipse";

/**
 * Whether a place is in the middle half of a shape, along both sides.
 * @param {Item} item
 * @param {Place} at
 */
function isInMiddle({ box }, at) {
  const isNear = (/** @type {number} */ place, /** @type {number} */ from, /** @type {number} */ to) =>
    Math.abs(place - (from + to) / 2) <= Math.abs(to - from) / 4;
  return isNear(at.x, box.x0, box.x1) && isNear(at.y, box.y0, box.y1);
}
