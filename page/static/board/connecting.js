// Connectors: one is drawn from a dot of what is selected to another object, and an end of one can be dragged to another object.

import { nearOf, objectAt } from "./aim.js";
import { borderOf, endOf } from "./joins.js";
import { connectLines } from "./making.js";

/** @typedef {import("./acts.js").Act} Act */
/** @typedef {import("./gestures.js").Gestures} Gestures */

/**
 * What a new connector looks like: as a line that is made now, with a head at its end.
 * @param {Ed} ed
 */
export const styleOf = (ed) => ({ ...ed.styleFor("line"), label: "", looks: { heads: /** @type {"end"} */ ("end") } });

/**
 * The object to which a connector can lead at a place: any but the other end, and no connector.
 * @param {Gestures} gestures
 * @param {Place} at
 * @param {MouseEvent} event
 * @param {string} other
 */
function goalAt({ ed }, at, event, other) {
  const item = objectAt(ed, at, event) ?? ed.model.visible(around(at, nearOf(ed, event))).reverse().find((each) => isIn(each, at)) ?? null;
  return item && item.kind !== "connector" && item.id !== other ? item : null;
}

/** @param {Place} at @param {number} near */
const around = ({ x, y }, near) => ({ x0: x - near, y0: y - near, x1: x + near, y1: y + near });

/** @param {Item} item @param {Place} at */
const isIn = ({ box, kind }, { x, y }) => kind !== "connector" && x >= box.x0 && x <= box.x1 && y >= box.y0 && y <= box.y1;

/**
 * What is seen while a connector is drawn.
 * @param {Ed} ed
 * @param {string} fixed the end that stays
 * @param {[number, number]} to
 * @param {boolean} isBack whether the end that stays is the second one
 */
function ghostOf(ed, fixed, to, isBack) {
  const end = endOf(ed.model, fixed);
  const from = end ? borderOf(end, to) : to;
  const ends = /** @type {import("../core/types.js").Ends} */ (isBack ? [...to, ...from] : [...from, ...to]);
  const [x0, y0, x1, y1] = ends;
  const box = { x0: Math.min(x0, x1), y0: Math.min(y0, y1), x1: Math.max(x0, x1), y1: Math.max(y0, y1) };
  const place = { parent: /** @type {string | null} */ (null), x: 0, y: 0, w: 0, h: 0, by: 0, z: 0, box, ends };
  return { ...styleOf(ed), id: "new", kind: /** @type {"connector"} */ ("connector"), ...place };
}

/**
 * The act of drawing a connector from an object.
 * @param {Gestures} gestures
 * @param {Item} from
 * @returns {Act}
 */
export function connecting(gestures, from) {
  const { ed } = gestures;
  /** @type {Item | null} */
  let goal = null;
  return {
    begin: () => gestures.busy("connect"),
    move: (at, event) => {
      goal = goalAt(gestures, at, event, from.id);
      ed.hover = goal?.id ?? null;
      ed.ghosts = [ghostOf(ed, from.id, [at.x, at.y], false)];
      ed.touch("overlay");
    },
    drop: () => {
      if (goal) ed.edits.do("Connected two objects", connectLines(1, from.id, goal.id, styleOf(ed)), (names) => [names[0]]);
      else ed.say("A connector leads to another object");
    },
  };
}

/**
 * The act of dragging an end of a connector to another object.
 * @param {Gestures} gestures
 * @param {"start" | "end"} end
 * @param {Item} item
 * @returns {Act}
 */
export function reconnecting(gestures, end, item) {
  const { ed } = gestures;
  const fixed = end === "start" ? item.to : item.from;
  /** @type {Item | null} */
  let goal = null;
  return {
    begin: () => gestures.busy("connect"),
    move: (at, event) => {
      goal = goalAt(gestures, at, event, fixed);
      ed.hover = goal?.id ?? null;
      ed.ghosts = [{ ...ghostOf(ed, fixed, [at.x, at.y], end === "start"), looks: item.looks, stroke: item.stroke, width: item.width }];
      ed.touch("overlay");
    },
    drop: () => {
      if (!goal) return;
      const [from, to] = end === "start" ? [goal.id, item.to] : [item.from, goal.id];
      if (from !== item.from || to !== item.to) ed.edits.do("Connected another object", [`reconnect ${item.id} ${from} ${to}`]);
    },
  };
}
