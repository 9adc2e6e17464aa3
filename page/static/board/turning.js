// Taking the last gesture back, and doing it again: one line `undo`, or `redo`, or as many as it took gestures of the node. What it is
// about the node knows, and the bridge how many lines that are. So nothing is foreseen here: it is shown once the node shows it.

import { refusalOf, whyOf } from "../core/node.js";
import { Touched, touches } from "../core/relations.js";
import { Layer } from "./pending.js";

/** @typedef {import("../core/types.js").Due} Due */
/** @typedef {import("../core/types.js").Event} Event */
/** @typedef {import("../core/types.js").Which} Which */
/** @typedef {import("./edits.js").Edits} Edits */

const SAID = { undo: "Undid", redo: "Did again" };
const NOTHING = { undo: "There is nothing to undo", redo: "There is nothing to do again" };
const DONE = { undo: "Undone", redo: "Done again" };

/**
 * Takes the last gesture back, or does the last one again that was taken back.
 * @param {Edits} edits
 * @param {Which} which
 */
export async function turn(edits, which) {
  const { ed, pending } = edits;
  if (ed.readOnly) return;
  ed.settle();
  edits.pass();
  const layer = new Layer([], []);
  pending.add(layer);
  /** @type {{gesture: Due | null}} which it is, once its turn has come */
  const due = { gesture: null };
  const lines = () => {
    due.gesture = ed.node.turns[which];
    return Array(due.gesture?.lines ?? 0).fill(which);
  };
  const name = edits.due(which) ?? "";
  const typing = edits.typed(which, name);
  try {
    const { answers, edits: number } = await ed.node.type(lines, name);
    pending.answered(layer, new Set(), new Map(), number);
    tell(edits, which, due.gesture, answers, layer);
  } catch (fault) {
    pending.drop(layer);
    ed.refuse([{ why: whyOf(fault) }]);
  } finally {
    edits.answered(typing);
  }
}

/**
 * Says what was turned, and what wasn't, and selects it once it is shown.
 * @param {Edits} edits
 * @param {Which} which
 * @param {Due | null} gesture
 * @param {string[]} answers
 * @param {Layer} layer
 */
function tell(edits, which, gesture, answers, layer) {
  const { ed, pending } = edits;
  const refused = answers.find((answer) => !answer.startsWith("ok "));
  if (refused) ed.refuse([{ why: refusalOf(refused) }]);
  const stamps = answers.flatMap((answer) => answer.split("\n")).filter((line) => line.startsWith("ok ")).map((line) => line.slice(3));
  if (!gesture || !stamps.length) {
    if (!refused) ed.say(NOTHING[which]);
    return;
  }
  ed.say(gesture.name ? `${SAID[which]}: ${gesture.name}` : SAID[which]);
  const { byStamp } = ed.node.history;
  edits.turned = () => {
    const events = stamps.map((stamp) => byStamp.get(stamp));
    if (pending.layers.includes(layer) || events.some((event) => !event)) return;
    edits.turned = null;
    select(ed, /** @type {Event[]} */ (events));
    const others = othersSince(ed, gesture);
    if (others) ed.banner({ text: `${DONE[which]}, without what ${others} changed there since`, lasts: 6000 });
  };
  edits.turned();
}

/**
 * Selects what events were about, where it is shown: in the group that was entered, else on the board.
 * @param {Ed} ed
 * @param {Event[]} events
 */
function select({ model, selection }, events) {
  const ids = new Set(events.flatMap((event) => [event.id, ...(event.op === "disband" ? event.ties.map((tie) => tie.id) : [])]));
  /** @param {string | null} scope */
  const within = (scope) => [...ids].filter((id) => model.byId.get(id)?.parent === scope);
  const { scope } = selection;
  const inside = within(scope);
  selection.set(inside.length ? inside : within(null), inside.length ? scope : null);
}

/**
 * Who has changed the same since a gesture, in words, or nothing where nobody has.
 * @param {Ed} ed
 * @param {Due} gesture
 */
function othersSince({ node, people }, { first, last }) {
  const own = node.events.filter(({ site, clock }) => site === node.site && first <= clock && clock <= last);
  const touched = new Touched();
  for (const event of own) touched.add(touches(event));
  const came = Math.min(...own.map((event) => event.came));
  const others = node.events.filter((event) => event.site !== node.site && event.came > came && touched.meets(touches(event)));
  return [...new Set(others.map((event) => event.site))].map((site) => people.name(site)).join(" and ");
}
