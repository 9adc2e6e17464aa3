// The members of groups, and the boxes around them.

import { around, boxOf } from "./boxes.js";

/** @typedef {import("./model.js").Model} Model */

/**
 * Finds the members of all groups anew, and the boxes of these.
 * @param {Model} model
 */
export function arrange(model) {
  model.members = new Map();
  const groups = [];
  for (const item of model.items) {
    if (item.kind === "group") groups.push(item.id);
    if (!item.parent) continue;
    const members = model.members.get(item.parent);
    if (members) members.push(item.id);
    else model.members.set(item.parent, [item.id]);
  }
  // A group stands before its members, so the inner ones are boxed first.
  for (const id of groups.reverse()) boxGroup(model, id);
}

/**
 * Boxes groups anew, and those that they are in.
 * @param {Model} model
 * @param {Set<string>} ids
 */
export function boxGroups(model, ids) {
  /** @type {Map<string, number>} how deep each is */
  const deep = new Map();
  for (const id of ids) {
    const chain = chainOf(model, id);
    chain.forEach((each, at) => deep.set(each, chain.length - at));
  }
  for (const [id] of [...deep].sort((a, b) => b[1] - a[1])) boxGroup(model, id);
}

/**
 * A group and those that it is in, from the inside.
 * @param {Model} model
 * @param {string} id
 */
function chainOf(model, id) {
  const chain = [];
  for (let at = model.byId.get(id); at; at = model.byId.get(at.parent)) chain.push(at.id);
  return chain;
}

/**
 * @param {Model} model
 * @param {string} id
 */
function boxGroup(model, id) {
  const group = model.byId.get(id);
  if (!group) return;
  const boxes = (model.members.get(id) ?? []).map((member) => model.byId.get(member)?.box);
  group.box = around(boxes) ?? boxOf(group.x, group.y, 0, 0);
}
