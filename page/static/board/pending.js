// What was typed and isn't shown by the node yet. It is shown at once, over the node's picture, and goes when a picture has it.

/** @typedef {import("../core/types.js").Change} Change */
/** @typedef {import("../core/picture.js").Picture} Picture */
/** @typedef {import("../core/picture.js").Difference} Difference */
/** @typedef {import("./effects.js").Effect} Effect */
/** @typedef {import("./effects.js").Turn} Turn */
/** @typedef {import("./model.js").Model} Model */

/** The effects of one batch, by the objects that they change. */
export class Layer {
  /**
   * @param {Effect[]} effects
   * @param {Turn[]} turns
   */
  constructor(effects, turns) {
    this.effects = effects;
    this.turns = turns;
    /** The number that a picture has at least which holds the batch, once that is known. @type {number | null} */
    this.edits = null;
    this.index();
  }

  index() {
    /** @type {Map<string, Effect[]>} */
    this.byId = new Map();
    for (const effect of this.effects) {
      const list = this.byId.get(effect.id);
      if (list) list.push(effect);
      else this.byId.set(effect.id, [effect]);
    }
  }

  /**
   * Leaves out what lines would have done that were refused.
   * @param {Set<number>} refused
   */
  without(refused) {
    this.effects = this.effects.filter((effect) => !refused.has(effect.line));
    this.turns = this.turns.filter((turn) => !refused.has(turn.line));
    this.index();
  }

  /**
   * Calls objects by the ids that the node gave them.
   * @param {Map<string, string>} names
   */
  rename(names) {
    /** @param {string} id */
    const named = (id) => names.get(id) ?? id;
    for (const effect of this.effects) {
      effect.id = named(effect.id);
      if (effect.made) effect.made = { ...effect.made, id: effect.id };
      if (effect.change?.parent) effect.change = { ...effect.change, parent: named(effect.change.parent) };
      if (effect.change?.from) effect.change = { ...effect.change, from: named(effect.change.from), to: named(effect.change.to) };
      if (effect.made?.from) effect.made = { ...effect.made, from: named(effect.made.from), to: named(effect.made.to) };
    }
    for (const turn of this.turns) {
      turn.id = named(turn.id);
      turn.members = turn.members?.map(named);
    }
    this.index();
  }

  /** Whether the order of what was there changes. */
  get isReordering() {
    return this.turns.some((turn) => turn.op !== "create" && turn.op !== "delete");
  }

  /** Whether the order changes where it doesn't count after all. What wasn't deleted has to go back to its place. */
  get isReorderingBack() {
    return this.turns.some((turn) => turn.op !== "create");
  }
}

export class Pending {
  /**
   * @param {Picture} picture what the node shows
   * @param {Model} model what the board shows
   * @param {() => boolean} isPast whether that is the past, and nothing of this
   */
  constructor(picture, model, isPast) {
    this.picture = picture;
    this.model = model;
    this.isPast = isPast;
    /** @type {Layer[]} */
    this.layers = [];
    /** The number of the last picture. */
    this.edits = -1;
  }

  /**
   * An object as the board is to show it, or null.
   * @param {string} id
   */
  plain(id) {
    let plain = this.picture.get(id);
    for (const layer of this.layers) for (const effect of layer.byId.get(id) ?? []) plain = applied(plain, effect);
    return plain;
  }

  /** All objects as the board is to show them, in their order. */
  inOrder() {
    const order = this.layers.length ? this.turned() : this.picture.inOrder();
    return this.layers.length ? order.map(({ id }) => this.plain(id)).filter(Boolean) : order;
  }

  /** The objects in their order behind all layers, as the node shows them or as they were made. */
  turned() {
    const tree = new Tree(this.picture.inOrder());
    for (const layer of this.layers) for (const turn of layer.turns) tree.turn(turn);
    return tree.inOrder();
  }

  /** @param {Layer} layer */
  add(layer) {
    this.layers.push(layer);
    this.show(new Set(layer.byId.keys()), layer.isReordering);
  }

  /**
   * A batch was answered.
   * @param {Layer} layer
   * @param {Set<number>} refused the lines that were refused, from 0
   * @param {Map<string, string>} names the ids of what it made
   * @param {number} edits
   */
  answered(layer, refused, names, edits) {
    const touched = new Set(layer.byId.keys());
    const isReordering = layer.isReorderingBack && refused.size > 0;
    layer.without(refused);
    for (const each of this.layers) each.rename(names);
    layer.edits = edits;
    if (!this.isPast()) this.model.rename(names);
    for (const [name, id] of names) if (touched.delete(name)) touched.add(id);
    if (refused.size) this.show(touched, isReordering);
    if (edits <= this.edits) this.pictured({ changed: new Set(), gone: new Set(), isReordered: false }, this.edits, false);
  }

  /**
   * Forgets a batch that won't be shown.
   * @param {Layer} layer
   */
  drop(layer) {
    if (!this.layers.includes(layer)) return;
    this.layers = this.layers.filter((each) => each !== layer);
    this.show(new Set(layer.byId.keys()), layer.isReorderingBack);
  }

  /**
   * The node shows something else.
   * @param {Difference} difference
   * @param {number} edits
   * @param {boolean} whole whether the picture is of a connection that was begun anew
   */
  pictured(difference, edits, whole) {
    this.edits = edits;
    const ids = new Set([...difference.changed, ...difference.gone]);
    let isReordered = difference.isReordered;
    const done = this.layers.filter((layer) => layer.edits !== null && (whole || layer.edits <= edits));
    this.layers = this.layers.filter((layer) => !done.includes(layer));
    // What the board doesn't have yet goes on top of it. In the picture it may lie below what a batch made.
    const isNews = [...difference.changed].some((id) => !this.model.byId.has(id));
    for (const layer of done) {
      for (const id of layer.byId.keys()) ids.add(id);
      isReordered ||= layer.isReordering || (isNews && layer.turns.length > 0) || !this.isOnTop(layer);
    }
    this.show(ids, isReordered);
  }

  /**
   * Whether what a batch made lies on top in the picture as the board has it.
   * @param {Layer} layer
   */
  isOnTop(layer) {
    let at = this.model.items.length - 1;
    let place = this.picture.top;
    for (let count = layer.turns.length; count > 0 && place; count -= 1) {
      if (this.model.items[at]?.id !== place.id) return false;
      place = place.under;
      at -= 1;
    }
    return true;
  }

  /**
   * @param {Set<string>} ids
   * @param {boolean} isReordered
   */
  show(ids, isReordered) {
    if (this.isPast()) return;
    const order = isReordered ? this.inOrder() : null;
    this.model.patch(order ? new Map() : new Map([...ids].map((id) => [id, this.plain(id)])), order);
  }

  /** Shows all anew, behind a look at the past. */
  showAll() {
    this.model.show(this.inOrder());
  }
}

/**
 * @param {Plain | null} plain
 * @param {Effect} effect
 */
function applied(plain, effect) {
  if (effect.made) return plain ?? effect.made;
  if (!plain || effect.isGone) return null;
  return { ...plain, ...effect.change };
}

/** The stack with its groups, in which objects can be put elsewhere. */
class Tree {
  /** @param {Plain[]} order */
  constructor(order) {
    /** @type {Map<string, Plain>} */
    this.plains = new Map();
    /** @type {Map<string | null, string[]>} */
    this.members = new Map([[null, []]]);
    /** @type {Map<string, string | null>} */
    this.parents = new Map();
    for (const plain of order) this.put(plain, plain.parent);
  }

  /**
   * @param {Plain} plain
   * @param {string | null} parent
   */
  put(plain, parent) {
    this.plains.set(plain.id, plain);
    this.link(plain.id, parent);
  }

  /**
   * @param {string} id
   * @param {string | null} parent
   */
  link(id, parent) {
    this.parents.set(id, parent);
    const list = this.members.get(parent);
    if (list) list.push(id);
    else this.members.set(parent, [id]);
  }

  /** @param {string} id */
  list(id) {
    return this.members.get(this.parents.get(id)) ?? [];
  }

  /** @param {string} id */
  unlink(id) {
    const list = this.list(id);
    const at = list.indexOf(id);
    if (at >= 0) list.splice(at, 1);
    return at;
  }

  /** @param {Turn} turn */
  turn(turn) {
    const { op, id } = turn;
    if (turn.made) {
      if (!this.plains.has(id)) this.put(turn.made, null);
      for (const member of turn.members ?? []) if (this.unlink(member) >= 0) this.link(member, id);
      return;
    }
    if (!this.plains.has(id)) return;
    const list = this.list(id);
    const at = this.unlink(id);
    if (at < 0) return;
    if (op === "raise") list.push(id);
    else if (op === "lower") list.unshift(id);
    else if (op === "ungroup") list.splice(at, 0, ...this.freed(id));
  }

  /**
   * The members of a group, which are in that group's own group then.
   * @param {string} id
   */
  freed(id) {
    const members = this.members.get(id) ?? [];
    for (const member of members) this.parents.set(member, this.parents.get(id));
    return members;
  }

  inOrder() {
    /** @type {Plain[]} */
    const order = [];
    const stack = [...this.members.get(null)].reverse();
    while (stack.length) {
      const id = stack.pop();
      order.push(this.plains.get(id));
      const members = this.members.get(id) ?? [];
      for (let at = members.length - 1; at >= 0; at -= 1) stack.push(members[at]);
    }
    return order;
  }
}
