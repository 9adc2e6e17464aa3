// Which objects are selected, and which group was entered.

/** @typedef {import("./model.js").Model} Model */

export class Selection {
  /** @param {Model} model */
  constructor(model) {
    this.model = model;
    /** @type {Set<string>} */
    this.ids = new Set();
    /** @type {string | null} the group that was entered */
    this.scope = null;
    /** @type {() => void} */
    this.hear = () => {};
  }

  /**
   * @param {Iterable<string>} ids
   * @param {string | null} [scope]
   */
  set(ids, scope = this.scope) {
    this.ids = new Set(ids);
    this.scope = scope;
    this.prune();
    this.hear();
  }

  /** @param {string} id */
  toggle(id) {
    const ids = new Set(this.ids);
    if (!ids.delete(id)) ids.add(id);
    this.set(ids);
  }

  clear() {
    this.set([], null);
  }

  /** @param {string} id */
  enter(id) {
    this.set([], id);
  }

  leave() {
    const was = this.scope;
    this.set([was], this.model.byId.get(was)?.parent ?? null);
  }

  /** Forgets what isn't shown any more. Says whether there was something to forget. */
  prune() {
    const { size } = this.ids;
    const was = this.scope;
    if (this.scope && !this.model.byId.has(this.scope)) this.scope = null;
    for (const id of this.ids) if (!this.model.byId.has(id)) this.ids.delete(id);
    return size !== this.ids.size || was !== this.scope;
  }

  /**
   * Calls objects by other names, which the node gave them.
   * @param {Map<string, string>} names
   */
  rename(names) {
    if (this.scope) this.scope = names.get(this.scope) ?? this.scope;
    this.ids = new Set([...this.ids].map((id) => names.get(id) ?? id));
  }

  /** What is selected, from bottom to top. */
  list() {
    const items = /** @type {Item[]} */ ([...this.ids].map((id) => this.model.byId.get(id)).filter(Boolean));
    return items.sort((a, b) => a.z - b.z);
  }

  /** The shapes that a style goes to. */
  shapes() {
    return this.model.leavesOf(this.ids);
  }
}
