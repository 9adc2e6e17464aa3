// The shown drawing: items with boxes, in paint order, by id and by place; and what a gesture previews over them.

import { around, grown, inside } from "./boxes.js";
import { Grid } from "./grid.js";
import { arrange, boxGroups } from "./groups.js";
import { Ids, isSame, itemOf } from "./items.js";
import { endsOf } from "./joins.js";

/** @typedef {import("../core/types.js").Change} Change */

/** So far beyond the window an item may still be seen, by its stroke. */
const EDGE = 40;
const FEW = 200;

export class Model {
  constructor() {
    /** @type {Item[]} in paint order */
    this.items = [];
    /** @type {Map<string, Item>} */
    this.byId = new Ids();
    /** @type {Map<string, string[]>} the members of each group, in paint order */
    this.members = new Map();
    this.grid = new Grid();
    /** @type {Map<string, Change>} what a gesture previews */
    this.over = new Map();
    /** @type {Map<string, Item>} items as they are previewed */
    this.shadow = new Map();
    /** @type {Box | null | undefined} around all, or unknown */
    this.bounds = null;
    /** @type {Map<string, Plain>} what each item was made of */
    this.plains = new Map();
    /** @type {Set<string>} the connectors */
    this.joined = new Set();
    /** @type {(boxes: Box[]) => void} told where the board looks different */
    this.hear = () => {};
  }

  /**
   * Shows these objects, in this order.
   * @param {Plain[]} plains
   */
  show(plains) {
    /** @type {Box[]} */
    const boxes = [];
    const wanted = new Map(plains.map((plain) => [plain.id, plain]));
    for (const item of this.items) if (!wanted.has(item.id)) this.drop(item.id, boxes);
    this.items = plains.map((plain, z) => this.put(plain, z, boxes));
    arrange(this);
    this.told(boxes);
  }

  /**
   * Shows some objects as they are now, without a look at the others.
   * @param {Map<string, Plain | null>} changes objects that are new or different, and null for those that are gone
   * @param {Plain[] | null} order all objects, where more has changed in their order than new ones on top
   */
  patch(changes, order) {
    if (order) {
      this.show(order);
      return;
    }
    /** @type {Box[]} */
    const boxes = [];
    const groups = new Set();
    let isGone = false;
    for (const [id, plain] of changes) {
      const was = this.byId.get(id);
      const parents = [was?.parent, plain?.parent];
      if (!plain) {
        isGone = this.drop(id, boxes) || isGone;
      } else {
        const z = was ? was.z : this.items.length;
        this.items[z] = this.put(plain, z, boxes);
      }
      if (was?.parent !== plain?.parent || plain?.kind === "group" || was?.kind === "group") groups.add("");
      for (const each of parents) if (each) groups.add(each);
    }
    if (isGone) this.close();
    if (groups.has("") || (isGone && groups.size)) arrange(this);
    else boxGroups(this, groups);
    this.told(boxes);
  }

  /**
   * @param {Plain} plain
   * @param {number} z
   * @param {Box[]} boxes
   */
  put(plain, z, boxes) {
    const was = this.byId.get(plain.id);
    if (was && isSame(this.plains.get(plain.id), plain)) {
      this.plains.set(plain.id, plain);
      if (was.z !== z) {
        if (was.kind !== "group") boxes.push(was.ink);
        was.z = z;
      }
      return was;
    }
    const item = itemOf(plain, z, plain.kind === "connector" ? endsOf(this, plain) : null);
    if (item.kind === "connector") this.joined.add(item.id);
    this.bound(was, item);
    this.byId.set(item.id, item);
    this.plains.set(item.id, plain);
    if (item.kind !== "group") {
      if (was && was.kind !== "group") boxes.push(was.ink);
      boxes.push(item.ink);
      this.grid.put(item);
    }
    return item;
  }

  /**
   * Keeps the box around all where one item becomes another. It is unknown where one that reached its edge does.
   * @param {Item | undefined} was
   * @param {Item | null} now
   */
  bound(was, now) {
    if (this.bounds === undefined) return;
    if (was && was.kind !== "group" && this.bounds && !inside(was.box, this.bounds)) this.bounds = undefined;
    else if (now && now.kind !== "group") this.bounds = around([this.bounds, now.box]);
  }

  /**
   * @param {string} id
   * @param {Box[]} boxes
   */
  drop(id, boxes) {
    const was = this.byId.get(id);
    if (!was || was.id !== id) return false;
    if (was.kind !== "group") boxes.push(was.ink);
    this.bound(was, null);
    this.grid.take(id);
    this.byId.delete(id);
    this.plains.delete(id);
    this.joined.delete(id);
    return true;
  }

  /**
   * Calls objects by the ids that the node gave them.
   * @param {Map<string, string>} names
   */
  rename(names) {
    for (const [name, id] of names) {
      const item = this.byId.get(name);
      if (!item || item.id !== name || this.byId.has(id)) continue;
      /** @type {Box[]} */
      const boxes = [];
      const plain = { ...this.plains.get(name), id };
      this.drop(name, boxes);
      this.items[item.z] = this.put(plain, item.z, boxes);
      /** @type {Ids} */ (this.byId).names.set(name, id);
      this.told(boxes);
    }
  }

  /** Closes the places of items that are gone. */
  close() {
    this.items = this.items.filter((item) => this.byId.get(item.id) === item);
    for (let z = 0; z < this.items.length; z += 1) this.items[z].z = z;
  }

  /** @param {Box[]} boxes */
  told(boxes) {
    this.join(boxes);
    for (const id of this.over.keys()) if (!this.byId.has(id)) this.over.delete(id);
    this.placeOver();
    this.hear(boxes);
  }

  /**
   * Puts connectors where their ends are now.
   * @param {Box[]} boxes
   */
  join(boxes) {
    if (!this.joined.size) return;
    this.shadow = new Map();
    for (const id of this.joined) {
      const was = this.byId.get(id);
      const plain = this.plains.get(id);
      const ends = endsOf(this, plain);
      if (was.ends?.every((place, index) => place === ends[index])) continue;
      const item = itemOf(plain, was.z, ends);
      this.bound(was, item);
      this.byId.set(id, item);
      this.items[was.z] = item;
      boxes.push(was.ink, item.ink);
      this.grid.put(item);
    }
  }

  /**
   * Shows items otherwise for as long as a gesture goes on.
   * @param {Map<string, Change>} over what is different, by id
   */
  preview(over) {
    this.over = over;
    this.placeOver();
    this.hear([]);
  }

  placeOver() {
    this.shadow = new Map();
    for (const [id, change] of this.over) {
      const item = this.byId.get(id);
      if (!item || item.kind === "group" || item.kind === "connector") continue;
      this.shadow.set(item.id, itemOf({ ...this.plains.get(item.id), ...change }, item.z));
    }
    if (!this.shadow.size) return;
    for (const id of this.joined) {
      const item = this.byId.get(id);
      const plain = { ...this.plains.get(id), ...this.over.get(id) };
      const ends = endsOf(this, plain);
      if (this.over.has(id) || !item.ends?.every((place, index) => place === ends[index])) this.shadow.set(id, itemOf(plain, item.z, ends));
    }
  }

  /**
   * An item as it is shown now.
   * @param {string} id
   */
  at(id) {
    return this.shadow.get(id) ?? this.byId.get(id);
  }

  /**
   * The shapes of an object: itself, or all in a group.
   * @param {string} id
   * @returns {Item[]}
   */
  leaves(id) {
    /** @type {Item[]} */
    const leaves = [];
    const stack = [this.byId.get(id)];
    while (stack.length) {
      const item = stack.pop();
      if (!item) continue;
      if (item.kind !== "group") leaves.push(item);
      else for (const member of this.members.get(item.id) ?? []) stack.push(this.byId.get(member));
    }
    return leaves;
  }

  /** @param {Iterable<string>} ids */
  leavesOf(ids) {
    /** @type {Set<Item>} */
    const leaves = new Set();
    for (const id of ids) for (const leaf of this.leaves(id)) leaves.add(leaf);
    return [...leaves];
  }

  /**
   * The box around objects as they are shown now.
   * @param {Iterable<string>} ids
   */
  boxOf(ids) {
    return around(this.leavesOf(ids).map((leaf) => this.at(leaf.id).box));
  }

  /** The box around all. */
  all() {
    if (this.bounds === undefined) this.bounds = around(this.items.map((item) => (item.kind === "group" ? null : item.box)));
    return this.bounds;
  }

  /**
   * The object that a click on an item means: its outermost group inside the one that was entered.
   * @param {Item} item
   * @param {string | null} scope
   * @returns {Item | null}
   */
  owner(item, scope) {
    let at = item;
    while (at.parent && at.parent !== scope) {
      const group = this.byId.get(at.parent);
      if (!group) break;
      at = group;
    }
    return scope && at.parent !== scope ? null : at;
  }

  /**
   * The groups in which an object is, from the inner one on.
   * @param {Item} item
   */
  groupsOf(item) {
    const groups = [];
    for (let at = this.byId.get(item.parent); at; at = this.byId.get(at.parent)) groups.push(at.id);
    return groups;
  }

  /**
   * Whether an object is one of these, or in one of them.
   * @param {Item} item
   * @param {Set<string>} ids
   */
  isUnder(item, ids) {
    for (let at = item; at; at = this.byId.get(at.parent)) if (ids.has(at.id)) return true;
    return false;
  }

  /**
   * What is seen in a box, in paint order.
   * @param {Box} box
   * @returns {Item[]}
   */
  visible(box) {
    const wide = grown(box, EDGE);
    const all = this.all();
    const isAll = all && wide.x0 <= all.x0 && wide.x1 >= all.x1 && wide.y0 <= all.y0 && wide.y1 >= all.y1;
    const found = this.items.length < FEW || isAll ? this.items.filter((item) => item.kind !== "group") : this.near(wide);
    return this.shadow.size ? found.map((item) => this.shadow.get(item.id) ?? item) : found;
  }

  /** @param {Box} box */
  near(box) {
    const found = this.grid.query(box);
    for (const id of this.shadow.keys()) found.add(this.byId.get(id));
    return [...found].sort((a, b) => a.z - b.z);
  }
}
