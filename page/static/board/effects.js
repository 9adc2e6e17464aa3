// What lines will do to the drawing, as far as this page can say, so that it can be shown before the node has.

import { unescaped } from "../core/lines.js";

/** @typedef {import("../core/types.js").Change} Change */
/** @typedef {import("./model.js").Model} Model */
/**
 * What a line does to one object.
 * @typedef {object} Effect
 * @property {string} id
 * @property {number} line its place in the batch, from 0
 * @property {Change} [change]
 * @property {boolean} [isGone]
 * @property {Plain} [made]
 */
/**
 * What a line does to the order of the objects.
 * @typedef {object} Turn
 * @property {"create" | "delete" | "group" | "ungroup" | "raise" | "lower"} op
 * @property {string} id
 * @property {number} line
 * @property {Plain} [made]
 * @property {string[]} [members]
 */

/** The looks that are no stroke, fill or width, as lines name them and as the page does. */
const LOOKS = new Map([["dash", "dash"], ["heads", "heads"], ["round", "round"], ["opacity", "opacity"], ["size", "letters"], ["align", "side"]]);
const NUMBERS = new Set(["round", "opacity", "size"]);
/** What has no mark of its own. @type {[string, any][]} */
const USUAL = [["dash", "solid"], ["heads", "none"], ["opacity", 100]];

/** @type {Pick<Plain, "stroke" | "fill" | "width" | "label">} */
const LOOK = { stroke: "000000", fill: null, width: 1, label: "" };

/**
 * The words of a line, and the label behind them.
 * @param {string} text
 * @returns {{op: string, words: string[], label: string}}
 */
export function wordsOf(text) {
  const op = text.slice(0, text.includes(" ") ? text.indexOf(" ") : text.length);
  const count = op === "create" ? 6 : op === "connect" ? 3 : op === "text" ? 2 : Infinity;
  const words = [];
  let at = 0;
  while (words.length < count && at <= text.length) {
    const space = text.indexOf(" ", at);
    const end = space < 0 ? text.length : space;
    words.push(text.slice(at, end));
    at = end + 1;
  }
  return { op, words, label: unescaped(text.slice(at)) };
}

/** Goes through the lines of a batch, and notes what each does. */
export class Foresight {
  /** @param {Model} model */
  constructor(model) {
    this.model = model;
    /** @type {Effect[]} */
    this.effects = [];
    /** @type {Turn[]} */
    this.turns = [];
    /** @type {Map<string, Plain>} objects as they are behind the lines so far */
    this.plains = new Map();
    /** @type {Map<string, string[]>} the members of groups that were made by these lines */
    this.members = new Map();
    this.line = 0;
  }

  /** @param {string} id */
  plain(id) {
    return this.plains.get(id) ?? this.model.plains.get(this.model.byId.get(id)?.id);
  }

  /**
   * @param {string} text a line, with ids of objects alone
   * @param {string} name how what it makes is called
   */
  take(text, name) {
    const { op, words, label } = wordsOf(text);
    const id = words[1];
    if (op === "create") this.create(words, label, name);
    else if (op === "connect") this.connect(words[1], words[2], label, name);
    else if (op === "group") this.group(words.slice(1), name);
    else if (this.plain(id)) this.change(op, id, words, label);
    this.line += 1;
  }

  /**
   * @param {string[]} words
   * @param {string} label
   * @param {string} name
   */
  create([, kind, ...numbers], label, name) {
    const [x, y, w, h] = numbers.map(Number);
    const shape = /** @type {import("../core/types.js").ShapeKind} */ (kind);
    this.make("create", { ...LOOK, id: name, kind: shape, parent: null, x, y, w, h, label });
  }

  /**
   * @param {string} from
   * @param {string} to
   * @param {string} label
   * @param {string} name
   */
  connect(from, to, label, name) {
    const parent = /** @type {string | null} */ (null);
    const made = { ...LOOK, id: name, kind: /** @type {"connector"} */ ("connector"), parent, x: 0, y: 0, w: 0, h: 0, label, looks: { heads: /** @type {"end"} */ ("end") }, from, to };
    this.make("create", made);
  }

  /**
   * @param {string[]} members
   * @param {string} name
   */
  group(members, name) {
    this.make("group", { ...LOOK, id: name, kind: "group", parent: null, x: 0, y: 0, w: 0, h: 0 }, members);
    this.members.set(name, members);
    for (const member of members) this.set(member, { parent: name });
  }

  /**
   * @param {"create" | "group"} op
   * @param {Plain} made
   * @param {string[]} [members]
   */
  make(op, made, members) {
    this.plains.set(made.id, made);
    this.effects.push({ id: made.id, line: this.line, made });
    this.turns.push({ op, id: made.id, line: this.line, made, members });
  }

  /**
   * @param {string} op
   * @param {string} id
   * @param {string[]} words
   * @param {string} label
   */
  change(op, id, words, label) {
    const [first, second] = [Number(words[2]), Number(words[3])];
    if (op === "move") this.move(id, first, second);
    else if (op === "resize") this.set(id, { w: first, h: second });
    else if (op === "text") this.set(id, { label });
    else if (op === "reconnect") this.set(id, { from: words[2], to: words[3] });
    else if (op === "style") this.style(id, words.slice(2));
    else if (LOOKS.has(op)) this.style(id, [op, words[2]]);
    else if (op === "width") this.set(id, { width: first });
    else if (op === "stroke") this.set(id, { stroke: words[2].toUpperCase() });
    else if (op === "fill") this.set(id, { fill: words[2] === "none" ? null : words[2].toUpperCase() });
    else this.restack(op, id);
  }

  /**
   * @param {string} id
   * @param {Change} change
   */
  set(id, change) {
    const plain = this.plain(id);
    if (!plain) return;
    this.plains.set(id, { ...plain, ...change });
    this.effects.push({ id, line: this.line, change });
  }

  /**
   * @param {string} id
   * @param {string[]} pairs names and values in turn
   */
  style(id, pairs) {
    /** @type {Change} */
    const change = {};
    const looks = /** @type {Record<string, any>} */ ({ ...this.plain(id)?.looks });
    for (let at = 0; at + 1 < pairs.length; at += 2) {
      const [name, value] = [pairs[at], pairs[at + 1]];
      if (name === "stroke") change.stroke = value.toUpperCase();
      else if (name === "fill") change.fill = value === "none" ? null : value.toUpperCase();
      else if (name === "width") change.width = Number(value);
      else looks[LOOKS.get(name) ?? name] = NUMBERS.has(name) ? Number(value) : value;
    }
    for (const [name, usual] of USUAL) if (looks[name] === usual) delete looks[name];
    this.set(id, { ...change, looks });
  }

  /**
   * Moves an object, and all that is in it.
   * @param {string} id
   * @param {number} x
   * @param {number} y
   */
  move(id, x, y) {
    const { x: fromX, y: fromY } = this.plain(id);
    for (const each of this.under(id)) {
      const plain = this.plain(each);
      if (plain) this.set(each, { x: plain.x + x - fromX, y: plain.y + y - fromY });
    }
  }

  /**
   * An object and all that is in it.
   * @param {string} id
   */
  under(id) {
    const all = [id];
    for (let at = 0; at < all.length; at += 1) all.push(...this.membersOf(all[at]));
    return all;
  }

  /** @param {string} id */
  membersOf(id) {
    return this.members.get(id) ?? this.model.members.get(this.model.byId.get(id)?.id) ?? [];
  }

  /**
   * @param {string} op
   * @param {string} id
   */
  restack(op, id) {
    if (op === "ungroup") for (const member of this.membersOf(id)) this.set(member, { parent: this.plain(id).parent });
    const gone = op === "delete" ? this.under(id) : op === "ungroup" ? [id] : [];
    for (const each of gone) this.effects.push({ id: each, line: this.line, isGone: true });
    this.turns.push({ op: /** @type {Turn["op"]} */ (op), id, line: this.line });
  }
}
