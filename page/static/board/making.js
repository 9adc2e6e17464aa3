// The lines that make shapes, and copies of them. `@3` in a line stands for the id that the batch's third line makes.

import { BREAK, bytesOf, escaped, MOST_LABEL } from "../core/lines.js";

/** @typedef {Omit<Plain, "id" | "parent"> & {id?: string, parent?: string | null}} Fresh a shape to be made */

const { round } = Math;

/**
 * A text as a label: control characters but line feeds are spaces, and it is cut to 500 bytes.
 * @param {string} text
 */
export function fitLabel(text) {
  const letters = text.replace(/\r\n?|\n/g, BREAK).replace(/[\u0000-\u0009\u000b-\u001f\u007f-\u009f]/g, " ");
  if (bytesOf(letters) <= MOST_LABEL) return letters;
  let out = "";
  let size = 0;
  for (const { segment } of new Intl.Segmenter(undefined, { granularity: "grapheme" }).segment(letters)) {
    size += bytesOf(segment);
    if (size > MOST_LABEL) break;
    out += segment;
  }
  return out;
}

/**
 * The lines that make a shape with its style.
 * @param {number} number of its first line in the batch, from 1
 * @param {Fresh} shape
 */
export function createLines(number, shape) {
  const { kind, x, y, w, h, label } = shape;
  const words = label ? ` ${escaped(fitLabel(label))}` : "";
  return [`create ${kind} ${round(x)} ${round(y)} ${round(w)} ${round(h)}${words}`, ...styleLines(number, shape, "none")];
}

/**
 * The lines that make a connector with its style.
 * @param {number} number of its first line in the batch, from 1
 * @param {string} from
 * @param {string} to
 * @param {Pick<Plain, "stroke" | "fill" | "width" | "label" | "looks">} shape
 */
export function connectLines(number, from, to, shape) {
  const words = shape.label ? ` ${escaped(fitLabel(shape.label))}` : "";
  return [`connect ${from} ${to}${words}`, ...styleLines(number, shape, "end")];
}

/**
 * The line that gives what a line made its look, where that isn't as it is made.
 * @param {number} number
 * @param {Pick<Plain, "stroke" | "fill" | "width" | "looks">} shape
 * @param {string} heads those of what is made
 */
function styleLines(number, { stroke, fill, width, looks = {} }, heads) {
  /** @type {[string, any][]} */
  const parts = [
    ["stroke", stroke === "000000" ? null : stroke], ["fill", fill], ["width", width === 1 ? null : width], ["dash", looks.dash],
    ["heads", (looks.heads ?? "none") === heads ? null : looks.heads ?? "none"], ["round", looks.round], ["opacity", looks.opacity],
    ["size", looks.letters], ["align", looks.side],
  ];
  const words = parts.filter(([, value]) => value !== null && value !== undefined).map(([name, value]) => `${name} ${value}`);
  if (words.length !== 1) return words.length ? [`style @${number} ${words.join(" ")}`] : [];
  const [name, value] = words[0].split(" ");
  return [`${name} @${number} ${value}`];
}

/**
 * The lines that make copies of items, with the groups among them, and which line makes each copy. A group is made right
 * behind its members, so that the copies lie over each other as the items do.
 * @param {Plain[]} items from bottom to top, each group before its members
 * @param {number} dx
 * @param {number} dy
 */
export function copyLines(items, dx, dy) {
  const copies = new Copies();
  for (const item of items) {
    copies.closeUntil(item.parent);
    if (item.kind === "connector") continue;
    if (item.kind === "group") copies.open.push({ id: item.id, members: [] });
    else copies.shape({ ...item, x: item.x + dx, y: item.y + dy }, item.id);
  }
  copies.closeUntil(undefined);
  for (const item of items) if (item.kind === "connector") copies.connector(item);
  return { lines: copies.lines, made: copies.made };
}

class Copies {
  constructor() {
    /** @type {string[]} */
    this.lines = [];
    /** @type {Map<string, number>} the number of the line that makes a copy */
    this.made = new Map();
    /** @type {{id: string, members: string[]}[]} groups whose members are being made, the inner ones last */
    this.open = [];
  }

  /**
   * @param {Fresh} shape
   * @param {string} id of what it is a copy
   */
  shape(shape, id) {
    const number = this.lines.length + 1;
    this.made.set(id, number);
    this.lines.push(...createLines(number, shape));
    this.hold([`@${number}`]);
  }

  /**
   * A connector goes along where both its ends do.
   * @param {Plain} item
   */
  connector(item) {
    const [from, to] = [this.made.get(item.from), this.made.get(item.to)];
    if (!from || !to) return;
    const number = this.lines.length + 1;
    this.made.set(item.id, number);
    this.lines.push(...connectLines(number, `@${from}`, `@${to}`, item));
  }

  /**
   * Puts copies into the innermost group that is open.
   * @param {string[]} members
   */
  hold(members) {
    this.open[this.open.length - 1]?.members.push(...members);
  }

  /**
   * Makes the groups that a parent isn't in.
   * @param {string | null | undefined} parent
   */
  closeUntil(parent) {
    while (this.open.length && this.open[this.open.length - 1].id !== parent) {
      const { id, members } = this.open.pop();
      // A group of one can't be made: that one takes its place.
      if (members.length < 2) {
        this.hold(members);
        continue;
      }
      this.lines.push(`group ${members.join(" ")}`);
      this.made.set(id, this.lines.length);
      this.hold([`@${this.lines.length}`]);
    }
  }
}
