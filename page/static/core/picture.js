// The drawing as the node shows it. The bridge tells what is different, and here it is put together.

/** @typedef {import("./types.js").Shown} Shown */
/** @typedef {import("./types.js").Looks} Looks */
/** @typedef {{id: string, plain: Plain, under: Place | null, over: Place | null}} Place an object in the stack, and its neighbours */
/**
 * What a picture has that is different.
 * @typedef {object} Difference
 * @property {Set<string>} changed ids of objects that are new or different
 * @property {Set<string>} gone
 * @property {boolean} isReordered whether more has changed in the order than new objects on top
 */

/**
 * An object in the page's words.
 * @param {Shown} shown
 * @returns {Plain}
 */
export function plainOf(shown) {
  const [x, y] = shown.at ?? [0, 0];
  const base = { id: shown.id, kind: shown.kind, parent: shown.in, x, y };
  if (shown.kind === "group") return { ...base, w: 0, h: 0, stroke: "000000", fill: null, width: 1, label: "" };
  const [w, h] = shown.size ?? [0, 0];
  const ends = shown.kind === "connector" ? { from: shown.from, to: shown.to } : {};
  return { ...base, w, h, stroke: shown.stroke, fill: shown.fill, width: shown.width, label: shown.label, looks: looksOf(shown), ...ends };
}

/**
 * The looks of an object that aren't as they are made.
 * @param {any} told
 * @returns {Looks}
 */
export function looksOf({ dash, heads, round, opacity, letters, align }) {
  /** @type {[string, any][]} */
  const all = [["dash", dash], ["heads", heads], ["round", round], ["opacity", opacity], ["letters", letters], ["side", align]];
  return Object.fromEntries(all.filter(([, value]) => value !== undefined && value !== null));
}

export class Picture {
  constructor() {
    this.clear();
  }

  clear() {
    /** @type {Map<string, Place>} */
    this.places = new Map();
    /** @type {Place | null} */
    this.top = null;
    /** @type {Place | null} */
    this.bottom = null;
  }

  /** @param {string} id */
  get(id) {
    return this.places.get(id)?.plain ?? null;
  }

  /** The objects from bottom to top, as they are printed. */
  inOrder() {
    const order = [];
    for (let place = this.bottom; place; place = place.over) order.push(place.plain);
    return order;
  }

  /**
   * Takes a picture, which is a whole one, or what is different from the last one.
   * @param {{whole: boolean, items: Shown[], gone: string[], order: [string, string | null][]}} told
   * @returns {Difference}
   */
  take(told) {
    const difference = { changed: new Set(told.items.map((item) => item.id)), gone: new Set(told.gone), isReordered: told.whole };
    if (told.whole) this.forgetAll(difference);
    for (const id of told.gone) this.remove(id);
    const fresh = new Set();
    for (const item of told.items) if (this.put(plainOf(item))) fresh.add(item.id);
    for (const [id, under] of told.order) {
      const place = this.places.get(id);
      if (!place) continue;
      if (!fresh.has(id) || under !== (this.top?.id ?? null)) difference.isReordered = true;
      this.unlink(place);
      this.link(place, under === null ? null : this.places.get(under) ?? this.top);
      fresh.delete(id);
    }
    for (const id of fresh) this.link(this.places.get(id), this.top);
    return difference;
  }

  /** @param {Difference} difference */
  forgetAll(difference) {
    for (const id of this.places.keys()) if (!difference.changed.has(id)) difference.gone.add(id);
    this.clear();
  }

  /**
   * Sets what an object is, and says whether it is a new one.
   * @param {Plain} plain
   */
  put(plain) {
    const place = this.places.get(plain.id);
    if (place) place.plain = plain;
    else this.places.set(plain.id, { id: plain.id, plain, under: null, over: null });
    return !place;
  }

  /** @param {string} id */
  remove(id) {
    const place = this.places.get(id);
    if (!place) return;
    this.unlink(place);
    this.places.delete(id);
  }

  /** @param {Place} place */
  unlink(place) {
    const isLinked = place.under || place.over || this.bottom === place;
    if (!isLinked) return;
    if (place.under) place.under.over = place.over;
    else this.bottom = place.over;
    if (place.over) place.over.under = place.under;
    else this.top = place.under;
    place.under = place.over = null;
  }

  /**
   * @param {Place} place one that stands nowhere
   * @param {Place | null} under what it stands behind, or null at the bottom
   */
  link(place, under) {
    place.under = under;
    place.over = under ? under.over : this.bottom;
    if (under) under.over = place;
    else this.bottom = place;
    if (place.over) place.over.under = place;
    else this.top = place;
  }
}
