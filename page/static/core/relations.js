// How events bear on each other (docs/MODEL.md, "How events bear on each other"): the parts that an event touches, which
// later events depend on it, and whether a later one leaves nothing of it.

/** @typedef {import("./types.js").Event} Event */

const WHOLE = "*";
const PARTS = /** @type {Record<string, string>} */ ({
  move: "place", resize: "size", stroke: "stroke", fill: "fill", width: "width", text: "label", reconnect: "ends", ungroup: "mark", reopen: "mark",
  raise: "rank", lower: "rank", rerank: "rank",
});

/**
 * The objects whose links an event sets, beside the one that it puts or takes.
 * @param {Event} event
 * @returns {{id: string}[]}
 */
const tiedBy = (event) => event.members ?? event.ties ?? [];

/**
 * The parts of its object that an event sets, or null where it puts or takes the whole.
 * @param {Event} event
 */
const partsOf = (event) => (event.op === "style" ? Object.keys(event.style) : PARTS[event.op] ? [PARTS[event.op]] : null);

/**
 * The pairs of an object and a part that an event touches; `*` is the whole object.
 * @param {Event} event
 * @returns {[string, string][]}
 */
export function touches(event) {
  const parts = partsOf(event);
  if (parts) return parts.map((part) => [event.id, part]);
  return [[event.id, WHOLE], ...tiedBy(event).map(({ id }) => /** @type {[string, string]} */ ([id, "link"]))];
}

/** Parts of objects, by object. */
export class Touched {
  constructor() {
    /** @type {Map<string, Set<string>>} */
    this.parts = new Map();
  }

  /** @param {[string, string][]} touched */
  add(touched) {
    for (const [id, part] of touched) {
      const parts = this.parts.get(id);
      if (parts) parts.add(part);
      else this.parts.set(id, new Set([part]));
    }
  }

  /** @param {[string, string][]} touched */
  meets(touched) {
    return touched.some(([id, part]) => {
      const parts = this.parts.get(id);
      return parts !== undefined && (part === WHOLE || parts.has(part) || parts.has(WHOLE));
    });
  }
}

/**
 * Those of later events, in stamp order, that depend on an event or on another of them.
 * @param {Event} event
 * @param {Event[]} later
 * @returns {Event[]}
 */
export function closure(event, later) {
  const touched = new Touched();
  touched.add(touches(event));
  return later.filter((each) => {
    const own = touches(each);
    if (!touched.meets(own)) return false;
    touched.add(own);
    return true;
  });
}

/**
 * Whether nothing of an event is left where a later one comes directly behind it.
 * @param {Event} later
 * @param {Event} event
 */
export function covers(later, event) {
  if (later.id !== event.id || tiedBy(later).length || tiedBy(event).length) return false;
  if (later.op === "delete" || later.op === "disband") return true;
  const [over, under] = [partsOf(later), partsOf(event)];
  return over !== null && under !== null && under.every((part) => over.includes(part));
}
