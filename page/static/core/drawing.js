// The drawing as a fold of events in stamp order, as docs/MODEL.md, section 7, has it: a map from ids to objects, each with
// a rank. Objects are never changed in place, so what an event found is kept as it was, and a copy of the map is a checkpoint.

import { looksOf } from "./picture.js";

/** @typedef {import("./types.js").Event} Event */
/** @typedef {import("./types.js").Kind} Kind */
/** @typedef {{parent: string, dx: number, dy: number}} Link */
/** @typedef {{id: string, link: Link | null}} Tie an object, and the link that it is given */
/**
 * @typedef {object} Body
 * @property {string} id
 * @property {Kind} kind
 * @property {number} x
 * @property {number} y
 * @property {number} w
 * @property {number} h
 * @property {string} stroke
 * @property {string | null} fill
 * @property {number} width
 * @property {string} label
 * @property {import("./types.js").Looks} looks
 * @property {string} [from]
 * @property {string} [to]
 * @property {Link | null} link
 * @property {boolean} isDissolved
 * @property {number} rank
 */
/** @typedef {Map<string, Body>} Board */
/** @typedef {[string, Body | undefined][]} Before what an event found: objects as they were, or that there was none */

/**
 * @param {{clock: number, site: number}} a
 * @param {{clock: number, site: number}} b
 */
export const compareStamps = (a, b) => a.clock - b.clock || a.site - b.site;

/**
 * The clock and the site of a stamp.
 * @param {string} stamp
 */
export function stampParts(stamp) {
  const [clock, site] = stamp.split(".");
  return { clock: Number(clock), site: Number(site) };
}

/**
 * A number for each stamp, in the order of stamps. A rank is one of these, or for what was lowered the negative of one.
 * @param {{clock: number, site: number}} event
 */
const high = ({ clock, site }) => clock * 16 + site;

/**
 * A rank as the bridge tells it.
 * @param {{high?: string, low?: string}} told
 */
export const rankOf = (told) => (told.high ? high(stampParts(told.high)) : -high(stampParts(told.low)));

/**
 * A link as the bridge tells it.
 * @param {{id: string, dx: number, dy: number} | null} told
 * @returns {Link | null}
 */
export const linkOf = (told) => told && { parent: told.id, dx: told.dx, dy: told.dy };

/**
 * The object that is put back, as the bridge tells it.
 * @param {any} told
 * @returns {Body}
 */
export function bodyOf(told) {
  const { target, kind, at: [x, y], size: [w, h], stroke, fill, width, label, link, dissolved, rank, from, to } = told;
  // Whatever stands there, a group has neither a size nor a look.
  const look = kind === "group" ? { ...LOOK, w: 0, h: 0 } : { w, h, stroke, fill, width, label, looks: looksOf(told) };
  const ends = kind === "connector" ? { from, to } : {};
  return { id: target, kind, x, y, ...look, ...ends, link: linkOf(link), isDissolved: dissolved, rank: rankOf(rank) };
}

/** @type {Pick<Body, "stroke" | "fill" | "width" | "label" | "looks">} */
const LOOK = { stroke: "000000", fill: null, width: 1, label: "", looks: {} };
/** What has no mark of its own where it is as it is made. */
const USUAL = /** @type {Record<string, any>} */ ({ dash: "solid", heads: "none", opacity: 100 });

/**
 * A body with looks that are set. What is as it is made is left out.
 * @param {Body} body
 * @param {Record<string, any>} style
 * @returns {Body}
 */
function styled(body, { stroke = body.stroke, fill = body.fill, width = body.width, ...marks }) {
  const looks = Object.entries({ ...body.looks, ...marks }).filter(([name, value]) => value !== null && value !== USUAL[name]);
  return { ...body, stroke, fill, width, looks: Object.fromEntries(looks) };
}

/**
 * What an event makes of one object that is there, or the object as it is.
 * @param {Body} body
 * @param {Event} event
 * @returns {Body}
 */
function changed(body, event) {
  const isGroup = body.kind === "group";
  const isConnector = body.kind === "connector";
  switch (event.op) {
    case "move":
      return isConnector ? body : { ...body, x: event.x, y: event.y };
    case "reconnect":
      return isConnector ? { ...body, from: event.from, to: event.to } : body;
    case "style":
      return isGroup ? body : styled(body, event.style);
    case "raise":
      return { ...body, rank: high(event) };
    case "lower":
      return { ...body, rank: -high(event) };
    case "rerank":
      return { ...body, rank: event.rank };
    case "ungroup":
    case "reopen":
      return isGroup ? { ...body, isDissolved: event.op === "ungroup" } : body;
    case "resize":
      return isGroup || isConnector ? body : { ...body, w: event.w, h: event.h };
    case "text":
      return isGroup ? body : { ...body, label: /** @type {string} */ (event.value) };
    default:
      return isGroup ? body : { ...body, [event.op]: event.value };
  }
}

/**
 * The object that an event puts onto the board.
 * @param {Event} event a create, a group or a restore
 * @returns {Body}
 */
function made(event) {
  const { op, stamp: id, body, kind, x, y, w, h, label } = event;
  if (op === "restore") return body;
  const rest = { id, link: /** @type {Link | null} */ (null), isDissolved: false, rank: high(event) };
  if (op === "group") return { ...LOOK, ...rest, kind: "group", x: 0, y: 0, w: 0, h: 0 };
  if (op === "connect") {
    return { ...LOOK, ...rest, kind: "connector", x: 0, y: 0, w: 0, h: 0, label, looks: { heads: "end" }, from: event.from, to: event.to };
  }
  return { ...LOOK, ...rest, kind, x, y, w, h, label };
}

/**
 * The links that an event gives to other objects than the one that it puts or takes, which has to be a group.
 * @param {Event} event
 * @param {Body} body
 * @returns {Tie[]}
 */
function tiesOf(event, body) {
  if (body.kind !== "group") return [];
  if (event.op !== "group") return event.ties ?? [];
  const members = event.members.filter(({ id }) => compareStamps(stampParts(id), event) < 0);
  return members.map(({ id, dx, dy }) => ({ id, link: { parent: event.stamp, dx, dy } }));
}

/**
 * Links those objects that are there.
 * @param {Board} board
 * @param {Tie[]} ties
 * @returns {Before}
 */
function tie(board, ties) {
  /** @type {Before} */
  const before = [];
  for (const { id, link } of ties) {
    const body = board.get(id);
    if (!body) continue;
    before.push([id, body]);
    board.set(id, { ...body, link });
  }
  return before;
}

const PUTS = new Set(["create", "connect", "group", "restore"]);
const TAKES = new Set(["delete", "disband"]);

/**
 * Applies an event, and gives what it found. It puts an object under an id that is absent, takes one away, or sets a part of one.
 * @param {Board} board
 * @param {Event} event
 * @returns {Before}
 */
export function apply(board, event) {
  const { op, id } = event;
  const found = board.get(id);
  if (PUTS.has(op) === Boolean(found)) return [];
  /** @type {Before} */
  let before = [[id, found]];
  if (PUTS.has(op)) {
    const body = made(event);
    before = [...before, ...tie(board, tiesOf(event, body))];
    board.set(id, body);
  } else if (TAKES.has(op)) {
    board.delete(id);
    before = [...before, ...tie(board, tiesOf(event, found))];
  } else board.set(id, changed(found, event));
  return before;
}

/**
 * Takes the last applied event back.
 * @param {Board} board
 * @param {Before} before
 */
export function undo(board, before) {
  for (let at = before.length - 1; at >= 0; at -= 1) {
    const [id, body] = before[at];
    if (body) board.set(id, body);
    else board.delete(id);
  }
}

/** @typedef {{parent: string | null, dx: number, dy: number} | null} Above the effective parent and the sum, or null where it is hidden */

/**
 * What stands above each object: found once for each chain.
 */
class Chains {
  /** @param {Board} board */
  constructor(board) {
    this.board = board;
    /** @type {Map<string, Above>} what stands above the members of a group */
    this.known = new Map();
  }

  /**
   * @param {Body} body
   * @returns {Above}
   */
  above(body) {
    if (!body.link) return { parent: null, dx: 0, dy: 0 };
    const over = this.inside(body.link.parent);
    return over && { parent: over.parent, dx: over.dx + body.link.dx, dy: over.dy + body.link.dy };
  }

  /**
   * What stands above a member of a group but for the member's own shift. It goes up to what is known, and down again.
   * @param {string} id
   * @returns {Above}
   */
  inside(id) {
    const way = [];
    for (let at = id; !this.known.has(at); ) {
      const group = this.board.get(at);
      way.push(at);
      if (!group?.link) break;
      at = group.link.parent;
    }
    for (const each of way.reverse()) this.known.set(each, this.insideOne(each));
    return this.known.get(id);
  }

  /**
   * @param {string} id a group whose own group is known, or that has none
   * @returns {Above}
   */
  insideOne(id) {
    const group = this.board.get(id);
    if (!group) return null;
    const over = this.above(group);
    return over && { parent: group.isDissolved ? over.parent : id, dx: over.dx + group.x, dy: over.dy + group.y };
  }
}

/**
 * What is shown of an object for the same object, so that who compares has nothing to compare.
 * @type {WeakMap<Body, Plain>}
 */
const kept = new WeakMap();

/**
 * @param {Body} body
 * @param {{parent: string | null, dx: number, dy: number}} above
 * @returns {Plain}
 */
function plainOf(body, above) {
  const known = kept.get(body);
  const { id, kind, stroke, fill, width, label, looks, from, to } = body;
  // A connector has no place and no size, whatever stands there.
  const isPlaced = kind !== "connector";
  const [x, y, w, h] = isPlaced ? [body.x + above.dx, body.y + above.dy, body.w, body.h] : [0, 0, 0, 0];
  if (known && known.parent === above.parent && known.x === x && known.y === y) return known;
  const ends = isPlaced ? {} : { from, to };
  const plain = { id, kind, parent: above.parent, x, y, w, h, stroke, fill, width, label, looks, ...ends };
  kept.set(body, plain);
  return plain;
}

/**
 * @param {Body} a
 * @param {Body} b
 */
const compareBodies = (a, b) => a.rank - b.rank || compareStamps(stampParts(a.id), stampParts(b.id));

/**
 * What stands above an object that is shown, but for the ends of a connector.
 * @param {Chains} chains
 * @param {Body} body
 */
const stands = (chains, body) => (body.kind === "group" && body.isDissolved ? null : chains.above(body));

/**
 * Whether a shape or a group of that id is shown.
 * @param {Chains} chains
 * @param {string} id
 */
function isEnd(chains, id) {
  const body = chains.board.get(id);
  return body !== undefined && body.kind !== "connector" && stands(chains, body) !== null;
}

/**
 * The shown objects in printed order: each group before its members, all of them from bottom to top.
 * @param {Board} board
 * @returns {Plain[]}
 */
export function shownOf(board) {
  const chains = new Chains(board);
  /** @type {Map<string | null, Plain[]>} */
  const children = new Map([[null, []]]);
  for (const body of [...board.values()].sort(compareBodies)) {
    const above = stands(chains, body);
    if (!above || (body.kind === "connector" && !(isEnd(chains, body.from) && isEnd(chains, body.to)))) continue;
    const list = children.get(above.parent);
    if (list) list.push(plainOf(body, above));
    else children.set(above.parent, [plainOf(body, above)]);
  }
  return inPrintedOrder(children);
}

/**
 * @param {Map<string | null, Plain[]>} children the members of each group, and under null what is in none
 * @returns {Plain[]}
 */
function inPrintedOrder(children) {
  /** @type {Plain[]} */
  const order = [];
  const stack = [...children.get(null)].reverse();
  while (stack.length) {
    const plain = stack.pop();
    order.push(plain);
    const members = children.get(plain.id) ?? [];
    for (let at = members.length - 1; at >= 0; at -= 1) stack.push(members[at]);
  }
  return order;
}
