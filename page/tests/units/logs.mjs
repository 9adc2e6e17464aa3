// Logs for tests, in the bytes of docs/FORMATS.md, and what the program's `replay` says of them.

import { execFileSync } from "node:child_process";
import { existsSync } from "node:fs";

const BUILT = new URL("../../../crates/groupdesign/out/groupdesign", import.meta.url).pathname;
export const PROGRAM = process.env.PAGE_PROGRAM || (existsSync(BUILT) ? BUILT : null);
const KINDS = { rect: 1, ellipse: 2, line: 3, text: 4 };
const OBJECT_KINDS = { ...KINDS, group: 5, connector: 6 };
const STYLES = { stroke: 1, fill: 2, width: 3 };
const NO_FILL = 0xffffffff;
const LONGEST_IN_ONE = 200;
const DASHES = ["solid", "dashed", "dotted"];
const HEADS = ["none", "end", "start", "both"];
const SIDES = [null, "start", "middle", "end"];
/** The parts of a look: how many bytes each has, and its value as a number. */
const LOOKS = [
  ["stroke", 4, (value) => value], ["fill", 4, (value) => value ?? NO_FILL], ["width", 1, (value) => value],
  ["dash", 1, (value) => DASHES.indexOf(value)], ["heads", 1, (value) => HEADS.indexOf(value)], ["round", 4, (value) => value ?? NO_FILL],
  ["opacity", 1, (value) => value], ["letters", 2, (value) => value ?? 0], ["align", 1, (value) => SIDES.indexOf(value)],
];

/** What `replay` prints of a log in one of its formats. */
export function replayed(log, ...words) {
  return execFileSync(PROGRAM, ["replay", ...words], { input: log, maxBuffer: 1 << 28 }).toString();
}

/** The events of a log, as the bridge tells them: the object that an event is about is its `target`. */
export const eventsOf = (log) => JSON.parse(replayed(log, "--format", "events")).map(({ id, ...rest }) => ({ ...rest, target: id }));

/** How many events were applied, dropped, reworked, and undone in all. */
export function countsOf(log) {
  const words = replayed(log, "--counts").trim().split("\n").pop().split(" ");
  return [2, 4, 6, 8].map((at) => Number(words[at]));
}

class Bytes {
  constructor() {
    this.list = [];
  }

  number(value, size) {
    let left = BigInt.asUintN(size * 8, BigInt(value));
    const at = this.list.length;
    for (let count = 0; count < size; count += 1) {
      this.list[at + size - 1 - count] = Number(left & 255n);
      left >>= 8n;
    }
    return this;
  }

  stamp({ clock, site }) {
    return this.number(clock, 6).number(site, 1);
  }

  label(text) {
    const bytes = new TextEncoder().encode(text);
    const more = bytes.length - LONGEST_IN_ONE - 1;
    (more < 0 ? this.number(bytes.length, 1) : this.number(0xc9 * 256 + more, 2)).list.push(...bytes);
    return this;
  }

  link(link) {
    return link ? this.number(1, 1).stamp(link).number(link.dx, 4).number(link.dy, 4) : this.number(0, 1);
  }

  rank(rank) {
    return this.number(rank.height === "high" ? 1 : 0, 1).stamp(rank);
  }

  ties(ties) {
    return ties.reduce((all, tie) => all.stamp(tie).link(tie.link), this.number(ties.length, 1));
  }

  looks(set) {
    return LOOKS.reduce((all, [part, size, of]) => (part in set ? all.number(1, 1).number(of(set[part]), size) : all.number(0, 1)), this);
  }

  ends({ from, to }) {
    return from ? this.number(1, 1).stamp(from).stamp(to) : this.number(0, 1);
  }

  whole({ kind, x, y, w, h, label, link, dissolved, rank, ...rest }) {
    const front = [x, y, w, h].reduce((all, each) => all.number(each, 4), this.number(OBJECT_KINDS[kind], 1));
    const look = LOOKS.reduce((all, [part, size, of]) => all.number(of(rest[part]), size), front);
    return look.label(label).ends(rest).link(link).number(dissolved ? 1 : 0, 1).rank(rank);
  }
}

const WRITERS = {
  create: (bytes, e) => [e.x, e.y, e.w, e.h].reduce((all, each) => all.number(each, 4), bytes.number(1, 1).number(KINDS[e.kind], 1)).label(e.label),
  delete: (bytes, e) => bytes.number(2, 1).stamp(e.on),
  move: (bytes, e) => bytes.number(3, 1).stamp(e.on).number(e.x, 4).number(e.y, 4),
  resize: (bytes, e) => bytes.number(4, 1).stamp(e.on).number(e.w, 4).number(e.h, 4),
  restyle: (bytes, e) => bytes.number(5, 1).stamp(e.on).number(STYLES[e.style], 1).number(e.value ?? NO_FILL, 4),
  retext: (bytes, e) => bytes.number(6, 1).stamp(e.on).label(e.label),
  group: (bytes, e) => e.members.reduce((all, each) => all.stamp(each).number(each.dx, 4).number(each.dy, 4), bytes.number(7, 1).number(e.members.length, 1)),
  ungroup: (bytes, e) => bytes.number(8, 1).stamp(e.on),
  raise: (bytes, e) => bytes.number(9, 1).stamp(e.on),
  lower: (bytes, e) => bytes.number(10, 1).stamp(e.on),
  restore: (bytes, e) => bytes.number(11, 1).stamp(e.on).whole(e.whole).ties(e.ties),
  disband: (bytes, e) => bytes.number(12, 1).stamp(e.on).ties(e.ties),
  rerank: (bytes, e) => bytes.number(13, 1).stamp(e.on).rank(e.rank),
  reopen: (bytes, e) => bytes.number(14, 1).stamp(e.on),
  style: (bytes, e) => bytes.number(15, 1).stamp(e.on).looks(e.looks),
  connect: (bytes, e) => bytes.number(16, 1).stamp(e.from).stamp(e.to).label(e.label),
  reconnect: (bytes, e) => bytes.number(17, 1).stamp(e.on).stamp(e.from).stamp(e.to),
};

/** The CRC-32C of what has that check, with these bytes behind it. */
function crc32c(list, check) {
  let register = ~check;
  for (const byte of list) {
    register ^= byte;
    for (let bit = 0; bit < 8; bit += 1) register = (register >>> 1) ^ (register & 1 ? 0x82f63b78 : 0);
  }
  return ~register >>> 0;
}

/** The log of events of so many sites, in the order in which they stand, each with the check of its site's events behind it. */
export function logOf(events, sites) {
  const bytes = new Bytes();
  bytes.list.push(...new TextEncoder().encode("GDOL"));
  bytes.number(7, 1).number(7, 4).number(1, 1).number(sites, 1);
  const counts = new Map(), checks = new Map();
  for (const event of events) {
    counts.set(event.site, (counts.get(event.site) ?? 0) + 1);
    bytes.number(0xc3, 1);
    const first = bytes.list.length;
    bytes.stamp(event).number(counts.get(event.site), 2);
    WRITERS[event.op](bytes, event);
    const check = crc32c(bytes.list.slice(first), checks.get(event.site) ?? 0);
    checks.set(event.site, check);
    for (const shift of [0, 8, 16, 24]) bytes.number((check >>> shift) & 0xff, 1);
  }
  bytes.number(0, 1);
  return Buffer.from(bytes.list);
}

/** A generator of numbers below a bound, the same for the same seed. */
export function drawer(seed) {
  let state = seed >>> 0;
  return (below) => {
    state = (Math.imul(state, 1664525) + 1013904223) >>> 0;
    return Math.floor((state / 2 ** 32) * below);
  };
}

const compare = (a, b) => a.clock - b.clock || a.site - b.site;

/** A value of each part of a look. */
const wholeLook = (draw) => ({
  stroke: draw(1 << 24), fill: draw(2) ? null : draw(1 << 24), width: 1 + draw(64), dash: DASHES[draw(3)], heads: HEADS[draw(4)],
  round: draw(2) ? null : draw(1_000_001), opacity: 1 + draw(100), letters: draw(2) ? null : 1 + draw(1000), align: SIDES[draw(4)],
});

/** Some parts of a look, not a stroke, a fill or a width alone. */
function someLooks(draw) {
  const all = Object.entries(wholeLook(draw));
  const set = all.filter(() => draw(3) === 0);
  return Object.fromEntries(set.length && (set.length > 1 || !(set[0][0] in STYLES)) ? set : all.slice(2, 5));
}

/** What an undo makes of one of these objects: each link leads to a later one of them, if not to none. */
function turned(draw, op, on, before, place, size) {
  const link = (from) => {
    const later = before.filter((each) => compare(each, from) > 0);
    return later.length && draw(3) ? { ...later[draw(later.length)], dx: draw(99) - 49, dy: draw(99) - 49 } : null;
  };
  const rank = () => ({ ...before[draw(before.length)], height: ["low", "high"][draw(2)] });
  const ties = (least) => before.filter((each) => each !== on).slice(0, least + draw(4)).sort(compare).map((each) => ({ ...each, link: link(each) }));
  if (op === "reopen") return { op, on };
  if (op === "rerank") return { op, on, rank: rank() };
  if (op === "disband") return { op, on, ties: ties(1) };
  const look = { ...wholeLook(draw), label: ["", "put"][draw(2)] };
  const kind = Object.keys(OBJECT_KINDS)[draw(6)];
  const ends = kind === "connector" ? { from: before[draw(before.length)], to: before[draw(before.length)] } : {};
  const whole = { kind, ...place(), ...size(), ...look, ...ends, link: link(on), dissolved: kind === "group" && draw(4) === 0, rank: rank() };
  return { op, on, whole, ties: kind === "group" ? ties(0) : [] };
}

/** An operation on one of the objects that were made before a stamp; none of them need be there any more. */
function operation(draw, stamp, made) {
  const place = () => ({ x: draw(2001) - 1000, y: draw(2001) - 1000 });
  const size = () => ({ w: draw(401) - 200, h: draw(401) - 200 });
  const before = made.filter((each) => compare(each, stamp) < 0);
  const pick = draw(30);
  const label = ["", "a", "é \"q\\", "שלום", "two\nlines", "x".repeat(300)][draw(6)];
  if (pick < 4 || before.length < 2) return { op: "create", kind: Object.keys(KINDS)[draw(4)], ...place(), ...size(), label };
  const [on, from, to] = Array.from({ length: 3 }, () => before[draw(before.length)]);
  if (pick > 27) return { op: "connect", from, to, label };
  if (pick > 26) return { op: "reconnect", on, from, to };
  if (pick > 24) return { op: "style", on, looks: someLooks(draw) };
  if (pick < 8) return { op: "move", on, ...place() };
  if (pick < 9) return { op: "resize", on, ...size() };
  if (pick < 12) return { op: "restyle", on, ...[{ style: "stroke", value: draw(1 << 24) }, { style: "fill", value: draw(2) ? null : draw(1 << 24) }, { style: "width", value: 1 + draw(64) }][draw(3)] };
  if (pick < 13) return { op: "retext", on, label: `t${draw(9)}` };
  if (pick < 16) {
    const members = [...new Set(Array.from({ length: 2 + draw(4) }, () => before[draw(before.length)]))].sort(compare);
    return members.length > 1 ? { op: "group", members: members.map((each) => ({ ...each, dx: draw(99) - 49, dy: draw(99) - 49 })) } : { op: "raise", on };
  }
  if (pick > 19) return turned(draw, ["restore", "restore", "disband", "rerank", "reopen"][pick - 20], on, before, place, size);
  return { op: ["delete", "ungroup", "raise", "lower"][pick - 16], on };
}

/** Random events of some sites, merged at random, so that many come late. */
export function randomEvents(seed, count, sites) {
  const draw = drawer(seed);
  const made = [];
  const clocks = Array.from({ length: sites }, () => 0);
  const lists = Array.from({ length: sites }, () => []);
  for (let at = 0; at < count; at += 1) {
    const site = 1 + draw(sites);
    clocks[site - 1] += 1 + draw(3);
    const stamp = { clock: clocks[site - 1], site };
    const event = { ...stamp, ...operation(draw, stamp, made) };
    if (["create", "group", "connect"].includes(event.op)) made.push(stamp);
    lists[site - 1].push(event);
  }
  const events = [];
  while (lists.some((list) => list.length)) {
    const list = lists[draw(sites)];
    if (list.length) events.push(list.shift());
  }
  return events;
}
