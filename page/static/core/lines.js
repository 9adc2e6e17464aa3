// Lines: what printed lines of a drawing say, for the clipboard and for files, and how long a label may be.
// docs/LINES.md has them all.

export const MOST_LABEL = 500;
/** As many lines as one batch takes. */
export const MOST_LINES = 10_000;
/** What parts the lines of a label. In older drawings U+2028 does so too. */
export const BREAK = "\n";
export const BREAKS = /[\n\u2028]/;

const encoder = new TextEncoder();
const CONTROL = /[\u0000-\u0009\u000b-\u001f\u007f-\u009f]/;
/** What a shape and a connector have behind their width. */
const MARKS = "(?: dash (dashed|dotted))?(?: heads (end|start|both))?(?: round (\\d{1,7}))?(?: opacity (\\d{1,3}))?(?: size (\\d{1,4}))?(?: align (start|middle|end))?(?: text (.*))?$";
const ID = "\\d{1,15}\\.\\d{1,2}";
const LOOK = "stroke ([0-9A-F]{6}) fill ([0-9A-F]{6}|none) width (\\d{1,2})";
const SHAPE = new RegExp(
  `^(rect|ellipse|line|text) (${ID}) in (\\S+) at (-?\\d{1,12}) (-?\\d{1,12}) size (-?\\d{1,12}) (-?\\d{1,12}) ${LOOK}${MARKS}`, "su",
);
const CONNECTOR = new RegExp(`^(connector) (${ID}) in (\\S+) from (${ID}) to (${ID})()() ${LOOK}${MARKS}`, "su");
const GROUP = /^group (\d{1,15}\.\d{1,2}) in (\S+) at (-?\d{1,12}) (-?\d{1,12})$/;

/**
 * How many bytes a text has in UTF-8.
 * @param {string} text
 */
export const bytesOf = (text) => encoder.encode(text).length;

/**
 * Whether the core takes a text as a label.
 * @param {string} text
 */
export const isLabel = (text) => bytesOf(text) <= MOST_LABEL && !CONTROL.test(text);

/**
 * A label as it is typed and printed on a line: a line feed is a backslash and an n, and a backslash is two of them.
 * @param {string} label
 */
export const escaped = (label) => label.replace(/\\/g, "\\\\").replace(/\n/g, "\\n");

/**
 * The label that stands on a line so.
 * @param {string} text
 */
export const unescaped = (text) => text.replace(/\\(.)/gs, (_, letter) => (letter === "n" ? "\n" : letter));

/**
 * The words of looks that aren't as they are made, each behind a space.
 * @param {import("./types.js").Looks} [looks]
 */
function marksOf(looks) {
  const { dash, heads, round, opacity, letters, side } = looks ?? {};
  /** @type {[string, any][]} */
  const all = [["dash", dash], ["heads", heads], ["round", round], ["opacity", opacity], ["size", letters], ["align", side]];
  return all.filter(([, value]) => value !== undefined && value !== null).map(([name, value]) => ` ${name} ${value}`).join("");
}

/**
 * The line that `show` prints for an item.
 * @param {Plain} item
 */
export function printed(item) {
  const start = `${item.kind} ${item.id} in ${item.parent ?? "-"}`;
  const at = `at ${item.x} ${item.y}`;
  if (item.kind === "group") return `${start} ${at}`;
  const where = item.kind === "connector" ? `from ${item.from} to ${item.to}` : `${at} size ${item.w} ${item.h}`;
  const look = `stroke ${item.stroke} fill ${item.fill ?? "none"} width ${item.width}${marksOf(item.looks)}`;
  return `${start} ${where} ${look}${item.label && ` text ${escaped(item.label)}`}`;
}

/**
 * The items of printed text, or null where one of its lines is none of those, or there is none.
 * @param {string} text
 * @returns {Plain[] | null}
 */
export function readPrinted(text) {
  const lines = text.split(/\r?\n/).filter((line) => line && !/^end \d+$/.test(line));
  const items = lines.map(readLine);
  return items.length && items.every(Boolean) ? items : null;
}

/**
 * @param {string} line
 * @returns {Plain | null}
 */
function readLine(line) {
  const group = GROUP.exec(line);
  if (group) {
    const place = { parent: parentOf(group[2]), x: Number(group[3]), y: Number(group[4]), w: 0, h: 0 };
    return { kind: "group", id: group[1], ...place, stroke: "000000", fill: null, width: 1, label: "" };
  }
  const shape = SHAPE.exec(line) ?? CONNECTOR.exec(line);
  const label = unescaped(shape?.[17] ?? "");
  if (!shape || Number(shape[10]) < 1 || Number(shape[10]) > 64 || !isLabel(label)) return null;
  const isConnector = shape[1] === "connector";
  const [x, y, w, h] = isConnector ? [0, 0, 0, 0] : [4, 5, 6, 7].map((at) => Number(shape[at]));
  const ends = isConnector ? { from: shape[4], to: shape[5] } : {};
  return {
    kind: /** @type {import("./types.js").Kind} */ (shape[1]), id: shape[2], parent: parentOf(shape[3]), x, y, w, h,
    stroke: shape[8], fill: shape[9] === "none" ? null : shape[9], width: Number(shape[10]), label, looks: readMarks(shape), ...ends,
  };
}

/**
 * @param {RegExpExecArray} found
 * @returns {import("./types.js").Looks}
 */
function readMarks(found) {
  /** @type {[string, any][]} */
  const all = [
    ["dash", found[11]], ["heads", found[12]], ["round", found[13] && Number(found[13])], ["opacity", found[14] && Number(found[14])],
    ["letters", found[15] && Number(found[15])], ["side", found[16]],
  ];
  return Object.fromEntries(all.filter(([, value]) => value !== undefined));
}

/** @param {string} word */
const parentOf = (word) => (word === "-" ? null : word);
