// Why a line was refused, in plain words, and how things are counted and called.

const REFUSALS = /** @type {Record<string, string>} */ ({
  NoObject: "it is gone, someone deleted it",
  BadLabel: "a text has at most 500 bytes",
  BadNumber: "that number is out of range",
  BadColour: "that is no colour",
  BadLook: "there is no such look",
  LongLine: "that is too long",
  TooFar: "that is too far out",
  WrongCount: "a group takes 2 to 32 objects",
  SameMember: "it was there twice",
  NotTop: "one of these is in a group",
  NotShape: "a group has no style of its own",
  NotGroup: "that is no group",
  NotPlaced: "a connector has no place of its own, and is no end of another one",
  NotConnector: "that is no connector",
  NothingBack: "nothing is left to take back, or to do again",
  SessionFull: "you have made all 65,535 edits that a drawing takes from one person",
  ClockEnd: "this drawing has no room for more edits",
  NoteEnd: "others can’t be told of more selections: it was 65,535 times",
  Ended: "the program that keeps the drawing has ended",
  Lost: "there is no connection to the program that keeps the drawing",
});

/**
 * A refusal in words. One that isn't known is shown as it is.
 * @param {string} why a word of docs/LINES.md, section 4, or words already
 */
export const plainWords = (why) => REFUSALS[why.replace(/^refused: /, "")] ?? why;

/**
 * A number of things: `1 object`, `3 objects`.
 * @param {number} number
 * @param {string} [one]
 * @param {string} [many]
 */
export const count = (number, one = "object", many = `${one}s`) => `${number.toLocaleString("en")} ${number === 1 ? one : many}`;

/**
 * The first letter of a name, as it is written in a circle.
 * @param {string} name
 */
export function initialOf(name) {
  const [first] = new Intl.Segmenter(undefined, { granularity: "grapheme" }).segment(name.trim());
  return first ? first.segment.toUpperCase() : "?";
}

/**
 * A label on one line: its line breaks are spaces.
 * @param {string} label
 */
export const oneLine = (label) => label.replaceAll("\u2028", " ");

/**
 * A text that is cut to so many characters.
 * @param {string} text
 * @param {number} most
 */
export function shortened(text, most) {
  const letters = [...text];
  return letters.length > most ? `${letters.slice(0, most - 1).join("")}…` : text;
}
