// Text in the Helvetica that each reader of PDF has: which letters it has, and how wide they are, in thousandths of the size.

const FIRST = 32;
const WIDTHS = [
  278, 278, 355, 556, 556, 889, 667, 191, 333, 333, 389, 584, 278, 333, 278, 278, 556, 556, 556, 556, 556, 556, 556, 556,
  556, 556, 278, 278, 584, 584, 584, 556, 1015, 667, 667, 722, 722, 667, 611, 778, 722, 278, 500, 667, 556, 833, 722, 778,
  667, 778, 722, 667, 611, 722, 667, 944, 667, 667, 611, 278, 278, 278, 469, 556, 333, 556, 556, 500, 556, 556, 278, 556,
  556, 222, 222, 500, 222, 833, 556, 556, 556, 556, 333, 500, 278, 556, 500, 722, 500, 500, 500, 334, 260, 334, 584,
];
const FIRST_LATIN = 160;
const LATIN_WIDTHS = [
  278, 333, 556, 556, 556, 556, 260, 556, 333, 737, 370, 556, 584, 333, 737, 333, 400, 584, 333, 333, 333, 556, 537, 278,
  333, 333, 365, 556, 834, 834, 834, 611, 667, 667, 667, 667, 667, 667, 1000, 722, 667, 667, 667, 667, 278, 278, 278, 278,
  722, 722, 778, 778, 778, 778, 778, 584, 778, 722, 722, 722, 722, 667, 667, 611, 556, 556, 556, 556, 556, 556, 889, 500,
  556, 556, 556, 556, 278, 278, 278, 278, 556, 556, 556, 556, 556, 556, 556, 584, 611, 556, 556, 556, 556, 500, 556, 500,
];
/** Letters that WinAnsiEncoding has between these two blocks: each with its code and its width. */
const MORE = /** @type {[string, number, number][]} */ ([
  ["€", 0x80, 556], ["‚", 0x82, 222], ["ƒ", 0x83, 556], ["„", 0x84, 333], ["…", 0x85, 1000], ["†", 0x86, 556],
  ["‡", 0x87, 556], ["ˆ", 0x88, 333], ["‰", 0x89, 1000], ["Š", 0x8a, 667], ["‹", 0x8b, 333], ["Œ", 0x8c, 1000],
  ["Ž", 0x8e, 611], ["‘", 0x91, 222], ["’", 0x92, 222], ["“", 0x93, 333], ["”", 0x94, 333], ["•", 0x95, 350],
  ["–", 0x96, 556], ["—", 0x97, 1000], ["˜", 0x98, 333], ["™", 0x99, 1000], ["š", 0x9a, 500], ["›", 0x9b, 333],
  ["œ", 0x9c, 944], ["ž", 0x9e, 500], ["Ÿ", 0x9f, 667],
]);

/** @type {Map<string, {code: number, width: number}>} */
const LETTERS = new Map(MORE.map(([letter, code, width]) => [letter, { code, width }]));
WIDTHS.forEach((width, at) => LETTERS.set(String.fromCharCode(FIRST + at), { code: FIRST + at, width }));
LATIN_WIDTHS.forEach((width, at) => LETTERS.set(String.fromCharCode(FIRST_LATIN + at), { code: FIRST_LATIN + at, width }));

/** The font as an object of PDF. Its widths are told, so that a reader with another font keeps the places of the letters. */
export function fontObject() {
  const widths = Array.from({ length: 256 - FIRST }, () => 0);
  for (const { code, width } of LETTERS.values()) widths[code - FIRST] = width;
  const kind = "/Type /Font /Subtype /Type1 /BaseFont /Helvetica /Encoding /WinAnsiEncoding";
  return `${kind} /FirstChar ${FIRST} /LastChar 255 /Widths [${widths.join(" ")}]`;
}

/**
 * A text as the bytes of a string, in hexadecimal, with its width; or null where it has a letter that isn't there.
 * @param {string} text
 * @returns {{hex: string, width: number} | null} the width in units of the size of the letters
 */
export function encoded(text) {
  let hex = "";
  let width = 0;
  for (const letter of text) {
    const known = LETTERS.get(letter);
    if (!known) return null;
    hex += known.code.toString(16).padStart(2, "0");
    width += known.width;
  }
  return { hex, width: width / 1000 };
}
