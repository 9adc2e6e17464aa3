// The drawing as PDF: one page as large as the drawing, with shapes as paths and text as text. A line of text with letters
// that Helvetica doesn't have is a picture.

import { inkOn, shownColour } from "../board/colours.js";
import { dashesOf, headsOf, roundOf, textBox } from "../board/paint.js";
import { fontOf, LEADING } from "../board/text.js";
import { numberText, PdfFile, textObject } from "./pdf_file.js";
import { encoded, fontObject } from "./pdf_text.js";
import { pictureBox } from "./svg.js";

/** @typedef {{out: string[], file: PdfFile, pictures: string[], opacities: Set<number>}} Sheet */

const POINTS = 0.75;
/** How far the control points of a quarter of a circle are, and where the line that letters stand on is. */
const ROUND = 0.5523;
const BASELINE = 0.36;
const PICTURE_SCALE = 4;
/** How much a line may be stretched to be as wide as on the board, in per cent. */
const STRETCH = { least: 80, most: 125 };

/**
 * @param {Item[]} items in paint order
 * @param {string} title
 * @returns {Promise<Blob>}
 */
export async function pdfOf(items, title) {
  const file = new PdfFile();
  const box = pictureBox(items);
  const [width, height] = [(box.x1 - box.x0) * POINTS, (box.y1 - box.y0) * POINTS];
  const [catalogue, pages, page] = [file.reserve(), file.reserve(), file.reserve()];
  const font = file.add(fontObject());
  /** @type {Sheet} */
  const sheet = { out: [], file, pictures: [], opacities: new Set() };
  // The board's axis goes down.
  sheet.out.push(operation("cm", POINTS, 0, 0, -POINTS, -box.x0 * POINTS, box.y1 * POINTS));
  for (const item of items) if (item.kind !== "group") await putItem(sheet, item);
  const content = await file.stream("", new TextEncoder().encode(sheet.out.join("\n")));
  const info = file.add(`/Title ${textObject(title)} /Producer (groupdesign)`);
  const states = [...sheet.opacities].map((each) => `/O${each} << /CA ${numberText(each / 100)} /ca ${numberText(each / 100)} >>`);
  const resources = `/Font << /F1 ${font} 0 R >> /XObject << ${sheet.pictures.join(" ")} >> /ExtGState << ${states.join(" ")} >>`;
  const media = [0, 0, width, height].map(numberText).join(" ");
  file.fill(catalogue, `/Type /Catalog /Pages ${pages} 0 R`);
  file.fill(pages, `/Type /Pages /Kids [${page} 0 R] /Count 1`);
  file.fill(page, `/Type /Page /Parent ${pages} 0 R /MediaBox [${media}] /Resources << ${resources} >> /Contents ${content} 0 R`);
  return new Blob(file.bytes(catalogue, info), { type: "application/pdf" });
}

/**
 * @param {string} name
 * @param {...number} numbers
 */
const operation = (name, ...numbers) => `${numbers.map(numberText).join(" ")} ${name}`.trim();

/**
 * @param {string} name `rg` to fill, `RG` for strokes
 * @param {string} colour `#rrggbb`
 */
function colourOf(name, colour) {
  return operation(name, ...[1, 3, 5].map((at) => parseInt(colour.slice(at, at + 2), 16) / 255));
}

/**
 * @param {Sheet} sheet
 * @param {Item} item
 */
async function putItem(sheet, item) {
  const { out } = sheet;
  const { kind, box, fill, width, ends } = item;
  const opacity = item.looks?.opacity ?? 100;
  if (opacity < 100) {
    sheet.opacities.add(opacity);
    out.push(`q /O${opacity} gs`);
  }
  const dashes = dashesOf(item);
  if (dashes) out.push(`[${dashes.map(numberText).join(" ")}] 0 d`);
  out.push(colourOf("RG", shownColour(item.stroke, false)), operation("w", width));
  if (fill) out.push(colourOf("rg", shownColour(fill, false)));
  if (kind === "rect") out.push(...roundedRect(box, roundOf(item)), fill ? "B" : "S");
  else if (kind === "ellipse") out.push(...ellipse(box), fill ? "B" : "S");
  else if (ends) out.push(...roundLine(ends));
  else if (fill) out.push(operation("re", box.x0, box.y0, box.x1 - box.x0, box.y1 - box.y0), "f");
  if (dashes) out.push("[] 0 d");
  for (const head of headsOf(item)) out.push(...headLine(head));
  if (item.label) await putText(sheet, item);
  if (opacity < 100) out.push("Q");
}

/** @param {[number, number][]} head */
const headLine = ([first, tip, second]) => ["1 J", operation("m", ...first), operation("l", ...tip), operation("l", ...second), "S 0 J"];

/** @param {import("../core/types.js").Ends} ends */
const roundLine = (ends) => ["1 J", operation("m", ends[0], ends[1]), operation("l", ends[2], ends[3]), "S 0 J"];

/**
 * @param {Box} box
 * @param {number} radius
 */
function roundedRect({ x0, y0, x1, y1 }, radius) {
  const near = radius * (1 - ROUND);
  return [
    operation("m", x0 + radius, y0), operation("l", x1 - radius, y0),
    operation("c", x1 - near, y0, x1, y0 + near, x1, y0 + radius),
    operation("l", x1, y1 - radius), operation("c", x1, y1 - near, x1 - near, y1, x1 - radius, y1),
    operation("l", x0 + radius, y1), operation("c", x0 + near, y1, x0, y1 - near, x0, y1 - radius),
    operation("l", x0, y0 + radius), operation("c", x0, y0 + near, x0 + near, y0, x0 + radius, y0), "h",
  ];
}

/** @param {Box} box */
function ellipse({ x0, y0, x1, y1 }) {
  const [x, y, rx, ry] = [(x0 + x1) / 2, (y0 + y1) / 2, (x1 - x0) / 2, (y1 - y0) / 2];
  const [kx, ky] = [rx * ROUND, ry * ROUND];
  return [
    operation("m", x1, y), operation("c", x1, y + ky, x + kx, y1, x, y1), operation("c", x - kx, y1, x0, y + ky, x0, y),
    operation("c", x0, y - ky, x - kx, y0, x, y0), operation("c", x + kx, y0, x1, y - ky, x1, y), "h",
  ];
}

/**
 * @param {Sheet} sheet
 * @param {Item} item
 */
async function putText(sheet, item) {
  const text = textBox(item);
  const ink = inkOn(item, false);
  const { font, align } = item;
  if (item.ends) {
    sheet.out.push("1 1 1 rg", operation("re", text.x0 - 5, text.y - 1, text.x1 - text.x0 + 10, text.h + 2), "f");
  }
  sheet.out.push(colourOf("rg", ink));
  for (const [at, line] of text.lines.entries()) {
    const wide = widthOf(line, font);
    const isRight = align === "left" && text.dir === "rtl";
    const x = align === "center" ? (text.x0 + text.x1 - wide) / 2 : isRight ? text.x1 - wide : text.x0;
    const y = text.y + (at + 0.5) * font * LEADING;
    const known = encoded(line);
    if (known) sheet.out.push(...lineOf(known, font, wide, x, y + font * BASELINE));
    else sheet.out.push(await pictureOf(sheet, { line, font, wide, ink, isRtl: text.dir === "rtl" }, x, y));
  }
}

/**
 * @param {{hex: string, width: number}} known
 * @param {number} font
 * @param {number} wide
 * @param {number} x
 * @param {number} y
 */
function lineOf(known, font, wide, x, y) {
  const stretch = Math.max(STRETCH.least, Math.min(STRETCH.most, (100 * wide) / Math.max(1, known.width * font)));
  const place = operation("Tm", 1, 0, 0, -1, x, y);
  return ["BT", operation("Tz", stretch), `/F1 ${operation("Tf", font)}`, place, `<${known.hex}> Tj`, "ET"];
}

const pen = /** @type {CanvasRenderingContext2D} */ (document.createElement("canvas").getContext("2d"));

/**
 * @param {string} line
 * @param {number} font
 */
function widthOf(line, font) {
  pen.font = fontOf(font);
  return pen.measureText(line).width;
}

/**
 * A line of text as a picture.
 * @param {Sheet} sheet
 * @param {{line: string, font: number, wide: number, ink: string, isRtl: boolean}} text
 * @param {number} x
 * @param {number} y its middle
 * @returns {Promise<string>}
 */
async function pictureOf({ file, pictures }, { line, font, wide, ink, isRtl }, x, y) {
  const [w, h] = [Math.ceil(wide) + 2, Math.ceil(font * LEADING)];
  const canvas = document.createElement("canvas");
  Object.assign(canvas, { width: w * PICTURE_SCALE, height: h * PICTURE_SCALE });
  const c = /** @type {CanvasRenderingContext2D} */ (canvas.getContext("2d"));
  c.scale(PICTURE_SCALE, PICTURE_SCALE);
  const direction = isRtl ? "rtl" : "ltr";
  Object.assign(c, { font: fontOf(font), fillStyle: ink, textBaseline: "middle", direction, textAlign: "left" });
  c.fillText(line, 1, h / 2);
  const { data } = c.getImageData(0, 0, canvas.width, canvas.height);
  const size = `/Type /XObject /Subtype /Image /Width ${canvas.width} /Height ${canvas.height} /BitsPerComponent 8`;
  // Of four bytes three are the colour, and the fourth how much of it is there.
  const shares = Uint8Array.from(data.filter((_, at) => at % 4 === 3));
  const mask = await file.stream(`${size} /ColorSpace /DeviceGray`, shares);
  const inks = Uint8Array.from(data.filter((_, at) => at % 4 !== 3));
  const colours = await file.stream(`${size} /ColorSpace /DeviceRGB /SMask ${mask} 0 R`, inks);
  pictures.push(`/I${colours} ${colours} 0 R`);
  return `q ${operation("cm", w, 0, 0, -h, x - 1, y + h / 2)} /I${colours} Do Q`;
}
